//! Accepted books with one byte changed, and random bytes.

use super::meshes::plain;
use super::shapes::complete;
use crate::book::bytes_of;
use crate::random::Random;

pub fn books(accepted: &[Vec<u8>], random: &mut Random) -> Vec<Vec<u8>> {
    let mut books = every_value_of_every_byte(&bytes_of(&plain(3, &complete(3))));
    let is_small = |book: &&Vec<u8>| book.len() <= 160;
    let (small, other): (Vec<_>, Vec<_>) = accepted.iter().partition(is_small);
    books.extend((0..700).map(|_| one_byte_changed(&small, random)));
    books.extend((0..20).map(|_| one_byte_changed(&other, random)));
    books.extend((0..80).map(|_| random_bytes(random)));
    books.extend((0..40).map(|_| plausible_header(random)));
    books.extend((0..40).map(|_| plausible_records(random)));
    books
}

fn every_value_of_every_byte(book: &[u8]) -> Vec<Vec<u8>> {
    let mut books = Vec::new();
    for at in 0..book.len() {
        for value in (0..=255).filter(|value| *value != book[at]) {
            let mut changed = book.to_vec();
            changed[at] = value;
            books.push(changed);
        }
    }
    books
}

/// One of the books with a random byte changed.
pub fn one_byte_changed(books: &[&Vec<u8>], random: &mut Random) -> Vec<u8> {
    let mut changed = random.pick(books).clone();
    let at = random.below(changed.len());
    changed[at] = match random.below(4) {
        0 => changed[at].wrapping_add(1),
        1 => changed[at].wrapping_sub(1),
        2 => changed[at] ^ 1 << random.below(8),
        _ => changed[at] ^ random.between(1, 255) as u8,
    };
    changed
}

fn random_bytes(random: &mut Random) -> Vec<u8> {
    let count = random.below(60);
    random.bytes(count)
}

fn plausible_header(random: &mut Random) -> Vec<u8> {
    let nodes = random.between(2, 64) as u8;
    let count = random.below(12) as u8;
    let mut book = vec![1, nodes, count, 0];
    book.extend(random_bytes(random));
    book
}

/// Records with random bit maps below 32 and mostly small ends. The ducts are
/// drawn aside.
fn plausible_records(random: &mut Random) -> Vec<u8> {
    let mut aside = random.aside();
    let count = random.between(1, 6) as u8;
    let mut book = vec![1, 64, count, 0];
    for number in 0..count {
        let bit_map = random.below(16) as u8;
        let duct = aside.below(2) as u8;
        book.push(bit_map | duct << 4);
        if bit_map & 1 != 0 {
            book.push(number * 8 + random.below(9) as u8);
        }
        if bit_map & 2 != 0 {
            book.push(number * 8 + random.below(24) as u8);
        }
        let others = usize::from(bit_map >> 2 & 1) * 2 + usize::from(bit_map >> 3) * 4;
        book.extend((0..others).map(|_| random.below(2) as u8));
        book.extend((0..2 * duct).map(|_| aside.below(2) as u8));
    }
    book
}
