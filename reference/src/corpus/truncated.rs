//! Books without their last bytes.

use super::meshes::{longest, random_mesh, with_ducts};
use crate::book::bytes_of;
use crate::random::Random;

const SMALL_BOOKS: usize = 24;

pub fn books(random: &mut Random) -> Vec<Vec<u8>> {
    let mut books = Vec::new();
    for turn in 0..SMALL_BOOKS {
        let book = small_book(2 + turn / 2, random);
        books.extend((0..book.len()).map(|end| book[..end].to_vec()));
    }
    books.extend(longest_truncated(random));
    books
}

/// A book of at most 120 bytes, without ducts.
fn small_book(count: usize, random: &mut Random) -> Vec<u8> {
    loop {
        let nodes = random.between(6, 64) as u8;
        let mesh = random_mesh(nodes, count, random);
        let book = bytes_of(&with_ducts(&mesh, |_| 0));
        if book.len() <= 120 {
            return book;
        }
    }
}

fn longest_truncated(random: &mut Random) -> Vec<Vec<u8>> {
    let book = bytes_of(&longest(random));
    let mut ends = vec![0, 3, 4, 5, 12, 13, 14];
    ends.extend((1..=10).map(|cut| book.len() - cut));
    ends.extend((0..6).map(|_| random.below(book.len())));
    ends.into_iter().map(|end| book[..end].to_vec()).collect()
}
