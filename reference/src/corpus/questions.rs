//! The room and the link that are asked for with a book.

use super::meshes::{plain, random_mesh};
use super::shapes::ring;
use crate::book::bytes_of;
use crate::case::{Case, MOST_BYTES};
use crate::random::Random;

/// The book with a random room and link.
pub fn ask(book: Vec<u8>, random: &mut Random) -> Case {
    let room = room(book.len(), random);
    let link = link(count_in(&book), random);
    Case::Book { room, link, book }
}

/// A room for a book of this length, mostly long enough.
pub fn room(length: usize, random: &mut Random) -> u16 {
    let room = match random.below(14) {
        0 => 0,
        1 => 3,
        2 => 4,
        3 => length.saturating_sub(1),
        4 => random.below(length.max(1)),
        _ => length + random.below(6),
    };
    room.min(MOST_BYTES) as u16
}

/// A link number, mostly below the count.
fn link(count: u16, random: &mut Random) -> u16 {
    match random.below(12) {
        0 | 1 => 0,
        2 | 3 => count / 2,
        4 | 5 => count.saturating_sub(1),
        6 => count,
        7 => count.saturating_add(1),
        8 => 256,
        9 => 65_535,
        10 => random.number() as u16,
        _ => random.below(usize::from(count) + 1) as u16,
    }
}

/// L as the header states it, 0 without a whole header.
fn count_in(book: &[u8]) -> u16 {
    match book {
        [_, _, low, high, ..] => u16::from_le_bytes([*low, *high]),
        _ => 0,
    }
}

/// Some books with every room and every link near their limits.
pub fn every_question(random: &mut Random) -> Vec<Case> {
    let bases = [
        plain(2, &[]),
        plain(3, &[(0, 1), (0, 2), (1, 2)]),
        plain(9, &ring(9)),
        random_mesh(12, 5, random),
    ];
    let mut cases = Vec::new();
    for mesh in &bases {
        let book = bytes_of(mesh);
        for room in 0..book.len() + 3 {
            let link = room as u16 % (mesh.count + 1);
            cases.push(case(room, link, &book));
        }
        for link in (0..mesh.count + 2).chain([255, 256, 257, 65_535]) {
            cases.push(case(book.len(), link, &book));
        }
        // Showing a record refuses as reading does before it tests the link.
        for link in [0, mesh.count, 65_535] {
            cases.push(case(book.len(), link, &book[1..]));
            cases.push(case(book.len(), link, &[&book[..], &[0]].concat()));
        }
    }
    cases
}

fn case(room: usize, link: u16, book: &[u8]) -> Case {
    Case::Book {
        room: room as u16,
        link,
        book: book.to_vec(),
    }
}
