//! Books with ducts, accepted and refused.

use super::super::accepted::every_bit_map_with_a_duct;
use super::super::draft::Draft;
use super::super::headers::with_extra;
use super::super::meshes::{filled, longest, plain, random_mesh, with_ducts, Fill, LONGEST_BOOK};
use super::super::meshes::{DUCTS, LENGTHS, PAIRS};
use super::super::scripts::grounds::{p5, triangle};
use super::super::shapes;
use super::super::wrong_records::Spot;
use super::faults::duct_faults;
use super::grounds::{single, ways};
use crate::book::bytes_of;
use crate::case::MOST_BYTES;
use crate::mesh::{Mesh, MOST_LINKS};
use crate::random::Random;
use crate::record::Record;

/// How many small books are cut off at every length.
const CUT_OFF: usize = 5;

pub fn books(random: &mut Random) -> Vec<Vec<u8>> {
    let mut books: Vec<Vec<u8>> = accepted(random).iter().map(bytes_of).collect();
    for base in &bases(random) {
        books.extend(faults_in_each_place(base));
        books.extend(cut_off_in_the_duct(base));
    }
    books.extend(cut_off_everywhere(random));
    books.extend(every_byte_as_a_bit_map());
    books.extend(every_low_byte());
    books.push(longest_with_extra(random));
    books
}

fn accepted(random: &mut Random) -> Vec<Mesh> {
    let mut meshes = every_bit_map_with_a_duct();
    meshes.extend(beside_each_field());
    for mesh in [triangle(), p5(), plain(9, &shapes::ring(9))] {
        meshes.extend(ways(&mesh));
        meshes.extend(single(&mesh));
    }
    let full = filled(64, &shapes::scattered(64, 256, random), Fill::None, random);
    meshes.extend(ways(&full).into_iter().skip(1).step_by(2));
    meshes
}

/// Each duct on one link of three, with and without a length and a pair.
fn beside_each_field() -> Vec<Mesh> {
    let mut meshes = Vec::new();
    for duct in DUCTS {
        for length in [0, LENGTHS[3]] {
            for pair in [0, PAIRS[5]] {
                let mut mesh = triangle();
                let changed = &mut mesh.links[meshes.len() % 3];
                changed.length = length;
                changed.pair = pair;
                changed.duct = duct;
                meshes.push(mesh);
            }
        }
    }
    meshes
}

/// Meshes with at least three links: without ducts, with all and with some.
fn bases(random: &mut Random) -> [Mesh; 3] {
    let scattered = shapes::scattered(30, 6, random);
    [
        p5(),
        filled(30, &scattered, Fill::All, random),
        filled(7, &shapes::ring(7), Fill::Some, random),
    ]
}

/// Each fault in the first, a middle and the last record.
fn faults_in_each_place(mesh: &Mesh) -> Vec<Vec<u8>> {
    let mut books = Vec::new();
    for at in places(mesh) {
        for (_, record) in duct_faults(&Spot::of(mesh, at)) {
            books.push(with_record(mesh, at, record).bytes());
        }
    }
    books
}

fn places(mesh: &Mesh) -> [usize; 3] {
    let last = mesh.counted().len() - 1;
    [0, last / 2, last]
}

fn with_record(mesh: &Mesh, at: usize, record: Record) -> Draft {
    let mut draft = Draft::of(mesh);
    draft.records[at] = record;
    draft
}

/// Before the duct's first and before its second byte: 1, with a duct, with one
/// of 0, or of a record without ends; 5 with a reserved bit.
fn cut_off_in_the_duct(mesh: &Mesh) -> Vec<Vec<u8>> {
    let mut books = Vec::new();
    for at in places(mesh) {
        let duct = Some(0x0102);
        let good = Record {
            duct,
            ..Spot::of(mesh, at).record()
        };
        let records = [
            good,
            Record {
                duct: Some(0),
                ..good
            },
            Record {
                low: None,
                high: None,
                ..good
            },
            Record {
                reserved: 0x20,
                ..good
            },
        ];
        for record in records {
            let draft = with_record(mesh, at, record);
            let (book, end) = (draft.bytes(), draft.place_of(at + 1));
            books.extend([2, 1].map(|missing| book[..end - missing].to_vec()));
        }
    }
    books
}

/// Small books with ducts, cut off at every length.
fn cut_off_everywhere(random: &mut Random) -> Vec<Vec<u8>> {
    let mut books = Vec::new();
    for turn in 0..CUT_OFF {
        let mesh = random_mesh(40, 2 + turn, random);
        let mesh = with_ducts(&mesh, |link| DUCTS[(turn + link) % DUCTS.len()]);
        let book = bytes_of(&mesh);
        books.extend((0..book.len()).map(|end| book[..end].to_vec()));
    }
    books
}

/// Every byte as the bit map of the only record, with the fields it names: 5
/// with a reserved bit. Those without one also with one byte less, which is 1,
/// and with one more, which is 10.
fn every_byte_as_a_bit_map() -> Vec<Vec<u8>> {
    let mut books = Vec::new();
    for bit_map in 0..=255 {
        let book = only_record(bit_map);
        if bit_map < 32 {
            books.push(book[..book.len() - 1].to_vec());
            books.push([&book[..], &[0]].concat());
        }
        books.push(book);
    }
    books
}

fn only_record(bit_map: u8) -> Vec<u8> {
    let present = |bit: u8| bit_map >> bit & 1 == 1;
    let record = Record {
        reserved: bit_map & 0xe0,
        low: present(0).then_some(3),
        high: present(1).then_some(9),
        length: present(2).then_some(0x0102),
        pair: present(3).then_some(0x0304_0506),
        duct: present(4).then_some(0x0708),
    };
    let mut draft = Draft::of(&plain(64, &[(0, 1)]));
    draft.records = vec![record];
    draft.bytes()
}

/// A link with each of the ducts 0 to 255, where 0 is 9, and with some above.
fn every_low_byte() -> Vec<Vec<u8>> {
    let above = (0..=255).step_by(15).map(|high: u16| high << 8 | 0x80);
    let ducts = (0..256).chain((0..16).map(|bit| 1 << bit)).chain(above);
    let book = |duct: u16| {
        let [low, high] = duct.to_le_bytes();
        vec![1, 2, 1, 0, 0x10, low, high]
    };
    ducts.map(book).collect()
}

/// 10: the longest book there is, and as many bytes as a case can hold.
fn longest_with_extra(random: &mut Random) -> Vec<u8> {
    let mesh = longest(random);
    assert_eq!(mesh.counted().len(), MOST_LINKS);
    with_extra(&mesh, MOST_BYTES - LONGEST_BOOK, random).bytes()
}

#[cfg(test)]
mod tests {
    use super::super::super::wrong_records::is_met;
    use super::*;
    use crate::book::decode;
    use crate::refusal::{Reason, Refusal};

    fn refusal(book: &[u8]) -> Option<Refusal> {
        decode(book).1.err()
    }

    #[test]
    fn each_fault_meets_its_refusal_at_its_record() {
        for seed in 0..10 {
            for mesh in bases(&mut Random::new(seed)) {
                for at in 0..mesh.counted().len() {
                    let place = Draft::of(&mesh).place_of(at);
                    for fault in duct_faults(&Spot::of(&mesh, at)) {
                        let book = with_record(&mesh, at, fault.1).bytes();
                        assert!(is_met(&fault, place, decode(&book).1), "{fault:?}");
                    }
                }
            }
        }
    }

    #[test]
    fn a_book_cut_off_in_a_duct_meets_1_or_5() {
        for mesh in bases(&mut Random::new(0)) {
            let books = cut_off_in_the_duct(&mesh);
            assert_eq!(books.len(), 3 * 8);
            for (turn, book) in books.iter().enumerate() {
                let refusal = refusal(book).unwrap();
                if turn % 8 < 6 {
                    assert_eq!(refusal, Refusal::new(Reason::BookShort, book.len()));
                } else {
                    assert_eq!(refusal.reason, Reason::ReservedBit);
                }
            }
        }
    }

    #[test]
    fn a_bit_map_above_31_meets_5() {
        for bit_map in 0..=255 {
            let expected = (bit_map > 31).then_some(Refusal::new(Reason::ReservedBit, 4));
            assert_eq!(refusal(&only_record(bit_map)), expected);
        }
        // 1 + 1 + 1 + 2 + 4 + 2 bytes after the header.
        assert_eq!(only_record(31).len(), 4 + 11);
        assert_eq!(only_record(16), [1, 64, 1, 0, 0x10, 0x08, 0x07]);
    }

    #[test]
    fn a_written_duct_of_0_meets_9() {
        for book in every_low_byte() {
            let (mesh, answer) = decode(&book);
            let duct = u16::from_le_bytes([book[5], book[6]]);
            let needless = (duct == 0).then_some(Refusal::new(Reason::NeedlessField, 4));
            assert_eq!(answer.err(), needless);
            assert_eq!(mesh.links[0].duct, duct);
        }
    }

    #[test]
    fn a_case_holds_the_longest_book_and_more() {
        let book = longest_with_extra(&mut Random::new(0));
        assert_eq!(book.len(), MOST_BYTES);
        let expected = Refusal::new(Reason::BytesAfterLast, LONGEST_BOOK);
        assert_eq!(refusal(&book), Some(expected));
    }
}
