//! Books with several links between the same nodes, good and damaged.

use super::super::changed::one_byte_changed;
use super::super::draft::Draft;
use super::super::ducts::faults::duct_faults;
use super::super::faults::faults_in_each_place;
use super::super::meshes::{filled, partly_filled, plain, Fill, FILLS};
use super::super::questions::ask;
use super::super::shapes;
use super::super::wrong_records::Spot;
use super::graphs::{each, every, largest, named, random_ones, spans, two_nodes};
use super::orders;
use crate::book::bytes_of;
use crate::case::Case;
use crate::mesh::Mesh;
use crate::random::Random;
use crate::record::Record;

pub fn cases(random: &mut Random) -> Vec<Case> {
    let mut books: Vec<Vec<u8>> = accepted(random).iter().map(bytes_of).collect();
    books.extend(every_record_without_ends());
    let bases = bases(random);
    for mesh in &bases {
        books.extend(faults_in_each_place(mesh));
        books.extend(ducts_in_each_place(mesh));
    }
    books.extend(falling(random));
    for mesh in &bases[..3] {
        let book = bytes_of(mesh);
        books.extend((0..book.len()).map(|end| book[..end].to_vec()));
    }
    let small: Vec<Vec<u8>> = bases.iter().map(bytes_of).collect();
    let small: Vec<&Vec<u8>> = small.iter().collect();
    books.extend((0..120).map(|_| one_byte_changed(&small, random)));
    books.into_iter().map(|book| ask(book, random)).collect()
}

fn accepted(random: &mut Random) -> Vec<Mesh> {
    let mut meshes = orders::meshes();
    let mut graphs = every(3, 3);
    graphs.extend(named(random));
    graphs.extend(random_ones(40, 30, random));
    for (nodes, shape) in graphs {
        meshes.push(partly_filled(nodes, &shape, random));
    }
    for (turn, (nodes, shape)) in largest(random).into_iter().enumerate() {
        meshes.push(filled(nodes, &shape, FILLS[turn % 4], random));
    }
    meshes.push(filled(2, &two_nodes(256).1, Fill::All, random));
    meshes
}

/// Each bit map without ends in the second, a middle and the last record. After
/// the pair (0, 1) it repeats this; after (0, 2) it is (0, 1), which is 8.
fn every_record_without_ends() -> Vec<Vec<u8>> {
    let mut books = Vec::new();
    for high in [1, 2] {
        for at in [1, 3, 5] {
            let mut draft = Draft::of(&plain(3, &[(0, high); 6]));
            for others in 0..8 {
                draft.records[at] = without_ends(others);
                books.push(draft.bytes());
            }
        }
    }
    books
}

/// A length, a fibre pair and a duct by the bits of a number.
fn without_ends(others: u8) -> Record {
    Record {
        reserved: 0,
        low: None,
        high: None,
        length: (others & 1 != 0).then_some(515),
        pair: (others & 2 != 0).then_some(70_000),
        duct: (others & 4 != 0).then_some(772),
    }
}

/// Meshes in which a pair stands before, at and after each place of a fault.
fn bases(random: &mut Random) -> Vec<Mesh> {
    let triangle = (3, shapes::complete(3));
    let (_, low) = each(&triangle, 2);
    let far = spans(64, &[((2, 5), 2), ((40, 42), 3), ((61, 63), 2)]);
    let mixed = spans(20, &[((3, 4), 3), ((3, 9), 2), ((8, 9), 1), ((8, 19), 2)]);
    vec![
        plain(4, &low),
        filled(2, &two_nodes(5).1, Fill::Some, random),
        filled(64, &far.1, Fill::Some, random),
        filled(20, &mixed.1, Fill::All, random),
    ]
}

/// Each fault that has to do with the duct, in one of three records by turns.
fn ducts_in_each_place(mesh: &Mesh) -> Vec<Vec<u8>> {
    let last = mesh.counted().len() - 1;
    let mut books = Vec::new();
    for at in [last / 2, last] {
        for (_, record) in duct_faults(&Spot::of(mesh, at)).into_iter().step_by(3) {
            let mut draft = Draft::of(mesh);
            draft.records[at] = record;
            books.push(draft.bytes());
        }
    }
    books
}

/// 8: a pair below the previous one after equal pairs, at each place of some
/// books, by a high end that falls, by one that is absent, and by a low end.
fn falling(random: &mut Random) -> Vec<Vec<u8>> {
    let mut books = Vec::new();
    for count in [2, 3, 5, 9] {
        let (nodes, shape) = (30, vec![(12, 20); count]);
        for at in 1..count {
            for (low, high) in [(None, Some(19)), (None, None), (Some(11), Some(29))] {
                let mesh = partly_filled(nodes, &shape, random);
                let mut draft = Draft::of(&mesh);
                let record = draft.records[at];
                draft.records[at] = Record {
                    low,
                    high,
                    ..record
                };
                books.push(draft.bytes());
            }
        }
    }
    books.extend(falling_in_256());
    books
}

/// The same at the second, a middle and the last of 256 records.
fn falling_in_256() -> Vec<Vec<u8>> {
    let good = Draft::of(&plain(9, &[(3, 6); 256]));
    let with = |at: usize| {
        let mut draft = good.clone();
        draft.records[at].high = Some(5);
        draft.bytes()
    };
    [1, 128, 255].map(with).into()
}

#[cfg(test)]
mod tests {
    use super::super::super::wrong_records::{faults, is_met};
    use super::*;
    use crate::book::decode;
    use crate::refusal::Reason;

    #[test]
    fn good_ones_are_accepted() {
        for mesh in accepted(&mut Random::new(1)) {
            assert_eq!(decode(&bytes_of(&mesh)), (mesh, Ok(())));
        }
    }

    #[test]
    fn a_record_without_ends_repeats_a_pair_or_is_8() {
        let books = every_record_without_ends();
        let (repeats, falls) = books.split_at(24);
        assert!(repeats.iter().all(|book| decode(book).1 == Ok(())));
        for book in falls {
            assert_eq!(decode(book).1.unwrap_err().reason, Reason::BelowPrevious);
        }
    }

    #[test]
    fn falling_pairs_meet_8() {
        for book in falling(&mut Random::new(1)) {
            assert_eq!(decode(&book).1.unwrap_err().reason, Reason::BelowPrevious);
        }
    }

    #[test]
    fn each_fault_meets_its_refusal_at_its_record() {
        for mesh in bases(&mut Random::new(2)) {
            for at in 0..mesh.counted().len() {
                let place = Draft::of(&mesh).place_of(at);
                for fault in faults(&Spot::of(&mesh, at)) {
                    let mut draft = Draft::of(&mesh);
                    draft.records[at] = fault.1;
                    let (_, answer) = decode(&draft.bytes());
                    assert!(is_met(&fault, place, answer), "{fault:?}");
                }
            }
        }
    }
}
