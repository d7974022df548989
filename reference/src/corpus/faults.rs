//! Books with a fault in one record or more.

use super::draft::Draft;
use super::meshes::{filled, longest, plain, Fill};
use super::shapes;
use super::wrong_records::{faults, Fault, Spot};
use crate::mesh::Mesh;
use crate::random::Random;

pub fn books(random: &mut Random) -> Vec<Vec<u8>> {
    let bases = bases(random);
    let mut books = Vec::new();
    for mesh in &bases {
        books.extend(faults_in_each_place(mesh));
        books.extend(faults_and_more(mesh));
    }
    books.extend(cut_short(&bases[1]));
    books.extend(faults_in_large(random));
    books.push(all_fields_in_all_records(random));
    books
}

/// Each fault in the first, a middle and the last record.
pub fn faults_in_each_place(mesh: &Mesh) -> Vec<Vec<u8>> {
    let last = mesh.counted().len() - 1;
    let mut books = Vec::new();
    for at in [0, last / 2, last] {
        let faults = faults(&Spot::of(mesh, at));
        books.extend(faults.iter().map(|fault| book_with(mesh, at, fault)));
    }
    books
}

/// Meshes with at least three links.
fn bases(random: &mut Random) -> Vec<Mesh> {
    let scattered = shapes::scattered(30, 8, random);
    vec![
        plain(4, &[(0, 1), (0, 2), (0, 3), (1, 2), (2, 3)]),
        filled(30, &scattered, Fill::All, random),
        filled(7, &shapes::ring(7), Fill::Some, random),
        filled(
            64,
            &[(2, 5), (2, 9), (40, 63), (61, 62)],
            Fill::Some,
            random,
        ),
    ]
}

fn book_with(mesh: &Mesh, at: usize, fault: &Fault) -> Vec<u8> {
    let mut draft = Draft::of(mesh);
    draft.records[at] = fault.1;
    draft.bytes()
}

/// A fault with extra bytes after the book, and faults in two records.
fn faults_and_more(mesh: &Mesh) -> Vec<Vec<u8>> {
    let last = mesh.counted().len() - 1;
    let last_faults = faults(&Spot::of(mesh, last));
    let mut books = Vec::new();
    for (turn, earlier) in faults(&Spot::of(mesh, 1)).iter().step_by(4).enumerate() {
        let later = last_faults[(turn * 7) % last_faults.len()];
        let mut draft = Draft::of(mesh);
        draft.records[last] = later.1;
        draft.extra = vec![0];
        books.push(draft.bytes());
        draft.records[1] = earlier.1;
        books.push(draft.bytes());
    }
    books
}

/// Books that end within a wrong record, after its bit map: 5 where a reserved
/// bit stands, else 1.
fn cut_short(mesh: &Mesh) -> Vec<Vec<u8>> {
    let last = mesh.counted().len() - 1;
    let mut books = Vec::new();
    for at in [0, last / 2, last] {
        for fault in faults(&Spot::of(mesh, at)).iter().step_by(2) {
            let mut draft = Draft::of(mesh);
            draft.records[at] = fault.1;
            let book = draft.bytes();
            let (start, end) = (draft.place_of(at), draft.place_of(at + 1));
            if end - start > 1 {
                books.push(book[..start + 1].to_vec());
                books.push(book[..end - 1].to_vec());
            }
        }
    }
    books
}

/// Faults in the last of 256 records.
fn faults_in_large(random: &mut Random) -> Vec<Vec<u8>> {
    let mesh = filled(64, &shapes::scattered(64, 256, random), Fill::None, random);
    let faults = faults(&Spot::of(&mesh, 255));
    let chosen = faults.iter().step_by(faults.len() / 6);
    chosen.map(|fault| book_with(&mesh, 255, fault)).collect()
}

/// 2,820 bytes: 256 records with all five fields. No mesh has such a book,
/// because the low end would have to rise in each record; here it falls after
/// 61 of them.
fn all_fields_in_all_records(random: &mut Random) -> Vec<u8> {
    let mut draft = Draft::of(&longest(random));
    for (record, low) in draft.records.iter_mut().zip((1..=61).cycle()) {
        record.low = Some(low);
        record.high = Some(low + 2);
    }
    draft.bytes()
}

#[cfg(test)]
mod tests {
    use super::super::wrong_records::is_met;
    use super::*;
    use crate::book::decode;
    use crate::refusal::{Reason, Refusal};

    fn bases_from_many_seeds() -> Vec<Mesh> {
        let seeds = 0..20;
        seeds
            .flat_map(|seed| bases(&mut Random::new(seed)))
            .collect()
    }

    #[test]
    fn each_fault_meets_its_refusal_at_its_record() {
        for mesh in &bases_from_many_seeds() {
            for at in 0..mesh.counted().len() {
                let place = Draft::of(mesh).place_of(at);
                for fault in faults(&Spot::of(mesh, at)) {
                    let (read, answer) = decode(&book_with(mesh, at, &fault));
                    assert!(is_met(&fault, place, answer), "{fault:?}");
                    assert_eq!(read == Mesh::ZERO, answer.is_err());
                }
            }
        }
    }

    #[test]
    fn a_book_that_ends_within_a_wrong_record_meets_5_or_1() {
        for mesh in &bases_from_many_seeds() {
            for book in cut_short(mesh) {
                let refusal = decode(&book).1.unwrap_err();
                let short = Refusal::new(Reason::BookShort, book.len());
                assert!(refusal.reason == Reason::ReservedBit || refusal == short);
            }
        }
    }

    #[test]
    fn all_fields_in_all_records_take_the_greatest_length() {
        let book = all_fields_in_all_records(&mut Random::new(1));
        assert_eq!(book.len(), 2_820);
        let place = 4 + 61 * 11;
        let expected = Refusal::new(Reason::BelowPrevious, place);
        assert_eq!(decode(&book).1, Err(expected));
    }
}
