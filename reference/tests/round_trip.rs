//! Writing and reading undo each other.

use reference::book::{decode, encode, record};
use reference::case::Case;
use reference::corpus;
use reference::corpus::doubled::graphs::random_ones;
use reference::corpus::meshes::{longest, partly_filled, random_mesh, LONGEST_BOOK};
use reference::mesh::Mesh;
use reference::random::Random;

/// The greatest length of a book that the document names.
const BOUND: usize = 2_820;

fn written(mesh: &Mesh) -> Vec<u8> {
    let mut output = vec![0xa5; BOUND];
    let length = encode(mesh, &mut output).expect("the mesh is well-formed");
    output.truncate(length);
    output
}

#[test]
fn reading_a_written_book_gives_the_mesh() {
    let mut random = Random::new(1);
    for turn in 0..3_000 {
        let nodes = random.between(2, 64) as u8;
        let most = if turn % 10 == 0 { 256 } else { 30 };
        let mesh = random_mesh(nodes, random.below(most + 1), &mut random);
        assert_eq!(decode(&written(&mesh)), (mesh, Ok(())));
    }
}

#[test]
fn reading_a_written_book_gives_the_mesh_where_pairs_are_repeated() {
    let random = &mut Random::new(4);
    for (nodes, shape) in random_ones(600, 64, random) {
        let mesh = partly_filled(nodes, &shape, random);
        assert_eq!(decode(&written(&mesh)), (mesh, Ok(())));
    }
}

#[test]
fn writing_a_read_book_gives_the_book() {
    let mut accepted = 0;
    for case in corpus::make(1) {
        let Case::Book { book, .. } = case else {
            continue;
        };
        if let (mesh, Ok(())) = decode(&book) {
            assert_eq!(written(&mesh), book);
            accepted += 1;
        }
    }
    assert!(accepted > 400);
}

#[test]
fn records_of_an_accepted_book_follow_each_other() {
    let mut random = Random::new(2);
    for _ in 0..200 {
        let mesh = random_mesh(20, random.below(40), &mut random);
        let book = written(&mesh);
        let mut joined = book[..4].to_vec();
        for link in 0..usize::from(mesh.count) {
            joined.extend(record(&book, link).0);
        }
        assert_eq!(joined, book);
    }
}

#[test]
fn the_longest_book() {
    let mesh = longest(&mut Random::new(1));
    assert_eq!(mesh.count, 256);
    assert_eq!(written(&mesh).len(), LONGEST_BOOK);
    assert_eq!(LONGEST_BOOK, 2_625);
}
