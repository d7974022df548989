//! The document's bench examples, as far as they concern the book and the plan.

use reference::book::{decode, encode, record};
use reference::mesh::{Link, Mesh};
use reference::plan::{plan, Plan};
use reference::refusal::{Answer, Reason, Refusal};

const P1: [u8; 9] = [1, 3, 3, 0, 0, 2, 2, 1, 1];
const P3: [u8; 5] = [1, 2, 1, 0, 0];
const P4: [u8; 4] = [1, 2, 0, 0];
const P5: [u8; 13] = [1, 4, 5, 0, 0, 2, 2, 2, 3, 1, 1, 1, 2];

fn mesh(nodes: u8, ends: &[(u8, u8)]) -> Mesh {
    let link = |&(low, high): &(u8, u8)| Link {
        low,
        high,
        ..Link::ZERO
    };
    let links: Vec<Link> = ends.iter().map(link).collect();
    Mesh::new(nodes, &links)
}

fn refused<T>(reason: Reason, place: usize) -> Result<T, Refusal> {
    Err(Refusal::new(reason, place))
}

fn assert_reads(book: &[u8], expected: &Mesh) {
    let (read, answer) = decode(book);
    assert_eq!(answer, Ok(()));
    assert_eq!(read, *expected);
    let mut output = vec![0xa5; book.len() + 3];
    assert_eq!(encode(&read, &mut output), Ok(book.len()));
    assert_eq!(output[..book.len()], *book);
    assert_eq!(output[book.len()..], [0xa5; 3]);
}

fn assert_refuses(book: &[u8], expected: Answer) {
    assert_eq!(decode(book), (Mesh::ZERO, expected));
    assert_eq!(record(book, 0), (&[][..], expected));
}

fn assert_plans(book: &[u8], directions: &[u8]) {
    let mut expected = Plan::ZERO;
    expected.directions[..directions.len()].copy_from_slice(directions);
    assert_eq!(plan(&decode(book).0), (expected, Ok(())));
}

fn assert_refuses_plan(mesh: &Mesh, expected: Answer) {
    assert_eq!(plan(mesh), (Plan::ZERO, expected));
}

#[test]
fn p1_triangle() {
    assert_reads(&P1, &mesh(3, &[(0, 1), (0, 2), (1, 2)]));
    assert_plans(&P1, &[0, 1, 0]);
}

#[test]
fn p3_one_link() {
    let one_link = mesh(2, &[(0, 1)]);
    assert_reads(&P3, &one_link);
    assert_refuses_plan(&one_link, refused(Reason::RemovalParts, 0));
}

#[test]
fn p4_no_link() {
    let no_link = mesh(2, &[]);
    assert_reads(&P4, &no_link);
    assert_refuses_plan(&no_link, refused(Reason::NoPath, 1));
}

#[test]
fn p5_four_nodes() {
    assert_reads(&P5, &mesh(4, &[(0, 1), (0, 2), (0, 3), (1, 2), (2, 3)]));
    assert_plans(&P5, &[0, 0, 1, 0, 0]);
}

#[test]
fn two_triangles_joined_by_one_link() {
    let ends = [(0, 1), (0, 2), (1, 2), (2, 3), (3, 4), (3, 5), (4, 5)];
    let joined = mesh(6, &ends);
    assert_refuses_plan(&joined, refused(Reason::RemovalParts, 3));
    let apart = mesh(6, &[&ends[..3], &ends[4..]].concat());
    assert_refuses_plan(&apart, refused(Reason::NoPath, 3));
}

#[test]
fn p8_needless_high_end() {
    assert_refuses(&[1, 2, 1, 0, 2, 1], refused(Reason::NeedlessField, 4));
}

#[test]
fn p9_extra_byte() {
    let book = [&P1[..], &[0]].concat();
    assert_refuses(&book, refused(Reason::BytesAfterLast, 9));
}

#[test]
fn p10_empty_book() {
    assert_refuses(&[], refused(Reason::BookShort, 0));
}

#[test]
fn nodes_from_2_to_64() {
    assert_refuses(&[1, 1, 0, 0], refused(Reason::Nodes, 1));
    assert_refuses(&[1, 65, 0, 0], refused(Reason::Nodes, 1));
    assert_reads(&[1, 64, 0, 0], &mesh(64, &[]));
}

#[test]
fn links_up_to_256() {
    let all: Vec<(u8, u8)> = reference::corpus::shapes::complete(64);
    let full = mesh(64, &all[..256]);
    let mut book = reference::book::bytes_of(&full);
    assert_reads(&book, &full);
    book[2..4].copy_from_slice(&257_u16.to_le_bytes());
    assert_refuses(&book, refused(Reason::Count, 2));
}

#[test]
fn absent_high_end_after_low_end_255_is_256() {
    let expected = refused(Reason::EndNotBelowNodes, 4);
    assert_refuses(&[1, 64, 1, 0, 1, 255], expected);
    let expected = refused(Reason::LowNotBelowHigh, 4);
    assert_refuses(&[1, 64, 1, 0, 3, 255, 0], expected);
}

#[test]
fn a_duct_stands_at_bit_4_in_two_bytes_after_the_fibre_pair() {
    let mut ducted = mesh(3, &[(0, 1), (0, 2), (1, 2)]);
    ducted.links[0].duct = 1;
    ducted.links[1].pair = 0x0403_0201;
    ducted.links[1].duct = 0x0605;
    ducted.links[2].duct = 65_535;
    let book = [
        1, 3, 3, 0, 0x10, 1, 0, 0x1a, 2, 1, 2, 3, 4, 5, 6, 0x11, 1, 255, 255,
    ];
    assert_reads(&book, &ducted);
    assert_eq!(record(&book, 1), (&book[7..15], Ok(())));
    // Short by a byte of the duct, and by both.
    assert_refuses(&book[..18], refused(Reason::BookShort, 18));
    assert_refuses(&book[..17], refused(Reason::BookShort, 17));
}

#[test]
fn a_duct_of_0_is_not_written() {
    let needless = refused(Reason::NeedlessField, 4);
    assert_refuses(&[1, 2, 1, 0, 0x10, 0, 0], needless);
    // 1 before 9, and 9 before 7.
    let short = refused(Reason::BookShort, 6);
    assert_refuses(&[1, 2, 1, 0, 0x10, 0], short);
    assert_refuses(&[1, 2, 1, 0, 0x12, 0, 0, 0], needless);
}

#[test]
fn bits_5_to_7_are_reserved() {
    for bit in 5..8 {
        let expected = refused(Reason::ReservedBit, 4);
        assert_refuses(&[1, 2, 1, 0, 1 << bit], expected);
        // 5 before the second 1.
        assert_refuses(&[1, 2, 1, 0, 1 << bit | 0x10, 0], expected);
    }
}

#[test]
fn records_as_they_stand_in_the_book() {
    assert_eq!(record(&P1, 0), (&P1[4..5], Ok(())));
    assert_eq!(record(&P1, 1), (&P1[5..7], Ok(())));
    assert_eq!(record(&P1, 2), (&P1[7..9], Ok(())));
    let expected = refused(Reason::NoSuchLink, 3);
    assert_eq!(record(&P1, 3), (&[][..], expected));
}

#[test]
fn short_output_is_left() {
    let (triangle, _) = decode(&P1);
    let mut output = [0xa5; 8];
    let expected = refused(Reason::OutputShort, 9);
    assert_eq!(encode(&triangle, &mut output), expected);
    assert_eq!(output, [0xa5; 8]);
}

#[test]
fn mesh_checks_in_order() {
    let good = mesh(3, &[(0, 1), (0, 2), (1, 2)]);
    let mut wrong = good.clone();
    wrong.links[255].duct = 1;
    assert_eq!(wrong.check(), refused(Reason::IllFormed, 0));
    wrong.links[255].duct = 0;
    wrong.links[255].pair = 1;
    assert_eq!(wrong.check(), refused(Reason::IllFormed, 0));
    // Equal pairs stand, so 13 is met; a pair below the previous one is 8.
    wrong.links[2] = wrong.links[1];
    assert_eq!(wrong.check(), refused(Reason::IllFormed, 0));
    wrong.links[2] = wrong.links[0];
    assert_eq!(wrong.check(), refused(Reason::BelowPrevious, 2));
    wrong.links[2].high = 3;
    assert_eq!(wrong.check(), refused(Reason::EndNotBelowNodes, 2));
    wrong.links[2].low = 3;
    assert_eq!(wrong.check(), refused(Reason::LowNotBelowHigh, 2));
    wrong.count = 257;
    assert_eq!(wrong.check(), refused(Reason::Count, 0));
    wrong.nodes = 65;
    assert_eq!(wrong.check(), refused(Reason::Nodes, 0));
    assert_refuses_plan(&wrong, refused(Reason::Nodes, 0));
    assert_eq!(good.check(), Ok(()));
}
