//! The listing of the program meshplan: the mesh, the plan and every cut.

use std::fmt::Write;

use crate::book::decode;
use crate::mesh::Mesh;
use crate::plan::{plan, Plan};
use crate::refusal::{in_words, Answer, Refusal};
use crate::session::{start, Session, Wavelength};

/// The listing of a book; a refusal of reading or planning is the only line.
pub fn listing(book: &[u8]) -> String {
    let mut text = String::new();
    add_listing(book, &mut text);
    text
}

/// Adds the listing of a book to a text.
pub fn add_listing(book: &[u8], text: &mut String) {
    if let Err(refusal) = add_lines(book, text) {
        add(text, format_args!("{}\n", in_words(Err(refusal))));
    }
}

/// Adds no line where reading or planning refuses.
fn add_lines(book: &[u8], text: &mut String) -> Answer {
    let (mesh, answer) = decode(book);
    answer?;
    let (plan, answer) = plan(&mesh);
    answer?;
    let (fresh, answer) = start(&mesh, &plan);
    answer?;
    add_links(&mesh, &plan, text);
    (0..mesh.count).try_for_each(|link| add_cut(&fresh, link, text))
}

fn add_links(mesh: &Mesh, plan: &Plan, text: &mut String) {
    add(text, format_args!("mesh {} {}\n", mesh.nodes, mesh.count));
    let planned = mesh.counted().iter().zip(&plan.directions);
    for (number, (link, direction)) in planned.enumerate() {
        let (low, high) = link.ends();
        let line = format_args!("link {number} {low} {high} {direction}\n");
        add(text, line);
    }
}

/// Of wavelength 1 alone: the link, x, y, its own deliveries in an unhindered
/// run, the length of its route and the route's links.
fn add_cut(fresh: &Session, link: u16, text: &mut String) -> Result<(), Refusal> {
    let shown = Wavelength::One;
    let mut session = fresh.clone();
    session.cut(link)?;
    let mut made = 0;
    session.run_by_turns(u32::MAX, |_, wavelength| {
        made += u32::from(wavelength == shown);
    })?;
    let (x, y) = session.primary_arc(shown, link);
    let length = session.status(link, shown.number())?.route;
    add(text, format_args!("cut {link} {x} {y} {made} {length}"));
    for link in session.route(shown.number())? {
        add(text, format_args!(" {link}"));
    }
    text.push('\n');
    Ok(())
}

fn add(text: &mut String, part: std::fmt::Arguments) {
    text.write_fmt(part).expect("a text takes every part");
}

#[cfg(test)]
mod tests {
    use super::listing;

    #[test]
    fn lists_p1() {
        let expected = "mesh 3 3\nlink 0 0 1 0\nlink 1 0 2 1\nlink 2 1 2 0\n\
            cut 0 0 1 2 - 1 2\ncut 1 2 0 2 - 2 0\ncut 2 1 2 2 - 0 1\n";
        assert_eq!(listing(&[1, 3, 3, 0, 0, 2, 2, 1, 1]), expected);
    }

    #[test]
    fn a_link_without_a_length_counts_only_on_the_route() {
        // Links 0 and 1 have 300 and 65,535 metres, link 2 is not measured.
        let book = [1, 3, 3, 0, 4, 0x2c, 1, 6, 2, 255, 255, 1, 1];
        let expected = "mesh 3 3\nlink 0 0 1 0\nlink 1 0 2 1\nlink 2 1 2 0\n\
            cut 0 0 1 2 - 1 2\ncut 1 2 0 2 - 2 0\ncut 2 1 2 2 65835 0 1\n";
        assert_eq!(listing(&book), expected);
    }

    #[test]
    fn a_refusal_is_the_only_line() {
        assert_eq!(listing(&[]), "refused 1 0\n");
        assert_eq!(listing(&[1, 2, 1, 0, 2, 1]), "refused 9 4\n");
        assert_eq!(listing(&[1, 2, 0, 0]), "refused 20 1\n");
        assert_eq!(listing(&[1, 2, 1, 0, 0]), "refused 21 0\n");
    }
}
