//! What the program `survey` prints.

use crate::book::decode;
use crate::listing::Lines;
use crate::mesh::Mesh;
use crate::survey::survey;

/// What `survey` prints for a book. A refusal of reading is the only line.
pub fn answer(book: &[u8]) -> String {
    let mut lines = Lines::default();
    match decode(book) {
        (mesh, Ok(())) => add_survey(&mesh, &mut lines),
        (_, refused) => lines.answer("read", refused),
    }
    lines.text
}

/// The number of parts and of bridging links, then a line for each part and for
/// each bridging link. The mesh of a book passes the mesh checks.
fn add_survey(mesh: &Mesh, lines: &mut Lines) {
    let (survey, _) = survey(mesh);
    let parts = survey.nodes_of_parts(mesh.nodes);
    let bridges = survey.bridges().count();
    lines.line(&format!("survey {} {bridges}", parts.len()));
    for nodes in parts {
        lines.nodes("part", &nodes);
    }
    for link in survey.bridges() {
        let (low, high) = mesh.links[usize::from(link)].ends();
        lines.line(&format!("bridge {link} {low} {high}"));
    }
}

#[cfg(test)]
mod tests {
    use super::*;
    use crate::book::bytes_of;
    use crate::corpus::meshes::plain;
    use crate::corpus::shapes;

    fn printed(nodes: u8, ends: &[(u8, u8)]) -> String {
        answer(&bytes_of(&plain(nodes, ends)))
    }

    #[test]
    fn a_mesh_without_faults() {
        assert_eq!(printed(3, &shapes::complete(3)), "survey 1 0\npart 0 1 2\n");
        assert_eq!(printed(2, &[(0, 1); 2]), "survey 1 0\npart 0 1\n");
    }

    #[test]
    fn every_part_and_every_bridging_link() {
        let ends = [(0, 5), (1, 2), (1, 4), (2, 4), (2, 6)];
        let expected = "survey 3 2\npart 0 5\npart 1 2 4 6\npart 3\n\
            bridge 0 0 5\nbridge 4 2 6\n";
        assert_eq!(printed(7, &ends), expected);
        let expected = "survey 2 0\npart 0\npart 1\n";
        assert_eq!(printed(2, &[]), expected);
    }

    #[test]
    fn the_largest() {
        let path = printed(64, &shapes::path(64));
        assert!(path.starts_with("survey 1 63\npart 0 1 2 "));
        assert!(path.ends_with("bridge 62 62 63\n"));
        assert_eq!(path.lines().count(), 2 + 63);
        let alone = printed(64, &[]);
        assert!(alone.starts_with("survey 64 0\npart 0\npart 1\n"));
        assert!(alone.ends_with("part 62\npart 63\n"));
        assert_eq!(alone.lines().count(), 1 + 64);
    }

    #[test]
    fn a_refusal_is_the_only_line() {
        assert_eq!(answer(&[]), "read refused 1 0\n");
        assert_eq!(answer(&[1, 2, 1, 0, 2, 1]), "read refused 9 4\n");
        let long = [&[1, 2, 1, 0, 0][..], &[0; 70_000]].concat();
        assert_eq!(answer(&long), "read refused 10 5\n");
    }
}
