//! Small graphs with a name, from every root, and outputs of every size.

use super::super::graphs::{joined, Graph};
use super::super::meshes::plain;
use super::super::shapes;
use super::{case, needed};
use crate::case::{Case, MOST_ENTRIES};
use crate::mesh::Mesh;
use crate::random::Random;

pub fn cases(random: &mut Random) -> Vec<Case> {
    let mut cases = Vec::new();
    for (turn, (nodes, shape)) in graphs(random).into_iter().enumerate() {
        let mesh = plain(nodes, &shape);
        cases.extend(from_every_root(&mesh));
        cases.extend(with_other_rooms(&mesh, turn));
    }
    cases
}

/// The example of document 000, whose vertices 1 to 6 are nodes 0 to 5.
pub fn document_000() -> Graph {
    let links = [(0, 1), (0, 3), (0, 5), (1, 2), (1, 4), (2, 3), (4, 5)];
    (6, links.into())
}

fn graphs(random: &mut Random) -> Vec<Graph> {
    let triangle = (3, shapes::complete(3));
    vec![
        document_000(),
        (5, shapes::path(5)),
        (5, shapes::ring(5)),
        (6, shapes::star(6, 0)),
        (6, shapes::star(6, 2)),
        (6, shapes::star(6, 5)),
        (5, shapes::complete(5)),
        (9, shapes::grid(3, 3)),
        (6, shapes::wheel(6)),
        (5, shapes::bipartite(2, 3)),
        (7, shapes::tree(7, random)),
        (7, shapes::ears(7, random)),
        joined(&triangle, &triangle, &[(1, 2)]),
    ]
}

/// With one entry too few, as many as needed, and one more.
fn from_every_root(mesh: &Mesh) -> Vec<Case> {
    let needed = needed(mesh);
    let rooms = [needed - 1, needed, needed + 1];
    let from = |root| rooms.map(|room| case(room, root, mesh));
    (0..mesh.nodes).flat_map(from).collect()
}

/// With no entry and one, and by turns with many more than needed or the most.
fn with_other_rooms(mesh: &Mesh, turn: usize) -> [Case; 3] {
    let root = (turn % usize::from(mesh.nodes)) as u8;
    let more = [MOST_ENTRIES, needed(mesh) + 30, needed(mesh) + 9][turn % 3];
    [0, 1, more].map(|room| case(room, root, mesh))
}

#[cfg(test)]
mod tests {
    use super::super::met::numbers;
    use super::*;
    use crate::collection::collect;

    #[test]
    fn all_are_connected() {
        assert_eq!(numbers(&cases(&mut Random::new(0))), [0, 11]);
    }

    #[test]
    fn the_example_has_the_route_of_document_000() {
        let (nodes, shape) = document_000();
        let mut output = [0; 11];
        let (_, answer) = collect(&plain(nodes, &shape), 0, &mut output);
        assert_eq!(answer, Ok(11));
        assert_eq!(output, [0, 1, 2, 3, 2, 1, 4, 5, 4, 1, 0]);
    }
}
