//! Meshes with ducts shared in different ways.

use super::super::meshes::{with_ducts, DUCTS};
use crate::mesh::Mesh;

/// The mesh without a duct, with all links in one, with a duct for each link,
/// with two ducts by turns, with two and none by turns, with a duct for each
/// half, and with one duct on the first and the last link.
pub fn ways(mesh: &Mesh) -> Vec<Mesh> {
    let count = mesh.counted().len();
    let last = count.saturating_sub(1);
    vec![
        with_ducts(mesh, |_| 0),
        with_ducts(mesh, |_| 65_535),
        with_ducts(mesh, |link| link as u16 + 1),
        with_ducts(mesh, |link| [1, 256][link % 2]),
        with_ducts(mesh, |link| [257, 0, 1][link % 3]),
        with_ducts(mesh, |link| if link < count / 2 { 7 } else { 9 }),
        with_ducts(mesh, |link| if link % last.max(1) == 0 { 255 } else { 0 }),
    ]
}

/// The mesh with each duct of a few on one link of it, and none on the others.
pub fn single(mesh: &Mesh) -> Vec<Mesh> {
    let count = mesh.counted().len();
    let numbered = DUCTS.into_iter().enumerate();
    let with = |(turn, duct)| with_ducts(mesh, |link| if link == turn % count { duct } else { 0 });
    numbered.map(with).collect()
}

#[cfg(test)]
mod tests {
    use super::super::super::scripts::grounds::{dense, p5};
    use super::*;
    use crate::ducts::groups;

    #[test]
    fn ducts_are_shared_in_each_way() {
        let sizes = |mesh: &Mesh| {
            let mut sizes: Vec<usize> = groups(mesh).iter().map(Vec::len).collect();
            sizes.sort_unstable();
            sizes
        };
        let expected: [&[usize]; 7] = [
            &[1; 5],
            &[5],
            &[1; 5],
            &[2, 3],
            &[1, 1, 1, 2],
            &[2, 3],
            &[1, 1, 1, 2],
        ];
        let ways_of_p5: Vec<Vec<usize>> = ways(&p5()).iter().map(sizes).collect();
        assert_eq!(ways_of_p5, expected);
        for mesh in ways(&dense()) {
            assert_eq!(mesh.check(), Ok(()));
        }
    }
}
