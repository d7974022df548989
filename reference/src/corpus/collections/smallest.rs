//! Every choice of links on 2 to 4 nodes, from every root.

use super::super::accepted::every_small_mesh;
use super::{case, needed};
use crate::case::Case;

/// With as many entries as needed.
pub fn cases() -> Vec<Case> {
    let mut cases = Vec::new();
    for mesh in every_small_mesh() {
        let room = needed(&mesh);
        cases.extend((0..mesh.nodes).map(|root| case(room, root, &mesh)));
    }
    cases
}

#[cfg(test)]
mod tests {
    use super::super::met::met;
    use super::*;
    use std::collections::BTreeMap;

    #[test]
    fn every_connected_one_is_collected_from_every_root() {
        // 1 graph of 2 on 2 nodes is connected, 4 of 8 on 3 and 38 of 64 on 4.
        let expected = BTreeMap::from([(0, 2 + 4 * 3 + 38 * 4), (20, 2 + 4 * 3 + 26 * 4)]);
        assert_eq!(met(&cases()), expected);
    }
}
