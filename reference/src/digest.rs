//! The digest of a session's mesh and plan: one number that shows nearly
//! every difference between two of them.

use crate::mesh::Mesh;
use crate::plan::Plan;

/// The greatest prime number below 2 to the 32nd power.
const MODULUS: u64 = 4_294_967_291;

/// The digest of N, L, all 256 entries and all 256 directions.
pub fn digest(mesh: &Mesh, plan: &Plan) -> u64 {
    let next = |digest: u64, byte: &u8| (digest * 257 + u64::from(*byte) + 1) % MODULUS;
    bytes(mesh, plan).iter().fold(0, next)
}

/// The numbers one after the other, low byte first.
fn bytes(mesh: &Mesh, plan: &Plan) -> Vec<u8> {
    let mut bytes = vec![mesh.nodes];
    bytes.extend(mesh.count.to_le_bytes());
    for link in &mesh.links {
        bytes.extend([link.low, link.high]);
        bytes.extend(link.length.to_le_bytes());
        bytes.extend(link.pair.to_le_bytes());
        bytes.extend(link.duct.to_le_bytes());
    }
    bytes.extend(plan.directions);
    bytes
}

#[cfg(test)]
mod tests {
    use super::*;
    use std::collections::BTreeSet;

    /// The digest of so many zero bytes: each time 257 d + 1.
    fn of_zeros(count: usize) -> u64 {
        (0..count).fold(0, |digest, _| (digest * 257 + 1) % MODULUS)
    }

    #[test]
    fn takes_in_2819_bytes() {
        assert_eq!(bytes(&Mesh::ZERO, &Plan::ZERO).len(), 2_819);
        assert_eq!(digest(&Mesh::ZERO, &Plan::ZERO), of_zeros(2_819));
    }

    #[test]
    fn every_byte_counts() {
        let mut digests = BTreeSet::from([digest(&Mesh::ZERO, &Plan::ZERO)]);
        let mut meshes = Vec::new();
        for change in [
            |mesh: &mut Mesh| mesh.nodes = 1,
            |mesh: &mut Mesh| mesh.count = 1,
            |mesh: &mut Mesh| mesh.count = 256,
            |mesh: &mut Mesh| mesh.links[0].low = 1,
            |mesh: &mut Mesh| mesh.links[0].high = 1,
            |mesh: &mut Mesh| mesh.links[100].length = 1,
            |mesh: &mut Mesh| mesh.links[100].length = 256,
            |mesh: &mut Mesh| mesh.links[255].pair = 1,
            |mesh: &mut Mesh| mesh.links[255].pair = 1 << 24,
            |mesh: &mut Mesh| mesh.links[0].duct = 1,
            |mesh: &mut Mesh| mesh.links[255].duct = 1,
            |mesh: &mut Mesh| mesh.links[255].duct = 256,
        ] {
            let mut mesh = Mesh::ZERO;
            change(&mut mesh);
            meshes.push(mesh);
        }
        for mesh in &meshes {
            assert!(digests.insert(digest(mesh, &Plan::ZERO)));
        }
        for link in [0, 1, 255] {
            let mut plan = Plan::ZERO;
            plan.directions[link] = 1;
            assert!(digests.insert(digest(&Mesh::ZERO, &plan)));
        }
    }
}
