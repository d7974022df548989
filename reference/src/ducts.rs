//! Which links share a duct.

use std::collections::BTreeMap;

use crate::mesh::Mesh;
use crate::refusal::{refuse_if, Reason, Refusal};

/// Writes all links that share the duct of a link to the front of the output,
/// in rising order and the link itself among them, and gives how many there
/// are. A link without a duct gives itself only. Entries past the answer stay;
/// a refusal leaves the whole output.
pub fn sharing(mesh: &Mesh, link: u16, output: &mut [u16]) -> Result<usize, Refusal> {
    // Order: mesh, 12, 11.
    mesh.check()?;
    // 12: the place is the link named.
    refuse_if(link >= mesh.count, Reason::NoSuchLink, link.into())?;
    let sharers = with_link(&groups(mesh), link);
    let needed = sharers.len();
    // 11: the place is the number of entries needed.
    refuse_if(output.len() < needed, Reason::OutputShort, needed)?;
    output[..needed].copy_from_slice(&sharers);
    Ok(needed)
}

/// The links by ducts: for each duct those in it, rising; each link without a
/// duct is a group of its own. Every link stands in one group.
pub fn groups(mesh: &Mesh) -> Vec<Vec<u16>> {
    let mut ducts: BTreeMap<u16, Vec<u16>> = BTreeMap::new();
    let mut alone = Vec::new();
    for (number, link) in (0..).zip(mesh.counted()) {
        match link.duct {
            0 => alone.push(vec![number]),
            duct => ducts.entry(duct).or_default().push(number),
        }
    }
    ducts.into_values().chain(alone).collect()
}

/// The group that a link stands in.
fn with_link(groups: &[Vec<u16>], link: u16) -> Vec<u16> {
    let mut found = groups.iter().filter(|group| group.contains(&link));
    found.next().cloned().unwrap_or_default()
}

/// The lowest link in a duct; none where no link lies in it, as in duct 0,
/// which is none.
pub fn lowest_in(mesh: &Mesh, duct: u16) -> Option<u16> {
    let mut links = (0..).zip(mesh.counted());
    let lowest = links.find(|(_, link)| duct != 0 && link.duct == duct);
    lowest.map(|(number, _)| number)
}

#[cfg(test)]
mod tests {
    use super::*;
    use crate::corpus::meshes::{plain, random_mesh};
    use crate::corpus::shapes::complete;
    use crate::random::Random;

    /// Before the call; no link has this number.
    const FILL: u16 = 0xa5a5;

    /// A mesh with these ducts.
    fn mesh(ducts: &[u16]) -> Mesh {
        let mut mesh = plain(24, &complete(24)[..ducts.len()]);
        for (link, duct) in mesh.links.iter_mut().zip(ducts) {
            link.duct = *duct;
        }
        mesh
    }

    /// The answer, and the whole output of so many entries afterwards.
    fn asked(mesh: &Mesh, link: u16, room: usize) -> (Result<usize, Refusal>, Vec<u16>) {
        let mut output = vec![FILL; room];
        (sharing(mesh, link, &mut output), output)
    }

    /// Accepted with exactly these links.
    fn assert_gives(mesh: &Mesh, link: u16, expected: &[u16]) {
        let needed = expected.len();
        for room in [needed, needed + 1, needed + 7] {
            let (answer, output) = asked(mesh, link, room);
            assert_eq!(answer, Ok(needed));
            assert_eq!(output[..needed], *expected);
            // "Output entries past the answer stay untouched."
            assert!(output[needed..].iter().all(|entry| *entry == FILL));
        }
    }

    /// Refused with nothing written.
    fn assert_refuses(mesh: &Mesh, link: u16, room: usize, reason: Reason, place: usize) {
        let (answer, output) = asked(mesh, link, room);
        assert_eq!(answer, Err(Refusal::new(reason, place)));
        assert_eq!(output, vec![FILL; room]);
    }

    #[test]
    fn gives_all_links_that_share_the_duct_in_rising_order_the_named_one_included() {
        let two = mesh(&[7, 9, 7, 0, 7, 9]);
        for link in [0, 2, 4] {
            assert_gives(&two, link, &[0, 2, 4]);
        }
        for link in [1, 5] {
            assert_gives(&two, link, &[1, 5]);
        }
    }

    #[test]
    fn a_link_without_a_duct_gives_itself_only() {
        let none = mesh(&[0, 0, 3, 0]);
        for link in 0..4 {
            assert_gives(&none, link, &[link]);
        }
    }

    #[test]
    fn a_duct_number_has_16_bits() {
        let ends = mesh(&[1, 65_535, 256, 257, 65_535, 1]);
        assert_gives(&ends, 0, &[0, 5]);
        assert_gives(&ends, 1, &[1, 4]);
        assert_gives(&ends, 2, &[2]);
        assert_gives(&ends, 3, &[3]);
    }

    #[test]
    fn all_256_links_can_share_one_duct() {
        let all: Vec<u16> = (0..256).collect();
        let one = mesh(&[65_535; 256]);
        for link in [0, 128, 255] {
            assert_gives(&one, link, &all);
            assert_refuses(&one, link, 255, Reason::OutputShort, 256);
        }
        let different: Vec<u16> = (1..=256).collect();
        assert_gives(&mesh(&different), 255, &[255]);
        assert_gives(&mesh(&[0; 256]), 255, &[255]);
    }

    #[test]
    fn meets_11_with_the_entries_needed() {
        let three = mesh(&[7, 9, 7, 0, 7, 9]);
        for room in 0..3 {
            assert_refuses(&three, 2, room, Reason::OutputShort, 3);
        }
        assert_refuses(&three, 3, 0, Reason::OutputShort, 1);
    }

    #[test]
    fn meets_12_at_a_link_that_is_none() {
        for link in [3, 4, 255, 256, 65_535] {
            let place = usize::from(link);
            for room in [0, 3, 300] {
                assert_refuses(&mesh(&[7, 0, 7]), link, room, Reason::NoSuchLink, place);
            }
        }
        assert_refuses(&mesh(&[]), 0, 5, Reason::NoSuchLink, 0);
    }

    #[test]
    fn meets_the_mesh_checks_then_12_then_11() {
        let mut wrong = mesh(&[7, 7, 7]);
        wrong.links[255].duct = 1;
        assert_refuses(&wrong, 0, 3, Reason::IllFormed, 0);
        assert_refuses(&wrong, 3, 0, Reason::IllFormed, 0);
        wrong.links[2] = wrong.links[0];
        assert_refuses(&wrong, 3, 0, Reason::BelowPrevious, 2);
        wrong.links[2].high = 24;
        assert_refuses(&wrong, 3, 0, Reason::EndNotBelowNodes, 2);
        wrong.links[2].low = 24;
        assert_refuses(&wrong, 3, 0, Reason::LowNotBelowHigh, 2);
        wrong.count = 257;
        assert_refuses(&wrong, 300, 0, Reason::Count, 0);
        wrong.nodes = 65;
        assert_refuses(&wrong, 300, 0, Reason::Nodes, 0);
        // 12 before 11.
        assert_refuses(&mesh(&[7, 7, 7]), 3, 0, Reason::NoSuchLink, 3);
    }

    #[test]
    fn an_entry_past_the_last_link_has_no_duct() {
        for place in 3..256 {
            let mut wrong = mesh(&[0, 0, 0]);
            wrong.links[place].duct = 1 << (place % 16);
            assert_refuses(&wrong, 0, 1, Reason::IllFormed, 0);
        }
    }

    /// The answer by its sentence, link by link.
    fn by_the_sentence(mesh: &Mesh, link: u16) -> Vec<u16> {
        let duct = mesh.links[usize::from(link)].duct;
        let shares = |other: &u16| {
            let in_duct = duct != 0 && mesh.links[usize::from(*other)].duct == duct;
            *other == link || in_duct
        };
        (0..mesh.count).filter(shares).collect()
    }

    #[test]
    fn every_link_of_random_meshes_is_answered_by_the_sentence() {
        let random = &mut Random::new(4);
        for turn in 0..200 {
            let mesh = random_mesh(20, turn % 60, random);
            for link in 0..mesh.count {
                assert_gives(&mesh, link, &by_the_sentence(&mesh, link));
            }
            let mut grouped = groups(&mesh).concat();
            grouped.sort_unstable();
            assert_eq!(grouped, (0..mesh.count).collect::<Vec<u16>>());
        }
    }

    #[test]
    fn the_lowest_link_in_a_duct() {
        let some = mesh(&[0, 9, 7, 0, 7, 9]);
        assert_eq!(lowest_in(&some, 9), Some(1));
        assert_eq!(lowest_in(&some, 7), Some(2));
        assert_eq!(lowest_in(&some, 8), None);
        assert_eq!(lowest_in(&some, 0), None);
        assert_eq!(lowest_in(&mesh(&[]), 0), None);
    }
}
