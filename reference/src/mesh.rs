//! The mesh and its checks.

use crate::refusal::{refuse_if, Answer, Reason};

pub const FEWEST_NODES: u8 = 2;
pub const MOST_NODES: u8 = 64;
pub const MOST_LINKS: usize = 256;

/// The low and the high end, wide enough for the high end 256.
pub type Ends = (u16, u16);

#[derive(Clone, Copy, Debug, PartialEq, Eq)]
#[repr(C)]
pub struct Link {
    pub low: u8,
    pub high: u8,
    pub length: u16,
    pub pair: u32,
    /// 0 for none.
    pub duct: u16,
}

impl Link {
    pub const ZERO: Link = Link {
        low: 0,
        high: 0,
        length: 0,
        pair: 0,
        duct: 0,
    };

    pub fn ends(&self) -> Ends {
        (self.low.into(), self.high.into())
    }

    /// The length; none where the link is not measured.
    pub fn metres(&self) -> Option<u32> {
        (self.length > 0).then_some(self.length.into())
    }

    /// The fields laid over each other, 0 only where all of them are: the duct
    /// over the others, which stand in one number as they do in memory.
    fn bits(&self) -> u64 {
        let ends = u64::from(self.low) | u64::from(self.high) << 8;
        let others = ends | u64::from(self.length) << 16 | u64::from(self.pair) << 32;
        others | u64::from(self.duct)
    }
}

#[derive(Clone, Debug, PartialEq, Eq)]
pub struct Mesh {
    pub nodes: u8,
    pub count: u16,
    pub links: [Link; MOST_LINKS],
}

impl Mesh {
    pub const ZERO: Mesh = Mesh {
        nodes: 0,
        count: 0,
        links: [Link::ZERO; MOST_LINKS],
    };

    /// The mesh with these links, at most 256, and zeros past them.
    pub fn new(nodes: u8, links: &[Link]) -> Mesh {
        let mut mesh = Mesh {
            nodes,
            count: links.len() as u16,
            ..Mesh::ZERO
        };
        mesh.links[..links.len()].copy_from_slice(links);
        mesh
    }

    /// The links below the count.
    pub fn counted(&self) -> &[Link] {
        &self.links[..self.end_of_counted()]
    }

    /// The entries from the count on.
    pub fn past_count(&self) -> &[Link] {
        &self.links[self.end_of_counted()..]
    }

    fn end_of_counted(&self) -> usize {
        usize::from(self.count).min(MOST_LINKS)
    }

    /// Order of a mesh: 3, 4; each link 7, 6, 8; then 13.
    pub fn check(&self) -> Answer {
        check_nodes(self.nodes, 0)?;
        check_count(self.count, 0)?;
        let mut previous = None;
        for (number, link) in self.counted().iter().enumerate() {
            check_ends(link.ends(), previous, self.nodes, number)?;
            previous = Some(link.ends());
        }
        // 13: entries past the last link are all zero.
        let past = self.past_count().iter();
        let bits = past.fold(0, |bits, entry| bits | entry.bits());
        refuse_if(bits != 0, Reason::IllFormed, 0)
    }
}

/// 3: N is 2 to 64.
pub fn check_nodes(nodes: u8, place: usize) -> Answer {
    let allowed = (FEWEST_NODES..=MOST_NODES).contains(&nodes);
    refuse_if(!allowed, Reason::Nodes, place)
}

/// 4: L is 0 to 256.
pub fn check_count(count: u16, place: usize) -> Answer {
    refuse_if(usize::from(count) > MOST_LINKS, Reason::Count, place)
}

/// Order of one link's ends: 7, 6, 8.
pub fn check_ends(ends: Ends, previous: Option<Ends>, nodes: u8, place: usize) -> Answer {
    let (low, high) = ends;
    let nodes = u16::from(nodes);
    // 7: the low end is below the high end.
    refuse_if(low >= high, Reason::LowNotBelowHigh, place)?;
    // 6: both ends are below N.
    let outside = low >= nodes || high >= nodes;
    refuse_if(outside, Reason::EndNotBelowNodes, place)?;
    // 8: the pair (low, high) is not below the previous one; equal pairs stand.
    let below = previous.is_some_and(|previous| ends < previous);
    refuse_if(below, Reason::BelowPrevious, place)
}
