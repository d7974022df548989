//! A session from before wavelength 2: its record, which no later change of the
//! mesh or of the session touches, its calls as 01 has them with one flood, and
//! how it is carried over.

mod calls;
mod carry_over;
mod flood;

use crate::mesh::{check_count, check_ends, check_nodes, Ends, Link, Mesh};
use crate::mesh::{MOST_LINKS, MOST_NODES};
use crate::plan::Plan;
use crate::refusal::{refuse_if, Answer, Reason};
use crate::session::{QUIET, RELEASED};

#[derive(Clone, Copy, Debug, PartialEq, Eq)]
pub struct OldLink {
    pub low: u8,
    pub high: u8,
    pub length: u16,
    pub pair: u32,
}

#[derive(Clone, Debug, PartialEq, Eq)]
pub struct OldSession {
    pub nodes: u8,
    pub count: u16,
    pub links: [OldLink; MOST_LINKS],
    pub directions: [u8; MOST_LINKS],
    pub cut: Option<u16>,
    pub states: [u8; MOST_LINKS],
    pub reached: [bool; MOST_NODES as usize],
}

impl OldLink {
    pub const ZERO: OldLink = OldLink {
        low: 0,
        high: 0,
        length: 0,
        pair: 0,
    };

    /// A link as it was held before wavelength 2, without a duct.
    pub fn of(link: &Link) -> OldLink {
        OldLink {
            low: link.low,
            high: link.high,
            length: link.length,
            pair: link.pair,
        }
    }

    fn ends(&self) -> Ends {
        (self.low.into(), self.high.into())
    }
}

impl OldSession {
    pub const ZERO: OldSession = OldSession {
        nodes: 0,
        count: 0,
        links: [OldLink::ZERO; MOST_LINKS],
        directions: [0; MOST_LINKS],
        cut: None,
        states: [QUIET; MOST_LINKS],
        reached: [false; MOST_NODES as usize],
    };

    /// On this mesh and plan, with no cut, all links quiet and no node reached.
    pub fn fresh(mesh: &Mesh, plan: &Plan) -> OldSession {
        OldSession {
            nodes: mesh.nodes,
            count: mesh.count,
            links: mesh.links.each_ref().map(OldLink::of),
            directions: plan.directions,
            ..OldSession::ZERO
        }
    }

    /// Order of the record: 3, 4; each link 7, 6, 8; then 13.
    pub fn check(&self) -> Answer {
        check_nodes(self.nodes, 0)?;
        check_count(self.count, 0)?;
        let mut previous = None;
        for (number, link) in self.links[..self.count.into()].iter().enumerate() {
            check_ends(link.ends(), previous, self.nodes, number)?;
            previous = Some(link.ends());
        }
        let ill_formed = self.has_wrong_number() || self.has_entry_past_count();
        refuse_if(ill_formed, Reason::IllFormed, 0)
    }

    /// Whether a direction is above 1, a state above 4, the cut neither a link
    /// nor none, or a reached node not below N.
    fn has_wrong_number(&self) -> bool {
        let count = usize::from(self.count);
        let nodes = usize::from(self.nodes);
        self.directions[..count].iter().any(|one| *one > 1)
            || self.states[..count].iter().any(|one| *one > RELEASED)
            || self.cut.is_some_and(|link| link >= self.count)
            || self.reached[nodes..].contains(&true)
    }

    /// Whether an entry past the last link is not zero.
    fn has_entry_past_count(&self) -> bool {
        let count = usize::from(self.count);
        self.links[count..].iter().any(|one| *one != OldLink::ZERO)
            || self.directions[count..].iter().any(|one| *one != 0)
            || self.states[count..].iter().any(|one| *one != QUIET)
    }
}
