//! What makes an old session ill formed, and the refusal that it then meets.

use std::rc::Rc;

use crate::mesh::{MOST_LINKS, MOST_NODES};
use crate::old_session::{OldLink, OldSession};
use crate::refusal::{Reason, Refusal};

/// A change of a good old session, and the refusal that it meets; none where a
/// pair is repeated, which stands.
#[derive(Clone)]
pub struct Fault {
    pub refusal: Option<Refusal>,
    change: Rc<dyn Fn(&mut OldSession)>,
}

impl Fault {
    fn new(reason: Reason, place: usize, change: impl Fn(&mut OldSession) + 'static) -> Fault {
        Fault {
            refusal: Some(Refusal::new(reason, place)),
            change: Rc::new(change),
        }
    }

    /// The ends of one link.
    pub fn of_ends(reason: Reason, at: usize, (low, high): (u8, u8)) -> Fault {
        Fault::new(reason, at, move |old| {
            let link = &mut old.links[at];
            *link = OldLink { low, high, ..*link };
        })
    }

    /// The ends of the link before, which are not 8.
    fn repeated(good: &OldSession, at: usize) -> Fault {
        let OldLink { low, high, .. } = good.links[at - 1];
        Fault {
            refusal: None,
            ..Fault::of_ends(Reason::BelowPrevious, at, (low, high))
        }
    }

    /// 13 at 0.
    fn ill_formed(change: impl Fn(&mut OldSession) + 'static) -> Fault {
        Fault::new(Reason::IllFormed, 0, change)
    }

    pub fn applied(&self, good: &OldSession) -> OldSession {
        let mut session = good.clone();
        (self.change)(&mut session);
        session
    }
}

/// 3 and 4, and numbers of nodes and links that do not fit the links: 6, 7 and
/// 13.
pub fn of_numbers(good: &OldSession) -> Vec<Fault> {
    let nodes = |nodes: u8| move |old: &mut OldSession| old.nodes = nodes;
    let count = |count: u16| move |old: &mut OldSession| old.count = count;
    let mut faults = Vec::new();
    faults.extend([0, 1, 65, 255].map(|wrong| Fault::new(Reason::Nodes, 0, nodes(wrong))));
    faults.extend([257, 65_535].map(|wrong| Fault::new(Reason::Count, 0, count(wrong))));
    let links = usize::from(good.count);
    let last_node = good.nodes - 1;
    let first_at = good.links.iter().position(|link| link.high == last_node);
    faults.extend(first_at.map(|at| Fault::new(Reason::EndNotBelowNodes, at, nodes(last_node))));
    if links < MOST_LINKS {
        let more = count(good.count + 1);
        faults.push(Fault::new(Reason::LowNotBelowHigh, links, more));
    }
    faults.push(Fault::ill_formed(count(good.count - 1)));
    faults
}

/// 7, 6 and a pair that is repeated at the first, a middle and the last link, some
/// with another fault that comes later.
pub fn of_links(good: &OldSession) -> Vec<Fault> {
    let last = usize::from(good.count) - 1;
    let mut faults = Vec::new();
    for at in [0, last / 2, last] {
        faults.extend(of_link(good, at));
    }
    faults
}

/// The first three are 7, 6 and a pair that is repeated; at link 0 there is no
/// such pair.
pub fn of_link(good: &OldSession, at: usize) -> Vec<Fault> {
    let OldLink { low, high, .. } = good.links[at];
    let nodes = good.nodes;
    let ends = |reason, ends| Fault::of_ends(reason, at, ends);
    let mut faults = vec![
        ends(Reason::LowNotBelowHigh, (high, low)),
        ends(Reason::EndNotBelowNodes, (low, nodes)),
    ];
    if let Some(before) = at.checked_sub(1) {
        let low = good.links[before].low;
        faults.push(Fault::repeated(good, at));
        // 7 with 8, and 6 with 8.
        faults.push(ends(Reason::LowNotBelowHigh, (low, low)));
        if low > 0 {
            faults.push(ends(Reason::EndNotBelowNodes, (0, nodes)));
        }
    }
    // 7 with 6.
    faults.push(ends(Reason::LowNotBelowHigh, (nodes, nodes)));
    faults
}

/// 13: a direction above 1, a state above 4, a cut that is neither a link nor
/// none, a reached node not below N.
pub fn of_values(good: &OldSession) -> Vec<Fault> {
    let last = usize::from(good.count) - 1;
    let mut faults = Vec::new();
    for at in [0, last / 2, last] {
        faults.extend([2, 255].map(|value| direction(at, value)));
        faults.extend([5, 255].map(|value| state(at, value)));
    }
    faults.extend([good.count, 257, 65_534].map(cut));
    if good.nodes < MOST_NODES {
        faults.extend([good.nodes, MOST_NODES - 1].map(reached));
    }
    faults
}

/// 13: one entry past the last link, with one field of a link, a direction or a
/// state.
pub fn past_count(good: &OldSession) -> Vec<Fault> {
    let count = usize::from(good.count);
    let mut faults = past(count);
    faults.extend(past((count + 255) / 2).into_iter().take(4));
    faults.extend(past(255));
    faults
}

/// The first four are a fibre pair, a length, a direction and a state alone.
pub fn past(at: usize) -> Vec<Fault> {
    vec![
        Fault::ill_formed(move |old| old.links[at].pair = 1),
        Fault::ill_formed(move |old| old.links[at].length = 1),
        direction(at, 1),
        state(at, 1),
        Fault::ill_formed(move |old| old.links[at].low = 1),
        Fault::ill_formed(move |old| old.links[at].high = 1),
        Fault::ill_formed(move |old| old.links[at].pair = 1 << 31),
        Fault::ill_formed(move |old| old.links[at].length = 1 << 15),
        state(at, 4),
    ]
}

pub fn direction(at: usize, value: u8) -> Fault {
    Fault::ill_formed(move |old| old.directions[at] = value)
}

pub fn state(at: usize, value: u8) -> Fault {
    Fault::ill_formed(move |old| old.states[at] = value)
}

pub fn cut(link: u16) -> Fault {
    Fault::ill_formed(move |old| old.cut = Some(link))
}

pub fn reached(node: u8) -> Fault {
    Fault::ill_formed(move |old| old.reached[usize::from(node)] = true)
}
