//! What a cut and a delivery do to the one flood of an old session whose record
//! is well formed. Arcs are back-up arcs: the plan's turned round.

use super::OldSession;
use crate::session::{is_under_way, Delivery, OFFERED, QUIET, REFUSED, RELEASED, TAKEN};
use crate::walks::Arc;

impl OldSession {
    /// x is reached; every link leaving x, save the cut one, becomes offered.
    pub(super) fn begin(&mut self, cut: usize) {
        let (x, _) = self.lost_arc(cut);
        self.reached[usize::from(x)] = true;
        for link in self.leaving(x) {
            if link != cut {
                self.states[link] = OFFERED;
            }
        }
    }

    /// A delivery under this cut; none on a link that is not under way.
    pub(super) fn step(&mut self, cut: usize, link: usize) -> Option<Delivery> {
        match self.states[link] {
            OFFERED => Some(self.deliver_offer(cut, link)),
            REFUSED => Some(self.deliver_refusal(cut, link)),
            _ => None,
        }
    }

    /// The lowest link under way; none at rest.
    pub(super) fn lowest_under_way(&self) -> Option<usize> {
        self.states.iter().position(|state| is_under_way(*state))
    }

    /// On an offered link a to b. A reached b refuses it, and one that is not y
    /// and has nothing to offer does too.
    fn deliver_offer(&mut self, cut: usize, link: usize) -> Delivery {
        let (_, b) = self.arc(link);
        let (_, y) = self.lost_arc(cut);
        let met_before = std::mem::replace(&mut self.reached[usize::from(b)], true);
        let offers = match met_before || b == y {
            true => Vec::new(),
            false => self.offers(b, cut),
        };
        for offer in &offers {
            self.states[*offer] = OFFERED;
        }
        if met_before || (b != y && offers.is_empty()) {
            self.states[link] = REFUSED;
            return Delivery::Turned(b);
        }
        self.states[link] = TAKEN;
        Delivery::Taken(b)
    }

    /// On a refused link a to b.
    fn deliver_refusal(&mut self, cut: usize, link: usize) -> Delivery {
        self.states[link] = RELEASED;
        let (a, _) = self.arc(link);
        let (x, _) = self.lost_arc(cut);
        let in_use = |link: &usize| [OFFERED, TAKEN, REFUSED].contains(&self.states[*link]);
        if a != x && !self.leaving(a).iter().any(in_use) {
            if let Some(into) = self.lowest_taken_into(a) {
                self.states[into] = REFUSED;
            }
        }
        Delivery::Released(a)
    }

    /// The quiet links leaving the node, save the cut one.
    fn offers(&self, node: u8, cut: usize) -> Vec<usize> {
        let mut links = self.leaving(node);
        links.retain(|link| self.states[*link] == QUIET && *link != cut);
        links
    }

    fn leaving(&self, node: u8) -> Vec<usize> {
        let links = 0..usize::from(self.count);
        links.filter(|link| self.arc(*link).0 == node).collect()
    }

    fn lowest_taken_into(&self, node: u8) -> Option<usize> {
        let mut links = 0..usize::from(self.count);
        links.find(|link| self.states[*link] == TAKEN && self.arc(*link).1 == node)
    }

    /// The cut link's primary arc, x to y.
    fn lost_arc(&self, cut: usize) -> Arc {
        let (y, x) = self.arc(cut);
        (x, y)
    }

    /// From high to low where the plan says low to high.
    fn arc(&self, link: usize) -> Arc {
        let ends = self.links[link];
        match self.directions[link] {
            0 => (ends.high, ends.low),
            _ => (ends.low, ends.high),
        }
    }
}
