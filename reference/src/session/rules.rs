//! The rules of a flood on one wavelength, in a session whose record is well
//! formed. Arcs are the wavelength's back-up arcs here: its primary ones turned
//! round.

use super::{is_under_way, Delivery, Flood, Wavelength};
use super::{OFFERED, QUIET, REFUSED, RELEASED, TAKEN};
use crate::mesh::{Link, Mesh};
use crate::plan::Plan;
use crate::walks::Arc;

pub struct Rules<'a> {
    links: &'a [Link],
    directions: &'a [u8],
    wavelength: Wavelength,
    states: &'a mut [u8],
    reached: &'a mut [bool],
    cut: usize,
    /// The cut link's primary arc leads from x to y.
    x: u8,
    y: u8,
}

impl<'a> Rules<'a> {
    /// The rules of this wavelength's flood under the cut of a link.
    pub fn new(
        mesh: &'a Mesh,
        plan: &'a Plan,
        cut: u16,
        wavelength: Wavelength,
        flood: &'a mut Flood,
    ) -> Rules<'a> {
        let links = mesh.counted();
        let directions = &plan.directions[..links.len()];
        let cut = usize::from(cut);
        let (x, y) = wavelength.primary_arc(&links[cut], directions[cut]);
        Rules {
            links,
            directions,
            wavelength,
            states: &mut flood.states[..links.len()],
            reached: &mut flood.reached,
            cut,
            x,
            y,
        }
    }

    /// x is reached; every link leaving x, save the cut one, becomes offered,
    /// whatever its state.
    pub fn begin(&mut self) {
        self.reached[usize::from(self.x)] = true;
        for link in 0..self.links.len() {
            if self.leaves(link, self.x) && link != self.cut {
                self.states[link] = OFFERED;
            }
        }
    }

    /// The lowest link under way; none at rest.
    pub fn lowest_under_way(&self) -> Option<usize> {
        self.states.iter().position(|state| is_under_way(*state))
    }

    /// A delivery on a link; none if it is not under way.
    pub fn deliver(&mut self, link: usize) -> Option<Delivery> {
        match self.states[link] {
            OFFERED => Some(self.deliver_offer(link)),
            REFUSED => Some(self.deliver_refusal(link)),
            _ => None,
        }
    }

    /// On an offered link a to b: b takes it if b was not reached and either
    /// is y or has a link to offer.
    fn deliver_offer(&mut self, link: usize) -> Delivery {
        let (_, b) = self.back_up_arc(link);
        if self.reach(b) && (b == self.y || self.offer_quiet(b)) {
            self.states[link] = TAKEN;
            Delivery::Taken(b)
        } else {
            self.states[link] = REFUSED;
            Delivery::Turned(b)
        }
    }

    /// On a refused link a to b: a releases it, and also refuses the lowest
    /// taken link into a where a is not x and nothing leaving a is in use.
    fn deliver_refusal(&mut self, link: usize) -> Delivery {
        let (a, _) = self.back_up_arc(link);
        self.states[link] = RELEASED;
        if a != self.x && !self.has_use_of_a_link(a) {
            if let Some(into) = self.lowest_taken_into(a) {
                self.states[into] = REFUSED;
            }
        }
        Delivery::Released(a)
    }

    /// Makes a node reached; whether it was not yet.
    fn reach(&mut self, node: u8) -> bool {
        let reached = &mut self.reached[usize::from(node)];
        let is_new = !*reached;
        *reached = true;
        is_new
    }

    /// Every quiet link leaving the node, save the cut one, becomes offered;
    /// whether there is one.
    fn offer_quiet(&mut self, node: u8) -> bool {
        let mut offered = false;
        for link in 0..self.links.len() {
            if self.states[link] == QUIET && self.leaves(link, node) && link != self.cut {
                self.states[link] = OFFERED;
                offered = true;
            }
        }
        offered
    }

    /// Whether a link leaving the node is offered, taken or refused.
    fn has_use_of_a_link(&self, node: u8) -> bool {
        let in_use = |link| matches!(self.states[link], OFFERED | TAKEN | REFUSED);
        (0..self.links.len()).any(|link| in_use(link) && self.leaves(link, node))
    }

    fn lowest_taken_into(&self, node: u8) -> Option<usize> {
        let enters = |link| self.back_up_arc(link).1 == node;
        (0..self.links.len()).find(|link| self.states[*link] == TAKEN && enters(*link))
    }

    fn leaves(&self, link: usize, node: u8) -> bool {
        self.back_up_arc(link).0 == node
    }

    fn back_up_arc(&self, link: usize) -> Arc {
        let direction = self.directions[link];
        self.wavelength.back_up_arc(&self.links[link], direction)
    }
}
