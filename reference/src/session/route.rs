//! The route that a wavelength has found under a cut.

use std::iter;

use super::{Session, Wavelength, TAKEN};
use crate::refusal::Refusal;

impl Session {
    /// From x on, each time the lowest taken link leaving the node where the
    /// one before ended, at most L links; none while a link is under way on
    /// this wavelength. Order: the record, 14, 23.
    pub fn route(&self, wavelength: u8) -> Result<Vec<u16>, Refusal> {
        self.check()?;
        let wavelength = Wavelength::numbered(wavelength)?;
        let cut = self.standing_cut(0)?;
        if !self.floods[wavelength].is_at_rest() {
            return Ok(Vec::new());
        }
        let (x, _) = self.primary_arc(wavelength, cut);
        let leaving = |node| self.lowest_taken_leaving(wavelength, node);
        // A back-up arc ends where the primary arc begins.
        let next = |link: &u16| leaving(self.primary_arc(wavelength, *link).0);
        let links = iter::successors(leaving(x), next);
        Ok(links.take(self.mesh.count.into()).collect())
    }

    /// The lowest link taken on the wavelength whose back-up arc leaves the
    /// node.
    fn lowest_taken_leaving(&self, wavelength: Wavelength, node: u8) -> Option<u16> {
        let states = &self.floods[wavelength].states;
        let is_taken = |link: u16| states[usize::from(link)] == TAKEN;
        let leaves = |link: u16| self.primary_arc(wavelength, link).1 == node;
        (0..self.mesh.count).find(|link| is_taken(*link) && leaves(*link))
    }
}
