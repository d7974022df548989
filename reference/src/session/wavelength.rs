//! The two wavelengths.

use crate::mesh::Link;
use crate::refusal::{Reason, Refusal};
use crate::walks::{arc, Arc};

/// Primary streams run along the plan on wavelength 1 and against it on 2.
#[derive(Clone, Copy, Debug, PartialEq, Eq)]
pub enum Wavelength {
    One,
    Two,
}

impl Wavelength {
    pub const BOTH: [Wavelength; 2] = [Wavelength::One, Wavelength::Two];

    /// The wavelength with this number; 14 at 0 if there is none.
    pub fn numbered(number: u8) -> Result<Wavelength, Refusal> {
        match number {
            1 => Ok(Wavelength::One),
            2 => Ok(Wavelength::Two),
            _ => Err(Refusal::new(Reason::NoSuchWavelength, 0)),
        }
    }

    pub fn number(self) -> u8 {
        match self {
            Wavelength::One => 1,
            Wavelength::Two => 2,
        }
    }

    /// A link's primary arc under this direction of the plan.
    pub fn primary_arc(self, link: &Link, direction: u8) -> Arc {
        let along = arc(link, direction);
        match self {
            Wavelength::One => along,
            Wavelength::Two => turned(along),
        }
    }

    /// A link's back-up arc: its primary arc turned round.
    pub fn back_up_arc(self, link: &Link, direction: u8) -> Arc {
        turned(self.primary_arc(link, direction))
    }
}

fn turned((from, to): Arc) -> Arc {
    (to, from)
}
