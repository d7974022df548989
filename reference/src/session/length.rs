//! The length of the route.

use std::fmt;

use super::{Session, Wavelength, TAKEN};

/// A number of metres, or not known because a link is not measured.
#[derive(Clone, Copy, Debug, PartialEq, Eq)]
pub enum RouteLength {
    Metres(u32),
    NotKnown,
}

/// The metres in decimal, or a hyphen.
impl fmt::Display for RouteLength {
    fn fmt(&self, output: &mut fmt::Formatter) -> fmt::Result {
        match self {
            RouteLength::Metres(metres) => write!(output, "{metres}"),
            RouteLength::NotKnown => write!(output, "-"),
        }
    }
}

impl Session {
    /// The lengths of all links taken on a wavelength together; not known where
    /// one of these links is not measured.
    pub(super) fn taken_length(&self, wavelength: Wavelength) -> RouteLength {
        let states = &self.floods[wavelength].states;
        let links = self.mesh.counted().iter().zip(states);
        let taken = links.filter(|(_, state)| **state == TAKEN);
        let metres: Option<u32> = taken.map(|(link, _)| link.metres()).sum();
        metres.map_or(RouteLength::NotKnown, RouteLength::Metres)
    }
}
