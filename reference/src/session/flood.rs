//! What a session holds for one wavelength.

use std::ops::{Index, IndexMut};

use super::{is_under_way, Wavelength, QUIET, RELEASED};
use crate::mesh::{Mesh, MOST_LINKS, MOST_NODES};

/// A state per link and the reached nodes.
#[derive(Clone, Debug, PartialEq, Eq)]
pub struct Flood {
    pub states: [u8; MOST_LINKS],
    pub reached: [bool; MOST_NODES as usize],
}

/// The flood of each wavelength.
#[derive(Clone, Debug, PartialEq, Eq)]
pub struct Floods {
    pub first: Flood,
    pub second: Flood,
}

impl Flood {
    /// All links quiet and no node reached.
    pub const FRESH: Flood = Flood {
        states: [QUIET; MOST_LINKS],
        reached: [false; MOST_NODES as usize],
    };

    /// How many links are under way.
    pub fn under_way(&self) -> usize {
        let under_way = self.states.iter().filter(|state| is_under_way(**state));
        under_way.count()
    }

    pub fn is_at_rest(&self) -> bool {
        !self.states.iter().any(|state| is_under_way(*state))
    }

    /// Whether a state is above 4 or, past the last link, above 0, or a node
    /// not below N is reached.
    pub fn is_ill_formed(&self, mesh: &Mesh) -> bool {
        let (states, past) = self.states.split_at(mesh.counted().len());
        let unreachable = &self.reached[mesh.nodes.into()..];
        greatest(states) > RELEASED || greatest(past) > 0 || unreachable.contains(&true)
    }
}

impl Floods {
    pub const FRESH: Floods = Floods {
        first: Flood::FRESH,
        second: Flood::FRESH,
    };

    pub fn both(&self) -> [&Flood; 2] {
        [&self.first, &self.second]
    }
}

impl Index<Wavelength> for Floods {
    type Output = Flood;

    fn index(&self, wavelength: Wavelength) -> &Flood {
        match wavelength {
            Wavelength::One => &self.first,
            Wavelength::Two => &self.second,
        }
    }
}

impl IndexMut<Wavelength> for Floods {
    fn index_mut(&mut self, wavelength: Wavelength) -> &mut Flood {
        match wavelength {
            Wavelength::One => &mut self.first,
            Wavelength::Two => &mut self.second,
        }
    }
}

/// The greatest number, 0 if there is none.
pub fn greatest(numbers: &[u8]) -> u8 {
    numbers
        .iter()
        .fold(0, |greatest, number| greatest.max(*number))
}
