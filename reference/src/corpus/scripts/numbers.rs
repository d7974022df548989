//! Numbers for calls: links, most of them below L, and allowances.

use crate::random::Random;

/// A link below L; 0 where there is none.
pub fn inner_link(count: u16, random: &mut Random) -> u16 {
    random.below(usize::from(count).max(1)) as u16
}

/// A link number, mostly below L.
pub fn link(count: u16, random: &mut Random) -> u16 {
    match random.below(24) {
        0 => count,
        1 => count.saturating_add(1),
        2 => 256,
        3 => 65_535,
        _ => inner_link(count, random),
    }
}

pub fn allowance(random: &mut Random) -> u32 {
    match random.below(8) {
        0 => 0,
        1 | 2 => 1,
        3 | 4 => random.between(2, 6) as u32,
        5 => random.pick(&[7, 20, 255, 256, 65_536, 1 << 31]),
        _ => u32::MAX,
    }
}
