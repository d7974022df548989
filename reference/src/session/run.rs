//! A run: deliveries on the lowest link under way.

use super::rules::Rules;
use super::{Session, Wavelength};
use crate::refusal::Refusal;

/// How many deliveries a run made on both wavelengths together, and whether
/// both came to rest.
#[derive(Clone, Copy, Debug, PartialEq, Eq)]
pub struct Run {
    pub made: u32,
    pub at_rest: bool,
}

impl Session {
    /// Delivers on the lowest link under way, wavelength 1 before 2 on the same
    /// link, until rest or until the allowance is used. Order: the record, 23.
    pub fn run(&mut self, allowance: u32) -> Result<Run, Refusal> {
        self.run_by_turns(allowance, |_, _| ())
    }

    /// The same; tells the link and the wavelength of each delivery.
    pub fn run_by_turns(
        &mut self,
        allowance: u32,
        mut tell: impl FnMut(u16, Wavelength),
    ) -> Result<Run, Refusal> {
        self.check()?;
        let cut = self.standing_cut(0)?;
        let mut rules = self.rules(cut);
        let mut lowest = rules.each_ref().map(Rules::lowest_under_way);
        let mut made = 0;
        while made < allowance {
            let Some((link, turn)) = next(lowest) else {
                break;
            };
            rules[turn].deliver(link);
            lowest[turn] = rules[turn].lowest_under_way();
            tell(link as u16, Wavelength::BOTH[turn]);
            made += 1;
        }
        let at_rest = self.is_at_rest();
        Ok(Run { made, at_rest })
    }
}

/// The lower of two links, and which of them it is: the first where they are
/// the same.
fn next([first, second]: [Option<usize>; 2]) -> Option<(usize, usize)> {
    match (first, second) {
        (Some(first), Some(second)) if second < first => Some((second, 1)),
        (Some(first), _) => Some((first, 0)),
        (None, Some(second)) => Some((second, 1)),
        (None, None) => None,
    }
}
