//! The mesh of every number of middle nodes.

use crate::book::bytes_of;
use crate::case::Case;
use crate::drill::mesh;

/// Above the length of every drill's book.
const ROOM: u16 = 400;

/// Every number; some with no room, with one byte too few and with just enough;
/// and some that are no drill's, where 3 comes before 11.
pub fn cases() -> Vec<Case> {
    let mut cases: Vec<Case> = (0..=255).map(|middles| case(ROOM, middles)).collect();
    for middles in [1, 2, 9, 10, 31, 62] {
        let needed = bytes_of(&mesh(middles)).len() as u16;
        cases.extend([0, needed - 1, needed].map(|room| case(room, middles)));
    }
    cases.extend([0, 63, 255].map(|middles| case(0, middles)));
    cases
}

fn case(room: u16, middles: u8) -> Case {
    Case::DrillMesh { room, middles }
}

#[cfg(test)]
mod tests {
    use super::*;
    use crate::book::encode;
    use std::collections::BTreeMap;

    #[test]
    fn every_drill_is_written_and_11_and_3_are_met() {
        let mut numbers = BTreeMap::new();
        for case in cases() {
            let Case::DrillMesh { room, middles } = case else {
                panic!("another case");
            };
            let answer = encode(&mesh(middles), &mut vec![0; room.into()]);
            let number = answer.map_or_else(|refusal| refusal.number(), |_| 0);
            *numbers.entry(number).or_insert(0) += 1;
        }
        assert_eq!(numbers, [(0, 62 + 6), (3, 194 + 3), (11, 12)].into());
    }
}
