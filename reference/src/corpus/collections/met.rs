//! Which answers cases meet, for the tests.

use std::collections::BTreeMap;

use crate::case::Case;
use crate::collection::collect;

/// How often each refusal number is met; 0 is the number of an accepted route.
pub fn met(cases: &[Case]) -> BTreeMap<u8, usize> {
    let mut numbers = BTreeMap::new();
    for case in cases {
        let Case::Collection { room, root, mesh } = case else {
            continue;
        };
        let mut output = vec![0; usize::from(*room)];
        let (_, answer) = collect(mesh, *root, &mut output);
        let number = answer.map_or_else(|refusal| refusal.number(), |_| 0);
        *numbers.entry(number).or_default() += 1;
    }
    numbers
}

/// The numbers alone.
pub fn numbers(cases: &[Case]) -> Vec<u8> {
    met(cases).into_keys().collect()
}
