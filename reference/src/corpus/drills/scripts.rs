//! Recoveries on drills, with the deliveries in random orders.

use super::super::scripts::caller::Caller;
use crate::case::Case;
use crate::drill::mesh;
use crate::random::Random;
use crate::script::{Call, Origin, Script};
use crate::session::Wavelength;

/// Numbers of middle nodes, each with the number of orders under the cut of the
/// link between the two outer nodes.
const DRILLS: [(u8, usize); 12] = [
    (1, 8),
    (2, 12),
    (3, 12),
    (4, 12),
    (5, 12),
    (8, 8),
    (13, 6),
    (21, 4),
    (31, 4),
    (47, 2),
    (61, 2),
    (62, 4),
];

/// How a flood is brought to rest.
#[derive(Clone, Copy)]
enum Way {
    /// Any link under way on any wavelength.
    Mixed,
    /// The same, and by turns short runs.
    Runs,
    /// One wavelength comes to rest before the other begins.
    First(Wavelength),
}

const WAYS: [Way; 6] = [
    Way::Mixed,
    Way::Runs,
    Way::Mixed,
    Way::First(Wavelength::One),
    Way::Mixed,
    Way::First(Wavelength::Two),
];

pub fn cases(random: &mut Random) -> Vec<Case> {
    let mut scripts = heaviest(random);
    scripts.extend(other_cuts(random));
    scripts.into_iter().map(Case::Script).collect()
}

/// The cut of the link between the two outer nodes, which is the last one.
fn heaviest(random: &mut Random) -> Vec<Script> {
    let mut scripts = Vec::new();
    for (middles, orders) in DRILLS {
        for turn in 0..orders {
            let way = WAYS[turn % WAYS.len()];
            scripts.push(recovered(middles, 2 * u16::from(middles), way, random));
        }
    }
    scripts
}

/// The cut of each other link of a small drill, and of some links of larger
/// ones.
fn other_cuts(random: &mut Random) -> Vec<Script> {
    let mut scripts = Vec::new();
    for middles in [1, 2, 3, 5, 13, 31, 62] {
        let last = 2 * u16::from(middles);
        let mut cuts: Vec<u16> = (0..last).collect();
        if last > 10 {
            cuts = vec![0, 1, last / 2, last - 2, last - 1];
        }
        for (turn, cut) in cuts.into_iter().enumerate() {
            let way = WAYS[turn % WAYS.len()];
            scripts.push(recovered(middles, cut, way, random));
        }
    }
    scripts
}

/// A cut, deliveries until both wavelengths rest, both routes and a mend.
fn recovered(middles: u8, cut: u16, way: Way, random: &mut Random) -> Script {
    let mut caller = Caller::new(&mesh(middles), Origin::OwnPlan, random);
    caller.make(Call::Cut(cut));
    while let Some((link, wavelength)) = next(&mut caller, way) {
        let call = match (caller.random.below(40), way) {
            (0, _) => caller.status(),
            (1, _) => refused_delivery(&mut caller, cut),
            (2..=12, Way::Runs) => Call::Run(caller.random.below(5) as u32),
            _ => Call::Deliver(link, wavelength),
        };
        caller.make(call);
    }
    caller.both_statuses(cut);
    caller.both_routes();
    caller.make(Call::Mend(cut));
    caller.script()
}

/// A link under way and its wavelength; none at rest of both.
fn next(caller: &mut Caller, way: Way) -> Option<(u16, u8)> {
    let first = match way {
        Way::First(wavelength) => caller.under_way_on(&[wavelength]),
        Way::Mixed | Way::Runs => None,
    };
    first.or_else(|| caller.under_way())
}

/// 24 for the cut link, which is never under way, 12 or 14.
fn refused_delivery(caller: &mut Caller, cut: u16) -> Call {
    let count = caller.session.mesh.count;
    let wavelength = caller.inner_wavelength();
    let link = caller.inner_link();
    caller.random.pick(&[
        Call::Deliver(cut, wavelength),
        Call::Deliver(count, wavelength),
        Call::Deliver(link, 0),
        Call::Deliver(link, 3),
    ])
}

#[cfg(test)]
mod tests {
    use super::*;
    use std::collections::BTreeSet;

    /// What a script meets. All that is of a wavelength has a place for each.
    #[derive(Default)]
    struct Played {
        /// Deliveries, by calls and by runs.
        made: [usize; 2],
        routes: [Vec<u16>; 2],
        /// The refusal numbers of deliveries.
        refused: BTreeSet<u8>,
        /// Runs that made a delivery.
        runs: usize,
    }

    fn place(wavelength: u8) -> usize {
        usize::from(wavelength) - 1
    }

    /// Cut and mend must be accepted.
    fn play(script: &Script) -> Played {
        let (mut session, _) = script.begin();
        let mut played = Played::default();
        for call in &script.calls {
            match *call {
                Call::Cut(link) => assert_eq!(session.cut(link), Ok(())),
                Call::Deliver(link, wavelength) => match session.deliver(link, wavelength) {
                    Ok(_) => played.made[place(wavelength)] += 1,
                    Err(refusal) => _ = played.refused.insert(refusal.number()),
                },
                Call::Run(allowance) => {
                    let tell = |_, on: Wavelength| played.made[place(on.number())] += 1;
                    let run = session.run_by_turns(allowance, tell).unwrap();
                    played.runs += usize::from(run.made > 0);
                }
                Call::Mend(link) => assert_eq!(session.mend(link), Ok(())),
                Call::Route(wavelength) => {
                    played.routes[place(wavelength)] = session.route(wavelength).unwrap();
                }
                Call::Status(..) => (),
            }
        }
        assert_eq!(session.cut, None);
        played
    }

    #[test]
    fn the_heaviest_cut_takes_4_m_minus_2_deliveries_on_each_wavelength() {
        for seed in 0..5 {
            let mut scripts = heaviest(&mut Random::new(seed)).into_iter();
            for (middles, orders) in DRILLS {
                for script in scripts.by_ref().take(orders) {
                    let played = play(&script);
                    assert_eq!(played.made, [4 * usize::from(middles) - 2; 2]);
                    assert!(played.routes.iter().all(|route| route.len() == 2));
                }
            }
            assert!(scripts.next().is_none());
        }
    }

    #[test]
    fn the_orders_of_a_drill_lead_to_different_routes() {
        let mut scripts = heaviest(&mut Random::new(1))
            .iter()
            .map(play)
            .collect::<Vec<_>>();
        for (middles, orders) in DRILLS {
            let played: Vec<Played> = scripts.drain(..orders).collect();
            for place in [0, 1] {
                let routes = played.iter().map(|played| &played.routes[place]);
                let different = routes.collect::<BTreeSet<_>>().len();
                assert!(different >= orders.min(middles.into()) / 2);
                assert!(different > 1 || middles == 1, "{middles}");
            }
        }
    }

    #[test]
    fn other_cuts_take_fewer() {
        for script in other_cuts(&mut Random::new(1)) {
            let most = 2 * script.begin().0.mesh.counted().len() - 4;
            let [one, two] = play(&script).made;
            // In the triangle all cuts are alike.
            assert!(one + two < 2 * most || most == 2, "{one} {two}");
        }
    }

    #[test]
    fn deliveries_are_refused_in_three_ways_and_runs_are_among_them() {
        let random = &mut Random::new(2);
        for scripts in [heaviest(random), other_cuts(random)] {
            let played: Vec<Played> = scripts.iter().map(play).collect();
            let refused = played.iter().flat_map(|played| &played.refused);
            assert_eq!(refused.collect::<BTreeSet<_>>(), [&12, &14, &24].into());
            assert!(played.iter().map(|played| played.runs).sum::<usize>() > 5);
        }
    }
}
