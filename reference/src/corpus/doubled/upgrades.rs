//! Old sessions on meshes with several links between the same nodes.

use super::super::meshes::all_filled;
use super::super::upgrades::behind::{self, with_calls};
use super::super::upgrades::faults::{self, Fault};
use super::super::upgrades::ill_formed::{by_turns, good_sessions, single, with_some_calls};
use super::super::upgrades::lists::{at_rest, cut_again, jumble, many, mended, under_way, Before};
use super::super::upgrades::{odd, stages};
use super::graphs::{each, two_nodes};
use super::grounds::{any, bare, largest, measured, middle, small};
use crate::case::Case;
use crate::mesh::{Mesh, MOST_LINKS};
use crate::old_session::OldSession;
use crate::plan::Plan;
use crate::random::Random;
use crate::refusal::Reason;
use crate::script::Call;
use crate::upgrade::Upgrade;

/// Old calls, and calls on what the session becomes.
const KINDS: [(Before, behind::Part); 6] = [
    (under_way, behind::deliveries),
    (under_way, behind::runs),
    (at_rest, behind::waiting),
    (mended, behind::cuts),
    (cut_again, behind::deliveries),
    (jumble, behind::jumble),
];

pub fn cases(random: &mut Random) -> Vec<Case> {
    let mut upgrades = of_every_stage(random);
    for (before, part) in KINDS {
        upgrades.extend(many(7, small, before, part, random));
        upgrades.extend(many(2, middle, before, part, random));
    }
    upgrades.extend(many(1, largest, at_rest, behind::waiting, random));
    upgrades.extend(many(4, any, jumble, behind::jumble, random));
    upgrades.extend((0..14).map(|turn| odd::upgrade(&small(random), turn, random)));
    upgrades.extend(of_256_links(random));
    upgrades.extend(refused(random));
    upgrades.extend(falling_in_256());
    let case = |upgrade| Case::Upgrade(Box::new(upgrade));
    upgrades.into_iter().map(case).collect()
}

/// Every stage of the runs under every cut of small meshes.
fn of_every_stage(random: &mut Random) -> Vec<Upgrade> {
    let mut sessions = Vec::new();
    for mesh in &measured()[..5] {
        let mesh = with_pairs(mesh);
        for cut in 0..mesh.count {
            sessions.extend(stages::of_run(&mesh, cut, random));
        }
    }
    let watched = |old| with_calls(old, stages::watched, random);
    sessions.into_iter().map(watched).collect()
}

/// A fibre pair for each link.
fn with_pairs(mesh: &Mesh) -> Mesh {
    let mut mesh = mesh.clone();
    for link in 0..mesh.counted().len() {
        mesh.links[link].pair = 1 << (4 * link);
    }
    mesh
}

/// 256 links between two nodes: right after the cut of the last one, and at rest.
fn of_256_links(random: &mut Random) -> Vec<Upgrade> {
    let mut stages = stages::of_run(&bare(&two_nodes(256)), 255, random);
    let last = stages.pop();
    let both = stages.into_iter().take(1).chain(last);
    both.map(|old| with_calls(old, behind::runs, random))
        .collect()
}

/// Ill-formed ones: every fault alone, and a pair below the previous one at each
/// link.
fn refused(random: &mut Random) -> Vec<Upgrade> {
    let path = bare(&each(&(4, vec![(0, 2), (1, 2), (1, 3)]), 2));
    let good = good_sessions(&all_filled(&path, random), random);
    let mut sessions = by_turns(&good, single);
    sessions.extend(by_turns(&good, falling));
    let called = |old| with_some_calls(old, random);
    sessions.into_iter().map(called).collect()
}

/// 8: at each link after the first the pair (0, 1), which is below all others;
/// and with 13.
fn falling(good: &OldSession) -> Vec<Vec<Fault>> {
    let places = 1..usize::from(good.count);
    let fault = |at| Fault::of_ends(Reason::BelowPrevious, at, (0, 1));
    let mut faults: Vec<Vec<Fault>> = places.map(|at| vec![fault(at)]).collect();
    faults.push(vec![fault(3), faults::state(0, 5)]);
    faults.push(vec![fault(2), fault(4)]);
    faults
}

/// 8 at a middle and at the last of 256 links between the same nodes.
fn falling_in_256() -> [Upgrade; 2] {
    let equal = bare(&(9, vec![(3, 6); MOST_LINKS]));
    let good = OldSession::fresh(&equal, &Plan::ZERO);
    [128, 255].map(|at| {
        let fault = Fault::of_ends(Reason::BelowPrevious, at, (3, 5));
        Upgrade {
            old: fault.applied(&good),
            calls: vec![Call::Status(at as u16, 1), Call::Run(1)],
        }
    })
}

#[cfg(test)]
mod tests {
    use super::*;

    fn answers(upgrades: &[Upgrade]) -> Vec<Option<u8>> {
        let answer = |one: &Upgrade| one.old.carry_over().1.err().map(|one| one.number());
        upgrades.iter().map(answer).collect()
    }

    #[test]
    fn refused_ones_meet_8_and_every_other_check() {
        let answers = answers(&refused(&mut Random::new(1)));
        for number in [3, 4, 6, 7, 8, 13] {
            assert!(answers.contains(&Some(number)), "{number}");
        }
        let below = answers.iter().filter(|one| **one == Some(8)).count();
        assert!(below >= 7, "{below}");
        assert_eq!(self::answers(&falling_in_256()), [Some(8); 2]);
    }

    #[test]
    fn most_are_carried_over() {
        let mut carried = 0;
        for case in cases(&mut Random::new(1)) {
            let Case::Upgrade(upgrade) = case else {
                panic!("another case");
            };
            carried += usize::from(upgrade.old.carry_over().1.is_ok());
        }
        assert!(carried > 120, "{carried}");
    }
}
