//! Old sessions that are refused, and some in which a pair is repeated; calls as
//! on the zeros that refused ones become.

use super::super::meshes::{all_filled, plain};
use super::super::scripts::caller::Caller;
use super::super::scripts::grounds::{dense, largest, triangle};
use super::faults::{self, Fault};
use super::lists::{at_rest, mended, under_way};
use super::old_caller::OldCaller;
use crate::mesh::{Mesh, MOST_LINKS};
use crate::old_session::OldSession;
use crate::plan::Plan;
use crate::random::Random;
use crate::upgrade::Upgrade;

/// Faults that stand together, the one that is met first before the others.
pub type Faults = fn(&OldSession) -> Vec<Vec<Fault>>;

pub fn upgrades(random: &mut Random) -> Vec<Upgrade> {
    let mut sessions = Vec::new();
    // With three links most entries are past L, with 256 links none is.
    for mesh in [triangle(), dense()] {
        let good = good_sessions(&all_filled(&mesh, random), random);
        sessions.extend(by_turns(&good, single));
        let pairs = by_turns(&good, pairs).into_iter();
        // These sessions take thousands of bytes.
        let step = if mesh.count > 100 { 3 } else { 1 };
        sessions.extend(pairs.step_by(step));
    }
    sessions.extend(without_links());
    sessions.extend(on_64_nodes(random));
    let called = |old| with_some_calls(old, random);
    sessions.into_iter().map(called).collect()
}

/// Each of the faults in one of the good sessions by turns; those met later are
/// made first.
pub fn by_turns(good: &[OldSession], faults: Faults) -> Vec<OldSession> {
    let mut sessions = Vec::new();
    for turn in 0..faults(&good[0]).len() {
        let good = &good[turn % good.len()];
        let wrong = faults(good).swap_remove(turn);
        sessions.push(with_all(good, &wrong));
    }
    sessions
}

fn with_all(good: &OldSession, faults: &[Fault]) -> OldSession {
    let with = |session: OldSession, fault: &Fault| fault.applied(&session);
    faults.iter().rfold(good.clone(), with)
}

/// With links under way, at rest, and mended.
pub fn good_sessions(mesh: &Mesh, random: &mut Random) -> [OldSession; 3] {
    [under_way, at_rest, mended].map(|before| {
        let mut caller = OldCaller::new(mesh, random);
        before(&mut caller);
        caller.session
    })
}

/// Every fault alone.
pub fn single(good: &OldSession) -> Vec<Vec<Fault>> {
    let mut faults = faults::of_numbers(good);
    faults.extend(faults::of_links(good));
    faults.extend(faults::of_values(good));
    if usize::from(good.count) < MOST_LINKS {
        faults.extend(faults::past_count(good));
    }
    faults.into_iter().map(|fault| vec![fault]).collect()
}

/// A fault of the mesh with each kind of 13; 3 with 4 and each of these with the
/// faults of a link; 7, 6 and a pair that is repeated at two links.
fn pairs(good: &OldSession) -> Vec<Vec<Fault>> {
    let of_mesh = of_mesh(good);
    let of_record = of_record(good);
    let mut pairs = Vec::new();
    for first in &of_mesh {
        pairs.extend(of_record.iter().map(|later| vec![first, later]));
    }
    for (first, fault) in of_mesh[..2].iter().enumerate() {
        let later = of_mesh[first + 1..].iter();
        pairs.extend(later.map(|later| vec![fault, later]));
    }
    let at_link_1 = faults::of_link(good, 1);
    for (first, later) in [(0, 1), (1, 2), (2, 0)] {
        pairs.push(vec![&at_link_1[first], &of_mesh[2 + later]]);
    }
    let owned = |pair: Vec<&Fault>| pair.into_iter().cloned().collect();
    pairs.into_iter().map(owned).collect()
}

/// 3, 4, and 7, 6 and a pair that is repeated at the last link.
fn of_mesh(good: &OldSession) -> Vec<Fault> {
    let last = usize::from(good.count) - 1;
    let numbers = faults::of_numbers(good).into_iter();
    let mut faults: Vec<Fault> = numbers.skip(3).take(2).collect();
    faults.extend(faults::of_link(good, last).into_iter().take(3));
    faults
}

/// 13 in each of its ways.
fn of_record(good: &OldSession) -> Vec<Fault> {
    let last = usize::from(good.count) - 1;
    let mut faults = vec![
        faults::direction(0, 2),
        faults::state(last, 5),
        faults::cut(good.count),
        faults::reached(good.nodes),
    ];
    if usize::from(good.count) < MOST_LINKS {
        faults.extend(faults::past(255).into_iter().take(4));
    }
    faults
}

/// With no link every entry is past L, and no cut is a link.
fn without_links() -> Vec<OldSession> {
    let good = OldSession::fresh(&plain(2, &[]), &Plan::ZERO);
    let mut wrong = vec![faults::cut(0), faults::reached(2)];
    wrong.extend(faults::past(0).into_iter().take(4));
    wrong.iter().map(|fault| fault.applied(&good)).collect()
}

/// With 64 nodes and 256 links: faults at the last link; no node is too high.
fn on_64_nodes(random: &mut Random) -> Vec<OldSession> {
    let [good, ..] = good_sessions(&largest(random), random);
    let wrong = [
        faults::direction(255, 2),
        faults::state(255, 5),
        faults::cut(256),
        faults::cut(65_534),
    ];
    wrong.iter().map(|fault| fault.applied(&good)).collect()
}

/// One or two calls of any kind.
pub fn with_some_calls(old: OldSession, random: &mut Random) -> Upgrade {
    let (zeros, _) = OldSession::ZERO.carry_over();
    let mut caller = Caller::on(&zeros, &zeros.mesh, random);
    let times = caller.random.between(1, 2);
    caller.jumble(times);
    let calls = caller.script().calls;
    Upgrade { old, calls }
}

#[cfg(test)]
mod tests {
    use super::*;
    use crate::session::start;

    #[test]
    fn the_first_fault_is_met_and_gives_what_a_refused_start_gives() {
        let random = &mut Random::new(0);
        let (zeros, _) = start(&Mesh::ZERO, &Plan::ZERO);
        for mesh in [triangle(), dense()] {
            for good in good_sessions(&all_filled(&mesh, random), random) {
                assert_eq!(good.carry_over().1, Ok(()));
                for faults in [single(&good), pairs(&good)].concat() {
                    let (session, answer) = with_all(&good, &faults).carry_over();
                    let first = faults.iter().find_map(|fault| fault.refusal);
                    assert_eq!(answer.err(), first);
                    assert_eq!(session == zeros, first.is_some());
                }
            }
        }
    }

    #[test]
    fn only_sessions_with_a_repeated_pair_are_carried_over() {
        let upgrades = upgrades(&mut Random::new(1));
        let kept = |upgrade: &&Upgrade| upgrade.old.carry_over().1.is_ok();
        let kept: Vec<&Upgrade> = upgrades.iter().filter(kept).collect();
        assert_eq!(kept.len(), 4);
        for upgrade in kept {
            let links = &upgrade.old.links[..upgrade.old.count.into()];
            let mut pairs = links.windows(2);
            assert!(pairs.any(|two| (two[0].low, two[0].high) == (two[1].low, two[1].high)));
        }
    }
}
