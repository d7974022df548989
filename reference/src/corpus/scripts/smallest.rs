//! Well-formed sessions on two nodes, with no link and with one in every pair
//! of states, and every call on them.

use super::super::meshes::plain;
use super::caller::Caller;
use crate::mesh::Mesh;
use crate::random::Random;
use crate::script::{Call, Origin, Script};
use crate::session::{Session, Wavelength};

pub fn scripts(random: &mut Random) -> Vec<Script> {
    let mut scripts = Vec::new();
    for mesh in [plain(2, &[]), plain(2, &[(0, 1)])] {
        for origin in starts() {
            scripts.extend(called(&mesh, &origin, random));
        }
        for session in sessions(&mesh, random) {
            let origin = Caller::on(&session, &mesh, random).script().origin;
            scripts.extend(called(&mesh, &origin, random));
        }
    }
    scripts
}

/// On the mesh's plan, which is all zeros as planning refuses, and on other
/// directions: 13 where one is above 1, or above 0 past L.
fn starts() -> Vec<Origin> {
    let given: [&[u8]; 6] = [&[], &[0], &[1], &[2], &[255], &[0, 1]];
    let mut starts = vec![Origin::OwnPlan];
    starts.extend(given.map(|directions| Origin::GivenPlan(directions.to_vec())));
    starts
}

/// Every cut and every pair of states, in each direction. Every set of reached
/// nodes stands beside every set of the other wavelength, by turns.
fn sessions(mesh: &Mesh, random: &mut Random) -> Vec<Session> {
    let count = mesh.counted().len();
    let choices = if count == 0 { 0..8 } else { 0..2 * 2 * 5 * 5 };
    let mut sessions = Vec::new();
    for choice in choices {
        for half in 0..2 {
            let direction = vec![choice % 2; count];
            let origin = Origin::GivenPlan(direction);
            let mut session = Caller::new(mesh, origin, random).session;
            session.cut = Some(0).filter(|_| count > 0 && choice / 2 % 2 == 1);
            // Every number below 16 comes in each direction with each cut.
            let turn = if count == 0 {
                choice
            } else {
                choice / 4 + 3 * (choice % 4)
            };
            let reached = (2 * turn + half) % 16;
            let floods = [(choice / 4 % 5, reached % 4), (choice / 20, reached / 4)];
            for (wavelength, (state, reached)) in Wavelength::BOTH.into_iter().zip(floods) {
                let flood = &mut session.floods[wavelength];
                flood.states[..count].fill(state);
                flood.reached[0] = reached % 2 == 1;
                flood.reached[1] = reached / 2 == 1;
            }
            sessions.push(session);
        }
    }
    sessions
}

/// First every call that leaves the session, then one that changes it, then
/// every call: a script for each call that changes it. Those after the first
/// begin with that call and end with questions.
fn called(mesh: &Mesh, origin: &Origin, random: &mut Random) -> Vec<Script> {
    let start = origin.session(mesh).0;
    let leaves = |call: &Call| after(&start, mesh, *call) == start;
    let (leaving, changing): (Vec<Call>, Vec<Call>) = calls().iter().partition(|call| leaves(call));
    let mut scripts = Vec::new();
    for turn in 0..changing.len().max(1) {
        let mut caller = Caller::new(mesh, origin.clone(), random);
        if turn == 0 {
            caller.make_all(&leaving);
        }
        if let Some(call) = changing.get(turn) {
            caller.make(*call);
            caller.make_all(&if turn == 0 { calls() } else { questions() });
        }
        scripts.push(caller.script());
    }
    scripts
}

fn questions() -> Vec<Call> {
    let mut calls = Vec::from([1, 2].map(|wavelength| Call::Status(0, wavelength)));
    calls.extend([1, 2].map(Call::Route));
    calls.extend([Call::Run(1), Call::Mend(0)]);
    calls
}

/// Every kind of call, with a link, the first number that is none and the
/// greatest number, and with wavelengths and numbers that are none.
fn calls() -> Vec<Call> {
    let pairs = [(0, 1), (0, 2), (0, 3), (1, 0), (65_535, 2)];
    let mut calls = Vec::new();
    calls.extend(pairs.map(|(link, wavelength)| Call::Status(link, wavelength)));
    calls.extend(pairs.map(|(link, wavelength)| Call::Deliver(link, wavelength)));
    calls.extend([0, 1, 65_535].map(Call::Mend));
    calls.extend([0, 1, 65_535].map(Call::Cut));
    calls.extend([0, 1, u32::MAX].map(Call::Run));
    calls.extend([1, 2, 255].map(Call::Route));
    calls
}

fn after(session: &Session, mesh: &Mesh, call: Call) -> Session {
    let random = &mut Random::new(0);
    let mut caller = Caller::on(session, mesh, random);
    caller.make(call);
    caller.session
}

#[cfg(test)]
mod tests {
    use super::*;
    use std::collections::BTreeSet;

    #[test]
    fn every_pair_of_reached_sets_is_met_under_each_cut_in_each_direction() {
        let all = sessions(&plain(2, &[(0, 1)]), &mut Random::new(0));
        for cut in [None, Some(0)] {
            for direction in [0, 1] {
                let met = all
                    .iter()
                    .filter(|one| one.cut == cut && one.plan.directions[0] == direction)
                    .map(|one| (one.floods.first.reached, one.floods.second.reached));
                assert_eq!(met.collect::<BTreeSet<_>>().len(), 16);
            }
        }
    }

    #[test]
    fn every_session_is_there_once_and_well_formed() {
        let random = &mut Random::new(0);
        for (mesh, count) in [(plain(2, &[]), 16), (plain(2, &[(0, 1)]), 200)] {
            let sessions = sessions(&mesh, random);
            assert_eq!(sessions.len(), count);
            for (number, session) in sessions.iter().enumerate() {
                assert_eq!(session.check(), Ok(()));
                assert!(!sessions[..number].contains(session));
            }
        }
    }
}
