//! Old sessions with no link, on two nodes and on 64, and with one link in every
//! state, and every call on what they become.

use super::super::meshes::plain;
use super::super::scripts::caller::Caller;
use super::behind::with_calls;
use crate::mesh::MOST_NODES;
use crate::old_session::OldSession;
use crate::plan::Plan;
use crate::random::Random;
use crate::script::Call;
use crate::session::RELEASED;
use crate::upgrade::Upgrade;

pub fn upgrades(random: &mut Random) -> Vec<Upgrade> {
    let mut sessions = without_links();
    sessions.extend(with_one_link());
    let called = |old| with_calls(old, every_call, random);
    sessions.into_iter().map(called).collect()
}

/// Every set of reached nodes of two; none and all of 64.
fn without_links() -> Vec<OldSession> {
    let fresh = |nodes| OldSession::fresh(&plain(nodes, &[]), &Plan::ZERO);
    let two = |reached| with_reached(&fresh(2), reached);
    let most = |reached| OldSession {
        reached: [reached; MOST_NODES as usize],
        ..fresh(MOST_NODES)
    };
    let mut sessions = Vec::from([0, 1, 2, 3].map(two));
    sessions.extend([false, true].map(most));
    sessions
}

/// Every cut, direction and state. Half of the sets of reached nodes stand with
/// one of these, the other half with the next.
fn with_one_link() -> Vec<OldSession> {
    let fresh = OldSession::fresh(&plain(2, &[(0, 1)]), &Plan::ZERO);
    let mut sessions = Vec::new();
    for cut in [None, Some(0)] {
        for direction in [0, 1] {
            for state in 0..=RELEASED {
                let mut session = fresh.clone();
                session.cut = cut;
                session.directions[0] = direction;
                session.states[0] = state;
                let half = (direction + state) % 2;
                sessions.extend([half, half + 2].map(|reached| with_reached(&session, reached)));
            }
        }
    }
    sessions
}

/// A node is reached where its bit stands.
fn with_reached(session: &OldSession, reached: u8) -> OldSession {
    let mut session = session.clone();
    session.reached[0] = reached % 2 == 1;
    session.reached[1] = reached / 2 == 1;
    session
}

/// Questions first; the calls that change most sessions last.
fn every_call(caller: &mut Caller) {
    caller.both_statuses(0);
    caller.both_routes();
    caller.make_all(&[Call::Status(1, 3), Call::Status(0, 0), Call::Deliver(0, 2)]);
    caller.make_all(&[Call::Mend(0), Call::Deliver(0, 1), Call::Cut(0)]);
    caller.make_all(&[Call::Run(9), Call::Mend(0), Call::Status(0, 1)]);
}

#[cfg(test)]
mod tests {
    use super::*;

    #[test]
    fn every_session_is_there_once_and_accepted() {
        for (sessions, count) in [(without_links(), 6), (with_one_link(), 40)] {
            assert_eq!(sessions.len(), count);
            for (number, session) in sessions.iter().enumerate() {
                assert_eq!(session.carry_over().1, Ok(()));
                assert!(!sessions[..number].contains(session));
            }
        }
    }
}
