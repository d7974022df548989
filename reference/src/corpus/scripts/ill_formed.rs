//! Calls on sessions that the record's test refuses.

use super::caller::Caller;
use super::faults::wrong_sessions;
use super::grounds::{largest, middle, p5, triangle};
use crate::mesh::Mesh;
use crate::random::Random;
use crate::script::{Call, Origin, Script};
use crate::session::Session;

pub fn scripts(random: &mut Random) -> Vec<Script> {
    let mut scripts = Vec::new();
    for mesh in [triangle(), p5(), middle(random)] {
        // The same faults in each, so each fault is taken by turns.
        let wrong = good_sessions(&mesh, random).map(|good| wrong_sessions(&good));
        for fault in 0..wrong[0].len() {
            let session = &wrong[fault % wrong.len()][fault];
            scripts.push(called(session, &mesh, random));
        }
    }
    let mesh = largest(random);
    let [_, moving, _] = good_sessions(&mesh, random);
    for session in wrong_largest(&moving) {
        scripts.push(called(&session, &mesh, random));
    }
    scripts
}

/// A fresh session, one soon after a cut, and one at rest.
fn good_sessions(mesh: &Mesh, random: &mut Random) -> [Session; 3] {
    let mut caller = Caller::new(mesh, Origin::OwnPlan, random);
    let fresh = caller.session.clone();
    let link = caller.inner_link();
    caller.make_all(&[Call::Cut(link), Call::Run(1)]);
    let moving = caller.session.clone();
    caller.make(Call::Run(u32::MAX));
    [fresh, moving, caller.session]
}

/// Faults at the last of 256 links and at the last of 64 nodes; some are none,
/// as every link number below 256 is a link and every node below 64 a node.
fn wrong_largest(good: &Session) -> Vec<Session> {
    let mut sessions = vec![good.clone(); 11];
    sessions[0].plan.directions[255] = 2;
    sessions[1].floods.first.states[255] = 5;
    sessions[2].cut = Some(256);
    sessions[3].cut = Some(65_534);
    sessions[4].mesh.count = 255;
    sessions[5].mesh.nodes = 63;
    sessions[6].mesh.count = 257;
    // Well formed.
    sessions[7].cut = Some(255);
    sessions[8].floods.first.reached[63] = true;
    sessions[9].floods.second.reached[63] = true;
    // Ill formed again.
    sessions[10].floods.second.states[255] = 5;
    sessions
}

/// Each kind of call, in random order, with links in and out of range.
pub fn called(session: &Session, mesh: &Mesh, random: &mut Random) -> Script {
    let mut caller = Caller::on(session, mesh, random);
    let mut calls = [
        Call::Cut(caller.link()),
        caller.delivery(),
        Call::Mend(session.cut.unwrap_or(0)),
        caller.status(),
        Call::Run(caller.allowance()),
        caller.route(),
    ];
    caller.random.shuffle(&mut calls);
    caller.make_all(&calls);
    caller.script()
}

#[cfg(test)]
mod tests {
    use super::*;

    #[test]
    fn most_records_are_refused() {
        for seed in 0..20 {
            let scripts = scripts(&mut Random::new(seed));
            let checks = scripts.iter().map(|script| script.begin().0.check());
            let refused = checks.filter(|check| check.is_err()).count();
            assert!(refused + 6 >= scripts.len());
        }
    }

    #[test]
    fn refused_calls_leave_the_session() {
        for script in scripts(&mut Random::new(1)) {
            let (mut session, _) = script.begin();
            let before = session.clone();
            if let Err(refusal) = session.check() {
                assert_eq!(session.cut(0), Err(refusal));
                assert_eq!(session.deliver(0, 2), Err(refusal));
                assert_eq!(session.mend(0), Err(refusal));
                assert_eq!(session.run(u32::MAX), Err(refusal));
                assert_eq!(session.status(0, 0), Err(refusal));
                assert_eq!(session.route(1), Err(refusal));
                assert_eq!(session, before);
            }
        }
    }
}
