//! Sessions that are well formed though no list of calls produces them.

use super::caller::Caller;
use super::grounds::{any, largest, small};
use crate::mesh::Mesh;
use crate::plan::{plan, Plan};
use crate::random::Random;
use crate::script::{Call, Script};
use crate::session::{start, Flood, Session, Wavelength};

/// The states to choose from, those named more than once more often.
pub const STATES: [&[u8]; 6] = [
    &[0, 1, 2, 3, 4],
    &[0, 2, 4],
    &[2],
    &[0, 0, 0, 1, 2, 3],
    &[1, 3],
    &[2, 2, 2, 3, 4],
];

pub fn scripts(random: &mut Random) -> Vec<Script> {
    let mut scripts = Vec::new();
    for turn in 0..260 {
        let mesh = if turn % 3 == 0 { any } else { small }(random);
        scripts.push(script(&mesh, turn, random));
    }
    for turn in 0..STATES.len() {
        let mesh = largest(random);
        let session = session(&mesh, states_of(turn), random);
        scripts.push(under_a_cut(session, &mesh, random));
    }
    scripts
}

/// Each choice of states and of calls by turns.
pub fn script(mesh: &Mesh, turn: usize, random: &mut Random) -> Script {
    let session = session(mesh, states_of(turn), random);
    match turn % 4 {
        0 => before_a_cut(session, mesh, random),
        1 => delivered(session, mesh, random),
        _ => under_a_cut(session, mesh, random),
    }
}

/// The states to choose from on each wavelength: every pair by turns.
fn states_of(turn: usize) -> [&'static [u8]; 2] {
    let choices = STATES.len();
    [STATES[turn % choices], STATES[turn / choices % choices]]
}

/// Random floods, on the mesh's plan or a random one.
fn session(mesh: &Mesh, states: [&[u8]; 2], random: &mut Random) -> Session {
    let (mut session, _) = start(mesh, &some_plan(mesh, random));
    for (wavelength, states) in Wavelength::BOTH.into_iter().zip(states) {
        session.floods[wavelength] = flood(mesh, states, random);
    }
    session
}

/// The mesh's plan or, one time in three, a random one.
pub fn some_plan(mesh: &Mesh, random: &mut Random) -> Plan {
    let mut plan = plan(mesh).0;
    if random.below(3) == 0 {
        plan = Plan::ZERO;
        let directions = &mut plan.directions[..mesh.count.into()];
        directions.fill_with(|| random.below(2) as u8);
    }
    plan
}

/// Random states and reached nodes.
pub fn flood(mesh: &Mesh, states: &[u8], random: &mut Random) -> Flood {
    let mut flood = Flood::FRESH;
    let links = &mut flood.states[..mesh.counted().len()];
    links.fill_with(|| random.pick(states));
    let share = random.below(5);
    let nodes = &mut flood.reached[..mesh.nodes.into()];
    nodes.fill_with(|| random.below(4) < share);
    flood
}

/// Links at x that are not quiet are offered all the same by a cut.
fn before_a_cut(session: Session, mesh: &Mesh, random: &mut Random) -> Script {
    let mut caller = Caller::on(&session, mesh, random);
    let calls = [
        caller.status(),
        caller.delivery(),
        Call::Run(caller.allowance()),
        caller.route(),
    ];
    let first = caller.random.below(3);
    caller.make_all(&calls[first..first + 2]);
    let link = caller.inner_link();
    caller.make(Call::Cut(link));
    caller.both_statuses(link);
    play(&mut caller);
    caller.script()
}

/// A cut stands; the calls are of all kinds.
fn under_a_cut(mut session: Session, mesh: &Mesh, random: &mut Random) -> Script {
    stand_cut(&mut session, random);
    let mut caller = Caller::on(&session, mesh, random);
    let link = caller.inner_link();
    caller.both_routes();
    caller.both_statuses(link);
    play(&mut caller);
    caller.script()
}

/// A cut stands; the calls are deliveries up to rest.
fn delivered(mut session: Session, mesh: &Mesh, random: &mut Random) -> Script {
    stand_cut(&mut session, random);
    let mut caller = Caller::on(&session, mesh, random);
    caller.flood(40);
    let link = caller.inner_link();
    caller.both_statuses(link);
    caller.both_routes();
    let call = caller.mending();
    caller.make(call);
    caller.script()
}

/// A random link is cut, if there is one.
fn stand_cut(session: &mut Session, random: &mut Random) {
    if session.mesh.count > 0 {
        session.cut = Some(random.below(session.mesh.count.into()) as u16);
    }
}

fn play(caller: &mut Caller) {
    let times = caller.random.between(6, 12);
    caller.jumble(times);
    if caller.random.below(2) == 0 {
        caller.make(Call::Run(u32::MAX));
        caller.both_routes();
    }
}

#[cfg(test)]
mod tests {
    use super::*;

    #[test]
    fn each_session_is_well_formed() {
        for seed in 0..20 {
            for script in scripts(&mut Random::new(seed)) {
                assert_eq!(script.begin().0.check(), Ok(()));
            }
        }
    }
}
