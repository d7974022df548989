//! Statuses on sessions that no list of calls produces: taken links that are no
//! route, and rest without a taken link.

use super::super::meshes::{
    length, partly_filled, plain, with_lengths, with_powers_of_two, with_unmeasured,
};
use super::super::shapes;
use super::caller::Caller;
use super::grounds::{dense, p5, small, triangle};
use crate::mesh::Mesh;
use crate::plan::plan;
use crate::random::Random;
use crate::script::{Call, Script};
use crate::session::{start, Flood, Floods, Session};
use crate::session::{OFFERED, QUIET, REFUSED, RELEASED, TAKEN};

const LONGEST: u16 = 65_535;

pub fn scripts(random: &mut Random) -> Vec<Script> {
    let mut sessions = one_link();
    sessions.extend(one_taken());
    sessions.extend(every_rest());
    sessions.extend(one_under_way());
    sessions.extend(all_taken(random));
    sessions.extend(one_place_of_256());
    sessions.extend(random_states(random));
    let called = |(turn, session)| {
        let session = with_other(session, turn, random);
        called(&session, random)
    };
    sessions.into_iter().enumerate().map(called).collect()
}

/// By turns the states are those of wavelength 1 or of 2, and the other
/// wavelength is fresh, at rest with taken links, or has links under way.
fn with_other(session: Session, turn: usize, random: &mut Random) -> Session {
    let states: &[u8] = match turn / 2 % 4 {
        0 => &[QUIET],
        3 => &[QUIET, TAKEN, OFFERED, REFUSED],
        _ => &[QUIET, TAKEN, RELEASED],
    };
    let (first, second) = (
        session.floods.first,
        flood(&session.mesh, |_| random.pick(states)),
    );
    let floods = match turn % 2 {
        0 => Floods { first, second },
        _ => Floods {
            first: second,
            second: first,
        },
    };
    Session { floods, ..session }
}

/// One link in every state, with a cut and without one.
fn one_link() -> Vec<Session> {
    let mut sessions = Vec::new();
    for length in [0, 1, LONGEST] {
        let mesh = with_lengths(&plain(2, &[(0, 1)]), |_| length);
        for cut in [None, Some(0)] {
            let states = [QUIET, OFFERED, TAKEN, REFUSED, RELEASED];
            sessions.extend(states.map(|state| session(&mesh, cut, |_| state)));
        }
    }
    sessions
}

/// Each link as the only taken one under each cut, also under its own. By turns
/// all links are measured, all but that one, and that one alone.
fn one_taken() -> Vec<Session> {
    let mesh = with_powers_of_two(&p5());
    let mut sessions = Vec::new();
    for cut in 0..mesh.count {
        for taken in 0..mesh.counted().len() {
            let lengths = match (usize::from(cut) + taken) % 3 {
                0 => mesh.clone(),
                1 => with_unmeasured(&mesh, taken),
                _ => with_lengths(&p5(), |link| u16::from(link == taken)),
            };
            let state = |link| if link == taken { TAKEN } else { RELEASED };
            sessions.push(session(&lengths, Some(cut), state));
        }
    }
    sessions
}

/// Every choice of quiet, taken and released links of a triangle, with a cut
/// and without one. By turns all links are measured, or all but one.
fn every_rest() -> Vec<Session> {
    let all = with_powers_of_two(&triangle());
    let mut sessions = Vec::new();
    for choice in 0..27 {
        let state = |link: usize| [QUIET, TAKEN, RELEASED][choice / [1, 3, 9][link] % 3];
        let mesh = match choice % 4 {
            3 => all.clone(),
            link => with_unmeasured(&all, link),
        };
        for cut in [None, Some(0), Some(2)] {
            sessions.push(session(&mesh, cut, state));
        }
    }
    sessions
}

/// All links of P5 but one taken, one of these not measured, and the one left
/// under way.
fn one_under_way() -> Vec<Session> {
    let all = with_powers_of_two(&p5());
    let mut sessions = Vec::new();
    for under_way in 0..all.counted().len() {
        for state in [OFFERED, REFUSED] {
            let mesh = with_unmeasured(&all, (under_way + 1) % 5);
            let state = |link| if link == under_way { state } else { TAKEN };
            sessions.push(session(&mesh, Some(4), state));
        }
    }
    sessions
}

/// The greatest sums: 256 taken links, and sums with one link fewer.
fn all_taken(random: &mut Random) -> Vec<Session> {
    let longest = with_lengths(&dense(), |_| LONGEST);
    let taken = |mesh: &Mesh, cut| session(mesh, cut, |_| TAKEN);
    let cuts = [None, Some(0), Some(127), Some(255)];
    let mut sessions = Vec::from(cuts.map(|cut| taken(&longest, cut)));
    for link in [0, 1, 127, 128, 254, 255] {
        let mesh = with_unmeasured(&longest, link);
        sessions.push(taken(&mesh, Some(3)));
        let state = if link % 2 == 0 { QUIET } else { RELEASED };
        let off_the_sum = |other| if other == link { state } else { TAKEN };
        sessions.push(session(&mesh, Some(3), off_the_sum));
    }
    sessions.push(taken(&with_lengths(&dense(), |_| 1), Some(4)));
    sessions.push(taken(&with_lengths(&dense(), |_| length(random)), Some(5)));
    // Every other link is taken, and these alone are measured.
    let mesh = with_lengths(&dense(), |link| 257 * (link as u16 % 2));
    let every_other = |link| [QUIET, TAKEN][link % 2];
    sessions.push(session(&mesh, Some(6), every_other));
    sessions
}

/// One of 256 links alone is taken and measured, or all are taken and it alone is
/// not measured.
fn one_place_of_256() -> Vec<Session> {
    let places = [
        2, 3, 4, 7, 8, 15, 16, 31, 32, 63, 64, 65, 129, 191, 192, 253,
    ];
    let one = |place| {
        let mesh = with_lengths(&dense(), |link| 7 * u16::from(link == place));
        let state = |link| if link == place { TAKEN } else { QUIET };
        session(&mesh, Some(9), state)
    };
    let mut sessions = Vec::from(places.map(one));
    for place in [2, 63, 64, 253] {
        let mesh = with_unmeasured(&with_lengths(&dense(), |_| 1), place);
        sessions.push(session(&mesh, Some(9), |_| TAKEN));
    }
    sessions
}

/// Random states, mostly at rest, on small meshes and on rings.
fn random_states(random: &mut Random) -> Vec<Session> {
    let states: [&[u8]; 4] = [
        &[QUIET, TAKEN, RELEASED],
        &[TAKEN, TAKEN, TAKEN, RELEASED],
        &[QUIET, QUIET, TAKEN],
        &[QUIET, TAKEN, TAKEN, OFFERED, REFUSED],
    ];
    let mut sessions = Vec::new();
    for turn in 0..60 {
        let mesh = match turn % 3 {
            0 => {
                let nodes = random.between(5, 20) as u8;
                partly_filled(nodes, &shapes::ring(nodes), random)
            }
            _ => small(random),
        };
        let cut = random.below(mesh.count.into()) as u16;
        let cut = Some(cut).filter(|_| turn % 5 > 0);
        let from = states[turn % states.len()];
        sessions.push(session(&mesh, cut, |_| random.pick(from)));
    }
    sessions
}

/// The session on the mesh's plan with this cut and these states of
/// wavelength 1.
fn session(mesh: &Mesh, cut: Option<u16>, state: impl FnMut(usize) -> u8) -> Session {
    let mut session = start(mesh, &plan(mesh).0).0;
    session.cut = cut;
    session.floods.first = flood(mesh, state);
    session
}

fn flood(mesh: &Mesh, mut state: impl FnMut(usize) -> u8) -> Flood {
    let mut flood = Flood::FRESH;
    let links = &mut flood.states[..mesh.counted().len()];
    for (link, stored) in links.iter_mut().enumerate() {
        *stored = state(link);
    }
    flood
}

/// Statuses as the session is, after one delivery, at rest and after a mend.
fn called(session: &Session, random: &mut Random) -> Script {
    let mut caller = Caller::on(session, &session.mesh, random);
    let [first, second] = [caller.inner_link(), caller.inner_link()];
    caller.both_statuses(first);
    if !session.is_at_rest() {
        caller.make(Call::Run(1));
        caller.both_statuses(first);
        caller.make(Call::Run(u32::MAX));
        caller.both_statuses(second);
    }
    let cut = session.cut.unwrap_or(first);
    caller.make_all(&[Call::Mend(cut), Call::Status(first, 1)]);
    caller.script()
}

#[cfg(test)]
mod tests {
    use super::*;
    use crate::session::RouteLength;

    /// What the first status of each script says of the route's length.
    fn lengths(sessions: &[Session]) -> Vec<RouteLength> {
        let of = |session: &Session| session.status(0, 1).unwrap().route;
        sessions.iter().map(of).collect()
    }

    fn count(lengths: &[RouteLength], length: RouteLength) -> usize {
        lengths.iter().filter(|one| **one == length).count()
    }

    #[test]
    fn each_session_is_well_formed() {
        for script in scripts(&mut Random::new(1)) {
            assert_eq!(script.begin().0.check(), Ok(()));
        }
    }

    #[test]
    fn one_link_has_every_answer() {
        let lengths = lengths(&one_link());
        assert_eq!(count(&lengths, RouteLength::NotKnown), 1);
        assert_eq!(count(&lengths, RouteLength::Metres(1)), 1);
        assert_eq!(count(&lengths, RouteLength::Metres(65_535)), 1);
        assert_eq!(count(&lengths, RouteLength::Metres(0)), 27);
    }

    #[test]
    fn a_link_under_way_makes_it_0() {
        let lengths = lengths(&one_under_way());
        assert_eq!(count(&lengths, RouteLength::Metres(0)), lengths.len());
    }

    #[test]
    fn the_greatest_sums() {
        let lengths = lengths(&all_taken(&mut Random::new(1)));
        assert_eq!(count(&lengths, RouteLength::Metres(16_776_960)), 3);
        assert_eq!(count(&lengths, RouteLength::Metres(16_711_425)), 6);
        assert_eq!(count(&lengths, RouteLength::NotKnown), 6);
        assert_eq!(count(&lengths, RouteLength::Metres(256)), 1);
        assert_eq!(count(&lengths, RouteLength::Metres(128 * 257)), 1);
    }
}
