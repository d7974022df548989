//! Sessions with a fault at every position of their record in turn, and with
//! every value at one position.

use super::super::mesh_sweeps::wrong_links;
use super::caller::Caller;
use super::grounds::{dense, triangle};
use crate::mesh::{Mesh, MOST_LINKS, MOST_NODES};
use crate::plan::Plan;
use crate::random::Random;
use crate::script::{Call, Script};
use crate::session::{start, Session, Wavelength};

pub fn scripts(random: &mut Random) -> Vec<Script> {
    let mut scripts = Vec::new();
    // With three links most positions are past L, with 256 links none is.
    for mesh in [triangle(), dense()] {
        let good = fresh(&mesh);
        for (place, session) in every_position(&good) {
            scripts.push(called(&session, &mesh, place, random));
        }
    }
    for (place, session) in every_value(&fresh(&triangle())) {
        scripts.push(called(&session, &triangle(), place, random));
    }
    for (mesh, wavelength, node) in reached() {
        let session = with_reached(&fresh(&mesh), wavelength, node);
        scripts.push(called(&session, &mesh, node, random));
    }
    for wrong in wrong_links(&dense()) {
        let session = Session {
            mesh: wrong,
            ..fresh(&dense())
        };
        scripts.push(called(&session, &dense(), 0, random));
    }
    scripts
}

/// A fresh session; the directions, all 0, take no bytes in a script.
fn fresh(mesh: &Mesh) -> Session {
    start(mesh, &Plan::ZERO).0
}

fn every_position(good: &Session) -> Vec<(usize, Session)> {
    let mut sessions = directions(good);
    for wavelength in Wavelength::BOTH {
        sessions.extend(states(good, wavelength));
    }
    sessions.extend(cuts(good));
    sessions
}

/// 13: a direction of 2, or one of 1 past L.
fn directions(good: &Session) -> Vec<(usize, Session)> {
    let with = |place| (place, with_direction(good, place, lowest(good, place, 2)));
    (0..MOST_LINKS).map(with).collect()
}

/// 13: a state of 5, or one of 1 past L.
fn states(good: &Session, wavelength: Wavelength) -> Vec<(usize, Session)> {
    let with = |place| {
        let state = lowest(good, place, 5);
        (place, with_state(good, wavelength, place, state))
    };
    (0..MOST_LINKS).map(with).collect()
}

/// The lowest wrong value, which is 1 past L.
fn lowest(good: &Session, place: usize, of_link: u8) -> u8 {
    if place < good.mesh.counted().len() {
        of_link
    } else {
        1
    }
}

/// 13: a direction above 1 and a state above 4. The links are 0, 1 and 2 by
/// turns; above 15 the wavelengths are 1 and 2 by turns.
fn every_value(good: &Session) -> Vec<(usize, Session)> {
    let mut sessions = Vec::new();
    for value in 0..=255 {
        let place = usize::from(value % 3);
        sessions.push((place, with_direction(good, place, value)));
        for wavelength in Wavelength::BOTH {
            if value < 16 || value % 2 == wavelength.number() % 2 {
                sessions.push((place, with_state(good, wavelength, place, value)));
            }
        }
    }
    sessions
}

fn with_direction(good: &Session, place: usize, direction: u8) -> Session {
    let mut session = good.clone();
    session.plan.directions[place] = direction;
    session
}

fn with_state(good: &Session, wavelength: Wavelength, place: usize, state: u8) -> Session {
    let mut session = good.clone();
    session.floods[wavelength].states[place] = state;
    session
}

/// 13: a cut not below L; the others stand. Of 256 links only the first and the
/// last ones are cut.
fn cuts(good: &Session) -> Vec<(usize, Session)> {
    let with = |cut: u16| {
        let session = Session {
            cut: Some(cut),
            ..good.clone()
        };
        (cut.into(), session)
    };
    let all = (0..=260).chain([65_534]);
    let near_an_end = |cut: &u16| good.mesh.count < 256 || *cut < 3 || *cut > 250;
    all.filter(near_an_end).map(with).collect()
}

/// 13: a reached node not below N. Every node on each wavelength with N of 3;
/// N - 1 and N with every other N, on wavelengths 1 and 2 by turns.
fn reached() -> Vec<(Mesh, Wavelength, usize)> {
    let with_nodes = |nodes: u8| Mesh {
        nodes,
        ..triangle()
    };
    let [one, two] = Wavelength::BOTH;
    let mut places = Vec::new();
    for node in 0..MOST_NODES {
        places.extend([(3, one, node), (3, two, node)]);
    }
    for nodes in 4..=MOST_NODES {
        let wavelength = Wavelength::BOTH[usize::from(nodes % 2)];
        places.extend([(nodes, wavelength, nodes - 1), (nodes, wavelength, nodes)]);
    }
    places
        .into_iter()
        .filter(|(_, _, node)| *node < MOST_NODES)
        .map(|(nodes, wavelength, node)| (with_nodes(nodes), wavelength, node.into()))
        .collect()
}

fn with_reached(good: &Session, wavelength: Wavelength, node: usize) -> Session {
    let mut session = good.clone();
    session.floods[wavelength].reached[node] = true;
    session
}

/// A status of the place, where 13 comes before 12 and 14, and one of the other
/// calls by turns.
fn called(session: &Session, mesh: &Mesh, place: usize, random: &mut Random) -> Script {
    let mut caller = Caller::on(session, mesh, random);
    let wavelength = (place % 4) as u8;
    let others = [
        Call::Cut(0),
        Call::Deliver(0, wavelength),
        Call::Mend(0),
        Call::Run(1),
        Call::Route(wavelength),
    ];
    let status = Call::Status(place as u16, wavelength);
    caller.make_all(&[status, others[place % others.len()]]);
    caller.script()
}

#[cfg(test)]
mod tests {
    use super::*;
    use crate::refusal::{Reason, Refusal};

    fn refused(sessions: &[(usize, Session)]) -> usize {
        let ill_formed = Err(Refusal::new(Reason::IllFormed, 0));
        let checks = sessions.iter().map(|(_, session)| session.check());
        checks.filter(|check| *check == ill_formed).count()
    }

    #[test]
    fn every_position_is_refused() {
        for mesh in [triangle(), dense()] {
            let good = fresh(&mesh);
            assert_eq!(good.check(), Ok(()));
            assert_eq!(refused(&directions(&good)), 256);
            for wavelength in Wavelength::BOTH {
                assert_eq!(refused(&states(&good, wavelength)), 256);
            }
            assert_eq!(refused(&cuts(&good)), 262 - usize::from(mesh.count));
        }
    }

    #[test]
    fn two_directions_and_five_states_are_good() {
        let good = fresh(&triangle());
        assert_eq!(refused(&every_value(&good)), 2 * 256 + 16 - 2 - 2 * 5);
    }

    #[test]
    fn a_reached_node_is_refused_from_n_on() {
        for (mesh, wavelength, node) in reached() {
            let session = with_reached(&fresh(&mesh), wavelength, node);
            assert_eq!(session.check().is_ok(), node < mesh.nodes.into());
        }
    }
}
