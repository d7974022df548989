//! Sessions that the record's test refuses.

use super::super::wrong_meshes::wrong_meshes;
use crate::mesh::{Link, Mesh, MOST_NODES};
use crate::session::{Session, Wavelength};

/// Every kind of ill-formed session made from a good one with three links to
/// 254 and fewer than 63 nodes.
pub fn wrong_sessions(good: &Session) -> Vec<Session> {
    let mut sessions = wrong_directions(good);
    sessions.extend(wrong_cuts(good));
    for wavelength in Wavelength::BOTH {
        sessions.extend(wrong_states(good, wavelength));
        sessions.extend(wrong_reached(good, wavelength));
    }
    sessions.extend(wrong_mesh(good));
    sessions.extend(several_wrong(good));
    sessions
}

/// 13: a direction above 1, and one past L that is not 0.
fn wrong_directions(good: &Session) -> Vec<Session> {
    let count = good.mesh.counted().len();
    let places = [(0, 2), (0, 255), (count / 2, 2), (count - 1, 255)];
    let past = [(count, 1), (count, 2), (255, 1), (255, 255)];
    let with = |(place, direction): (usize, u8)| {
        let mut session = good.clone();
        session.plan.directions[place] = direction;
        session
    };
    places.into_iter().chain(past).map(with).collect()
}

/// 13: a state above 4, and one past L that is not 0.
fn wrong_states(good: &Session, wavelength: Wavelength) -> Vec<Session> {
    let count = good.mesh.counted().len();
    let places = [(0, 5), (0, 255), (count / 2, 6), (count - 1, 5)];
    let past = [(count, 1), (count, 4), (count, 5), (255, 2), (255, 255)];
    let with = |(place, state): (usize, u8)| {
        let mut session = good.clone();
        session.floods[wavelength].states[place] = state;
        session
    };
    places.into_iter().chain(past).map(with).collect()
}

/// 13: a cut that is neither a link nor none.
fn wrong_cuts(good: &Session) -> Vec<Session> {
    let count = good.mesh.count;
    let cuts = [count, count + 1, 255, 256, 257, 65_534];
    let with = |cut| Session {
        cut: Some(cut),
        ..good.clone()
    };
    cuts.map(with).into()
}

/// 13: a reached node not below N.
fn wrong_reached(good: &Session, wavelength: Wavelength) -> Vec<Session> {
    let nodes = usize::from(good.mesh.nodes);
    let last = usize::from(MOST_NODES) - 1;
    let with = |node: usize| {
        let mut session = good.clone();
        session.floods[wavelength].reached[node] = true;
        session
    };
    [nodes, (nodes + last) / 2, last].map(with).into()
}

/// 3, 4, 6, 7, 8 and 13 of the mesh, and pairs that are repeated.
fn wrong_mesh(good: &Session) -> Vec<Session> {
    let mesh = &good.mesh;
    let mut meshes = vec![
        with_numbers(mesh, 0, mesh.count),
        with_numbers(mesh, 1, mesh.count),
        with_numbers(mesh, 65, mesh.count),
        with_numbers(mesh, 255, 257),
        with_numbers(mesh, mesh.nodes, 257),
        with_numbers(mesh, mesh.nodes, 65_535),
        with_numbers(mesh, mesh.nodes, mesh.count + 1),
        with_numbers(mesh, mesh.nodes, mesh.count - 1),
        with_numbers(mesh, mesh.nodes - 1, mesh.count),
    ];
    meshes.extend(wrong_meshes(mesh).into_iter().skip(18).step_by(5));
    let with = |mesh| Session {
        mesh,
        ..good.clone()
    };
    meshes.into_iter().map(with).collect()
}

fn with_numbers(mesh: &Mesh, nodes: u8, count: u16) -> Mesh {
    Mesh {
        nodes,
        count,
        ..mesh.clone()
    }
}

/// A fault of the mesh before 13, and several that are 13.
fn several_wrong(good: &Session) -> Vec<Session> {
    let last = good.mesh.counted().len() - 1;
    let mut all = good.clone();
    all.plan.directions[last] = 2;
    all.floods.first.states[last] = 5;
    all.floods.second.states[0] = 255;
    all.cut = Some(good.mesh.count);
    all.floods.second.reached[usize::from(MOST_NODES) - 1] = true;
    let mut past = all.clone();
    past.mesh.links[255].length = 1;
    let with_last = |low, high| {
        let mut session = past.clone();
        let link = &mut session.mesh.links[last];
        *link = Link { low, high, ..*link };
        session
    };
    let before = good.mesh.links[last - 1];
    let mut sessions = vec![
        with_last(9, 9),
        with_last(0, 64),
        with_last(before.low, before.high),
    ];
    let mut nodes = past.clone();
    nodes.mesh.nodes = 65;
    let mut count = past.clone();
    count.mesh.count = 257;
    sessions.extend([all, past, nodes, count]);
    sessions
}
