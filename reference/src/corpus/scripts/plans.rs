//! Starts on given plans: well formed but mostly not admissible, and refused.

use super::caller::Caller;
use super::grounds::{any, largest, middle, p5, small, triangle};
use crate::mesh::{Mesh, MOST_LINKS};
use crate::random::Random;
use crate::script::{Call, Origin, Script};

pub fn scripts(random: &mut Random) -> Vec<Script> {
    let mut scripts = Vec::new();
    for turn in 0..110 {
        let mesh = if turn < 80 { any } else { small }(random);
        scripts.push(script(&mesh, turn, random));
    }
    let mesh = largest(random);
    let directions = random_directions(MOST_LINKS, random);
    scripts.push(played(&mesh, directions, random));
    for mesh in [triangle(), p5(), middle(random)] {
        for directions in ill_formed(&mesh, random) {
            scripts.push(refused(&mesh, directions, random));
        }
    }
    // No entry is past 256 links.
    let mesh = largest(random);
    for (link, direction) in [(0, 2), (255, 2), (255, 255)] {
        let directions = with(&[0; MOST_LINKS], link, direction);
        scripts.push(refused(&mesh, directions, random));
    }
    scripts
}

/// A start on well-formed directions, of each kind by turns.
pub fn script(mesh: &Mesh, turn: usize, random: &mut Random) -> Script {
    let directions = well_formed(mesh, turn % 5, random);
    played(mesh, directions, random)
}

fn well_formed(mesh: &Mesh, kind: usize, random: &mut Random) -> Vec<u8> {
    let count = mesh.counted().len();
    match kind {
        0 => vec![0; random.below(MOST_LINKS + 1)],
        1 => vec![1; count],
        // The others are 0.
        2 => random_directions(random.below(count + 1), random),
        3 => {
            let mut directions = random_directions(count, random);
            directions.resize(random.between(count, MOST_LINKS), 0);
            directions
        }
        _ => random_directions(count, random),
    }
}

fn random_directions(count: usize, random: &mut Random) -> Vec<u8> {
    (0..count).map(|_| random.below(2) as u8).collect()
}

/// 13: a direction above 1, and one past L that is not 0.
fn ill_formed(mesh: &Mesh, random: &mut Random) -> Vec<Vec<u8>> {
    let count = mesh.counted().len();
    let places = [0, count / 2, count - 1, count, 255];
    let mut plans = Vec::new();
    for place in places {
        for direction in [1, 2, 255] {
            if place >= count || direction > 1 {
                let directions = random_directions(count, random);
                plans.push(with(&directions, place, direction));
            }
        }
    }
    plans
}

/// The directions with another one at `place`, and zeros up to it.
fn with(directions: &[u8], place: usize, direction: u8) -> Vec<u8> {
    let mut directions = directions.to_vec();
    directions.resize(directions.len().max(place + 1), 0);
    directions[place] = direction;
    directions
}

fn played(mesh: &Mesh, directions: Vec<u8>, random: &mut Random) -> Script {
    let mut caller = Caller::new(mesh, Origin::GivenPlan(directions), random);
    let link = caller.inner_link();
    caller.make(Call::Cut(link));
    caller.flood(30);
    caller.jumble(6);
    caller.make(Call::Run(u32::MAX));
    caller.both_routes();
    caller.script()
}

/// Calls on the session of a refused start, which is all zeros.
fn refused(mesh: &Mesh, directions: Vec<u8>, random: &mut Random) -> Script {
    let mut caller = Caller::new(mesh, Origin::GivenPlan(directions), random);
    caller.jumble(4);
    caller.script()
}
