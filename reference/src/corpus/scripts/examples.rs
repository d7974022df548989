//! The document's bench examples, and every cut of their meshes.

use super::caller::Caller;
use super::grounds::{p5, triangle};
use crate::mesh::Mesh;
use crate::random::Random;
use crate::script::{Call, Origin, Script};

/// The deliveries of the run after P6's cut: link and wavelength.
pub const P6_TURNS: [(u16, u8); 12] = [
    (1, 1),
    (2, 1),
    (2, 2),
    (0, 2),
    (1, 2),
    (3, 1),
    (0, 1),
    (0, 1),
    (3, 1),
    (3, 2),
    (3, 2),
    (0, 2),
];

pub fn scripts() -> Vec<Script> {
    let p7 = [3, 0, 2, 1, 1];
    let mut scripts = vec![
        // P2.
        delivered(&triangle(), 0, &[1, 2]),
        // P6, delivery by delivery.
        delivered(&p5(), 4, &[1, 2, 3, 0, 0, 3]),
        // P7, and its first three deliveries.
        delivered(&p5(), 4, &p7),
        delivered(&p5(), 4, &p7[..3]),
        every_cut(&triangle()),
        every_cut(&p5()),
    ];
    // P6 as a run, with wavelength 2.
    scripts.extend(run(&p5(), 4, &P6_TURNS));
    scripts
}

/// Deliveries on wavelength 1, its route, and a mend that waits for both.
fn delivered(mesh: &Mesh, cut: u16, links: &[u16]) -> Script {
    let mut calls = vec![Call::Cut(cut)];
    calls.extend(links.iter().map(|link| Call::Deliver(*link, 1)));
    calls.extend([Call::Run(0), Call::Status(cut, 1), Call::Route(1)]);
    calls.extend([Call::Mend(cut), Call::Run(u32::MAX)]);
    calls.extend([Call::Status(cut, 1), Call::Status(cut, 2)]);
    calls.extend([Call::Route(1), Call::Route(2)]);
    calls.extend([Call::Mend(cut), Call::Route(1)]);
    script(mesh, &calls)
}

/// A run, and its deliveries one by one.
fn run(mesh: &Mesh, cut: u16, turns: &[(u16, u8)]) -> Vec<Script> {
    let asked = |calls: &[Call]| {
        let mut all = vec![Call::Cut(cut)];
        all.extend(calls);
        all.extend([Call::Status(cut, 1), Call::Status(cut, 2)]);
        all.extend([Call::Route(1), Call::Route(2)]);
        script(mesh, &all)
    };
    let deliver = |(link, wavelength): &(u16, u8)| Call::Deliver(*link, *wavelength);
    let deliveries: Vec<Call> = turns.iter().map(deliver).collect();
    vec![asked(&[Call::Run(u32::MAX)]), asked(&deliveries)]
}

pub fn every_cut(mesh: &Mesh) -> Script {
    let cut = |link| {
        [
            Call::Cut(link),
            Call::Run(u32::MAX),
            Call::Route(1),
            Call::Route(2),
            Call::Mend(link),
        ]
    };
    let calls: Vec<Call> = (0..mesh.count).flat_map(cut).collect();
    script(mesh, &calls)
}

fn script(mesh: &Mesh, calls: &[Call]) -> Script {
    let random = &mut Random::new(0);
    let mut caller = Caller::new(mesh, Origin::OwnPlan, random);
    caller.make_all(calls);
    caller.script()
}
