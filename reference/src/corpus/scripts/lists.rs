//! Lists of calls that start on a mesh's own plan.

use super::caller::Caller;
use super::grounds::{largest, middle, parted, small};
use crate::mesh::Mesh;
use crate::random::Random;
use crate::script::{Call, Origin, Script};

/// Adds calls to a script, as many as fit a mesh of some size.
pub type Part = fn(&mut Caller, Size);

/// A mesh of a size.
pub type Ground = fn(&mut Random) -> Mesh;

#[derive(Clone, Copy)]
pub enum Size {
    Small,
    Middle,
    Largest,
}

/// How many on small, middle and the largest meshes.
pub type Times = [usize; 3];

const TIMES: [Times; 5] = [
    [90, 28, 2],
    [45, 20, 2],
    [25, 14, 2],
    [80, 34, 2],
    [50, 24, 2],
];

pub fn scripts(random: &mut Random) -> Vec<Script> {
    let mut scripts = on([small, middle, largest], TIMES, random);
    // Planning refuses these meshes, so all directions are 0.
    scripts.extend(many(25, parted, Size::Small, jumble, random));
    scripts.extend(many(25, parted, Size::Small, floods, random));
    scripts
}

/// So many of each part on small, middle and the largest meshes.
pub fn on(grounds: [Ground; 3], times: [Times; 5], random: &mut Random) -> Vec<Script> {
    let parts: [Part; 5] = [floods, runs, cycles, jumble, mixed];
    let sizes = [Size::Small, Size::Middle, Size::Largest];
    let mut scripts = Vec::new();
    for (part, times) in parts.into_iter().zip(times) {
        for ((ground, size), times) in grounds.into_iter().zip(sizes).zip(times) {
            scripts.extend(many(times, ground, size, part, random));
        }
    }
    scripts
}

fn many(times: usize, ground: Ground, size: Size, part: Part, random: &mut Random) -> Vec<Script> {
    let mut scripts = Vec::new();
    for _ in 0..times {
        let mesh = ground(random);
        let mut caller = Caller::new(&mesh, Origin::OwnPlan, random);
        part(&mut caller, size);
        scripts.push(caller.script());
    }
    scripts
}

/// A cut and its deliveries one by one until rest, then calls at rest.
fn floods(caller: &mut Caller, size: Size) {
    let (times, most) = match size {
        Size::Small => (caller.random.between(1, 2), 60),
        Size::Middle => (1, 200),
        Size::Largest => (1, 900),
    };
    for _ in 0..times {
        let link = caller.inner_link();
        caller.make(Call::Cut(link));
        caller.flood(most);
        at_rest(caller);
        caller.make(Call::Mend(link));
    }
    after_mend(caller);
}

fn at_rest(caller: &mut Caller) {
    let link = caller.link();
    caller.both_statuses(link);
    caller.both_routes();
    let refused = [
        caller.any_delivery(),
        Call::Cut(caller.link()),
        Call::Mend(caller.link()),
        Call::Run(caller.allowance()),
    ];
    let call = caller.random.pick(&refused);
    caller.make(call);
}

fn after_mend(caller: &mut Caller) {
    let calls = [
        caller.any_delivery(),
        Call::Mend(caller.link()),
        Call::Run(caller.allowance()),
        caller.route(),
        caller.status(),
    ];
    let first = caller.random.below(4);
    caller.make_all(&calls[first..first + 2]);
}

/// Runs with every kind of allowance after one cut.
fn runs(caller: &mut Caller, size: Size) {
    let link = caller.inner_link();
    caller.make_all(&[Call::Run(5), Call::Cut(link), Call::Run(0), Call::Run(1)]);
    let times = match size {
        Size::Small => 4,
        Size::Middle => 9,
        Size::Largest => 25,
    };
    for _ in 0..times {
        let allowance = caller.random.between(0, 4) as u32;
        caller.make(Call::Run(allowance));
        if caller.random.below(2) == 0 {
            let call = caller.hindrance();
            caller.make(call);
        }
    }
    caller.both_routes();
    caller.make(Call::Run(u32::MAX));
    caller.both_statuses(link);
    caller.both_routes();
    caller.make_all(&[Call::Run(0), Call::Run(1)]);
}

/// Cut, run and mend, link after link.
fn cycles(caller: &mut Caller, size: Size) {
    let times = match size {
        Size::Small => 4,
        Size::Middle => 5,
        Size::Largest => 40,
    };
    for _ in 0..times {
        let link = caller.inner_link();
        caller.make_all(&[Call::Cut(link), Call::Run(u32::MAX)]);
        caller.both_routes();
        if caller.random.below(3) == 0 {
            let call = caller.hindrance();
            caller.make(call);
        }
        caller.make(Call::Mend(link));
    }
    let link = caller.inner_link();
    caller.make_all(&[Call::Cut(link), Call::Run(u32::MAX)]);
    caller.both_statuses(link);
}

/// Calls of all kinds in random order.
fn jumble(caller: &mut Caller, size: Size) {
    let times = match size {
        Size::Small => caller.random.between(8, 24),
        Size::Middle => caller.random.between(20, 50),
        Size::Largest => 100,
    };
    caller.jumble(times);
}

/// A cut, some deliveries, a run that goes on from there, and a mend.
fn mixed(caller: &mut Caller, size: Size) {
    let most = match size {
        Size::Small => 8,
        Size::Middle => 20,
        Size::Largest => 120,
    };
    let link = caller.inner_link();
    caller.make(Call::Cut(link));
    for _ in 0..2 {
        let some = caller.random.between(1, most);
        caller.flood(some);
        let allowance = caller.random.between(0, 5) as u32;
        caller.make(Call::Run(allowance));
    }
    let call = caller.mending();
    caller.make(call);
    caller.make(Call::Run(u32::MAX));
    at_rest(caller);
    caller.make(Call::Mend(link));
}
