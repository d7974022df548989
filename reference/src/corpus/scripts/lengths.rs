//! Lists of calls that ask for the length of the route, on meshes with all,
//! some and no links measured.

use super::super::meshes::{
    filled, length, plain, with_lengths, with_powers_of_two, with_unmeasured, FILLS,
};
use super::super::shapes::{self, Shape};
use super::caller::Caller;
use super::grounds::{largest, middle, p5, small, triangle};
use crate::mesh::{Mesh, MOST_NODES};
use crate::random::Random;
use crate::script::{Call, Origin, Script};

pub fn scripts(random: &mut Random) -> Vec<Script> {
    let mut scripts = rings(random);
    scripts.extend(each_sum(random));
    for turn in 0..28 {
        scripts.push(delivered(&with_fill(&small(random), turn, random), random));
    }
    for turn in 0..12 {
        scripts.push(delivered(&with_fill(&middle(random), turn, random), random));
    }
    for turn in 0..4 {
        scripts.push(run(&with_fill(&largest(random), turn, random), random));
    }
    scripts
}

/// Two rings of each size, so routes of 2 to 63 links. In the first all lengths
/// are 1, 65,535 or random by turns; the second is the same with the first, a
/// middle or the last link not measured, and this one is cut first.
fn rings(random: &mut Random) -> Vec<Script> {
    let mut scripts = Vec::new();
    for nodes in 3..=MOST_NODES {
        let ring = plain(nodes, &shapes::ring(nodes));
        let measured = match nodes % 3 {
            0 => with_lengths(&ring, |_| 1),
            1 => with_lengths(&ring, |_| 65_535),
            _ => with_lengths(&ring, |_| length(random)),
        };
        let last = ring.count - 1;
        let cut = random.below(ring.count.into()) as u16;
        scripts.push(two_recoveries(&measured, cut, random));
        let link = [0, last / 2, last][usize::from(nodes / 3 % 3)];
        let unmeasured = with_unmeasured(&measured, link.into());
        scripts.push(two_recoveries(&unmeasured, link, random));
    }
    scripts
}

/// A cut of this link, with statuses at every stage, and a cut of another one.
fn two_recoveries(mesh: &Mesh, link: u16, random: &mut Random) -> Script {
    let mut caller = Caller::new(mesh, Origin::OwnPlan, random);
    let half = u32::from(mesh.nodes) / 2;
    ask(&mut caller, 1);
    caller.make_all(&[Call::Cut(link), Call::Status(link, 1), Call::Run(half)]);
    ask(&mut caller, 1);
    caller.make(Call::Run(u32::MAX));
    caller.both_statuses(link);
    ask(&mut caller, 1);
    caller.make_all(&[Call::Mend(link), Call::Status(link, 2)]);
    let other = (link + 1) % mesh.count;
    caller.make_all(&[Call::Cut(other), Call::Run(u32::MAX)]);
    caller.both_statuses(link);
    caller.script()
}

/// Every cut on meshes whose lengths tell the links of a sum: with all links
/// measured, and with each one in turn not measured.
fn each_sum(random: &mut Random) -> Vec<Script> {
    let of = |nodes, shape: Shape| plain(nodes, &shape);
    let meshes = [
        triangle(),
        p5(),
        of(4, shapes::complete(4)),
        of(6, shapes::bipartite(3, 3)),
        of(8, shapes::wheel(8)),
    ];
    let mut scripts = Vec::new();
    for mesh in meshes.map(|mesh| with_powers_of_two(&mesh)) {
        scripts.push(every_cut(&mesh, random));
        for link in 0..mesh.counted().len() {
            scripts.push(every_cut(&with_unmeasured(&mesh, link), random));
        }
    }
    scripts
}

pub fn every_cut(mesh: &Mesh, random: &mut Random) -> Script {
    let mut caller = Caller::new(mesh, Origin::OwnPlan, random);
    for link in 0..mesh.count {
        caller.make_all(&[Call::Cut(link), Call::Run(u32::MAX)]);
        let asked = caller.inner_link();
        caller.both_statuses(asked);
        caller.make(Call::Mend(link));
    }
    caller.script()
}

/// Deliveries in random order up to rest, with a status after each.
pub fn delivered(mesh: &Mesh, random: &mut Random) -> Script {
    let mut caller = Caller::new(mesh, Origin::OwnPlan, random);
    ask(&mut caller, 1);
    let link = caller.inner_link();
    caller.make(Call::Cut(link));
    caller.both_statuses(link);
    while let Some((under_way, wavelength)) = caller.under_way() {
        caller.make(Call::Deliver(under_way, wavelength));
        ask(&mut caller, 1);
    }
    end(&mut caller, link);
    caller.script()
}

/// Short runs with a status after each, then one up to rest.
fn run(mesh: &Mesh, random: &mut Random) -> Script {
    let mut caller = Caller::new(mesh, Origin::OwnPlan, random);
    for _ in 0..3 {
        let link = caller.inner_link();
        caller.make(Call::Cut(link));
        for allowance in [1, 20, 60, u32::MAX] {
            caller.make(Call::Run(allowance));
            ask(&mut caller, 1);
        }
        end(&mut caller, link);
    }
    caller.script()
}

/// Statuses at rest, the route, and a status after the mend.
fn end(caller: &mut Caller, link: u16) {
    caller.both_statuses(link);
    ask(caller, 2);
    caller.both_routes();
    caller.make_all(&[Call::Mend(link), Call::Status(link, 1)]);
}

/// Statuses of random links, each on one of the wavelengths.
fn ask(caller: &mut Caller, times: usize) {
    for _ in 0..times {
        let call = Call::Status(caller.inner_link(), caller.inner_wavelength());
        caller.make(call);
    }
}

/// The mesh with lengths and fibre pairs on none, some, most or all links.
fn with_fill(mesh: &Mesh, turn: usize, random: &mut Random) -> Mesh {
    let links = mesh.counted().iter();
    let shape: Shape = links.map(|link| (link.low, link.high)).collect();
    filled(mesh.nodes, &shape, FILLS[turn % FILLS.len()], random)
}

#[cfg(test)]
mod tests {
    use super::*;
    use crate::session::RouteLength;

    /// What each status at rest under a cut says of the route's length, and how
    /// many links are taken then.
    fn lengths(script: &Script) -> Vec<(RouteLength, usize)> {
        let mut session = script.begin().0;
        let mut lengths = Vec::new();
        for call in &script.calls {
            match *call {
                Call::Cut(link) => assert_eq!(session.cut(link), Ok(())),
                Call::Deliver(link, wavelength) => {
                    assert!(session.deliver(link, wavelength).is_ok());
                }
                Call::Mend(link) => assert_eq!(session.mend(link), Ok(())),
                Call::Run(allowance) => assert!(session.run(allowance).is_ok()),
                Call::Status(link, wavelength) if session.cut.is_some() && session.is_at_rest() => {
                    let route = session.status(link, wavelength).unwrap().route;
                    lengths.push((route, session.route(wavelength).unwrap().len()));
                }
                Call::Status(..) | Call::Route(_) => (),
            }
        }
        lengths
    }

    #[test]
    fn rings_have_every_number_of_links_and_both_answers() {
        let random = &mut Random::new(1);
        let both: Vec<_> = rings(random).iter().map(lengths).collect();
        for (number, lengths) in both.iter().enumerate() {
            assert!(lengths.iter().all(|(_, links)| *links == number / 2 + 2));
            // The cut link counts for nothing, the next one does.
            let not_known = lengths.last().unwrap().0 == RouteLength::NotKnown;
            assert_eq!(not_known, number % 2 == 1);
            assert_ne!(lengths[0].0, RouteLength::NotKnown);
        }
        let longest = RouteLength::Metres(63 * 65_535);
        assert_eq!(both[2 * (64 - 3)][0], (longest, 63));
    }

    #[test]
    fn both_answers_are_given_often() {
        for seed in 0..4 {
            let scripts = scripts(&mut Random::new(seed));
            let lengths: Vec<_> = scripts.iter().flat_map(lengths).collect();
            let not_known = lengths.iter().filter(|one| one.0 == RouteLength::NotKnown);
            let not_known = not_known.count();
            assert!(not_known > 200, "{not_known}");
            assert!(lengths.len() - not_known > 300);
        }
    }
}
