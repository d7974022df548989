//! Scripts on two nodes with two links, and with more of them.

use super::super::meshes::{plain, with_lengths};
use super::super::scripts::caller::Caller;
use super::graphs::two_nodes;
use crate::mesh::Mesh;
use crate::plan::Plan;
use crate::random::Random;
use crate::script::{Call, Origin, Script};
use crate::session::{start, Wavelength, OFFERED, REFUSED};

/// The lengths of the links: a sum tells them; then one is not measured.
const LENGTHS: [[u16; 2]; 4] = [[1, 2], [0, 2], [1, 0], [0, 0]];

pub fn scripts(random: &mut Random) -> Vec<Script> {
    let mut scripts = Vec::new();
    for lengths in LENGTHS {
        let mesh = with_lengths(&plain(2, &two_nodes(2).1), |link| lengths[link]);
        for cut in 0..2 {
            for order in [[1, 2], [2, 1]] {
                scripts.push(one_delivery_each(&mesh, cut, order, random));
            }
            scripts.push(run(&mesh, cut, random));
        }
    }
    for links in [3, 4, 6] {
        let mesh = with_lengths(&plain(2, &two_nodes(links).1), |link| 1 << link);
        for cut in 0..mesh.count {
            scripts.push(in_any_order(&mesh, cut, random));
            scripts.push(run(&mesh, cut, random));
        }
    }
    let most = with_lengths(&plain(2, &two_nodes(256).1), |link| link as u16 + 1);
    scripts.extend([0, 100, 254, 255].map(|cut| run(&most, cut, random)));
    scripts.push(in_any_order(&most, 255, random));
    scripts.extend((0..48).map(|turn| from_any_state(turn, random)));
    scripts
}

/// The one delivery on each wavelength, the cut link refused before it, and the
/// same delivery refused after it.
fn one_delivery_each(mesh: &Mesh, cut: u16, order: [u8; 2], random: &mut Random) -> Script {
    let mut caller = Caller::new(mesh, Origin::OwnPlan, random);
    let other = 1 - cut;
    caller.make_all(&[Call::Deliver(other, 1), Call::Cut(cut)]);
    for wavelength in order {
        caller.make(Call::Deliver(cut, wavelength));
        caller.both_statuses(other);
        caller.make(Call::Deliver(other, wavelength));
        caller.both_routes();
        caller.make_all(&[Call::Deliver(other, wavelength), Call::Mend(cut)]);
    }
    caller.both_statuses(other);
    caller.make_all(&[Call::Cut(other), Call::Run(1)]);
    caller.both_statuses(cut);
    caller.make_all(&[Call::Run(u32::MAX), Call::Mend(other)]);
    caller.script()
}

/// A run in two parts, with statuses of both links, the routes and a mend.
fn run(mesh: &Mesh, cut: u16, random: &mut Random) -> Script {
    let mut caller = Caller::new(mesh, Origin::OwnPlan, random);
    caller.make_all(&[Call::Cut(cut), Call::Run(1)]);
    caller.both_statuses(cut);
    caller.make(Call::Run(u32::MAX));
    let other = caller.inner_link();
    caller.both_statuses(other);
    caller.both_routes();
    caller.make_all(&[Call::Mend(cut), Call::Run(0)]);
    caller.script()
}

/// Deliveries in any order up to rest.
fn in_any_order(mesh: &Mesh, cut: u16, random: &mut Random) -> Script {
    let mut caller = Caller::new(mesh, Origin::OwnPlan, random);
    caller.make(Call::Cut(cut));
    while let Some((link, wavelength)) = caller.under_way() {
        caller.make(Call::Deliver(link, wavelength));
    }
    caller.both_statuses(cut);
    caller.both_routes();
    caller.make(Call::Mend(cut));
    caller.script()
}

/// On two links each way, a session that no list of calls produces: a cut, one
/// other link offered or refused, and any reached nodes, the same on both
/// wavelengths. Every choice of these has its turn, of 48.
fn from_any_state(turn: usize, random: &mut Random) -> Script {
    let mesh = with_lengths(&plain(2, &two_nodes(4).1), |link| 1 << link);
    let mut plan = Plan::ZERO;
    plan.directions[2..4].fill(1);
    let (mut session, _) = start(&mesh, &plan);
    let (cut, step) = ([0, 2][turn % 2], 1 + turn / 2 % 3);
    let link = (usize::from(cut) + step) % 4;
    session.cut = Some(cut);
    for wavelength in Wavelength::BOTH {
        let flood = &mut session.floods[wavelength];
        flood.states[link] = [OFFERED, REFUSED][turn / 6 % 2];
        flood.reached[0] = turn / 12 % 2 == 1;
        flood.reached[1] = turn / 24 == 1;
    }
    let mut caller = Caller::on(&session, &mesh, random);
    caller.make_all(&[1, 2].map(|wavelength| Call::Deliver(link as u16, wavelength)));
    caller.both_statuses(cut);
    caller.make(Call::Run(u32::MAX));
    caller.both_statuses(cut);
    caller.both_routes();
    caller.script()
}

#[cfg(test)]
mod tests {
    use super::*;
    use crate::session::{Delivery, RouteLength};

    /// How many deliveries a script makes, by calls and by runs.
    fn made(script: &Script) -> usize {
        let (mut session, _) = script.begin();
        let mut made = 0;
        for call in &script.calls {
            match *call {
                Call::Cut(link) => assert_eq!(session.cut(link), Ok(())),
                Call::Deliver(link, on) => made += usize::from(session.deliver(link, on).is_ok()),
                Call::Mend(link) => _ = session.mend(link),
                Call::Run(allowance) => {
                    made += session.run(allowance).map_or(0, |run| run.made as usize);
                }
                Call::Status(..) | Call::Route(_) => (),
            }
        }
        assert_eq!(session.cut, None);
        made
    }

    #[test]
    fn two_links_take_one_delivery_on_each_wavelength() {
        let random = &mut Random::new(1);
        let mesh = with_lengths(&plain(2, &two_nodes(2).1), |link| [1, 2][link]);
        for cut in 0..2 {
            for order in [[1, 2], [2, 1]] {
                // One recovery of each link.
                assert_eq!(made(&one_delivery_each(&mesh, cut, order, random)), 4);
            }
            assert_eq!(made(&run(&mesh, cut, random)), 2);
        }
    }

    #[test]
    fn the_route_is_the_other_link() {
        for (cut, metres) in [(0, 2), (1, 1)] {
            let mesh = with_lengths(&plain(2, &two_nodes(2).1), |link| [1, 2][link]);
            let (mut session, _) = Origin::OwnPlan.session(&mesh);
            let other = 1 - cut;
            assert_eq!(session.cut(cut), Ok(()));
            let (_, y) = session.primary_arc(Wavelength::One, cut);
            assert_eq!(session.deliver(other, 1), Ok(Delivery::Taken(y)));
            assert_eq!(session.deliver(other, 2), Ok(Delivery::Taken(1 - y)));
            for wavelength in [1, 2] {
                let length = session.status(cut, wavelength).unwrap().route;
                assert_eq!(length, RouteLength::Metres(metres));
            }
        }
    }

    #[test]
    fn each_session_from_any_state_is_well_formed_and_another_one() {
        let random = &mut Random::new(1);
        let begun = |turn| from_any_state(turn, random).begin().0;
        let sessions: Vec<_> = (0..48).map(begun).collect();
        for (turn, session) in sessions.iter().enumerate() {
            assert_eq!(session.check(), Ok(()));
            assert!(!sessions[..turn].contains(session));
        }
    }

    #[test]
    fn a_cut_of_the_last_of_256_links_takes_509_deliveries_on_each_wavelength() {
        let random = &mut Random::new(1);
        let mesh = plain(2, &two_nodes(256).1);
        assert_eq!(made(&in_any_order(&mesh, 255, random)), 2 * 509);
        assert_eq!(made(&run(&mesh, 0, random)), 2);
    }
}
