//! The recovery machine: the document's examples, the orders of refusals, and
//! what holds of every flood on a planned mesh.

mod path;

use path::{assert_one_path, taken};
use reference::book::decode;
use reference::corpus::doubled::grounds as doubled;
use reference::corpus::meshes::plain;
use reference::corpus::scripts::examples::P6_TURNS;
use reference::corpus::scripts::grounds::{middle, p5, small, triangle};
use reference::mesh::Mesh;
use reference::plan::{plan, Plan};
use reference::random::Random;
use reference::refusal::{Answer, Reason, Refusal};
use reference::session::{is_under_way, start, Delivery, Floods, RouteLength, Run, Session};
use reference::session::{Status, Wavelength, TAKEN};

const P1: [u8; 9] = [1, 3, 3, 0, 0, 2, 2, 1, 1];
const P5: [u8; 13] = [1, 4, 5, 0, 0, 2, 2, 2, 3, 1, 1, 1, 2];

fn refused<T>(reason: Reason, place: usize) -> Result<T, Refusal> {
    Err(Refusal::new(reason, place))
}

fn planned(mesh: &Mesh) -> Session {
    let (plan, answer) = plan(mesh);
    assert_eq!(answer, Ok(()));
    let (session, answer) = start(mesh, &plan);
    assert_eq!(answer, Ok(()));
    session
}

fn after_cut(book: &[u8], link: u16) -> Session {
    let mut session = planned(&decode(book).0);
    assert_eq!(session.cut(link), Ok(()));
    session
}

fn links_in(session: &Session, wavelength: Wavelength, chosen: impl Fn(u8) -> bool) -> Vec<u16> {
    let numbered = (0..).zip(session.floods[wavelength].states);
    let chosen = numbered.filter(|(_, state)| chosen(*state));
    chosen.map(|(link, _)| link).collect()
}

/// Every link under way with its wavelength.
fn under_way(session: &Session) -> Vec<(u16, u8)> {
    let mut all = Vec::new();
    for wavelength in Wavelength::BOTH {
        let links = links_in(session, wavelength, is_under_way).into_iter();
        all.extend(links.map(|link| (link, wavelength.number())));
    }
    all
}

/// The lowest link under way, wavelength 1 before 2 on the same link.
fn lowest(session: &Session) -> (u16, u8) {
    let mut all = under_way(session);
    all.sort_unstable();
    all[0]
}

#[test]
fn p2_triangle_cut_0() {
    let mut session = after_cut(&P1, 0);
    assert_eq!(session.route(1), Ok(vec![]));
    assert_eq!(session.deliver(1, 1), Ok(Delivery::Taken(2)));
    assert_eq!(session.deliver(2, 1), Ok(Delivery::Taken(1)));
    assert!(session.floods.first.is_at_rest());
    assert_eq!(session.route(1), Ok(vec![1, 2]));
}

#[test]
fn p2_on_wavelength_2_goes_the_other_way() {
    let mut session = after_cut(&P1, 0);
    assert_eq!(session.deliver(1, 2), refused(Reason::NotUnderWay, 1));
    assert_eq!(session.deliver(2, 2), Ok(Delivery::Taken(2)));
    assert_eq!(session.route(2), Ok(vec![]));
    assert_eq!(session.deliver(1, 2), Ok(Delivery::Taken(0)));
    assert_eq!(session.route(2), Ok(vec![2, 1]));
    assert_eq!(session.route(1), Ok(vec![]));
}

#[test]
fn p6_run() {
    let mut one_by_one = after_cut(&P5, 4);
    let mut session = one_by_one.clone();
    for (link, wavelength) in P6_TURNS {
        assert_eq!(lowest(&one_by_one), (link, wavelength));
        assert!(one_by_one.deliver(link, wavelength).is_ok());
    }
    let mut turns = Vec::new();
    let run = session.run_by_turns(u32::MAX, |link, wavelength| {
        turns.push((link, wavelength.number()));
    });
    let expected = Run {
        made: 12,
        at_rest: true,
    };
    assert_eq!(run, Ok(expected));
    assert_eq!(turns, P6_TURNS);
    assert_eq!(session, one_by_one);
    assert_eq!(taken(&session, Wavelength::One), [1, 2]);
    assert_eq!(session.route(1), Ok(vec![1, 2]));
    assert_eq!(session.route(2), Ok(vec![2, 1]));
    let own: Vec<u16> = own(&turns, 1);
    assert_eq!(own, [1, 2, 3, 0, 0, 3]);
}

/// The links of one wavelength's turns.
fn own(turns: &[(u16, u8)], wavelength: u8) -> Vec<u16> {
    let own = turns.iter().filter(|turn| turn.1 == wavelength);
    own.map(|turn| turn.0).collect()
}

#[test]
fn p6_run_in_parts() {
    let whole = {
        let mut session = after_cut(&P5, 4);
        session.run(u32::MAX).unwrap();
        session
    };
    for first in 0..=12 {
        let mut session = after_cut(&P5, 4);
        let run = session.run(first).unwrap();
        assert_eq!((run.made, run.at_rest), (first, first == 12));
        let rest = session.run(u32::MAX).unwrap();
        assert_eq!((rest.made, rest.at_rest), (12 - first, true));
        assert_eq!(session, whole);
    }
}

#[test]
fn p7_another_order() {
    let mut session = after_cut(&P5, 4);
    let answers = [3, 0, 2, 1, 1].map(|link| session.deliver(link, 1).unwrap());
    let expected = [
        Delivery::Taken(1),
        Delivery::Taken(0),
        Delivery::Taken(3),
        Delivery::Turned(0),
        Delivery::Released(2),
    ];
    assert_eq!(answers, expected);
    assert_eq!(taken(&session, Wavelength::One), [0, 2, 3]);
    assert_eq!(session.route(1), Ok(vec![3, 0, 2]));
    let status = |route| Status {
        state: TAKEN,
        busy: 0,
        route,
    };
    // Wavelength 2 is not at rest yet.
    assert_eq!(session.status(2, 1), Ok(status(RouteLength::Metres(0))));
    assert_eq!(session.run(u32::MAX).unwrap().made, 6);
    assert_eq!(session.status(2, 1), Ok(status(RouteLength::NotKnown)));
}

#[test]
fn refusals_in_order() {
    let mut session = planned(&p5());
    let fresh = session.clone();
    assert_eq!(session.cut(5), refused(Reason::NoSuchLink, 5));
    assert_eq!(session.deliver(5, 3), refused(Reason::NoSuchLink, 5));
    assert_eq!(session.deliver(4, 3), refused(Reason::NoSuchWavelength, 0));
    assert_eq!(session.deliver(4, 2), refused(Reason::NoCut, 4));
    assert_eq!(session.mend(65_535), refused(Reason::NoSuchLink, 65_535));
    assert_eq!(session.mend(3), refused(Reason::NoCut, 3));
    assert_eq!(session.run(0), refused(Reason::NoCut, 0));
    assert_eq!(session.route(0), refused(Reason::NoSuchWavelength, 0));
    assert_eq!(session.route(1), refused(Reason::NoCut, 0));
    assert_eq!(session.status(256, 0), refused(Reason::NoSuchLink, 256));
    assert_eq!(session.status(4, 0), refused(Reason::NoSuchWavelength, 0));
    assert_eq!(session, fresh);
    assert_eq!(session.cut(4), Ok(()));
    let moving = session.clone();
    assert_eq!(session.cut(5), refused(Reason::NoSuchLink, 5));
    assert_eq!(session.cut(4), refused(Reason::CutStands, 4));
    assert_eq!(
        session.deliver(4, 255),
        refused(Reason::NoSuchWavelength, 0)
    );
    assert_eq!(session.deliver(4, 1), refused(Reason::NotUnderWay, 4));
    assert_eq!(session.deliver(1, 2), refused(Reason::NotUnderWay, 1));
    assert_eq!(session.route(3), refused(Reason::NoSuchWavelength, 0));
    assert_eq!(session.mend(5), refused(Reason::NoSuchLink, 5));
    assert_eq!(session.mend(3), refused(Reason::NotTheCut, 3));
    assert_eq!(session.mend(4), refused(Reason::NotAtRest, 4));
    assert_eq!(session, moving);
    assert!(session.run(u32::MAX).unwrap().at_rest);
    assert_eq!(session.mend(3), refused(Reason::NotTheCut, 3));
    assert_eq!(session.mend(4), Ok(()));
    assert_eq!(session, fresh);
}

#[test]
fn a_mend_waits_for_both_wavelengths() {
    for wavelength in Wavelength::BOTH {
        let mut session = after_cut(&P5, 4);
        while let Some(link) = links_in(&session, wavelength, is_under_way).first() {
            assert!(session.deliver(*link, wavelength.number()).is_ok());
        }
        assert!(session.floods[wavelength].is_at_rest());
        assert_eq!(session.mend(4), refused(Reason::NotAtRest, 4));
        assert_eq!(session.route(wavelength.number()).unwrap().len(), 2);
        assert!(session.run(u32::MAX).unwrap().at_rest);
        assert_eq!(session.mend(4), Ok(()));
    }
}

#[test]
fn start_tests_the_mesh_and_then_the_plan() {
    let zero = Session {
        mesh: Mesh::ZERO,
        plan: Plan::ZERO,
        cut: None,
        floods: Floods::FRESH,
    };
    let assert_refuses = |mesh: &Mesh, plan: &Plan, expected: Answer| {
        assert_eq!(start(mesh, plan), (zero.clone(), expected));
    };
    let mut plan = Plan::ZERO;
    for (link, direction) in [(0, 2), (2, 255), (3, 1), (255, 1)] {
        plan = Plan::ZERO;
        plan.directions[link] = direction;
        assert_refuses(&triangle(), &plan, refused(Reason::IllFormed, 0));
    }
    let mut mesh = triangle();
    mesh.links[200].pair = 1;
    assert_refuses(&mesh, &Plan::ZERO, refused(Reason::IllFormed, 0));
    mesh.links[2].high = 3;
    assert_refuses(&mesh, &plan, refused(Reason::EndNotBelowNodes, 2));
    assert_refuses(&Mesh::ZERO, &plan, refused(Reason::Nodes, 0));
}

#[test]
fn a_cut_offers_links_in_any_state_and_a_delivery_only_quiet_ones() {
    let mut session = planned(&p5());
    session.floods.first.states[..5].copy_from_slice(&[4, 2, 4, 3, 0]);
    session.floods.second.states[..5].copy_from_slice(&[0, 3, 4, 2, 0]);
    // The back-up links leaving node 2 are 1 and 3; on wavelength 2 link 2
    // leaves node 3.
    assert_eq!(session.cut(4), Ok(()));
    assert_eq!(session.floods.first.states[..5], [4, 1, 4, 1, 0]);
    assert_eq!(session.floods.second.states[..5], [0, 3, 1, 2, 0]);
    // Node 1 has only link 0 to offer, which is released.
    assert_eq!(session.deliver(3, 1), Ok(Delivery::Turned(1)));
    assert_eq!(session.floods.first.states[..5], [4, 1, 4, 3, 0]);
    assert!(session.floods.first.reached[1]);
    assert_eq!(session.floods.second.states[..5], [0, 3, 1, 2, 0]);
    assert!(!session.floods.second.reached[1]);
}

#[test]
fn a_fault_on_either_wavelength_is_13() {
    for wavelength in Wavelength::BOTH {
        let mut session = planned(&p5());
        session.floods[wavelength].states[4] = 5;
        assert_eq!(session.check(), refused(Reason::IllFormed, 0));
        session.floods[wavelength].states[4] = 4;
        assert_eq!(session.check(), Ok(()));
        session.floods[wavelength].states[5] = 1;
        assert_eq!(session.check(), refused(Reason::IllFormed, 0));
        session.floods[wavelength].states[5] = 0;
        session.floods[wavelength].reached[4] = true;
        assert_eq!(session.check(), refused(Reason::IllFormed, 0));
    }
}

#[test]
fn the_route_of_a_circle_of_taken_links_ends_after_as_many_links_as_there_are() {
    let ring = plain(4, &[(0, 1), (0, 3), (1, 2), (2, 3)]);
    let mut session = planned(&ring);
    session.cut = Some(0);
    session.floods.first.states[..4].fill(TAKEN);
    assert_eq!(session.route(1), Ok(vec![1, 3, 2, 0]));
    assert_eq!(session.route(2), Ok(vec![]));
    let status = session.status(0, 1).unwrap();
    assert_eq!((status.busy, status.route), (0, RouteLength::NotKnown));
    let status = session.status(0, 2).unwrap();
    assert_eq!((status.busy, status.route), (0, RouteLength::Metres(0)));
}

/// The wavelength has one simple path, and its status shows the path's length
/// at rest.
/// Small meshes, with doubled links by turns.
fn ground(turn: usize, random: &mut Random) -> Mesh {
    match turn % 2 {
        0 => small(random),
        _ => doubled::small(random),
    }
}

fn assert_route(session: &Session, wavelength: Wavelength, cut: u16) {
    let route = assert_one_path(session, wavelength, cut);
    let length = match session.is_at_rest() {
        true => length_of(session, &route),
        false => RouteLength::Metres(0),
    };
    let status = session.status(cut, wavelength.number()).unwrap();
    assert_eq!(status.route, length);
}

/// The lengths of these links together, as 02 says it.
fn length_of(session: &Session, links: &[u16]) -> RouteLength {
    let mut metres = 0;
    for link in links {
        match session.mesh.links[usize::from(*link)].length {
            0 => return RouteLength::NotKnown,
            length => metres += u32::from(length),
        }
    }
    RouteLength::Metres(metres)
}

#[test]
fn every_order_of_deliveries_leads_to_one_simple_path_on_each_wavelength() {
    let random = &mut Random::new(1);
    for turn in 0..4_000 {
        let mesh = match turn % 8 {
            0 => middle(random),
            1 => doubled::middle(random),
            _ => ground(turn, random),
        };
        let mut session = planned(&mesh);
        let cut = random.below(mesh.count.into()) as u16;
        assert_eq!(session.cut(cut), Ok(()));
        let mut made = [0; 2];
        while !session.is_at_rest() {
            let (link, wavelength) = random.pick(&under_way(&session));
            assert!(session.deliver(link, wavelength).is_ok());
            made[usize::from(wavelength) - 1] += 1;
            let delivered = Wavelength::numbered(wavelength).unwrap();
            // Its path stands once this wavelength rests, whatever the other does.
            if session.floods[delivered].is_at_rest() {
                assert_route(&session, delivered, cut);
            }
        }
        for (wavelength, made) in Wavelength::BOTH.into_iter().zip(made) {
            assert!(made <= 2 * (mesh.count - 1));
            assert_route(&session, wavelength, cut);
        }
    }
}

#[test]
fn wavelength_1_swaps_with_wavelength_2_where_the_plan_is_turned() {
    let random = &mut Random::new(3);
    for turn in 0..300 {
        let mesh = ground(turn, random);
        let mut session = planned(&mesh);
        let mut turned = session.clone();
        let directions = &mut turned.plan.directions[..mesh.count.into()];
        directions.iter_mut().for_each(|direction| *direction ^= 1);
        let cut = random.below(mesh.count.into()) as u16;
        assert_eq!(session.cut(cut), Ok(()));
        assert_eq!(turned.cut(cut), Ok(()));
        while !session.is_at_rest() {
            let (link, wavelength) = random.pick(&under_way(&session));
            let answer = session.deliver(link, wavelength);
            assert_eq!(turned.deliver(link, 3 - wavelength), answer);
        }
        assert_eq!(turned.floods.first, session.floods.second);
        assert_eq!(turned.floods.second, session.floods.first);
    }
}

#[test]
fn a_run_is_deliveries_on_the_lowest_link_under_way() {
    let random = &mut Random::new(2);
    for turn in 0..400 {
        let mesh = ground(turn, random);
        let mut session = planned(&mesh);
        let cut = random.below(mesh.count.into()) as u16;
        assert_eq!(session.cut(cut), Ok(()));
        let mut other = session.clone();
        while !session.is_at_rest() {
            let allowance = random.below(4) as u32;
            let run = session.run(allowance).unwrap();
            assert!(run.made == allowance || run.made < allowance && run.at_rest);
            for _ in 0..run.made {
                let (link, wavelength) = lowest(&other);
                assert!(other.deliver(link, wavelength).is_ok());
            }
            assert_eq!(session, other);
            assert_eq!(run.at_rest, session.is_at_rest());
        }
        for wavelength in Wavelength::BOTH {
            assert_route(&session, wavelength, cut);
        }
    }
}

#[test]
fn the_turns_of_a_run_on_one_wavelength_are_that_wavelengths_own_run() {
    let random = &mut Random::new(4);
    for turn in 0..400 {
        let mesh = ground(turn, random);
        let mut session = planned(&mesh);
        let cut = random.below(mesh.count.into()) as u16;
        assert_eq!(session.cut(cut), Ok(()));
        let mut turns = Vec::new();
        let mut ran = session.clone();
        let tell = |link, wavelength: Wavelength| turns.push((link, wavelength.number()));
        ran.run_by_turns(u32::MAX, tell).unwrap();
        for wavelength in [1, 2] {
            let mut alone = session.clone();
            let flood = Wavelength::numbered(wavelength).unwrap();
            for link in own(&turns, wavelength) {
                let lowest = links_in(&alone, flood, is_under_way)[0];
                assert_eq!(lowest, link);
                assert!(alone.deliver(link, wavelength).is_ok());
            }
            assert!(alone.floods[flood].is_at_rest());
        }
    }
}
