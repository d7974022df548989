//! Old sessions: the calls that 01 gives them, the refusals of a carry-over and
//! their order, what it keeps, and what holds of all later calls.

mod path;

use path::assert_one_path;
use reference::corpus::doubled::grounds as doubled;
use reference::corpus::meshes::{all_filled, with_ducts, with_powers_of_two};
use reference::corpus::scripts::caller::Caller;
use reference::corpus::scripts::grounds::{middle, p5, small, triangle};
use reference::corpus::scripts::odd::{flood, some_plan, STATES};
use reference::corpus::upgrades::lists::{at_rest, cut_again, jumble, mended, under_way};
use reference::corpus::upgrades::old_caller::OldCaller;
use reference::mesh::Mesh;
use reference::old_session::{OldLink, OldSession};
use reference::plan::{plan, Plan};
use reference::random::Random;
use reference::refusal::{Reason, Refusal};
use reference::session::{is_under_way, start, Delivery, Flood, RouteLength, Run, Session};
use reference::session::{Status, Wavelength, TAKEN};

fn refused<T>(reason: Reason, place: usize) -> Result<T, Refusal> {
    Err(Refusal::new(reason, place))
}

/// What a refused start gives: all zeros with no cut.
fn zeros() -> Session {
    start(&Mesh::ZERO, &Plan::ZERO).0
}

fn fresh(mesh: &Mesh) -> OldSession {
    OldSession::fresh(mesh, &plan(mesh).0)
}

/// The mesh as an old session held it.
fn without_ducts(mesh: &Mesh) -> Mesh {
    with_ducts(mesh, |_| 0)
}

fn after_cut(mesh: &Mesh, link: u16) -> OldSession {
    let mut old = fresh(mesh);
    assert_eq!(old.cut(link), Ok(()));
    old
}

fn carried(old: &OldSession) -> Session {
    let (session, answer) = old.carry_over();
    assert_eq!(answer, Ok(()));
    session
}

fn old_flood(old: &OldSession) -> Flood {
    Flood {
        states: old.states,
        reached: old.reached,
    }
}

fn taken(states: &[u8]) -> Vec<u16> {
    let numbered = (0..).zip(states);
    let taken = numbered.filter(|(_, state)| **state == TAKEN);
    taken.map(|(link, _)| link).collect()
}

/// Meshes on which each pair stands once, and others.
fn ground(turn: usize, random: &mut Random) -> Mesh {
    match turn % 8 {
        0 => middle(random),
        1 => doubled::middle(random),
        2..=4 => doubled::small(random),
        _ => small(random),
    }
}

#[test]
fn the_bench_examples_on_an_old_session() {
    let mut p2 = after_cut(&triangle(), 0);
    assert_eq!(p2.deliver(1), Ok(Delivery::Taken(2)));
    assert_eq!(p2.deliver(2), Ok(Delivery::Taken(1)));
    assert_eq!(taken(&p2.states), [1, 2]);
    let mut p6 = after_cut(&p5(), 4);
    let mut turns = Vec::new();
    let run = p6.run_by_turns(u32::MAX, |link| turns.push(link));
    let six = Run {
        made: 6,
        at_rest: true,
    };
    assert_eq!((turns, run), (vec![1, 2, 3, 0, 0, 3], Ok(six)));
    assert_eq!(taken(&p6.states), [1, 2]);
    let mut p7 = after_cut(&p5(), 4);
    for link in [3, 0, 2, 1, 1] {
        assert!(p7.deliver(link).is_ok());
    }
    assert!(p7.is_at_rest());
    assert_eq!(taken(&p7.states), [0, 2, 3]);
}

#[test]
fn the_refusals_of_old_calls_in_their_order() {
    let mut old = fresh(&p5());
    assert_eq!(old.deliver(5), refused(Reason::NoSuchLink, 5));
    assert_eq!(old.deliver(1), refused(Reason::NoCut, 1));
    assert_eq!(old.mend(4), refused(Reason::NoCut, 4));
    assert_eq!(old.run(3), refused(Reason::NoCut, 0));
    assert_eq!(old.cut(5), refused(Reason::NoSuchLink, 5));
    assert_eq!(old.cut(4), Ok(()));
    assert_eq!(old.cut(65_535), refused(Reason::NoSuchLink, 65_535));
    assert_eq!(old.cut(0), refused(Reason::CutStands, 0));
    assert_eq!(old.deliver(2), refused(Reason::NotUnderWay, 2));
    assert_eq!(old.mend(5), refused(Reason::NoSuchLink, 5));
    assert_eq!(old.mend(0), refused(Reason::NotTheCut, 0));
    assert_eq!(old.mend(4), refused(Reason::NotAtRest, 4));
    assert_eq!(old.status(5), refused(Reason::NoSuchLink, 5));
    assert!(old.run(u32::MAX).is_ok_and(|run| run.at_rest));
    assert_eq!(old.mend(4), Ok(()));
    assert_eq!(old, fresh(&p5()));
    let mut wrong = after_cut(&p5(), 4);
    wrong.states[5] = 1;
    let before = wrong.clone();
    assert_eq!(wrong.cut(9), refused(Reason::IllFormed, 0));
    assert_eq!(wrong.deliver(9), refused(Reason::IllFormed, 0));
    assert_eq!(wrong.mend(9), refused(Reason::IllFormed, 0));
    assert_eq!(wrong.run(0), refused(Reason::IllFormed, 0));
    assert_eq!(wrong.status(9), refused(Reason::IllFormed, 0));
    assert_eq!(wrong, before);
}

/// Each fault comes before those that were made until then.
#[test]
fn an_ill_formed_old_session_meets_3_4_7_6_8_13_in_this_order() {
    let mut old = after_cut(&triangle(), 0);
    let assert_refused = |old: &OldSession, reason, place| {
        assert_eq!(old.carry_over(), (zeros(), refused(reason, place)));
    };
    old.links[200].pair = 1;
    old.directions[2] = 2;
    old.states[0] = 5;
    old.cut = Some(3);
    old.reached[3] = true;
    assert_refused(&old, Reason::IllFormed, 0);
    // As link 1, (0,2), which stands; below it; then with an end of 3; then also
    // turned round.
    old.links[2].low = 0;
    assert_refused(&old, Reason::IllFormed, 0);
    for (low, high, reason) in [
        (0, 1, Reason::BelowPrevious),
        (0, 3, Reason::EndNotBelowNodes),
        (3, 0, Reason::LowNotBelowHigh),
    ] {
        old.links[2] = OldLink {
            low,
            high,
            ..old.links[2]
        };
        assert_refused(&old, reason, 2);
    }
    // Below link 0, now (0,2).
    old.links[0].high = 2;
    old.links[1].high = 1;
    assert_refused(&old, Reason::BelowPrevious, 1);
    old.links[0].high = 7;
    assert_refused(&old, Reason::EndNotBelowNodes, 0);
    old.links[0].low = 7;
    assert_refused(&old, Reason::LowNotBelowHigh, 0);
    old.count = 257;
    assert_refused(&old, Reason::Count, 0);
    old.nodes = 65;
    assert_refused(&old, Reason::Nodes, 0);
}

#[test]
fn each_way_to_13_alone() {
    let good = after_cut(&triangle(), 0);
    let changes: [fn(&mut OldSession); 15] = [
        |old| old.links[3].low = 1,
        |old| old.links[3].high = 1,
        |old| old.links[3].length = 1,
        |old| old.links[3].pair = 1,
        |old| old.links[255].length = 1 << 15,
        |old| old.links[255].pair = 1 << 31,
        |old| old.directions[3] = 1,
        |old| old.directions[255] = 1,
        |old| old.states[3] = 1,
        |old| old.states[255] = 4,
        |old| old.directions[0] = 2,
        |old| old.states[2] = 5,
        |old| old.cut = Some(3),
        |old| old.reached[3] = true,
        |old| old.reached[63] = true,
    ];
    for (number, change) in changes.into_iter().enumerate() {
        let mut old = good.clone();
        change(&mut old);
        let expected = (zeros(), refused(Reason::IllFormed, 0));
        assert_eq!(old.carry_over(), expected, "change {number}");
    }
}

#[test]
fn p6_is_carried_over_with_wavelength_2_just_after_its_cut() {
    let mut old = after_cut(&p5(), 4);
    assert!(old.run(3).is_ok());
    let session = carried(&old);
    assert_eq!(session.cut, Some(4));
    assert_eq!(session.floods.first, old_flood(&old));
    // The plan is 0 0 1 0 0: wavelength 2 begins at node 3, which link 2 leaves.
    assert_eq!(session.floods.second.states[..5], [0, 0, 1, 0, 0]);
    let reached = (0..).zip(session.floods.second.reached);
    let reached: Vec<u8> = reached.filter(|one| one.1).map(|one| one.0).collect();
    assert_eq!(reached, [3]);
}

#[test]
fn every_field_of_the_mesh_and_the_plan_is_kept_and_no_link_has_a_duct() {
    let random = &mut Random::new(1);
    for _ in 0..200 {
        let mesh = all_filled(&small(random), random);
        let plan = some_plan(&mesh, random);
        let session = carried(&OldSession::fresh(&mesh, &plan));
        assert_eq!(session, start(&without_ducts(&mesh), &plan).0);
    }
}

/// A well-formed session with any states and reached nodes, on any plan.
fn odd(turn: usize, random: &mut Random) -> OldSession {
    let mesh = ground(turn, random);
    let plan = some_plan(&mesh, random);
    let flood = flood(&mesh, STATES[turn % STATES.len()], random);
    let link = random.below(mesh.count.into()) as u16;
    OldSession {
        states: flood.states,
        reached: flood.reached,
        cut: [None, Some(link), Some(link)][turn % 3],
        ..OldSession::fresh(&mesh, &plan)
    }
}

#[test]
fn wavelength_1_is_kept_and_wavelength_2_does_not_look_at_it() {
    let random = &mut Random::new(2);
    for turn in 0..1_000 {
        let old = odd(turn, random);
        let session = carried(&old);
        assert_eq!(session.check(), Ok(()));
        assert_eq!(session.floods.first, old_flood(&old));
        let (mut expected, _) = start(&session.mesh, &session.plan);
        assert_eq!(session.plan.directions, old.directions);
        if let Some(link) = old.cut {
            assert_eq!(expected.cut(link), Ok(()));
        }
        assert_eq!(session.floods.second, expected.floods.second);
        assert_eq!(session.cut, expected.cut);
    }
}

/// What the old session answers and becomes is what wavelength 1 answers and
/// becomes after the carry-over.
#[test]
fn the_old_flood_is_wavelength_1s() {
    let random = &mut Random::new(3);
    for turn in 0..2_000 {
        let mut old = odd(turn, random);
        let mut session = carried(&old);
        let second = session.floods.second.clone();
        for _ in 0..8 {
            let link = random.below(usize::from(old.count) + 1) as u16;
            let shown = |status: Status| (status.state, status.busy);
            let status = session.status(link, 1).map(shown);
            assert_eq!(status, old.status(link).map(shown));
            assert_eq!(session.deliver(link, 1), old.deliver(link));
            assert_eq!(session.floods.first, old_flood(&old));
        }
        assert_eq!(session.floods.second, second);
    }
}

/// Old calls that leave a cut, mostly.
const BEFORE: [fn(&mut OldCaller); 4] = [under_way, at_rest, cut_again, jumble];

#[test]
fn a_carry_over_is_the_cut_and_the_deliveries_since_it_on_wavelength_1() {
    let random = &mut Random::new(4);
    let mut stood = 0;
    for turn in 0..2_000 {
        let mesh = ground(turn, random);
        let mut caller = OldCaller::new(&mesh, random);
        BEFORE[turn % BEFORE.len()](&mut caller);
        let (mut expected, _) = start(&without_ducts(&mesh), &plan(&mesh).0);
        if let Some(link) = caller.session.cut {
            assert_eq!(expected.cut(link), Ok(()));
            stood += 1;
        }
        for link in &caller.delivered {
            assert!(expected.deliver(*link, 1).is_ok());
        }
        assert_eq!(carried(&caller.session), expected);
    }
    assert!(stood > 1_500);
}

/// The deliveries of each wavelength under the cut that stands.
struct Counted {
    session: Session,
    made: [usize; 2],
}

impl Counted {
    /// Those before the carry-over are wavelength 1's.
    fn carried(caller: &OldCaller) -> Counted {
        Counted {
            session: carried(&caller.session),
            made: [caller.delivered.len(), 0],
        }
    }

    /// A call of any kind: mostly deliveries, on links under way and others.
    fn call(&mut self, random: &mut Random) {
        let count = usize::from(self.session.mesh.count);
        let link = random.below(count + 1) as u16;
        match random.below(16) {
            0 => self.made = self.session.cut(link).map_or(self.made, |()| [0; 2]),
            1 => {
                let cut = self.session.cut.unwrap_or(link);
                self.made = self.session.mend(cut).map_or(self.made, |()| [0; 2]);
            }
            2 => self.run(random.below(4) as u32),
            3 => self.deliver(link, random.between(1, 2) as u8),
            _ => {
                let mut caller = Caller::on(&self.session, &self.session.mesh, random);
                if let Some((link, wavelength)) = caller.under_way() {
                    self.deliver(link, wavelength);
                }
            }
        }
    }

    fn deliver(&mut self, link: u16, wavelength: u8) {
        if self.session.deliver(link, wavelength).is_ok() {
            self.made[usize::from(wavelength) - 1] += 1;
        }
    }

    fn run(&mut self, allowance: u32) {
        let tell = |_, wavelength: Wavelength| {
            self.made[usize::from(wavelength.number()) - 1] += 1;
        };
        _ = self.session.run_by_turns(allowance, tell);
    }

    /// Demand 3 for each wavelength alone.
    fn assert_recovers(&self) {
        let Some(cut) = self.session.cut else {
            return;
        };
        for (wavelength, made) in Wavelength::BOTH.into_iter().zip(self.made) {
            assert!(made <= 2 * (usize::from(self.session.mesh.count) - 1));
            if self.session.floods[wavelength].is_at_rest() {
                assert_one_path(&self.session, wavelength, cut);
            }
        }
    }
}

#[test]
fn demand_3_holds_for_later_calls_with_the_deliveries_before_counted() {
    let random = &mut Random::new(5);
    let mut counted_before = 0;
    for turn in 0..2_000 {
        let mesh = ground(turn, random);
        let mut caller = OldCaller::new(&mesh, random);
        BEFORE[turn % BEFORE.len()](&mut caller);
        counted_before += caller.delivered.len();
        let mut counted = Counted::carried(&caller);
        counted.assert_recovers();
        for _ in 0..40 {
            counted.call(random);
            counted.assert_recovers();
        }
        counted.run(u32::MAX);
        counted.assert_recovers();
    }
    assert!(counted_before > 5_000);
}

/// P6's run takes 6 deliveries on each wavelength.
#[test]
fn wavelength_1_makes_only_the_deliveries_that_were_left() {
    for before in 0..=6 {
        let mut old = after_cut(&p5(), 4);
        assert!(old.run(before).is_ok());
        let mut own = [0; 2];
        let tell = |_, wavelength: Wavelength| own[usize::from(wavelength.number()) - 1] += 1;
        let run = carried(&old).run_by_turns(u32::MAX, tell);
        let made = 12 - before;
        let at_rest = true;
        assert_eq!(run, Ok(Run { made, at_rest }));
        assert_eq!(own, [6 - before, 6]);
    }
}

#[test]
fn the_recovered_route_stands_while_wavelength_2_recovers() {
    let random = &mut Random::new(6);
    for turn in 0..1_000 {
        let mesh = ground(turn, random);
        let mut caller = OldCaller::new(&mesh, random);
        at_rest(&mut caller);
        let old = caller.session;
        let cut = old.cut.unwrap();
        let shown = old.status(cut).unwrap().route;
        let mut session = carried(&old);
        let route = assert_one_path(&session, Wavelength::One, cut);
        assert_eq!(session.floods.first.states, old.states);
        // A planned mesh has a link for wavelength 2 to offer.
        assert!(!session.is_at_rest());
        while !session.is_at_rest() {
            assert_waits(&mut session, cut);
            assert_eq!(session.route(1).as_ref(), Ok(&route));
            let mut caller = Caller::on(&session, &mesh, random);
            let (link, wavelength) = caller.under_way().unwrap();
            assert_eq!(wavelength, 2);
            assert!(session.deliver(link, wavelength).is_ok());
        }
        assert_eq!(session.route(1), Ok(route));
        assert_eq!(session.status(cut, 1).unwrap().route, shown);
        assert_eq!(session.mend(cut), Ok(()));
        assert_eq!(session, carried(&fresh(&mesh)));
    }
}

/// Wavelength 1 is at rest and wavelength 2 is not.
fn assert_waits(session: &mut Session, cut: u16) {
    assert_eq!(session.mend(cut), refused(Reason::NotAtRest, cut.into()));
    let waiting = Run {
        made: 0,
        at_rest: false,
    };
    assert_eq!(session.run(0), Ok(waiting));
    for wavelength in [1, 2] {
        let status = session.status(cut, wavelength).unwrap();
        assert_eq!(status.route, RouteLength::Metres(0));
        assert_eq!(status.busy > 0, wavelength == 2);
    }
}

#[test]
fn the_length_of_p6_is_shown_again_once_wavelength_2_rests() {
    // Links of 1, 2, 4, 8 and 16 metres: both routes have links 1 and 2.
    let mut old = after_cut(&with_powers_of_two(&p5()), 4);
    assert!(old.run(u32::MAX).is_ok_and(|run| run.made == 6));
    assert_eq!(old.status(4).unwrap().route, RouteLength::Metres(6));
    let mut session = carried(&old);
    assert_waits(&mut session, 4);
    assert!(session.run(5).is_ok_and(|run| !run.at_rest));
    assert_waits(&mut session, 4);
    assert!(session.run(1).is_ok_and(|run| run.at_rest));
    for wavelength in [1, 2] {
        let status = session.status(4, wavelength).unwrap();
        assert_eq!(status.route, RouteLength::Metres(6));
    }
    assert_eq!(session.mend(4), Ok(()));
}

#[test]
fn a_mended_old_session_becomes_a_fresh_one() {
    let random = &mut Random::new(7);
    for turn in 0..200 {
        let mesh = ground(turn, random);
        let mut caller = OldCaller::new(&mesh, random);
        mended(&mut caller);
        let (expected, _) = start(&without_ducts(&mesh), &plan(&mesh).0);
        assert_eq!(carried(&caller.session), expected);
    }
}

#[test]
fn states_without_a_cut_are_kept_as_they_are() {
    let mut old = fresh(&triangle());
    old.states[..3].copy_from_slice(&[1, 2, 3]);
    old.reached[1] = true;
    let mut session = carried(&old);
    assert_eq!(session.floods.first, old_flood(&old));
    assert_eq!(session.floods.second, Flood::FRESH);
    assert_eq!(session.deliver(0, 1), refused(Reason::NoCut, 0));
    assert_eq!(session.status(0, 1).unwrap().busy, 2);
    // The cut of link 0 offers link 1, which leaves node 0, whatever its state.
    assert_eq!(session.cut(0), Ok(()));
    let states = session.floods.first.states;
    assert_eq!(states[..3], [1, 1, 3]);
    assert!(is_under_way(session.floods.second.states[2]));
}
