//! The length of the route: the sum over the taken links at rest under a cut,
//! not known where one of them is not measured, and otherwise 0.

use reference::corpus::scripts::grounds::{dense, p5, triangle};
use reference::mesh::Mesh;
use reference::plan::plan;
use reference::session::{start, RouteLength, Session, Wavelength};
use reference::session::{OFFERED, QUIET, REFUSED, RELEASED, TAKEN};

use RouteLength::{Metres, NotKnown};

/// The lengths of P5's links, each sum of which tells its links.
const APART: [u16; 5] = [1, 20, 300, 4_000, 50_000];

fn with_lengths(mut mesh: Mesh, lengths: &[u16]) -> Mesh {
    assert_eq!(mesh.counted().len(), lengths.len());
    for (link, length) in mesh.links.iter_mut().zip(lengths) {
        link.length = *length;
    }
    mesh
}

fn fresh(mesh: &Mesh) -> Session {
    let (plan, answer) = plan(mesh);
    assert_eq!(answer, Ok(()));
    start(mesh, &plan).0
}

/// P5 with these lengths after a cut.
fn cut_p5(lengths: [u16; 5], link: u16) -> Session {
    let mut session = fresh(&with_lengths(p5(), &lengths));
    assert_eq!(session.cut(link), Ok(()));
    session
}

/// P5 with these lengths at rest after a cut and a run.
fn run_p5(lengths: [u16; 5], link: u16) -> Session {
    let mut session = cut_p5(lengths, link);
    assert!(session.run(u32::MAX).unwrap().at_rest);
    session
}

/// The length on wavelength 1.
fn length(session: &Session) -> RouteLength {
    length_on(session, 1)
}

/// Every link's status gives the same length.
fn length_on(session: &Session, wavelength: u8) -> RouteLength {
    let status = |link| session.status(link, wavelength).unwrap();
    let lengths = (0..session.mesh.count).map(|link| status(link).route);
    let lengths: Vec<RouteLength> = lengths.collect();
    assert!(lengths.windows(2).all(|two| two[0] == two[1]));
    lengths[0]
}

/// P5's lengths with one link not measured.
fn without(link: usize) -> [u16; 5] {
    let mut lengths = APART;
    lengths[link] = 0;
    lengths
}

#[test]
fn the_words_of_a_length() {
    assert_eq!(Metres(0).to_string(), "0");
    assert_eq!(Metres(16_776_960).to_string(), "16776960");
    assert_eq!(NotKnown.to_string(), "-");
}

#[test]
fn all_links_measured() {
    // The routes are 2 4 3, 2 4, 4 1, 0 2 4 and 1 2.
    let sums = [54_300, 50_300, 50_020, 50_301, 320];
    for (link, sum) in (0..).zip(sums) {
        assert_eq!(length(&run_p5(APART, link)), Metres(sum));
    }
}

#[test]
fn another_order_gives_another_length() {
    let mut session = cut_p5(APART, 4);
    for link in [3, 0, 2, 1, 1] {
        assert_eq!(length(&session), Metres(0));
        assert!(session.deliver(link, 1).is_ok());
    }
    assert_eq!(session.route(1), Ok(vec![3, 0, 2]));
    // Wavelength 2 is not at rest.
    assert_eq!(length(&session), Metres(0));
    assert!(session.run(u32::MAX).unwrap().at_rest);
    assert_eq!(length(&session), Metres(4_301));
    assert_eq!(length_on(&session, 2), Metres(320));
}

#[test]
fn no_link_measured() {
    for link in 0..5 {
        assert_eq!(length(&run_p5([0; 5], link)), NotKnown);
    }
}

#[test]
fn one_link_of_the_route_not_measured() {
    for link in [1, 2] {
        assert_eq!(length(&run_p5(without(link), 4)), NotKnown);
    }
    assert_eq!(length(&run_p5([65_535, 0, 0, 65_535, 65_535], 4)), NotKnown);
}

#[test]
fn a_link_off_the_route_not_measured() {
    // Links 0 and 3 are released, link 4 is the cut one.
    for link in [0, 3, 4] {
        assert_eq!(length(&run_p5(without(link), 4)), Metres(320));
    }
    assert_eq!(length(&run_p5([0, 20, 300, 0, 0], 4)), Metres(320));
}

#[test]
fn zero_without_a_cut_and_before_rest() {
    let mut session = fresh(&with_lengths(p5(), &without(1)));
    assert_eq!(length(&session), Metres(0));
    assert_eq!(session.cut(4), Ok(()));
    assert_eq!(length(&session), Metres(0));
    // Link 1, which is not measured, is taken by the first delivery.
    for _ in 0..11 {
        assert_eq!(session.run(1).unwrap().made, 1);
        assert_eq!(session.floods.first.states[1], TAKEN);
        assert_eq!(length(&session), Metres(0));
    }
    assert!(session.run(1).unwrap().at_rest);
    assert_eq!(length(&session), NotKnown);
    assert_eq!(session.mend(4), Ok(()));
    assert_eq!(length(&session), Metres(0));
}

#[test]
fn zero_at_rest_under_a_cut_with_no_taken_link() {
    for lengths in [APART, [0; 5]] {
        for state in [QUIET, RELEASED] {
            let mut session = fresh(&with_lengths(p5(), &lengths));
            session.cut = Some(4);
            session.floods.first.states[..5].fill(state);
            assert_eq!(length(&session), Metres(0));
        }
    }
}

#[test]
fn taken_links_count_wherever_they_stand() {
    let mut session = fresh(&with_lengths(p5(), &APART));
    session.cut = Some(4);
    for (link, sum) in [(4, 50_000), (0, 50_001), (3, 54_001)] {
        session.floods.first.states[link] = TAKEN;
        assert_eq!(length(&session), Metres(sum));
    }
    session.mesh.links[1].length = 0;
    assert_eq!(length(&session), Metres(54_001));
    session.mesh.links[3].length = 0;
    assert_eq!(length(&session), NotKnown);
    assert_eq!(length_on(&session, 2), Metres(0));
    for state in [OFFERED, REFUSED] {
        for wavelength in Wavelength::BOTH {
            let mut moving = session.clone();
            moving.floods[wavelength].states[1] = state;
            assert_eq!(length(&moving), Metres(0));
        }
    }
    // The links taken on wavelength 2 count for its own length alone.
    session.floods.second.states[2] = TAKEN;
    assert_eq!(length(&session), NotKnown);
    assert_eq!(length_on(&session, 2), Metres(300));
    session.cut = None;
    assert_eq!(length(&session), Metres(0));
}

#[test]
fn sums_above_16_bits() {
    let longest = with_lengths(triangle(), &[65_535; 3]);
    let mut session = fresh(&longest);
    assert_eq!(session.cut(0), Ok(()));
    assert!(session.run(4).unwrap().at_rest);
    assert_eq!(length(&session), Metres(131_070));
    let mut session = fresh(&with_lengths(dense(), &[65_535; 256]));
    session.cut = Some(255);
    session.floods.first.states = [TAKEN; 256];
    assert_eq!(length(&session), Metres(16_776_960));
    session.mesh.links[255].length = 0;
    assert_eq!(length(&session), NotKnown);
}
