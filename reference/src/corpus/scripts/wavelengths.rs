//! The two wavelengths side by side: numbers that are no wavelength, runs that
//! end between a link's two turns, and one wavelength at rest before the other.

use super::super::meshes::{with_powers_of_two, with_unmeasured};
use super::caller::Caller;
use super::grounds::{dense, largest, middle, p5, small, triangle};
use crate::mesh::Mesh;
use crate::random::Random;
use crate::script::{Call, Origin, Script};
use crate::session::{Session, Wavelength};

/// Numbers that are no wavelength.
const NONE: [u8; 5] = [0, 3, 4, 127, 255];

pub fn scripts(random: &mut Random) -> Vec<Script> {
    let mut scripts = Vec::new();
    for mesh in [triangle(), p5(), middle(random), dense()] {
        scripts.push(numbers(&mesh, random));
    }
    scripts.push(every_number(random));
    let measured = with_powers_of_two(&p5());
    let mut meshes = vec![triangle(), measured.clone(), with_unmeasured(&measured, 2)];
    meshes.extend((0..8).map(|_| small(random)));
    meshes.extend((0..3).map(|_| middle(random)));
    for mesh in &meshes {
        scripts.push(split_runs(mesh, random));
        for wavelength in Wavelength::BOTH {
            scripts.push(one_at_rest(mesh, wavelength, random));
        }
    }
    let mesh = largest(random);
    scripts.push(one_at_rest(&mesh, Wavelength::Two, random));
    scripts
}

/// Wavelengths and other numbers with links and other numbers, on a fresh
/// session, under a cut, at rest and after a mend: 12, 14, 23 and 24 in order.
fn numbers(mesh: &Mesh, random: &mut Random) -> Script {
    let mut caller = Caller::new(mesh, Origin::OwnPlan, random);
    let link = caller.inner_link();
    name_all(&mut caller);
    caller.make(Call::Cut(link));
    name_all(&mut caller);
    caller.make(Call::Run(u32::MAX));
    name_all(&mut caller);
    caller.make(Call::Mend(link));
    name_all(&mut caller);
    caller.script()
}

fn name_all(caller: &mut Caller) {
    let count = caller.session.mesh.count;
    let quiet = caller.session.cut.unwrap_or(0);
    let under_way = caller.under_way().map_or(count - 1, |(link, _)| link);
    for wavelength in NONE.into_iter().chain([1, 2]) {
        caller.make(Call::Route(wavelength));
        for link in [quiet, under_way, count, 65_535] {
            caller.make(Call::Status(link, wavelength));
            if NONE.contains(&wavelength) || link >= count || link == quiet {
                caller.make(Call::Deliver(link, wavelength));
            }
        }
    }
}

/// Every number in the place of a wavelength, under a cut.
fn every_number(random: &mut Random) -> Script {
    let mut caller = Caller::new(&triangle(), Origin::OwnPlan, random);
    caller.make(Call::Cut(0));
    for number in 0..=255 {
        let link = u16::from(number) % 3;
        caller.make_all(&[Call::Status(link, number), Call::Route(number)]);
        if number == 0 || number > 2 {
            caller.make(Call::Deliver(2, number));
        }
    }
    caller.script()
}

/// Runs that end where a link has had its turn on wavelength 1 and not yet on
/// wavelength 2, with statuses of that link, under each cut.
fn split_runs(mesh: &Mesh, random: &mut Random) -> Script {
    let mut caller = Caller::new(mesh, Origin::OwnPlan, random);
    for cut in (0..mesh.count).take(8) {
        caller.make(Call::Cut(cut));
        for (allowance, link) in splits(&caller.session).into_iter().take(4) {
            caller.make(Call::Run(allowance));
            caller.both_statuses(link);
            caller.make(Call::Run(1));
            caller.both_statuses(link);
        }
        caller.make(Call::Run(u32::MAX));
        caller.both_statuses(cut);
        caller.both_routes();
        caller.make(Call::Mend(cut));
    }
    caller.script()
}

/// The runs that end between the two turns of a link, each after one delivery
/// more than the one before, and the link.
fn splits(session: &Session) -> Vec<(u32, u16)> {
    let turns = turns(session);
    let mut splits = Vec::new();
    let mut made = 0;
    for (end, two) in (1..).zip(turns.windows(2)) {
        let [(before, first), (link, second)] = [two[0], two[1]];
        if before == link && first != second {
            splits.push((end - made, link));
            made = end + 1;
        }
    }
    splits
}

/// The deliveries of an unhindered run.
fn turns(session: &Session) -> Vec<(u16, Wavelength)> {
    let mut turns = Vec::new();
    let tell = |link, wavelength| turns.push((link, wavelength));
    let run = session.clone().run_by_turns(u32::MAX, tell);
    run.expect("a cut stands");
    turns
}

/// Single deliveries bring one wavelength to rest while the other waits; then a
/// mend is refused, and the other one runs.
fn one_at_rest(mesh: &Mesh, wavelength: Wavelength, random: &mut Random) -> Script {
    let mut caller = Caller::new(mesh, Origin::OwnPlan, random);
    let most = if mesh.count > 100 { 1 } else { 3 };
    for _ in 0..most {
        let cut = caller.inner_link();
        caller.make(Call::Cut(cut));
        while let Some((link, number)) = caller.under_way_on(&[wavelength]) {
            caller.make(Call::Deliver(link, number));
        }
        caller.both_statuses(cut);
        caller.both_routes();
        caller.make_all(&[Call::Mend(cut), Call::Run(1)]);
        caller.both_statuses(cut);
        caller.make_all(&[Call::Mend(cut), Call::Run(u32::MAX)]);
        caller.both_statuses(cut);
        caller.both_routes();
        caller.make(Call::Mend(cut));
    }
    caller.script()
}

#[cfg(test)]
mod tests {
    use super::*;
    use crate::session::is_under_way;

    fn under_cut(mesh: &Mesh, cut: u16) -> Session {
        let random = &mut Random::new(0);
        let mut caller = Caller::new(mesh, Origin::OwnPlan, random);
        caller.make(Call::Cut(cut));
        caller.session
    }

    #[test]
    fn p6_has_two_splits() {
        // After (1,1) and (2,1) the next turn is (2,2); after this and six more,
        // the last of them (3,1), it is (3,2).
        assert_eq!(splits(&under_cut(&p5(), 4)), [(2, 2), (6, 3)]);
    }

    #[test]
    fn a_split_leaves_wavelength_2_where_it_was() {
        let mut count = 0;
        for cut in 0..5 {
            let mut session = under_cut(&p5(), cut);
            for (allowance, link) in splits(&session) {
                let before = session.clone();
                session.run(allowance).unwrap();
                let [first, second] = session.floods.both();
                let state = second.states[usize::from(link)];
                assert!(is_under_way(state));
                assert_ne!(first, &before.floods.first);
                session.run(1).unwrap();
                assert_ne!(session.floods.second.states[usize::from(link)], state);
                count += 1;
            }
        }
        assert_eq!(count, 4);
    }
}
