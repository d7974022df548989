//! Scripts on meshes with several links between the same nodes.

use super::super::meshes::with_unmeasured;
use super::super::scripts::faults::wrong_sessions;
use super::super::scripts::ill_formed::called;
use super::super::scripts::lists::{self, Times};
use super::super::scripts::{lengths, odd, plans};
use super::super::wrong_meshes::with_ends;
use super::grounds::{any, largest, measured, middle, small};
use super::two_links;
use crate::case::Case;
use crate::mesh::Mesh;
use crate::plan::plan;
use crate::random::Random;
use crate::script::Script;
use crate::session::{start, Session};

/// Floods, runs, cycles, jumbles and mixed ones.
const TIMES: [Times; 5] = [[24, 9, 1], [8, 4, 1], [6, 3, 1], [16, 6, 0], [14, 6, 1]];

pub fn cases(random: &mut Random) -> Vec<Case> {
    let mut scripts = two_links::scripts(random);
    scripts.extend(each_sum(random));
    scripts.extend(lists::on([small, middle, largest], TIMES, random));
    for turn in 0..12 {
        scripts.push(plans::script(&any(random), turn, random));
    }
    for turn in 0..36 {
        scripts.push(odd::script(&small(random), turn, random));
    }
    scripts.extend(ill_formed(random));
    scripts.into_iter().map(Case::Script).collect()
}

/// Every cut on meshes whose lengths tell the links of a sum, with all links
/// measured and with each one in turn not measured; and deliveries in random
/// order.
fn each_sum(random: &mut Random) -> Vec<Script> {
    let mut scripts = Vec::new();
    for mesh in measured() {
        scripts.push(lengths::every_cut(&mesh, random));
        for link in (0..mesh.counted().len()).step_by(2) {
            let unmeasured = with_unmeasured(&mesh, link);
            scripts.push(lengths::every_cut(&unmeasured, random));
        }
        scripts.extend((0..3).map(|_| lengths::delivered(&mesh, random)));
    }
    scripts
}

/// Sessions that the record's test refuses: every second kind of fault, and a
/// pair below the previous one (8).
fn ill_formed(random: &mut Random) -> Vec<Script> {
    let mut scripts = Vec::new();
    for mesh in measured().iter().skip(6).take(2) {
        let good = under_way(mesh);
        let mut wrong: Vec<Session> = wrong_sessions(&good).into_iter().step_by(2).collect();
        wrong.extend(falling(&good));
        let called = |session: &Session| called(session, mesh, random);
        scripts.extend(wrong.iter().map(called));
    }
    scripts
}

/// A cut of the last link, and one delivery.
fn under_way(mesh: &Mesh) -> Session {
    let (mut session, _) = start(mesh, &plan(mesh).0);
    session.cut(mesh.count - 1).expect("no cut stands");
    session.run(1).expect("a cut stands");
    session
}

/// 8 at each link after another pair than (0, 1).
fn falling(good: &Session) -> Vec<Session> {
    let links = good.mesh.counted();
    let places = (1..links.len()).filter(|at| links[at - 1].ends() > (0, 1));
    let with = |at| Session {
        mesh: with_ends(&good.mesh, at, 0, 1),
        ..good.clone()
    };
    places.map(with).collect()
}

#[cfg(test)]
mod tests {
    use super::*;
    use crate::refusal::Reason;

    #[test]
    fn falling_pairs_meet_8() {
        for mesh in measured() {
            for session in falling(&under_way(&mesh)) {
                let refusal = session.check().unwrap_err();
                assert_eq!(refusal.reason, Reason::BelowPrevious);
            }
        }
    }

    #[test]
    fn most_ill_formed_ones_are_refused() {
        let scripts = ill_formed(&mut Random::new(1));
        let checks = scripts.iter().map(|script| script.begin().0.check());
        let refused = checks.filter(|check| check.is_err()).count();
        assert!(refused + 6 >= scripts.len(), "{refused}");
    }
}
