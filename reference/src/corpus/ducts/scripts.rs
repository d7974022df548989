//! Calls on sessions whose links have ducts.

use super::super::meshes::with_ducts;
use super::super::scripts::caller::Caller;
use super::super::scripts::examples::every_cut;
use super::super::scripts::grounds::{nsfnet, p5, triangle};
use super::super::scripts::ill_formed::called;
use super::grounds::ways;
use super::records::with_duct_at;
use crate::case::Case;
use crate::mesh::{Mesh, MOST_LINKS};
use crate::plan::plan;
use crate::random::Random;
use crate::script::{Call, Script};
use crate::session::{start, Session};

pub fn cases(random: &mut Random) -> Vec<Case> {
    let mut scripts = Vec::new();
    for mesh in [triangle(), p5(), nsfnet()] {
        // The mesh without a duct first: its answers are those of the others.
        scripts.extend(ways(&mesh).iter().map(every_cut));
    }
    scripts.extend(past_count(random));
    scripts.extend(other_ducts(random));
    scripts.into_iter().map(Case::Script).collect()
}

fn fresh(mesh: &Mesh) -> Session {
    start(mesh, &plan(mesh).0).0
}

/// 13: a session with a duct alone past the last link.
fn past_count(random: &mut Random) -> Vec<Script> {
    let mut scripts = Vec::new();
    for at in (3..MOST_LINKS).step_by(12) {
        let mut session = fresh(&triangle());
        session.mesh = with_duct_at(&triangle(), at, 1 << (at % 16));
        scripts.push(called(&session, &triangle(), random));
    }
    scripts
}

/// A session whose ducts are stored over: the digest shows them, and the calls
/// are answered as before.
fn other_ducts(random: &mut Random) -> Vec<Script> {
    let mut scripts = Vec::new();
    for base in [triangle(), p5(), with_ducts(&p5(), |_| 513)] {
        for mesh in ways(&base) {
            let mut session = fresh(&base);
            session.mesh = mesh;
            let mut caller = Caller::on(&session, &base, random);
            let link = caller.inner_link();
            caller.make_all(&[Call::Cut(link), Call::Run(u32::MAX)]);
            caller.both_routes();
            caller.make(Call::Mend(link));
            scripts.push(caller.script());
        }
    }
    scripts
}

#[cfg(test)]
mod tests {
    use super::*;
    use crate::listing::listing;
    use crate::refusal::{Reason, Refusal};

    /// The lines of a script but the digests of its mesh.
    fn answers(script: Script) -> Vec<String> {
        let text = listing(&[Case::Script(script)]).unwrap();
        let lines = text.lines().filter(|line| !line.contains("digest"));
        lines.map(str::to_string).collect()
    }

    #[test]
    fn recovery_does_not_depend_on_ducts() {
        for mesh in [triangle(), p5(), nsfnet()] {
            let plain = answers(every_cut(&mesh));
            for ducted in ways(&mesh) {
                assert_eq!(answers(every_cut(&ducted)), plain);
            }
        }
    }

    #[test]
    fn a_duct_past_the_last_link_is_ill_formed() {
        for script in past_count(&mut Random::new(0)) {
            let (session, _) = script.begin();
            let expected = Err(Refusal::new(Reason::IllFormed, 0));
            assert_eq!(session.check(), expected);
        }
    }

    #[test]
    fn ducts_stored_over_are_accepted() {
        for script in other_ducts(&mut Random::new(0)) {
            assert_eq!(script.begin().0.check(), Ok(()));
        }
    }
}
