//! Every stage of the runs under every cut of the document's meshes, and of
//! P7's order.

use super::super::meshes::with_powers_of_two;
use super::super::scripts::caller::Caller;
use super::super::scripts::grounds::{p5, triangle};
use super::behind::{ask, with_calls};
use super::old_caller::OldCaller;
use crate::mesh::Mesh;
use crate::old_session::OldSession;
use crate::random::Random;
use crate::script::Call;
use crate::upgrade::Upgrade;

/// P7's cut and deliveries.
const P7: (u16, [u16; 5]) = (4, [3, 0, 2, 1, 1]);

pub fn upgrades(random: &mut Random) -> Vec<Upgrade> {
    let mut stages = Vec::new();
    for mesh in [triangle(), p5()].map(|mesh| marked(&mesh)) {
        for cut in 0..mesh.count {
            stages.extend(of_run(&mesh, cut, random));
        }
    }
    stages.extend(of_p7(random));
    let watched = |old| with_calls(old, watched, random);
    stages.into_iter().map(watched).collect()
}

/// Lengths that tell the links of a sum, and fibre pairs.
pub fn marked(mesh: &Mesh) -> Mesh {
    let mut mesh = with_powers_of_two(mesh);
    for link in 0..mesh.counted().len() {
        mesh.links[link].pair = 1 << (7 * link);
    }
    mesh
}

/// Right after the cut, and after each delivery of its run.
pub fn of_run(mesh: &Mesh, cut: u16, random: &mut Random) -> Vec<OldSession> {
    let mut caller = OldCaller::new(mesh, random);
    caller.cut(cut);
    let mut stages = vec![caller.session.clone()];
    while !caller.session.is_at_rest() {
        caller.run(1);
        stages.push(caller.session.clone());
    }
    stages
}

/// After each of P7's deliveries; its run has the session right after the cut.
fn of_p7(random: &mut Random) -> Vec<OldSession> {
    let (cut, links) = P7;
    let mut caller = OldCaller::new(&marked(&p5()), random);
    caller.cut(cut);
    let after = |link| {
        caller.deliver(link);
        caller.session.clone()
    };
    links.map(after).into()
}

/// Questions as the session comes, after one delivery and at rest; a mend.
pub fn watched(caller: &mut Caller) {
    let cut = caller.session.cut.unwrap_or(0);
    ask(caller, cut);
    caller.make_all(&[Call::Run(1), Call::Status(cut, 1), Call::Mend(cut)]);
    caller.make(Call::Run(u32::MAX));
    ask(caller, cut);
    caller.make(Call::Mend(cut));
}

#[cfg(test)]
mod tests {
    use super::*;

    #[test]
    fn p6_has_seven_stages_and_p7_five() {
        let random = &mut Random::new(0);
        let run = of_run(&p5(), 4, random);
        assert_eq!(run.len(), 7);
        assert_eq!(run[0].states[..5], [0, 1, 0, 1, 0]);
        assert_eq!(run[6].states[..5], [4, 2, 2, 4, 0]);
        let p7 = of_p7(random);
        assert_eq!(p7[4].states[..5], [2, 4, 2, 2, 0]);
        assert!(p7[4].is_at_rest() && !p7[3].is_at_rest());
    }
}
