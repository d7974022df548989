//! Old sessions that are well formed though no list of old calls produces them:
//! any states and reached nodes, with a cut and without one, on the mesh's plan
//! or another one.

use super::super::scripts::grounds::{any, largest, small};
use super::super::scripts::odd::{flood, some_plan, STATES};
use super::behind::{self, with_calls};
use crate::mesh::Mesh;
use crate::old_session::OldSession;
use crate::random::Random;
use crate::upgrade::Upgrade;

const WITHOUT_A_CUT: [behind::Part; 2] = [behind::cuts, behind::jumble];

const UNDER_A_CUT: [behind::Part; 4] = [
    behind::deliveries,
    behind::waiting,
    behind::runs,
    behind::jumble,
];

pub fn upgrades(random: &mut Random) -> Vec<Upgrade> {
    let mut upgrades = Vec::new();
    for turn in 0..66 {
        let mesh = if turn % 4 == 0 { any } else { small }(random);
        upgrades.push(upgrade(&mesh, turn, random));
    }
    for turn in 0..3 {
        upgrades.push(upgrade(&largest(random), turn, random));
    }
    upgrades
}

/// Each choice of states by turns, one time in three without a cut.
pub fn upgrade(mesh: &Mesh, turn: usize, random: &mut Random) -> Upgrade {
    let mut old = session(mesh, STATES[turn % STATES.len()], random);
    let third = (turn + turn / STATES.len()) % 3;
    if third > 0 && mesh.count > 0 {
        old.cut = Some(random.below(mesh.count.into()) as u16);
    }
    let part = match old.cut {
        None => random.pick(&WITHOUT_A_CUT),
        Some(_) => random.pick(&UNDER_A_CUT),
    };
    with_calls(old, part, random)
}

fn session(mesh: &Mesh, states: &[u8], random: &mut Random) -> OldSession {
    let plan = some_plan(mesh, random);
    let flood = flood(mesh, states, random);
    OldSession {
        states: flood.states,
        reached: flood.reached,
        ..OldSession::fresh(mesh, &plan)
    }
}

#[cfg(test)]
mod tests {
    use super::*;
    use crate::plan::plan;
    use crate::session::is_under_way;

    #[test]
    fn each_is_accepted_and_many_come_from_no_list() {
        for seed in 0..5 {
            let upgrades = upgrades(&mut Random::new(seed));
            let sessions: Vec<&OldSession> = upgrades.iter().map(|one| &one.old).collect();
            assert!(sessions.iter().all(|old| old.carry_over().1 == Ok(())));
            let busy = |old: &OldSession| old.states.iter().any(|state| is_under_way(*state));
            let no_cut = sessions.iter().filter(|old| old.cut.is_none());
            assert!(no_cut.filter(|old| busy(old)).count() >= 10);
            let meant = |old: &OldSession| plan(&old.carry_over().0.mesh).0;
            let strays = sessions
                .iter()
                .filter(|old| meant(old).directions != old.directions);
            assert!(strays.count() >= 15);
        }
    }
}
