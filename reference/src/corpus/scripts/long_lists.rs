//! Lists of thousands of calls on one session.

use super::super::meshes::{length, with_lengths, with_powers_of_two, with_unmeasured};
use super::caller::Caller;
use super::grounds::{largest, nsfnet, p5, triangle};
use crate::mesh::Mesh;
use crate::random::Random;
use crate::script::{Call, Origin, Script};

pub fn scripts(random: &mut Random) -> Vec<Script> {
    let some_measured = with_unmeasured(&with_powers_of_two(&p5()), 0);
    let all_measured = with_lengths(&nsfnet(), |_| length(random));
    let largest = largest(random);
    [
        (triangle(), 5_000),
        (some_measured, 6_000),
        (all_measured, 5_000),
        (largest, 4_000),
    ]
    .map(|(mesh, calls)| list(&mesh, calls, random))
    .into()
}

fn list(mesh: &Mesh, calls: usize, random: &mut Random) -> Script {
    let mut caller = Caller::new(mesh, Origin::OwnPlan, random);
    for _ in 0..calls {
        let call = any_call(&mut caller);
        caller.make(call);
    }
    caller.script()
}

/// Mostly deliveries, on links under way and on others; a run is short, save
/// one in many, so that a flood takes many calls.
fn any_call(caller: &mut Caller) -> Call {
    match caller.random.below(240) {
        0 => Call::Run(u32::MAX),
        1..=29 => Call::Run(caller.random.below(5) as u32),
        30..=59 => Call::Cut(caller.link()),
        60..=89 => caller.mending(),
        90..=119 => caller.question(),
        120..=139 => caller.any_delivery(),
        _ => caller.delivery(),
    }
}

#[cfg(test)]
mod tests {
    use super::*;

    #[test]
    fn each_list_makes_several_recoveries() {
        for script in scripts(&mut Random::new(1)) {
            let (mut session, _) = script.begin();
            let mut mended = 0;
            for call in &script.calls {
                match *call {
                    Call::Cut(link) => _ = session.cut(link),
                    Call::Deliver(link, wavelength) => _ = session.deliver(link, wavelength),
                    Call::Mend(link) => mended += usize::from(session.mend(link).is_ok()),
                    Call::Run(allowance) => _ = session.run(allowance),
                    Call::Status(..) | Call::Route(_) => (),
                }
            }
            assert!(mended >= 4, "{mended}");
        }
    }
}
