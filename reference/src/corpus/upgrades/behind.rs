//! Calls on a session that was carried over.

use super::super::scripts::caller::Caller;
use crate::old_session::OldSession;
use crate::random::Random;
use crate::script::Call;
use crate::session::Wavelength;
use crate::upgrade::Upgrade;

/// Adds calls.
pub type Part = fn(&mut Caller);

/// The most deliveries that are made one by one.
const MOST: usize = 40;

/// The old session and these calls on what it becomes.
pub fn with_calls(old: OldSession, part: Part, random: &mut Random) -> Upgrade {
    let (session, _) = old.carry_over();
    let mut caller = Caller::on(&session, &session.mesh, random);
    part(&mut caller);
    let calls = caller.script().calls;
    Upgrade { old, calls }
}

/// Deliveries on both wavelengths in mixed orders up to rest, with questions
/// before them and at rest, and a mend.
pub fn deliveries(caller: &mut Caller) {
    let link = caller.inner_link();
    ask(caller, link);
    caller.flood(MOST);
    to_rest(caller);
    ask(caller, link);
    let call = caller.mending();
    caller.make(call);
}

/// Short runs, with questions between them, and one up to rest.
pub fn runs(caller: &mut Caller) {
    let link = caller.inner_link();
    caller.make(Call::Route(1));
    for _ in 0..3 {
        let allowance = caller.random.below(5) as u32;
        caller.make(Call::Run(allowance));
        caller.both_statuses(link);
    }
    caller.make(Call::Run(u32::MAX));
    ask(caller, link);
    caller.make(Call::Run(1));
}

/// The route of wavelength 1 right away; a mend, which waits for wavelength 2,
/// before, between and after its deliveries; then another cut.
pub fn waiting(caller: &mut Caller) {
    let cut = caller.session.cut.unwrap_or(0);
    ask(caller, cut);
    caller.make(Call::Mend(cut));
    let some = caller.random.between(1, 4);
    deliver_second(caller, some);
    caller.make_all(&[Call::Status(cut, 1), Call::Route(1), Call::Mend(cut)]);
    if caller.random.below(2) == 0 {
        deliver_second(caller, MOST);
    }
    to_rest(caller);
    ask(caller, cut);
    caller.make(Call::Mend(cut));
    cut_again(caller);
}

/// Refused calls where no cut stands, then a cut and its flood.
pub fn cuts(caller: &mut Caller) {
    let calls = [
        Call::Run(caller.allowance()),
        caller.any_delivery(),
        caller.mending(),
        caller.question(),
    ];
    let first = caller.random.below(3);
    caller.make_all(&calls[first..first + 2]);
    cut_again(caller);
    let mending = caller.mending();
    caller.make(mending);
}

/// Calls of all kinds in random order.
pub fn jumble(caller: &mut Caller) {
    let times = caller.random.between(8, 16);
    caller.jumble(times);
}

/// A status and the route of each wavelength.
pub fn ask(caller: &mut Caller, link: u16) {
    caller.both_statuses(link);
    caller.both_routes();
}

/// Deliveries on wavelength 2 alone, so many at most.
fn deliver_second(caller: &mut Caller, most: usize) {
    for _ in 0..most {
        let Some((link, wavelength)) = caller.under_way_on(&[Wavelength::Two]) else {
            return;
        };
        caller.make(Call::Deliver(link, wavelength));
    }
}

fn to_rest(caller: &mut Caller) {
    if !caller.session.is_at_rest() {
        caller.make(Call::Run(u32::MAX));
    }
}

/// A cut, which is refused where one stands, and some deliveries up to rest.
fn cut_again(caller: &mut Caller) {
    let link = caller.inner_link();
    caller.make(Call::Cut(link));
    caller.flood(6);
    to_rest(caller);
    caller.both_statuses(link);
}
