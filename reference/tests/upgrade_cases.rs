//! What the corpus holds of old sessions: of which kinds they are, and how often
//! the calls behind them show a route that waits for wavelength 2.

use reference::case::Case;
use reference::corpus;
use reference::old_session::OldSession;
use reference::plan::plan;
use reference::refusal::Reason;
use reference::script::Call;
use reference::session::{RouteLength, Session, QUIET, TAKEN};
use reference::upgrade::Upgrade;

#[derive(Debug, Default)]
struct Met {
    refused: usize,
    /// No cut, and no link or node that is not as in a fresh session.
    fresh: usize,
    /// A cut with links under way.
    under_way: usize,
    /// A cut, at rest, with taken links.
    recovered: usize,
    /// States that are not quiet, without a cut.
    without_cut: usize,
    /// A plan that is not the mesh's.
    other_plan: usize,
    deliveries: [usize; 2],
    /// Mends refused while wavelength 1 is at rest and wavelength 2 is not.
    waiting: usize,
    /// Statuses of wavelength 1 at its rest with taken links: those that give 0
    /// because wavelength 2 is under way, and those that show the length.
    hidden: usize,
    shown: usize,
    /// Routes of wavelength 1 shown while wavelength 2 is under way.
    routes: usize,
    /// Cuts accepted after the carry-over.
    cuts: usize,
}

impl Met {
    fn count(&mut self, upgrade: &Upgrade) {
        let (mut session, answer) = upgrade.old.carry_over();
        match answer {
            Ok(()) => self.count_old(&upgrade.old, &session),
            Err(_) => self.refused += 1,
        }
        for call in &upgrade.calls {
            self.count_call(&mut session, *call);
        }
    }

    fn count_old(&mut self, old: &OldSession, session: &Session) {
        let quiet = old.states.iter().all(|state| *state == QUIET);
        match old.cut {
            None if quiet && !old.reached.contains(&true) => self.fresh += 1,
            None if quiet => (),
            None => self.without_cut += 1,
            Some(_) if !old.is_at_rest() => self.under_way += 1,
            Some(_) => self.recovered += usize::from(old.states.contains(&TAKEN)),
        }
        self.other_plan += usize::from(session.plan != plan(&session.mesh).0);
    }

    fn count_call(&mut self, session: &mut Session, call: Call) {
        let waits = waits(session);
        match call {
            Call::Cut(link) => self.cuts += usize::from(session.cut(link).is_ok()),
            Call::Deliver(link, wavelength) => {
                let made = session.deliver(link, wavelength).is_ok();
                if made {
                    self.deliveries[usize::from(wavelength) - 1] += 1;
                }
            }
            Call::Mend(link) => {
                let refused = session.mend(link).err();
                let busy = refused.is_some_and(|why| why.reason == Reason::NotAtRest);
                self.waiting += usize::from(busy && waits);
            }
            Call::Run(allowance) => _ = session.run(allowance),
            Call::Status(link, 1) => {
                let status = session.status(link, 1);
                let zero = |route| route == RouteLength::Metres(0);
                let shown = status.is_ok_and(|status| !zero(status.route));
                self.shown += usize::from(shown);
                self.hidden += usize::from(status.is_ok() && waits);
            }
            Call::Route(1) => {
                let links = session.route(1).unwrap_or_default();
                self.routes += usize::from(waits && !links.is_empty());
            }
            Call::Status(..) | Call::Route(_) => (),
        }
    }
}

/// Whether wavelength 1 is at rest under a cut with taken links and wavelength 2
/// is not at rest.
fn waits(session: &Session) -> bool {
    let [first, second] = session.floods.both();
    let has_route = session.cut.is_some() && first.states.contains(&TAKEN);
    has_route && first.is_at_rest() && !second.is_at_rest()
}

#[test]
fn old_sessions_of_every_kind_are_carried_over_and_called() {
    for seed in [0, 1, 2] {
        let mut met = Met::default();
        for case in corpus::make(seed) {
            if let Case::Upgrade(upgrade) = case {
                met.count(&upgrade);
            }
        }
        assert!(met.refused >= 150, "{met:?}");
        assert!(met.fresh >= 20 && met.under_way >= 100, "{met:?}");
        assert!(met.recovered >= 60 && met.without_cut >= 30, "{met:?}");
        assert!(met.other_plan >= 20, "{met:?}");
        assert!(met.deliveries.iter().all(|made| *made >= 600), "{met:?}");
        assert!(met.waiting >= 100 && met.hidden >= 150, "{met:?}");
        assert!(met.shown >= 200 && met.routes >= 100, "{met:?}");
        assert!(met.cuts >= 80, "{met:?}");
    }
}
