//! How often the corpus tells the two wavelengths apart.

use reference::case::Case;
use reference::corpus;
use reference::refusal::Reason;
use reference::script::{Call, Script};
use reference::session::{is_under_way, Session, Wavelength};

/// Of each wavelength, what was met while it alone was at rest.
#[derive(Debug, Default)]
struct Met {
    /// Mends refused because the other one is not at rest.
    waiting: [usize; 2],
    /// Statuses and routes of it.
    asked: [usize; 2],
    /// Runs whose last delivery was on wavelength 1, with wavelength 2 next on
    /// the same link.
    split: usize,
}

impl Met {
    /// Plays a script and counts.
    fn play(&mut self, script: &Script) {
        let (mut session, _) = script.begin();
        for call in &script.calls {
            let alone = alone_at_rest(&session);
            match *call {
                Call::Cut(link) => _ = session.cut(link),
                Call::Deliver(link, wavelength) => _ = session.deliver(link, wavelength),
                Call::Mend(link) => {
                    let refused = session.mend(link).err();
                    let waits = refused.is_some_and(|why| why.reason == Reason::NotAtRest);
                    if let Some(place) = alone.filter(|_| waits) {
                        self.waiting[place] += 1;
                    }
                }
                Call::Run(allowance) => self.split += usize::from(splits(&mut session, allowance)),
                Call::Status(_, wavelength) | Call::Route(wavelength) => {
                    let own = alone.filter(|place| *place + 1 == usize::from(wavelength));
                    if let Some(place) = own {
                        self.asked[place] += 1;
                    }
                }
            }
        }
    }
}

/// Which wavelength alone is at rest, under a cut in a well-formed session: 0
/// for 1 and 1 for 2.
fn alone_at_rest(session: &Session) -> Option<usize> {
    let [first, second] = session.floods.both().map(|flood| flood.is_at_rest());
    let counts = session.check().is_ok() && session.cut.is_some() && first != second;
    counts.then_some(usize::from(second))
}

/// Makes a run; whether it ends between the two turns of a link.
fn splits(session: &mut Session, allowance: u32) -> bool {
    let mut last = None;
    let run = session.run_by_turns(allowance, |link, wavelength| {
        last = Some((link, wavelength))
    });
    let under_way = |link: u16| is_under_way(session.floods.second.states[usize::from(link)]);
    run.is_ok() && last.is_some_and(|(link, on)| on == Wavelength::One && under_way(link))
}

#[test]
fn each_wavelength_rests_alone_and_runs_split_links() {
    for seed in [0, 1, 2] {
        let mut met = Met::default();
        for case in corpus::make(seed) {
            if let Case::Script(script) = case {
                met.play(&script);
            }
        }
        assert!(met.waiting.iter().all(|count| *count >= 100), "{met:?}");
        assert!(met.asked.iter().all(|count| *count >= 400), "{met:?}");
        assert!(met.split >= 100, "{met:?}");
    }
}
