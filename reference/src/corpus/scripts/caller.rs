//! Writes a script while it makes the script's calls.

use super::numbers;
use crate::book::bytes_of;
use crate::mesh::Mesh;
use crate::random::Random;
use crate::script::{Call, GivenSession, Origin, Script};
use crate::session::{is_under_way, Session, Wavelength};

pub struct Caller<'a> {
    pub session: Session,
    pub random: &'a mut Random,
    script: Script,
}

impl<'a> Caller<'a> {
    pub fn new(mesh: &Mesh, origin: Origin, random: &'a mut Random) -> Caller<'a> {
        let (session, _) = origin.session(mesh);
        let script = Script {
            book: bytes_of(mesh),
            origin,
            calls: Vec::new(),
        };
        Caller {
            session,
            random,
            script,
        }
    }

    /// On a session as it is, with the book of `mesh`.
    pub fn on(session: &Session, mesh: &Mesh, random: &'a mut Random) -> Caller<'a> {
        let given = GivenSession::of(session, mesh);
        Caller::new(mesh, Origin::GivenSession(Box::new(given)), random)
    }

    pub fn script(self) -> Script {
        self.script
    }

    /// Makes a call and writes it down; what it answers is no matter here.
    pub fn make(&mut self, call: Call) {
        let session = &mut self.session;
        match call {
            Call::Cut(link) => _ = session.cut(link),
            Call::Deliver(link, wavelength) => _ = session.deliver(link, wavelength),
            Call::Mend(link) => _ = session.mend(link),
            Call::Run(allowance) => _ = session.run(allowance),
            Call::Status(..) | Call::Route(_) => (),
        }
        self.script.calls.push(call);
    }

    pub fn make_all(&mut self, calls: &[Call]) {
        for call in calls {
            self.make(*call);
        }
    }

    /// A link below L; 0 where there is none.
    pub fn inner_link(&mut self) -> u16 {
        numbers::inner_link(self.session.mesh.count, self.random)
    }

    /// A link number, mostly below L.
    pub fn link(&mut self) -> u16 {
        numbers::link(self.session.mesh.count, self.random)
    }

    /// 1 or 2.
    pub fn inner_wavelength(&mut self) -> u8 {
        self.random.between(1, 2) as u8
    }

    /// The number of a wavelength, mostly 1 or 2.
    pub fn wavelength(&mut self) -> u8 {
        match self.random.below(30) {
            0 => 0,
            1 => 3,
            2 => 255,
            _ => self.inner_wavelength(),
        }
    }

    /// A link under way and its wavelength, if there is one.
    pub fn under_way(&mut self) -> Option<(u16, u8)> {
        self.under_way_on(&Wavelength::BOTH)
    }

    /// The same, of this wavelength where it is not at rest.
    fn under_way_first(&mut self, wavelength: Option<Wavelength>) -> Option<(u16, u8)> {
        let first = wavelength.and_then(|wavelength| self.under_way_on(&[wavelength]));
        first.or_else(|| self.under_way())
    }

    /// The same, of these wavelengths alone.
    pub fn under_way_on(&mut self, wavelengths: &[Wavelength]) -> Option<(u16, u8)> {
        let mut links = Vec::new();
        for wavelength in wavelengths {
            let numbered = (0..).zip(self.session.floods[*wavelength].states);
            let under_way = numbered.filter(|(_, state)| is_under_way(*state));
            links.extend(under_way.map(|(link, _)| (link, wavelength.number())));
        }
        (!links.is_empty()).then(|| self.random.pick(&links))
    }

    pub fn allowance(&mut self) -> u32 {
        numbers::allowance(self.random)
    }

    /// A delivery, mostly on a link under way.
    pub fn delivery(&mut self) -> Call {
        let any = self.random.below(12) == 0;
        match self.under_way().filter(|_| !any) {
            Some((link, wavelength)) => Call::Deliver(link, wavelength),
            None => self.any_delivery(),
        }
    }

    pub fn any_delivery(&mut self) -> Call {
        Call::Deliver(self.link(), self.wavelength())
    }

    pub fn status(&mut self) -> Call {
        Call::Status(self.link(), self.wavelength())
    }

    pub fn route(&mut self) -> Call {
        Call::Route(self.wavelength())
    }

    /// A status on each wavelength.
    pub fn both_statuses(&mut self, link: u16) {
        self.make_all(&[1, 2].map(|wavelength| Call::Status(link, wavelength)));
    }

    pub fn both_routes(&mut self) {
        self.make_all(&[1, 2].map(Call::Route));
    }

    /// A mend, mostly of the cut link.
    pub fn mending(&mut self) -> Call {
        let other = self.random.below(3) == 0;
        let link = self.session.cut.filter(|_| !other);
        Call::Mend(link.unwrap_or_else(|| self.link()))
    }

    /// A status or the route.
    pub fn question(&mut self) -> Call {
        match self.random.below(3) {
            0 => self.route(),
            _ => self.status(),
        }
    }

    /// A call that is no delivery and makes none.
    pub fn hindrance(&mut self) -> Call {
        match self.random.below(6) {
            0 | 1 => Call::Cut(self.link()),
            2 => self.mending(),
            3 => Call::Run(0),
            _ => self.question(),
        }
    }

    pub fn any_call(&mut self) -> Call {
        match self.random.below(20) {
            0..=2 => Call::Cut(self.link()),
            3..=10 => self.delivery(),
            11 | 12 => Call::Run(self.allowance()),
            13..=15 => self.mending(),
            _ => self.question(),
        }
    }

    /// Calls of all kinds in random order.
    pub fn jumble(&mut self, times: usize) {
        for _ in 0..times {
            let call = self.any_call();
            self.make(call);
        }
    }

    /// Deliveries on links under way in random order until rest, `most` calls
    /// at most, with other calls between them. The wavelengths are mixed, or one
    /// of them comes first.
    pub fn flood(&mut self, most: usize) {
        let [one, two] = Wavelength::BOTH.map(Some);
        let first = self.random.pick(&[None, None, one, two]);
        for _ in 0..most {
            let Some((link, wavelength)) = self.under_way_first(first) else {
                return;
            };
            let call = match self.random.below(36) {
                0..=3 => self.hindrance(),
                4 => self.delivery(),
                5..=8 => self.status(),
                _ => Call::Deliver(link, wavelength),
            };
            self.make(call);
        }
    }
}
