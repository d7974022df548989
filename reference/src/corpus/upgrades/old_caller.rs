//! Makes calls on an old session.

use super::super::scripts::numbers;
use crate::mesh::Mesh;
use crate::old_session::OldSession;
use crate::plan::plan;
use crate::random::Random;
use crate::session::is_under_way;

pub struct OldCaller<'a> {
    pub session: OldSession,
    pub random: &'a mut Random,
    /// The links delivered on since the cut that stands.
    pub delivered: Vec<u16>,
}

impl<'a> OldCaller<'a> {
    /// On a fresh session on the mesh's plan; on zeros where planning refuses.
    pub fn new(mesh: &Mesh, random: &'a mut Random) -> OldCaller<'a> {
        OldCaller {
            session: OldSession::fresh(mesh, &plan(mesh).0),
            random,
            delivered: Vec::new(),
        }
    }

    pub fn cut(&mut self, link: u16) {
        if self.session.cut(link).is_ok() {
            self.delivered.clear();
        }
    }

    pub fn deliver(&mut self, link: u16) {
        if self.session.deliver(link).is_ok() {
            self.delivered.push(link);
        }
    }

    pub fn run(&mut self, allowance: u32) {
        let tell = |link| self.delivered.push(link);
        // Without a cut it is refused and makes none.
        _ = self.session.run_by_turns(allowance, tell);
    }

    pub fn mend(&mut self, link: u16) {
        if self.session.mend(link).is_ok() {
            self.delivered.clear();
        }
    }

    /// A cut of some link; the one that stands then.
    pub fn cut_any(&mut self) -> u16 {
        let link = numbers::inner_link(self.session.count, self.random);
        self.cut(link);
        self.session.cut.unwrap_or(link)
    }

    /// Deliveries on links under way in random order, so many calls at most,
    /// with refused calls and statuses between them.
    pub fn flood(&mut self, most: usize) {
        for _ in 0..most {
            let Some(link) = self.under_way() else {
                return;
            };
            match self.random.below(9) {
                0 => self.hindrance(),
                _ => self.deliver(link),
            }
        }
    }

    /// Calls of all kinds in random order.
    pub fn jumble(&mut self, times: usize) {
        for _ in 0..times {
            match self.random.below(12) {
                0 | 1 => _ = self.cut_any(),
                2 | 3 => self.run_some(),
                4 => self.mend_cut(),
                5 => self.hindrance(),
                _ => self.flood(1),
            }
        }
    }

    /// A call that is refused, or that changes nothing.
    pub fn hindrance(&mut self) {
        let count = self.session.count;
        let link = numbers::link(count, self.random);
        match self.random.below(4) {
            0 if self.session.cut.is_some() => self.cut(link),
            1 => self.deliver(count),
            2 => self.mend(65_535),
            _ => self.run(0),
        }
    }

    fn run_some(&mut self) {
        let allowance = numbers::allowance(self.random);
        self.run(allowance);
    }

    /// Refused without a cut, and away from rest.
    fn mend_cut(&mut self) {
        self.mend(self.session.cut.unwrap_or(0));
    }

    fn under_way(&mut self) -> Option<u16> {
        let numbered = (0..).zip(self.session.states);
        let under_way = numbered.filter(|(_, state)| is_under_way(*state));
        let links: Vec<u16> = under_way.map(|(link, _)| link).collect();
        (!links.is_empty()).then(|| self.random.pick(&links))
    }
}
