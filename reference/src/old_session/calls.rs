//! The calls of 01 on an old session. A refused call leaves it. Rest is that of
//! its one flood.

use super::OldSession;
use crate::mesh::{MOST_LINKS, MOST_NODES};
use crate::refusal::{refuse_if, Answer, Reason, Refusal};
use crate::session::{is_under_way, Delivery, RouteLength, Run, Status, QUIET, TAKEN};

impl OldSession {
    /// Order of a cut: the record, 12, 22.
    pub fn cut(&mut self, link: u16) -> Answer {
        self.check_named(link)?;
        refuse_if(self.cut.is_some(), Reason::CutStands, link.into())?;
        self.cut = Some(link);
        self.begin(link.into());
        Ok(())
    }

    /// Order of a delivery: the record, 12, 23, 24.
    pub fn deliver(&mut self, link: u16) -> Result<Delivery, Refusal> {
        self.check_named(link)?;
        let cut = self.standing(link.into())?;
        let made = self.step(cut.into(), link.into());
        made.ok_or(Refusal::new(Reason::NotUnderWay, link.into()))
    }

    /// Delivers on the lowest link under way until rest or until the allowance
    /// is used. Order: the record, 23.
    pub fn run(&mut self, allowance: u32) -> Result<Run, Refusal> {
        self.run_by_turns(allowance, |_| ())
    }

    /// The same; tells the link of each delivery.
    pub fn run_by_turns(
        &mut self,
        allowance: u32,
        mut tell: impl FnMut(u16),
    ) -> Result<Run, Refusal> {
        self.check()?;
        let cut = self.standing(0)?;
        let mut made = 0;
        while made < allowance {
            let Some(link) = self.lowest_under_way() else {
                break;
            };
            self.step(cut.into(), link);
            tell(link as u16);
            made += 1;
        }
        let at_rest = self.is_at_rest();
        Ok(Run { made, at_rest })
    }

    /// Order of a mend: the record, 12, 23, 26, 25.
    pub fn mend(&mut self, link: u16) -> Answer {
        self.check_named(link)?;
        let cut = self.standing(link.into())?;
        refuse_if(link != cut, Reason::NotTheCut, link.into())?;
        refuse_if(!self.is_at_rest(), Reason::NotAtRest, link.into())?;
        self.cut = None;
        self.states = [QUIET; MOST_LINKS];
        self.reached = [false; MOST_NODES as usize];
        Ok(())
    }

    /// Order of a status: the record, 12.
    pub fn status(&self, link: u16) -> Result<Status, Refusal> {
        self.check_named(link)?;
        let under_way = self.states.iter().filter(|state| is_under_way(**state));
        let has_route = self.cut.is_some() && self.is_at_rest();
        Ok(Status {
            state: self.states[usize::from(link)],
            busy: under_way.count(),
            route: match has_route {
                true => self.taken_length(),
                false => RouteLength::Metres(0),
            },
        })
    }

    pub fn is_at_rest(&self) -> bool {
        self.lowest_under_way().is_none()
    }

    fn taken_length(&self) -> RouteLength {
        let links = self.links.iter().zip(self.states);
        let taken = links.filter(|(_, state)| *state == TAKEN);
        let lengths: Vec<u32> = taken.map(|(link, _)| link.length.into()).collect();
        match lengths.contains(&0) {
            true => RouteLength::NotKnown,
            false => RouteLength::Metres(lengths.iter().sum()),
        }
    }

    /// The record; then 12, whose place is the link named.
    fn check_named(&self, link: u16) -> Answer {
        self.check()?;
        refuse_if(link >= self.count, Reason::NoSuchLink, link.into())
    }

    /// The cut link; 23 at `place` if no cut stands.
    fn standing(&self, place: usize) -> Result<u16, Refusal> {
        self.cut.ok_or(Refusal::new(Reason::NoCut, place))
    }
}
