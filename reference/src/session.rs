//! The recovery machine: a session and the calls on it. A refused call leaves
//! the session.

mod flood;
mod length;
mod route;
mod rules;
mod run;
mod wavelength;

use crate::mesh::Mesh;
use crate::plan::Plan;
use crate::refusal::{refuse_if, Answer, Reason, Refusal};
use crate::walks::Arc;
use flood::greatest;
use rules::Rules;

pub use flood::{Flood, Floods};
pub use length::RouteLength;
pub use run::Run;
pub use wavelength::Wavelength;

pub const QUIET: u8 = 0;
pub const OFFERED: u8 = 1;
pub const TAKEN: u8 = 2;
pub const REFUSED: u8 = 3;
pub const RELEASED: u8 = 4;

#[derive(Clone, Debug, PartialEq, Eq)]
pub struct Session {
    pub mesh: Mesh,
    pub plan: Plan,
    pub cut: Option<u16>,
    pub floods: Floods,
}

/// What a delivery did, and the node that acted.
#[derive(Clone, Copy, Debug, PartialEq, Eq)]
pub enum Delivery {
    Taken(u8),
    Turned(u8),
    Released(u8),
}

/// Of one wavelength a link's state, how many links are under way, and the
/// route length: that of its taken links at rest under a cut, and otherwise 0.
/// Rest is that of both wavelengths.
#[derive(Clone, Copy, Debug, PartialEq, Eq)]
pub struct Status {
    pub state: u8,
    pub busy: usize,
    pub route: RouteLength,
}

/// Whether a link in this state is under way.
pub fn is_under_way(state: u8) -> bool {
    state == OFFERED || state == REFUSED
}

/// Starts a session: mesh, 13. A refused one is all zeros with no cut.
pub fn start(mesh: &Mesh, plan: &Plan) -> (Session, Answer) {
    match check_plan(mesh, plan) {
        Ok(()) => (Session::fresh(mesh.clone(), plan.clone()), Ok(())),
        Err(refusal) => (Session::fresh(Mesh::ZERO, Plan::ZERO), Err(refusal)),
    }
}

impl Session {
    /// No cut, and on each wavelength all links quiet and no node reached.
    fn fresh(mesh: Mesh, plan: Plan) -> Session {
        Session {
            mesh,
            plan,
            cut: None,
            floods: Floods::FRESH,
        }
    }

    /// Order of a session's record: mesh, 13.
    pub fn check(&self) -> Answer {
        check_plan(&self.mesh, &self.plan)?;
        let floods = self.floods.both();
        let ill_formed = self.cut.is_some_and(|link| link >= self.mesh.count)
            || floods.iter().any(|flood| flood.is_ill_formed(&self.mesh));
        refuse_if(ill_formed, Reason::IllFormed, 0)
    }

    /// Starts a flood on each wavelength. Order: the record, 12, 22.
    pub fn cut(&mut self, link: u16) -> Answer {
        self.check()?;
        self.check_link(link)?;
        refuse_if(self.cut.is_some(), Reason::CutStands, link.into())?;
        self.cut = Some(link);
        for mut rules in self.rules(link) {
            rules.begin();
        }
        Ok(())
    }

    /// Order of a delivery: the record, 12, 14, 23, 24.
    pub fn deliver(&mut self, link: u16, wavelength: u8) -> Result<Delivery, Refusal> {
        self.check()?;
        self.check_link(link)?;
        let wavelength = Wavelength::numbered(wavelength)?;
        let cut = self.standing_cut(link.into())?;
        let flood = &mut self.floods[wavelength];
        let made = Rules::new(&self.mesh, &self.plan, cut, wavelength, flood).deliver(link.into());
        made.ok_or(Refusal::new(Reason::NotUnderWay, link.into()))
    }

    /// Order of a mend: the record, 12, 23, 26, 25.
    pub fn mend(&mut self, link: u16) -> Answer {
        self.check()?;
        self.check_link(link)?;
        let cut = self.standing_cut(link.into())?;
        refuse_if(link != cut, Reason::NotTheCut, link.into())?;
        refuse_if(!self.is_at_rest(), Reason::NotAtRest, link.into())?;
        self.cut = None;
        self.floods = Floods::FRESH;
        Ok(())
    }

    /// Order of a status: the record, 12, 14.
    pub fn status(&self, link: u16, wavelength: u8) -> Result<Status, Refusal> {
        self.check()?;
        self.check_link(link)?;
        let wavelength = Wavelength::numbered(wavelength)?;
        let flood = &self.floods[wavelength];
        let has_route = self.cut.is_some() && self.is_at_rest();
        Ok(Status {
            state: flood.states[usize::from(link)],
            busy: flood.under_way(),
            route: if has_route {
                self.taken_length(wavelength)
            } else {
                RouteLength::Metres(0)
            },
        })
    }

    /// Whether no link is under way on either wavelength.
    pub fn is_at_rest(&self) -> bool {
        self.floods.both().iter().all(|flood| flood.is_at_rest())
    }

    /// A link's primary arc on a wavelength.
    pub fn primary_arc(&self, wavelength: Wavelength, link: u16) -> Arc {
        let link = usize::from(link);
        wavelength.primary_arc(&self.mesh.links[link], self.plan.directions[link])
    }

    /// The rules of each wavelength's flood under the cut of a link.
    fn rules(&mut self, cut: u16) -> [Rules<'_>; 2] {
        let Session {
            mesh, plan, floods, ..
        } = self;
        [
            Rules::new(mesh, plan, cut, Wavelength::One, &mut floods.first),
            Rules::new(mesh, plan, cut, Wavelength::Two, &mut floods.second),
        ]
    }

    /// 12: the place is the link named.
    fn check_link(&self, link: u16) -> Answer {
        let outside = link >= self.mesh.count;
        refuse_if(outside, Reason::NoSuchLink, link.into())
    }

    /// The cut link; 23 at `place` if no cut stands.
    fn standing_cut(&self, place: usize) -> Result<u16, Refusal> {
        self.cut.ok_or(Refusal::new(Reason::NoCut, place))
    }
}

/// Order of a mesh and a plan: mesh, 13.
fn check_plan(mesh: &Mesh, plan: &Plan) -> Answer {
    mesh.check()?;
    let (directions, past) = plan.directions.split_at(mesh.counted().len());
    let ill_formed = greatest(directions) > 1 || greatest(past) > 0;
    refuse_if(ill_formed, Reason::IllFormed, 0)
}
