//! A script: a list of calls on a session.

mod bytes;
mod words;

pub use bytes::{read_calls, read_script, write_calls, write_script};
pub(crate) use bytes::{read_cut, read_directions, read_flood};
pub(crate) use bytes::{write_cut, write_directions, write_flood};
pub use words::calls_of;
pub(crate) use words::number;

use crate::book::decode;
use crate::mesh::{Link, Mesh, MOST_LINKS};
use crate::plan::{plan, Plan};
use crate::refusal::Answer;
use crate::session::{start, Flood, Session, Wavelength};

#[derive(Clone, Debug, PartialEq, Eq)]
pub struct Script {
    /// An accepted book.
    pub book: Vec<u8>,
    pub origin: Origin,
    pub calls: Vec<Call>,
}

/// The session that the first call gets.
#[derive(Clone, Debug, PartialEq, Eq)]
pub enum Origin {
    /// A start on the mesh's own plan; on zeros where planning refuses.
    OwnPlan,
    /// A start on these directions, at most 256, and zeros past them.
    GivenPlan(Vec<u8>),
    /// A session as it is, with no start.
    GivenSession(Box<GivenSession>),
}

/// A session by what is not zero in it, and the changes of the book's mesh.
#[derive(Clone, Debug, PartialEq, Eq)]
pub struct GivenSession {
    pub directions: Vec<u8>,
    /// No cut is 65,535 in a script's bytes.
    pub cut: Option<u16>,
    /// Of wavelength 1, then of wavelength 2.
    pub floods: [GivenFlood; 2],
    pub links: Vec<(u8, Link)>,
    pub nodes: u8,
    pub count: u16,
}

/// Of one wavelength the states that are not 0, each with its link, and the
/// reached nodes.
#[derive(Clone, Debug, Default, PartialEq, Eq)]
pub struct GivenFlood {
    pub states: Vec<(u8, u8)>,
    pub reached: Vec<u8>,
}

/// A call with its link, its link and wavelength, its allowance or its
/// wavelength.
#[derive(Clone, Copy, Debug, PartialEq, Eq)]
pub enum Call {
    Cut(u16),
    Deliver(u16, u8),
    Mend(u16),
    Status(u16, u8),
    Run(u32),
    Route(u8),
}

impl Script {
    /// The session that the first call gets, and the answer of its start.
    pub fn begin(&self) -> (Session, Option<Answer>) {
        self.origin.session(&decode(&self.book).0)
    }
}

impl Origin {
    /// The session on this mesh, and the answer of its start.
    pub fn session(&self, mesh: &Mesh) -> (Session, Option<Answer>) {
        let plan = match self {
            Origin::OwnPlan => plan(mesh).0,
            Origin::GivenPlan(directions) => plan_of(directions),
            Origin::GivenSession(given) => return (given.session(mesh), None),
        };
        let (session, answer) = start(mesh, &plan);
        (session, Some(answer))
    }
}

impl GivenSession {
    /// What makes this session from a mesh.
    pub fn of(session: &Session, mesh: &Mesh) -> GivenSession {
        let links = (0..=255).zip(session.mesh.links);
        let differs = |(index, link): &(u8, Link)| *link != mesh.links[usize::from(*index)];
        GivenSession {
            directions: given_directions(&session.plan.directions),
            cut: session.cut,
            floods: session.floods.both().map(GivenFlood::of),
            links: links.filter(differs).collect(),
            nodes: session.mesh.nodes,
            count: session.mesh.count,
        }
    }

    fn session(&self, mesh: &Mesh) -> Session {
        let (mut session, _) = start(&Mesh::ZERO, &Plan::ZERO);
        session.mesh = mesh.clone();
        for (index, link) in &self.links {
            session.mesh.links[usize::from(*index)] = *link;
        }
        session.mesh.nodes = self.nodes;
        session.mesh.count = self.count;
        session.plan = plan_of(&self.directions);
        session.cut = self.cut;
        for (wavelength, given) in Wavelength::BOTH.into_iter().zip(&self.floods) {
            session.floods[wavelength] = given.flood();
        }
        session
    }
}

impl GivenFlood {
    pub fn of(flood: &Flood) -> GivenFlood {
        let states = (0..=255).zip(flood.states);
        let reached = (0..).zip(flood.reached);
        GivenFlood {
            states: states.filter(|(_, state)| *state != 0).collect(),
            reached: reached.filter(|node| node.1).map(|node| node.0).collect(),
        }
    }

    pub fn flood(&self) -> Flood {
        let mut flood = Flood::FRESH;
        for (index, state) in &self.states {
            flood.states[usize::from(*index)] = *state;
        }
        for node in &self.reached {
            flood.reached[usize::from(*node)] = true;
        }
        flood
    }
}

/// The directions up to the last that is not 0.
pub(crate) fn given_directions(directions: &[u8; MOST_LINKS]) -> Vec<u8> {
    let last = directions.iter().rposition(|direction| *direction != 0);
    directions[..last.map_or(0, |last| last + 1)].to_vec()
}

/// The plan with these directions, at most 256, and zeros past them.
pub(crate) fn plan_of(directions: &[u8]) -> Plan {
    let mut all = [0; MOST_LINKS];
    all[..directions.len()].copy_from_slice(directions);
    Plan { directions: all }
}
