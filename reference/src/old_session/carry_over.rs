//! An old session becomes one with both wavelengths.

use super::{OldLink, OldSession};
use crate::mesh::{Link, Mesh, MOST_LINKS, MOST_NODES};
use crate::plan::Plan;
use crate::refusal::{Answer, Refusal};
use crate::session::{start, Flood, Floods, Session, QUIET};

impl OldSession {
    /// Wavelength 1 keeps its states and reached nodes; wavelength 2 is as in a
    /// fresh session, or as just after the cut that stands. Order: the old
    /// record's. A refused one is what a refused start gives.
    pub fn carry_over(&self) -> (Session, Answer) {
        match self.on_both_wavelengths() {
            Ok(session) => (session, Ok(())),
            Err(refusal) => (start(&Mesh::ZERO, &Plan::ZERO).0, Err(refusal)),
        }
    }

    fn on_both_wavelengths(&self) -> Result<Session, Refusal> {
        self.check()?;
        Ok(Session {
            mesh: self.mesh(),
            plan: self.plan(),
            cut: self.cut,
            floods: Floods {
                first: self.flood(),
                second: self.other_way().flood(),
            },
        })
    }

    /// Every arc turned round, all links quiet and no node reached; then the cut
    /// that stands: what it offers there is what it offers on wavelength 2.
    fn other_way(&self) -> OldSession {
        let mut turned = self.clone();
        turned.states = [QUIET; MOST_LINKS];
        turned.reached = [false; MOST_NODES as usize];
        for direction in &mut turned.directions[..self.count.into()] {
            *direction = 1 - *direction;
        }
        if let Some(link) = self.cut {
            turned.begin(link.into());
        }
        turned
    }

    fn flood(&self) -> Flood {
        Flood {
            states: self.states,
            reached: self.reached,
        }
    }

    fn mesh(&self) -> Mesh {
        Mesh {
            nodes: self.nodes,
            count: self.count,
            links: self.links.each_ref().map(OldLink::carried),
        }
    }

    fn plan(&self) -> Plan {
        Plan {
            directions: self.directions,
        }
    }
}

impl OldLink {
    /// A link carried over has no duct.
    fn carried(&self) -> Link {
        Link {
            low: self.low,
            high: self.high,
            length: self.length,
            pair: self.pair,
            duct: 0,
        }
    }
}
