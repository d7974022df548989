//! The jobs on a session of a planned mesh: a cut of the last link on a fresh
//! one, a status at rest after that cut, the others just after it. A delivery
//! and a status are those of wavelength 1.

use std::hint::black_box;

use super::change_length;
use crate::listing::scripts::delivery;
use crate::mesh::Mesh;
use crate::plan::plan;
use crate::refusal::{in_words, Refusal};
use crate::session::{is_under_way, start, Delivery, Flood, Session, Status};

/// A run to rest of both wavelengths; the session is copied for each.
pub fn run_line(repeats: u32, mesh: &Mesh) -> String {
    last_run("R", repeats, Subject::new(mesh))
}

/// The same with wavelength 2 at rest from the beginning.
pub fn run_of_first_line(repeats: u32, mesh: &Mesh) -> String {
    last_run("S", repeats, Subject::with_second_at_rest(mesh))
}

fn last_run(job: &str, repeats: u32, subject: Result<Subject, Refusal>) -> String {
    let made = subject.and_then(|subject| {
        let mut last = 0;
        for number in 0..repeats {
            let mut copy = subject.copy(number);
            last = black_box(copy.run(u32::MAX))?.made;
            black_box(&copy);
        }
        Ok(last)
    });
    match made {
        Ok(made) => format!("{job} {made}"),
        Err(refusal) => refused(job, refusal),
    }
}

/// One cut, of the last link; the fresh session is copied for each.
pub fn cut_line(repeats: u32, mesh: &Mesh) -> String {
    let cut = Subject::uncut(mesh).and_then(|subject| {
        for number in 0..repeats {
            let mut copy = subject.copy(number);
            black_box(copy.cut(black_box(subject.last)))?;
            black_box(&copy);
        }
        Ok(())
    });
    format!("C {}", in_words(cut))
}

/// One delivery, on the lowest link under way; the session is copied for each.
pub fn delivery_line(repeats: u32, mesh: &Mesh) -> String {
    let answer = Subject::new(mesh).and_then(|subject| {
        let first = &subject.sessions[0].floods.first;
        let link = lowest_under_way(first).unwrap_or(0);
        let mut last = deliver(subject.copy(0), link);
        for number in 1..repeats {
            last = deliver(subject.copy(number), link);
        }
        last
    });
    format!("L {}", delivery(answer))
}

/// One status, of the last link.
pub fn status_line(repeats: u32, mesh: &Mesh) -> String {
    last_status("U", repeats, Subject::new(mesh))
}

/// One status, of the last link, at rest.
pub fn status_at_rest_line(repeats: u32, mesh: &Mesh) -> String {
    last_status("V", repeats, Subject::at_rest(mesh))
}

fn last_status(job: &str, repeats: u32, subject: Result<Subject, Refusal>) -> String {
    let status = subject.and_then(|subject| {
        let last = subject.last;
        let mut status = subject.sessions[0].status(last, 1);
        for number in 1..repeats {
            let session = subject.session(number);
            status = black_box(session.status(black_box(last), 1));
        }
        status
    });
    match status {
        Ok(Status { state, busy, route }) => format!("{job} {state} {busy} {route}"),
        Err(refusal) => refused(job, refusal),
    }
}

/// What a job is repeated on: two sessions that differ in the length of
/// link 0, taken by turns, each fresh, just after a cut of the last link, or
/// with wavelength 2 or both at rest under it.
struct Subject {
    sessions: [Session; 2],
    last: u16,
}

impl Subject {
    /// Sessions just after a cut of the last link.
    fn new(mesh: &Mesh) -> Result<Subject, Refusal> {
        let mut subject = Subject::uncut(mesh)?;
        for session in &mut subject.sessions {
            session.cut(subject.last)?;
        }
        Ok(subject)
    }

    /// Sessions under that cut after deliveries on wavelength 2 alone, up to
    /// its rest.
    fn with_second_at_rest(mesh: &Mesh) -> Result<Subject, Refusal> {
        let mut subject = Subject::new(mesh)?;
        for session in &mut subject.sessions {
            while let Some(link) = lowest_under_way(&session.floods.second) {
                session.deliver(link, 2)?;
            }
        }
        Ok(subject)
    }

    /// Sessions at rest after an unhindered run under that cut.
    fn at_rest(mesh: &Mesh) -> Result<Subject, Refusal> {
        let mut subject = Subject::new(mesh)?;
        for session in &mut subject.sessions {
            session.run(u32::MAX)?;
        }
        Ok(subject)
    }

    /// Fresh sessions.
    fn uncut(mesh: &Mesh) -> Result<Subject, Refusal> {
        let mut other = mesh.clone();
        change_length(&mut other, 0);
        let sessions = [fresh(mesh)?, fresh(&other)?];
        // A planned mesh has a link: it has two nodes or more.
        let last = mesh.count - 1;
        Ok(Subject { sessions, last })
    }

    fn session(&self, number: u32) -> &Session {
        black_box(&self.sessions[number as usize % 2])
    }

    /// A call changes the session, so each repeat has a copy of its own.
    fn copy(&self, number: u32) -> Session {
        self.session(number).clone()
    }
}

/// A fresh session on the mesh's plan.
fn fresh(mesh: &Mesh) -> Result<Session, Refusal> {
    let (plan, answer) = plan(mesh);
    answer?;
    let (session, answer) = start(mesh, &plan);
    answer?;
    Ok(session)
}

/// The lowest link under way; just after a cut on a planned mesh there is one.
fn lowest_under_way(flood: &Flood) -> Option<u16> {
    let lowest = flood.states.iter().position(|state| is_under_way(*state));
    lowest.map(|link| link as u16)
}

fn deliver(mut session: Session, link: u16) -> Result<Delivery, Refusal> {
    let answer = black_box(session.deliver(black_box(link), 1));
    black_box(&session);
    answer
}

fn refused(job: &str, refusal: Refusal) -> String {
    format!("{job} {}", in_words(Err(refusal)))
}
