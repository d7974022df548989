//! The lines of a script.

use super::Lines;
use crate::mesh::MOST_LINKS;
use crate::refusal::{in_words, Refusal};
use crate::script::{Call, Script};
use crate::session::{Delivery, Flood, Run, Session, Status, Wavelength, RELEASED};

/// How lines about the session on which calls are made in place begin.
const IN_PLACE: &str = "in-place ";

impl Lines {
    pub fn script(&mut self, number: usize, script: &Script) {
        self.line(&format!("script {number}"));
        let (session, answer) = script.begin();
        if let Some(answer) = answer {
            self.answer("start", answer);
        }
        self.calls(session, &script.calls);
    }

    /// Each call, by value and in place, and both sessions at the end.
    pub fn calls(&mut self, mut session: Session, calls: &[Call]) {
        let mut lent = session.clone();
        for call in calls {
            self.line(&call_line(&mut session, *call));
            self.line(&format!("{IN_PLACE}{}", call_line(&mut lent, *call)));
        }
        self.whole_session("", &session);
        self.whole_session(IN_PLACE, &lent);
    }

    /// The session with all states, and its digest.
    pub fn whole_session(&mut self, form: &str, session: &Session) {
        self.session(form, session, MOST_LINKS);
        self.digest(form, session);
    }

    /// The session with so many states.
    pub fn session(&mut self, form: &str, session: &Session, links: usize) {
        match session.cut {
            None => self.line(&format!("{form}cut none")),
            Some(link) => self.line(&format!("{form}cut-is {link}")),
        }
        for wavelength in Wavelength::BOTH {
            let flood = &session.floods[wavelength];
            self.flood(form, wavelength.number(), flood, links);
        }
    }

    fn flood(&mut self, form: &str, wavelength: u8, flood: &Flood, links: usize) {
        let states = flood.states[..links].iter().map(|state| digit(*state));
        let states: String = states.collect();
        self.digits(&format!("{form}states {wavelength}"), &states);
        let all = (0..).zip(flood.reached);
        let reached = all.filter(|node| node.1).map(|node| node.0);
        self.digits(&format!("{form}reached {wavelength}"), &spaced(reached));
    }
}

/// Makes a call; gives its line.
pub fn call_line(session: &mut Session, call: Call) -> String {
    match call {
        Call::Cut(link) => format!("cut {link} {}", in_words(session.cut(link))),
        Call::Deliver(link, wavelength) => {
            let answer = delivery(session.deliver(link, wavelength));
            format!("deliver {link} {wavelength} {answer}")
        }
        Call::Mend(link) => format!("mend {link} {}", in_words(session.mend(link))),
        Call::Status(link, wavelength) => {
            let answer = status(session.status(link, wavelength));
            format!("status {link} {wavelength} {answer}")
        }
        Call::Run(allowance) => format!("run {allowance} {}", run(session.run(allowance))),
        Call::Route(wavelength) => {
            let answer = route(session.route(wavelength));
            format!("route {wavelength} {answer}")
        }
    }
}

/// A delivery's answer in words.
pub fn delivery(answer: Result<Delivery, Refusal>) -> String {
    match answer {
        Ok(Delivery::Taken(node)) => format!("taken {node}"),
        Ok(Delivery::Turned(node)) => format!("turned {node}"),
        Ok(Delivery::Released(node)) => format!("released {node}"),
        Err(refusal) => in_words(Err(refusal)),
    }
}

fn status(answer: Result<Status, Refusal>) -> String {
    match answer {
        Ok(Status { state, busy, route }) => format!("state {state} busy {busy} route {route}"),
        Err(refusal) => in_words(Err(refusal)),
    }
}

fn run(answer: Result<Run, Refusal>) -> String {
    match answer {
        Ok(Run { made, at_rest }) => {
            let end = if at_rest { "rest" } else { "moving" };
            format!("made {made} {end}")
        }
        Err(refusal) => in_words(Err(refusal)),
    }
}

fn route(answer: Result<Vec<u16>, Refusal>) -> String {
    let words = in_words(answer.as_ref().map(|_| ()).map_err(|refusal| *refusal));
    let links = spaced(answer.unwrap_or_default().into_iter());
    format!("{words} {links}").trim_end().to_string()
}

/// A state as one character, `?` where it is none.
fn digit(state: u8) -> char {
    match state {
        0..=RELEASED => (b'0' + state).into(),
        _ => '?',
    }
}

pub fn spaced(numbers: impl Iterator<Item = u16>) -> String {
    let words: Vec<String> = numbers.map(|number| number.to_string()).collect();
    words.join(" ")
}

#[cfg(test)]
mod tests {
    use crate::case::Case;
    use crate::corpus::scripts::grounds::triangle;
    use crate::digest::digest;
    use crate::listing::expected::{in_place, session, twice};
    use crate::listing::listing;
    use crate::mesh::Mesh;
    use crate::plan::Plan;
    use crate::script::{Call, GivenFlood, GivenSession, Origin, Script};

    fn listed(origin: Origin, calls: Vec<Call>) -> String {
        let book = vec![1, 3, 3, 0, 0, 2, 2, 1, 1];
        let script = Script {
            book,
            origin,
            calls,
        };
        listing(&[Case::Script(script)]).unwrap()
    }

    /// The lines before the calls, then the calls' lines and the session's, by
    /// value and in place.
    fn both(before: &str, calls: &str, session: &str) -> String {
        format!("{before}{}{session}{}", twice(calls), in_place(session))
    }

    /// The digest of the triangle and these directions.
    fn of_triangle(directions: &[u8]) -> u64 {
        let mut plan = Plan::ZERO;
        plan.directions[..directions.len()].copy_from_slice(directions);
        digest(&triangle(), &plan)
    }

    #[test]
    fn lists_p2() {
        let calls = vec![
            Call::Status(0, 1),
            Call::Status(3, 0),
            Call::Status(0, 3),
            Call::Cut(0),
            Call::Cut(1),
            Call::Deliver(1, 1),
            Call::Route(1),
            Call::Run(0),
            Call::Deliver(2, 1),
            Call::Route(1),
            Call::Status(2, 1),
            Call::Mend(0),
            Call::Status(2, 2),
            Call::Route(2),
            Call::Run(100),
            Call::Status(2, 1),
            Call::Status(2, 2),
            Call::Route(2),
            Call::Route(0),
            Call::Deliver(2, 255),
            Call::Mend(3),
        ];
        let before = "script 0\nstart accepted\n";
        let lines = "status 0 1 state 0 busy 0 route 0\nstatus 3 0 refused 12 3\n\
            status 0 3 refused 14 0\ncut 0 accepted\ncut 1 refused 22 1\n\
            deliver 1 1 taken 2\nroute 1 accepted\nrun 0 made 0 moving\n\
            deliver 2 1 taken 1\nroute 1 accepted 1 2\nstatus 2 1 state 2 busy 0 route 0\n\
            mend 0 refused 25 0\nstatus 2 2 state 1 busy 1 route 0\nroute 2 accepted\n\
            run 100 made 2 rest\nstatus 2 1 state 2 busy 0 route -\n\
            status 2 2 state 2 busy 0 route -\nroute 2 accepted 2 1\n\
            route 0 refused 14 0\ndeliver 2 255 refused 14 0\nmend 3 refused 12 3\n";
        let digest = of_triangle(&[0, 1, 0]);
        let end = session("cut-is 0", [("022", " 0 1 2"), ("022", " 0 1 2")], digest);
        let expected = both(before, lines, &end);
        assert_eq!(listed(Origin::OwnPlan, calls), expected);
    }

    #[test]
    fn lists_a_refused_start() {
        let calls = vec![Call::Run(7), Call::Route(0), Call::Deliver(0, 1)];
        let before = "script 0\nstart refused 13 0\n";
        let lines = "run 7 refused 3 0\nroute 0 refused 3 0\ndeliver 0 1 refused 3 0\n";
        let digest = digest(&Mesh::ZERO, &Plan::ZERO);
        let end = session("cut none", [("", ""), ("", "")], digest);
        let expected = both(before, lines, &end);
        assert_eq!(listed(Origin::GivenPlan(vec![0, 2]), calls), expected);
    }

    #[test]
    fn lists_a_given_session() {
        let first = GivenFlood {
            states: vec![(1, 4), (2, 255)],
            reached: vec![2, 63],
        };
        let second = GivenFlood {
            states: vec![(0, 3)],
            reached: vec![1],
        };
        let given = GivenSession {
            directions: vec![1],
            cut: Some(65_534),
            floods: [first, second],
            links: Vec::new(),
            nodes: 3,
            count: 3,
        };
        let origin = Origin::GivenSession(Box::new(given));
        let lines = "status 9 2 refused 13 0\n";
        let digest = of_triangle(&[1]);
        let end = session("cut-is 65534", [("04?", " 2 63"), ("3", " 1")], digest);
        let expected = both("script 0\n", lines, &end);
        assert_eq!(listed(origin, vec![Call::Status(9, 2)]), expected);
    }
}
