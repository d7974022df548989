//! The lines of an old session that is carried over.

use super::Lines;
use crate::upgrade::Upgrade;

impl Lines {
    /// The session right after the carry-over, then the calls on it.
    pub fn upgrade(&mut self, number: usize, upgrade: &Upgrade) {
        self.line(&format!("upgrade {number}"));
        let (session, answer) = upgrade.old.carry_over();
        self.answer("carry-over", answer);
        self.whole_session("", &session);
        self.calls(session, &upgrade.calls);
    }
}

#[cfg(test)]
mod tests {
    use crate::case::{read_cases, write_cases};
    use crate::digest::digest;
    use crate::listing::expected::{in_place, session, twice};
    use crate::listing::listing;
    use crate::mesh::{Link, Mesh};
    use crate::plan::Plan;

    /// P1's triangle with plan 0 1 0, link 1 of 258 metres and with a pair, cut at
    /// link 0 and with link 1 taken; then two calls.
    const TRIANGLE: &[u8] = b"U\x03\x03\0\
        \x03\0\x00\0\x01\0\0\0\0\0\0\x01\0\x02\x02\x01\x04\x03\x02\x01\x02\x01\x02\0\0\0\0\0\0\
        \x02\0\x00\x01\
        \0\0\
        \x02\0\x01\x02\x02\x01\
        \x02\x00\x02\
        \x02\0D\x01\x02\0Q\x01";

    fn listed(corpus: &[u8]) -> String {
        listing(&read_cases(corpus).unwrap()).unwrap()
    }

    fn lines(answer: &str, carried: &str, calls: &str, end: &str) -> String {
        let before = format!("upgrade 0\ncarry-over {answer}\n{carried}");
        format!("{before}{}{end}{}", twice(calls), in_place(end))
    }

    #[test]
    fn lists_a_carried_session_and_its_calls() {
        let link = |low, high, length, pair| Link {
            low,
            high,
            length,
            pair,
            duct: 0,
        };
        let links = [
            link(0, 1, 0, 0),
            link(0, 2, 258, 0x0102_0304),
            link(1, 2, 0, 0),
        ];
        let mut plan = Plan::ZERO;
        plan.directions[1] = 1;
        let digest = digest(&Mesh::new(3, &links), &plan);
        let second = ("001", " 1");
        let carried = session("cut-is 0", [("021", " 0 2"), second], digest);
        let end = session("cut-is 0", [("022", " 0 1 2"), second], digest);
        let calls = "deliver 2 1 taken 1\nroute 1 accepted 1 2\n";
        assert_eq!(listed(TRIANGLE), lines("accepted", &carried, calls, &end));
    }

    #[test]
    fn lists_a_refused_one() {
        let mut corpus = TRIANGLE.to_vec();
        // With two nodes the high end of link 1 is none.
        corpus[1] = 2;
        let digest = digest(&Mesh::ZERO, &Plan::ZERO);
        let zeros = session("cut none", [("", ""), ("", "")], digest);
        let calls = "deliver 2 1 refused 3 0\nroute 1 refused 3 0\n";
        let expected = lines("refused 6 1", &zeros, calls, &zeros);
        assert_eq!(listed(&corpus), expected);
    }

    #[test]
    fn the_bytes_are_those_that_are_written() {
        assert_eq!(write_cases(&read_cases(TRIANGLE).unwrap()), TRIANGLE);
    }
}
