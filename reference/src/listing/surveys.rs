//! The lines of a survey.

use super::Lines;
use crate::listing::scripts::spaced;
use crate::mesh::Mesh;
use crate::plain_survey::checked_survey;

impl Lines {
    pub fn survey(&mut self, number: usize, mesh: &Mesh) -> Result<(), String> {
        let checked = checked_survey(mesh);
        let (survey, answer) = checked.map_err(|error| format!("case {number}: {error}"))?;
        let shown = answer.map_or(0, |()| mesh.nodes.into());
        self.line(&format!("survey-of-mesh {number}"));
        self.answer("survey", answer);
        self.nodes("parts", &survey.parts[..shown]);
        let past = survey.parts[shown..].iter();
        let rest = past.filter(|part| **part != 0).count();
        self.line(&format!("rest {rest}"));
        self.digits("bridges", &spaced(survey.bridges()));
        Ok(())
    }
}

#[cfg(test)]
mod tests {
    use crate::case::{read_cases, write_cases};
    use crate::listing::listing;

    /// So many nodes, 3 links as counted, and the links (0, 2), (1, 3) and (1, 3).
    fn asked(nodes: u8, count: u8) -> Vec<u8> {
        let entries = b"\x03\0\
            \x00\0\x02\0\0\0\0\0\0\0\0\
            \x01\x01\x03\0\0\0\0\0\0\x02\x01\
            \x02\x01\x03\x07\0\0\0\0\0\0\0";
        [&[b'V', nodes, count, 0][..], entries].concat()
    }

    fn listed(corpus: &[u8]) -> String {
        listing(&read_cases(corpus).unwrap()).unwrap()
    }

    #[test]
    fn lists_surveys() {
        let corpus = [
            asked(5, 3),
            asked(5, 2),
            asked(3, 3),
            b"V\x02\0\0\0\0".into(),
        ]
        .concat();
        let expected = "survey-of-mesh 0\nsurvey accepted\nparts 0 1 0 1 4\nrest 0\nbridges 0\n\
            survey-of-mesh 1\nsurvey refused 13 0\nparts\nrest 0\nbridges\n\
            survey-of-mesh 2\nsurvey refused 6 1\nparts\nrest 0\nbridges\n\
            survey-of-mesh 3\nsurvey accepted\nparts 0 1\nrest 0\nbridges\n";
        assert_eq!(listed(&corpus), expected);
        assert_eq!(write_cases(&read_cases(&corpus).unwrap()), corpus);
    }

    #[test]
    fn a_case_that_ends_early_is_ill_formed() {
        let corpus = asked(5, 3);
        for length in 1..corpus.len() {
            assert!(read_cases(&corpus[..length]).is_err());
        }
    }
}
