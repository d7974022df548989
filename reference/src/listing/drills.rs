//! The lines of a drill's input and of a drill's mesh.

use super::Lines;
use crate::drill::{asked, mesh};

impl Lines {
    pub fn drill_input(&mut self, number: usize, input: &[u8]) {
        self.line(&format!("drill-input {number}"));
        let middles = asked(input).map(|middles| middles.to_string());
        let answer = middles.as_deref().unwrap_or("refused");
        self.line(&format!("asked {answer}"));
    }

    /// After the first line those of the mesh's record.
    pub fn drill_mesh(&mut self, number: usize, room: u16, middles: u8) -> Result<(), String> {
        self.line(&format!("drill-mesh {number} {middles}"));
        self.record_lines(number, room, &mesh(middles))
    }
}

#[cfg(test)]
mod tests {
    use crate::case::{read_cases, write_cases, Case};
    use crate::corpus::scripts::grounds::triangle;
    use crate::digest::digest;
    use crate::listing::listing;
    use crate::mesh::Mesh;
    use crate::plan::Plan;

    fn listed(corpus: &[u8]) -> String {
        let cases = read_cases(corpus).unwrap();
        assert_eq!(write_cases(&cases), corpus);
        listing(&cases).unwrap()
    }

    #[test]
    fn lists_inputs() {
        let corpus = b"H\x02\x0062H\x03\x0062\nH\x02\x0063H\0\0H\x01\x001";
        let expected = "drill-input 0\nasked 62\ndrill-input 1\nasked 62\n\
            drill-input 2\nasked refused\ndrill-input 3\nasked refused\n\
            drill-input 4\nasked 1\n";
        assert_eq!(listed(corpus), expected);
    }

    #[test]
    fn lists_the_mesh_of_1_with_and_without_room() {
        let mut plan = Plan::ZERO;
        plan.directions[1] = 1;
        let digest = digest(&triangle(), &plan);
        let planned =
            format!("plan accepted\ndirections 010\nrest 0\nstart accepted\ndigest {digest}\n");
        let expected = format!(
            "drill-mesh 0 1\ncheck accepted\nwrite refused 11 9\nlength 0\n\
            out a5a5a5a5a5a5a5a5\n{planned}\
            drill-mesh 1 1\ncheck accepted\nwrite accepted\nlength 9\n\
            out 010303000002020101a5\n{planned}"
        );
        assert_eq!(listed(b"N\x08\0\x01N\x0a\0\x01"), expected);
    }

    #[test]
    fn lists_the_mesh_of_zeros_for_other_numbers() {
        let digest = digest(&Mesh::ZERO, &Plan::ZERO);
        let lines = |first: &str| {
            format!(
                "{first}\ncheck refused 3 0\nwrite refused 3 0\nlength 0\nout a5\n\
                plan refused 3 0\ndirections\nrest 0\nstart refused 3 0\ndigest {digest}\n"
            )
        };
        let firsts = ["drill-mesh 0 0", "drill-mesh 1 63", "drill-mesh 2 255"];
        let expected = firsts.map(lines).concat();
        assert_eq!(listed(b"N\x01\0\0N\x01\0\x3fN\x01\0\xff"), expected);
    }

    #[test]
    fn the_lines_after_the_first_are_those_of_a_mesh_record() {
        for (room, middles) in [(400, 62), (313, 62), (0, 9), (49, 9), (7, 0), (7, 200)] {
            let mesh = Box::new(crate::drill::mesh(middles));
            let drill = listing(&[Case::DrillMesh { room, middles }]).unwrap();
            let record = listing(&[Case::Mesh { room, mesh }]).unwrap();
            let first = format!("drill-mesh 0 {middles}\n");
            assert_eq!(drill.replacen(&first, "record-of-mesh 0\n", 1), record);
        }
    }

    #[test]
    fn an_input_has_at_most_300_bytes() {
        let of_length = |length: u16| {
            let count = length.to_le_bytes();
            let input = vec![b'1'; length.into()];
            read_cases(&[b"H", &count[..], &input].concat())
        };
        assert!(of_length(300).is_ok());
        assert!(of_length(301).is_err());
    }

    #[test]
    fn a_case_that_ends_early_is_ill_formed() {
        for corpus in [&b"H\x02\x0062"[..], b"N\x08\0\x01"] {
            assert!(read_cases(corpus).is_ok());
            for length in 1..corpus.len() {
                assert!(read_cases(&corpus[..length]).is_err());
            }
        }
    }
}
