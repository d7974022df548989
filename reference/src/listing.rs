//! The expected listing of a corpus.

pub mod collections;
pub mod drills;
pub mod ducts;
#[cfg(test)]
mod expected;
pub mod scripts;
pub mod surveys;
pub mod upgrades;

use crate::book::{decode, encode, record};
use crate::case::Case;
use crate::digest::digest;
use crate::mesh::{Link, Mesh};
use crate::meshplan::add_listing;
use crate::plain_plan::checked_plan;
use crate::plan::Plan;
use crate::refusal::{in_words, Answer};
use crate::session::{start, Session};

/// Every byte of an output before it is lent.
const FILL: u8 = 0xa5;

/// The listing of all cases, numbered from 0; an error if the planner or the
/// survey and its definition differ on one.
pub fn listing(cases: &[Case]) -> Result<String, String> {
    let mut lines = Lines::default();
    for (number, case) in cases.iter().enumerate() {
        match case {
            Case::Book { room, link, book } => lines.book(number, *room, *link, book),
            Case::Mesh { room, mesh } => lines.mesh_record(number, *room, mesh)?,
            Case::Planning { mesh } => lines.planning(number, mesh)?,
            Case::Script(script) => lines.script(number, script),
            Case::Listing { book } => lines.listed(number, book),
            Case::Upgrade(upgrade) => lines.upgrade(number, upgrade),
            Case::Ducts { room, link, mesh } => lines.ducts(number, *room, *link, mesh),
            Case::Collection { room, root, mesh } => lines.collection(number, *room, *root, mesh),
            Case::DrillInput { input } => lines.drill_input(number, input),
            Case::DrillMesh { room, middles } => lines.drill_mesh(number, *room, *middles)?,
            Case::Survey { mesh } => lines.survey(number, mesh)?,
        }
    }
    Ok(lines.text)
}

#[derive(Default)]
pub struct Lines {
    pub text: String,
}

impl Lines {
    fn book(&mut self, number: usize, room: u16, link: u16, book: &[u8]) {
        self.line(&format!("book {number} {}", book.len()));
        self.book_lines(room, link, book);
    }

    /// The lines after the first.
    pub fn book_lines(&mut self, room: u16, link: u16, book: &[u8]) {
        let (mesh, answer) = decode(book);
        self.answer("read", answer);
        self.mesh(&mesh);
        self.write(&mesh, room);
        let (part, answer) = record(book, link.into());
        self.answer("record", answer);
        self.bytes("part", part);
    }

    fn mesh_record(&mut self, number: usize, room: u16, mesh: &Mesh) -> Result<(), String> {
        self.line(&format!("record-of-mesh {number}"));
        self.record_lines(number, room, mesh)
    }

    /// The lines of a mesh record after the first.
    fn record_lines(&mut self, number: usize, room: u16, mesh: &Mesh) -> Result<(), String> {
        self.answer("check", mesh.check());
        self.write(mesh, room);
        let plan = self.plan(number, mesh)?;
        let (session, answer) = start(mesh, &plan);
        self.answer("start", answer);
        self.digest("", &session);
        Ok(())
    }

    fn planning(&mut self, number: usize, mesh: &Mesh) -> Result<(), String> {
        self.line(&format!("planning {number} {} {}", mesh.nodes, mesh.count));
        self.plan(number, mesh).map(|_| ())
    }

    /// What planning gives.
    fn plan(&mut self, number: usize, mesh: &Mesh) -> Result<Plan, String> {
        let checked = checked_plan(mesh);
        let (plan, answer) = checked.map_err(|error| format!("case {number}: {error}"))?;
        self.answer("plan", answer);
        let count = mesh.counted().len();
        self.digits("directions", &plan.digits(count));
        let past = plan.directions[count..].iter();
        let rest = past.filter(|direction| **direction != 0).count();
        self.line(&format!("rest {rest}"));
        Ok(plan)
    }

    fn listed(&mut self, number: usize, book: &[u8]) {
        self.line(&format!("listing {number}"));
        add_listing(book, &mut self.text);
    }

    fn mesh(&mut self, mesh: &Mesh) {
        self.line(&format!("mesh {} {}", mesh.nodes, mesh.count));
        for (number, link) in mesh.counted().iter().enumerate() {
            self.link(number, link);
        }
        let past = mesh.past_count().iter();
        let rest = past.filter(|entry| **entry != Link::ZERO).count();
        self.line(&format!("rest {rest}"));
    }

    pub fn link(&mut self, number: usize, link: &Link) {
        let Link {
            low,
            high,
            length,
            pair,
            duct,
        } = link;
        self.line(&format!(
            "link {number} {low} {high} {length} {pair} {duct}"
        ));
    }

    fn write(&mut self, mesh: &Mesh, room: u16) {
        let mut output = vec![FILL; room.into()];
        let written = encode(mesh, &mut output);
        self.answer("write", written.map(|_| ()));
        self.line(&format!("length {}", written.unwrap_or(0)));
        self.bytes("out", &output);
    }

    fn digest(&mut self, form: &str, session: &Session) {
        let digest = digest(&session.mesh, &session.plan);
        self.line(&format!("{form}digest {digest}"));
    }

    pub fn answer(&mut self, word: &str, answer: Answer) {
        self.line(&format!("{word} {}", in_words(answer)));
    }

    /// The bytes in hexadecimal.
    fn bytes(&mut self, word: &str, bytes: &[u8]) {
        let digits: String = bytes.iter().map(|byte| format!("{byte:02x}")).collect();
        self.digits(word, &digits);
    }

    /// Without digits the line is just its word.
    fn digits(&mut self, word: &str, digits: &str) {
        self.line(format!("{word} {digits}").trim_end());
    }

    pub fn line(&mut self, line: &str) {
        self.text.push_str(line);
        self.text.push('\n');
    }
}

#[cfg(test)]
mod tests {
    use super::listing;
    use crate::case::Case;
    use crate::corpus::meshes::plain;
    use crate::digest::digest;
    use crate::mesh::Mesh;
    use crate::plan::Plan;

    #[test]
    fn lists_an_accepted_book() {
        let case = Case::Book {
            room: 9,
            link: 0,
            book: vec![1, 2, 1, 0, 20, 0, 1, 2, 1],
        };
        let expected = "book 0 9\nread accepted\nmesh 2 1\nlink 0 0 1 256 0 258\nrest 0\n\
            write accepted\nlength 9\nout 010201001400010201\nrecord accepted\n\
            part 1400010201\n";
        assert_eq!(listing(&[case]).unwrap(), expected);
    }

    #[test]
    fn lists_a_refused_book() {
        let case = Case::Book {
            room: 2,
            link: 0,
            book: vec![],
        };
        let expected = "book 0 0\nread refused 1 0\nmesh 0 0\nrest 0\n\
            write refused 3 0\nlength 0\nout a5a5\nrecord refused 1 0\npart\n";
        assert_eq!(listing(&[case]).unwrap(), expected);
    }

    #[test]
    fn lists_a_mesh_record() {
        let mesh = Box::new(Mesh::new(2, &[]));
        let short = Case::Mesh {
            room: 0,
            mesh: mesh.clone(),
        };
        let digest = digest(&mesh, &Plan::ZERO);
        let long = Case::Mesh { room: 5, mesh };
        let planned =
            format!("plan refused 20 1\ndirections\nrest 0\nstart accepted\ndigest {digest}\n");
        let expected = format!(
            "record-of-mesh 0\ncheck accepted\nwrite refused 11 4\nlength 0\nout\n{planned}\
            record-of-mesh 1\ncheck accepted\nwrite accepted\nlength 4\nout 01020000a5\n{planned}"
        );
        assert_eq!(listing(&[short, long]).unwrap(), expected);
    }

    #[test]
    fn lists_a_mesh_record_that_no_session_starts_on() {
        let mut mesh = Box::new(Mesh::new(2, &[]));
        mesh.count = 300;
        let zeros = "0".repeat(256);
        let digest = digest(&Mesh::ZERO, &Plan::ZERO);
        let expected = format!(
            "record-of-mesh 0\ncheck refused 4 0\nwrite refused 4 0\nlength 0\nout a5\n\
            plan refused 4 0\ndirections {zeros}\nrest 0\nstart refused 4 0\ndigest {digest}\n"
        );
        let case = Case::Mesh { room: 1, mesh };
        assert_eq!(listing(&[case]).unwrap(), expected);
    }

    #[test]
    fn lists_a_planning() {
        let planning = |nodes, ends: &[(u8, u8)]| Case::Planning {
            mesh: Box::new(plain(nodes, ends)),
        };
        let triangle = planning(3, &[(0, 1), (0, 2), (1, 2)]);
        let path = planning(3, &[(0, 1), (1, 2)]);
        let expected = "planning 0 3 3\nplan accepted\ndirections 010\nrest 0\n\
            planning 1 3 2\nplan refused 21 0\ndirections 00\nrest 0\n\
            planning 2 2 0\nplan refused 20 1\ndirections\nrest 0\n";
        let cases = [triangle, path, planning(2, &[])];
        assert_eq!(listing(&cases).unwrap(), expected);
    }

    #[test]
    fn lists_books_as_meshplan_does() {
        let listed = |book: &[u8]| Case::Listing {
            book: book.to_vec(),
        };
        let cases = [listed(&[1, 3, 3, 0, 0, 2, 2, 1, 1]), listed(&[1, 2, 0])];
        let expected = "listing 0\nmesh 3 3\nlink 0 0 1 0\nlink 1 0 2 1\nlink 2 1 2 0\n\
            cut 0 0 1 2 - 1 2\ncut 1 2 0 2 - 2 0\ncut 2 1 2 2 - 0 1\nlisting 1\nrefused 1 3\n";
        assert_eq!(listing(&cases).unwrap(), expected);
    }
}
