//! The cases of a corpus and their bytes.

use crate::entries::{read_mesh, write_mesh};
use crate::mesh::Mesh;
use crate::reader::Reader;
use crate::script::{read_script, write_script, Script};
use crate::upgrade::{read_upgrade, write_upgrade, Upgrade};

const BOOK: u8 = b'B';
const MESH: u8 = b'M';
const PLANNING: u8 = b'P';
const SCRIPT: u8 = b'S';
const LISTING: u8 = b'L';
const UPGRADE: u8 = b'U';
const DUCTS: u8 = b'D';
const COLLECTION: u8 = b'C';
const DRILL_INPUT: u8 = b'H';
const DRILL_MESH: u8 = b'N';
const SURVEY: u8 = b'V';

/// The greatest room of a case and the greatest length of its book.
pub const MOST_BYTES: usize = 2_900;

/// The greatest number of entries of the output of a duct query or a collection
/// route.
pub const MOST_ENTRIES: usize = 300;

/// The greatest length of a drill's input.
pub const MOST_INPUT: usize = 300;

#[derive(Clone, Debug, PartialEq, Eq)]
pub enum Case {
    /// A book, the link whose record is asked for, and the output's size.
    Book { room: u16, link: u16, book: Vec<u8> },
    /// A mesh record and the output's size.
    Mesh { room: u16, mesh: Box<Mesh> },
    /// A mesh to plan: at most 256 links without lengths, fibre pairs and ducts,
    /// and zeros past them.
    Planning { mesh: Box<Mesh> },
    /// Calls on a session.
    Script(Script),
    /// A book to list as the program meshplan does.
    Listing { book: Vec<u8> },
    /// An old session carried over, and calls on what it becomes.
    Upgrade(Box<Upgrade>),
    /// A duct query: the number of the output's entries, the link and the mesh
    /// record.
    Ducts {
        room: u16,
        link: u16,
        mesh: Box<Mesh>,
    },
    /// A collection route: the number of the output's entries, the root and the
    /// mesh record.
    Collection {
        room: u16,
        root: u8,
        mesh: Box<Mesh>,
    },
    /// An input of the program drill.
    DrillInput { input: Vec<u8> },
    /// The mesh of a drill by its number of middle nodes, and the output's size.
    DrillMesh { room: u16, middles: u8 },
    /// A mesh record to survey.
    Survey { mesh: Box<Mesh> },
}

/// The bytes of a corpus, one case after the other.
pub fn write_cases(cases: &[Case]) -> Vec<u8> {
    let mut output = Vec::new();
    for case in cases {
        write_case(case, &mut output);
    }
    output
}

fn write_case(case: &Case, output: &mut Vec<u8>) {
    match case {
        Case::Book { room, link, book } => write_book(*room, *link, book, output),
        Case::Mesh { room, mesh } => {
            write_room(MESH, *room, output);
            write_mesh(mesh, output);
        }
        Case::Planning { mesh } => write_planning(mesh, output),
        Case::Script(script) => {
            output.push(SCRIPT);
            write_script(script, output);
        }
        Case::Listing { book } => write_input(LISTING, book, output),
        Case::Upgrade(upgrade) => {
            output.push(UPGRADE);
            write_upgrade(upgrade, output);
        }
        Case::Ducts { room, link, mesh } => {
            write_room(DUCTS, *room, output);
            output.extend(link.to_le_bytes());
            write_mesh(mesh, output);
        }
        Case::Collection { room, root, mesh } => {
            write_room(COLLECTION, *room, output);
            output.push(*root);
            write_mesh(mesh, output);
        }
        Case::DrillInput { input } => write_input(DRILL_INPUT, input, output),
        Case::DrillMesh { room, middles } => {
            write_room(DRILL_MESH, *room, output);
            output.push(*middles);
        }
        Case::Survey { mesh } => {
            output.push(SURVEY);
            write_mesh(mesh, output);
        }
    }
}

/// A case that is some bytes alone.
fn write_input(kind: u8, bytes: &[u8], output: &mut Vec<u8>) {
    output.push(kind);
    write_bytes(bytes, output);
}

/// The letter of a case, and the output's size.
fn write_room(letter: u8, room: u16, output: &mut Vec<u8>) {
    output.push(letter);
    output.extend(room.to_le_bytes());
}

fn write_book(room: u16, link: u16, book: &[u8], output: &mut Vec<u8>) {
    write_room(BOOK, room, output);
    output.extend(link.to_le_bytes());
    write_bytes(book, output);
}

/// The length and the bytes, of a book or an input.
fn write_bytes(bytes: &[u8], output: &mut Vec<u8>) {
    output.extend((bytes.len() as u16).to_le_bytes());
    output.extend(bytes);
}

fn write_planning(mesh: &Mesh, output: &mut Vec<u8>) {
    output.extend([PLANNING, mesh.nodes]);
    output.extend(mesh.count.to_le_bytes());
    for link in mesh.counted() {
        output.extend([link.low, link.high]);
    }
}

/// The cases of a corpus; an error tells where the corpus is ill-formed.
pub fn read_cases(corpus: &[u8]) -> Result<Vec<Case>, String> {
    let mut reader = Reader::new(corpus);
    let mut cases = Vec::new();
    while !reader.is_at_end() {
        let start = reader.at();
        let case = read_case(&mut reader);
        cases.push(case.ok_or_else(|| format!("ill-formed case at byte {start}"))?);
    }
    Ok(cases)
}

fn read_case(reader: &mut Reader) -> Option<Case> {
    match reader.one()? {
        BOOK => read_book(reader),
        MESH => read_record(reader),
        PLANNING => read_planning(reader),
        SCRIPT => read_script(reader).map(Case::Script),
        LISTING => read_bytes(reader).map(|book| Case::Listing { book }),
        UPGRADE => read_upgrade(reader).map(|upgrade| Case::Upgrade(Box::new(upgrade))),
        DUCTS => read_ducts(reader),
        COLLECTION => read_collection(reader),
        DRILL_INPUT => read_drill_input(reader),
        DRILL_MESH => read_drill_mesh(reader),
        SURVEY => read_mesh(reader).map(|mesh| Case::Survey { mesh }),
        _ => None,
    }
}

fn read_book(reader: &mut Reader) -> Option<Case> {
    let room = reader.two()?;
    let link = reader.two()?;
    let book = read_bytes(reader)?;
    Some(Case::Book { room, link, book })
}

fn read_bytes(reader: &mut Reader) -> Option<Vec<u8>> {
    let length = reader.two()?;
    Some(reader.take(length.into())?.to_vec())
}

fn read_record(reader: &mut Reader) -> Option<Case> {
    let room = reader.two()?;
    let mesh = read_mesh(reader)?;
    Some(Case::Mesh { room, mesh })
}

fn read_ducts(reader: &mut Reader) -> Option<Case> {
    let room = read_entries(reader)?;
    let link = reader.two()?;
    let mesh = read_mesh(reader)?;
    Some(Case::Ducts { room, link, mesh })
}

fn read_collection(reader: &mut Reader) -> Option<Case> {
    let room = read_entries(reader)?;
    let root = reader.one()?;
    let mesh = read_mesh(reader)?;
    Some(Case::Collection { room, root, mesh })
}

/// None if the input is too long.
fn read_drill_input(reader: &mut Reader) -> Option<Case> {
    let input = read_bytes(reader)?;
    (input.len() <= MOST_INPUT).then_some(Case::DrillInput { input })
}

fn read_drill_mesh(reader: &mut Reader) -> Option<Case> {
    let room = reader.two()?;
    let middles = reader.one()?;
    Some(Case::DrillMesh { room, middles })
}

/// The number of an output's entries; none if it is too large.
fn read_entries(reader: &mut Reader) -> Option<u16> {
    let room = reader.two()?;
    (usize::from(room) <= MOST_ENTRIES).then_some(room)
}

fn read_planning(reader: &mut Reader) -> Option<Case> {
    let mut mesh = Box::new(Mesh::ZERO);
    mesh.nodes = reader.one()?;
    mesh.count = reader.two()?;
    for entry in mesh.links.get_mut(..mesh.count.into())? {
        entry.low = reader.one()?;
        entry.high = reader.one()?;
    }
    Some(Case::Planning { mesh })
}
