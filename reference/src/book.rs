//! The book: reading, writing and showing one record.

use std::iter;
use std::ops::Range;

use crate::mesh::{check_count, check_ends, check_nodes, Link, Mesh};
use crate::reader::Reader;
use crate::record::{Record, RESERVED};
use crate::refusal::{refuse_if, Answer, Reason, Refusal};

const VERSION: u8 = 1;

/// A book is at most this long.
pub const MOST_BOOK_BYTES: usize = 2_820;

/// Reads a book. A refused read gives the all-zero mesh.
pub fn decode(book: &[u8]) -> (Mesh, Answer) {
    match read(book, |_, _| ()) {
        Ok(mesh) => (mesh, Ok(())),
        Err(refusal) => (Mesh::ZERO, Err(refusal)),
    }
}

/// Writes the mesh's book to the front of the output and gives its length.
/// Bytes past the book stay; a refusal leaves the whole output.
pub fn encode(mesh: &Mesh, output: &mut [u8]) -> Result<usize, Refusal> {
    // Order of writing: mesh, 11.
    mesh.check()?;
    let book = bytes_of(mesh);
    // 11: the place is the length needed.
    refuse_if(output.len() < book.len(), Reason::OutputShort, book.len())?;
    output[..book.len()].copy_from_slice(&book);
    Ok(book.len())
}

/// The bytes of one link's record in the book, empty on a refusal.
pub fn record(book: &[u8], link: usize) -> (&[u8], Answer) {
    match record_part(book, link) {
        Ok(part) => (&book[part], Ok(())),
        Err(refusal) => (&[], Err(refusal)),
    }
}

/// The book of a well-formed mesh.
pub fn bytes_of(mesh: &Mesh) -> Vec<u8> {
    let mut book = Vec::with_capacity(MOST_BOOK_BYTES);
    book.extend([VERSION, mesh.nodes]);
    book.extend(mesh.count.to_le_bytes());
    for record in records(mesh) {
        record.write(&mut book);
    }
    book
}

/// The records of a mesh, in the order of its links.
pub fn records(mesh: &Mesh) -> impl Iterator<Item = Record> + '_ {
    let links = mesh.counted();
    let before = iter::once(None).chain(links.iter().map(Some));
    let pairs = links.iter().zip(before);
    pairs.map(|(link, previous)| Record::of(link, previous))
}

/// Order of reading: the header; each record; then 10. Each record's number
/// and its part of the book are shown to `see` on the way.
fn read(book: &[u8], mut see: impl FnMut(usize, Range<usize>)) -> Result<Mesh, Refusal> {
    let mut reader = Reader::new(book);
    let (nodes, count) = read_header(&mut reader)?;
    let mut mesh = Mesh {
        nodes,
        count,
        ..Mesh::ZERO
    };
    let mut previous = None;
    for (number, entry) in mesh.links[..count.into()].iter_mut().enumerate() {
        let start = reader.at();
        *entry = read_link(&mut reader, previous.as_ref(), nodes)?;
        previous = Some(*entry);
        see(number, start..reader.at());
    }
    // 10: the place is the first extra byte.
    refuse_if(!reader.is_at_end(), Reason::BytesAfterLast, reader.at())?;
    Ok(mesh)
}

/// Order of the header: 1 (under 4 bytes), 2, 3, 4. Gives N and L.
fn read_header(reader: &mut Reader) -> Result<(u8, u16), Refusal> {
    let short = book_short(reader);
    let header = reader.take(4).ok_or(short)?;
    let nodes = header[1];
    let count = u16::from_le_bytes([header[2], header[3]]);
    refuse_if(header[0] != VERSION, Reason::Version, 0)?;
    check_nodes(nodes, 1)?;
    check_count(count, 2)?;
    Ok((nodes, count))
}

/// Order of one record: 1, 5, 1, 9, 7, 6, 8. The place of 5 to 9 is its bit map.
fn read_link(reader: &mut Reader, previous: Option<&Link>, nodes: u8) -> Result<Link, Refusal> {
    let place = reader.at();
    let record = read_record(reader)?;
    let needless = record.has_needless_field(previous);
    refuse_if(needless, Reason::NeedlessField, place)?;
    let (low, high) = record.ends(previous);
    check_ends((low, high), previous.map(Link::ends), nodes, place)?;
    Ok(Link {
        // Both ends are below N here, so they fit one byte.
        low: low as u8,
        high: high as u8,
        length: record.length.unwrap_or(0),
        pair: record.pair.unwrap_or(0),
        duct: record.duct.unwrap_or(0),
    })
}

/// The part 1, 5, 1 of a record's order: bit map, reserved bits, fields.
fn read_record(reader: &mut Reader) -> Result<Record, Refusal> {
    let place = reader.at();
    let short = book_short(reader);
    let bit_map = reader.one().ok_or(short)?;
    refuse_if(bit_map & RESERVED != 0, Reason::ReservedBit, place)?;
    Record::read_fields(bit_map, reader).ok_or(short)
}

/// 1: the place is the book's length.
fn book_short(reader: &Reader) -> Refusal {
    Refusal::new(Reason::BookShort, reader.length())
}

/// Order of showing a record: reading, 12.
fn record_part(book: &[u8], link: usize) -> Result<Range<usize>, Refusal> {
    let mut part = None;
    read(book, |number, bytes| {
        if number == link {
            part = Some(bytes);
        }
    })?;
    // 12: the place is the link named.
    part.ok_or(Refusal::new(Reason::NoSuchLink, link))
}
