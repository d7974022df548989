//! The bytes of a script, without the byte that tells its kind.

use super::{Call, GivenFlood, GivenSession, Origin, Script};
use crate::book::decode;
use crate::entries::{read_entry, write_entry};
use crate::mesh::{Link, MOST_LINKS, MOST_NODES};
use crate::reader::Reader;

const OWN_PLAN: u8 = 0;
const GIVEN_PLAN: u8 = 1;
const GIVEN_SESSION: u8 = 2;

const CUT: u8 = b'C';
const DELIVER: u8 = b'D';
const MEND: u8 = b'M';
const STATUS: u8 = b'T';
const RUN: u8 = b'R';
const ROUTE: u8 = b'Q';

const NO_CUT: u16 = 65_535;

pub fn write_script(script: &Script, output: &mut Vec<u8>) {
    output.extend((script.book.len() as u16).to_le_bytes());
    output.extend(&script.book);
    match &script.origin {
        Origin::OwnPlan => output.push(OWN_PLAN),
        Origin::GivenPlan(directions) => {
            output.push(GIVEN_PLAN);
            write_directions(directions, output);
        }
        Origin::GivenSession(given) => {
            output.push(GIVEN_SESSION);
            write_session(given, output);
        }
    }
    write_calls(&script.calls, output);
}

/// The number of calls and the calls.
pub fn write_calls(calls: &[Call], output: &mut Vec<u8>) {
    output.extend((calls.len() as u16).to_le_bytes());
    for call in calls {
        write_call(*call, output);
    }
}

pub fn write_directions(directions: &[u8], output: &mut Vec<u8>) {
    output.extend((directions.len() as u16).to_le_bytes());
    output.extend(directions);
}

pub fn write_cut(cut: Option<u16>, output: &mut Vec<u8>) {
    output.extend(cut.unwrap_or(NO_CUT).to_le_bytes());
}

fn write_session(given: &GivenSession, output: &mut Vec<u8>) {
    write_directions(&given.directions, output);
    write_cut(given.cut, output);
    for flood in &given.floods {
        write_flood(flood, output);
    }
    output.push(given.links.len() as u8);
    for (index, link) in &given.links {
        write_entry(*index, link, output);
    }
    output.push(given.nodes);
    output.extend(given.count.to_le_bytes());
}

pub fn write_flood(flood: &GivenFlood, output: &mut Vec<u8>) {
    output.extend((flood.states.len() as u16).to_le_bytes());
    for (index, state) in &flood.states {
        output.extend([index, state]);
    }
    output.push(flood.reached.len() as u8);
    output.extend(&flood.reached);
}

fn write_call(call: Call, output: &mut Vec<u8>) {
    match call {
        Call::Cut(link) => write_named(CUT, None, link, output),
        Call::Deliver(link, wavelength) => write_named(DELIVER, Some(wavelength), link, output),
        Call::Mend(link) => write_named(MEND, None, link, output),
        Call::Status(link, wavelength) => write_named(STATUS, Some(wavelength), link, output),
        Call::Run(allowance) => {
            output.push(RUN);
            output.extend(allowance.to_le_bytes());
        }
        Call::Route(wavelength) => output.extend([ROUTE, wavelength]),
    }
}

/// A call that names a link, after its wavelength if it names one.
fn write_named(kind: u8, wavelength: Option<u8>, link: u16, output: &mut Vec<u8>) {
    output.push(kind);
    output.extend(wavelength);
    output.extend(link.to_le_bytes());
}

/// None if the bytes are ill-formed or the book is refused.
pub fn read_script(reader: &mut Reader) -> Option<Script> {
    let length = reader.two()?;
    let book = reader.take(length.into())?.to_vec();
    decode(&book).1.ok()?;
    let origin = match reader.one()? {
        OWN_PLAN => Origin::OwnPlan,
        GIVEN_PLAN => Origin::GivenPlan(read_directions(reader)?),
        GIVEN_SESSION => Origin::GivenSession(Box::new(read_session(reader)?)),
        _ => return None,
    };
    let calls = read_calls(reader)?;
    Some(Script {
        book,
        origin,
        calls,
    })
}

/// None if the bytes are ill-formed.
pub fn read_calls(reader: &mut Reader) -> Option<Vec<Call>> {
    let count = reader.two()?;
    (0..count).map(|_| read_call(reader)).collect()
}

/// None if there are more than 256.
pub fn read_directions(reader: &mut Reader) -> Option<Vec<u8>> {
    let count = usize::from(reader.two()?);
    let directions = reader.take(count)?.to_vec();
    (count <= MOST_LINKS).then_some(directions)
}

/// The inner option is none where the bytes say that there is no cut.
pub fn read_cut(reader: &mut Reader) -> Option<Option<u16>> {
    Some(Some(reader.two()?).filter(|cut| *cut != NO_CUT))
}

fn read_session(reader: &mut Reader) -> Option<GivenSession> {
    let directions = read_directions(reader)?;
    let cut = read_cut(reader)?;
    let floods = [read_flood(reader)?, read_flood(reader)?];
    let count = reader.one()?;
    let links: Option<Vec<(u8, Link)>> = (0..count).map(|_| read_entry(reader)).collect();
    Some(GivenSession {
        directions,
        cut,
        floods,
        links: links?,
        nodes: reader.one()?,
        count: reader.two()?,
    })
}

/// None if a reached node is not below 64.
pub fn read_flood(reader: &mut Reader) -> Option<GivenFlood> {
    let count = reader.two()?;
    let states: Option<Vec<(u8, u8)>> = (0..count).map(|_| read_state(reader)).collect();
    let states = states?;
    let count = reader.one()?;
    let reached = reader.take(count.into())?.to_vec();
    let are_nodes = reached.iter().all(|node| *node < MOST_NODES);
    are_nodes.then_some(GivenFlood { states, reached })
}

fn read_state(reader: &mut Reader) -> Option<(u8, u8)> {
    Some((reader.one()?, reader.one()?))
}

fn read_call(reader: &mut Reader) -> Option<Call> {
    match reader.one()? {
        CUT => reader.two().map(Call::Cut),
        DELIVER => read_named(Call::Deliver, reader),
        MEND => reader.two().map(Call::Mend),
        STATUS => read_named(Call::Status, reader),
        RUN => reader.four().map(Call::Run),
        ROUTE => reader.one().map(Call::Route),
        _ => None,
    }
}

/// A call that names a wavelength, which stands before the link.
fn read_named(call: fn(u16, u8) -> Call, reader: &mut Reader) -> Option<Call> {
    let wavelength = reader.one()?;
    let link = reader.two()?;
    Some(call(link, wavelength))
}
