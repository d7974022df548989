//! A case of the corpus: an old session that is carried over, the calls on what
//! it becomes, and their bytes.

use crate::old_session::{OldLink, OldSession};
use crate::reader::Reader;
use crate::script::{given_directions, plan_of, Call, GivenFlood};
use crate::script::{read_calls, read_cut, read_directions, read_flood};
use crate::script::{write_calls, write_cut, write_directions, write_flood};
use crate::session::Flood;

#[derive(Clone, Debug, PartialEq, Eq)]
pub struct Upgrade {
    pub old: OldSession,
    pub calls: Vec<Call>,
}

pub fn write_upgrade(upgrade: &Upgrade, output: &mut Vec<u8>) {
    write_old(&upgrade.old, output);
    write_calls(&upgrade.calls, output);
}

fn write_old(old: &OldSession, output: &mut Vec<u8>) {
    output.push(old.nodes);
    output.extend(old.count.to_le_bytes());
    write_links(&old.links, output);
    write_directions(&given_directions(&old.directions), output);
    write_cut(old.cut, output);
    let flood = Flood {
        states: old.states,
        reached: old.reached,
    };
    write_flood(&GivenFlood::of(&flood), output);
}

/// The number of entries that are not zero, and these with their index.
fn write_links(links: &[OldLink], output: &mut Vec<u8>) {
    let numbered = (0..=255).zip(links);
    let entries: Vec<(u8, &OldLink)> = numbered
        .filter(|(_, link)| **link != OldLink::ZERO)
        .collect();
    output.extend((entries.len() as u16).to_le_bytes());
    for (index, link) in entries {
        output.extend([index, link.low, link.high]);
        output.extend(link.length.to_le_bytes());
        output.extend(link.pair.to_le_bytes());
    }
}

/// None if the bytes are ill-formed.
pub fn read_upgrade(reader: &mut Reader) -> Option<Upgrade> {
    let old = read_old(reader)?;
    let calls = read_calls(reader)?;
    Some(Upgrade { old, calls })
}

fn read_old(reader: &mut Reader) -> Option<OldSession> {
    let mut old = OldSession {
        nodes: reader.one()?,
        count: reader.two()?,
        ..OldSession::ZERO
    };
    for _ in 0..reader.two()? {
        let index = reader.one()?;
        old.links[usize::from(index)] = read_link(reader)?;
    }
    old.directions = plan_of(&read_directions(reader)?).directions;
    old.cut = read_cut(reader)?;
    let flood = read_flood(reader)?.flood();
    old.states = flood.states;
    old.reached = flood.reached;
    Some(old)
}

fn read_link(reader: &mut Reader) -> Option<OldLink> {
    Some(OldLink {
        low: reader.one()?,
        high: reader.one()?,
        length: reader.two()?,
        pair: reader.four()?,
    })
}
