//! The entries of a mesh record in the bytes of a case: each with its index,
//! then low end, high end, length, fibre pair and duct.

use crate::mesh::{Link, Mesh};
use crate::reader::Reader;

/// Nodes, count, the number of entries that are not zero, and these.
pub fn write_mesh(mesh: &Mesh, output: &mut Vec<u8>) {
    let numbered = (0..=255).zip(&mesh.links);
    let entries: Vec<(u8, &Link)> = numbered.filter(|(_, link)| **link != Link::ZERO).collect();
    output.push(mesh.nodes);
    output.extend(mesh.count.to_le_bytes());
    output.extend((entries.len() as u16).to_le_bytes());
    for (index, link) in entries {
        write_entry(index, link, output);
    }
}

pub fn write_entry(index: u8, link: &Link, output: &mut Vec<u8>) {
    output.extend([index, link.low, link.high]);
    output.extend(link.length.to_le_bytes());
    output.extend(link.pair.to_le_bytes());
    output.extend(link.duct.to_le_bytes());
}

/// None if the bytes end before the last entry does.
pub fn read_mesh(reader: &mut Reader) -> Option<Box<Mesh>> {
    let mut mesh = Box::new(Mesh::ZERO);
    mesh.nodes = reader.one()?;
    mesh.count = reader.two()?;
    for _ in 0..reader.two()? {
        let (index, link) = read_entry(reader)?;
        mesh.links[usize::from(index)] = link;
    }
    Some(mesh)
}

pub fn read_entry(reader: &mut Reader) -> Option<(u8, Link)> {
    let index = reader.one()?;
    let link = Link {
        low: reader.one()?,
        high: reader.one()?,
        length: reader.two()?,
        pair: reader.four()?,
        duct: reader.two()?,
    };
    Some((index, link))
}
