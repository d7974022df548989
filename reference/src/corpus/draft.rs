//! A book in parts that can be changed without regard to the rules.

use crate::book::records;
use crate::mesh::Mesh;
use crate::record::Record;

#[derive(Clone, Debug)]
pub struct Draft {
    pub version: u8,
    pub nodes: u8,
    pub count: u16,
    pub records: Vec<Record>,
    pub extra: Vec<u8>,
}

impl Draft {
    pub fn of(mesh: &Mesh) -> Draft {
        Draft {
            version: 1,
            nodes: mesh.nodes,
            count: mesh.count,
            records: records(mesh).collect(),
            extra: Vec::new(),
        }
    }

    pub fn bytes(&self) -> Vec<u8> {
        let mut book = vec![self.version, self.nodes];
        book.extend(self.count.to_le_bytes());
        for record in &self.records {
            record.write(&mut book);
        }
        book.extend(&self.extra);
        book
    }

    /// The position of a record's bit map.
    pub fn place_of(&self, record: usize) -> usize {
        let mut before = self.clone();
        before.records.truncate(record);
        before.extra.clear();
        before.bytes().len()
    }
}
