//! One record of a book: a bit map and the fields whose bit stands.

use crate::mesh::{Ends, Link};
use crate::reader::Reader;

const LOW: u8 = 1 << 0;
const HIGH: u8 = 1 << 1;
const LENGTH: u8 = 1 << 2;
const PAIR: u8 = 1 << 3;
const DUCT: u8 = 1 << 4;

/// Bits 5 to 7.
pub const RESERVED: u8 = 0xe0;

/// A record as it stands in a book, whether a reader accepts it or not.
#[derive(Clone, Copy, Debug, PartialEq, Eq)]
pub struct Record {
    /// The reserved bits that stand.
    pub reserved: u8,
    pub low: Option<u8>,
    pub high: Option<u8>,
    pub length: Option<u16>,
    pub pair: Option<u32>,
    pub duct: Option<u16>,
}

impl Record {
    /// The record of a link: a field equal to its absent value is not written.
    pub fn of(link: &Link, previous: Option<&Link>) -> Record {
        let low_absent = low_when_absent(previous);
        let high_absent = high_when_absent(link.low.into());
        Record {
            reserved: 0,
            low: Some(link.low).filter(|low| *low != low_absent),
            high: Some(link.high).filter(|high| u16::from(*high) != high_absent),
            length: Some(link.length).filter(|length| *length != 0),
            pair: Some(link.pair).filter(|pair| *pair != 0),
            duct: Some(link.duct).filter(|duct| *duct != 0),
        }
    }

    /// Reads the fields that the bit map names, in bit order; none if the
    /// bytes end before them.
    #[inline]
    pub fn read_fields(bit_map: u8, reader: &mut Reader) -> Option<Record> {
        Some(Record {
            reserved: bit_map & RESERVED,
            low: field(bit_map & LOW, || reader.one())?,
            high: field(bit_map & HIGH, || reader.one())?,
            length: field(bit_map & LENGTH, || reader.two())?,
            pair: field(bit_map & PAIR, || reader.four())?,
            duct: field(bit_map & DUCT, || reader.two())?,
        })
    }

    pub fn bit_map(&self) -> u8 {
        let bit = |stands: bool, bit: u8| if stands { bit } else { 0 };
        self.reserved
            | bit(self.low.is_some(), LOW)
            | bit(self.high.is_some(), HIGH)
            | bit(self.length.is_some(), LENGTH)
            | bit(self.pair.is_some(), PAIR)
            | bit(self.duct.is_some(), DUCT)
    }

    /// Adds the bit map, then the fields in bit order, low byte first.
    pub fn write(&self, output: &mut Vec<u8>) {
        output.push(self.bit_map());
        output.extend(self.low);
        output.extend(self.high);
        if let Some(length) = self.length {
            output.extend_from_slice(&length.to_le_bytes());
        }
        if let Some(pair) = self.pair {
            output.extend_from_slice(&pair.to_le_bytes());
        }
        if let Some(duct) = self.duct {
            output.extend_from_slice(&duct.to_le_bytes());
        }
    }

    /// The ends, absent ones by their absent values.
    #[inline]
    pub fn ends(&self, previous: Option<&Link>) -> Ends {
        let low = self.low.unwrap_or_else(|| low_when_absent(previous)).into();
        let high = self.high.map_or(high_when_absent(low), u16::from);
        (low, high)
    }

    /// Whether some field is present and equal to its absent value.
    #[inline]
    pub fn has_needless_field(&self, previous: Option<&Link>) -> bool {
        let (low, _) = self.ends(previous);
        self.low == Some(low_when_absent(previous))
            || self.high.map(u16::from) == Some(high_when_absent(low))
            || self.length == Some(0)
            || self.pair == Some(0)
            || self.duct == Some(0)
    }
}

/// An absent low end is the previous record's, 0 in the first record.
pub fn low_when_absent(previous: Option<&Link>) -> u8 {
    previous.map_or(0, |link| link.low)
}

/// An absent high end is the low end + 1, so 256 after the low end 255.
fn high_when_absent(low: u16) -> u16 {
    low + 1
}

/// A field's value if its bit stands; the outer option is none if `read` is.
fn field<T>(bit: u8, read: impl FnOnce() -> Option<T>) -> Option<Option<T>> {
    if bit == 0 {
        Some(None)
    } else {
        read().map(Some)
    }
}
