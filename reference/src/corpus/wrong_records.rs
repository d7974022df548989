//! Records that a reader refuses, and records that repeat the previous pair.

use crate::mesh::{Link, Mesh};
use crate::record::{low_when_absent, Record};
use crate::refusal::Reason;
#[cfg(test)]
use crate::refusal::{Answer, Refusal};

/// A wrong record and the refusal that it meets first; none for a record that
/// repeats the previous pair, which stands.
pub type Fault = (Option<Reason>, Record);

/// A link and what its record depends on.
pub struct Spot {
    nodes: u8,
    link: Link,
    previous: Option<Link>,
}

impl Spot {
    pub fn of(mesh: &Mesh, at: usize) -> Spot {
        Spot {
            nodes: mesh.nodes,
            link: mesh.links[at],
            previous: at.checked_sub(1).map(|before| mesh.links[before]),
        }
    }

    /// The link's own record.
    pub fn record(&self) -> Record {
        Record::of(&self.link, self.previous.as_ref())
    }

    /// The record with other ends, none of them needless.
    fn with_ends(&self, low: u8, high: u8) -> Record {
        let link = Link {
            low,
            high,
            ..self.link
        };
        Record::of(&link, self.previous.as_ref())
    }

    fn low_when_absent(&self) -> u8 {
        low_when_absent(self.previous.as_ref())
    }
}

/// Every kind of wrong record in this place.
pub fn faults(spot: &Spot) -> Vec<Fault> {
    let mut faults = Vec::new();
    faults.extend(reserved_bits(spot));
    faults.extend(needless_fields(spot));
    faults.extend(low_not_below_high(spot));
    faults.extend(end_not_below_nodes(spot));
    faults.extend(up_to_previous(spot));
    faults.extend(reserved_and_other(spot));
    faults.extend(needless_and_other(spot));
    faults.extend(ends_with_two_faults(spot));
    faults
}

/// 5, each bit, two and all.
fn reserved_bits(spot: &Spot) -> Vec<Fault> {
    let record = spot.record();
    let with_bits = |reserved| Record { reserved, ..record };
    let records = [0x20, 0x40, 0x80, 0xa0, 0xe0].map(with_bits);
    met_by(Reason::ReservedBit, records)
}

/// 9, each field but the duct, and all of these.
fn needless_fields(spot: &Spot) -> Vec<Fault> {
    let record = spot.record();
    let low = Some(spot.low_when_absent());
    let high = Some(spot.link.low + 1);
    let both = Some(spot.low_when_absent() + 1);
    let (length, pair) = (Some(0), Some(0));
    let records = [
        Record { low, ..record },
        Record { high, ..record },
        Record { length, ..record },
        Record { pair, ..record },
        Record {
            reserved: 0,
            low,
            high: both,
            length,
            pair,
            duct: None,
        },
    ];
    met_by(Reason::NeedlessField, records)
}

/// 7, equal and falling ends.
fn low_not_below_high(spot: &Spot) -> Vec<Fault> {
    let low = spot.link.low;
    let records = [
        spot.with_ends(low, low),
        spot.with_ends(low, 0),
        spot.with_ends(low + 1, low),
        spot.with_ends(spot.nodes - 1, 0),
        spot.with_ends(255, 0),
        spot.with_ends(255, 255),
    ];
    met_by(Reason::LowNotBelowHigh, records)
}

/// 6, one end and both; the high end absent and present.
fn end_not_below_nodes(spot: &Spot) -> Vec<Fault> {
    let nodes = spot.nodes;
    let records = [
        spot.with_ends(spot.link.low, nodes),
        spot.with_ends(spot.link.low, 255),
        spot.with_ends(nodes - 1, nodes),
        spot.with_ends(nodes, nodes + 1),
        spot.with_ends(nodes, nodes + 2),
        spot.with_ends(253, 255),
        spot.with_ends(254, 255),
        // An absent high end after the low end 255 is 256.
        Record {
            low: Some(255),
            high: None,
            ..spot.record()
        },
    ];
    met_by(Reason::EndNotBelowNodes, records)
}

/// The previous pair again, and 8, pairs below it; a first record has neither.
fn up_to_previous(spot: &Spot) -> Vec<Fault> {
    let Some(previous) = spot.previous else {
        return Vec::new();
    };
    let (low, high) = (previous.low, previous.high);
    let mut records = vec![spot.with_ends(low, high)];
    records.extend(without_ends());
    if high - low > 1 {
        records.push(spot.with_ends(low, high - 1));
    }
    if low > 0 {
        records.push(spot.with_ends(low - 1, low));
        records.push(spot.with_ends(low - 1, spot.nodes - 1));
        records.push(spot.with_ends(0, low));
    }
    let is_below = |record: &Record| record.ends(Some(&previous)) < previous.ends();
    let fault = |record| (is_below(&record).then_some(Reason::BelowPrevious), record);
    records.into_iter().map(fault).collect()
}

/// The bit maps 0, 4, 8 and 12: both ends are absent.
fn without_ends() -> Vec<Record> {
    let mut records = Vec::new();
    for length in [None, Some(9)] {
        for pair in [None, Some(9)] {
            records.push(Record {
                reserved: 0,
                low: None,
                high: None,
                length,
                pair,
                duct: None,
            });
        }
    }
    records
}

/// 5 before 9, 7 and 6, and with the previous pair again.
fn reserved_and_other(spot: &Spot) -> Vec<Fault> {
    let mut others = needless_fields(spot);
    others.extend(low_not_below_high(spot).first());
    others.extend(end_not_below_nodes(spot).first());
    others.extend(up_to_previous(spot).first());
    let with_bit = |(_, record): Fault| Record {
        reserved: 0x20,
        ..record
    };
    met_by(Reason::ReservedBit, others.into_iter().map(with_bit))
}

/// 9 before 7 and 6, and with the previous pair again.
fn needless_and_other(spot: &Spot) -> Vec<Fault> {
    let record = spot.record();
    let (low, nodes) = (spot.link.low, spot.nodes);
    let low_absent = Some(spot.low_when_absent());
    let (length, pair) = (Some(0), Some(0));
    let mut records = vec![
        Record {
            length,
            ..spot.with_ends(low, low)
        },
        Record {
            low: low_absent,
            high: low_absent,
            ..record
        },
        Record {
            pair,
            ..spot.with_ends(nodes, 0)
        },
        Record {
            pair,
            ..spot.with_ends(low, nodes)
        },
        Record {
            low: low_absent,
            high: Some(nodes),
            ..record
        },
        Record {
            low: Some(nodes),
            high: Some(nodes + 1),
            ..record
        },
        Record {
            low: Some(254),
            high: Some(255),
            ..record
        },
        Record {
            low: Some(255),
            high: None,
            length,
            ..record
        },
    ];
    if let Some(previous) = spot.previous {
        let same = spot.with_ends(previous.low, previous.high);
        records.push(Record { length, ..same });
        records.push(Record {
            low: low_absent,
            ..same
        });
    }
    met_by(Reason::NeedlessField, records)
}

/// 7 before 6, 7 before 8, and 6 before 8.
fn ends_with_two_faults(spot: &Spot) -> Vec<Fault> {
    let nodes = spot.nodes;
    let mut falling = vec![
        spot.with_ends(nodes + 1, nodes),
        spot.with_ends(nodes, nodes),
        spot.with_ends(nodes, 0),
        spot.with_ends(255, nodes),
    ];
    let mut outside = Vec::new();
    if let Some(Link { low, .. }) = spot.previous {
        falling.extend([(low, low), (low, 0), (0, 0)].map(|(a, b)| spot.with_ends(a, b)));
        if low > 0 {
            outside.push(spot.with_ends(low - 1, nodes));
            outside.push(spot.with_ends(0, 255));
        }
    }
    let mut faults = met_by(Reason::LowNotBelowHigh, falling);
    faults.extend(met_by(Reason::EndNotBelowNodes, outside));
    faults
}

pub fn met_by(reason: Reason, records: impl IntoIterator<Item = Record>) -> Vec<Fault> {
    let met = |record| (Some(reason), record);
    records.into_iter().map(met).collect()
}

/// Whether a book answers so with the fault in the record at this place. Where
/// the record repeats a pair, a later one may be refused.
#[cfg(test)]
pub fn is_met(fault: &Fault, place: usize, answer: Answer) -> bool {
    match (fault.0, answer) {
        (Some(reason), answer) => answer == Err(Refusal::new(reason, place)),
        (None, Ok(())) => true,
        (None, Err(refusal)) => refusal.place > place,
    }
}
