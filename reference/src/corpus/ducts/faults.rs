//! Wrong records with a duct.

use super::super::wrong_records::{faults, met_by, Fault, Spot};
use crate::record::Record;
use crate::refusal::Reason;

/// Every kind of wrong record in this place that has to do with the duct.
pub fn duct_faults(spot: &Spot) -> Vec<Fault> {
    let mut all = turned(spot);
    all.extend(needless(spot));
    all
}

/// Every other fault, with a duct where its record has none, and without one
/// where it has one.
fn turned(spot: &Spot) -> Vec<Fault> {
    let turn = |(turn, (reason, record)): (usize, Fault)| {
        let duct = match record.duct {
            None => Some([1, 255, 256, 65_535][turn % 4]),
            Some(_) => None,
        };
        (reason, Record { duct, ..record })
    };
    faults(spot).into_iter().enumerate().map(turn).collect()
}

/// A duct of 0: 9, alone, with every other field needless, with the previous pair
/// again, and before 7, 6 and 8; after 5.
fn needless(spot: &Spot) -> Vec<Fault> {
    let duct = Some(0);
    let with_zero = |(reason, record): Fault| match reason {
        Some(Reason::ReservedBit) => (reason, Record { duct, ..record }),
        _ => (Some(Reason::NeedlessField), Record { duct, ..record }),
    };
    let alone = Record {
        duct,
        ..spot.record()
    };
    let reserved = [0x20, 0x40, 0x80].map(|reserved| Record { reserved, ..alone });
    let mut all = met_by(Reason::NeedlessField, [alone]);
    all.extend(met_by(Reason::ReservedBit, reserved));
    all.extend(faults(spot).into_iter().step_by(2).map(with_zero));
    all
}
