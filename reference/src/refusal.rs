//! Refusals: a number and a place.

/// Why a call is refused. The value of each case is the document's number.
#[derive(Clone, Copy, Debug, PartialEq, Eq)]
#[repr(u8)]
pub enum Reason {
    BookShort = 1,
    Version = 2,
    Nodes = 3,
    Count = 4,
    ReservedBit = 5,
    EndNotBelowNodes = 6,
    LowNotBelowHigh = 7,
    BelowPrevious = 8,
    NeedlessField = 9,
    BytesAfterLast = 10,
    OutputShort = 11,
    NoSuchLink = 12,
    IllFormed = 13,
    NoSuchWavelength = 14,
    NoPath = 20,
    RemovalParts = 21,
    CutStands = 22,
    NoCut = 23,
    NotUnderWay = 24,
    NotAtRest = 25,
    NotTheCut = 26,
}

#[derive(Clone, Copy, Debug, PartialEq, Eq)]
pub struct Refusal {
    pub reason: Reason,
    pub place: usize,
}

impl Refusal {
    pub fn new(reason: Reason, place: usize) -> Refusal {
        Refusal { reason, place }
    }

    pub fn number(&self) -> u8 {
        self.reason as u8
    }
}

/// The answer of a call: accepted, or refused.
pub type Answer = Result<(), Refusal>;

/// An answer in words: `accepted` or `refused NUMBER PLACE`.
pub fn in_words(answer: Answer) -> String {
    match answer {
        Ok(()) => "accepted".to_string(),
        Err(refusal) => format!("refused {} {}", refusal.number(), refusal.place),
    }
}

/// Refuses with `reason` at `place` where `condition` holds.
pub fn refuse_if(condition: bool, reason: Reason, place: usize) -> Answer {
    if condition {
        Err(Refusal::new(reason, place))
    } else {
        Ok(())
    }
}
