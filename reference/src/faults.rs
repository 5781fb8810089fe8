//! Why a call is refused, and the place that the refusal is about.

use std::fmt;

/// The sixteen reasons. The number of a reason is its discriminant.
#[derive(Clone, Copy, Debug, PartialEq, Eq)]
pub enum Reason {
    UnsoundMemory = 1,
    UnknownMark = 2,
    WrongLength = 3,
    UnexpectedMark = 4,
    OutOfRange = 5,
    AboveHeading = 6,
    KeyTaken = 7,
    TableFull = 8,
    WrongCount = 9,
    NoPrice = 10,
    NoPurchases = 11,
    NoPosition = 12,
    LedgerFull = 13,
    NoIssueLeft = 14,
    BufferTooShort = 15,
    NotShareable = 16,
}

impl Reason {
    pub fn number(self) -> u8 {
        self as u8
    }

    /// 1 file, 2 book, 3 settlement, 4 issue, 5 rule.
    pub fn layer(self) -> u8 {
        match self {
            Reason::UnknownMark | Reason::WrongLength => 1,
            Reason::UnsoundMemory
            | Reason::UnexpectedMark
            | Reason::OutOfRange
            | Reason::AboveHeading
            | Reason::KeyTaken
            | Reason::TableFull
            | Reason::WrongCount
            | Reason::NoPrice
            | Reason::NoPosition => 2,
            Reason::NoPurchases => 3,
            Reason::LedgerFull | Reason::NoIssueLeft | Reason::BufferTooShort => 4,
            Reason::NotShareable => 5,
        }
    }

    /// A fault with this reason and no place.
    pub fn nowhere(self) -> Fault {
        self.at(Place::default())
    }

    pub fn at(self, place: Place) -> Fault {
        Fault { reason: self, place }
    }
}

/// What a fault is about; a number that it does not have is 0.
#[derive(Clone, Copy, Debug, Default, PartialEq, Eq)]
pub struct Place {
    pub offset: usize,
    pub account: u8,
    pub node: u8,
    pub hour: u8,
}

#[derive(Clone, Copy, Debug, PartialEq, Eq)]
pub struct Fault {
    pub reason: Reason,
    pub place: Place,
}

impl Fault {
    /// The same fault, found in the record at this offset of a file.
    pub fn at_offset(mut self, offset: usize) -> Fault {
        self.place.offset = offset;
        self
    }
}

/// The line of a refusal, without its line end.
impl fmt::Display for Fault {
    fn fmt(&self, f: &mut fmt::Formatter) -> fmt::Result {
        let Place { offset, account, node, hour } = self.place;
        write!(f, "REFUSED {} {} {offset} {account} {node} {hour}", self.reason.number(), self.reason.layer())
    }
}
