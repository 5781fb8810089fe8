//! The day file in bytes: marks, the fields of each record, cutting a file into records, and encoding.
//!
//! A decoded record holds its fields as they stand, whatever they are. Whether they are in range is asked elsewhere.

use crate::faults::{Fault, Reason};

#[derive(Clone, Copy, Debug, PartialEq, Eq)]
pub enum Mark {
    Heading,
    Price,
    Position,
    Interconnection,
    Reserve,
    Failure,
    Fine,
    End,
}

impl Mark {
    pub const ALL: [Mark; 8] = [
        Mark::Heading,
        Mark::Price,
        Mark::Position,
        Mark::Interconnection,
        Mark::Reserve,
        Mark::Failure,
        Mark::Fine,
        Mark::End,
    ];

    pub fn letters(self) -> &'static [u8; 2] {
        match self {
            Mark::Heading => b"DY",
            Mark::Price => b"PN",
            Mark::Position => b"EN",
            Mark::Interconnection => b"IX",
            Mark::Reserve => b"RS",
            Mark::Failure => b"FT",
            Mark::Fine => b"MU",
            Mark::End => b"ZZ",
        }
    }

    /// How long a record with this mark is, the mark included.
    pub fn length(self) -> usize {
        match self {
            Mark::Heading => 10,
            Mark::Price => 12,
            Mark::Position => 14,
            Mark::Interconnection => 26,
            Mark::Reserve => 22,
            Mark::Failure => 4,
            Mark::Fine => 15,
            Mark::End => 4,
        }
    }

    /// The mark that the bytes begin with.
    pub fn first_of(bytes: &[u8]) -> Result<Mark, Reason> {
        Mark::ALL.into_iter().find(|mark| bytes.starts_with(mark.letters())).ok_or(Reason::UnknownMark)
    }
}

#[derive(Clone, Copy, Debug, PartialEq, Eq)]
pub struct Heading {
    pub year: u16,
    pub month: u8,
    pub day: u8,
    pub hours: u8,
    pub accounts: u8,
    pub nodes: u8,
    pub interconnections: u8,
}

#[derive(Clone, Copy, Debug, PartialEq, Eq)]
pub struct Price {
    pub node: u8,
    pub hour: u8,
    pub day_ahead: i32,
    pub real_time: i32,
}

pub const GENERATION: u8 = 1;
pub const LOAD: u8 = 2;
pub const IMPORT: u8 = 3;
pub const EXPORT: u8 = 4;

#[derive(Clone, Copy, Debug, PartialEq, Eq)]
pub struct Position {
    pub account: u8,
    pub node: u8,
    pub hour: u8,
    pub class: u8,
    pub day_ahead: u32,
    pub real_time: u32,
}

#[derive(Clone, Copy, Debug, PartialEq, Eq)]
pub struct Interconnection {
    pub number: u8,
    pub system: u8,
    pub node: u8,
    pub hour: u8,
    pub day_ahead_export: u32,
    pub day_ahead_import: u32,
    pub real_time_export: u32,
    pub real_time_import: u32,
    pub price: i32,
}

#[derive(Clone, Copy, Debug, PartialEq, Eq)]
pub struct Reserve {
    pub account: u8,
    pub unit: u8,
    pub kind: u8,
    pub hour: u8,
    pub day_ahead_price: u32,
    pub day_ahead: u32,
    pub real_time_price: u32,
    pub real_time: u32,
}

#[derive(Clone, Copy, Debug, PartialEq, Eq)]
pub struct Failure {
    pub unit: u8,
    pub kind: u8,
}

#[derive(Clone, Copy, Debug, PartialEq, Eq)]
pub struct Fine {
    pub identifier: u32,
    pub account: u8,
    pub amount: u64,
}

/// A record of one of the six kinds that stand between heading and end.
#[derive(Clone, Copy, Debug, PartialEq, Eq)]
pub enum Record {
    Price(Price),
    Position(Position),
    Interconnection(Interconnection),
    Reserve(Reserve),
    Failure(Failure),
    Fine(Fine),
}

/// Any record of a file.
#[derive(Clone, Copy, Debug, PartialEq, Eq)]
pub enum Item {
    Heading(Heading),
    Record(Record),
    End { count: u16 },
}

/// The fields of a record, read one after the other.
struct Fields<'a>(&'a [u8]);

impl Fields<'_> {
    fn take<const N: usize>(&mut self) -> [u8; N] {
        let (field, rest) =
            self.0.split_first_chunk().expect("the length of the record was asked before its fields");
        self.0 = rest;
        *field
    }

    fn u8(&mut self) -> u8 {
        u8::from_be_bytes(self.take())
    }

    fn u16(&mut self) -> u16 {
        u16::from_be_bytes(self.take())
    }

    fn u32(&mut self) -> u32 {
        u32::from_be_bytes(self.take())
    }

    fn i32(&mut self) -> i32 {
        i32::from_be_bytes(self.take())
    }

    fn u64(&mut self) -> u64 {
        u64::from_be_bytes(self.take())
    }
}

impl Item {
    /// The record that these bytes are, no byte more or less.
    pub fn decode(bytes: &[u8]) -> Result<Item, Reason> {
        let mark = Mark::first_of(bytes)?;
        if bytes.len() != mark.length() {
            return Err(Reason::WrongLength);
        }
        let mut fields = Fields(&bytes[2..]);
        // The fields of a struct expression are evaluated in the order in which they are written.
        Ok(match mark {
            Mark::Heading => Item::Heading(Heading {
                year: fields.u16(),
                month: fields.u8(),
                day: fields.u8(),
                hours: fields.u8(),
                accounts: fields.u8(),
                nodes: fields.u8(),
                interconnections: fields.u8(),
            }),
            Mark::Price => Item::Record(Record::Price(Price {
                node: fields.u8(),
                hour: fields.u8(),
                day_ahead: fields.i32(),
                real_time: fields.i32(),
            })),
            Mark::Position => Item::Record(Record::Position(Position {
                account: fields.u8(),
                node: fields.u8(),
                hour: fields.u8(),
                class: fields.u8(),
                day_ahead: fields.u32(),
                real_time: fields.u32(),
            })),
            Mark::Interconnection => Item::Record(Record::Interconnection(Interconnection {
                number: fields.u8(),
                system: fields.u8(),
                node: fields.u8(),
                hour: fields.u8(),
                day_ahead_export: fields.u32(),
                day_ahead_import: fields.u32(),
                real_time_export: fields.u32(),
                real_time_import: fields.u32(),
                price: fields.i32(),
            })),
            Mark::Reserve => Item::Record(Record::Reserve(Reserve {
                account: fields.u8(),
                unit: fields.u8(),
                kind: fields.u8(),
                hour: fields.u8(),
                day_ahead_price: fields.u32(),
                day_ahead: fields.u32(),
                real_time_price: fields.u32(),
                real_time: fields.u32(),
            })),
            Mark::Failure => Item::Record(Record::Failure(Failure { unit: fields.u8(), kind: fields.u8() })),
            Mark::Fine => Item::Record(Record::Fine(Fine {
                identifier: fields.u32(),
                account: fields.u8(),
                amount: fields.u64(),
            })),
            Mark::End => Item::End { count: fields.u16() },
        })
    }

    pub fn encode(&self) -> Vec<u8> {
        match self {
            Item::Heading(heading) => heading.encode(),
            Item::Record(record) => record.encode(),
            Item::End { count } => [&Mark::End.letters()[..], &count.to_be_bytes()].concat(),
        }
    }
}

/// Decodes a heading record and nothing else.
pub fn decode_heading(bytes: &[u8]) -> Result<Heading, Reason> {
    match Item::decode(bytes)? {
        Item::Heading(heading) if heading.is_real() => Ok(heading),
        Item::Heading(_) => Err(Reason::OutOfRange),
        _ => Err(Reason::UnexpectedMark),
    }
}

/// Decodes a record of one of the six kinds and nothing else.
pub fn decode_record(bytes: &[u8]) -> Result<Record, Reason> {
    match Item::decode(bytes)? {
        Item::Record(record) => Ok(record),
        _ => Err(Reason::UnexpectedMark),
    }
}

/// Decodes an end record and nothing else; gives its count.
pub fn decode_end(bytes: &[u8]) -> Result<u16, Reason> {
    match Item::decode(bytes)? {
        Item::End { count } => Ok(count),
        _ => Err(Reason::UnexpectedMark),
    }
}

impl Heading {
    /// Whether the date exists and every number is in its range.
    pub fn is_real(&self) -> bool {
        (2016..=2099).contains(&self.year)
            && (1..=12).contains(&self.month)
            && (1..=days_in_month(self.year, self.month)).contains(&self.day)
            && (23..=25).contains(&self.hours)
            && (1..=32).contains(&self.accounts)
            && (1..=16).contains(&self.nodes)
            && self.interconnections <= 8
    }

    pub fn encode(&self) -> Vec<u8> {
        let mut bytes = Mark::Heading.letters().to_vec();
        bytes.extend(self.year.to_be_bytes());
        bytes.extend([self.month, self.day, self.hours, self.accounts, self.nodes, self.interconnections]);
        bytes
    }
}

fn is_leap(year: u16) -> bool {
    year % 4 == 0 && (year % 100 != 0 || year % 400 == 0)
}

/// How many days the month has; none if there is no such month.
pub fn days_in_month(year: u16, month: u8) -> u8 {
    match month {
        1 | 3 | 5 | 7 | 8 | 10 | 12 => 31,
        4 | 6 | 9 | 11 => 30,
        2 if is_leap(year) => 29,
        2 => 28,
        _ => 0,
    }
}

impl Record {
    pub fn mark(&self) -> Mark {
        match self {
            Record::Price(_) => Mark::Price,
            Record::Position(_) => Mark::Position,
            Record::Interconnection(_) => Mark::Interconnection,
            Record::Reserve(_) => Mark::Reserve,
            Record::Failure(_) => Mark::Failure,
            Record::Fine(_) => Mark::Fine,
        }
    }

    pub fn encode(&self) -> Vec<u8> {
        let mut bytes = self.mark().letters().to_vec();
        match self {
            Record::Price(p) => {
                bytes.extend([p.node, p.hour]);
                bytes.extend(p.day_ahead.to_be_bytes());
                bytes.extend(p.real_time.to_be_bytes());
            }
            Record::Position(p) => {
                bytes.extend([p.account, p.node, p.hour, p.class]);
                bytes.extend(p.day_ahead.to_be_bytes());
                bytes.extend(p.real_time.to_be_bytes());
            }
            Record::Interconnection(x) => {
                bytes.extend([x.number, x.system, x.node, x.hour]);
                bytes.extend(x.day_ahead_export.to_be_bytes());
                bytes.extend(x.day_ahead_import.to_be_bytes());
                bytes.extend(x.real_time_export.to_be_bytes());
                bytes.extend(x.real_time_import.to_be_bytes());
                bytes.extend(x.price.to_be_bytes());
            }
            Record::Reserve(r) => {
                bytes.extend([r.account, r.unit, r.kind, r.hour]);
                bytes.extend(r.day_ahead_price.to_be_bytes());
                bytes.extend(r.day_ahead.to_be_bytes());
                bytes.extend(r.real_time_price.to_be_bytes());
                bytes.extend(r.real_time.to_be_bytes());
            }
            Record::Failure(f) => bytes.extend([f.unit, f.kind]),
            Record::Fine(f) => {
                bytes.extend(f.identifier.to_be_bytes());
                bytes.push(f.account);
                bytes.extend(f.amount.to_be_bytes());
            }
        }
        bytes
    }
}

/// A file that is cut into records, each by its mark's length.
pub struct Reader<'a> {
    file: &'a [u8],
    offset: usize,
}

impl<'a> Reader<'a> {
    pub fn new(file: &'a [u8]) -> Self {
        Reader { file, offset: 0 }
    }

    /// Where the next record is due.
    pub fn offset(&self) -> usize {
        self.offset
    }

    /// The bytes of the next record, which the reader then stands behind.
    pub fn next_record(&mut self) -> Result<&'a [u8], Fault> {
        let rest = &self.file[self.offset..];
        let refuse = |reason: Reason| reason.nowhere().at_offset(self.offset);
        let mark = Mark::first_of(rest).map_err(refuse)?;
        let record = rest.get(..mark.length()).ok_or_else(|| refuse(Reason::WrongLength))?;
        self.offset += mark.length();
        Ok(record)
    }

    pub fn is_at_end(&self) -> bool {
        self.offset == self.file.len()
    }
}
