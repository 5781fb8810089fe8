//! The book: the heading and the records of a day, each kind in the order of entry.

use crate::faults::{Fault, Reason};
use crate::format::{decode_end, decode_heading, decode_record, Mark, Reader, Record};
use crate::format::{Failure, Fine, Heading, Interconnection, Position, Price, Reserve};
use crate::kinds::Kind;

#[derive(Clone, Debug, PartialEq, Eq)]
pub struct Book {
    pub heading: Heading,
    pub prices: Vec<Price>,
    pub positions: Vec<Position>,
    pub interconnections: Vec<Interconnection>,
    pub reserves: Vec<Reserve>,
    pub failures: Vec<Failure>,
    pub fines: Vec<Fine>,
}

/// A position's key and its new reading, as correct is handed them.
#[derive(Clone, Copy, Debug, PartialEq, Eq)]
pub struct Correction {
    pub account: u8,
    pub node: u8,
    pub hour: u8,
    pub class: u8,
    pub kwh: u32,
}

/// The positions and interconnection records of a book, each with its price.
pub struct Priced<'a> {
    pub positions: Vec<(&'a Position, &'a Price)>,
    pub interconnections: Vec<(&'a Interconnection, &'a Price)>,
}

/// Why a table that holds these rows would not take this one.
fn row_refusal<K: Kind>(heading: &Heading, rows: &[K], row: &K) -> Option<Reason> {
    if !row.in_range() {
        Some(Reason::OutOfRange)
    } else if !row.within(heading) {
        Some(Reason::AboveHeading)
    } else if rows.iter().any(|other| other.key() == row.key()) {
        Some(Reason::KeyTaken)
    } else if rows.len() >= K::ROOM {
        Some(Reason::TableFull)
    } else {
        None
    }
}

fn enter_row<K: Kind>(heading: &Heading, rows: &mut Vec<K>, row: K) -> Result<(), Fault> {
    match row_refusal(heading, rows, &row) {
        Some(reason) => Err(reason.at(row.place())),
        None => {
            rows.push(row);
            Ok(())
        }
    }
}

/// Whether every row would have been taken after those before it.
fn rows_are_sound<K: Kind>(heading: &Heading, rows: &[K]) -> bool {
    rows.iter().enumerate().all(|(index, row)| row_refusal(heading, &rows[..index], row).is_none())
}

impl Book {
    fn empty(heading: Heading) -> Self {
        Book {
            heading,
            prices: Vec::new(),
            positions: Vec::new(),
            interconnections: Vec::new(),
            reserves: Vec::new(),
            failures: Vec::new(),
            fines: Vec::new(),
        }
    }

    /// An empty book from the bytes of a heading record.
    pub fn open(bytes: &[u8]) -> Result<Book, Fault> {
        decode_heading(bytes).map(Book::empty).map_err(Reason::nowhere)
    }

    /// Takes the record that the bytes are.
    pub fn enter(&mut self, bytes: &[u8]) -> Result<(), Fault> {
        let heading = &self.heading;
        match decode_record(bytes).map_err(Reason::nowhere)? {
            Record::Price(row) => enter_row(heading, &mut self.prices, row),
            Record::Position(row) => enter_row(heading, &mut self.positions, row),
            Record::Interconnection(row) => enter_row(heading, &mut self.interconnections, row),
            Record::Reserve(row) => enter_row(heading, &mut self.reserves, row),
            Record::Failure(row) => enter_row(heading, &mut self.failures, row),
            Record::Fine(row) => enter_row(heading, &mut self.fines, row),
        }
    }

    /// Asks whether the book may be closed with the end record that the bytes are.
    pub fn close(&self, bytes: &[u8]) -> Result<(), Fault> {
        let count = decode_end(bytes).map_err(Reason::nowhere)?;
        if usize::from(count) != 1 + self.records() {
            return Err(Reason::WrongCount.nowhere());
        }
        self.priced()?;
        Ok(())
    }

    /// The book of a whole file.
    pub fn load(file: &[u8]) -> Result<Book, Fault> {
        let mut reader = Reader::new(file);
        let mut book = Book::open(reader.next_record()?)?;
        loop {
            let offset = reader.offset();
            let record = reader.next_record()?;
            let here = |fault: Fault| fault.at_offset(offset);
            if Mark::first_of(record) != Ok(Mark::End) {
                book.enter(record).map_err(here)?;
            } else if reader.is_at_end() {
                book.close(record).map_err(here)?;
                return Ok(book);
            } else {
                return Err(here(Reason::WrongCount.nowhere()));
            }
        }
    }

    /// How many records of each kind there are.
    pub fn counts(&self) -> [usize; 6] {
        [
            self.prices.len(),
            self.positions.len(),
            self.interconnections.len(),
            self.reserves.len(),
            self.failures.len(),
            self.fines.len(),
        ]
    }

    fn records(&self) -> usize {
        self.counts().iter().sum()
    }

    /// Whether enter would have taken all its records in this order.
    pub fn is_sound(&self) -> bool {
        let heading = &self.heading;
        rows_are_sound(heading, &self.prices)
            && rows_are_sound(heading, &self.positions)
            && rows_are_sound(heading, &self.interconnections)
            && rows_are_sound(heading, &self.reserves)
            && rows_are_sound(heading, &self.failures)
            && rows_are_sound(heading, &self.fines)
    }

    fn price(&self, node: u8, hour: u8) -> Option<&Price> {
        self.prices.iter().find(|price| price.node == node && price.hour == hour)
    }

    /// Finds the price of every position and then of every interconnection record, in the order of entry.
    pub fn priced(&self) -> Result<Priced<'_>, Fault> {
        let positions = self
            .positions
            .iter()
            .map(|row| match self.price(row.node, row.hour) {
                Some(price) => Ok((row, price)),
                None => Err(Reason::NoPrice.at(row.place())),
            })
            .collect::<Result<_, _>>()?;
        let interconnections = self
            .interconnections
            .iter()
            .map(|row| match self.price(row.node, row.hour) {
                Some(price) => Ok((row, price)),
                None => Err(Reason::NoPrice.at(row.place())),
            })
            .collect::<Result<_, _>>()?;
        Ok(Priced { positions, interconnections })
    }

    /// Replaces the reading of one position.
    pub fn correct(&mut self, correction: Correction) -> Result<(), Fault> {
        // A position with the key and the reading asked for has just the ranges and limits that correct asks.
        let wanted = Position {
            account: correction.account,
            node: correction.node,
            hour: correction.hour,
            class: correction.class,
            day_ahead: 0,
            real_time: correction.kwh,
        };
        if !wanted.in_range() {
            return Err(Reason::OutOfRange.at(wanted.place()));
        }
        if !wanted.within(&self.heading) {
            return Err(Reason::AboveHeading.at(wanted.place()));
        }
        match self.positions.iter_mut().find(|row| row.key() == wanted.key()) {
            Some(row) => {
                row.real_time = correction.kwh;
                Ok(())
            }
            None => Err(Reason::NoPosition.at(wanted.place())),
        }
    }
}
