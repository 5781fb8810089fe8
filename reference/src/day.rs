//! The life of a day: its states and the ten calls.
//!
//! A day owns the memory that it works on. It tests that memory at every call all the same; since nothing else can
//! write to it, reason 1 should never come.

use crate::amounts::Table;
use crate::book::{Book, Correction};
use crate::faults::{Fault, Reason};
use crate::format::Heading;
use crate::ledger::{Ledger, MOST_SOUND};
use crate::settle;
use crate::sharing::Rule;
use crate::statement;

const ISSUES: u8 = 4;

#[derive(Clone, Copy, Debug, PartialEq, Eq)]
pub enum State {
    Open,
    Closed,
    Settled,
    Issued,
}

#[derive(Clone, Debug)]
pub struct Day {
    state: State,
    heading: Heading,
    counts: [usize; 6],
    note_count: usize,
    issues_made: u8,
    book: Book,
    table: Table,
    ledger: Ledger,
}

impl Day {
    fn new(state: State, book: Book, ledger_entries: usize) -> Day {
        Day {
            state,
            heading: book.heading,
            counts: book.counts(),
            note_count: 0,
            issues_made: 0,
            book,
            table: Table::zero(),
            ledger: Ledger::empty(ledger_entries),
        }
    }

    pub fn open(bytes: &[u8], ledger_entries: usize) -> Result<Day, Fault> {
        Ok(Day::new(State::Open, Book::open(bytes)?, ledger_entries))
    }

    pub fn load(file: &[u8], ledger_entries: usize) -> Result<Day, Fault> {
        Ok(Day::new(State::Closed, Book::load(file)?, ledger_entries))
    }

    pub fn state(&self) -> State {
        self.state
    }

    fn is_sound(&self) -> bool {
        self.book.heading == self.heading
            && self.book.counts() == self.counts
            && self.book.is_sound()
            && self.table.cells().all(|(_, _, amount)| amount.abs() <= MOST_SOUND)
            && self.ledger.notes.len() == self.note_count
            && self.ledger.is_sound(self.issues_made)
    }

    fn ask_sound(&self) -> Result<(), Fault> {
        if self.is_sound() {
            Ok(())
        } else {
            Err(Reason::UnsoundMemory.nowhere())
        }
    }

    pub fn enter(&mut self, bytes: &[u8]) -> Result<(), Fault> {
        self.ask_sound()?;
        self.book.enter(bytes)?;
        self.counts = self.book.counts();
        Ok(())
    }

    pub fn close(&mut self, bytes: &[u8]) -> Result<(), Fault> {
        self.ask_sound()?;
        self.book.close(bytes)?;
        self.state = State::Closed;
        Ok(())
    }

    pub fn correct(&mut self, correction: Correction) -> Result<(), Fault> {
        self.ask_sound()?;
        self.book.correct(correction)
    }

    pub fn settle(&mut self, rule: Rule) -> Result<(), Fault> {
        self.ask_sound()?;
        self.table = settle::day_table(&self.book, rule)?;
        self.state = State::Settled;
        Ok(())
    }

    pub fn sheet(&self, hour: u8, rule: Rule) -> Result<Table, Fault> {
        self.ask_sound()?;
        settle::sheet(&self.book, hour, rule)
    }

    /// Answers how many notes were added.
    pub fn issue(&mut self) -> Result<usize, Fault> {
        self.ask_sound()?;
        let added = self.ledger.issue(&self.table, self.issues_made)?;
        self.note_count += added;
        self.issues_made += 1;
        self.state = State::Issued;
        Ok(added)
    }

    /// The text of an issue, for a buffer of this many bytes.
    pub fn statement(&self, issue: u8, buffer: usize) -> Result<String, Fault> {
        self.ask_sound()?;
        if issue >= self.issues_made {
            return Err(Reason::OutOfRange.nowhere());
        }
        let text = statement::text(&self.heading, issue, self.ledger.notes_of(issue));
        if text.len() > buffer {
            return Err(Reason::BufferTooShort.nowhere());
        }
        Ok(text)
    }

    pub fn reopen(&mut self) -> Result<(), Fault> {
        self.ask_sound()?;
        if self.issues_made >= ISSUES {
            return Err(Reason::NoIssueLeft.nowhere());
        }
        self.state = State::Closed;
        Ok(())
    }
}
