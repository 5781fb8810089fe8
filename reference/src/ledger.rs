//! Notes, and the ledger that issues add them to.

use crate::amounts::{Code, Party, Table};
use crate::faults::{Fault, Reason};

/// The largest magnitude that a note or a cell of sound memory has.
pub const MOST_SOUND: i128 = 100_000_000_000_000_000;

#[derive(Clone, Copy, Debug, PartialEq, Eq)]
pub struct Note {
    pub issue: u8,
    pub code: Code,
    pub party: Party,
    pub amount: i128,
}

/// The notes of all issues in order, and how many entries there is room for.
#[derive(Clone, Debug)]
pub struct Ledger {
    pub notes: Vec<Note>,
    pub entries: usize,
}

impl Ledger {
    pub fn empty(entries: usize) -> Ledger {
        Ledger { notes: Vec::new(), entries }
    }

    fn noted(&self, code: Code, party: Party) -> i128 {
        self.notes
            .iter()
            .filter(|note| note.code == code && note.party == party)
            .map(|note| note.amount)
            .sum()
    }

    /// Adds a note wherever the table differs from the notes so far; answers how many were added.
    pub fn issue(&mut self, table: &Table, issue: u8) -> Result<usize, Fault> {
        let added: Vec<Note> = table
            .cells()
            .map(|(code, party, cell)| Note { issue, code, party, amount: cell - self.noted(code, party) })
            .filter(|note| note.amount != 0)
            .collect();
        if added.len() > self.entries - self.notes.len() {
            return Err(Reason::LedgerFull.nowhere());
        }
        self.notes.extend(&added);
        Ok(added.len())
    }

    pub fn notes_of(&self, issue: u8) -> impl Iterator<Item = &Note> {
        self.notes.iter().filter(move |note| note.issue == issue)
    }

    /// Whether the notes are such as these issues could have left.
    pub fn is_sound(&self, issues_made: u8) -> bool {
        let order = |note: &Note| (note.issue, note.code, note.party);
        self.notes.len() <= self.entries
            && self
                .notes
                .iter()
                .all(|note| note.amount != 0 && note.amount.abs() <= MOST_SOUND && note.issue < issues_made)
            && self.notes.windows(2).all(|pair| order(&pair[0]) < order(&pair[1]))
    }
}
