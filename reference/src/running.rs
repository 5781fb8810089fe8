//! The program running-day: a day file to its statement, or to the line of its refusal.

use crate::day::Day;
use crate::faults::Fault;
use crate::sharing::Rule;

/// Room for a note in every cell, and for its text.
const LEDGER_ENTRIES: usize = 532;
const BUFFER_BYTES: usize = 14_392;

fn first_statement(file: &[u8]) -> Result<String, Fault> {
    let mut day = Day::load(file, LEDGER_ENTRIES)?;
    day.settle(Rule::Running)?;
    day.issue()?;
    day.statement(0, BUFFER_BYTES)
}

pub fn running_day(file: &[u8]) -> String {
    match first_statement(file) {
        Ok(text) => text,
        Err(fault) => format!("{fault}\n"),
    }
}
