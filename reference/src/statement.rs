//! The text of an issue.

use std::fmt::Write;

use crate::amounts::{Code, Party};
use crate::format::Heading;
use crate::ledger::Note;

/// The side of an amount, and the amount without its sign.
fn side_and_magnitude(amount: i128) -> (char, i128) {
    if amount < 0 {
        ('C', -amount)
    } else {
        ('P', amount)
    }
}

/// The line of a note, or of a cell of a sheet, with its line end.
pub fn amount_line(code: Code, party: Party, amount: i128) -> String {
    let (side, magnitude) = side_and_magnitude(amount);
    format!("{code} {party} {side} {magnitude}\n")
}

pub fn end_line(count: usize) -> String {
    format!("END {count}\n")
}

/// The statement with these notes.
pub fn text<'a>(heading: &Heading, issue: u8, notes: impl Iterator<Item = &'a Note>) -> String {
    let Heading { year, month, day, hours, .. } = heading;
    let mut text = String::new();
    writeln!(text, "DAY {year:04}-{month:02}-{day:02} {hours} {issue}")
        .expect("a string can always be written to");
    let mut count = 0;
    for note in notes {
        text += &amount_line(note.code, note.party, note.amount);
        count += 1;
    }
    text + &end_line(count)
}

#[cfg(test)]
mod tests {
    use super::*;

    #[test]
    fn sides() {
        assert_eq!(side_and_magnitude(150_000_000), ('P', 150_000_000));
        assert_eq!(side_and_magnitude(1), ('P', 1));
        assert_eq!(side_and_magnitude(0), ('P', 0));
        assert_eq!(side_and_magnitude(-1), ('C', 1));
        assert_eq!(side_and_magnitude(-333_333), ('C', 333_333));
    }
}
