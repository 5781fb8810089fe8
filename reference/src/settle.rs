//! The sheet of an hour and the table of a day under a sharing rule.

use crate::amounts::{day_items, HourAmounts, Party, Table};
use crate::book::{Book, Priced};
use crate::faults::{Fault, Place, Reason};
use crate::sharing::Rule;

/// The sheet of an hour from 1 to the heading's hours.
fn hour_sheet(book: &Book, priced: &Priced, hour: u8, rule: Rule) -> Result<Table, Fault> {
    let amounts = HourAmounts::of(book, priced, hour);
    if amounts.lacks_purchases() {
        return Err(Reason::NoPurchases.at(Place { hour, ..Place::default() }));
    }
    let mut table = amounts.own;
    for (code, amount) in amounts.shared {
        let parts = rule.share(amount, &amounts.weights)?;
        for (account, part) in (1..).zip(parts) {
            table.add(code, Party::account(account), part);
        }
    }
    Ok(table)
}

/// The sheet of any hour that is asked for.
pub fn sheet(book: &Book, hour: u8, rule: Rule) -> Result<Table, Fault> {
    let place = Place { hour, ..Place::default() };
    if hour == 0 {
        return Err(Reason::OutOfRange.at(place));
    }
    if hour > book.heading.hours {
        return Err(Reason::AboveHeading.at(place));
    }
    hour_sheet(book, &book.priced()?, hour, rule)
}

/// The table of the day: the sheets of all hours and the day items.
pub fn day_table(book: &Book, rule: Rule) -> Result<Table, Fault> {
    let priced = book.priced()?;
    let mut table = day_items(book);
    for hour in 1..=book.heading.hours {
        table.add_table(&hour_sheet(book, &priced, hour, rule)?);
    }
    Ok(table)
}
