//! Codes, parties, tables of amounts, and what an hour and a day give before anything is shared.
//!
//! An amount is a whole number of mils; above 0 the party is paid, below 0 it is charged.

use std::collections::BTreeMap;
use std::fmt;

use crate::book::{Book, Priced};
use crate::format::{Interconnection, Position, Reserve};
use crate::format::{EXPORT, GENERATION, IMPORT, LOAD};

const MILS_PER_CENTAVO: i128 = 1000;

/// The fourteen codes in their order.
#[derive(Clone, Copy, Debug, PartialEq, Eq, PartialOrd, Ord)]
pub enum Code {
    A1,
    A2,
    A3,
    A4,
    B1,
    B2,
    B3,
    B4,
    F1,
    F2,
    F3,
    F4,
    F5,
    F6,
}

impl Code {
    pub const ALL: [Code; 14] = [
        Code::A1,
        Code::A2,
        Code::A3,
        Code::A4,
        Code::B1,
        Code::B2,
        Code::B3,
        Code::B4,
        Code::F1,
        Code::F2,
        Code::F3,
        Code::F4,
        Code::F5,
        Code::F6,
    ];
}

impl fmt::Display for Code {
    fn fmt(&self, f: &mut fmt::Formatter) -> fmt::Result {
        fmt::Debug::fmt(self, f)
    }
}

/// A party by its number; parties are ordered by it.
#[derive(Clone, Copy, Debug, PartialEq, Eq, PartialOrd, Ord)]
pub struct Party(u8);

impl Party {
    pub const WORKING_CAPITAL_FUND: Party = Party(51);
    pub const UNIVERSAL_SERVICE_FUND: Party = Party(52);

    pub fn account(number: u8) -> Party {
        Party(number)
    }

    pub fn external_system(number: u8) -> Party {
        Party(40 + number)
    }

    /// All 38 parties in order.
    pub fn all() -> impl Iterator<Item = Party> {
        (1..=32).chain(41..=44).chain(51..=52).map(Party)
    }
}

impl fmt::Display for Party {
    fn fmt(&self, f: &mut fmt::Formatter) -> fmt::Result {
        self.0.fmt(f)
    }
}

/// An amount for every code and every party.
#[derive(Clone, Debug, PartialEq, Eq)]
pub struct Table(BTreeMap<(Code, Party), i128>);

impl Table {
    /// The table whose 532 cells are all 0.
    pub fn zero() -> Table {
        let pairs = Code::ALL.into_iter().flat_map(|code| Party::all().map(move |party| (code, party)));
        Table(pairs.map(|pair| (pair, 0)).collect())
    }

    pub fn add(&mut self, code: Code, party: Party, amount: i128) {
        *self.0.get_mut(&(code, party)).expect("a table has a cell for every code and party") += amount;
    }

    pub fn add_table(&mut self, other: &Table) {
        for (code, party, amount) in other.cells() {
            self.add(code, party, amount);
        }
    }

    /// Every cell, by code and then by party.
    pub fn cells(&self) -> impl Iterator<Item = (Code, Party, i128)> + '_ {
        self.0.iter().map(|(&(code, party), &amount)| (code, party, amount))
    }

    /// The sum of a code over all parties.
    pub fn sum_of(&self, code: Code) -> i128 {
        self.cells().filter(|cell| cell.0 == code).map(|cell| cell.2).sum()
    }
}

impl Position {
    /// +1 where energy is sold, -1 where it is bought.
    fn sign(&self) -> i128 {
        match self.class {
            GENERATION | IMPORT => 1,
            _ => -1,
        }
    }

    fn deviation(&self) -> i128 {
        i128::from(self.real_time) - i128::from(self.day_ahead)
    }

    /// What counts as a physical purchase.
    fn purchase(&self) -> i128 {
        match self.class {
            LOAD | EXPORT => i128::from(self.real_time),
            _ => 0,
        }
    }
}

impl Interconnection {
    fn day_ahead_net_export(&self) -> i128 {
        i128::from(self.day_ahead_export) - i128::from(self.day_ahead_import)
    }

    fn real_time_net_export(&self) -> i128 {
        i128::from(self.real_time_export) - i128::from(self.real_time_import)
    }

    /// What the external system is due for the imbalance energy.
    fn imbalance_amount(&self) -> i128 {
        i128::from(self.price) * self.real_time_net_export()
    }
}

impl Reserve {
    fn day_ahead_amount(&self) -> i128 {
        i128::from(self.day_ahead_price) * i128::from(self.day_ahead)
    }

    fn deviation_amount(&self) -> i128 {
        i128::from(self.real_time_price) * (i128::from(self.real_time) - i128::from(self.day_ahead))
    }
}

/// What one hour gives before its shared amounts are shared.
pub struct HourAmounts {
    /// A1, A3, B1, B3 of the accounts and F2 of the external systems; all other cells are 0.
    pub own: Table,
    /// The physical purchases of each account of the heading, account 1 first.
    pub weights: Vec<i128>,
    /// The five shared codes, each with the amount that it shares.
    pub shared: [(Code, i128); 5],
}

impl HourAmounts {
    pub fn of(book: &Book, priced: &Priced, hour: u8) -> HourAmounts {
        let mut own = Table::zero();
        let mut weights = vec![0; usize::from(book.heading.accounts)];

        for (position, price) in priced.positions.iter().filter(|(p, _)| p.hour == hour) {
            let party = Party::account(position.account);
            let day_ahead_price = i128::from(price.day_ahead);
            let real_time_price = i128::from(price.real_time);
            let sign = position.sign();
            own.add(Code::A1, party, sign * day_ahead_price * i128::from(position.day_ahead));
            own.add(Code::B1, party, sign * real_time_price * position.deviation());
            weights[usize::from(position.account) - 1] += position.purchase();
        }

        for reserve in book.reserves.iter().filter(|r| r.hour == hour) {
            let party = Party::account(reserve.account);
            own.add(Code::A3, party, reserve.day_ahead_amount());
            own.add(Code::B3, party, reserve.deviation_amount());
        }

        let mut exchange_day_ahead = 0;
        let mut exchange_deviation = 0;
        let mut imbalance_value = 0;
        for (exchange, price) in priced.interconnections.iter().filter(|(x, _)| x.hour == hour) {
            let day_ahead_price = i128::from(price.day_ahead);
            let real_time_price = i128::from(price.real_time);
            let day_ahead_net = exchange.day_ahead_net_export();
            let real_time_net = exchange.real_time_net_export();
            exchange_day_ahead += day_ahead_price * day_ahead_net;
            exchange_deviation += real_time_price * (real_time_net - day_ahead_net);
            imbalance_value += day_ahead_price * day_ahead_net + real_time_price * real_time_net
                - real_time_price * day_ahead_net
                - exchange.imbalance_amount();
            own.add(Code::F2, Party::external_system(exchange.system), -exchange.imbalance_amount());
        }

        let shared = [
            (Code::A2, exchange_day_ahead - own.sum_of(Code::A1)),
            (Code::A4, -own.sum_of(Code::A3)),
            (Code::B2, exchange_deviation - own.sum_of(Code::B1)),
            (Code::B4, -own.sum_of(Code::B3)),
            (Code::F1, -imbalance_value),
        ];
        HourAmounts { own, weights, shared }
    }

    /// Whether there is an amount to share and nobody who bought.
    pub fn lacks_purchases(&self) -> bool {
        self.weights.iter().all(|&weight| weight == 0) && self.shared.iter().any(|&(_, amount)| amount != 0)
    }
}

/// F3 to F6: penalties and fines.
pub fn day_items(book: &Book) -> Table {
    let mut table = Table::zero();
    for failure in &book.failures {
        for account in 1..=book.heading.accounts {
            let earned: i128 = book
                .reserves
                .iter()
                .filter(|r| r.account == account && r.unit == failure.unit && r.kind == failure.kind)
                .map(|r| r.day_ahead_amount() + r.deviation_amount())
                .sum();
            let penalty = earned.max(0);
            table.add(Code::F3, Party::account(account), -penalty);
            table.add(Code::F4, Party::WORKING_CAPITAL_FUND, penalty);
        }
    }
    for fine in &book.fines {
        let amount = i128::from(fine.amount) * MILS_PER_CENTAVO;
        table.add(Code::F5, Party::account(fine.account), -amount);
        table.add(Code::F6, Party::UNIVERSAL_SERVICE_FUND, amount);
    }
    table
}
