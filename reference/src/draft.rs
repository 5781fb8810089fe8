//! Day files under construction: a heading and records of any content, right or wrong.

use crate::format::{Failure, Fine, Heading, Interconnection, Item, Position, Price, Record, Reserve};
use crate::format::{GENERATION, LOAD};

#[derive(Clone, Debug)]
pub struct Draft {
    pub heading: Heading,
    pub records: Vec<Record>,
}

impl Draft {
    pub fn new(heading: Heading) -> Draft {
        Draft { heading, records: Vec::new() }
    }

    pub fn with(mut self, record: Record) -> Draft {
        self.records.push(record);
        self
    }

    pub fn with_all(mut self, records: impl IntoIterator<Item = Record>) -> Draft {
        self.records.extend(records);
        self
    }

    /// Heading and records, without an end record.
    pub fn body(&self) -> Vec<u8> {
        let mut bytes = self.heading.encode();
        for record in &self.records {
            bytes.extend(record.encode());
        }
        bytes
    }

    /// The count that a right end record has.
    pub fn count(&self) -> u16 {
        u16::try_from(1 + self.records.len()).expect("a draft has at most some thousand records")
    }

    /// The file with an end record that has this count.
    pub fn bytes_with_count(&self, count: u16) -> Vec<u8> {
        [self.body(), end(count)].concat()
    }

    /// The file with a right end record.
    pub fn bytes(&self) -> Vec<u8> {
        self.bytes_with_count(self.count())
    }
}

pub fn end(count: u16) -> Vec<u8> {
    Item::End { count }.encode()
}

pub fn price(node: u8, hour: u8, day_ahead: i32, real_time: i32) -> Record {
    Record::Price(Price { node, hour, day_ahead, real_time })
}

pub fn position(account: u8, node: u8, hour: u8, class: u8, day_ahead: u32, real_time: u32) -> Record {
    Record::Position(Position { account, node, hour, class, day_ahead, real_time })
}

pub fn generation(account: u8, node: u8, hour: u8, day_ahead: u32, real_time: u32) -> Record {
    position(account, node, hour, GENERATION, day_ahead, real_time)
}

pub fn load(account: u8, node: u8, hour: u8, day_ahead: u32, real_time: u32) -> Record {
    position(account, node, hour, LOAD, day_ahead, real_time)
}

/// An interconnection record with the energies [day-ahead export, import, real-time export, import].
pub fn exchange(number: u8, system: u8, node: u8, hour: u8, kwh: [u32; 4], price: i32) -> Record {
    Record::Interconnection(Interconnection {
        number,
        system,
        node,
        hour,
        day_ahead_export: kwh[0],
        day_ahead_import: kwh[1],
        real_time_export: kwh[2],
        real_time_import: kwh[3],
        price,
    })
}

/// A reserve with (price, kWh) of the day before and of real time.
pub fn reserve(
    account: u8,
    unit: u8,
    kind: u8,
    hour: u8,
    day_ahead: (u32, u32),
    real_time: (u32, u32),
) -> Record {
    Record::Reserve(Reserve {
        account,
        unit,
        kind,
        hour,
        day_ahead_price: day_ahead.0,
        day_ahead: day_ahead.1,
        real_time_price: real_time.0,
        real_time: real_time.1,
    })
}

pub fn failure(unit: u8, kind: u8) -> Record {
    Record::Failure(Failure { unit, kind })
}

pub fn fine(identifier: u32, account: u8, amount: u64) -> Record {
    Record::Fine(Fine { identifier, account, amount })
}
