//! The six kinds of records: key, room, ranges, limits of the heading, and the place that a refused one names.

use crate::faults::Place;
use crate::format::{Failure, Fine, Heading, Interconnection, Position, Price, Reserve};
use crate::format::{EXPORT, GENERATION, IMPORT, LOAD};

pub const MOST_KWH: u32 = 2_000_000;
pub const MOST_PRICE: i32 = 10_000_000;
pub const MOST_RESERVE_PRICE: u32 = 10_000_000;
pub const MOST_FINE: u64 = 1_000_000_000_000;
pub const UNITS: u8 = 64;
pub const RESERVE_KINDS: u8 = 5;
pub const SYSTEMS: u8 = 4;

/// A record of one kind, as a book takes it.
pub trait Kind {
    /// No two records of the kind agree in it.
    type Key: PartialEq;

    /// How many records of the kind a book holds at most.
    const ROOM: usize;

    fn key(&self) -> Self::Key;

    /// Whether every field is in its range, whatever the heading says.
    fn in_range(&self) -> bool;

    /// Whether the numbers that the heading counts are within its counts.
    fn within(&self, heading: &Heading) -> bool;

    fn place(&self) -> Place;
}

fn is_price(price: i32) -> bool {
    (-MOST_PRICE..=MOST_PRICE).contains(&price)
}

impl Kind for Price {
    type Key = (u8, u8);
    const ROOM: usize = 400;

    fn key(&self) -> Self::Key {
        (self.node, self.hour)
    }

    fn in_range(&self) -> bool {
        self.node >= 1 && self.hour >= 1 && is_price(self.day_ahead) && is_price(self.real_time)
    }

    fn within(&self, heading: &Heading) -> bool {
        self.node <= heading.nodes && self.hour <= heading.hours
    }

    fn place(&self) -> Place {
        Place { node: self.node, hour: self.hour, ..Place::default() }
    }
}

impl Kind for Position {
    type Key = (u8, u8, u8, u8);
    const ROOM: usize = 1000;

    fn key(&self) -> Self::Key {
        (self.account, self.node, self.hour, self.class)
    }

    fn in_range(&self) -> bool {
        self.account >= 1
            && self.node >= 1
            && self.hour >= 1
            && matches!(self.class, GENERATION | LOAD | IMPORT | EXPORT)
            && self.day_ahead <= MOST_KWH
            && self.real_time <= MOST_KWH
    }

    fn within(&self, heading: &Heading) -> bool {
        self.account <= heading.accounts && self.node <= heading.nodes && self.hour <= heading.hours
    }

    fn place(&self) -> Place {
        Place { account: self.account, node: self.node, hour: self.hour, ..Place::default() }
    }
}

impl Kind for Interconnection {
    type Key = (u8, u8);
    const ROOM: usize = 200;

    fn key(&self) -> Self::Key {
        (self.number, self.hour)
    }

    fn in_range(&self) -> bool {
        self.number >= 1
            && (1..=SYSTEMS).contains(&self.system)
            && self.node >= 1
            && self.hour >= 1
            && self.day_ahead_export <= MOST_KWH
            && self.day_ahead_import <= MOST_KWH
            && self.real_time_export <= MOST_KWH
            && self.real_time_import <= MOST_KWH
            && is_price(self.price)
    }

    fn within(&self, heading: &Heading) -> bool {
        self.number <= heading.interconnections && self.node <= heading.nodes && self.hour <= heading.hours
    }

    fn place(&self) -> Place {
        Place { node: self.node, hour: self.hour, ..Place::default() }
    }
}

impl Kind for Reserve {
    type Key = (u8, u8, u8, u8);
    const ROOM: usize = 400;

    fn key(&self) -> Self::Key {
        (self.account, self.unit, self.kind, self.hour)
    }

    fn in_range(&self) -> bool {
        self.account >= 1
            && (1..=UNITS).contains(&self.unit)
            && (1..=RESERVE_KINDS).contains(&self.kind)
            && self.hour >= 1
            && self.day_ahead_price <= MOST_RESERVE_PRICE
            && self.day_ahead <= MOST_KWH
            && self.real_time_price <= MOST_RESERVE_PRICE
            && self.real_time <= MOST_KWH
    }

    fn within(&self, heading: &Heading) -> bool {
        self.account <= heading.accounts && self.hour <= heading.hours
    }

    fn place(&self) -> Place {
        Place { account: self.account, hour: self.hour, ..Place::default() }
    }
}

impl Kind for Failure {
    type Key = (u8, u8);
    const ROOM: usize = 320;

    fn key(&self) -> Self::Key {
        (self.unit, self.kind)
    }

    fn in_range(&self) -> bool {
        (1..=UNITS).contains(&self.unit) && (1..=RESERVE_KINDS).contains(&self.kind)
    }

    fn within(&self, _: &Heading) -> bool {
        true
    }

    fn place(&self) -> Place {
        Place::default()
    }
}

impl Kind for Fine {
    type Key = u32;
    const ROOM: usize = 50;

    fn key(&self) -> Self::Key {
        self.identifier
    }

    fn in_range(&self) -> bool {
        self.account >= 1 && (1..=MOST_FINE).contains(&self.amount)
    }

    fn within(&self, heading: &Heading) -> bool {
        self.account <= heading.accounts
    }

    fn place(&self) -> Place {
        Place { account: self.account, ..Place::default() }
    }
}
