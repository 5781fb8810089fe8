//! A fixed list of day files at and just beyond every limit of the format, and of amounts at their extremes.
//!
//! Each file is one line: a name that says what is tried, a space, and the bytes in hexadecimal digits. The names do
//! not say what the answer is.

use std::collections::BTreeSet;
use std::io::{self, Write};

use crate::draft::{end, exchange, failure, fine, generation, load, position, price, reserve, Draft};
use crate::format::{days_in_month, Heading, Interconnection, Mark, Position, Price, Record, Reserve};
use crate::format::{EXPORT, GENERATION, IMPORT, LOAD};
use crate::hex;
use crate::kinds::{Kind, MOST_FINE, MOST_KWH, MOST_PRICE, MOST_RESERVE_PRICE};

pub fn limits(out: &mut impl Write) -> io::Result<()> {
    for (name, bytes) in all() {
        writeln!(out, "{name} {}", hex::encode(&bytes))?;
    }
    Ok(())
}

fn all() -> Vec<(String, Vec<u8>)> {
    let mut list = List(Vec::new());
    headings(&mut list);
    cuts_and_marks(&mut list);
    ends(&mut list);
    prices(&mut list);
    positions(&mut list);
    interconnections(&mut list);
    reserves(&mut list);
    failures(&mut list);
    fines(&mut list);
    orders_of_reasons(&mut list);
    keys(&mut list);
    full_tables(&mut list);
    missing_prices(&mut list);
    missing_purchases(&mut list);
    shares(&mut list);
    penalties(&mut list);
    extremes(&mut list);
    list.0
}

struct List(Vec<(String, Vec<u8>)>);

impl List {
    fn add(&mut self, name: impl Into<String>, bytes: Vec<u8>) {
        self.0.push((name.into(), bytes));
    }

    fn draft(&mut self, name: impl Into<String>, draft: Draft) {
        self.add(name, draft.bytes());
    }
}

/// A small heading; other counts than 1 so that the numbers of a record can be told apart.
const SMALL: Heading =
    Heading { year: 2019, month: 3, day: 5, hours: 24, accounts: 3, nodes: 2, interconnections: 2 };

/// The heading of the largest day.
const LARGEST: Heading = Heading { hours: 25, accounts: 32, nodes: 16, interconnections: 8, ..SMALL };

/// The small day of the documents.
fn small_day() -> Draft {
    Draft::new(Heading { nodes: 1, interconnections: 1, ..SMALL }).with_all([
        price(1, 7, 50_000, 60_000),
        generation(1, 1, 7, 3000, 3100),
        load(2, 1, 7, 2000, 2000),
        load(3, 1, 7, 1000, 1000),
        exchange(1, 1, 1, 7, [0, 0, 100, 0], 55_000),
    ])
}

/// A record among a price and a load for its node and hour, which stand as near to them as the heading allows.
fn around(heading: Heading, node: u8, hour: u8, record: Record) -> Draft {
    let node = node.clamp(1, heading.nodes.max(1));
    let hour = hour.clamp(1, heading.hours.max(1));
    Draft::new(heading).with_all([price(node, hour, 50_000, -60_000), load(1, node, hour, 900, 1000), record])
}

/// 0, 1, the count, one above it, and the largest byte.
fn numbers(count: u8) -> BTreeSet<u8> {
    BTreeSet::from([0, 1, count, count + 1, 255])
}

/// Numbers at and beyond the limits of an unsigned field that goes from 0 to the most.
fn unsigned_edges(most: u32) -> [u32; 8] {
    [0, 1, most - 1, most, most + 1, u32::MAX / 2, u32::MAX / 2 + 1, u32::MAX]
}

/// Numbers at and beyond the limits of a price.
fn price_edges() -> [i32; 9] {
    [i32::MIN, -MOST_PRICE - 1, -MOST_PRICE, -1, 0, 1, MOST_PRICE, MOST_PRICE + 1, i32::MAX]
}

/// A number as a part of a name.
fn signed(number: i32) -> String {
    match number {
        0.. => number.to_string(),
        _ => format!("minus-{}", number.unsigned_abs()),
    }
}

fn headings(list: &mut List) {
    // A sale of account 1 to account 1 at node 1 in the last hour that the heading has.
    let with = |heading: Heading| {
        let hour = heading.hours;
        Draft::new(heading).with_all([
            price(1, hour, 50_000, 60_000),
            generation(1, 1, hour, 100, 110),
            load(1, 1, hour, 100, 90),
        ])
    };
    for hours in [0, 1, 22, 23, 24, 25, 26, 255] {
        let heading = Heading { hours, ..SMALL };
        list.draft(format!("heading-hours-{hours}"), with(heading));
    }
    for accounts in [0, 1, 2, 31, 32, 33, 255] {
        let heading = Heading { accounts, ..SMALL };
        list.draft(format!("heading-accounts-{accounts}"), with(heading));
    }
    for nodes in [0, 1, 2, 15, 16, 17, 255] {
        let heading = Heading { nodes, ..SMALL };
        list.draft(format!("heading-nodes-{nodes}"), with(heading));
    }
    for interconnections in [0, 1, 7, 8, 9, 255] {
        let heading = Heading { interconnections, ..SMALL };
        list.draft(format!("heading-interconnections-{interconnections}"), with(heading));
    }
    for year in [0, 1, 255, 256, 1900, 2000, 2015, 2016, 2017, 2098, 2099, 2100, 2400, 65_535] {
        let heading = Heading { year, ..SMALL };
        list.draft(format!("heading-year-{year}"), with(heading));
    }
    for month in [0, 1, 11, 12, 13, 255] {
        let heading = Heading { month, ..SMALL };
        list.draft(format!("heading-month-{month}"), with(heading));
    }
    for month in 1..=12 {
        let last = days_in_month(2019, month);
        for day in [0, 1, last - 1, last, last + 1, 255] {
            let heading = Heading { month, day, ..SMALL };
            list.draft(format!("heading-day-{day}-of-month-{month}-of-2019"), Draft::new(heading));
        }
    }
    for year in [2016, 2018, 2020, 2023, 2024, 2050, 2096, 2099] {
        for day in [28, 29, 30] {
            let heading = Heading { year, month: 2, day, ..SMALL };
            list.draft(format!("heading-{day}-february-{year}"), Draft::new(heading));
        }
    }
    for (name, year, month, day) in [
        ("heading-date-all-zero", 0, 0, 0),
        ("heading-date-all-ones", 65_535, 255, 255),
        ("heading-first-date", 2016, 1, 1),
        ("heading-day-before-first-date", 2015, 12, 31),
        ("heading-last-date", 2099, 12, 31),
        ("heading-day-after-last-date", 2100, 1, 1),
        ("heading-29-february-2000", 2000, 2, 29),
        ("heading-29-february-2100", 2100, 2, 29),
    ] {
        let heading = Heading { year, month, day, ..SMALL };
        list.draft(name, Draft::new(heading));
    }
    let least = Heading { hours: 23, accounts: 1, nodes: 1, interconnections: 0, ..SMALL };
    list.draft("heading-least-counts", Draft::new(least));
    list.draft("heading-largest-counts", Draft::new(LARGEST));
}

fn cuts_and_marks(list: &mut List) {
    let small = small_day();
    let whole = small.bytes();
    list.add("file-empty", Vec::new());
    for length in 1..=10 {
        list.add(format!("file-first-{length}-bytes"), whole[..length].to_vec());
    }
    for mark in ["EY", "DZ", "dy", "Dy", "YD", "D\0", "\0\0", "  "] {
        let mut bytes = whole.clone();
        bytes[..2].copy_from_slice(mark.as_bytes());
        list.add(format!("first-mark-{}", hex::encode(mark.as_bytes())), bytes);
    }
    let example_of = |mark: Mark| match mark {
        Mark::Heading => SMALL.encode(),
        Mark::Price => price(1, 7, 50_000, 60_000).encode(),
        Mark::Position => generation(1, 1, 7, 3000, 3100).encode(),
        Mark::Interconnection => exchange(1, 1, 1, 7, [0, 0, 100, 0], 55_000).encode(),
        Mark::Reserve => reserve(1, 12, 3, 7, (2000, 500), (3000, 400)).encode(),
        Mark::Failure => failure(12, 3).encode(),
        Mark::Fine => fine(77, 2, 250).encode(),
        Mark::End => end(1),
    };
    let name_of = |mark: Mark| String::from_utf8_lossy(mark.letters()).into_owned();
    let heading = SMALL.encode();
    for mark in Mark::ALL {
        let name = name_of(mark);
        let example = example_of(mark);
        if mark != Mark::Heading {
            list.add(format!("first-record-{name}"), [&example[..], &whole[10..]].concat());
            list.add(format!("first-record-{name}-and-nothing-else"), example.clone());
        }
        list.add(format!("first-record-{name}-without-its-last-byte"), example[..example.len() - 1].to_vec());
        list.add(format!("first-record-{name}-mark-alone"), example[..2].to_vec());
        for length in BTreeSet::from([1, 2, 3, example.len() - 1]) {
            list.add(
                format!("second-record-{name}-cut-to-{length}-bytes"),
                [&heading[..], &example[..length]].concat(),
            );
        }
        if mark != Mark::End {
            list.add(format!("second-record-{name}-and-no-end"), [&heading[..], &example].concat());
        }
    }
    for mark in
        ["PM", "QN", "NP", "pn", "EM", "FN", "IY", "RT", "FU", "MV", "ZY", "YZ", "zz", "\0\0", "PZ", "DN"]
    {
        let mut bytes = whole.clone();
        bytes[10..12].copy_from_slice(mark.as_bytes());
        list.add(format!("second-mark-{}", hex::encode(mark.as_bytes())), bytes);
    }
    let mut bytes = whole.clone();
    bytes[10..12].copy_from_slice(&[255, 255]);
    list.add("second-mark-ffff", bytes);
    // A record under the mark of another kind is cut by that kind's length.
    for (offset, kind) in [(10, "price"), (22, "position"), (64, "interconnection")] {
        for mark in Mark::ALL {
            let mut bytes = whole.clone();
            bytes[offset..offset + 2].copy_from_slice(mark.letters());
            list.add(format!("{kind}-under-the-mark-{}", name_of(mark)), bytes);
        }
    }
    list.add("heading-twice", [&whole[..10], &whole[..]].concat());
    list.add("second-heading-out-of-range", [&whole[..10], b"DY\0\0\0\0\0\0\0\0", &whole[10..]].concat());
    list.add("second-heading-before-the-end", [&whole[..90], &whole[..10], &end(7)].concat());
    list.add("second-file-after-the-end", [&whole[..], &whole].concat());
    for length in 11..whole.len() {
        list.add(format!("small-day-first-{length}-bytes"), whole[..length].to_vec());
    }
    list.add("small-day-whole", whole.clone());
    list.add("small-day-byte-before", [&[0], &whole[..]].concat());
    list.add("small-day-zero-byte-between-records", [&whole[..22], &[0], &whole[22..]].concat());
    list.add("small-day-line-end-between-records", [&whole[..22], b"\n", &whole[22..]].concat());
    list.add("small-day-lacks-a-byte-of-a-record", [&whole[..21], &whole[22..]].concat());
}

fn ends(list: &mut List) {
    let small = small_day();
    let whole = small.bytes();
    for count in [0, 1, 5, 6, 7, 255, 256, 1536, 65_535] {
        list.add(format!("end-count-{count}-for-6"), small.bytes_with_count(count));
    }
    let empty = Draft::new(SMALL);
    for count in [0, 1, 2, 256, 65_535] {
        list.add(format!("end-count-{count}-for-1"), empty.bytes_with_count(count));
    }
    for (name, tail) in [
        ("zero-byte", vec![0]),
        ("line-end", vec![10]),
        ("byte-5a", vec![0x5A]),
        ("two-bytes-5a", vec![0x5A; 2]),
        ("same-end", end(6)),
        ("next-end", end(7)),
        ("fine", fine(1, 1, 1).encode()),
        ("heading", SMALL.encode()),
    ] {
        list.add(format!("end-followed-by-{name}"), [&whole[..], &tail].concat());
        list.add(
            format!("end-with-count-7-followed-by-{name}"),
            [&small.bytes_with_count(7)[..], &tail].concat(),
        );
    }
    list.add("end-in-the-middle", [&whole[..36], &end(3), &whole[36..]].concat());
    let unpriced = Draft { heading: small.heading, records: small.records[1..].to_vec() };
    list.draft("end-right-price-missing", unpriced.clone());
    list.add("end-wrong-count-and-price-missing", unpriced.bytes_with_count(6));
    list.add("end-followed-by-byte-and-price-missing", [unpriced.bytes(), vec![0]].concat());
    list.add("end-cut-short-and-price-missing", [&unpriced.body()[..], b"ZZ\0"].concat());
}

fn prices(list: &mut List) {
    // A price with a sale at its node and hour.
    let with = |heading: Heading, price: Price| {
        Draft::new(heading).with_all([
            Record::Price(price),
            generation(1, price.node, price.hour, 100, 110),
            load(1, price.node, price.hour, 90, 95),
        ])
    };
    let usual = Price { node: 1, hour: 7, day_ahead: 50_000, real_time: 60_000 };
    for heading in [SMALL, LARGEST, Heading { hours: 23, ..SMALL }] {
        for node in numbers(heading.nodes) {
            let price = Price { node, ..usual };
            list.draft(
                format!("price-node-{node}-of-{}-in-{}-hours", heading.nodes, heading.hours),
                with(heading, price),
            );
        }
        for hour in numbers(heading.hours) {
            let price = Price { hour, ..usual };
            list.draft(format!("price-hour-{hour}-of-{}", heading.hours), with(heading, price));
        }
    }
    for value in price_edges() {
        let day_ahead = Price { day_ahead: value, ..usual };
        list.draft(format!("price-day-ahead-{}", signed(value)), with(SMALL, day_ahead));
        let real_time = Price { real_time: value, ..usual };
        list.draft(format!("price-real-time-{}", signed(value)), with(SMALL, real_time));
    }
    list.draft("price-that-nothing-needs", Draft::new(SMALL).with(price(2, 24, 1, 1)));
}

fn positions(list: &mut List) {
    let usual =
        Position { account: 2, node: 1, hour: 7, class: GENERATION, day_ahead: 3000, real_time: 3100 };
    let with = |heading: Heading, row: Position| around(heading, row.node, row.hour, Record::Position(row));
    for heading in [SMALL, LARGEST, Heading { hours: 23, ..SMALL }] {
        let hours = heading.hours;
        for account in numbers(heading.accounts) {
            list.draft(
                format!("position-account-{account}-of-{}-in-{hours}-hours", heading.accounts),
                with(heading, Position { account, ..usual }),
            );
        }
        for node in numbers(heading.nodes) {
            list.draft(
                format!("position-node-{node}-of-{}-in-{hours}-hours", heading.nodes),
                with(heading, Position { node, ..usual }),
            );
        }
        for hour in numbers(hours) {
            list.draft(format!("position-hour-{hour}-of-{hours}"), with(heading, Position { hour, ..usual }));
        }
    }
    for class in [0, 1, 2, 3, 4, 5, 255] {
        list.draft(format!("position-class-{class}"), with(SMALL, Position { class, ..usual }));
    }
    for class in [GENERATION, LOAD, IMPORT, EXPORT] {
        for kwh in unsigned_edges(MOST_KWH) {
            let row = Position { class, ..usual };
            list.draft(
                format!("position-class-{class}-day-ahead-kwh-{kwh}"),
                with(SMALL, Position { day_ahead: kwh, ..row }),
            );
            list.draft(
                format!("position-class-{class}-real-time-kwh-{kwh}"),
                with(SMALL, Position { real_time: kwh, ..row }),
            );
        }
    }
}

fn interconnections(list: &mut List) {
    let usual = Interconnection {
        number: 1,
        system: 2,
        node: 1,
        hour: 7,
        day_ahead_export: 10,
        day_ahead_import: 20,
        real_time_export: 30,
        real_time_import: 50,
        price: 55_000,
    };
    let with = |heading: Heading, row: Interconnection| {
        around(heading, row.node, row.hour, Record::Interconnection(row))
    };
    let none = Heading { interconnections: 0, ..SMALL };
    for heading in [SMALL, LARGEST, none] {
        for number in numbers(heading.interconnections) {
            list.draft(
                format!("interconnection-{number}-of-{}", heading.interconnections),
                with(heading, Interconnection { number, ..usual }),
            );
        }
    }
    for heading in [SMALL, LARGEST] {
        for node in numbers(heading.nodes) {
            list.draft(
                format!("interconnection-node-{node}-of-{}", heading.nodes),
                with(heading, Interconnection { node, ..usual }),
            );
        }
        for hour in numbers(heading.hours) {
            list.draft(
                format!("interconnection-hour-{hour}-of-{}", heading.hours),
                with(heading, Interconnection { hour, ..usual }),
            );
        }
    }
    for system in 0..=5 {
        list.draft(
            format!("interconnection-system-{system}"),
            with(SMALL, Interconnection { system, ..usual }),
        );
    }
    list.draft("interconnection-system-255", with(SMALL, Interconnection { system: 255, ..usual }));
    for kwh in unsigned_edges(MOST_KWH) {
        for (name, row) in [
            ("day-ahead-export", Interconnection { day_ahead_export: kwh, ..usual }),
            ("day-ahead-import", Interconnection { day_ahead_import: kwh, ..usual }),
            ("real-time-export", Interconnection { real_time_export: kwh, ..usual }),
            ("real-time-import", Interconnection { real_time_import: kwh, ..usual }),
        ] {
            list.draft(format!("interconnection-{name}-{kwh}"), with(SMALL, row));
        }
    }
    for price in price_edges() {
        list.draft(
            format!("interconnection-price-{}", signed(price)),
            with(SMALL, Interconnection { price, ..usual }),
        );
    }
}

fn reserves(list: &mut List) {
    let usual = Reserve {
        account: 2,
        unit: 12,
        kind: 3,
        hour: 7,
        day_ahead_price: 2000,
        day_ahead: 500,
        real_time_price: 3000,
        real_time: 400,
    };
    let with = |heading: Heading, row: Reserve| around(heading, 1, row.hour, Record::Reserve(row));
    for heading in [SMALL, LARGEST] {
        for account in numbers(heading.accounts) {
            list.draft(
                format!("reserve-account-{account}-of-{}", heading.accounts),
                with(heading, Reserve { account, ..usual }),
            );
        }
        for hour in numbers(heading.hours) {
            list.draft(
                format!("reserve-hour-{hour}-of-{}", heading.hours),
                with(heading, Reserve { hour, ..usual }),
            );
        }
    }
    for unit in [0, 1, 63, 64, 65, 255] {
        list.draft(
            format!("reserve-unit-{unit}"),
            with(SMALL, Reserve { unit, ..usual }).with(failure(64, 3)),
        );
    }
    for kind in [0, 1, 2, 3, 4, 5, 6, 255] {
        list.draft(
            format!("reserve-kind-{kind}"),
            with(SMALL, Reserve { kind, ..usual }).with(failure(12, 5)),
        );
    }
    for value in unsigned_edges(MOST_RESERVE_PRICE) {
        list.draft(
            format!("reserve-day-ahead-price-{value}"),
            with(SMALL, Reserve { day_ahead_price: value, ..usual }),
        );
        list.draft(
            format!("reserve-real-time-price-{value}"),
            with(SMALL, Reserve { real_time_price: value, ..usual }),
        );
    }
    for value in unsigned_edges(MOST_KWH) {
        list.draft(
            format!("reserve-day-ahead-kwh-{value}"),
            with(SMALL, Reserve { day_ahead: value, ..usual }),
        );
        list.draft(
            format!("reserve-real-time-kwh-{value}"),
            with(SMALL, Reserve { real_time: value, ..usual }),
        );
    }
}

fn failures(list: &mut List) {
    for unit in [0, 1, 64, 65, 255] {
        list.draft(format!("failure-unit-{unit}"), Draft::new(SMALL).with(failure(unit, 3)));
    }
    for kind in [0, 1, 5, 6, 255] {
        list.draft(format!("failure-kind-{kind}"), Draft::new(SMALL).with(failure(12, kind)));
    }
}

fn fines(list: &mut List) {
    for heading in [SMALL, LARGEST] {
        for account in numbers(heading.accounts) {
            list.draft(
                format!("fine-account-{account}-of-{}", heading.accounts),
                Draft::new(heading).with(fine(77, account, 250)),
            );
        }
    }
    for identifier in [0, 1, u32::MAX / 2, u32::MAX / 2 + 1, u32::MAX] {
        list.draft(format!("fine-identifier-{identifier}"), Draft::new(SMALL).with(fine(identifier, 2, 250)));
    }
    for amount in [
        0,
        1,
        u64::from(u32::MAX),
        u64::from(u32::MAX) + 1,
        MOST_FINE - 1,
        MOST_FINE,
        MOST_FINE + 1,
        1 << 40,
        u64::MAX / 2,
        u64::MAX / 2 + 1,
        u64::MAX,
    ] {
        list.draft(format!("fine-amount-{amount}"), Draft::new(SMALL).with(fine(77, 2, amount)));
    }
}

/// Records that several reasons refuse at once.
fn orders_of_reasons(list: &mut List) {
    let small = small_day();
    for (name, record) in [
        ("price-hour-0-node-above", price(200, 0, 1, 1)),
        ("price-node-0-hour-above", price(0, 200, 1, 1)),
        ("price-out-of-range-node-and-hour-above", price(200, 200, MOST_PRICE + 1, 1)),
        ("price-node-and-hour-above", price(2, 25, 1, 1)),
        ("position-hour-0-account-above", generation(200, 1, 0, 1, 1)),
        ("position-account-0-node-and-hour-above", generation(0, 17, 26, 1, 1)),
        ("position-class-0-account-above", position(4, 1, 7, 0, 1, 1)),
        ("position-kwh-out-of-range-hour-above", generation(1, 1, 25, 1, MOST_KWH + 1)),
        ("position-all-above", generation(33, 17, 26, 1, 1)),
        ("interconnection-0-node-and-hour-above", exchange(0, 1, 2, 25, [1; 4], 1)),
        ("interconnection-system-5-number-above", exchange(2, 5, 1, 7, [1; 4], 1)),
        ("interconnection-price-out-of-range-node-above", exchange(1, 1, 2, 7, [1; 4], -MOST_PRICE - 1)),
        ("interconnection-all-above", exchange(9, 1, 17, 26, [1; 4], 1)),
        ("reserve-kind-6-account-above", reserve(4, 1, 6, 7, (1, 1), (1, 1))),
        ("reserve-unit-0-hour-above", reserve(1, 0, 1, 25, (1, 1), (1, 1))),
        ("reserve-account-and-hour-above", reserve(4, 1, 1, 25, (1, 1), (1, 1))),
        ("fine-amount-0-account-above", fine(1, 4, 0)),
        ("taken-price-out-of-range", price(1, 7, MOST_PRICE + 1, 1)),
        ("taken-position-out-of-range", load(2, 1, 7, MOST_KWH + 1, 1)),
        ("taken-interconnection-node-above", exchange(1, 1, 2, 7, [1; 4], 1)),
        ("taken-interconnection-system-0", exchange(1, 0, 1, 7, [1; 4], 1)),
    ] {
        list.draft(format!("both-{name}"), small.clone().with(record));
    }
    // A fault of an earlier record comes before any of a later one.
    list.draft(
        "both-above-heading-then-out-of-range",
        small.clone().with_all([fine(1, 4, 1), fine(2, 0, 1)]),
    );
    list.add(
        "both-key-taken-then-unknown-mark",
        [small.clone().with(load(2, 1, 7, 1, 1)).body(), b"??".to_vec()].concat(),
    );
}

fn keys(list: &mut List) {
    let ground = Draft::new(SMALL).with_all([
        price(1, 7, 50_000, 60_000),
        price(2, 7, 45_000, 35_000),
        price(1, 8, 40_000, 30_000),
        load(1, 1, 7, 10, 10),
        load(3, 1, 8, 10, 10),
        exchange(1, 1, 1, 7, [1, 2, 3, 4], 5),
        reserve(1, 12, 3, 7, (10, 20), (30, 40)),
        failure(12, 3),
        fine(77, 2, 250),
    ]);
    list.draft("key-ground", ground.clone());
    let taken = [
        ("price", price(1, 7, 50_000, 60_000), price(1, 7, 0, 0)),
        ("position", load(1, 1, 7, 10, 10), load(1, 1, 7, 20, 30)),
        ("interconnection", exchange(1, 1, 1, 7, [1, 2, 3, 4], 5), exchange(1, 4, 2, 7, [0; 4], 0)),
        ("reserve", reserve(1, 12, 3, 7, (10, 20), (30, 40)), reserve(1, 12, 3, 7, (0, 0), (0, 0))),
        ("failure", failure(12, 3), failure(12, 3)),
        ("fine", fine(77, 2, 250), fine(77, 3, 1)),
    ];
    for (name, same, other) in taken {
        list.draft(format!("key-{name}-same-record-again"), ground.clone().with(same));
        list.draft(format!("key-{name}-taken-by-other-values"), ground.clone().with(other));
        list.draft(format!("key-{name}-twice-in-a-row"), Draft::new(SMALL).with_all([same, same]));
        list.draft(
            format!("key-{name}-taken-far-before"),
            ground.clone().with_all((1..=30).map(|identifier| fine(identifier, 1, 1))).with(other),
        );
    }
    for (name, record) in [
        ("price-other-node", price(2, 8, 0, 0)),
        ("price-other-hour", price(1, 9, 0, 0)),
        ("position-other-account", load(2, 1, 7, 10, 10)),
        ("position-other-node", load(1, 2, 7, 10, 10)),
        ("position-other-hour", load(1, 1, 8, 10, 10)),
        ("position-other-class-1", generation(1, 1, 7, 10, 10)),
        ("position-other-class-3", position(1, 1, 7, IMPORT, 10, 10)),
        ("position-other-class-4", position(1, 1, 7, EXPORT, 10, 10)),
        ("interconnection-other-number", exchange(2, 1, 1, 7, [1, 2, 3, 4], 5)),
        ("interconnection-other-hour", exchange(1, 1, 1, 8, [1, 2, 3, 4], 5)),
        ("interconnection-other-hour-and-system", exchange(1, 3, 1, 8, [1, 2, 3, 4], 5)),
        ("reserve-other-account", reserve(2, 12, 3, 7, (10, 20), (30, 40))),
        ("reserve-other-unit", reserve(1, 13, 3, 7, (10, 20), (30, 40))),
        ("reserve-other-kind", reserve(1, 12, 4, 7, (10, 20), (30, 40))),
        ("reserve-other-hour", reserve(1, 12, 3, 8, (10, 20), (30, 40))),
        ("failure-other-unit", failure(13, 3)),
        ("failure-other-kind", failure(12, 4)),
        ("fine-other-identifier", fine(78, 2, 250)),
    ] {
        list.draft(format!("key-{name}"), ground.clone().with(record));
    }
}

/// The day-ahead and the real-time price of a node and an hour.
type Grid = fn(u8, u8) -> (i32, i32);

/// All prices of the largest day.
fn all_prices(value: Grid) -> impl Iterator<Item = Record> {
    (1..=16).flat_map(move |node| {
        (1..=25).map(move |hour| {
            let (day_ahead, real_time) = value(node, hour);
            price(node, hour, day_ahead, real_time)
        })
    })
}

/// Positions with different keys: the first of all accounts, classes, nodes and hours, in this order of change.
fn many_positions(classes: &'static [u8], value: fn(usize) -> (u32, u32)) -> impl Iterator<Item = Record> {
    (1..=25)
        .flat_map(|hour| (1..=16).map(move |node| (node, hour)))
        .flat_map(|(node, hour)| classes.iter().map(move |&class| (node, hour, class)))
        .flat_map(|(node, hour, class)| (1..=32).map(move |account| (account, node, hour, class)))
        .enumerate()
        .map(move |(index, (account, node, hour, class))| {
            let (day_ahead, real_time) = value(index);
            position(account, node, hour, class, day_ahead, real_time)
        })
}

fn all_exchanges(kwh: [u32; 4], price: i32) -> impl Iterator<Item = Record> {
    (1..=8).flat_map(move |number| {
        (1..=25).map(move |hour| exchange(number, 1 + number % 4, number, hour, kwh, price))
    })
}

fn many_reserves(day_ahead: (u32, u32), real_time: (u32, u32)) -> impl Iterator<Item = Record> {
    (1..=25)
        .flat_map(|hour| (1..=5).map(move |kind| (kind, hour)))
        .flat_map(|(kind, hour)| (1..=64).map(move |unit| (unit, kind, hour)))
        .map(move |(unit, kind, hour)| reserve(1 + unit % 32, unit, kind, hour, day_ahead, real_time))
}

fn all_failures() -> impl Iterator<Item = Record> {
    (1..=64).flat_map(|unit| (1..=5).map(move |kind| failure(unit, kind)))
}

fn many_fines(amount: u64) -> impl Iterator<Item = Record> {
    (0..).map(move |number| fine(number * 1_000_003, 1 + (number % 32) as u8, amount))
}

fn full_tables(list: &mut List) {
    let ordinary_price = |node: u8, hour: u8| (1000 * i32::from(node), -999 * i32::from(hour));
    let ordinary_kwh = |index: usize| (index as u32, 2 * index as u32 + 1);
    let prices_only = Draft::new(LARGEST).with_all(all_prices(ordinary_price));
    list.draft("table-400-prices", prices_only.clone());
    list.draft("table-400-prices-and-a-taken-one", prices_only.clone().with(price(16, 25, 0, 0)));

    let positions = |number: usize| {
        prices_only.clone().with_all(many_positions(&[LOAD, GENERATION], ordinary_kwh).take(number))
    };
    for number in [999, 1000, 1001, 1002] {
        list.draft(format!("table-{number}-positions"), positions(number));
    }
    list.draft("table-1000-positions-and-a-taken-one", positions(1000).with(load(1, 1, 1, 5, 5)));
    list.draft(
        "table-1000-positions-and-one-out-of-range",
        positions(1000).with(load(1, 1, 25, 5, MOST_KWH + 1)),
    );
    list.draft("table-1000-positions-and-one-above-the-heading", positions(1000).with(load(33, 1, 25, 5, 5)));
    list.add("table-1001-positions-and-no-end", positions(1001).body());

    let buyers = Draft::new(LARGEST)
        .with_all((1..=25).flat_map(|hour| [price(1, hour, 500, 700), load(1 + hour, 1, hour, 3, 7)]));
    let reserves = |number: usize| buyers.clone().with_all(many_reserves((20, 30), (41, 43)).take(number));
    for number in [399, 400, 401] {
        list.draft(format!("table-{number}-reserves"), reserves(number));
    }
    list.draft("table-400-reserves-and-a-taken-one", reserves(400).with(reserve(2, 1, 1, 1, (1, 1), (1, 1))));

    let fines = |number: usize| Draft::new(LARGEST).with_all(many_fines(250).take(number));
    for number in [49, 50, 51, 52] {
        list.draft(format!("table-{number}-fines"), fines(number));
    }
    list.draft("table-50-fines-and-a-taken-one", fines(50).with(fine(0, 1, 1)));
    list.draft(
        "table-51-fines-of-one-account",
        Draft::new(SMALL).with_all((1..=51).map(|identifier| fine(identifier, 1, 250))),
    );

    let exchanges = prices_only
        .clone()
        .with_all((1..=25).map(|hour| load(32, 16, hour, 11, 13)))
        .with_all(all_exchanges([1, 20, 300, 4000], 77));
    list.draft("table-200-interconnections", exchanges.clone());
    list.draft(
        "table-200-interconnections-and-a-taken-one",
        exchanges.with(exchange(8, 1, 1, 25, [0; 4], 0)),
    );

    let failures = Draft::new(LARGEST).with_all(all_failures());
    list.draft("table-320-failures", failures.clone());
    list.draft("table-320-failures-and-a-taken-one", failures.with(failure(64, 5)));

    let largest = || {
        prices_only
            .clone()
            // 25 hours of 40 positions each.
            .with_all((1..=25).flat_map(move |hour| {
                (0..Position::ROOM / 25).map(move |index| {
                    let account = 1 + (index % 32) as u8;
                    let class = 1 + ((index / 32 + index) % 4) as u8;
                    let node = 1 + (index % 16) as u8;
                    let kwh = 1000 * u32::from(hour) + index as u32;
                    position(account, node, hour, class, kwh, kwh + 17)
                })
            }))
            .with_all(all_exchanges([1, 20, 300, 4000], 77))
            .with_all(many_reserves((20, 30), (41, 43)).take(Reserve::ROOM))
            .with_all(all_failures())
            .with_all(many_fines(250).take(50))
    };
    list.draft("largest-day", largest());
    let mut reversed = largest();
    reversed.records.reverse();
    list.draft("largest-day-records-in-reverse", reversed);
    for (name, record) in [
        ("price", price(1, 1, 0, 0)),
        ("position", generation(1, 16, 25, 1, 1)),
        ("interconnection", exchange(1, 1, 1, 1, [0; 4], 0)),
        ("reserve", reserve(32, 64, 5, 25, (1, 1), (1, 1))),
        ("failure", failure(1, 1)),
        ("fine", fine(1, 1, 1)),
    ] {
        list.draft(format!("largest-day-and-one-more-{name}"), largest().with(record));
    }
    let wrong = largest();
    list.add("largest-day-wrong-count", wrong.bytes_with_count(wrong.count() - 1));
    list.add("largest-day-byte-after", [wrong.bytes(), vec![0]].concat());
    list.add("largest-day-no-end", wrong.body());
}

fn missing_prices(list: &mut List) {
    let draft = || Draft::new(SMALL);
    let one = price(1, 7, 50_000, 60_000);
    for (name, records) in [
        ("position-other-node-priced", vec![one, load(1, 2, 7, 1, 1)]),
        ("position-other-hour-priced", vec![one, load(1, 1, 8, 1, 1)]),
        ("position-node-and-hour-exchanged", vec![price(2, 1, 5, 5), load(1, 1, 2, 1, 1)]),
        ("position-without-energy", vec![load(1, 1, 7, 0, 0)]),
        ("second-position", vec![one, load(1, 1, 7, 1, 1), load(3, 2, 9, 1, 1)]),
        ("two-positions-later-hour-entered-first", vec![load(3, 2, 9, 1, 1), load(1, 1, 7, 1, 1)]),
        ("interconnection", vec![exchange(1, 1, 2, 5, [0; 4], 0)]),
        ("interconnection-position-priced", vec![one, load(1, 1, 7, 1, 1), exchange(1, 1, 2, 7, [0; 4], 0)]),
        (
            "second-interconnection",
            vec![one, exchange(1, 1, 1, 7, [0; 4], 0), exchange(2, 1, 2, 8, [0; 4], 0)],
        ),
        (
            "interconnection-entered-before-position",
            vec![exchange(1, 1, 2, 5, [0; 4], 0), load(3, 1, 7, 1, 1)],
        ),
        ("and-missing-purchases", vec![one, generation(1, 1, 7, 5, 5), load(2, 2, 9, 0, 0)]),
    ] {
        list.draft(format!("no-price-{name}"), draft().with_all(records));
    }
    for (name, records) in [
        ("after-the-position", vec![load(1, 1, 7, 1, 1), one]),
        ("after-the-interconnection", vec![exchange(1, 1, 1, 7, [0; 4], 0), one]),
        ("not-needed-by-fine-and-failure", vec![fine(1, 1, 1), failure(1, 1)]),
        ("not-needed-by-reserve", vec![one, load(1, 1, 7, 0, 1), reserve(2, 1, 1, 7, (1, 5), (1, 5))]),
        ("of-zero", vec![price(1, 7, 0, 0), load(1, 1, 7, 5, 6)]),
    ] {
        list.draft(format!("price-{name}"), draft().with_all(records));
    }
}

fn missing_purchases(list: &mut List) {
    let one = price(1, 7, 50_000, 60_000);
    let free = price(1, 7, 0, 0);
    for (name, records) in [
        ("generation", vec![one, generation(1, 1, 7, 100, 100)]),
        ("generation-deviation-only", vec![one, generation(1, 1, 7, 0, 100)]),
        ("generation-without-energy", vec![one, generation(1, 1, 7, 0, 0)]),
        ("generation-free-of-charge", vec![free, generation(1, 1, 7, 100, 200)]),
        ("generation-free-the-day-before", vec![price(1, 7, 0, 60_000), generation(1, 1, 7, 100, 100)]),
        ("generation-free-in-real-time", vec![price(1, 7, 50_000, 0), generation(1, 1, 7, 0, 100)]),
        ("import", vec![one, position(1, 1, 7, IMPORT, 100, 100)]),
        ("load-with-reading-0", vec![one, load(1, 1, 7, 100, 0)]),
        ("load-without-energy", vec![one, load(1, 1, 7, 0, 0)]),
        ("export-with-reading-0", vec![one, position(1, 1, 7, EXPORT, 100, 0)]),
        ("balanced-sale-with-readings-0", vec![one, generation(1, 1, 7, 100, 0), load(2, 1, 7, 100, 0)]),
        ("sale-balanced-the-day-before-only", vec![one, generation(1, 1, 7, 100, 1), load(2, 1, 7, 100, 0)]),
        ("sale-balanced-in-real-time-only", vec![one, generation(1, 1, 7, 101, 1), load(2, 1, 7, 100, 0)]),
        ("reserve", vec![reserve(1, 12, 3, 7, (2000, 500), (3000, 500))]),
        ("reserve-deviation-only", vec![reserve(1, 12, 3, 7, (0, 500), (3000, 400))]),
        ("reserve-without-amounts", vec![reserve(1, 12, 3, 7, (0, 500), (3000, 500))]),
        (
            "reserve-deviations-that-cancel",
            vec![reserve(1, 12, 3, 7, (0, 500), (3000, 400)), reserve(2, 12, 3, 7, (0, 500), (3000, 600))],
        ),
        ("exchange", vec![one, exchange(1, 1, 1, 7, [0, 0, 100, 0], 55_000)]),
        ("exchange-day-ahead-only", vec![one, exchange(1, 1, 1, 7, [100, 0, 0, 0], 55_000)]),
        ("exchange-without-energy", vec![one, exchange(1, 1, 1, 7, [0; 4], 55_000)]),
        ("exchange-net-0", vec![one, exchange(1, 1, 1, 7, [70, 70, 100, 100], 55_000)]),
        ("exchange-imbalance-price-only", vec![free, exchange(1, 1, 1, 7, [0, 0, 100, 0], 1)]),
        ("exchange-free-of-charge", vec![free, exchange(1, 1, 1, 7, [9, 0, 100, 0], 0)]),
        (
            "exchange-imbalances-that-cancel",
            vec![
                free,
                exchange(1, 1, 1, 7, [0, 0, 100, 0], 55_000),
                exchange(2, 2, 1, 7, [0, 0, 0, 100], 55_000),
            ],
        ),
        (
            "exchange-and-generation-that-cancel-but-for-f1",
            vec![one, generation(1, 1, 7, 0, 100), exchange(1, 1, 1, 7, [0, 0, 100, 0], 55_000)],
        ),
        (
            "exchange-and-generation-that-cancel-whole",
            vec![one, generation(1, 1, 7, 0, 100), exchange(1, 1, 1, 7, [0, 0, 100, 0], 60_000)],
        ),
        (
            "in-another-hour",
            vec![one, price(1, 8, 50_000, 60_000), generation(1, 1, 7, 100, 100), load(2, 1, 8, 100, 100)],
        ),
        (
            "in-neither-of-two-hours-later-entered-first",
            vec![
                one,
                price(1, 8, 50_000, 60_000),
                generation(1, 1, 8, 100, 100),
                generation(1, 1, 7, 100, 100),
            ],
        ),
        (
            "missing-in-the-last-hour",
            vec![one, price(2, 24, 50_000, 60_000), load(1, 1, 7, 100, 100), generation(1, 2, 24, 100, 100)],
        ),
        ("of-1-kwh", vec![one, generation(1, 1, 7, 100, 100), load(3, 1, 7, 0, 1)]),
        ("by-export", vec![one, generation(1, 1, 7, 100, 100), position(3, 1, 7, EXPORT, 0, 1)]),
        ("at-another-node", vec![one, price(2, 7, 3, 4), generation(1, 1, 7, 100, 100), load(3, 2, 7, 0, 1)]),
        ("fine-and-failure-only", vec![fine(1, 1, 5), failure(12, 3)]),
        ("reserve-that-failed", vec![reserve(1, 12, 3, 7, (2000, 500), (3000, 500)), failure(12, 3)]),
    ] {
        list.draft(format!("purchases-{name}"), Draft::new(SMALL).with_all(records));
    }
}

/// Shared amounts that do not divide, of either sign.
fn shares(list: &mut List) {
    // Account 1 has a fine-grained amount through a reserve of 1 kWh; the accounts of a list buy at a price of 0.
    let shared = |amount: u32, weights: &[u32]| {
        let heading = Heading { accounts: weights.len() as u8, ..SMALL };
        let buyers = (1..).zip(weights).map(|(account, &weight)| load(account, 1, 7, weight, weight));
        Draft::new(heading).with(price(1, 7, 0, 0)).with_all(buyers).with(reserve(
            1,
            1,
            1,
            7,
            (amount, 1),
            (0, 0),
        ))
    };
    for (amount, weights) in [
        (1, &[1, 1][..]),
        (1, &[0, 0, 5]),
        (2, &[1, 1, 1]),
        (7, &[0, 5]),
        (10, &[1, 1, 1, 4]),
        (100, &[3, 3, 3, 2]),
        (500_000, &[1000, 2000]),
        (9_999_991, &[1, 2, 3, 5, 7, 11, 13, 17, 19, 23, 29, 31]),
        (9_999_999, &[2_000_000, 1, 1_999_999, 0, 7]),
        (31, &[1; 32]),
        (33, &[1; 32]),
        (10_000_000, &[2_000_000; 32]),
        (5, &[0, 3, 0, 0, 3, 0, 3, 0]),
    ] {
        let name = match weights.len() {
            32 => format!("32-times-{}", weights[0]),
            _ => weights.iter().map(u32::to_string).collect::<Vec<_>>().join("-"),
        };
        list.draft(format!("share-{amount}-over-{name}"), shared(amount, weights));
    }
    // The same amounts turned: reserve that was scheduled and then not held is given back.
    for amount in [1, 2, 10, 9_999_991] {
        let draft = Draft::new(SMALL).with_all([
            price(1, 7, 0, 0),
            load(1, 1, 7, 1, 1),
            load(2, 1, 7, 1, 1),
            load(3, 1, 7, 1, 1),
            reserve(1, 1, 1, 7, (0, 1), (amount, 0)),
        ]);
        list.draft(format!("share-back-{amount}-over-1-1-1"), draft);
    }
    // Several positions and classes of one account add up to one weight; hours are shared each by its own weights.
    list.draft(
        "share-weights-of-several-positions",
        Draft::new(SMALL).with_all([
            price(1, 7, 30_011, 29_989),
            price(2, 7, -7, 13),
            price(1, 8, 5, 3),
            load(1, 1, 7, 10, 11),
            load(1, 2, 7, 12, 13),
            position(1, 1, 7, EXPORT, 14, 17),
            position(2, 2, 7, EXPORT, 18, 19),
            load(3, 2, 7, 21, 23),
            generation(3, 2, 7, 29, 31),
            position(2, 1, 7, IMPORT, 37, 41),
            load(3, 1, 8, 1, 2),
            generation(1, 1, 8, 3, 4),
            reserve(2, 5, 1, 7, (101, 7), (103, 11)),
            reserve(2, 5, 1, 8, (107, 13), (109, 2)),
        ]),
    );
    for (name, kwh, price_of_imbalance) in [
        ("export", [0, 0, 100, 0], 55_000),
        ("import", [0, 0, 0, 100], 55_000),
        ("day-ahead-export", [100, 0, 0, 0], 55_000),
        ("day-ahead-import", [0, 100, 0, 0], 55_000),
        ("all-four", [7, 31, 101, 13], 54_321),
        ("negative-price", [7, 31, 101, 13], -54_321),
        ("price-0", [7, 31, 101, 13], 0),
    ] {
        let draft = Draft::new(SMALL).with_all([
            price(1, 7, 50_001, 60_007),
            load(1, 1, 7, 17, 19),
            load(2, 1, 7, 23, 29),
            load(3, 1, 7, 31, 37),
            exchange(1, 1, 1, 7, kwh, price_of_imbalance),
        ]);
        list.draft(format!("imbalance-{name}"), draft);
    }
    list.draft(
        "imbalance-two-interconnections-one-system",
        Draft::new(SMALL).with_all([
            price(1, 7, 50_001, 60_007),
            price(2, 7, -50_001, 7),
            load(1, 1, 7, 17, 19),
            load(3, 1, 7, 31, 37),
            exchange(1, 3, 1, 7, [1, 2, 30, 4], 101),
            exchange(2, 3, 2, 7, [5, 6, 7, 80], 103),
        ]),
    );
    list.draft(
        "imbalance-one-interconnection-two-systems",
        Draft::new(SMALL).with_all([
            price(1, 7, 50_001, 60_007),
            price(2, 8, -50_001, 7),
            load(1, 1, 7, 17, 19),
            load(3, 2, 8, 31, 37),
            exchange(1, 1, 1, 7, [1, 2, 30, 4], 101),
            exchange(1, 4, 2, 8, [5, 6, 7, 80], 103),
        ]),
    );
}

fn penalties(list: &mut List) {
    let ground = Draft::new(SMALL).with_all([
        price(1, 7, 50_000, 60_000),
        price(1, 8, 50_000, 60_000),
        generation(1, 1, 7, 1000, 1000),
        load(2, 1, 7, 1000, 1000),
        load(3, 1, 8, 0, 1),
    ]);
    let first = reserve(1, 12, 3, 7, (2000, 500), (3000, 400));
    for (name, records) in [
        ("of-one-hour", vec![first, failure(12, 3)]),
        ("failure-entered-first", vec![failure(12, 3), first]),
        ("of-a-negative-sum", vec![reserve(1, 12, 3, 7, (2000, 500), (30_000, 400)), failure(12, 3)]),
        ("of-a-sum-of-0", vec![reserve(1, 12, 3, 7, (2000, 500), (10_000, 400)), failure(12, 3)]),
        ("of-two-hours", vec![first, reserve(1, 12, 3, 8, (2000, 100), (4000, 0)), failure(12, 3)]),
        (
            "of-two-hours-negative-together",
            vec![first, reserve(1, 12, 3, 8, (2000, 1000), (4000, 0)), failure(12, 3)],
        ),
        (
            "of-two-accounts-one-negative",
            vec![first, reserve(2, 12, 3, 7, (2000, 100), (4000, 0)), failure(12, 3)],
        ),
        ("of-two-accounts", vec![first, reserve(2, 12, 3, 8, (1, 100), (4, 200)), failure(12, 3)]),
        ("other-unit", vec![first, failure(13, 3)]),
        ("other-kind", vec![first, failure(12, 4)]),
        (
            "of-two-kinds",
            vec![first, reserve(1, 12, 4, 7, (7, 11), (13, 17)), failure(12, 3), failure(12, 4)],
        ),
        ("of-one-kind-of-two", vec![first, reserve(1, 12, 4, 7, (7, 11), (13, 17)), failure(12, 4)]),
        (
            "two-kinds-one-negative",
            vec![first, reserve(1, 12, 4, 7, (7, 11), (1300, 0)), failure(12, 3), failure(12, 4)],
        ),
        ("and-fine", vec![first, failure(12, 3), fine(77, 2, 250)]),
        ("two-fines-of-one-account", vec![fine(77, 2, 250), fine(76, 2, 1), fine(1, 3, 9)]),
    ] {
        list.draft(format!("penalty-{name}"), ground.clone().with_all(records));
    }
}

/// The largest prices and energies, alone and in tables as full as they can be.
fn extremes(list: &mut List) {
    for (name, value) in [("highest", MOST_PRICE), ("lowest", -MOST_PRICE)] {
        for (class_name, class) in
            [("generation", GENERATION), ("load", LOAD), ("import", IMPORT), ("export", EXPORT)]
        {
            for (energy, day_ahead, real_time) in
                [("down", MOST_KWH, 0), ("up", 0, MOST_KWH), ("steady", MOST_KWH, MOST_KWH)]
            {
                let draft = Draft::new(SMALL).with_all([
                    price(1, 7, value, value),
                    position(1, 1, 7, class, day_ahead, real_time),
                    load(2, 1, 7, 0, 2),
                    load(3, 1, 7, 0, 1),
                ]);
                list.draft(format!("extreme-{class_name}-{energy}-at-the-{name}-price"), draft);
            }
        }
        for (energy, kwh) in [
            ("out-then-in", [MOST_KWH, 0, 0, MOST_KWH]),
            ("in-then-out", [0, MOST_KWH, MOST_KWH, 0]),
            ("all", [MOST_KWH; 4]),
        ] {
            for (agreed_name, agreed) in [("highest", MOST_PRICE), ("lowest", -MOST_PRICE)] {
                let draft = Draft::new(SMALL).with_all([
                    price(1, 7, value, value),
                    load(1, 1, 7, 0, 2_000_000),
                    load(2, 1, 7, 0, 1_999_999),
                    load(3, 1, 7, 0, 1),
                    exchange(1, 4, 1, 7, kwh, agreed),
                ]);
                list.draft(format!("extreme-exchange-{energy}-at-{name}-price-agreed-{agreed_name}"), draft);
            }
        }
    }

    let grids: [(&str, Grid); 4] = [
        ("highest", |_, _| (MOST_PRICE, MOST_PRICE)),
        ("lowest", |_, _| (-MOST_PRICE, -MOST_PRICE)),
        ("turning", |_, _| (MOST_PRICE, -MOST_PRICE)),
        ("odd", |node, hour| (MOST_PRICE - 9 - i32::from(node), 26 * i32::from(hour) - MOST_PRICE - 1)),
    ];
    for (name, grid) in grids {
        // 1,000 purchases in one hour: the weights add up to 2,000,000,000.
        list.draft(
            format!("extreme-1000-purchases-in-one-hour-{name}-prices"),
            Draft::new(LARGEST)
                .with_all(all_prices(grid))
                .with_all(many_positions(&[LOAD, EXPORT], |_| (0, MOST_KWH)).take(1000)),
        );
        // Weights and amounts that are large and do not divide.
        list.draft(
            format!("extreme-1000-uneven-purchases-in-one-hour-{name}-prices"),
            Draft::new(LARGEST).with_all(all_prices(grid)).with_all(
                many_positions(&[LOAD, EXPORT], |index| {
                    let index = index as u32;
                    (1009 * index, MOST_KWH - index * index % 997)
                })
                .take(1000),
            ),
        );
        list.draft(
            format!("extreme-1000-purchases-not-taken-but-one-{name}-prices"),
            Draft::new(LARGEST).with_all(all_prices(grid)).with_all(
                many_positions(&[LOAD, EXPORT], |index| (MOST_KWH, u32::from(index == 999))).take(1000),
            ),
        );
        // 999 sales in one hour, and one purchase of 1 kWh; with exchanges the shared amounts are the largest.
        let one_buyer = Draft::new(LARGEST)
            .with_all(all_prices(grid))
            .with_all(many_positions(&[GENERATION, IMPORT], |_| (MOST_KWH, 0)).take(999))
            .with(load(32, 16, 1, 0, 1));
        for (energy, kwh) in [
            ("none", [0; 4]),
            ("out-then-in", [MOST_KWH, 0, 0, MOST_KWH]),
            ("in-then-out", [0, MOST_KWH, MOST_KWH, 0]),
        ] {
            let exchanges = (1..=8).map(move |number| exchange(number, 1, 16, 1, kwh, MOST_PRICE));
            list.draft(
                format!("extreme-999-sales-to-one-buyer-{name}-prices-exchanges-{energy}"),
                one_buyer.clone().with_all(exchanges),
            );
        }
        list.draft(
            format!("extreme-all-sales-of-one-account-{name}-prices"),
            Draft::new(LARGEST)
                .with_all(all_prices(grid))
                .with_all((1..=25).flat_map(|hour| {
                    (1..=16).flat_map(move |node| {
                        [generation(1, node, hour, MOST_KWH, 0), position(1, node, hour, IMPORT, MOST_KWH, 0)]
                    })
                }))
                .with_all((1..=25).map(|hour| load(2, 1, hour, 0, 1))),
        );
        for (agreed_name, agreed) in [("highest", MOST_PRICE), ("lowest", -MOST_PRICE)] {
            for (energy, kwh) in
                [("out-then-in", [MOST_KWH, 0, 0, MOST_KWH]), ("in-then-out", [0, MOST_KWH, MOST_KWH, 0])]
            {
                list.draft(
                    format!("extreme-200-exchanges-{energy}-{name}-prices-agreed-{agreed_name}"),
                    Draft::new(LARGEST)
                        .with_all(all_prices(grid))
                        .with_all((1..=25).map(|hour| load(hour, 1, hour, MOST_KWH, 1)))
                        .with_all(all_exchanges(kwh, agreed)),
                );
            }
        }
    }

    let buyers = || {
        Draft::new(LARGEST).with_all(
            (1..=25).flat_map(|hour| [price(1, hour, 0, 0), load(1, 1, hour, 0, 3), load(32, 1, hour, 0, 4)]),
        )
    };
    let most = (MOST_RESERVE_PRICE, MOST_KWH);
    let none_held = (MOST_RESERVE_PRICE, 0);
    for (name, day_ahead, real_time) in [
        ("steady", most, most),
        ("given-up", most, none_held),
        ("taken-up", none_held, most),
        ("given-up-for-nothing", most, (0, 0)),
        ("scheduled-for-nothing-and-given-up", (0, MOST_KWH), none_held),
    ] {
        list.draft(
            format!("extreme-400-reserves-{name}"),
            buyers().with_all(many_reserves(day_ahead, real_time).take(400)).with_all(all_failures()),
        );
        // 16 units of one account in 25 hours.
        list.draft(
            format!("extreme-400-reserves-of-one-account-{name}"),
            buyers()
                .with_all((1..=25).flat_map(move |hour| {
                    (1..=16).map(move |unit| reserve(2, unit, 1, hour, day_ahead, real_time))
                }))
                .with_all(all_failures()),
        );
    }
    list.draft(
        "extreme-50-fines-of-one-account",
        Draft::new(LARGEST).with_all((0..50).map(|identifier| fine(identifier, 32, MOST_FINE))),
    );
    list.draft(
        "extreme-50-fines-of-many-accounts",
        Draft::new(LARGEST).with_all(many_fines(MOST_FINE).take(50)),
    );
    for (name, grid) in grids {
        list.draft(
            format!("extreme-everything-{name}-prices"),
            Draft::new(LARGEST)
                .with_all(all_prices(grid))
                .with_all((1..=25).flat_map(|hour| {
                    (1..=32).map(move |account| load(account, account.div_ceil(2), hour, 0, MOST_KWH))
                }))
                .with_all((1..=25).flat_map(|hour| {
                    (1..=8).map(move |account| generation(account, account, hour, MOST_KWH, 0))
                }))
                .with_all(all_exchanges([0, MOST_KWH, MOST_KWH, 0], -MOST_PRICE))
                .with_all(many_reserves(most, most).take(400))
                .with_all(all_failures())
                .with_all(many_fines(MOST_FINE).take(50)),
        );
    }
}

#[cfg(test)]
mod tests {
    use super::*;

    #[test]
    fn names_are_telling_and_differ() {
        let list = all();
        let names: BTreeSet<&str> = list.iter().map(|(name, _)| name.as_str()).collect();
        assert_eq!(names.len(), list.len());
        assert!(names
            .iter()
            .all(|name| !name.is_empty() && name.bytes().all(|byte| byte.is_ascii_graphic())));
    }
}
