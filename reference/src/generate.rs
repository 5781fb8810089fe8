//! Day files made from a seed: good ones of all sizes, and damaged ones of every kind.

use std::collections::BTreeSet;
use std::fs;
use std::io;
use std::path::Path;

use crate::draft::{end, exchange, failure, fine, generation, load, position, price, reserve, Draft};
use crate::format::{
    days_in_month, Failure, Fine, Heading, Interconnection, Mark, Position, Price, Record, Reserve,
};
use crate::format::{EXPORT, LOAD};
use crate::kinds::{Kind, MOST_FINE, MOST_KWH, MOST_PRICE, MOST_RESERVE_PRICE};

/// Writes the files into the directory, which is made if it is not there. A file's name says what was intended.
pub fn generate(seed: u64, count: usize, directory: &Path) -> io::Result<()> {
    fs::create_dir_all(directory)?;
    for index in 0..count {
        let (name, bytes) = file(seed, index);
        fs::write(directory.join(format!("{index:06}-{name}.day")), bytes)?;
    }
    Ok(())
}

/// The file with this index: by turns a good one and a damaged one. It depends on seed and index alone.
fn file(seed: u64, index: usize) -> (String, Vec<u8>) {
    let mut random = Random::new(seed, index as u64);
    let turn = index / 2;
    if index % 2 == 0 {
        let size = Size::ALL[turn % Size::ALL.len()];
        let name = format!("good-{size:?}").to_lowercase();
        (name, good_day(&mut random, size).bytes())
    } else {
        let (name, damage) = DAMAGES[turn % DAMAGES.len()];
        (format!("damaged-{name}"), damage(&mut random))
    }
}

/// A small generator of numbers (xorshift with a multiplication).
struct Random(u64);

impl Random {
    fn new(seed: u64, stream: u64) -> Random {
        let mixed = seed
            .wrapping_add(1)
            .wrapping_mul(0x9E37_79B9_7F4A_7C15)
            .wrapping_add(stream.wrapping_mul(0xD1B5_4A32_D192_ED03));
        // The state must not be 0. The first numbers of like states are alike and are thrown away.
        let mut random = Random(mixed.max(1));
        for _ in 0..16 {
            random.next();
        }
        random
    }

    fn next(&mut self) -> u64 {
        self.0 ^= self.0 >> 12;
        self.0 ^= self.0 << 25;
        self.0 ^= self.0 >> 27;
        self.0.wrapping_mul(0x2545_F491_4F6C_DD1D)
    }

    /// A number from 0 to below the limit, which is above 0.
    fn below(&mut self, limit: usize) -> usize {
        ((u128::from(self.next()) * limit as u128) >> 64) as usize
    }

    /// A number from the first to the last, both included.
    fn between(&mut self, first: i64, last: i64) -> i64 {
        first + self.below((last - first + 1) as usize) as i64
    }

    /// A number from 1 to the count.
    fn number(&mut self, count: u8) -> u8 {
        1 + self.below(usize::from(count)) as u8
    }

    fn byte(&mut self) -> u8 {
        self.below(256) as u8
    }

    fn chance(&mut self, percent: usize) -> bool {
        self.below(100) < percent
    }

    fn pick<T: Copy>(&mut self, list: &[T]) -> T {
        list[self.below(list.len())]
    }

    fn bytes(&mut self, count: usize) -> Vec<u8> {
        (0..count).map(|_| self.byte()).collect()
    }

    fn shuffle<T>(&mut self, list: &mut [T]) {
        for last in (1..list.len()).rev() {
            list.swap(last, self.below(last + 1));
        }
    }
}

#[derive(Clone, Copy, Debug, PartialEq, Eq)]
enum Size {
    Empty,
    Tiny,
    Small,
    Medium,
    Quiet,
    Crowded,
    Large,
    Largest,
}

impl Size {
    const ALL: [Size; 8] = [
        Size::Empty,
        Size::Tiny,
        Size::Small,
        Size::Medium,
        Size::Quiet,
        Size::Crowded,
        Size::Large,
        Size::Largest,
    ];

    /// How many records of each kind are aimed at; the prices that other records need come on top.
    fn wanted(self, random: &mut Random) -> [usize; 6] {
        let most =
            [Price::ROOM, Position::ROOM, Interconnection::ROOM, Reserve::ROOM, Failure::ROOM, Fine::ROOM];
        match self {
            Size::Empty => [0; 6],
            Size::Tiny => [1, 2, 1, 1, 1, 1],
            Size::Small | Size::Quiet => most.map(|_| 1 + random.below(8)),
            Size::Medium => most.map(|room| 1 + random.below(room.min(60))),
            Size::Crowded => [20, 300 + random.below(701), 8, 100, 40, 10],
            Size::Large => most.map(|room| 1 + random.below(room)),
            Size::Largest => most,
        }
    }
}

fn good_heading(random: &mut Random, size: Size) -> Heading {
    let year = random.between(2016, 2099) as u16;
    let month = random.number(12);
    let day = random.number(days_in_month(year, month));
    let hours = 22 + random.number(3);
    let (hours, accounts, nodes, interconnections) = match size {
        Size::Tiny => (hours, 2, 1, 1),
        Size::Small | Size::Quiet => (hours, random.number(6), random.number(3), random.number(2)),
        Size::Largest => (25, 32, 16, 8),
        _ => (hours, random.number(32), random.number(16), random.number(8)),
    };
    Heading { year, month, day, hours, accounts, nodes, interconnections }
}

/// How large the numbers of a file are.
#[derive(Clone, Copy)]
enum Style {
    Plain,
    Whole,
    Edges,
}

impl Style {
    fn unsigned(self, random: &mut Random, most: u32) -> u32 {
        match self {
            Style::Plain => random.below(5000.min(most as usize)) as u32,
            Style::Whole => random.below(most as usize + 1) as u32,
            Style::Edges => random.pick(&[0, 0, 1, 2, 3, most - 1, most, most]),
        }
    }

    fn kwh(self, random: &mut Random) -> u32 {
        self.unsigned(random, MOST_KWH)
    }

    fn price(self, random: &mut Random) -> i32 {
        match self {
            Style::Plain => random.between(-5000, 95_000) as i32,
            _ => {
                let magnitude = self.unsigned(random, MOST_PRICE as u32) as i32;
                if random.chance(40) {
                    -magnitude
                } else {
                    magnitude
                }
            }
        }
    }
}

/// A day that the engine accepts and settles.
fn good_day(random: &mut Random, size: Size) -> Draft {
    let heading = good_heading(random, size);
    let wanted = size.wanted(random);
    let style = random.pick(&[Style::Plain, Style::Whole, Style::Edges]);
    // A crowded day has most of its records in few hours.
    let busy_hours = match size {
        Size::Crowded => 1 + random.number(2),
        Size::Tiny => 1,
        _ => heading.hours,
    };
    let mut days = Maker { random, heading, style, busy_hours };
    let mut records = Vec::new();
    if size == Size::Empty {
        return Draft { heading, records };
    }

    let mut exchanges = days.distinct(wanted[2], Maker::exchange);
    let mut reserves = days.distinct(wanted[3], Maker::reserve);
    let mut positions = days.distinct(wanted[1], Maker::position);

    if size == Size::Quiet {
        // Hours without purchases and without an amount to share.
        for row in &mut positions {
            row.real_time = 0;
            row.day_ahead = 0;
        }
        for row in &mut exchanges {
            row.real_time_import = row.real_time_export;
            row.day_ahead_import = row.day_ahead_export;
        }
        for row in &mut reserves {
            row.real_time = row.day_ahead;
            row.day_ahead_price = 0;
        }
    } else {
        // A purchase in every hour that has a record, in place of a position where there is no more room.
        let hours: BTreeSet<u8> = positions
            .iter()
            .map(|row| row.hour)
            .chain(exchanges.iter().map(|row| row.hour))
            .chain(reserves.iter().map(|row| row.hour))
            .collect();
        let mut purchases: Vec<Position> = hours
            .into_iter()
            .map(|hour| Position {
                hour,
                class: days.random.pick(&[LOAD, EXPORT]),
                real_time: 1 + days.random.below(MOST_KWH as usize) as u32,
                ..days.position()
            })
            .collect();
        positions.retain(|row| purchases.iter().all(|other| other.key() != row.key()));
        positions.truncate(Position::ROOM - purchases.len());
        positions.append(&mut purchases);
        if size == Size::Largest {
            while positions.len() < Position::ROOM {
                let row = days.position();
                if positions.iter().all(|other| other.key() != row.key()) {
                    positions.push(row);
                }
            }
        }
    }

    let needed: BTreeSet<(u8, u8)> = positions
        .iter()
        .map(|row| (row.node, row.hour))
        .chain(exchanges.iter().map(|row| (row.node, row.hour)))
        .collect();
    let mut prices: Vec<Price> =
        needed.iter().map(|&(node, hour)| Price { node, hour, ..days.price() }).collect();
    prices.extend(
        days.distinct(wanted[0], Maker::price).into_iter().filter(|row| !needed.contains(&row.key())),
    );

    records.extend(prices.into_iter().map(Record::Price));
    records.extend(positions.into_iter().map(Record::Position));
    records.extend(exchanges.into_iter().map(Record::Interconnection));
    records.extend(reserves.into_iter().map(Record::Reserve));
    records.extend(days.distinct(wanted[4], Maker::failure).into_iter().map(Record::Failure));
    records.extend(days.distinct(wanted[5], Maker::fine).into_iter().map(Record::Fine));
    if days.random.chance(70) {
        days.random.shuffle(&mut records);
    }
    Draft { heading, records }
}

/// Makes single records that a heading allows.
struct Maker<'a> {
    random: &'a mut Random,
    heading: Heading,
    style: Style,
    busy_hours: u8,
}

impl Maker<'_> {
    /// So many records with different keys; fewer if there are not so many keys.
    fn distinct<K: Kind>(&mut self, wanted: usize, make: fn(&mut Self) -> K) -> Vec<K> {
        let mut rows: Vec<K> = Vec::new();
        let mut tries = 0;
        while rows.len() < wanted && tries < 20 * wanted {
            let row = make(self);
            if rows.iter().all(|other| other.key() != row.key()) {
                rows.push(row);
            }
            tries += 1;
        }
        rows
    }

    fn hour(&mut self) -> u8 {
        if self.random.chance(5) {
            self.random.number(self.heading.hours)
        } else {
            self.random.number(self.busy_hours)
        }
    }

    fn price(&mut self) -> Price {
        Price {
            node: self.random.number(self.heading.nodes),
            hour: self.hour(),
            day_ahead: self.style.price(self.random),
            real_time: self.style.price(self.random),
        }
    }

    fn position(&mut self) -> Position {
        Position {
            account: self.random.number(self.heading.accounts),
            node: self.random.number(self.heading.nodes),
            hour: self.hour(),
            class: self.random.number(4),
            day_ahead: self.style.kwh(self.random),
            real_time: self.style.kwh(self.random),
        }
    }

    fn exchange(&mut self) -> Interconnection {
        Interconnection {
            number: self.random.number(self.heading.interconnections),
            system: self.random.number(4),
            node: self.random.number(self.heading.nodes),
            hour: self.hour(),
            day_ahead_export: self.style.kwh(self.random),
            day_ahead_import: self.style.kwh(self.random),
            real_time_export: self.style.kwh(self.random),
            real_time_import: self.style.kwh(self.random),
            price: self.style.price(self.random),
        }
    }

    fn reserve(&mut self) -> Reserve {
        Reserve {
            account: self.random.number(self.heading.accounts),
            // Few units, so that one unit often has several accounts, kinds and hours.
            unit: if self.random.chance(70) { self.random.number(6) } else { self.random.number(64) },
            kind: self.random.number(5),
            hour: self.hour(),
            day_ahead_price: self.style.unsigned(self.random, MOST_RESERVE_PRICE),
            day_ahead: self.style.kwh(self.random),
            real_time_price: self.style.unsigned(self.random, MOST_RESERVE_PRICE),
            real_time: self.style.kwh(self.random),
        }
    }

    fn failure(&mut self) -> Failure {
        Failure {
            unit: if self.random.chance(30) { self.random.number(6) } else { self.random.number(64) },
            kind: self.random.number(5),
        }
    }

    fn fine(&mut self) -> Fine {
        Fine {
            identifier: if self.random.chance(50) {
                self.random.below(100) as u32
            } else {
                self.random.next() as u32
            },
            account: self.random.number(self.heading.accounts),
            amount: match self.style {
                Style::Plain => 1 + self.random.below(1_000_000) as u64,
                Style::Whole => 1 + self.random.below(MOST_FINE as usize) as u64,
                Style::Edges => self.random.pick(&[1, 2, MOST_FINE - 1, MOST_FINE]),
            },
        }
    }
}

type Damage = fn(&mut Random) -> Vec<u8>;

/// The kinds of damage. Some leave a file that is still in order.
const DAMAGES: [(&str, Damage); 31] = [
    ("cut-anywhere", cut_anywhere),
    ("cut-between-records", cut_between_records),
    ("cut-near-the-end", cut_near_the_end),
    ("byte-changed", byte_changed),
    ("bit-turned", bit_turned),
    ("byte-inserted", byte_inserted),
    ("byte-lost", byte_lost),
    ("unknown-mark", unknown_mark),
    ("other-mark", other_mark),
    ("second-heading", second_heading),
    ("no-heading", no_heading),
    ("early-end", early_end),
    ("wrong-count", wrong_count),
    ("bytes-after-the-end", bytes_after_the_end),
    ("heading-field", heading_field),
    ("number-zero", number_zero),
    ("number-above", number_above),
    ("number-zero-and-above", number_zero_and_above),
    ("value-out-of-range", value_out_of_range),
    ("key-taken", key_taken),
    ("too-many-positions", too_many_positions),
    ("too-many-reserves", too_many_reserves),
    ("too-many-fines", too_many_fines),
    ("price-lost", price_lost),
    ("all-prices-lost", all_prices_lost),
    ("purchases-lost", purchases_lost),
    ("record-lost", record_lost),
    ("pieces-exchanged", pieces_exchanged),
    ("noise", noise),
    ("records-of-noise", records_of_noise),
    ("several", several),
];

/// A day to be damaged; it has records of every kind.
fn sound_day(random: &mut Random) -> Draft {
    let size = random.pick(&[Size::Tiny, Size::Small, Size::Small, Size::Medium, Size::Large]);
    good_day(random, size)
}

/// The bytes of a day with its records in pieces: heading, records, end.
fn pieces(draft: &Draft) -> Vec<Vec<u8>> {
    let mut pieces = vec![draft.heading.encode()];
    pieces.extend(draft.records.iter().map(Record::encode));
    pieces.push(end(draft.count()));
    pieces
}

fn cut_anywhere(random: &mut Random) -> Vec<u8> {
    let mut bytes = sound_day(random).bytes();
    bytes.truncate(random.below(bytes.len()));
    bytes
}

fn cut_between_records(random: &mut Random) -> Vec<u8> {
    let mut draft = sound_day(random);
    draft.records.truncate(random.below(draft.records.len() + 1));
    draft.body()
}

fn cut_near_the_end(random: &mut Random) -> Vec<u8> {
    let mut bytes = sound_day(random).bytes();
    bytes.truncate(bytes.len() - 1 - random.below(8));
    bytes
}

fn byte_changed(random: &mut Random) -> Vec<u8> {
    let mut bytes = sound_day(random).bytes();
    let at = random.below(bytes.len());
    bytes[at] = random.byte();
    bytes
}

fn bit_turned(random: &mut Random) -> Vec<u8> {
    let mut bytes = sound_day(random).bytes();
    let at = random.below(bytes.len());
    bytes[at] ^= 1 << random.below(8);
    bytes
}

fn byte_inserted(random: &mut Random) -> Vec<u8> {
    let mut bytes = sound_day(random).bytes();
    bytes.insert(random.below(bytes.len() + 1), random.byte());
    bytes
}

fn byte_lost(random: &mut Random) -> Vec<u8> {
    let mut bytes = sound_day(random).bytes();
    bytes.remove(random.below(bytes.len()));
    bytes
}

fn unknown_mark(random: &mut Random) -> Vec<u8> {
    let mut pieces = pieces(&sound_day(random));
    let at = random.below(pieces.len());
    let mark = [random.pick(b"DPEIRFMZ\0\xFFz"), random.pick(b"YNXSTUZ\0\xFFn")];
    pieces[at][..2].copy_from_slice(&mark);
    pieces.concat()
}

fn other_mark(random: &mut Random) -> Vec<u8> {
    let mut pieces = pieces(&sound_day(random));
    let at = random.below(pieces.len());
    pieces[at][..2].copy_from_slice(random.pick(&Mark::ALL).letters());
    pieces.concat()
}

fn second_heading(random: &mut Random) -> Vec<u8> {
    let mut pieces = pieces(&sound_day(random));
    let heading = pieces[0].clone();
    pieces.insert(random.below(pieces.len() + 1), heading);
    pieces.concat()
}

fn no_heading(random: &mut Random) -> Vec<u8> {
    pieces(&sound_day(random))[1..].concat()
}

fn early_end(random: &mut Random) -> Vec<u8> {
    let mut pieces = pieces(&sound_day(random));
    let at = 1 + random.below(pieces.len() - 1);
    pieces.insert(at, end(at as u16));
    pieces.concat()
}

fn wrong_count(random: &mut Random) -> Vec<u8> {
    let draft = sound_day(random);
    let right = draft.count();
    let noise = random.next() as u16;
    let count = random.pick(&[right - 1, right + 1, 0, u16::MAX, right.swap_bytes(), noise]);
    draft.bytes_with_count(count)
}

fn bytes_after_the_end(random: &mut Random) -> Vec<u8> {
    let mut bytes = sound_day(random).bytes();
    let tail = match random.below(3) {
        0 => vec![random.byte()],
        1 => end(1),
        _ => random.bytes(30),
    };
    bytes.extend(tail);
    bytes
}

fn heading_field(random: &mut Random) -> Vec<u8> {
    let mut draft = sound_day(random);
    let heading = &mut draft.heading;
    match random.below(8) {
        0 => heading.year = random.pick(&[0, 2015, 2016, 2099, 2100, u16::MAX]),
        1 => heading.month = random.pick(&[0, 1, 2, 12, 13, 255]),
        2 => heading.day = random.pick(&[0, 28, 29, 30, 31, 32, 255]),
        3 => heading.hours = random.pick(&[0, 22, 23, 24, 25, 26, 255]),
        4 => heading.accounts = random.pick(&[0, 1, 32, 33, 255]),
        5 => heading.nodes = random.pick(&[0, 1, 16, 17, 255]),
        6 => heading.interconnections = random.pick(&[0, 8, 9, 255]),
        _ => {
            (heading.month, heading.day) = (2, 29);
        }
    }
    draft.bytes()
}

/// The numbers of a record that the heading counts, each with the heading's count.
fn counted_numbers<'a>(record: &'a mut Record, heading: &Heading) -> Vec<(&'a mut u8, u8)> {
    match record {
        Record::Price(row) => vec![(&mut row.node, heading.nodes), (&mut row.hour, heading.hours)],
        Record::Position(row) => vec![
            (&mut row.account, heading.accounts),
            (&mut row.node, heading.nodes),
            (&mut row.hour, heading.hours),
        ],
        Record::Interconnection(row) => vec![
            (&mut row.number, heading.interconnections),
            (&mut row.node, heading.nodes),
            (&mut row.hour, heading.hours),
        ],
        Record::Reserve(row) => vec![(&mut row.account, heading.accounts), (&mut row.hour, heading.hours)],
        Record::Failure(_) => Vec::new(),
        Record::Fine(row) => vec![(&mut row.account, heading.accounts)],
    }
}

/// Spoils one counted number of some record: makes it 0 or puts it above the heading's count.
fn spoil_number(random: &mut Random, draft: &mut Draft, zero: bool) {
    let heading = draft.heading;
    let at = random.below(draft.records.len());
    let mut numbers = counted_numbers(&mut draft.records[at], &heading);
    if !numbers.is_empty() {
        let which = random.below(numbers.len());
        let (number, count) = &mut numbers[which];
        **number = match zero {
            true => 0,
            false => random.pick(&[*count + 1, *count + 2, 33, 64, 255]),
        };
    }
}

fn number_zero(random: &mut Random) -> Vec<u8> {
    let mut draft = sound_day(random);
    spoil_number(random, &mut draft, true);
    draft.bytes()
}

fn number_above(random: &mut Random) -> Vec<u8> {
    let mut draft = sound_day(random);
    spoil_number(random, &mut draft, false);
    draft.bytes()
}

fn number_zero_and_above(random: &mut Random) -> Vec<u8> {
    let mut draft = sound_day(random);
    let heading = draft.heading;
    let at = random.below(draft.records.len());
    for (number, count) in counted_numbers(&mut draft.records[at], &heading) {
        *number = random.pick(&[0, 1, count, count + 1, 255]);
    }
    draft.bytes()
}

/// Puts one value of a record at or beyond its limit.
fn spoil_value(random: &mut Random, record: &mut Record) {
    let kwh = random.pick(&[MOST_KWH, MOST_KWH + 1, 1 << 31, u32::MAX]);
    let reserve_price = random.pick(&[MOST_RESERVE_PRICE, MOST_RESERVE_PRICE + 1, 1 << 31, u32::MAX]);
    let price = random.pick(&[-MOST_PRICE - 1, -MOST_PRICE, MOST_PRICE, MOST_PRICE + 1, i32::MIN, i32::MAX]);
    let small = random.pick(&[0, 5, 6, 64, 65, 255]);
    match record {
        Record::Price(row) => match random.below(2) {
            0 => row.day_ahead = price,
            _ => row.real_time = price,
        },
        Record::Position(row) => match random.below(3) {
            0 => row.class = small,
            1 => row.day_ahead = kwh,
            _ => row.real_time = kwh,
        },
        Record::Interconnection(row) => match random.below(6) {
            0 => row.system = small,
            1 => row.day_ahead_export = kwh,
            2 => row.day_ahead_import = kwh,
            3 => row.real_time_export = kwh,
            4 => row.real_time_import = kwh,
            _ => row.price = price,
        },
        Record::Reserve(row) => match random.below(6) {
            0 => row.unit = small,
            1 => row.kind = small,
            2 => row.day_ahead_price = reserve_price,
            3 => row.day_ahead = kwh,
            4 => row.real_time_price = reserve_price,
            _ => row.real_time = kwh,
        },
        Record::Failure(row) => match random.below(2) {
            0 => row.unit = small,
            _ => row.kind = small,
        },
        Record::Fine(row) => {
            row.amount = random.pick(&[0, 1, MOST_FINE, MOST_FINE + 1, 1 << 63, u64::MAX]);
        }
    }
}

fn value_out_of_range(random: &mut Random) -> Vec<u8> {
    let mut draft = sound_day(random);
    let at = random.below(draft.records.len());
    spoil_value(random, &mut draft.records[at]);
    draft.bytes()
}

fn key_taken(random: &mut Random) -> Vec<u8> {
    let mut draft = sound_day(random);
    let again = random.pick(&draft.records);
    let at = random.below(draft.records.len() + 1);
    draft.records.insert(at, again);
    draft.bytes()
}

/// The largest heading with a price and a purchase in every hour.
fn roomy_day(random: &mut Random) -> Draft {
    let heading = good_heading(random, Size::Largest);
    Draft::new(heading)
        .with_all((1..=16).flat_map(|node| (1..=25).map(move |hour| price(node, hour, 70, -80))))
        .with_all((1..=25).map(|hour| load(1, 1, hour, 5, 6)))
}

fn too_many_positions(random: &mut Random) -> Vec<u8> {
    let mut draft = roomy_day(random);
    let extra = 970 + random.below(10);
    draft.records.extend(
        (1..=25)
            .flat_map(|hour| (2..=32).map(move |account| (account, hour)))
            .flat_map(|(account, hour)| [(account, hour, 1), (account, hour, 4)])
            .map(|(account, hour, class)| position(account, 16, hour, class, 7, 8))
            .take(extra),
    );
    draft.bytes()
}

fn too_many_reserves(random: &mut Random) -> Vec<u8> {
    let mut draft = roomy_day(random);
    let extra = 396 + random.below(10);
    draft.records.extend(
        (1..=25)
            .flat_map(|hour| (1..=64).map(move |unit| reserve(2, unit, 5, hour, (3, 4), (5, 6))))
            .take(extra),
    );
    draft.bytes()
}

fn too_many_fines(random: &mut Random) -> Vec<u8> {
    let mut draft = roomy_day(random);
    let extra = 46 + random.below(10) as u32;
    draft.records.extend((0..extra).map(|identifier| fine(identifier, 3, 4)));
    random.shuffle(&mut draft.records);
    draft.bytes()
}

fn price_lost(random: &mut Random) -> Vec<u8> {
    let mut draft = sound_day(random);
    let prices: Vec<usize> =
        (0..draft.records.len()).filter(|&at| matches!(draft.records[at], Record::Price(_))).collect();
    draft.records.remove(random.pick(&prices));
    draft.bytes()
}

fn all_prices_lost(random: &mut Random) -> Vec<u8> {
    let mut draft = sound_day(random);
    draft.records.retain(|record| !matches!(record, Record::Price(_)));
    if random.chance(30) {
        draft.records.retain(|record| !matches!(record, Record::Position(_)));
    }
    draft.bytes()
}

fn purchases_lost(random: &mut Random) -> Vec<u8> {
    let mut draft = sound_day(random);
    let from = random.number(draft.heading.hours);
    for record in &mut draft.records {
        if let Record::Position(row) = record {
            if matches!(row.class, LOAD | EXPORT) && row.hour >= from {
                row.real_time = 0;
            }
        }
    }
    draft.bytes()
}

fn record_lost(random: &mut Random) -> Vec<u8> {
    let mut pieces = pieces(&sound_day(random));
    pieces.remove(1 + random.below(pieces.len() - 2));
    pieces.concat()
}

fn pieces_exchanged(random: &mut Random) -> Vec<u8> {
    let mut bytes = sound_day(random).bytes();
    let at = random.below(bytes.len());
    bytes.rotate_left(at);
    if random.chance(50) {
        bytes.splice(0..0, good_heading(random, Size::Medium).encode());
    }
    bytes
}

fn noise(random: &mut Random) -> Vec<u8> {
    let length = random.below(300);
    let mut bytes = random.bytes(length);
    if random.chance(50) {
        bytes.splice(0..0, *b"DY");
    }
    bytes
}

/// A good heading, then records whose fields are small numbers of any kind.
fn records_of_noise(random: &mut Random) -> Vec<u8> {
    let mut bytes = good_heading(random, Size::Medium).encode();
    let count = random.below(6);
    for _ in 0..count {
        let mark = random.pick(&Mark::ALL);
        bytes.extend(mark.letters());
        for _ in 2..mark.length() {
            let small = random.below(4) as u8;
            let any = random.byte();
            bytes.push(if random.chance(90) { small } else { any });
        }
    }
    bytes.extend(end(1 + count as u16));
    bytes
}

fn several(random: &mut Random) -> Vec<u8> {
    let mut draft = sound_day(random);
    for _ in 0..3 {
        let at = random.below(draft.records.len());
        match random.below(4) {
            0 => spoil_value(random, &mut draft.records[at]),
            1 => spoil_number(random, &mut draft, true),
            2 => spoil_number(random, &mut draft, false),
            _ => {
                let again = random.pick(&draft.records);
                draft.records.insert(at, again);
            }
        }
    }
    let extra = [generation(1, 1, 1, 1, 1), exchange(1, 1, 1, 1, [1; 4], 1), failure(1, 1)];
    draft.records.push(random.pick(&extra));
    let mut bytes = draft.bytes();
    if random.chance(30) {
        bytes.truncate(random.below(bytes.len()));
    }
    bytes
}

#[cfg(test)]
mod tests {
    use super::*;
    use crate::book::Book;
    use crate::format::Item;
    use crate::running::running_day;
    use crate::settle::day_table;
    use crate::sharing::Rule;

    const FILES: usize = 2 * 8 * 31;

    #[test]
    fn good_days_are_good_and_balance() {
        for index in (0..FILES).step_by(2) {
            let (name, bytes) = file(7, index);
            let book = Book::load(&bytes).expect(&name);
            assert!(book.is_sound());
            for rule in [Rule::Running, Rule::LargestRemainder] {
                let table = day_table(&book, rule).expect(&name);
                assert_eq!(table.cells().map(|cell| cell.2).sum::<i128>(), 0);
                assert!(table.cells().all(|cell| cell.2.abs() <= 50_000_000_000_000_000));
            }
            if name == "good-largest" {
                assert_eq!(bytes.len(), 34_844);
            }
        }
    }

    #[test]
    fn files_depend_on_seed_and_index_alone() {
        assert_eq!(file(1, 5), file(1, 5));
        assert_ne!(file(1, 5), file(2, 5));
    }

    #[test]
    fn damage_meets_every_reason() {
        let mut met = BTreeSet::new();
        for seed in 0..4 {
            for index in (1..FILES).step_by(2) {
                let text = running_day(&file(seed, index).1);
                if let Some(rest) = text.strip_prefix("REFUSED ") {
                    met.insert(rest.split(' ').next().unwrap().parse::<u8>().unwrap());
                }
            }
        }
        assert_eq!(met, (2..=11).collect());
    }

    #[test]
    fn records_are_decoded_as_they_were_encoded() {
        for index in (0..FILES).step_by(2) {
            let mut random = Random::new(3, index as u64);
            let draft = good_day(&mut random, Size::ALL[index % 8]);
            for record in draft.records {
                assert_eq!(Item::decode(&record.encode()), Ok(Item::Record(record)));
            }
        }
    }
}
