//! The program replay_day: runs a script of calls and prints what each answered.

use std::fs;
use std::io::{self, Write};

use crate::amounts::Table;
use crate::book::Correction;
use crate::day::{Day, State};
use crate::faults::Fault;
use crate::hex;
use crate::sharing::Rule;
use crate::statement::{amount_line, end_line};

const MOST_ROOM: u64 = 1_000_000;

/// What a line of a script asks for.
enum Line {
    Ledger(usize),
    Buffer(usize),
    Open(Vec<u8>),
    Load(Vec<u8>),
    OnDay(Call),
}

/// A call on a day.
enum Call {
    Enter(Vec<u8>),
    Close(Vec<u8>),
    Correct(Correction),
    Settle(Rule),
    Sheet(u8, Rule),
    Issue,
    Statement(u8),
    Reopen,
}

impl Line {
    /// The line with these words; none if there is no such line.
    fn from_words(words: &[&[u8]]) -> Option<Line> {
        let (&name, arguments) = words.split_first()?;
        Some(match (name, arguments) {
            (b"ledger", [room]) => Line::Ledger(room_of(room)?),
            (b"buffer", [room]) => Line::Buffer(room_of(room)?),
            (b"open", [bytes]) => Line::Open(hex::decode(bytes)?),
            (b"load", [path]) => Line::Load(fs::read(std::str::from_utf8(path).ok()?).ok()?),
            (b"load-bytes", [bytes]) => Line::Load(hex::decode(bytes)?),
            (b"enter", [bytes]) => Line::OnDay(Call::Enter(hex::decode(bytes)?)),
            (b"close", [bytes]) => Line::OnDay(Call::Close(hex::decode(bytes)?)),
            (b"correct", [account, node, hour, class, kwh]) => Line::OnDay(Call::Correct(Correction {
                account: byte_of(account)?,
                node: byte_of(node)?,
                hour: byte_of(hour)?,
                class: byte_of(class)?,
                kwh: u32::try_from(number_of(kwh)?).ok()?,
            })),
            (b"settle", [rule]) => Line::OnDay(Call::Settle(rule_of(rule)?)),
            (b"sheet", [hour, rule]) => Line::OnDay(Call::Sheet(byte_of(hour)?, rule_of(rule)?)),
            (b"issue", []) => Line::OnDay(Call::Issue),
            (b"statement", [issue]) => Line::OnDay(Call::Statement(byte_of(issue)?)),
            (b"reopen", []) => Line::OnDay(Call::Reopen),
            _ => return None,
        })
    }
}

/// A number in decimal digits. One that is too large for 64 bits is given as the largest: it is too large for any use.
fn number_of(word: &[u8]) -> Option<u64> {
    if word.is_empty() || !word.iter().all(u8::is_ascii_digit) {
        return None;
    }
    Some(
        word.iter()
            .fold(0u64, |number, digit| number.saturating_mul(10).saturating_add(u64::from(digit - b'0'))),
    )
}

fn byte_of(word: &[u8]) -> Option<u8> {
    u8::try_from(number_of(word)?).ok()
}

fn room_of(word: &[u8]) -> Option<usize> {
    let number = number_of(word)?;
    (number <= MOST_ROOM).then_some(number as usize)
}

fn rule_of(word: &[u8]) -> Option<Rule> {
    Rule::from_number(number_of(word)?)
}

impl Call {
    fn is_taken_in(&self, state: State) -> bool {
        match self {
            Call::Enter(_) | Call::Close(_) => state == State::Open,
            Call::Correct(_) | Call::Settle(_) => state == State::Closed,
            Call::Issue => state == State::Settled,
            Call::Sheet(..) => matches!(state, State::Settled | State::Issued),
            Call::Statement(_) | Call::Reopen => state == State::Issued,
        }
    }

    /// Makes the call and gives what it answered, in text.
    fn make(self, day: &mut Day, buffer: usize) -> Result<String, Fault> {
        match self {
            Call::Enter(bytes) => day.enter(&bytes).map(ok),
            Call::Close(bytes) => day.close(&bytes).map(ok),
            Call::Correct(correction) => day.correct(correction).map(ok),
            Call::Settle(rule) => day.settle(rule).map(ok),
            Call::Sheet(hour, rule) => day.sheet(hour, rule).map(|table| sheet_text(&table)),
            Call::Issue => day.issue().map(|added| format!("OK {added}\n")),
            Call::Statement(issue) => day.statement(issue, buffer),
            Call::Reopen => day.reopen().map(ok),
        }
    }
}

fn ok(_: ()) -> String {
    "OK\n".to_string()
}

fn sheet_text(table: &Table) -> String {
    let lines: Vec<String> = table
        .cells()
        .filter(|&(_, _, amount)| amount != 0)
        .map(|(code, party, amount)| amount_line(code, party, amount))
        .collect();
    lines.concat() + &end_line(lines.len())
}

/// The sizes of the memory that a day is lent.
#[derive(Clone, Copy)]
struct Sizes {
    ledger: usize,
    buffer: usize,
}

/// A script as it is being run.
struct Replay {
    day: Option<Day>,
    /// The sizes that the day has.
    held: Sizes,
    /// The sizes that the next open or load takes.
    wanted: Sizes,
}

impl Replay {
    fn new() -> Replay {
        let sizes = Sizes { ledger: 2128, buffer: 65_536 };
        Replay { day: None, held: sizes, wanted: sizes }
    }

    /// Begins another day in place of the one before.
    fn begin(&mut self, bytes: &[u8], how: fn(&[u8], usize) -> Result<Day, Fault>) -> String {
        self.held = self.wanted;
        match how(bytes, self.held.ledger) {
            Ok(day) => {
                self.day = Some(day);
                ok(())
            }
            Err(fault) => {
                self.day = None;
                format!("{fault}\n")
            }
        }
    }

    /// What a line with these words is answered.
    fn answer(&mut self, words: &[&[u8]]) -> String {
        match Line::from_words(words) {
            None => "NOT A CALL\n".to_string(),
            Some(Line::Ledger(entries)) => {
                self.wanted.ledger = entries;
                ok(())
            }
            Some(Line::Buffer(bytes)) => {
                self.wanted.buffer = bytes;
                ok(())
            }
            Some(Line::Open(bytes)) => self.begin(&bytes, Day::open),
            Some(Line::Load(bytes)) => self.begin(&bytes, Day::load),
            Some(Line::OnDay(call)) => match &mut self.day {
                Some(day) if call.is_taken_in(day.state()) => {
                    call.make(day, self.held.buffer).unwrap_or_else(|fault| format!("{fault}\n"))
                }
                _ => "NOT TAKEN\n".to_string(),
            },
        }
    }
}

/// The words of a line, its comment left out.
fn words_of(line: &[u8]) -> Vec<&[u8]> {
    let before_comment = line.split(|&byte| byte == b'#').next().unwrap_or(line);
    before_comment
        .split(|byte| matches!(byte, b' ' | b'\t' | b'\r'))
        .filter(|word| !word.is_empty())
        .collect()
}

pub fn replay(script: &[u8], out: &mut impl Write) -> io::Result<()> {
    let mut replay = Replay::new();
    for line in script.split(|&byte| byte == b'\n') {
        let words = words_of(line);
        if words.is_empty() {
            continue;
        }
        out.write_all(b"> ")?;
        out.write_all(line)?;
        out.write_all(b"\n")?;
        out.write_all(replay.answer(&words).as_bytes())?;
    }
    Ok(())
}
