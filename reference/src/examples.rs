//! The worked examples of the documents, as tests.

use crate::draft::{end, failure, fine, generation, load, price, reserve, Draft};
use crate::format::{Heading, Mark};
use crate::hex;
use crate::replay::replay;
use crate::running::running_day;

const FORMAT: &str = include_str!("../../docs/FORMAT.md");
const AMOUNTS: &str = include_str!("../../docs/AMOUNTS.md");
const STATEMENT: &str = include_str!("../../docs/STATEMENT.md");
const LIFE: &str = include_str!("../../docs/LIFE.md");
const REFUSALS: &str = include_str!("../../docs/REFUSALS.md");

/// The texts between lines of three backquotes, in order.
fn blocks(document: &str) -> Vec<String> {
    let mut blocks = Vec::new();
    let mut lines = document.lines();
    while lines.any(|line| line.starts_with("```")) {
        let block: Vec<&str> = lines.by_ref().take_while(|line| !line.starts_with("```")).collect();
        blocks.push(block.iter().map(|line| format!("{line}\n")).collect());
    }
    blocks
}

fn block_that_begins(document: &str, beginning: &str) -> String {
    blocks(document)
        .into_iter()
        .find(|block| block.starts_with(beginning))
        .expect("the document has such a block")
}

fn bytes_of(text: &str) -> Vec<u8> {
    let digits: String = text.split_whitespace().collect();
    hex::decode(digits.as_bytes()).expect("pairs of hexadecimal digits")
}

fn small_day() -> Vec<u8> {
    bytes_of(&block_that_begins(FORMAT, "44 59 07 E3"))
}

fn replayed(script: &str) -> String {
    let mut out = Vec::new();
    replay(script.as_bytes(), &mut out).unwrap();
    String::from_utf8(out).unwrap()
}

#[test]
fn the_small_day() {
    let file = small_day();
    assert_eq!(file.len(), 94);
    let statement = running_day(&file);
    assert_eq!(statement, block_that_begins(STATEMENT, "DAY 2019-03-05 24 0"));
    assert_eq!(statement.len(), 135);
    let bytes = bytes_of(&block_that_begins(STATEMENT, "44 41 59"));
    assert!(statement.as_bytes().starts_with(&bytes[..37]));
    assert!(statement.as_bytes().ends_with(&bytes[37..]));
}

#[test]
fn the_small_day_issued_again() {
    let script = format!(
        "load-bytes {}\nsettle 1\nissue\nreopen\ncorrect 3 1 7 2 1300\nsettle 1\nissue\nreopen\nsettle 1\nissue\n\
         statement 1\nstatement 0\nstatement 2\nreopen\nsettle 2\nissue\nstatement 3\nreopen\nstatement 4\n",
        hex::encode(&small_day())
    );
    let first = block_that_begins(STATEMENT, "DAY 2019-03-05 24 0");
    let second = block_that_begins(STATEMENT, "DAY 2019-03-05 24 1");
    let third = block_that_begins(STATEMENT, "DAY 2019-03-05 24 2");
    assert_eq!(second.len(), 99);
    let out = replayed(&script);
    assert!(out.contains(&format!("> statement 1\n{second}> statement 0\n{first}> statement 2\n{third}")));
    // By the other rule one mil of B2 goes from account 3 to account 2; F1 stays.
    assert!(out.ends_with(
        "> statement 3\nDAY 2019-03-05 24 3\nB2 2 P 1\nB2 3 C 1\nEND 2\n\
         > reopen\nREFUSED 14 4 0 0 0 0\n> statement 4\nREFUSED 5 2 0 0 0 0\n"
    ));
}

#[test]
fn the_script() {
    let script = block_that_begins(LIFE, "# every call once");
    let answer = block_that_begins(LIFE, "> open 4459");
    assert_eq!(replayed(&script), answer);
    // Line ends of either kind, and a last line without one.
    let returned = replayed(script.replace('\n', "\r\n").trim_end());
    assert_eq!(returned.replace('\r', ""), answer);
}

#[test]
fn reserve_and_its_penalty() {
    let heading =
        Heading { year: 2019, month: 3, day: 5, hours: 24, accounts: 2, nodes: 1, interconnections: 0 };
    let with = |real_time_price: u32| {
        Draft::new(heading).with_all([
            price(1, 7, 50_000, 60_000),
            generation(1, 1, 7, 1000, 1000),
            load(2, 1, 7, 1000, 1000),
            reserve(1, 12, 3, 7, (2000, 500), (real_time_price, 400)),
            failure(12, 3),
        ])
    };
    let statements: Vec<String> =
        blocks(AMOUNTS).into_iter().filter(|block| block.starts_with("DAY")).collect();
    assert_eq!(running_day(&with(3000).bytes()), statements[0]);
    assert_eq!(running_day(&with(30_000).bytes()), statements[1]);

    let two_hours = with(3000).with_all([
        price(1, 8, 50_000, 60_000),
        load(2, 1, 8, 1, 1),
        reserve(1, 12, 3, 8, (2000, 100), (4000, 0)),
    ]);
    assert!(running_day(&two_hours.bytes()).contains("F3 1 C 500000\nF4 51 P 500000\n"));

    let fined = with(3000).with(fine(77, 2, 250));
    assert!(running_day(&fined.bytes()).ends_with("F5 2 C 250000\nF6 52 P 250000\nEND 10\n"));
}

#[test]
fn records_in_bytes() {
    for record in [
        reserve(1, 12, 3, 7, (2000, 500), (3000, 400)),
        failure(12, 3),
        fine(77, 2, 250),
        price(1, 8, -50_000, -1),
    ] {
        let spelled: Vec<String> = record.encode().iter().map(|byte| format!("{byte:02X}")).collect();
        assert!(FORMAT.contains(&format!("`{}`", spelled.join(" "))));
        assert_eq!(record.encode().len(), record.mark().length());
    }
    for mark in Mark::ALL {
        let [first, second] = mark.letters();
        let row = format!(
            "| `{}{}` | {first:02X} {second:02X} | {} |",
            char::from(*first),
            char::from(*second),
            mark.length()
        );
        assert!(FORMAT.contains(&row));
    }
}

/// Each change of the table of refused files, by the words of the table.
#[test]
fn refused_files() {
    let small = small_day();
    let set = |at: usize, bytes: &[u8]| {
        let mut file = small.clone();
        file[at..at + bytes.len()].copy_from_slice(bytes);
        file
    };
    let heading = &small[..10];
    let without_price = [heading, &small[22..90]].concat();
    let changes: Vec<(&str, Vec<u8>)> = vec![
        ("no bytes at all, or the single byte `44`", vec![]),
        ("no bytes at all, or the single byte `44`", vec![0x44]),
        ("only the first nine bytes", small[..9].to_vec()),
        ("the first byte is `45`", set(0, &[0x45])),
        ("the heading is missing, the file begins with the price", small[10..].to_vec()),
        ("26 hours in the heading", set(6, &[26])),
        ("29 February 2019", set(4, &[2, 29])),
        ("the heading stands twice", [heading, &small].concat()),
        ("the price is for hour 0", set(13, &[0])),
        ("the price is for hour 25", set(13, &[25])),
        ("the day-ahead price is 10,000,001", set(14, &10_000_001i32.to_be_bytes())),
        ("the first position is of account 33 and hour 0", set(24, &[33, 1, 0])),
        ("the first position is of account 4", set(24, &[4])),
        ("the first position has class 5", set(27, &[5])),
        ("its real-time kWh are 2,000,001", set(32, &2_000_001u32.to_be_bytes())),
        ("the second position stands twice in a row", [&small[..50], &small[36..]].concat()),
        ("the end record is missing", small[..90].to_vec()),
        ("of the end record only the byte `5A` is there", small[..91].to_vec()),
        ("the end record has three bytes", small[..93].to_vec()),
        ("its count is 7", set(92, &[0, 7])),
        ("one byte follows it", [&small[..], &[0]].concat()),
        ("the price is missing, the count is 5", [&without_price[..], &end(5)].concat()),
        ("the price is missing, the count is 6", [&without_price[..], &end(6)].concat()),
        ("both loads are missing, the count is 4", [&small[..36], &small[64..90], &end(4)].concat()),
    ];
    let rows: Vec<(&str, &str)> = REFUSALS
        .lines()
        .filter_map(|line| line.strip_prefix("| ")?.strip_suffix("` |")?.split_once(" | `REFUSED"))
        .collect();
    assert_eq!(rows.len(), changes.len() - 1);
    for (change, answer) in rows {
        let mut files = changes.iter().filter(|(name, _)| *name == change).peekable();
        assert!(files.peek().is_some(), "{change}");
        for (_, file) in files {
            assert_eq!(running_day(file), format!("REFUSED{answer}\n"), "{change}");
        }
    }

    let mut fines = Draft::new(Heading {
        year: 2019,
        month: 3,
        day: 5,
        hours: 24,
        accounts: 3,
        nodes: 1,
        interconnections: 1,
    });
    fines.records.extend((1..=51).map(|identifier| fine(identifier, 1, 1)));
    assert_eq!(running_day(&fines.bytes()), "REFUSED 8 2 760 1 0 0\n");
}

#[test]
fn lines_that_are_no_calls() {
    let script = "\
        issue extra\nISSUE\nissue\nopen\nopen 4\nopen 4g\nopen -\nload /no/such/file\nload-bytes -\n\
        ledger 1000000\nledger 1000001\nledger -1\nbuffer +1\nbuffer 0000000000000000000000000000001000000\n\
        settle 3\nsettle 0\nsettle 0002\nsheet 256 1\nsheet 255 1\nsheet 0 3\nstatement 256\nstatement 255\n\
        correct 1 1 1 1 4294967295\ncorrect 1 1 1 1 4294967296\ncorrect 1 1 1 1\ncorrect 256 1 1 1 1\n\
        close 99999999999999999999999999\nenter\tff # comment\n \t\r\n# nothing\nreopen#\n\x00\n";
    let expected = [
        "NOT A CALL",
        "NOT A CALL",
        "NOT TAKEN",
        "NOT A CALL",
        "NOT A CALL",
        "NOT A CALL",
        "REFUSED 2 1 0 0 0 0",
        "NOT A CALL",
        "REFUSED 2 1 0 0 0 0",
        "OK",
        "NOT A CALL",
        "NOT A CALL",
        "NOT A CALL",
        "OK",
        "NOT A CALL",
        "NOT A CALL",
        "NOT TAKEN",
        "NOT A CALL",
        "NOT TAKEN",
        "NOT A CALL",
        "NOT A CALL",
        "NOT TAKEN",
        "NOT TAKEN",
        "NOT A CALL",
        "NOT A CALL",
        "NOT A CALL",
        "NOT TAKEN",
        "NOT TAKEN",
        "NOT TAKEN",
        "NOT A CALL",
    ];
    let out = replayed(script);
    let answers: Vec<&str> = out.lines().filter(|line| !line.starts_with("> ")).collect();
    assert_eq!(answers, expected);
}

#[test]
fn small_ledgers_and_buffers() {
    let file = hex::encode(&small_day());
    // Issue 0 adds seven notes and issue 1 five; the sizes hold from the next load on.
    let run = |ledger: usize, buffer: usize| {
        replayed(&format!(
            "ledger {ledger}\nbuffer {buffer}\nload-bytes {file}\nledger 0\nbuffer 0\nsettle 1\nissue\nstatement 0\n\
             reopen\ncorrect 3 1 7 2 1300\nsettle 1\nissue\n"
        ))
    };
    assert!(run(6, 135)
        .contains("> issue\nREFUSED 13 4 0 0 0 0\n> statement 0\nNOT TAKEN\n> reopen\nNOT TAKEN\n"));
    assert!(run(7, 135).contains("> issue\nOK 7\n> statement 0\nDAY"));
    assert!(run(7, 135).ends_with("> issue\nREFUSED 13 4 0 0 0 0\n"));
    assert!(run(11, 134).contains("> statement 0\nREFUSED 15 4 0 0 0 0\n"));
    assert!(run(11, 134).ends_with("> issue\nREFUSED 13 4 0 0 0 0\n"));
    assert!(run(12, 134).ends_with("> issue\nOK 5\n"));
}
