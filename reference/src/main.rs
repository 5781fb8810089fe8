//! A second settlement engine, written from the documents alone. See reference/README.md.

mod amounts;
mod book;
mod day;
mod draft;
mod faults;
mod format;
mod generate;
mod hex;
mod kinds;
mod ledger;
mod limits;
mod lines;
mod replay;
mod running;
mod settle;
mod sharing;
mod statement;

#[cfg(test)]
mod examples;

use std::env;
use std::error::Error;
use std::io::{self, BufWriter, Read, Write};
use std::path::Path;
use std::process::ExitCode;

const USAGE: &str = "usage: engine running-day < FILE
       engine replay < SCRIPT
       engine lines < TEXT
       engine limits
       engine generate SEED COUNT DIR";

fn read_input() -> io::Result<Vec<u8>> {
    let mut input = Vec::new();
    io::stdin().lock().read_to_end(&mut input)?;
    Ok(input)
}

fn run(arguments: &[&str]) -> Result<(), Box<dyn Error>> {
    let mut out = BufWriter::new(io::stdout().lock());
    match arguments {
        ["running-day"] => out.write_all(running::running_day(&read_input()?).as_bytes())?,
        ["replay"] => replay::replay(&read_input()?, &mut out)?,
        ["lines"] => lines::lines(&read_input()?, &mut out)?,
        ["limits"] => limits::limits(&mut out)?,
        ["generate", seed, count, directory] => {
            generate::generate(seed.parse()?, count.parse()?, Path::new(directory))?
        }
        _ => return Err(USAGE.into()),
    }
    out.flush()?;
    Ok(())
}

fn main() -> ExitCode {
    let arguments: Vec<String> = env::args().skip(1).collect();
    let arguments: Vec<&str> = arguments.iter().map(String::as_str).collect();
    match run(&arguments) {
        Ok(()) => ExitCode::SUCCESS,
        Err(error) => {
            eprintln!("{error}");
            ExitCode::FAILURE
        }
    }
}
