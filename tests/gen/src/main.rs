//! Makes inputs for the comparison of two programs.
//!
//! - `gen SEED COUNT` writes an input with COUNT drawn scripts.
//! - `gen one SEED INDEX` writes only the script of that index (from 0), with the
//!   pile and the sheet it is read with.
//! - `gen sweep` writes the scripts that are counted through and not drawn.
//! - `gen calls SEED COUNT PILES` writes about COUNT calls of bare systems, in lists
//!   for these piles (names with commas between them).
//! - `gen pairs PILES` writes every two equates over some codes.

mod blocks;
mod calls;
mod changes;
mod grammar;
mod kinds;
mod limits;
mod lines;
mod pieces;
mod rng;
mod samples;
mod setting;
mod sweep;
mod words;

use std::io::{self, BufWriter, Write};
use std::process::ExitCode;

const USAGE: &str = "usage: gen SEED COUNT | gen one SEED INDEX | gen sweep \
                     | gen calls SEED COUNT PILES | gen pairs PILES";

fn main() -> ExitCode {
    let arguments: Vec<String> = std::env::args().skip(1).collect();
    let Some(lines) = wanted(&arguments) else {
        eprintln!("{USAGE}");
        return ExitCode::from(2);
    };
    match write_lines(&lines) {
        Ok(()) => ExitCode::SUCCESS,
        Err(error) => {
            eprintln!("gen: {error}");
            ExitCode::FAILURE
        }
    }
}

fn wanted(arguments: &[String]) -> Option<Vec<Vec<u8>>> {
    let words: Vec<&str> = arguments.iter().map(String::as_str).collect();
    match words[..] {
        ["sweep"] => Some(sweep::input()),
        ["one", seed, index] => Some(blocks::single(seed.parse().ok()?, index.parse().ok()?)),
        ["pairs", piles] => Some(calls::pairs::input(piles)),
        ["calls", seed, count, piles] => {
            let (seed, count) = (seed.parse().ok()?, count.parse().ok()?);
            Some(calls::input(seed, count, piles))
        }
        [seed, count] => Some(blocks::input(seed.parse().ok()?, count.parse().ok()?)),
        _ => None,
    }
}

fn write_lines(lines: &[Vec<u8>]) -> io::Result<()> {
    let mut output = BufWriter::new(io::stdout().lock());
    for line in lines {
        output.write_all(line)?;
        output.write_all(b"\n")?;
    }
    output.flush()
}
