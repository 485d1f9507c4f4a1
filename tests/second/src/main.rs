//! A second reader of attachment scripts and a second set of constraint systems,
//! written from the rules alone and used to test the first. It takes the same lines
//! on standard input:
//! - `second --plain` or `second --form`;
//! - `second --follow ANSWERS`, plain, where ANSWERS has what the program under test
//!   answered: whether an equate of rows says 16 is left to it within the rules.

mod calls;
mod fault;
mod form;
mod parse;
mod rules;
mod scope;
mod system;
mod tokens;
mod words;

use std::io::{self, BufWriter, Read, Write};
use std::process::ExitCode;

use calls::{Detail, Program};

fn main() -> ExitCode {
    let arguments: Vec<String> = std::env::args().skip(1).collect();
    let program = match arguments.iter().map(String::as_str).collect::<Vec<_>>()[..] {
        ["--plain"] => Ok(Program::new(Detail::Plain, None)),
        ["--form"] => Ok(Program::new(Detail::WithForm, None)),
        ["--follow", answers] => following(answers),
        _ => {
            eprintln!("usage: second --plain | --form | --follow ANSWERS");
            return ExitCode::from(2);
        }
    };
    match program.and_then(run) {
        Ok(()) => ExitCode::SUCCESS,
        Err(error) => {
            eprintln!("second: {error}");
            ExitCode::FAILURE
        }
    }
}

fn following(answers: &str) -> io::Result<Program> {
    let text = std::fs::read_to_string(answers)?;
    let given = text.lines().map(str::to_string).collect();
    Ok(Program::new(Detail::Plain, Some(given)))
}

fn run(mut program: Program) -> io::Result<()> {
    let mut input = Vec::new();
    io::stdin().lock().read_to_end(&mut input)?;
    let mut output = BufWriter::new(io::stdout().lock());
    for (index, line) in input.split(|byte| *byte == b'\n').enumerate() {
        if let Some(answer) = program.answer(line, index + 1) {
            writeln!(output, "{answer}")?;
        }
    }
    output.flush()
}
