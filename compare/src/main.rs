//! Prints what weedle2 answers of the texts in files, or of the one on standard input.

mod answer;
mod arguments;
mod timing;

use crate::arguments::{Arguments, USAGE};
use std::fs;
use std::io::{self, BufWriter, Read, Write};
use std::process::ExitCode;

/// The status where a file can't be read, or the answer can't be written.
const FAULT: u8 = 1;
/// The status where the arguments are of no use.
const NO_USE: u8 = 2;

fn main() -> ExitCode {
    let Some(arguments) = Arguments::new(std::env::args().skip(1)) else {
        eprintln!("{USAGE}");
        return ExitCode::from(NO_USE);
    };
    let mut out = BufWriter::new(io::stdout().lock());
    match run(&arguments, &mut out).and_then(|good| out.flush().map(|()| good)) {
        Ok(true) => ExitCode::SUCCESS,
        Ok(false) => ExitCode::from(FAULT),
        Err(error) => {
            eprintln!("cannot write output: {error}");
            ExitCode::from(FAULT)
        }
    }
}

/// Whether each text could be taken. What can't be written ends the run.
fn run(arguments: &Arguments, out: &mut impl Write) -> io::Result<bool> {
    if arguments.files.is_empty() {
        return match given() {
            Ok(text) => answer::write(&text, out).map(|()| true),
            Err(error) => Ok(complain("standard input", &error)),
        };
    }
    let mut good = true;
    for file in &arguments.files {
        match fs::read_to_string(file) {
            Ok(text) => match arguments.rounds {
                Some(rounds) => timing::write(file, &text, rounds, out)?,
                None => {
                    writeln!(out, "== {file}")?;
                    answer::write(&text, out)?;
                }
            },
            Err(error) => good = complain(file, &error),
        }
    }
    Ok(good)
}

/// The text on standard input.
fn given() -> io::Result<String> {
    let mut text = String::new();
    io::stdin().read_to_string(&mut text)?;
    Ok(text)
}

/// Says what is the matter with a text, and that the run isn't good any more.
fn complain(name: &str, error: &io::Error) -> bool {
    eprintln!("{name}: {error}");
    false
}
