//! Writes a tape from a text that people can read and write:
//!
//! ```text
//! tape [FILE]              the tape, on standard output
//! tape --listing [FILE]    what the listing program must print for that tape
//! ```
//!
//! Without FILE the text is read from standard input. A line that does not fit is named on standard
//! error, with what was expected there; nothing is then written and the exit status is 1.
//!
//! # The text
//!
//! `#` begins a comment, blank lines are skipped. A line is one of these:
//!
//! ```text
//! setup A n=3 T=2 E=2 alpha=0   the setup; A, U or a number from 0 to 255, as are n, T, E and alpha
//! default 0                     the default; 0 if the line is left out
//! starts 5 5 9                  a start for each station
//! starts all 4                  the same start for each station
//! round                         a round; a line for each receiver follows, with a cell for each sender:
//! . 7 -                           . as sent   7 a value   ? no value   - lost
//! all                           the round in which all hear what was sent
//! all but 0<6=8 3<1=-           the same but for these cells: receiver<sender=cell
//! again 4095                    the round before, another 4095 times
//! bytes 06 00 00                bytes in hex, for damaged tapes
//! cut 4                         drops the last 4 bytes of the tape so far
//! ```
//!
//! An opening is a setup, perhaps a default, and the starts, in this order; `bytes` or `cut` ends it too.
//! The number of stations is the tape's byte 2. What was to be sent is asked of the run that the tape
//! so far gives, each time a round is written, so `again` under U alternates values and votes. That run
//! and the listing come from the independent judge: this is a tool for tests, not a part of the judge.
//! What the bytes are is said in `docs/RULES.md`, sections 2 to 4 and 13; "rule 13.2" is one of its rules.
//! Numbers are never judged: a tape that is to be refused is written like any other.

#![forbid(unsafe_code)]

use std::io::{Read, Write};
use std::process::ExitCode;

mod bytes;
#[cfg(test)]
mod tests;
mod text;

const USAGE: &str = "usage: tape [--listing] [FILE]";
const LISTING: &str = "--listing";

/// The text of the file named, or of standard input.
fn read(file: Option<&str>) -> Result<Vec<u8>, String> {
    let mut text = Vec::new();
    match file {
        Some(name) => text = std::fs::read(name).map_err(|e| format!("{name}: {e}"))?,
        None => {
            std::io::stdin().read_to_end(&mut text).map_err(|e| format!("standard input: {e}"))?;
        }
    }
    Ok(text)
}

fn write(arguments: &[&str]) -> Result<(), String> {
    let (listed, file) = match *arguments {
        [] => (false, None),
        [LISTING] => (true, None),
        [LISTING, file] if !file.starts_with('-') => (true, Some(file)),
        [file] if !file.starts_with('-') => (false, Some(file)),
        _ => return Err(USAGE.to_string()),
    };
    let named = file.unwrap_or("standard input");
    let tape = text::tape(&read(file)?).map_err(|fault| format!("{named}: {fault}"))?;
    let output = if listed { independent::listing(&tape).into_bytes() } else { tape };
    let mut stdout = std::io::stdout();
    stdout.write_all(&output).and_then(|()| stdout.flush()).map_err(|e| format!("output: {e}"))
}

fn main() -> ExitCode {
    let arguments: Vec<String> = std::env::args().skip(1).collect();
    let arguments: Vec<&str> = arguments.iter().map(String::as_str).collect();
    match write(&arguments) {
        Ok(()) => ExitCode::SUCCESS,
        Err(complaint) => {
            eprintln!("{complaint}");
            ExitCode::FAILURE
        }
    }
}
