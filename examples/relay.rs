//! A relay's filter: drops items of an envelope, and reports what is lost.
//!
//! ```sh
//! relay LARGEST [TYPE].. < ENVELOPE > FORWARDED 2> REPORT
//! ```
//!
//! Dropped are attachments of more than LARGEST bytes, and items of the types, known ones or not.
//! What is left is written byte for byte; the report is an envelope. Where nothing is left, or
//! nothing is lost, nothing is written. Status 1 if the input is no envelope, 2 for wrong arguments
//! or where reading or writing fails.

use curdmesa::{forward, AnyFrame, ItemKind, Ledger, Reason};
use std::io::{self, Read, Write};
use std::process::ExitCode;
use std::time::SystemTime;

/// What is dropped.
struct Rules {
    largest: usize,
    words: Vec<String>,
}

impl Rules {
    fn from_args(mut args: impl Iterator<Item = String>) -> Option<Rules> {
        let largest = args.next()?.parse().ok()?;
        let words = args.collect();
        Some(Rules { largest, words })
    }

    fn keep(&self, frame: &AnyFrame<'_>) -> bool {
        let is_large =
            frame.kind == Some(ItemKind::Attachment) && frame.payload.len() > self.largest;
        !is_large && !self.words.iter().any(|word| *word == frame.word)
    }
}

/// Returns what is left of an envelope, and the report of what is lost; both may be empty.
fn relay(rules: &Rules, bytes: &[u8]) -> Result<(Vec<u8>, Vec<u8>), curdmesa::Error> {
    let left = forward(bytes, true, |frame| rules.keep(frame))?;
    let mut ledger = Ledger::new();
    ledger.record_losses(&left.losses, Reason::EventProcessor);
    let report = ledger.flush(SystemTime::now())?;
    Ok((
        left.envelope.unwrap_or_default(),
        report.unwrap_or_default(),
    ))
}

fn read_all() -> io::Result<Vec<u8>> {
    let mut bytes = Vec::new();
    io::stdin().read_to_end(&mut bytes)?;
    Ok(bytes)
}

fn write_all(left: &[u8], report: &[u8]) -> io::Result<()> {
    io::stdout().write_all(left)?;
    io::stdout().flush()?;
    io::stderr().write_all(report)
}

fn main() -> ExitCode {
    let (Some(rules), Ok(bytes)) = (Rules::from_args(std::env::args().skip(1)), read_all()) else {
        eprintln!("usage: relay LARGEST [TYPE].. < ENVELOPE > FORWARDED 2> REPORT");
        return ExitCode::from(2);
    };
    match relay(&rules, &bytes) {
        Ok((left, report)) => match write_all(&left, &report) {
            Ok(()) => ExitCode::SUCCESS,
            Err(_) => ExitCode::from(2),
        },
        Err(error) => {
            eprintln!("relay: {error}");
            ExitCode::FAILURE
        }
    }
}
