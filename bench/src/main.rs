//! Runs Curdmesa and the Rust crate `sentry-types` side by side in one process.

mod agree;
mod answers;
mod compare;
mod differences;
mod frames;
mod rows;
mod speed;

use std::process::ExitCode;

const USAGE: &str = "usage: beside agree SEED COUNT
       beside agree FILE
       beside speed ROUNDS PATH..
       beside speed --once ours|theirs read|both|TYPE FILE COUNT
       beside speed --filter ROUNDS PATH..
       beside speed --memory PATH..
       beside speed --frames ROUNDS PATH..";

fn number(word: &str) -> Option<u64> {
    word.parse().ok()
}

fn run(words: &[&str]) -> Option<Result<bool, std::io::Error>> {
    match words {
        ["agree", seed, count] => Some(agree::run(number(seed)?, number(count)?)),
        ["agree", file] => Some(agree::run_file(file)),
        ["speed", "--once", side, part, file, count] => {
            let work = speed::Work::from_words(side, part)?;
            Some(speed::once(work, file, number(count)?).map(|()| true))
        }
        ["speed", "--peak", side, part, file, room] => {
            let work = speed::Work::from_words(side, part)?;
            let room = room.parse().ok()?;
            Some(speed::peak_once(work, file, room).map(|()| true))
        }
        ["speed", "--memory", paths @ ..] if !paths.is_empty() => {
            Some(speed::memory(paths).map(|()| true))
        }
        ["speed", "--frames", rounds, paths @ ..] if !paths.is_empty() => {
            let rounds = number(rounds).filter(|rounds| *rounds > 0)?;
            Some(speed::frames(rounds, paths).map(|()| true))
        }
        ["speed", "--filter", rounds, paths @ ..] if !paths.is_empty() => {
            let rounds = number(rounds).filter(|rounds| *rounds > 0)?;
            Some(speed::filter(rounds, paths).map(|()| true))
        }
        ["speed", rounds, paths @ ..] if !paths.is_empty() => {
            let rounds = number(rounds).filter(|rounds| *rounds > 0)?;
            Some(speed::run(rounds, paths).map(|()| true))
        }
        _ => None,
    }
}

fn main() -> ExitCode {
    let words: Vec<String> = std::env::args().skip(1).collect();
    let words: Vec<&str> = words.iter().map(String::as_str).collect();
    match run(&words) {
        Some(Ok(true)) => ExitCode::SUCCESS,
        Some(Ok(false)) => ExitCode::from(1),
        Some(Err(error)) => {
            eprintln!("beside: {error}");
            ExitCode::from(2)
        }
        None => {
            eprintln!("{USAGE}");
            ExitCode::from(3)
        }
    }
}
