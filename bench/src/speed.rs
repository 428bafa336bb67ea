//! Times both over the same inputs, one after the other in each round.

use crate::answers::{self, Answer, NOW, SEED};
use curdmesa::{ItemKind, Kinds};
use sentry_types::protocol::v7::{Envelope, EnvelopeItem, ItemContainer};
use std::borrow::Cow;
use std::fs;
use std::hint::black_box;
use std::io::{Error, Result};
use std::path::{Path, PathBuf};
use std::process::Command;
use std::time::{Duration, Instant};

/// How long a side runs in a round, at least.
const SLICE: Duration = Duration::from_millis(10);

/// Room beside a written envelope: the moment that the Rust crate draws has more or fewer digits.
const MORE: usize = 64;

/// What is timed.
#[derive(Clone, Copy)]
pub enum Work {
    OursRead,
    OursBoth,
    /// Reads, takes out the items of a type and writes what is left.
    OursWithout(ItemKind),
    TheirsRead,
    TheirsBoth,
    TheirsWithout(ItemKind),
}

impl Work {
    /// Returns the work of two words; the second of a filter is the item type that is taken out.
    pub fn from_words(side: &str, part: &str) -> Option<Work> {
        match (side, part) {
            ("ours", "read") => Some(Work::OursRead),
            ("ours", "both") => Some(Work::OursBoth),
            ("theirs", "read") => Some(Work::TheirsRead),
            ("theirs", "both") => Some(Work::TheirsBoth),
            ("ours", kind) => Some(Work::OursWithout(kind.parse().ok()?)),
            ("theirs", kind) => Some(Work::TheirsWithout(kind.parse().ok()?)),
            _ => None,
        }
    }

    /// Returns the two words of the work.
    fn words(self) -> [&'static str; 2] {
        match self {
            Work::OursRead => ["ours", "read"],
            Work::OursBoth => ["ours", "both"],
            Work::OursWithout(kind) => ["ours", kind.as_str()],
            Work::TheirsRead => ["theirs", "read"],
            Work::TheirsBoth => ["theirs", "both"],
            Work::TheirsWithout(kind) => ["theirs", kind.as_str()],
        }
    }

    /// Returns a buffer for what is written of an input; the work may be done again with it.
    fn buffer(self, input: &Input) -> Vec<u8> {
        match self {
            Work::OursRead | Work::OursWithout(_) | Work::TheirsRead => Vec::new(),
            Work::OursBoth => vec![0; input.room],
            Work::TheirsBoth | Work::TheirsWithout(_) => Vec::with_capacity(input.room),
        }
    }

    /// Does the work once, with a buffer for what is written, and returns whether the envelope is
    /// accepted.
    fn accepts(self, bytes: &[u8], out: &mut Vec<u8>) -> bool {
        match self {
            Work::OursRead => curdmesa::check(bytes, NOW).is_ok(),
            Work::OursBoth => black_box(&curdmesa::normalize_into(bytes, NOW, SEED, out)).is_ok(),
            Work::OursWithout(kind) => ours_without(bytes, kind).is_some(),
            Work::TheirsRead => black_box(&Envelope::from_slice(bytes)).is_ok(),
            Work::TheirsBoth => {
                out.clear();
                let envelope = Envelope::from_slice(bytes);
                let accepted = envelope.is_ok_and(|envelope| envelope.to_writer(&mut *out).is_ok());
                black_box(&out);
                accepted
            }
            Work::TheirsWithout(kind) => theirs_without(bytes, kind, out).is_some(),
        }
    }

    fn time(self, input: &Input, times: u32) -> f64 {
        let mut out = self.buffer(input);
        let start = Instant::now();
        for _ in 0..times {
            black_box(self.accepts(black_box(&input.bytes), &mut out));
        }
        start.elapsed().as_secs_f64() / f64::from(times)
    }

    /// Returns how many times the work is done in a round.
    fn times(self, input: &Input) -> u32 {
        let mut times = 1;
        while self.time(input, times) * f64::from(times) < SLICE.as_secs_f64() {
            times *= 2;
        }
        times
    }
}

/// Takes the items of a type out of an envelope, and returns whether any is left; `None` if the
/// envelope is refused.
fn ours_without(bytes: &[u8], removed: ItemKind) -> Option<bool> {
    let filtered = curdmesa::filter(bytes, NOW, SEED, Kinds::Remove(&[removed]), false);
    Some(black_box(&filtered).as_ref().ok()?.envelope.is_some())
}

/// Does the same by the Rust crate, with a buffer for what is written.
fn theirs_without(bytes: &[u8], removed: ItemKind, out: &mut Vec<u8>) -> Option<bool> {
    out.clear();
    let envelope = Envelope::from_slice(bytes).ok()?;
    let left = envelope.filter(|item: &EnvelopeItem| kind(item) != Some(removed));
    if let Some(left) = &left {
        left.to_writer(&mut *out).ok()?;
    }
    black_box(&out);
    Some(left.is_some())
}

/// Returns the type of an item of the Rust crate.
fn kind(item: &EnvelopeItem) -> Option<ItemKind> {
    match item {
        EnvelopeItem::Event(_) => Some(ItemKind::Event),
        EnvelopeItem::SessionUpdate(_) => Some(ItemKind::Session),
        EnvelopeItem::SessionAggregates(_) => Some(ItemKind::Sessions),
        EnvelopeItem::Transaction(_) => Some(ItemKind::Transaction),
        EnvelopeItem::Attachment(_) => Some(ItemKind::Attachment),
        EnvelopeItem::MonitorCheckIn(_) => Some(ItemKind::CheckIn),
        EnvelopeItem::ItemContainer(ItemContainer::Logs(_)) => Some(ItemKind::Log),
        EnvelopeItem::ItemContainer(ItemContainer::Metrics(_)) => Some(ItemKind::TraceMetric),
        EnvelopeItem::ClientReport(_) => Some(ItemKind::ClientReport),
        _ => None,
    }
}

/// The bytes of an envelope, and the capacity of the buffer that either side writes it to.
struct Input {
    bytes: Vec<u8>,
    room: usize,
}

impl Input {
    /// Reads a file: the room is that of the longer of the two texts, so that neither side has to
    /// ask for more. `None` if the envelope isn't accepted by both.
    fn read(file: &Path) -> Result<Option<Input>> {
        let bytes = fs::read(file)?;
        let (ours, theirs) = (answers::ours(&bytes), answers::theirs(&bytes));
        let (Answer::Written(ours), Answer::Written(theirs)) = (ours, theirs) else {
            eprintln!("{}: not accepted by both", file.display());
            return Ok(None);
        };
        let room = ours.len().max(theirs.len()) + MORE;
        Ok(Some(Input { bytes, room }))
    }
}

fn name(file: &Path) -> Cow<'_, str> {
    file.file_name().unwrap_or_default().to_string_lossy()
}

/// The times of both sides over the rounds, in seconds for an envelope.
struct Pair {
    ours: Vec<f64>,
    theirs: Vec<f64>,
}

impl Pair {
    fn measure(ours: Work, theirs: Work, input: &Input, rounds: u64) -> Pair {
        let (ours_times, theirs_times) = (ours.times(input), theirs.times(input));
        let mut pair = Pair {
            ours: Vec::new(),
            theirs: Vec::new(),
        };
        for _ in 0..rounds {
            pair.ours.push(ours.time(input, ours_times));
            pair.theirs.push(theirs.time(input, theirs_times));
        }
        pair
    }

    /// Returns the best time of each side.
    fn best(&self) -> [f64; 2] {
        [best(&self.ours), best(&self.theirs)]
    }

    /// Returns the best times and their ratio, and the lowest and the highest ratio of a round.
    fn text(&self) -> String {
        let ratios: Vec<f64> = self
            .ours
            .iter()
            .zip(&self.theirs)
            .map(|(a, b)| a / b)
            .collect();
        let high = ratios.iter().copied().fold(0.0, f64::max);
        let low = best(&ratios);
        format!("{} ({low:.2} to {high:.2})", columns(self.best()))
    }
}

fn best(times: &[f64]) -> f64 {
    times.iter().copied().fold(f64::INFINITY, f64::min)
}

/// Returns two times in microseconds, and their ratio.
fn columns([ours, theirs]: [f64; 2]) -> String {
    let micros = 1e6;
    format!(
        "{:.1} | {:.1} | {:.2}",
        ours * micros,
        theirs * micros,
        ours / theirs
    )
}

/// Returns what is left of the best times of both, less those of reading.
fn written(read: &Pair, both: &Pair) -> String {
    let ([ours_read, theirs_read], [ours, theirs]) = (read.best(), both.best());
    let left = [ours - ours_read, theirs - theirs_read];
    match left.iter().all(|time| *time > 0.0) {
        true => columns(left),
        false => "- | - | -".to_owned(),
    }
}

/// Returns the files of paths: a path itself, or the files of the folder.
fn files(paths: &[&str]) -> Result<Vec<PathBuf>> {
    let mut files = Vec::new();
    for path in paths {
        if Path::new(path).is_dir() {
            let mut inside = Vec::new();
            for entry in fs::read_dir(path)? {
                inside.push(entry?.path());
            }
            inside.retain(|path| path.is_file());
            inside.sort();
            files.extend(inside);
        } else {
            files.push(PathBuf::from(path));
        }
    }
    Ok(files)
}

/// Prints a table of the inputs that both accept.
pub fn run(rounds: u64, paths: &[&str]) -> Result<()> {
    println!(
        "| Input | Bytes | Ours, read | Theirs | Ratio | Ours, both | Theirs | Ratio \
         | Ours, written | Theirs | Ratio |"
    );
    println!("|---|---|---|---|---|---|---|---|---|---|---|");
    for file in files(paths)? {
        let Some(input) = Input::read(&file)? else {
            continue;
        };
        let read = Pair::measure(Work::OursRead, Work::TheirsRead, &input, rounds);
        let both = Pair::measure(Work::OursBoth, Work::TheirsBoth, &input, rounds);
        println!(
            "| {} | {} | {} | {} | {} |",
            name(&file),
            input.bytes.len(),
            read.text(),
            both.text(),
            written(&read, &both)
        );
    }
    Ok(())
}

/// Prints a table of the inputs that both accept, of which a type is taken out that no item has, and
/// the type of the first item. Panics if only one of the two leaves something.
pub fn filter(rounds: u64, paths: &[&str]) -> Result<()> {
    println!("| Input | Bytes | Ours, kept | Theirs | Ratio | Ours, taken | Theirs | Ratio |");
    println!("|---|---|---|---|---|---|---|---|");
    for file in files(paths)? {
        let Some(input) = Input::read(&file)? else {
            continue;
        };
        let bytes = &input.bytes;
        let Some(Ok(first)) = curdmesa::frames(bytes).next() else {
            continue;
        };
        // The Rust crate refuses user reports.
        let [kept, taken] = [ItemKind::UserReport, first.kind].map(|kind| {
            let left = theirs_without(bytes, kind, &mut Vec::new());
            assert_eq!(ours_without(bytes, kind), left, "{}: {kind}", name(&file));
            let (ours, theirs) = (Work::OursWithout(kind), Work::TheirsWithout(kind));
            Pair::measure(ours, theirs, &input, rounds).text()
        });
        println!("| {} | {} | {kept} | {taken} |", name(&file), bytes.len());
    }
    Ok(())
}

/// Returns how many envelopes a second a call does of all inputs together, the best of the rounds.
fn rate(inputs: &[Vec<u8>], rounds: u64, call: impl Fn(&[u8])) -> f64 {
    let time = |times: u32| {
        let start = Instant::now();
        for _ in 0..times {
            inputs.iter().for_each(|bytes| call(black_box(bytes)));
        }
        start.elapsed().as_secs_f64() / f64::from(times)
    };
    let mut times = 1;
    while time(times) * f64::from(times) < SLICE.as_secs_f64() {
        times *= 2;
    }
    let all: Vec<f64> = (0..rounds).map(|_| time(times)).collect();
    inputs.len() as f64 / best(&all)
}

/// Prints how many of the inputs a second are framed, and are forwarded whole, and how many a
/// split at line feeds takes, which is no reading of an envelope. Inputs may have any item types.
pub fn frames(rounds: u64, paths: &[&str]) -> Result<()> {
    let inputs: Vec<Vec<u8>> = files(paths)?.iter().map(fs::read).collect::<Result<_>>()?;
    for bytes in &inputs {
        curdmesa::forward(bytes, false, |_| true).map_err(|_| refused())?;
    }
    let framed = rate(&inputs, rounds, |bytes| {
        black_box(curdmesa::any_frames(bytes).count());
    });
    let forwarded = rate(&inputs, rounds, |bytes| {
        let _ = black_box(curdmesa::forward(bytes, false, |_| true));
    });
    let split = rate(&inputs, rounds, |bytes| {
        black_box(bytes.split(|byte| *byte == b'\n').count());
    });
    println!("| {} envelopes | A second |", inputs.len());
    println!("|---|---|");
    println!("| `any_frames` | {framed:.0} |");
    println!("| `forward`, which frames twice | {forwarded:.0} |");
    println!("| split at line feeds | {split:.0} |");
    Ok(())
}

fn refused() -> Error {
    Error::other("the envelope is refused")
}

/// Does one work `count` times over a file, for a tool that counts instructions.
pub fn once(work: Work, file: &str, count: u64) -> Result<()> {
    let input = Input::read(Path::new(file))?.ok_or_else(refused)?;
    let mut out = work.buffer(&input);
    for _ in 0..count {
        if !work.accepts(black_box(&input.bytes), &mut out) {
            return Err(refused());
        }
    }
    Ok(())
}

/// Returns the most memory that the process held so far, in KiB.
fn peak() -> Result<u64> {
    let status = fs::read_to_string("/proc/self/status")?;
    status
        .lines()
        .find_map(|line| line.strip_prefix("VmHWM:"))
        .and_then(|rest| rest.trim().strip_suffix(" kB")?.parse().ok())
        .ok_or_else(|| Error::other("/proc/self/status has no VmHWM"))
}

/// Does one work once over a file, and prints by how many KiB the process's memory grew at most.
pub fn peak_once(work: Work, file: &str, room: usize) -> Result<()> {
    let bytes = fs::read(file)?;
    let input = Input { bytes, room };
    let before = peak()?;
    let mut out = work.buffer(&input);
    if !work.accepts(black_box(&input.bytes), &mut out) {
        return Err(refused());
    }
    println!("{}", peak()? - before);
    Ok(())
}

/// Returns the peak of one work in a process of its own, in KiB.
fn peak_alone(work: Work, file: &Path, room: usize) -> Result<u64> {
    let [side, part] = work.words();
    let program = std::env::current_exe()?;
    let out = Command::new(program)
        .args(["speed", "--peak", side, part])
        .arg(file)
        .arg(room.to_string())
        .output()?;
    String::from_utf8_lossy(&out.stdout)
        .trim()
        .parse()
        .map_err(|_| Error::other(String::from_utf8_lossy(&out.stderr).into_owned()))
}

/// Prints a table of the peaks of memory over the inputs that both accept.
pub fn memory(paths: &[&str]) -> Result<()> {
    println!("| Input | KiB | Ours, read | Theirs | Ratio | Ours, both | Theirs | Ratio |");
    println!("|---|---|---|---|---|---|---|---|");
    for file in files(paths)? {
        let Some(input) = Input::read(&file)? else {
            continue;
        };
        let peaks = [
            Work::OursRead,
            Work::TheirsRead,
            Work::OursBoth,
            Work::TheirsBoth,
        ]
        .map(|work| peak_alone(work, &file, input.room));
        let [ours_read, theirs_read, ours_both, theirs_both] = peaks;
        let (ours_read, theirs_read) = (ours_read?, theirs_read?);
        let (ours_both, theirs_both) = (ours_both?, theirs_both?);
        let ratio = |ours: u64, theirs: u64| ours as f64 / theirs.max(1) as f64;
        println!(
            "| {} | {} | {ours_read} | {theirs_read} | {:.2} | {ours_both} | {theirs_both} | {:.2} |",
            name(&file),
            input.bytes.len().div_ceil(1024),
            ratio(ours_read, theirs_read),
            ratio(ours_both, theirs_both)
        );
    }
    Ok(())
}
