//! Compares the answers to many envelopes.

use crate::answers::{self, Answer, Answers, Fault};
use crate::compare;
use crate::differences;
use crate::frames::{self, Cut};
use crate::rows::{self, Row, ROWS};
use std::collections::BTreeMap;
use std::io::{Error, Result};
use std::time::Instant;

/// How many unexplained differences are printed.
const PRINTED: u64 = 20;

/// What comes of comparing the answers to an envelope.
enum Verdict {
    /// Written alike, but for these rows.
    Written(compare::Rows),
    /// Refused alike.
    Refused(Fault),
    /// The answers differ by these rows.
    Explained(Vec<&'static str>),
    /// The answers differ, and no row says why.
    Unexplained(String),
}

#[derive(Default)]
struct Tally {
    written: u64,
    refused: BTreeMap<Fault, u64>,
    in_writing: BTreeMap<&'static str, u64>,
    explained: BTreeMap<String, u64>,
    unexplained: u64,
}

fn judge(bytes: &[u8]) -> Verdict {
    let answers = answers::both(bytes);
    match compare::answers(&answers.ours, &answers.theirs) {
        Ok(rows) => match answers.ours {
            Answer::Refused(fault) => Verdict::Refused(fault),
            _ if rows::has_float(&frames::cut(bytes)) => {
                Verdict::Unexplained("a float is read".to_owned())
            }
            Answer::Written(ours) if frames::join(&frames::cut(&ours)) != ours => {
                Verdict::Unexplained("ours isn't compact".to_owned())
            }
            Answer::Written(ours)
                if !compare::are_given(&frames::cut(bytes), &frames::cut(&ours)) =>
            {
                Verdict::Unexplained("ours has a number that wasn't given".to_owned())
            }
            _ => Verdict::Written(rows),
        },
        Err(what) => match explain(bytes, &answers) {
            Ok(rows) => Verdict::Explained(rows),
            Err(Unlike::Values) => Verdict::Unexplained(what),
            Err(Unlike::Spelling) => {
                Verdict::Unexplained(format!("{what}, by white space or escapes alone"))
            }
        },
    }
}

fn agree(answers: &Answers) -> bool {
    compare::answers(&answers.ours, &answers.theirs).is_ok()
}

/// A difference that no row explains.
enum Unlike {
    /// It is gone once white space and escapes are as usual.
    Spelling,
    Values,
}

/// Returns the rows that explain a difference between answers: one alone if one does and they differ
/// as it says, else all that apply, else one in a line alone.
fn explain(bytes: &[u8], answers: &Answers) -> std::result::Result<Vec<&'static str>, Unlike> {
    let cut = frames::cut(bytes);
    // What a row mends is written without white space: that alone is no cause.
    if agree(&answers::both(&frames::join(&cut))) {
        return Err(Unlike::Spelling);
    }
    let applied: Vec<_> = ROWS
        .iter()
        .filter(|row| row.mend(&mut cut.clone()))
        .collect();
    let mut unlike_the_row = false;
    for row in &applied {
        let mut mended = cut.clone();
        row.mend(&mut mended);
        let after = answers::both(&frames::join(&mended));
        if agree(&after) {
            if row.fits(answers, &after) {
                return Ok(vec![row.name]);
            }
            unlike_the_row = true;
        }
    }
    if !unlike_the_row {
        let mut mended = cut.clone();
        let mut names = Vec::new();
        for row in &ROWS {
            if row.mend(&mut mended) {
                names.push(row.name);
            }
        }
        if agree(&answers::both(&frames::join(&mended))) {
            return Ok(names);
        }
    }
    in_one_line(&cut, answers, &applied).ok_or(Unlike::Values)
}

/// Returns a row that explains a difference if it mends one line alone. In another line it may mend
/// what both refuse, and so change an answer that should stay.
fn in_one_line(cut: &Cut, answers: &Answers, applied: &[&Row]) -> Option<Vec<&'static str>> {
    let explains = |row: &Row| {
        row.mended_by_line(cut).any(|mended| {
            let after = answers::both(&frames::join(&mended));
            agree(&after) && row.fits(answers, &after)
        })
    };
    let row = applied.iter().find(|row| explains(row))?;
    Some(vec![row.name])
}

fn print_bytes(bytes: &[u8]) {
    println!("  b\"{}\"", bytes.escape_ascii());
}

fn print_answer(name: &str, answer: &Answer) {
    match answer {
        Answer::Written(bytes) => {
            println!("  {name}: written");
            print_bytes(bytes);
        }
        Answer::Refused(fault) => println!("  {name}: {fault:?}"),
        Answer::Unwritten(why) => println!("  {name}: not written: {why}"),
    }
}

fn print_difference(bytes: &[u8], what: &str) {
    println!("  {what}");
    print_bytes(bytes);
    print_answer("ours", &answers::ours(bytes));
    print_answer("theirs", &answers::theirs(bytes));
}

fn print_rows<K: std::fmt::Display>(title: &str, counts: &BTreeMap<K, u64>) {
    println!("\n{title}");
    for (name, count) in counts {
        println!("{count:>10}  {name}");
    }
}

impl Tally {
    fn add(&mut self, verdict: &Verdict) {
        match verdict {
            Verdict::Written(rows) => {
                self.written += 1;
                for row in rows {
                    *self.in_writing.entry(row).or_default() += 1;
                }
            }
            Verdict::Refused(fault) => *self.refused.entry(*fault).or_default() += 1,
            Verdict::Explained(rows) => {
                let name = match rows.as_slice() {
                    [row] => (*row).to_owned(),
                    _ => "several of these together".to_owned(),
                };
                *self.explained.entry(name).or_default() += 1;
            }
            Verdict::Unexplained(_) => self.unexplained += 1,
        }
    }

    fn print(&self) {
        let refused: u64 = self.refused.values().sum();
        let explained: u64 = self.explained.values().sum();
        println!("{:>10}  read, and written alike", self.written);
        println!("{refused:>10}  refused with the same error");
        println!("{explained:>10}  different by a row of docs/DIFFERENCES.md");
        println!("{:>10}  different, and not explained", self.unexplained);
        let refused = self
            .refused
            .iter()
            .map(|(fault, count)| (format!("{fault:?}"), *count));
        print_rows("Refused with the same error:", &refused.collect());
        print_rows("Written alike but for a row:", &self.in_writing);
        print_rows("Different by a row:", &self.explained);
    }
}

/// Compares the answers to `count` envelopes; returns whether each difference is explained.
pub fn run(seed: u64, count: u64) -> Result<bool> {
    differences::check().map_err(Error::other)?;
    let start = Instant::now();
    let mut tally = Tally::default();
    for index in 0..count {
        let bytes = envelopes::make(seed, index);
        let verdict = judge(&bytes);
        if let Verdict::Unexplained(what) = &verdict {
            if tally.unexplained < PRINTED {
                println!("envelope {index} of seed {seed}:");
                print_difference(&bytes, what);
            }
        }
        tally.add(&verdict);
    }
    tally.print();
    eprintln!("{count} envelopes in {} s", start.elapsed().as_secs());
    Ok(tally.unexplained == 0)
}

/// Compares the answers to an envelope in a file; returns whether a difference is explained.
pub fn run_file(path: &str) -> Result<bool> {
    differences::check().map_err(Error::other)?;
    let bytes = std::fs::read(path)?;
    match judge(&bytes) {
        Verdict::Written(rows) => println!("read, and written alike, but for {rows:?}"),
        Verdict::Refused(fault) => println!("refused by both: {fault:?}"),
        Verdict::Explained(rows) => print_difference(&bytes, &format!("explained by {rows:?}")),
        Verdict::Unexplained(what) => {
            print_difference(&bytes, &what);
            return Ok(false);
        }
    }
    Ok(true)
}

#[cfg(test)]
mod tests {
    use crate::answers::{self, Answer};
    use crate::frames::{cut, join, Piece};
    use envelopes::json::Json;
    use envelopes::make;

    #[test]
    fn most_envelopes_are_read() {
        let read = (0..1000).filter(|index| {
            let answer = answers::theirs(&make(1, *index));
            matches!(answer, Answer::Written(_))
        });
        let read = read.count();
        assert!(read > 500, "{read} of 1000");
    }

    /// Returns the most values of a list, and the most members of an object, in a value.
    fn most(value: &Json) -> [usize; 2] {
        let larger = |a: [usize; 2], b: [usize; 2]| [a[0].max(b[0]), a[1].max(b[1])];
        match value {
            Json::List(values) => values.iter().map(most).fold([values.len(), 0], larger),
            Json::Object(members) => {
                let inside = members.iter().map(|(_, value)| most(value));
                inside.fold([0, members.len()], larger)
            }
            _ => [0, 0],
        }
    }

    #[test]
    fn lists_and_maps_have_up_to_forty_members() {
        let cuts: Vec<_> = (0..1000).map(|index| cut(&make(1, index))).collect();
        let items = cuts.iter().flat_map(|cut| &cut.items);
        let payloads = items.filter_map(|item| match &item.payload {
            Piece::Json(payload) => Some(most(payload)),
            Piece::Bytes(_) => None,
        });
        let most = payloads.fold([0, 0], |a, b| [a[0].max(b[0]), a[1].max(b[1])]);
        assert!(most.iter().all(|most| *most >= 32), "{most:?}");
        let items = cuts.iter().map(|cut| cut.items.len()).max();
        assert!(items > Some(16), "{items:?} items");
    }

    #[test]
    fn some_envelopes_have_spaces_and_some_are_pretty() {
        let having = |part: &[u8]| {
            let has = |bytes: &[u8]| bytes.windows(part.len()).any(|window| window == part);
            (0..1000).filter(|index| has(&make(1, *index))).count()
        };
        let headers: [&[u8]; 2] = [b"\n{\"type\": ", b"\n{\n  \"type\": "];
        for header in headers {
            let count = having(header);
            assert!(count > 20, "{count} of 1000");
        }
    }

    #[test]
    fn what_is_cut_is_joined_again() {
        for index in 0..1000 {
            let joined = join(&cut(&make(2, index)));
            assert_eq!(join(&cut(&joined)), joined);
        }
    }
}
