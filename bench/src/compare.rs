//! Whether two written envelopes are the same, but for the order of keys, and for rows of
//! `docs/DIFFERENCES.md` that show in what is written alone.

use crate::answers::Answer;
use crate::frames::{cut, Cut, Item, Piece};
use envelopes::json::{is_float, Json};
use std::collections::BTreeSet;

/// Names of the rows that two equal texts differ in.
pub type Rows = BTreeSet<&'static str>;

const TIMESTAMP: &str = "a timestamp in seconds with a fraction is written as a float";
const WHOLE: &str = "metric values `i64`, durations `u64` seconds, battery levels `u32` percent";
const SAMPLE_RATE: &str = "`sample_rate: f32`, of any float text, printed shortest";

/// Names of all rows that show in writing alone: each is a part of the row.
pub const ROWS: [&str; 3] = [TIMESTAMP, WHOLE, SAMPLE_RATE];

/// Compares two answers: `Ok` if they agree, and else what differs.
pub fn answers(ours: &Answer, theirs: &Answer) -> Result<Rows, String> {
    match (ours, theirs) {
        (Answer::Refused(ours), Answer::Refused(theirs)) if ours == theirs => Ok(Rows::new()),
        (Answer::Written(ours), Answer::Written(theirs)) => {
            let mut rows = Rows::new();
            envelopes(&cut(ours), &cut(theirs), &mut rows)?;
            Ok(rows)
        }
        _ => Err(format!("ours: {}, theirs: {}", word(ours), word(theirs))),
    }
}

fn word(answer: &Answer) -> String {
    match answer {
        Answer::Written(_) => "written".to_owned(),
        Answer::Refused(fault) => format!("{fault:?}"),
        Answer::Unwritten(why) => format!("not written: {why}"),
    }
}

fn envelopes(ours: &Cut, theirs: &Cut, rows: &mut Rows) -> Result<(), String> {
    if !(ours.rest.is_empty() && theirs.rest.is_empty() && ours.ended && theirs.ended) {
        return Err("an envelope is written that can't be cut".to_owned());
    }
    pieces(&ours.header, &theirs.header, rows)?;
    if ours.items.len() != theirs.items.len() {
        return Err("number of items".to_owned());
    }
    for (index, (ours, theirs)) in ours.items.iter().zip(&theirs.items).enumerate() {
        items(ours, theirs, rows).map_err(|what| format!("item {index}: {what}"))?;
    }
    Ok(())
}

fn items(ours: &Item, theirs: &Item, rows: &mut Rows) -> Result<(), String> {
    let (mut ours_free, mut theirs_free) = (ours.clone(), theirs.clone());
    // The lengths are those of the payloads, or the items couldn't be cut.
    if let (Some(ours), Some(theirs)) = (ours_free.length_mut(), theirs_free.length_mut()) {
        *ours = Json::Null;
        *theirs = Json::Null;
    }
    values("header", &ours_free.header, &theirs_free.header, rows)?;
    pieces(&ours.payload, &theirs.payload, rows)
}

fn pieces(ours: &Piece, theirs: &Piece, rows: &mut Rows) -> Result<(), String> {
    match (ours, theirs) {
        (Piece::Json(ours), Piece::Json(theirs)) => values("", ours, theirs, rows),
        (Piece::Bytes(ours), Piece::Bytes(theirs)) if ours == theirs => Ok(()),
        _ => Err("payload".to_owned()),
    }
}

/// Compares two values under a key.
fn values(key: &str, ours: &Json, theirs: &Json, rows: &mut Rows) -> Result<(), String> {
    match (ours, theirs) {
        (Json::Object(ours), Json::Object(theirs)) => {
            let theirs = sorted(theirs);
            let ours: Vec<_> = ours.iter().collect();
            let keys = |members: &[&(Json, Json)]| -> Vec<Json> {
                members.iter().map(|(key, _)| key.clone()).collect()
            };
            if keys(&ours) != keys(&theirs) {
                return Err(format!("keys of {key:?}, which ours has in byte order"));
            }
            for ((key, ours), (_, theirs)) in ours.into_iter().zip(theirs) {
                values(key.as_text().unwrap_or(""), ours, theirs, rows)?;
            }
            Ok(())
        }
        (Json::List(ours), Json::List(theirs)) if ours.len() == theirs.len() => {
            let mut both = ours.iter().zip(theirs);
            both.try_for_each(|(ours, theirs)| values(key, ours, theirs, rows))
        }
        _ if ours == theirs => Ok(()),
        _ => {
            let row = row(key, ours, theirs);
            rows.insert(row.ok_or_else(|| format!("{key:?}: ours {ours:?}, theirs {theirs:?}"))?);
            Ok(())
        }
    }
}

/// Returns whether the numbers that `row` compares as floats stand in what was read, as they are
/// written.
pub fn are_given(read: &Cut, written: &Cut) -> bool {
    let mut given = BTreeSet::new();
    each_number(read, &mut |_, number| {
        given.insert(number.to_owned());
    });
    let mut all = true;
    each_number(written, &mut |key, number| {
        let loose = matches!(key, "value" | "duration" | "battery_level");
        all &= !loose || given.contains(number);
    });
    all
}

fn each_number(cut: &Cut, see: &mut dyn FnMut(&str, &str)) {
    for item in &cut.items {
        if let Piece::Json(payload) = &item.payload {
            numbers_in("", payload, see);
        }
    }
}

fn numbers_in(key: &str, value: &Json, see: &mut dyn FnMut(&str, &str)) {
    match value {
        Json::Number(number) => see(key, number),
        Json::List(values) => values.iter().for_each(|value| numbers_in(key, value, see)),
        Json::Object(members) => {
            for (key, value) in members {
                numbers_in(key.as_text().unwrap_or(""), value, see);
            }
        }
        _ => {}
    }
}

fn sorted(members: &[(Json, Json)]) -> Vec<&(Json, Json)> {
    let mut members: Vec<_> = members.iter().collect();
    members.sort_by_key(|(key, _)| key.as_text().map(str::as_bytes));
    members
}

/// Returns the row that two scalars differ in.
fn row(key: &str, ours: &Json, theirs: &Json) -> Option<&'static str> {
    match (key, ours, theirs) {
        ("timestamp" | "start_timestamp", Json::Text(ours), Json::Number(theirs)) => {
            let same = is_float(theirs) && seconds(ours)? == theirs.parse::<f64>().ok()?;
            same.then_some(TIMESTAMP)
        }
        ("value" | "duration", Json::Number(ours), Json::Number(theirs)) => {
            let same = ours.parse::<f64>().ok()? == theirs.parse::<f64>().ok()?;
            (same && is_float(theirs)).then_some(WHOLE)
        }
        ("battery_level", Json::Number(ours), Json::Number(theirs)) => {
            let same = ours.parse::<f32>().ok()? == theirs.parse::<f32>().ok()?;
            (same && is_float(theirs)).then_some(WHOLE)
        }
        ("sample_rate", Json::Text(ours), Json::Text(theirs)) => {
            let same = ours.parse::<f32>().ok()? == theirs.parse::<f32>().ok()?;
            same.then_some(SAMPLE_RATE)
        }
        _ => None,
    }
}

/// Returns the seconds since 1970 of a text in UTC with a fraction, as a float.
fn seconds(text: &str) -> Option<f64> {
    let (secs, nanos) = curdmesa::rfc3339::parse(text)
        .ok()
        .map(|moment| (moment.secs, moment.nanos))?;
    Some(std::time::Duration::new(secs, nanos).as_secs_f64())
}
