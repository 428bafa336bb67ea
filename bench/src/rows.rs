//! The rows of `docs/DIFFERENCES.md` that show in what is read and written.
//!
//! A row mends an envelope: it takes out what the two judge differently, and leaves all else. Where
//! the answers differ, and agree about the mended bytes, the row is the cause, if the answers differ
//! as the row says.

use crate::answers::Answers;
use crate::frames::{Cut, Piece};
use envelopes::json::{is_float, Json};
use envelopes::schema::{self, Field, Kind, Rule, Table, CONTEXTS};
use sentry_types::protocol::v7::debugid::DebugId;
use std::collections::HashSet;
use Shape::*;

/// How a row mends an envelope; each answers whether it changed anything.
enum Mend {
    /// A JSON value of a kind, wherever it stands.
    Node(fn(&mut Json, &Kind) -> bool),
    /// A line of JSON.
    Line(fn(&mut Json) -> bool),
    /// Fields that are unknown, by whether their line nests past 127.
    Unread,
    Items(fn(&mut Cut) -> bool),
}

/// What the two answer to an envelope that a row alone makes them judge differently.
enum Shape {
    /// Curdmesa answers as to the mended envelope.
    OursStays,
    /// Curdmesa refuses.
    OursRefuses,
    /// Curdmesa refuses, and the Rust crate answers as to the mended envelope.
    OursAloneRefuses,
    /// Curdmesa refuses, or answers as to the mended envelope.
    OursRefusesOrStays,
    /// The Rust crate refuses.
    TheirsRefuses,
    /// Curdmesa reads it, and the Rust crate answers as to the mended envelope.
    TheirsStays,
    /// Both read it.
    BothRead,
    /// Each of the two may read it or not.
    Any,
}

/// A row.
pub struct Row {
    /// A part of the row that stands in no other.
    pub name: &'static str,
    shape: Shape,
    mend: Mend,
}

const fn node(name: &'static str, shape: Shape, mend: fn(&mut Json, &Kind) -> bool) -> Row {
    let mend = Mend::Node(mend);
    Row { name, shape, mend }
}

const fn line(name: &'static str, shape: Shape, mend: fn(&mut Json) -> bool) -> Row {
    let mend = Mend::Line(mend);
    Row { name, shape, mend }
}

const fn items(name: &'static str, shape: Shape, mend: fn(&mut Cut) -> bool) -> Row {
    let mend = Mend::Items(mend);
    Row { name, shape, mend }
}

/// All rows, in the order in which they mend together.
pub static ROWS: [Row; 24] = [
    items(
        "no user reports and replay recordings",
        TheirsRefuses,
        own_items,
    ),
    node(
        "an item header is read from a stream, and may be an array",
        OursAloneRefuses,
        item_header_array,
    ),
    node(
        "a struct is read from an array of its fields too",
        OursAloneRefuses,
        struct_array,
    ),
    node("`Values` of a bare array", OursStays, bare_values),
    node(
        "a key that comes twice in a struct is refused",
        OursStays,
        key_twice,
    ),
    node(
        "of one that comes twice in a map each value has to fit",
        OursStays,
        replaced_entry,
    ),
    Row {
        name: "unknown fields are skipped",
        shape: OursAloneRefuses,
        mend: Mend::Unread,
    },
    line("JSON floats", OursRefuses, float),
    node(
        "a word of a derived enumeration is read from an object of one key too",
        OursAloneRefuses,
        word_object,
    ),
    node(
        "no `feedback` and `replay` among categories",
        TheirsRefuses,
        own_category,
    ),
    node(
        "whole numbers outside these are refused too",
        OursRefuses,
        real_range,
    ),
    node("severity numbers outside 1 to 24", OursRefuses, severity),
    node(
        "`urn:uuid:` before a UUID in lower case only",
        OursStays,
        urn_case,
    ),
    node(
        "debug ids in all forms of the crate `debugid`",
        Any,
        debug_form,
    ),
    node(
        "a host with an invalid label in `xn--`",
        TheirsRefuses,
        punycode,
    ),
    node("a host with U+2061, U+2062 or U+2063", OursStays, invisible),
    node("`^` in the path of a URL", OursStays, caret),
    node("whole seconds past the end of 9999", OursRefuses, past_last),
    node(
        "RFC 3339 texts as the crate `time` reads them",
        OursRefusesOrStays,
        rfc3339_form,
    ),
    node(
        "lose the sign of an offset of less than an hour",
        TheirsStays,
        offset_sign,
    ),
    node("`sample_rate: f32`, of any float text", Any, rate_form),
    node(
        "sample rands of `inf`, `nan` and exponents of any length",
        Any,
        rand_word,
    ),
    node(
        "`SampleRand: TryFrom<f64>`; printed from the binary value",
        Any,
        rand_form,
    ),
    node("hidden clocks and random sources", BothRead, drawn),
];

impl Row {
    /// Returns whether the answers to an envelope and to the mended one differ as the row says.
    pub fn fits(&self, before: &Answers, after: &Answers) -> bool {
        let ours_stays = before.ours == after.ours;
        let theirs_stays = before.theirs == after.theirs;
        match self.shape {
            OursStays => ours_stays,
            OursRefuses => before.ours.is_refusal(),
            OursAloneRefuses => before.ours.is_refusal() && theirs_stays,
            OursRefusesOrStays => before.ours.is_refusal() || ours_stays,
            TheirsRefuses => before.theirs.is_refusal(),
            TheirsStays => !before.ours.is_refusal() && theirs_stays,
            BothRead => !before.ours.is_refusal() && !before.theirs.is_refusal(),
            Any => true,
        }
    }

    /// Mends an envelope, and returns whether anything changed.
    pub fn mend(&self, cut: &mut Cut) -> bool {
        match self.mend {
            Mend::Items(mend) => mend(cut),
            _ => each_line(cut, &mut |value, kind| self.mend_line(value, kind)),
        }
    }

    /// Returns what an envelope is with one of its lines mended, for each that the row changes.
    pub fn mended_by_line<'a>(&'a self, cut: &'a Cut) -> impl Iterator<Item = Cut> + 'a {
        (0..=2 * cut.items.len()).filter_map(move |place| {
            let mut mended = cut.clone();
            let mut line = 0;
            let changed = each_line(&mut mended, &mut |value, kind| {
                line += 1;
                line - 1 == place && self.mend_line(value, kind)
            });
            changed.then_some(mended)
        })
    }

    /// Mends a line of JSON; a row of whole items mends none.
    fn mend_line(&self, value: &mut Json, kind: &Kind) -> bool {
        match self.mend {
            Mend::Items(_) => false,
            Mend::Line(mend) => mend(value),
            Mend::Unread if value.depth() > 127 => walk(value, kind, unread_or_deep),
            Mend::Unread => walk(value, kind, unread),
            Mend::Node(mend) => walk(value, kind, mend),
        }
    }
}

/// Returns whether a line has a float that counts.
pub fn has_float(cut: &Cut) -> bool {
    each_line(&mut cut.clone(), &mut |value, _| float(value))
}

fn each_line(cut: &mut Cut, mend: &mut dyn FnMut(&mut Json, &Kind) -> bool) -> bool {
    let mut changed = false;
    if let Piece::Json(header) = &mut cut.header {
        changed |= mend(header, &schema::HEADER);
    }
    for item in &mut cut.items {
        let kind = item.kind();
        changed |= mend(&mut item.header, &schema::ITEM_HEADER);
        if let (Piece::Json(payload), Some(kind)) = (&mut item.payload, kind) {
            changed |= mend(payload, kind);
        }
    }
    changed
}

/// Mends a value, and then all in it.
fn walk(value: &mut Json, kind: &Kind, mend: fn(&mut Json, &Kind) -> bool) -> bool {
    let mut changed = mend(value, kind);
    match (kind, value) {
        (Kind::List(kind) | Kind::Values(kind), Json::List(values)) => {
            for value in values {
                changed |= walk(value, kind, mend);
            }
        }
        (Kind::Values(kind), value) => {
            if let Some(Json::List(values)) = value.get_mut("values") {
                for value in values {
                    changed |= walk(value, kind, mend);
                }
            }
        }
        (Kind::Map(kind), Json::Object(members)) => {
            for (_, value) in members {
                changed |= walk(value, kind, mend);
            }
        }
        (Kind::Contexts, Json::Object(members)) => {
            for (key, value) in members {
                if let Some(table) = context(key, value) {
                    changed |= walk(value, &Kind::Table(table), mend);
                }
            }
        }
        (Kind::Tagged(cases), value) => {
            if let Some(table) = case(cases, value) {
                changed |= walk(value, &Kind::Table(table), mend);
            }
        }
        (Kind::Table(table), value) => changed |= walk_table(value, table, mend),
        _ => {}
    }
    changed
}

fn walk_table(value: &mut Json, table: &Table, mend: fn(&mut Json, &Kind) -> bool) -> bool {
    let mut changed = false;
    match value {
        Json::Object(members) => {
            for (key, value) in members {
                if let Some(field) = key.as_text().and_then(|key| table.field(key)) {
                    changed |= walk(value, &field.kind, mend);
                }
            }
        }
        Json::List(values) => {
            for (field, value) in table.fields.iter().zip(values) {
                changed |= walk(value, &field.kind, mend);
            }
        }
        _ => {}
    }
    changed
}

/// Returns the table of a context in a map of contexts.
fn context(key: &Json, value: &Json) -> Option<&'static Table> {
    let tag = value.get("type").unwrap_or(key).as_text()?;
    let found = CONTEXTS.iter().find(|(name, _)| *name == tag);
    found.map(|(_, table)| table)
}

/// Returns the table of a value by its tag.
fn case(cases: &'static [(&'static str, Table)], value: &Json) -> Option<&'static Table> {
    let tag = value.get("type")?.as_text()?;
    let found = cases.iter().find(|(name, _)| *name == tag);
    found.map(|(_, table)| table)
}

fn replace(value: &mut Json, new: Json) -> bool {
    let changed = *value != new;
    *value = new;
    changed
}

/// Makes items whose type only Curdmesa has attachments.
fn own_items(cut: &mut Cut) -> bool {
    let mut changed = false;
    for item in &mut cut.items {
        if item
            .word()
            .is_some_and(|word| schema::ITEMS[9..].contains(&word))
        {
            let place = match &mut item.header {
                Json::List(values) => values.first_mut(),
                header => header.get_mut("type"),
            };
            changed |= place.is_some_and(|word| replace(word, Json::text("attachment")));
        }
    }
    changed
}

fn is_item_header(table: &Table) -> bool {
    table.field("attachment_type").is_some()
}

fn fields_as_object(value: &mut Json, fields: &[Field]) -> bool {
    let Json::List(values) = value else {
        return false;
    };
    if values.len() > fields.len() {
        return false;
    }
    let keys = fields.iter().map(|field| Json::text(field.key));
    let members = keys.zip(std::mem::take(values)).collect();
    replace(value, Json::Object(members))
}

fn item_header_array(value: &mut Json, kind: &Kind) -> bool {
    match kind {
        Kind::Table(table) if is_item_header(table) => fields_as_object(value, table.fields),
        _ => false,
    }
}

fn struct_array(value: &mut Json, kind: &Kind) -> bool {
    match (kind, &mut *value) {
        (Kind::Table(table), _) if !table.other && !is_item_header(table) => {
            fields_as_object(value, table.fields)
        }
        (Kind::Tagged(cases), Json::List(values)) if !values.is_empty() => {
            let tag = values.remove(0);
            let found = cases.iter().find(|(name, _)| tag.is(name));
            let Some((_, table)) = found else {
                values.insert(0, tag);
                return false;
            };
            fields_as_object(value, table.fields);
            if let Json::Object(members) = value {
                members.push((Json::text("type"), tag));
            }
            true
        }
        _ => false,
    }
}

fn bare_values(value: &mut Json, kind: &Kind) -> bool {
    match (kind, &mut *value) {
        (Kind::Values(_), Json::List(values)) => {
            let values = Json::List(std::mem::take(values));
            replace(value, Json::Object(vec![(Json::text("values"), values)]))
        }
        _ => false,
    }
}

/// Keeps the last member of each key that `counts`.
fn keep_last(members: &mut Vec<(Json, Json)>, counts: impl Fn(&str) -> bool) -> bool {
    let before = members.len();
    let mut seen = HashSet::new();
    members.reverse();
    members.retain(|(key, _)| match key.as_text() {
        Some(key) if counts(key) => seen.insert(key.to_owned()),
        _ => true,
    });
    members.reverse();
    members.len() < before
}

fn key_twice(value: &mut Json, kind: &Kind) -> bool {
    match (kind, value) {
        (Kind::Table(table), Json::Object(members)) => {
            keep_last(members, |key| table.field(key).is_some())
        }
        (Kind::Tagged(_), Json::Object(members)) => keep_last(members, |key| key == "type"),
        (Kind::Values(_), Json::Object(members)) => keep_last(members, |key| key == "values"),
        (Kind::Attribute, Json::Object(members)) => {
            keep_last(members, |key| key == "type" || key == "value")
        }
        _ => false,
    }
}

fn replaced_entry(value: &mut Json, kind: &Kind) -> bool {
    match (kind, value) {
        (Kind::Map(_) | Kind::Contexts, Json::Object(members)) => keep_last(members, |_| true),
        _ => false,
    }
}

/// Returns whether there is a string that is no text, or a number past the range of floats.
fn has_broken(value: &Json) -> bool {
    match value {
        Json::Broken(_) => true,
        Json::Number(number) => number.parse().is_ok_and(f64::is_infinite),
        Json::List(values) => values.iter().any(has_broken),
        Json::Object(members) => members
            .iter()
            .any(|(key, value)| has_broken(key) || has_broken(value)),
        _ => false,
    }
}

/// Empties the unknown fields that `counts`.
fn unknown_fields(value: &mut Json, kind: &Kind, counts: fn(&Json) -> bool) -> bool {
    let (Kind::Table(table), Json::Object(members)) = (kind, value) else {
        return false;
    };
    let mut changed = false;
    for (key, value) in members {
        let known = key.as_text().is_some_and(|key| table.field(key).is_some());
        if !known && counts(value) {
            *value = Json::Null;
            changed = true;
        }
    }
    changed
}

fn unread(value: &mut Json, kind: &Kind) -> bool {
    unknown_fields(value, kind, has_broken)
}

fn unread_or_deep(value: &mut Json, kind: &Kind) -> bool {
    unknown_fields(value, kind, |value| {
        has_broken(value) || value.depth() > 100
    })
}

fn float(value: &mut Json) -> bool {
    match value {
        Json::Number(number) if is_float(number) => replace(value, Json::number(1)),
        Json::List(values) => values
            .iter_mut()
            .fold(false, |changed, value| float(value) | changed),
        Json::Object(members) => {
            let mut changed = false;
            let mut seen = HashSet::new();
            for (key, value) in members.iter_mut().rev() {
                let counts = key.as_text().is_none_or(|key| seen.insert(key.to_owned()));
                changed |= counts && float(value);
            }
            changed
        }
        _ => false,
    }
}

fn word_object(value: &mut Json, kind: &Kind) -> bool {
    let words = matches!(
        kind,
        Kind::Word(_) | Kind::CheckInStatus | Kind::AttachmentType
    );
    match value {
        Json::Object(members) if words => match members.as_slice() {
            [(key, Json::Null)] => {
                let key = key.clone();
                replace(value, key)
            }
            _ => false,
        },
        _ => false,
    }
}

fn own_category(value: &mut Json, kind: &Kind) -> bool {
    let own = schema::CATEGORIES[10..].iter().any(|word| value.is(word));
    let categories = matches!(kind, Kind::Word(words) if words.len() == schema::CATEGORIES.len());
    own && categories && replace(value, Json::text("error"))
}

fn real_range(value: &mut Json, kind: &Kind) -> bool {
    match (kind, value.as_whole()) {
        (Kind::Real(low, high), Some(whole)) if !(*low..=*high).contains(&whole) => {
            replace(value, Json::number(1))
        }
        _ => false,
    }
}

fn severity(value: &mut Json, kind: &Kind) -> bool {
    match (kind, value.as_whole()) {
        (Kind::Severity, Some(0 | 25..=255)) => replace(value, Json::number(1)),
        _ => false,
    }
}

/// Mends a text of a kind.
fn text(value: &mut Json, fits: bool, mend: impl Fn(&str) -> Option<String>) -> bool {
    let mended = value.as_text().filter(|_| fits).and_then(mend);
    mended.is_some_and(|mended| replace(value, Json::Text(mended)))
}

fn urn_case(value: &mut Json, kind: &Kind) -> bool {
    text(value, matches!(kind, Kind::Uuid), |text| {
        let (prefix, rest) = text.split_at_checked(9)?;
        prefix
            .eq_ignore_ascii_case("urn:uuid:")
            .then(|| format!("urn:uuid:{rest}"))
    })
}

fn debug_form(value: &mut Json, kind: &Kind) -> bool {
    text(value, matches!(kind, Kind::DebugId), |text| {
        let hyphens = match text.split_at_checked(32) {
            Some((id, appendix))
                if appendix.starts_with('-') && id.is_ascii() && !id.contains('-') =>
            {
                let parts = [&id[..8], &id[8..12], &id[12..16], &id[16..20], &id[20..]];
                parts.join("-") + appendix
            }
            _ => text.to_owned(),
        };
        let id: DebugId = hyphens.parse().ok()?;
        Some(id.to_string())
    })
}

fn punycode(value: &mut Json, kind: &Kind) -> bool {
    text(value, matches!(kind, Kind::Url | Kind::Dsn), |text| {
        let start = |at: usize| {
            text.get(at..at + 4)
                .is_some_and(|part| part.eq_ignore_ascii_case("xn--"))
        };
        let at = (0..text.len()).find(|&at| start(at))?;
        Some(text[..at].to_owned() + "x" + text[at + 4..].trim_start_matches('-'))
    })
}

fn invisible(value: &mut Json, kind: &Kind) -> bool {
    text(value, matches!(kind, Kind::Url | Kind::Dsn), |text| {
        Some(text.replace(['\u{2061}', '\u{2062}', '\u{2063}'], ""))
    })
}

fn caret(value: &mut Json, kind: &Kind) -> bool {
    text(value, matches!(kind, Kind::Url | Kind::Dsn), |text| {
        Some(text.replace('^', "%5E"))
    })
}

fn is_moment(kind: &Kind) -> bool {
    matches!(kind, Kind::Seconds | Kind::Rfc3339)
}

fn past_last(value: &mut Json, kind: &Kind) -> bool {
    const LAST: i128 = 253_402_300_799;
    if matches!(kind, Kind::Seconds) && value.as_whole().is_some_and(|whole| whole > LAST) {
        return replace(value, Json::number(LAST));
    }
    text(value, is_moment(kind), |text| {
        let rest = text.strip_prefix("9999-")?;
        (!rest.ends_with(['Z', 'z'])).then(|| format!("9998-{rest}"))
    })
}

fn rfc3339_form(value: &mut Json, kind: &Kind) -> bool {
    text(value, is_moment(kind), |text| {
        let (date, rest) = text.split_at_checked(10)?;
        let rest = rest.get(rest.chars().next()?.len_utf8()..)?;
        // Second 60 stands at the end of a month, which is another time of day beside an offset.
        let rest = match rest.split_at_checked(5) {
            Some((time, seconds)) if seconds.starts_with(":60") => {
                format!("{time}:59{}", &seconds[3..])
            }
            _ => rest.to_owned(),
        };
        Some(format!("{date}T{rest}"))
    })
}

fn offset_sign(value: &mut Json, kind: &Kind) -> bool {
    text(value, is_moment(kind), |text| {
        let (front, offset) = text.split_at_checked(text.len().checked_sub(6)?)?;
        let minutes = offset.strip_prefix("-00:")?;
        Some(format!("{front}+00:{minutes}"))
    })
}

/// Returns whether a text is digits with at most so many behind a point.
fn is_short_decimal(text: &str, places: usize) -> bool {
    let (whole, fraction) = text.split_once('.').unwrap_or((text, ""));
    let digits = |text: &str| text.bytes().all(|byte| byte.is_ascii_digit());
    digits(whole) && digits(fraction) && whole.len() <= 9 && fraction.len() <= places
}

fn rate_form(value: &mut Json, kind: &Kind) -> bool {
    text(value, matches!(kind, Kind::SampleRate), |text| {
        (!is_short_decimal(text, 9)).then(|| "0.5".to_owned())
    })
}

fn rand_word(value: &mut Json, kind: &Kind) -> bool {
    text(value, matches!(kind, Kind::SampleRand), |text| {
        let letters = text.bytes().any(|byte| byte.is_ascii_alphabetic());
        letters.then(|| "0.5".to_owned())
    })
}

fn rand_form(value: &mut Json, kind: &Kind) -> bool {
    text(value, matches!(kind, Kind::SampleRand), |text| {
        (!is_short_decimal(text, 6)).then(|| "0.5".to_owned())
    })
}

fn stand_in(kind: &Kind) -> Json {
    match kind {
        Kind::Seconds => Json::number(1),
        Kind::Rfc3339 => Json::text("2020-07-20T14:51:14Z"),
        Kind::SpanId => Json::text("d42cee9fc3e74f5c"),
        _ => Json::text("22d00b3fd1b14b5d8d2049d138cd8a9c"),
    }
}

fn drawn(value: &mut Json, kind: &Kind) -> bool {
    let Kind::Table(table) = kind else {
        return false;
    };
    let mut changed = false;
    for field in table.fields {
        if field.rule == Rule::Drawn && value.get(field.key).is_none() {
            if let Json::Object(members) = value {
                members.push((Json::text(field.key), stand_in(&field.kind)));
                changed = true;
            }
        }
    }
    changed
}
