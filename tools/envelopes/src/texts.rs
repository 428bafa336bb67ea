//! Texts and JSON values that stand where any may.

use crate::json::Json;
use crate::random::Random;

const TEXTS: [&str; 32] = [
    "",
    "a",
    "production",
    "{{default}}",
    "{{ default }}",
    "{{auto}}",
    "other",
    "default",
    "error",
    "log",
    "unknown",
    "null",
    "0",
    "1.5",
    "true",
    "Grüße, 世界 🦀",
    "\u{0}\u{1}\u{1f}\u{7f}\u{80}",
    "a\"b\\c/d",
    "line\nfeed\r\ttab",
    "\u{2028}\u{2029}\u{feff}\u{fffd}\u{10ffff}",
    "é",
    "e\u{301}",
    "{\"a\":1}",
    "GET /prices?id=1&x=%20",
    "src/checkout/payment.rs",
    "core::result::unwrap_failed",
    "the card of customer 4711 was declined: insufficient funds",
    "text/plain; charset=utf-8",
    "Mozilla/5.0 (X11; Linux x86_64)",
    "</script>&amp;",
    "* * * * *",
    "12 0 * * *",
];

const KEYS: [&str; 18] = [
    "a",
    "b",
    "key",
    "",
    "type",
    "value",
    "values",
    "items",
    "length",
    "id",
    "name",
    "data",
    "timestamp",
    "event_id",
    "Ü",
    "a\"b",
    "\u{0}",
    "server.address",
];

const WHOLE: [&str; 12] = [
    "0",
    "1",
    "-1",
    "7",
    "42",
    "255",
    "1595256674",
    "2147483648",
    "9007199254740993",
    "9223372036854775807",
    "-9223372036854775808",
    "18446744073709551615",
];

const FLOATS: [&str; 14] = [
    "0.0",
    "1.0",
    "1.5",
    "-0",
    "-0.0",
    "1e3",
    "1E-7",
    "1595256674.296",
    "18446744073709551616",
    "-9223372036854775809",
    "1e308",
    "1e400",
    "123456789012345678901234567890",
    "0.1e+1",
];

const BROKEN: [&[u8]; 6] = [
    b"\"\\ud800\"",
    b"\"\\udc00a\"",
    b"\"\\ud800\\u0041\"",
    b"\"\xff\"",
    b"\"\xc3\"",
    b"\"\xed\xa0\x80\"",
];

/// Returns a text.
pub fn text(random: &mut Random) -> String {
    match random.below(24) {
        0 => random.pick(&TEXTS).repeat(1 + random.below(40)),
        1 => (0..random.below(8))
            .filter_map(|_| letter(random))
            .collect(),
        2 => format!("{}{}", random.pick(&TEXTS), random.next()),
        _ => (*random.pick(&TEXTS)).to_owned(),
    }
}

fn letter(random: &mut Random) -> Option<char> {
    let limit = *random.pick(&[0x80, 0x800, 0x1_0000, 0x11_0000]);
    char::from_u32(random.below(limit) as u32)
}

/// Returns a key that stands beside those of fields.
pub fn key(random: &mut Random) -> String {
    match random.below(4) {
        0 => format!("k{}", random.below(100)),
        1 => text(random),
        _ => (*random.pick(&KEYS)).to_owned(),
    }
}

/// Returns a number that is no float.
pub fn whole(random: &mut Random) -> Json {
    match random.below(3) {
        0 => Json::number(random.below(1000)),
        _ => Json::number(random.pick(&WHOLE)),
    }
}

/// Returns a number that is a float.
pub fn float(random: &mut Random) -> Json {
    Json::number(random.pick(&FLOATS))
}

/// Returns a string that is no text.
pub fn broken(random: &mut Random) -> Json {
    Json::Broken(random.pick(&BROKEN).to_vec())
}

/// Returns a value that nests about as deep as the two read.
pub fn deep(random: &mut Random) -> Json {
    let levels = 118 + random.below(16);
    let objects = random.chance(300);
    (0..levels).fold(Json::Null, |inner, _| match objects {
        true => Json::Object(vec![(Json::text("a"), inner)]),
        false => Json::List(vec![inner]),
    })
}

/// Returns any value. Of 1,000 values `noise` are floats, strings that are no text, or deep ones.
pub fn tree(random: &mut Random, noise: u64, levels: usize) -> Json {
    if random.chance(noise) {
        return match random.below(5) {
            0 => broken(random),
            1 => deep(random),
            _ => float(random),
        };
    }
    match random.below(if levels == 0 { 6 } else { 9 }) {
        0 => Json::Null,
        1 => Json::Bool(random.chance(500)),
        2 | 3 => whole(random),
        4 | 5 => Json::Text(text(random)),
        6 => Json::List(
            (0..random.count(4))
                .map(|_| tree(random, noise, levels - 1))
                .collect(),
        ),
        _ => Json::Object(
            (0..random.count(4))
                .map(|_| member(random, noise, levels))
                .collect(),
        ),
    }
}

fn member(random: &mut Random, noise: u64, levels: usize) -> (Json, Json) {
    let key = match random.chance(noise / 8) {
        true => broken(random),
        false => Json::Text(key(random)),
    };
    (key, tree(random, noise, levels - 1))
}
