//! Makes the bytes of envelopes of all item types, the same ones for each seed: half of them without
//! faults, and one in five damaged.

mod damage;
mod forms;
pub mod json;
mod make;
mod random;
pub mod schema;
mod texts;

use crate::json::Json;
use crate::make::{Maker, Spacing};
use crate::random::Random;
use crate::schema::Kind;

/// Returns the envelope `index` of a run.
pub fn make(seed: u64, index: u64) -> Vec<u8> {
    let mut random = Random::new(seed, index);
    let noise = *random.pick(&[0, 0, 0, 2, 6, 20]);
    let density = *random.pick(&[80, 250, 600]);
    let spacing = match random.below(10) {
        0 => Spacing::Spaced,
        1 => Spacing::Pretty,
        _ => Spacing::Mixed,
    };
    let damaged = random.chance(200);
    let mut maker = Maker {
        random,
        noise,
        density,
        spacing,
    };
    let mut bytes = envelope(&mut maker);
    if damaged {
        damage::damage(&mut maker.random, &mut bytes);
    }
    bytes
}

fn envelope(maker: &mut Maker) -> Vec<u8> {
    let mut bytes = Vec::new();
    let header = maker.value(&schema::HEADER);
    write(maker, &header, false, &mut bytes);
    let items = match maker.random.below(100) {
        0 => maker.random.below(41),
        _ => *maker.random.pick(&[0, 1, 1, 1, 1, 2, 2, 3]),
    };
    for _ in 0..items {
        bytes.push(b'\n');
        item(maker, &mut bytes);
    }
    match maker.random.below(10) {
        0 => {}
        1 if maker.noise > 0 => bytes.extend(b"\n\n"),
        2 if maker.noise > 0 => bytes.extend(b"\n \r\n"),
        _ => bytes.push(b'\n'),
    }
    bytes
}

fn item(maker: &mut Maker, bytes: &mut Vec<u8>) {
    // Most items are of the types that both have.
    let words = if maker.random.chance(60) { 9..11 } else { 0..9 };
    let word = schema::ITEMS[words.start + maker.random.below(words.len())];
    let kind = schema::payload(word);
    let by_line = maker.random.chance(250);
    let mut payload = Vec::new();
    match kind {
        Some(kind) => json_payload(maker, kind, by_line, &mut payload),
        None => raw_payload(maker, by_line, &mut payload),
    }
    let header = item_header(maker, word, kind, (!by_line).then_some(payload.len()));
    if maker.random.chance(30) {
        bytes.extend(b" \n\t\r".iter().take(maker.random.below(5)));
    }
    write(maker, &header, true, bytes);
    bytes.push(b'\n');
    bytes.extend(payload);
}

fn json_payload(maker: &mut Maker, kind: &Kind, by_line: bool, payload: &mut Vec<u8>) {
    let value = maker.value(kind);
    write(maker, &value, !by_line, payload);
}

fn raw_payload(maker: &mut Maker, by_line: bool, payload: &mut Vec<u8>) {
    for _ in 0..maker.random.below(40) {
        let byte = maker.random.next() as u8;
        payload.push(if by_line && byte == b'\n' { b' ' } else { byte });
    }
}

fn item_header(maker: &mut Maker, word: &str, kind: Option<&Kind>, length: Option<usize>) -> Json {
    let mut members = vec![(Json::text("type"), Json::text(word))];
    match length {
        Some(length) => members.push((Json::text("length"), stated(maker, length))),
        None if maker.random.chance(200) => members.push((Json::text("length"), Json::Null)),
        None => {}
    }
    let Kind::Table(table) = &schema::ITEM_HEADER else {
        return Json::Object(members);
    };
    let likely = if kind.is_none() { 500 } else { 50 };
    for field in &table.fields[2..] {
        if maker.random.chance(likely) {
            members.push((Json::text(field.key), maker.value(&field.kind)));
        }
    }
    if maker.random.chance(100) {
        members.push((Json::text("item_count"), maker.tree()));
    }
    if maker.noise > 0 && maker.random.chance(4) {
        let fields = table.fields.iter();
        let values = fields.map(|field| Json::Object(members.clone()).get(field.key).cloned());
        return Json::List(values.map(|value| value.unwrap_or(Json::Null)).collect());
    }
    let last = members.len() - 1;
    members.swap(maker.random.below(last + 1), last);
    Json::Object(members)
}

/// Returns a length that is stated, now and then not the payload's.
fn stated(maker: &mut Maker, length: usize) -> Json {
    if maker.noise == 0 || !maker.random.chance(10) {
        return Json::number(length);
    }
    match maker.random.below(5) {
        0 => Json::number(length + 1),
        1 => Json::number(length.saturating_sub(1)),
        2 => Json::number(u64::MAX),
        3 => Json::number(-1),
        _ => texts::float(&mut maker.random),
    }
}

/// Writes a value with the envelope's spacing; with `feeds` there may be line feeds in it.
fn write(maker: &mut Maker, value: &Json, feeds: bool, out: &mut Vec<u8>) {
    match maker.spacing {
        Spacing::Pretty if feeds => json::write_pretty(value, out),
        Spacing::Pretty | Spacing::Spaced => json::write_spaced(value, out),
        Spacing::Mixed => match maker.random.below(8) {
            0 => write_styled(&mut maker.random, value, feeds, out),
            _ => json::write(value, out),
        },
    }
}

fn space(random: &mut Random, feeds: bool, out: &mut Vec<u8>) {
    while random.chance(150) {
        let spaces: &[u8] = if feeds { b" \t\r\n" } else { b" \t\r" };
        out.push(*random.pick(spaces));
    }
}

fn write_styled(random: &mut Random, value: &Json, feeds: bool, out: &mut Vec<u8>) {
    space(random, feeds, out);
    match value {
        Json::Text(text) => write_escaped(random, text, out),
        Json::List(values) => {
            out.push(b'[');
            for (index, value) in values.iter().enumerate() {
                out.extend((index > 0).then_some(b','));
                write_styled(random, value, feeds, out);
            }
            space(random, feeds, out);
            out.push(b']');
        }
        Json::Object(members) => {
            out.push(b'{');
            for (index, (key, value)) in members.iter().enumerate() {
                out.extend((index > 0).then_some(b','));
                write_styled(random, key, feeds, out);
                space(random, feeds, out);
                out.push(b':');
                write_styled(random, value, feeds, out);
            }
            space(random, feeds, out);
            out.push(b'}');
        }
        other => json::write(other, out),
    }
}

/// Writes a text with more escapes than JSON asks for.
fn write_escaped(random: &mut Random, text: &str, out: &mut Vec<u8>) {
    out.push(b'"');
    for letter in text.chars() {
        let short = b"\"\\/\x08\x0c\n\r\t"
            .iter()
            .position(|byte| letter == char::from(*byte));
        match short {
            Some(place) if random.chance(700) => out.extend([b'\\', b"\"\\/bfnrt"[place]]),
            _ if letter < ' ' || short.is_some() || random.chance(100) => {
                for unit in letter.encode_utf16(&mut [0; 2]) {
                    let digits = match random.chance(500) {
                        true => format!("\\u{unit:04x}"),
                        false => format!("\\u{unit:04X}"),
                    };
                    out.extend(digits.bytes());
                }
            }
            _ => out.extend(letter.encode_utf8(&mut [0; 4]).bytes()),
        }
    }
    out.push(b'"');
}
