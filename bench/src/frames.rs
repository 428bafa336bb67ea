//! The bytes of an envelope as lines and payloads, cut as the Rust crate cuts them.

use envelopes::json::{self, Json};
use envelopes::schema::{self, Kind};

/// A line or a payload.
#[derive(Clone, Debug)]
pub enum Piece {
    Json(Json),
    /// What is no JSON, or isn't read as JSON.
    Bytes(Vec<u8>),
}

impl Piece {
    fn json_or_bytes(bytes: &[u8]) -> Piece {
        json::parse(bytes).map_or_else(|| Piece::Bytes(bytes.to_vec()), Piece::Json)
    }

    fn write(&self, out: &mut Vec<u8>) {
        match self {
            Piece::Json(value) => json::write(value, out),
            Piece::Bytes(bytes) => out.extend(bytes),
        }
    }
}

/// An item.
#[derive(Clone, Debug)]
pub struct Item {
    /// White space before the header.
    pub space: Vec<u8>,
    pub header: Json,
    pub payload: Piece,
    /// Whether the item can be cut; if not, the payload is all bytes behind the header.
    pub whole: bool,
}

impl Item {
    /// Returns the item's type.
    pub fn word(&self) -> Option<&str> {
        let word = match &self.header {
            Json::List(values) => values.first()?,
            header => header.get("type")?,
        };
        match word {
            Json::Object(members) => members.first()?.0.as_text(),
            word => word.as_text(),
        }
    }

    /// Returns the form of the payload, if it is JSON.
    pub fn kind(&self) -> Option<&'static Kind> {
        schema::payload(self.word()?)
    }

    fn write(&self, out: &mut Vec<u8>) {
        let mut item = self.clone();
        let mut payload = Vec::new();
        item.payload.write(&mut payload);
        if let Some(length) = item.length_mut().filter(|_| self.whole) {
            *length = Json::number(payload.len());
        }
        out.push(b'\n');
        out.extend(&item.space);
        json::write(&item.header, out);
        out.extend(self.whole.then_some(b'\n'));
        out.extend(payload);
    }

    /// Returns the place of the stated length.
    pub fn length_mut(&mut self) -> Option<&mut Json> {
        let length = match &mut self.header {
            Json::List(values) => values.get_mut(1)?,
            header => header.get_mut("length")?,
        };
        matches!(length, Json::Number(_)).then_some(length)
    }
}

/// An envelope, cut.
#[derive(Clone, Debug)]
pub struct Cut {
    pub header: Piece,
    pub items: Vec<Item>,
    /// What can't be cut.
    pub rest: Vec<u8>,
    /// Whether a line feed ends what is cut.
    pub ended: bool,
}

/// Cuts an envelope.
pub fn cut(bytes: &[u8]) -> Cut {
    let end = bytes.iter().position(|byte| *byte == b'\n');
    let line = &bytes[..end.unwrap_or(bytes.len())];
    let mut cut = Cut {
        header: Piece::json_or_bytes(line),
        items: Vec::new(),
        rest: Vec::new(),
        ended: end.is_some(),
    };
    let mut left = end.map_or(&[][..], |end| &bytes[end + 1..]);
    while !left.is_empty() {
        let Some((item, used)) = front_item(left) else {
            cut.rest = left.to_vec();
            break;
        };
        let behind = &left[used..];
        let Some((payload, after)) = cut_payload(&item, behind) else {
            let payload = Piece::Bytes(behind.to_vec());
            let whole = false;
            cut.items.push(Item {
                payload,
                whole,
                ..item
            });
            cut.ended = false;
            break;
        };
        cut.items.push(Item { payload, ..item });
        cut.ended = after.is_some();
        left = after.unwrap_or(&[]);
    }
    cut
}

/// Returns the item at the front, without its payload, and where its header ends.
fn front_item(bytes: &[u8]) -> Option<(Item, usize)> {
    let space = bytes.iter().position(|byte| !json::is_space(*byte))?;
    let (header, used) = json::parse_front(&bytes[space..])?;
    let item = Item {
        space: bytes[..space].to_vec(),
        header,
        payload: Piece::Bytes(Vec::new()),
        whole: true,
    };
    Some((item, space + used))
}

/// Returns the payload of an item, and what is behind the line feed that ends it, if one does.
fn cut_payload<'a>(item: &Item, behind: &'a [u8]) -> Option<(Piece, Option<&'a [u8]>)> {
    let after = match behind {
        [] => &[],
        [b'\n', after @ ..] => after,
        _ => return None,
    };
    let length = match item.clone().length_mut() {
        Some(length) => usize::try_from(length.as_whole()?).ok()?,
        None => after
            .iter()
            .position(|byte| *byte == b'\n')
            .unwrap_or(after.len()),
    };
    let payload = after.get(..length)?;
    let payload = match item.kind() {
        Some(_) => Piece::json_or_bytes(payload),
        None => Piece::Bytes(payload.to_vec()),
    };
    match &after[length..] {
        [] => Some((payload, None)),
        [b'\n', behind @ ..] => Some((payload, Some(behind))),
        _ => None,
    }
}

/// Writes an envelope together again. Stated lengths become those of what is written.
pub fn join(cut: &Cut) -> Vec<u8> {
    let mut out = Vec::new();
    cut.header.write(&mut out);
    for item in &cut.items {
        item.write(&mut out);
    }
    out.extend(cut.ended.then_some(b'\n'));
    out.extend(&cut.rest);
    out
}
