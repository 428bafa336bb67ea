//! JSON with what the two may judge differently: members as they come, numbers as their texts, and
//! strings that are no text.

/// How deep values are parsed here: far past what either of the two reads.
const DEEPEST: usize = 1000;

/// A JSON value.
#[derive(Clone, Debug, PartialEq)]
pub enum Json {
    Null,
    Bool(bool),
    /// A number, as it stands.
    Number(String),
    /// A string, decoded.
    Text(String),
    /// A string with a lone surrogate or bytes that aren't UTF-8: as it stands, with its quotes.
    Broken(Vec<u8>),
    List(Vec<Json>),
    /// Members as they come, keys that come twice among them. A key is a `Text` or `Broken`.
    Object(Vec<(Json, Json)>),
}

impl Json {
    /// Returns a text.
    pub fn text(text: impl AsRef<str>) -> Json {
        Json::Text(text.as_ref().to_owned())
    }

    /// Returns a number.
    pub fn number(number: impl ToString) -> Json {
        Json::Number(number.to_string())
    }

    /// Returns the last member of a key.
    pub fn get(&self, key: &str) -> Option<&Json> {
        match self {
            Json::Object(members) => {
                let found = members.iter().rev().find(|(name, _)| name.is(key));
                found.map(|(_, value)| value)
            }
            _ => None,
        }
    }

    /// Returns the last member of a key.
    pub fn get_mut(&mut self, key: &str) -> Option<&mut Json> {
        match self {
            Json::Object(members) => {
                let found = members.iter_mut().rev().find(|(name, _)| name.is(key));
                found.map(|(_, value)| value)
            }
            _ => None,
        }
    }

    /// Returns whether this is the given text.
    pub fn is(&self, text: &str) -> bool {
        self.as_text() == Some(text)
    }

    /// Returns the text.
    pub fn as_text(&self) -> Option<&str> {
        match self {
            Json::Text(text) => Some(text),
            _ => None,
        }
    }

    /// Returns the whole number.
    pub fn as_whole(&self) -> Option<i128> {
        match self {
            Json::Number(number) if !is_float(number) => number.parse().ok(),
            _ => None,
        }
    }

    /// Returns how many lists and objects are nested.
    pub fn depth(&self) -> usize {
        match self {
            Json::List(values) => 1 + values.iter().map(Json::depth).max().unwrap_or(0),
            Json::Object(members) => {
                1 + members
                    .iter()
                    .map(|(_, value)| value.depth())
                    .max()
                    .unwrap_or(0)
            }
            _ => 0,
        }
    }
}

/// Returns whether `serde_json` holds a number as a float: one with a point or an exponent, `-0`,
/// or a whole number outside -2^63 to 2^64-1.
pub fn is_float(number: &str) -> bool {
    let whole: Option<i128> = number.parse().ok();
    let range = i128::from(i64::MIN)..=i128::from(u64::MAX);
    number == "-0" || !whole.is_some_and(|whole| range.contains(&whole))
}

/// Parses the whole of `bytes`.
pub fn parse(bytes: &[u8]) -> Option<Json> {
    let (value, used) = parse_front(bytes)?;
    let rest = &bytes[used..];
    rest.iter().all(|byte| is_space(*byte)).then_some(value)
}

/// Parses the value at the front of `bytes`, and returns how many bytes it takes.
pub fn parse_front(bytes: &[u8]) -> Option<(Json, usize)> {
    let mut parser = Parser { bytes, at: 0 };
    let value = parser.value(0)?;
    Some((value, parser.at))
}

/// Returns whether a byte is white space in JSON.
pub fn is_space(byte: u8) -> bool {
    matches!(byte, b' ' | b'\t' | b'\n' | b'\r')
}

struct Parser<'a> {
    bytes: &'a [u8],
    at: usize,
}

impl Parser<'_> {
    fn peek(&mut self) -> Option<u8> {
        while self.bytes.get(self.at).copied().is_some_and(is_space) {
            self.at += 1;
        }
        self.bytes.get(self.at).copied()
    }

    fn word(&mut self, word: &str, value: Json) -> Option<Json> {
        self.bytes[self.at..].starts_with(word.as_bytes()).then(|| {
            self.at += word.len();
            value
        })
    }

    fn value(&mut self, depth: usize) -> Option<Json> {
        if depth > DEEPEST {
            return None;
        }
        match self.peek()? {
            b'n' => self.word("null", Json::Null),
            b't' => self.word("true", Json::Bool(true)),
            b'f' => self.word("false", Json::Bool(false)),
            b'"' => self.string(),
            b'[' => self.list(depth + 1),
            b'{' => self.object(depth + 1),
            _ => self.number(),
        }
    }

    fn list(&mut self, depth: usize) -> Option<Json> {
        self.at += 1;
        let mut values = Vec::new();
        if self.peek()? == b']' {
            self.at += 1;
            return Some(Json::List(values));
        }
        loop {
            values.push(self.value(depth)?);
            let next = self.peek()?;
            self.at += 1;
            match next {
                b',' => continue,
                b']' => return Some(Json::List(values)),
                _ => return None,
            }
        }
    }

    fn object(&mut self, depth: usize) -> Option<Json> {
        self.at += 1;
        let mut members = Vec::new();
        if self.peek()? == b'}' {
            self.at += 1;
            return Some(Json::Object(members));
        }
        loop {
            if self.peek()? != b'"' {
                return None;
            }
            let key = self.string()?;
            if self.peek()? != b':' {
                return None;
            }
            self.at += 1;
            members.push((key, self.value(depth)?));
            let next = self.peek()?;
            self.at += 1;
            match next {
                b',' => continue,
                b'}' => return Some(Json::Object(members)),
                _ => return None,
            }
        }
    }

    fn digits(&mut self) -> Option<()> {
        let start = self.at;
        while self.bytes.get(self.at).is_some_and(u8::is_ascii_digit) {
            self.at += 1;
        }
        (self.at > start).then_some(())
    }

    fn skip(&mut self, one_of: &[u8]) -> bool {
        let found = self
            .bytes
            .get(self.at)
            .is_some_and(|byte| one_of.contains(byte));
        self.at += usize::from(found);
        found
    }

    fn number(&mut self) -> Option<Json> {
        let start = self.at;
        self.skip(b"-");
        if !self.skip(b"0") {
            self.digits()?;
        }
        if self.skip(b".") {
            self.digits()?;
        }
        if self.skip(b"eE") {
            self.skip(b"+-");
            self.digits()?;
        }
        let text = std::str::from_utf8(&self.bytes[start..self.at]).ok()?;
        Some(Json::number(text))
    }

    fn string(&mut self) -> Option<Json> {
        let start = self.at;
        self.at += 1;
        let mut text = Text::default();
        loop {
            let byte = *self.bytes.get(self.at)?;
            self.at += 1;
            match byte {
                b'"' => break,
                b'\\' => self.escape(&mut text)?,
                0..=31 => return None,
                _ => text.byte(byte),
            }
        }
        let raw = &self.bytes[start..self.at];
        Some(
            text.finish()
                .map_or_else(|| Json::Broken(raw.to_vec()), Json::Text),
        )
    }

    fn escape(&mut self, text: &mut Text) -> Option<()> {
        let byte = *self.bytes.get(self.at)?;
        self.at += 1;
        match byte {
            b'"' | b'\\' | b'/' => text.byte(byte),
            b'b' => text.byte(8),
            b'f' => text.byte(12),
            b'n' => text.byte(10),
            b'r' => text.byte(13),
            b't' => text.byte(9),
            b'u' => {
                let digits = self.bytes.get(self.at..self.at + 4)?;
                if !digits.iter().all(u8::is_ascii_hexdigit) {
                    return None;
                }
                let digits = std::str::from_utf8(digits).ok()?;
                text.unit(u16::from_str_radix(digits, 16).ok()?);
                self.at += 4;
            }
            _ => return None,
        }
        Some(())
    }
}

/// A string as it is decoded.
#[derive(Default)]
struct Text {
    bytes: Vec<u8>,
    high: Option<u16>,
    broken: bool,
}

impl Text {
    fn byte(&mut self, byte: u8) {
        self.broken |= self.high.take().is_some();
        self.bytes.push(byte);
    }

    fn unit(&mut self, unit: u16) {
        match (self.high.take(), unit) {
            (None, 0xd800..=0xdbff) => self.high = Some(unit),
            (high, _) => {
                let units = high.into_iter().chain([unit]);
                for decoded in char::decode_utf16(units) {
                    match decoded {
                        Ok(letter) => {
                            self.bytes
                                .extend(letter.encode_utf8(&mut [0; 4]).as_bytes());
                        }
                        Err(_) => self.broken = true,
                    }
                }
            }
        }
    }

    fn finish(self) -> Option<String> {
        if self.broken || self.high.is_some() {
            return None;
        }
        String::from_utf8(self.bytes).ok()
    }
}

/// Writes a text with the escapes that JSON asks for.
pub fn write_text(text: &str, out: &mut Vec<u8>) {
    out.push(b'"');
    for byte in text.bytes() {
        match byte {
            b'"' | b'\\' => out.extend([b'\\', byte]),
            8 => out.extend(b"\\b"),
            b'\t' => out.extend(b"\\t"),
            b'\n' => out.extend(b"\\n"),
            12 => out.extend(b"\\f"),
            b'\r' => out.extend(b"\\r"),
            0..=31 => out.extend(format!("\\u{byte:04x}").bytes()),
            _ => out.push(byte),
        }
    }
    out.push(b'"');
}

/// Writes a value without white space.
pub fn write(value: &Json, out: &mut Vec<u8>) {
    match value {
        Json::Null => out.extend(b"null"),
        Json::Bool(truth) => out.extend(truth.to_string().bytes()),
        Json::Number(number) => out.extend(number.bytes()),
        Json::Text(text) => write_text(text, out),
        Json::Broken(raw) => out.extend(raw),
        Json::List(values) => {
            out.push(b'[');
            for (index, value) in values.iter().enumerate() {
                out.extend((index > 0).then_some(b','));
                write(value, out);
            }
            out.push(b']');
        }
        Json::Object(members) => {
            out.push(b'{');
            for (index, (key, value)) in members.iter().enumerate() {
                out.extend((index > 0).then_some(b','));
                write(key, out);
                out.push(b':');
                write(value, out);
            }
            out.push(b'}');
        }
    }
}

/// Writes a value with a space after each `:` and `,`, as Python's `json.dumps` does by default.
pub fn write_spaced(value: &Json, out: &mut Vec<u8>) {
    write_indented(value, None, out);
}

/// Writes a value with a line for each member, as Python's `json.dumps` does with `indent=2`.
pub fn write_pretty(value: &Json, out: &mut Vec<u8>) {
    write_indented(value, Some(0), out);
}

/// Writes a value at a level of indentation; without one on a single line.
fn write_indented(value: &Json, level: Option<usize>, out: &mut Vec<u8>) {
    let inner = level.map(|level| level + 1);
    match value {
        Json::List(values) if !values.is_empty() => {
            out.push(b'[');
            for (index, value) in values.iter().enumerate() {
                separate(index, inner, out);
                write_indented(value, inner, out);
            }
            new_line(level, out);
            out.push(b']');
        }
        Json::Object(members) if !members.is_empty() => {
            out.push(b'{');
            for (index, (key, value)) in members.iter().enumerate() {
                separate(index, inner, out);
                write(key, out);
                out.extend(b": ");
                write_indented(value, inner, out);
            }
            new_line(level, out);
            out.push(b'}');
        }
        other => write(other, out),
    }
}

/// Writes what stands before the member `index`.
fn separate(index: usize, level: Option<usize>, out: &mut Vec<u8>) {
    out.extend((index > 0).then_some(b','));
    out.extend((index > 0 && level.is_none()).then_some(b' '));
    new_line(level, out);
}

fn new_line(level: Option<usize>, out: &mut Vec<u8>) {
    if let Some(level) = level {
        out.push(b'\n');
        out.extend(b"  ".repeat(level));
    }
}

#[cfg(test)]
mod tests {
    use super::{parse, write_pretty, write_spaced};

    #[test]
    fn white_space_is_that_of_json_dumps() {
        let value = parse(b"{\"a\":[1,{\"b\":null}],\"c\":{},\"d\":[]}").unwrap();
        let (mut spaced, mut pretty) = (Vec::new(), Vec::new());
        write_spaced(&value, &mut spaced);
        write_pretty(&value, &mut pretty);
        let spaced = String::from_utf8(spaced).unwrap();
        let pretty = String::from_utf8(pretty).unwrap();
        assert_eq!(spaced, r#"{"a": [1, {"b": null}], "c": {}, "d": []}"#);
        let due = [
            "{",
            r#"  "a": ["#,
            "    1,",
            "    {",
            r#"      "b": null"#,
            "    }",
            "  ],",
            r#"  "c": {},"#,
            r#"  "d": []"#,
            "}",
        ];
        assert_eq!(pretty, due.join("\n"));
    }
}
