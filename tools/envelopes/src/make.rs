//! Makes JSON values of a kind.

use crate::forms;
use crate::json::Json;
use crate::random::Random;
use crate::schema::{Field, Kind, Rule, Table, CONTEXTS};
use crate::texts;

/// What values are made from.
pub struct Maker {
    pub random: Random,
    /// In 1,000 places: of how many the value is wrong, odd, absent, there twice, and the like.
    pub noise: u64,
    /// In 1,000 optional fields: how many are there.
    pub density: u64,
    pub spacing: Spacing,
}

/// The white space between the values of a line.
#[derive(Clone, Copy)]
pub enum Spacing {
    /// None; but one line in eight has any, and more escapes than JSON asks for.
    Mixed,
    /// A space after each `:` and `,`, as Python's `json.dumps` writes by default.
    Spaced,
    /// Pretty-printed where a line feed may stand, else spaced.
    Pretty,
}

impl Maker {
    fn noisy(&mut self) -> bool {
        let noise = self.noise;
        self.random.chance(noise)
    }

    fn some(&mut self, limit: usize) -> std::ops::Range<usize> {
        0..self.random.count(limit)
    }

    /// Returns any value.
    pub fn tree(&mut self) -> Json {
        texts::tree(&mut self.random, self.noise, 3)
    }

    /// Returns a value that may be of any form.
    fn wrong(&mut self) -> Json {
        match self.random.below(6) {
            0 | 1 => Json::Null,
            2 => texts::float(&mut self.random),
            3 => Json::List(Vec::new()),
            4 => Json::Object(vec![(self.word(), Json::Null)]),
            _ => self.tree(),
        }
    }

    /// Returns a text that is a word in some enumeration.
    fn word(&mut self) -> Json {
        let words = [
            "error",
            "ok",
            "portrait",
            "event.attachment",
            "counter",
            "day",
            "info",
        ];
        Json::text(self.random.pick(&words))
    }

    /// Returns a value of a kind, or, if there is noise, one that may be another.
    pub fn value(&mut self, kind: &Kind) -> Json {
        if self.noisy() {
            return self.wrong();
        }
        match kind {
            Kind::Bool => Json::Bool(self.random.chance(500)),
            Kind::Whole(low, high) => self.whole(*low, *high),
            Kind::Real(low, high) => self.whole(*low, *high),
            Kind::Severity => match self.noisy() {
                true => Json::number(self.random.below(260)),
                false => Json::number(1 + self.random.below(24)),
            },
            Kind::Pair => Json::List((0..2).map(|_| self.whole(0, u64::MAX.into())).collect()),
            Kind::ThreadId if self.random.chance(700) => self.whole(0, u64::MAX.into()),
            Kind::Tree => self.tree(),
            Kind::List(kind) => Json::List(self.some(4).map(|_| self.value(kind)).collect()),
            Kind::Map(kind) => Json::Object(self.some(4).map(|_| self.entry(kind)).collect()),
            Kind::Table(table) => self.table(table),
            Kind::Values(kind) => self.values(kind),
            Kind::Contexts => Json::Object(self.some(5).map(|_| self.context()).collect()),
            Kind::Tagged(cases) => self.tagged(cases),
            Kind::Attribute => self.attribute(),
            scalar => {
                let odd = self.noise > 0 && self.random.chance(40);
                forms::scalar(&mut self.random, scalar, odd)
            }
        }
    }

    fn whole(&mut self, low: i128, high: i128) -> Json {
        let random = &mut self.random;
        let near = random.below(3) as i128;
        Json::number(match random.below(12) {
            0 => low + near,
            1 => high - near,
            2 if self.noise > 0 => high + near,
            3 if self.noise > 0 => low - near,
            _ => random.below(100_000) as i128,
        })
    }

    fn entry(&mut self, kind: &Kind) -> (Json, Json) {
        (Json::Text(texts::key(&mut self.random)), self.value(kind))
    }

    fn values(&mut self, kind: &Kind) -> Json {
        let values = Json::List(self.some(4).map(|_| self.value(kind)).collect());
        match self.noisy() {
            true => values,
            false => Json::Object(vec![(Json::text("values"), values)]),
        }
    }

    fn is_there(&mut self, field: &Field) -> bool {
        match field.rule {
            Rule::May => self.random.chance(self.density),
            Rule::Must | Rule::Drawn => !self.noisy(),
        }
    }

    /// Returns an object of a table's fields, in any order; now and then a list of them.
    fn table(&mut self, table: &Table) -> Json {
        if self.noise > 0 && self.random.chance(4) {
            return Json::List(
                table
                    .fields
                    .iter()
                    .map(|field| self.value(&field.kind))
                    .collect(),
            );
        }
        let mut members = Vec::new();
        for field in table.fields {
            if self.is_there(field) {
                members.push((Json::text(field.key), self.value(&field.kind)));
            }
            if self.noise > 0 && self.random.chance(3) {
                members.push((Json::text(field.key), self.value(&field.kind)));
            }
        }
        self.add_others(&mut members, table);
        Json::Object(members)
    }

    /// Adds members of other keys, and mixes members.
    fn add_others(&mut self, members: &mut Vec<(Json, Json)>, table: &Table) {
        let others = if table.other { 300 } else { 60 };
        let mut many = if table.other { self.random.count(1) } else { 0 };
        while many > 0 || self.random.chance(others) {
            many = many.saturating_sub(1);
            let key = texts::key(&mut self.random);
            if table.field(&key).is_none() && key != "type" {
                members.push((Json::Text(key), self.tree()));
            }
        }
        if self.random.chance(200) {
            for end in (1..members.len()).rev() {
                members.swap(end, self.random.below(end + 1));
            }
        }
    }

    fn add_tag(&mut self, value: Json, tag: &str) -> Json {
        match value {
            Json::Object(mut members) => {
                let at = self.random.below(members.len() + 1);
                members.insert(at, (Json::text("type"), Json::text(tag)));
                Json::Object(members)
            }
            Json::List(mut values) => {
                values.insert(0, Json::text(tag));
                Json::List(values)
            }
            other => other,
        }
    }

    fn tagged(&mut self, cases: &[(&str, Table)]) -> Json {
        let (tag, table) = self.random.pick(cases);
        let value = self.table(table);
        self.add_tag(value, tag)
    }

    fn context(&mut self) -> (Json, Json) {
        let (tag, table) = self.random.pick(&CONTEXTS);
        let value = self.table(table);
        match self.random.below(4) {
            0 => {
                let key = Json::Text(texts::key(&mut self.random));
                (key, self.add_tag(value, tag))
            }
            1 => (Json::text(tag), self.add_tag(value, tag)),
            _ => (Json::text(tag), value),
        }
    }

    fn attribute(&mut self) -> Json {
        let (tag, value) = match self.random.below(3) {
            0 => ("string", Json::Text(texts::text(&mut self.random))),
            1 => ("integer", self.whole(i64::MIN.into(), i64::MAX.into())),
            _ => ("boolean", Json::Bool(self.random.chance(500))),
        };
        let value = if self.noisy() { self.wrong() } else { value };
        let tag = if self.noisy() { "double" } else { tag };
        let mut members = vec![
            (Json::text("type"), Json::text(tag)),
            (Json::text("value"), value),
        ];
        if self.noise > 0 && self.random.chance(10) {
            members.push((Json::text("type"), Json::text(tag)));
        }
        Json::Object(members)
    }
}
