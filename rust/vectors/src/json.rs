//! A small reader of JSON: what the journals need, which is whole numbers and text without escapes.
use std::collections::BTreeMap;
use std::fmt;

/// A JSON value.
#[derive(Clone, PartialEq, Eq, Debug)]
pub enum Json {
    Null,
    Bool(bool),
    Number(u64),
    Text(String),
    List(Vec<Json>),
    Object(BTreeMap<String, Json>),
}

impl Json {
    /// Reads one value that fills the line.
    pub fn read(line: &str) -> Result<Json, String> {
        let mut reader = Reader {
            bytes: line.as_bytes(),
            at: 0,
        };
        let value = reader.value()?;
        reader.space();
        if reader.at == reader.bytes.len() {
            Ok(value)
        } else {
            Err(reader.unexpected("the end of the line"))
        }
    }

    /// The member of an object with this name.
    pub fn get(&self, name: &str) -> Option<&Json> {
        match self {
            Json::Object(members) => members.get(name),
            _ => None,
        }
    }

    /// A number.
    pub fn number(&self) -> Option<u64> {
        match self {
            Json::Number(number) => Some(*number),
            _ => None,
        }
    }

    /// A list.
    pub fn list(&self) -> Option<&[Json]> {
        match self {
            Json::List(items) => Some(items),
            _ => None,
        }
    }

    /// A text.
    pub fn text(&self) -> Option<&str> {
        match self {
            Json::Text(text) => Some(text),
            _ => None,
        }
    }
}

impl fmt::Display for Json {
    fn fmt(&self, f: &mut fmt::Formatter<'_>) -> fmt::Result {
        match self {
            Json::Null => f.write_str("null"),
            Json::Bool(value) => write!(f, "{value}"),
            Json::Number(number) => write!(f, "{number}"),
            Json::Text(text) => write!(f, "\"{text}\""),
            Json::List(items) => write!(f, "a list of {}", items.len()),
            Json::Object(_) => f.write_str("an object"),
        }
    }
}

struct Reader<'a> {
    bytes: &'a [u8],
    at: usize,
}

impl Reader<'_> {
    fn space(&mut self) {
        while self.bytes.get(self.at).is_some_and(u8::is_ascii_whitespace) {
            self.at += 1;
        }
    }

    fn unexpected(&self, wanted: &str) -> String {
        format!("column {}: expected {wanted}", self.at + 1)
    }

    /// Passes space and, if it stands next, this byte.
    fn passes(&mut self, byte: u8) -> bool {
        self.space();
        let there = self.bytes.get(self.at) == Some(&byte);
        self.at += usize::from(there);
        there
    }

    fn value(&mut self) -> Result<Json, String> {
        self.space();
        match self.bytes.get(self.at) {
            Some(b'{') => self.object(),
            Some(b'[') => self.list(),
            Some(b'"') => self.text().map(Json::Text),
            Some(b'0'..=b'9') => self.number(),
            _ => self.word(),
        }
    }

    fn object(&mut self) -> Result<Json, String> {
        let mut members = BTreeMap::new();
        self.at += 1;
        if self.passes(b'}') {
            return Ok(Json::Object(members));
        }
        loop {
            self.space();
            let name = self.text()?;
            if !self.passes(b':') {
                return Err(self.unexpected("':'"));
            }
            members.insert(name, self.value()?);
            if self.passes(b'}') {
                return Ok(Json::Object(members));
            }
            if !self.passes(b',') {
                return Err(self.unexpected("',' or '}'"));
            }
        }
    }

    fn list(&mut self) -> Result<Json, String> {
        let mut items = Vec::new();
        self.at += 1;
        if self.passes(b']') {
            return Ok(Json::List(items));
        }
        loop {
            items.push(self.value()?);
            if self.passes(b']') {
                return Ok(Json::List(items));
            }
            if !self.passes(b',') {
                return Err(self.unexpected("',' or ']'"));
            }
        }
    }

    fn text(&mut self) -> Result<String, String> {
        if self.bytes.get(self.at) != Some(&b'"') {
            return Err(self.unexpected("a text"));
        }
        let from = self.at + 1;
        let rest = &self.bytes[from..];
        let length = rest
            .iter()
            .position(|byte| matches!(byte, b'"' | b'\\'))
            .ok_or_else(|| self.unexpected("a whole text"))?;
        if rest[length] == b'\\' {
            return Err(self.unexpected("a text without escapes"));
        }
        self.at = from + length + 1;
        Ok(String::from_utf8_lossy(&rest[..length]).into_owned())
    }

    fn number(&mut self) -> Result<Json, String> {
        let from = self.at;
        while self.bytes.get(self.at).is_some_and(u8::is_ascii_digit) {
            self.at += 1;
        }
        let digits = std::str::from_utf8(&self.bytes[from..self.at]).unwrap_or_default();
        digits
            .parse()
            .map(Json::Number)
            .map_err(|_| self.unexpected("a number that fits"))
    }

    fn word(&mut self) -> Result<Json, String> {
        for (word, value) in [
            ("null", Json::Null),
            ("true", Json::Bool(true)),
            ("false", Json::Bool(false)),
        ] {
            if self.bytes[self.at..].starts_with(word.as_bytes()) {
                self.at += word.len();
                return Ok(value);
            }
        }
        Err(self.unexpected("a value"))
    }
}

#[cfg(test)]
mod tests {
    use super::*;

    #[test]
    fn values_are_read() {
        let line = r#" {"a": [1, 22, []], "b": null, "c": {"d": "x y"}, "e": [true,false], "f": {}} "#;
        let value = Json::read(line).unwrap();
        let numbers = vec![Json::Number(1), Json::Number(22), Json::List(vec![])];
        assert_eq!(value.get("a"), Some(&Json::List(numbers)));
        assert_eq!(value.get("b"), Some(&Json::Null));
        assert_eq!(
            value.get("c").and_then(|c| c.get("d")).and_then(Json::text),
            Some("x y")
        );
        assert_eq!(
            value.get("e"),
            Some(&Json::List(vec![Json::Bool(true), Json::Bool(false)]))
        );
    }

    #[test]
    fn what_is_no_json_is_refused() {
        for line in [
            "",
            "{",
            "[1,",
            "[1 2]",
            r#"{"a" 1}"#,
            r#"{"a": 1} x"#,
            r#""a"#,
            "-1",
            "nul",
            r#""\n""#,
        ] {
            assert!(Json::read(line).is_err(), "{line}");
        }
    }
}
