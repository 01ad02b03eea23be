//! A small reader of JSON, for the vectors of data/. Numbers are kept as their
//! text, strings have no escapes.

#[derive(Clone, Debug, PartialEq)]
pub enum Json {
    Null,
    Number(String),
    String(String),
    Array(Vec<Json>),
    Object(Vec<(String, Json)>),
}

impl Json {
    /// Reads a whole text.
    pub fn read(text: &str) -> Json {
        let mut reader = Reader { rest: text };
        let value = reader.value();
        reader.space();
        assert!(reader.rest.is_empty(), "text after the value");
        value
    }

    /// The value of a key, if the object has it.
    pub fn get(&self, key: &str) -> Option<&Json> {
        match self {
            Json::Object(entries) => entries.iter().find(|(k, _)| k == key).map(|(_, v)| v),
            _ => None,
        }
    }

    /// The value of a key that the object has.
    pub fn at(&self, key: &str) -> &Json {
        self.get(key)
            .unwrap_or_else(|| panic!("no {key} in {self:?}"))
    }

    pub fn array(&self) -> &[Json] {
        match self {
            Json::Array(values) => values,
            other => panic!("no array: {other:?}"),
        }
    }

    pub fn text(&self) -> &str {
        match self {
            Json::String(text) => text,
            other => panic!("no string: {other:?}"),
        }
    }

    pub fn number<T: std::str::FromStr>(&self) -> T {
        match self {
            Json::Number(text) => text.parse().unwrap_or_else(|_| panic!("{text}")),
            other => panic!("no number: {other:?}"),
        }
    }

    pub fn numbers<T: std::str::FromStr>(&self) -> Vec<T> {
        self.array().iter().map(Json::number).collect()
    }

    /// The bytes of a string of hexadecimal digits.
    pub fn bytes(&self) -> Vec<u8> {
        let digits = self.text().as_bytes();
        assert!(digits.len().is_multiple_of(2), "pairs of digits");
        digits
            .chunks_exact(2)
            .map(|pair| std::str::from_utf8(pair).expect("digits"))
            .map(|pair| u8::from_str_radix(pair, 16).expect("digits"))
            .collect()
    }
}

struct Reader<'a> {
    rest: &'a str,
}

impl Reader<'_> {
    fn space(&mut self) {
        self.rest = self.rest.trim_start();
    }

    /// Takes the text if it comes next.
    fn next_is(&mut self, text: &str) -> bool {
        self.space();
        match self.rest.strip_prefix(text) {
            Some(rest) => {
                self.rest = rest;
                true
            }
            None => false,
        }
    }

    fn expect(&mut self, text: &str) {
        let next: String = self.rest.chars().take(20).collect();
        assert!(self.next_is(text), "no {text} but {next}");
    }

    fn value(&mut self) -> Json {
        match () {
            () if self.next_is("null") => Json::Null,
            () if self.next_is("{") => Json::Object(self.list("}", Self::entry)),
            () if self.next_is("[") => Json::Array(self.list("]", Self::value)),
            () if self.rest.starts_with('"') => Json::String(self.string()),
            () => self.number(),
        }
    }

    /// Items with commas between them, up to the closing bracket.
    fn list<T>(&mut self, close: &str, item: fn(&mut Self) -> T) -> Vec<T> {
        let mut items = Vec::new();
        if self.next_is(close) {
            return items;
        }
        loop {
            items.push(item(self));
            if self.next_is(close) {
                return items;
            }
            self.expect(",");
        }
    }

    fn entry(&mut self) -> (String, Json) {
        let key = self.string();
        self.expect(":");
        (key, self.value())
    }

    fn string(&mut self) -> String {
        self.expect("\"");
        let (text, rest) = self.rest.split_once('"').expect("an end of the string");
        assert!(!text.contains('\\'), "an escape");
        self.rest = rest;
        text.to_string()
    }

    fn number(&mut self) -> Json {
        let in_number = |c: char| c.is_ascii_digit() || "+-.eE".contains(c);
        let end = self.rest.find(|c| !in_number(c)).unwrap_or(self.rest.len());
        let (text, rest) = self.rest.split_at(end);
        assert!(text.parse::<f64>().is_ok(), "no value but {text}");
        self.rest = rest;
        Json::Number(text.to_string())
    }
}
