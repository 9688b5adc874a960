//! A strict reader of JSON: one value, nothing before or after, no key twice.
use std::fmt::Debug;

#[derive(Clone, Debug, PartialEq)]
pub enum Value {
    Null,
    Bool(bool),
    Number(i64),
    Text(String),
    List(Vec<Value>),
    Object(Vec<(String, Value)>),
}

impl Value {
    /// The value of a key, which must be there.
    pub fn at(&self, key: &str) -> &Value {
        match self {
            Value::Object(members) => &members.iter().find(|(name, _)| name == key).unwrap_or_else(|| panic!("no key {key} in {self:?}")).1,
            other => panic!("{key} of {other:?}"),
        }
    }

    pub fn keys(&self) -> Vec<&str> {
        match self {
            Value::Object(members) => members.iter().map(|(name, _)| name.as_str()).collect(),
            other => panic!("no object: {other:?}"),
        }
    }

    pub fn list(&self) -> &[Value] {
        match self {
            Value::List(values) => values,
            other => panic!("no list: {other:?}"),
        }
    }
}

impl From<i64> for Value {
    fn from(number: i64) -> Value {
        Value::Number(number)
    }
}

impl From<&str> for Value {
    fn from(text: &str) -> Value {
        Value::Text(text.into())
    }
}

/// One line that holds one value and ends with a line end.
pub fn line(text: &str) -> Value {
    let line = text.strip_suffix('\n').unwrap_or_else(|| panic!("no line end: {text:?}"));
    assert!(!line.contains('\n'), "more than a line: {text:?}");
    let mut reader = Reader { rest: line };
    let value = reader.value();
    assert_eq!(reader.rest, "", "something stands after the value");
    value
}

struct Reader<'a> {
    rest: &'a str,
}

impl Reader<'_> {
    fn fail<T>(&self, why: impl Debug) -> T {
        panic!("no JSON: {why:?} before {:?}", self.rest)
    }

    fn blanks(&mut self) {
        self.rest = self.rest.trim_start_matches([' ', '\t', '\n', '\r']);
    }

    fn takes(&mut self, text: &str) -> bool {
        let rest = self.rest.strip_prefix(text);
        self.rest = rest.unwrap_or(self.rest);
        rest.is_some()
    }

    fn next(&mut self) -> char {
        let c = self.rest.chars().next().unwrap_or_else(|| self.fail("the end"));
        self.rest = &self.rest[c.len_utf8()..];
        c
    }

    fn value(&mut self) -> Value {
        self.blanks();
        let value = match self.rest.as_bytes().first() {
            Some(b'{') => self.object(),
            Some(b'[') => self.list(),
            Some(b'"') => Value::Text(self.text()),
            Some(b'-' | b'0'..=b'9') => self.number(),
            _ if self.takes("null") => Value::Null,
            _ if self.takes("true") => Value::Bool(true),
            _ if self.takes("false") => Value::Bool(false),
            _ => self.fail("no value"),
        };
        self.blanks();
        value
    }

    /// A whole number; no other is printed.
    fn number(&mut self) -> Value {
        let digits = self.rest.strip_prefix('-').unwrap_or(self.rest);
        let count = digits.bytes().take_while(u8::is_ascii_digit).count();
        if count == 0 || count > 1 && digits.starts_with('0') || digits[count..].starts_with(['.', 'e', 'E']) {
            return self.fail("no whole number");
        }
        let (number, rest) = self.rest.split_at(self.rest.len() - digits.len() + count);
        self.rest = rest;
        Value::Number(number.parse().expect("a number"))
    }

    fn text(&mut self) -> String {
        let mut text = String::new();
        self.next();
        loop {
            match self.next() {
                '"' => return text,
                '\\' => text.push(self.escaped()),
                c if u32::from(c) < 0x20 => return self.fail("a control character"),
                c => text.push(c),
            }
        }
    }

    fn escaped(&mut self) -> char {
        match self.next() {
            c @ ('"' | '\\' | '/') => c,
            'b' => '\u{8}',
            'f' => '\u{c}',
            'n' => '\n',
            'r' => '\r',
            't' => '\t',
            'u' => {
                let digits: String = (0..4).map(|_| self.next()).collect();
                let code = u32::from_str_radix(&digits, 16).unwrap_or_else(|_| self.fail("no four digits"));
                char::from_u32(code).unwrap_or_else(|| self.fail("half a character"))
            }
            c => self.fail(c),
        }
    }

    fn list(&mut self) -> Value {
        let mut values = Vec::new();
        self.next();
        self.blanks();
        while !self.takes("]") {
            if !values.is_empty() && !self.takes(",") {
                return self.fail("no comma");
            }
            values.push(self.value());
        }
        Value::List(values)
    }

    fn object(&mut self) -> Value {
        let mut members: Vec<(String, Value)> = Vec::new();
        self.next();
        self.blanks();
        while !self.takes("}") {
            if !members.is_empty() && !self.takes(",") {
                return self.fail("no comma");
            }
            self.blanks();
            if !self.rest.starts_with('"') {
                return self.fail("no key");
            }
            let key = self.text();
            self.blanks();
            if !self.takes(":") || members.iter().any(|(name, _)| *name == key) {
                return self.fail(key);
            }
            let value = self.value();
            members.push((key, value));
        }
        Value::Object(members)
    }
}
