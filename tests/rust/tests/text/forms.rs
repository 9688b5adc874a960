//! Whether a text is JSON, and whether it is XML in the plain way that pictures are.

/// The texts in a line of JSON, unescaped; fails if it is none.
pub fn json_texts(line: &str) -> Vec<String> {
    let mut json = Json { rest: line.strip_suffix('\n').expect("a line"), texts: Vec::new() };
    json.value();
    assert_eq!(json.rest, "", "something after the value: {line}");
    json.texts
}

struct Json<'a> {
    rest: &'a str,
    texts: Vec<String>,
}

impl Json<'_> {
    fn next(&mut self) -> char {
        let c = self.rest.chars().next().expect("more JSON");
        self.rest = &self.rest[c.len_utf8()..];
        c
    }

    fn value(&mut self) {
        for word in ["null", "true", "false"] {
            if let Some(rest) = self.rest.strip_prefix(word) {
                self.rest = rest;
                return;
            }
        }
        match self.rest.chars().next() {
            Some('"') => self.text(),
            Some('[') => self.members(']', false),
            Some('{') => self.members('}', true),
            _ => self.number(),
        }
    }

    fn number(&mut self) {
        let digits = self.rest.strip_prefix('-').unwrap_or(self.rest);
        let count = digits.bytes().take_while(u8::is_ascii_digit).count();
        assert!(count > 0 && (count == 1 || !digits.starts_with('0')), "a number: {}", self.rest);
        self.rest = &digits[count..];
    }

    fn members(&mut self, end: char, keys: bool) {
        self.next();
        if self.rest.starts_with(end) {
            self.next();
            return;
        }
        loop {
            if keys {
                self.text();
                assert_eq!(self.next(), ':');
            }
            self.value();
            match self.next() {
                ',' => (),
                c => {
                    assert_eq!(c, end);
                    return;
                }
            }
        }
    }

    fn text(&mut self) {
        assert_eq!(self.next(), '"');
        let mut text = String::new();
        loop {
            match self.next() {
                '"' => break,
                '\\' => match self.next() {
                    c @ ('"' | '\\' | '/') => text.push(c),
                    'n' => text.push('\n'),
                    't' => text.push('\t'),
                    'u' => {
                        let code: String = (0..4).map(|_| self.next()).collect();
                        text.push(u32::from_str_radix(&code, 16).ok().and_then(char::from_u32).expect("a character"));
                    }
                    c => panic!("an escape: {c}"),
                },
                c => {
                    assert!(u32::from(c) >= 0x20, "a control character in JSON");
                    text.push(c);
                }
            }
        }
        self.texts.push(text);
    }
}

/// Tags are closed in order, and characters stand as XML has them.
pub fn judge_xml(text: &str) {
    let mut open: Vec<&str> = Vec::new();
    let mut rest = text;
    while let Some(at) = rest.find('<') {
        judge_characters(&rest[..at]);
        let end = at + rest[at..].find('>').expect("the end of a tag");
        let tag = &rest[at + 1..end];
        judge_characters(tag);
        assert!(!tag.contains('<'), "a tag in a tag: {tag}");
        let name = tag.trim_start_matches('/').split([' ', '/']).next().unwrap_or_default();
        if tag.starts_with('/') {
            assert_eq!(open.pop(), Some(name));
        } else if !tag.ends_with(['/', '?']) {
            open.push(name);
        }
        rest = &rest[end + 1..];
    }
    assert_eq!(rest.trim(), "", "after the last tag");
    assert!(open.is_empty(), "not closed: {open:?}");
}

fn judge_characters(text: &str) {
    for (at, c) in text.char_indices() {
        assert!(c == '\n' || u32::from(c) >= 0x20 && c != '\u{fffe}' && c != '\u{ffff}', "XML has no {c:?}");
        let entity = ["&amp;", "&lt;", "&gt;", "&quot;", "&#"].iter().any(|entity| text[at..].starts_with(entity));
        assert!(c != '&' || entity, "a bare ampersand: {text}");
    }
}
