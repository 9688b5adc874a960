//! The words of a line of a plant's text: what blanks separate, with parts in quotes kept whole.
use crate::plant::{At, Fault, Place};
use std::rc::Rc;

/// Lines whose rest is names between commas.
pub const NAME_LINES: [&str; 2] = ["vertex-names", "edge-names"];

/// A line of a file without its comment, and where it stands.
pub struct Line<'a> {
    pub file: &'a Rc<str>,
    pub number: usize,
    pub text: &'a str,
}

/// A word and the column of its first character.
#[derive(Clone, Copy)]
pub struct Word<'a> {
    pub text: &'a str,
    pub column: usize,
}

/// A part of a word: a name or a number.
pub struct Part {
    pub text: String,
    /// Whether it stood in quotes: then digits are a name too.
    pub quoted: bool,
    pub column: usize,
}

impl Part {
    /// Whether it is written as a number.
    pub fn is_number(&self) -> bool {
        !self.quoted && is_digits(&self.text)
    }

    /// The number that it is written as, if it fits a byte.
    pub fn byte(&self) -> Option<u8> {
        let digits = self.text.trim_start_matches('0');
        match self.is_number() {
            true if digits.is_empty() => Some(0),
            true => digits.parse().ok(),
            false => None,
        }
    }
}

pub fn is_digits(text: &str) -> bool {
    !text.is_empty() && text.bytes().all(|b| b.is_ascii_digit())
}

/// Whether a name may stand without quotes: letters, digits, `_`, `.`, what is beyond ASCII, and within a label's name
/// `-`.
pub fn is_bare(name: &str, hyphen: bool) -> bool {
    let plain = |c: char| c.is_ascii_alphanumeric() || !c.is_ascii() || c == '_' || c == '.' || hyphen && c == '-';
    name.chars().all(plain) && !name.starts_with('-') && !name.ends_with('-')
}

/// What a person wrote, for a message: cut where it is long, control characters made visible.
pub fn quote(text: &str) -> String {
    const LONGEST: usize = 40;
    let short: String = text.chars().take(LONGEST).map(visible).collect();
    let rest = if text.chars().count() > LONGEST { ".." } else { "" };
    format!("`{short}{rest}`")
}

/// A name for people: nothing in it steers a terminal.
pub fn shown(name: &str) -> String {
    name.chars().map(visible).collect()
}

fn visible(c: char) -> char {
    let steers = c.is_control() || matches!(c, '\u{200B}'..='\u{200F}' | '\u{202A}'..='\u{202E}' | '\u{2066}'..='\u{2069}');
    if steers {
        char::REPLACEMENT_CHARACTER
    } else {
        c
    }
}

/// A count with its noun.
pub fn many(count: usize, one: &str, more: &str) -> String {
    format!("{count} {}", if count == 1 { one } else { more })
}

pub fn is_blank(c: char) -> bool {
    c == ' ' || c == '\t'
}

/// A name with its blanks as single spaces and none at its ends.
pub fn tidy(name: &str) -> String {
    name.split(is_blank).filter(|part| !part.is_empty()).collect::<Vec<_>>().join(" ")
}

impl<'a> Line<'a> {
    pub fn place(&self, column: usize) -> Place {
        Place { file: self.file.clone(), at: At::Line { line: self.number, column } }
    }

    pub fn fault<T>(&self, column: usize, reason: impl Into<String>) -> Result<T, Fault> {
        Err(Fault { place: self.place(column), reason: reason.into() })
    }

    /// The words of the line, or the quote that is not closed. Of a line of names, in which quotes mean nothing, only
    /// the first word.
    pub fn words(&self) -> Result<Vec<Word<'a>>, Fault> {
        let blanks = self.text.chars().take_while(|&c| is_blank(c)).count();
        let first = self.text[blanks..].split(is_blank).next().unwrap_or_default();
        if NAME_LINES.contains(&first) {
            return Ok(vec![Word { text: first, column: blanks + 1 }]);
        }
        let mut words = Vec::new();
        let (mut start, mut quote, mut escaped) = (None, None, false);
        for (column, (at, c)) in (1..).zip(self.text.char_indices()) {
            let ends = is_blank(c) && quote.is_none();
            match start {
                Some((from, first)) if ends => {
                    words.push(Word { text: &self.text[from..at], column: first });
                    start = None;
                }
                None if !ends => start = Some((at, column)),
                _ => (),
            }
            if c == '"' && !escaped {
                quote = if quote.is_none() { Some(column) } else { None };
            }
            escaped = quote.is_some() && c == '\\' && !escaped;
        }
        if let Some(column) = quote {
            return self.fault(column, "this quote is not closed");
        }
        words.extend(start.map(|(from, column)| Word { text: &self.text[from..], column }));
        Ok(words)
    }

    /// The parts of a word between these separators, which do not count in quotes, each with the separator after it.
    pub fn parts(&self, word: Word, separators: &[char]) -> Result<Vec<(Part, Option<char>)>, Fault> {
        let mut parts = Vec::new();
        let mut rest = Cursor { text: word.text.chars().peekable(), column: word.column };
        loop {
            let column = rest.column;
            let quoted = rest.text.peek() == Some(&'"');
            let text = match quoted {
                true => rest.quoted().map(|name| tidy(&name)),
                false => Ok(rest.bare(separators)),
            };
            let text = text.or_else(|column| self.fault(column, "in quotes `\\` stands before a quote or another `\\`"))?;
            if text.is_empty() {
                return self.fault(column, "a name or a number is missing here");
            }
            let after = rest.next();
            parts.push((Part { text, quoted, column }, after));
            match after {
                None => return Ok(parts),
                Some(c) if separators.contains(&c) => (),
                Some(_) => return self.fault(rest.column - 1, "a name in quotes stands by itself, and this is beside one"),
            }
        }
    }
}

/// The rest of a word.
struct Cursor<'a> {
    text: std::iter::Peekable<std::str::Chars<'a>>,
    column: usize,
}

impl Cursor<'_> {
    fn next(&mut self) -> Option<char> {
        self.column += 1;
        self.text.next()
    }

    /// A name in quotes, which are closed; `\` stands before a quote or another `\` that is meant. Else the column of
    /// one that does not.
    fn quoted(&mut self) -> Result<String, usize> {
        let mut name = String::new();
        self.next();
        while let Some(c) = self.next() {
            match c {
                '"' => break,
                '\\' => match self.next() {
                    Some(c) if c == '"' || c == '\\' => name.push(c),
                    _ => return Err(self.column - 2),
                },
                c => name.push(c),
            }
        }
        Ok(name)
    }

    /// What stands before the next separator or quote.
    fn bare(&mut self, separators: &[char]) -> String {
        let mut name = String::new();
        while let Some(&c) = self.text.peek() {
            if separators.contains(&c) || c == '"' {
                break;
            }
            name.push(c);
            self.next();
        }
        name
    }
}

/// No word of a tree begins or ends with what joins its parts: there was a blank beside it.
pub fn closed_up(line: &Line, words: &[Word]) -> Result<(), Fault> {
    const JOINS: [char; 4] = ['-', '>', '=', ':'];
    match words.iter().find(|word| word.text.starts_with(JOINS) || word.text.ends_with(JOINS)) {
        Some(word) => {
            line.fault(word.column, format!("something is missing at {}; no blanks stand around `-`, `>`, `=` and `:`", quote(word.text)))
        }
        None => Ok(()),
    }
}

/// Where a character first stands outside quotes.
pub fn outside_quotes(word: &str, wanted: char) -> Option<usize> {
    let (mut quoted, mut escaped) = (false, false);
    for (at, c) in word.char_indices() {
        if c == wanted && !quoted {
            return Some(at);
        }
        if c == '"' && !escaped {
            quoted = !quoted;
        }
        escaped = quoted && c == '\\' && !escaped;
    }
    None
}
