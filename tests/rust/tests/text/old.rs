//! The text form as the program read it before it was written in Rust: its rules, taken from the awk text of that tool, byte for byte.

/// What comes next.
#[derive(Clone, Copy, PartialEq, Eq)]
enum Want {
    Labels,
    Rows,
    Found,
    End,
}

struct Reader {
    want: Want,
    out: Vec<u8>,
    labels: [usize; 2],
    rows: [usize; 2],
    named: [bool; 2],
    directed: bool,
}

/// What the old tool gave.
pub struct Old {
    pub bytes: Vec<u8>,
    /// Whether an edge has a label that has a direction today; that tool knew none.
    pub directed: bool,
}

/// What the old tool gave, or none where it refused the text.
pub fn old(text: &[u8]) -> Option<Old> {
    let mut reader = Reader { want: Want::Labels, out: Vec::new(), labels: [0; 2], rows: [0; 2], named: [false; 2], directed: false };
    for line in text.split(|&b| b == b'\n') {
        let line = line.strip_suffix(b"\r").unwrap_or(line);
        let line = line.split(|&b| b == b'#').next().unwrap_or(line);
        let words: Vec<&[u8]> = line.split(|&b| is_blank(b)).filter(|word| !word.is_empty()).collect();
        if !words.is_empty() {
            reader.line(line, &words)?;
        }
    }
    if reader.want == Want::End {
        Some(Old { bytes: reader.out, directed: reader.directed })
    } else {
        None
    }
}

fn is_blank(b: u8) -> bool {
    b == b' ' || b == b'\t'
}

/// `^[0-9]+$`, as a number that is no greater than 2^32.
fn digits(word: &[u8]) -> Option<i64> {
    if word.is_empty() || !word.iter().all(u8::is_ascii_digit) {
        return None;
    }
    Some(word.iter().fold(0, |number, &b| (number * 10 + i64::from(b - b'0')).min(1 << 32)))
}

fn byte(word: &[u8]) -> Option<u8> {
    digits(word).filter(|&number| number <= 255).map(|number| number as u8)
}

fn weight(word: &[u8]) -> Option<i32> {
    let number = match word {
        b"forbidden" => -(1 << 31),
        [b'-', rest @ ..] => -digits(rest)?,
        _ => digits(word)?,
    };
    i32::try_from(number).ok()
}

impl Reader {
    fn line(&mut self, line: &[u8], words: &[&[u8]]) -> Option<()> {
        match (words[0], self.want) {
            (b"labels", Want::Labels) if words.len() == 3 => {
                let (k, l) = (byte(words[1])?, byte(words[2])?);
                self.labels = [k.into(), l.into()];
                self.out.extend([177, 4, k, l]);
                self.want = Want::Rows;
                Some(())
            }
            (b"labels", _) | (_, Want::Labels) => None,
            (b"vertex-names", _) => self.names(line, 0),
            (b"edge-names", _) => self.names(line, 1),
            (b"vertex", Want::Rows) if self.rows[1] == 0 => self.row(words, 0),
            (b"edge", Want::Rows) if self.rows[0] == self.labels[0] => self.row(words, 1),
            (b"recorded", Want::Rows) if self.rows == self.labels => self.vertices(words, Want::Found),
            (b"found", Want::Found) => self.vertices(words, Want::End),
            (b"vertex" | b"edge" | b"recorded" | b"found", _) | (_, Want::Rows) => None,
            _ => words.iter().try_for_each(|word| self.edge(word)),
        }
    }

    fn row(&mut self, words: &[&[u8]], kind: usize) -> Option<()> {
        self.rows[kind] += 1;
        if self.rows[kind] > self.labels[kind] || words.len() - 1 != self.labels[kind] {
            return None;
        }
        self.out.extend([177, 5 + kind as u8]);
        for word in &words[1..] {
            self.out.extend(weight(word)?.to_le_bytes());
        }
        Some(())
    }

    fn names(&mut self, line: &[u8], kind: usize) -> Option<()> {
        if self.want != Want::Rows || std::mem::replace(&mut self.named[kind], true) {
            return None;
        }
        let rest = without_characters(line);
        if rest.iter().any(|&b| matches!(b, 128..=255 | 1..=8 | 11..=31 | 127)) {
            return None;
        }
        let start = line.iter().position(|&b| !is_blank(b))?;
        let length = line[start..].iter().position(|&b| is_blank(b)).unwrap_or(line.len() - start);
        let rest = &line[start + length..];
        // awk parts an empty text into none
        let names: Vec<&[u8]> = if rest.is_empty() { Vec::new() } else { rest.split(|&b| b == b',').collect() };
        let whole = names.iter().all(|name| name.iter().any(|&b| !is_blank(b)));
        if whole && names.len() == self.labels[kind] {
            Some(())
        } else {
            None
        }
    }

    fn vertices(&mut self, words: &[&[u8]], want: Want) -> Option<()> {
        self.want = want;
        self.out.extend([177, 1, u8::try_from(words.len() - 1).ok()?]);
        for word in &words[1..] {
            self.out.extend([177, 2, byte(word)?]);
        }
        Some(())
    }

    /// `^[0-9]+-[0-9]+(:[0-9]+)?$`
    fn edge(&mut self, word: &[u8]) -> Option<()> {
        let (ends, label) = match word.iter().position(|&b| b == b':') {
            Some(at) => (&word[..at], byte(&word[at + 1..])?),
            None => (word, 0),
        };
        let at = ends.iter().position(|&b| b == b'-')?;
        self.directed |= (4..=7).contains(&label);
        self.out.extend([177, 3, byte(&ends[..at])?, byte(&ends[at + 1..])?, label]);
        Some(())
    }
}

/// A line without what its pattern takes for a character of two to four bytes; it takes some that are none in UTF-8.
fn without_characters(line: &[u8]) -> Vec<u8> {
    let mut rest = Vec::new();
    let mut at = 0;
    while at < line.len() {
        let length = match line[at] {
            0xC2..=0xDF => 2,
            0xE0..=0xEF => 3,
            0xF0..=0xF4 => 4,
            _ => 1,
        };
        let follow = line.get(at + 1..at + length);
        if length > 1 && follow.map_or(false, |bytes| bytes.iter().all(|b| (0x80..=0xBF).contains(b))) {
            at += length;
        } else {
            rest.push(line[at]);
            at += 1;
        }
    }
    rest
}
