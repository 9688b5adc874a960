//! How wide a text is. Which font a viewer has is not known, so this is an upper estimate: Helvetica's widths, and so
//! much more that DejaVu Sans, the widest of the fonts that the picture names, has room too.

/// The widths of the characters from the space to `~` in Helvetica, in thousandths of the font size.
const ASCII: [u16; 95] = [
    278, 278, 355, 556, 556, 889, 667, 191, 333, 333, 389, 584, 278, 333, 278, 278, 556, 556, 556, 556, 556, 556, 556, 556, 556, 556, 278,
    278, 584, 584, 584, 556, 1015, 667, 667, 722, 722, 667, 611, 778, 722, 278, 500, 667, 556, 833, 722, 778, 667, 778, 722, 667, 611, 722,
    667, 944, 667, 667, 611, 278, 278, 278, 469, 556, 333, 556, 556, 500, 556, 556, 278, 556, 556, 222, 222, 500, 222, 833, 556, 556, 556,
    556, 333, 500, 278, 556, 500, 722, 500, 500, 500, 334, 260, 334, 584,
];

/// How much wider than Helvetica DejaVu Sans is, and how much wider its bold face is than that.
const SLACK: f64 = 1.16;
const BOLD: f64 = 1.12;

/// Latin letters and signs that are about as wide as high.
const WIDE: &str = "ÆæŒœŴ©®¼½¾ǄǅǱǲ";

/// The width of a text in a font of this size.
pub fn of(text: &str, font: f64) -> f64 {
    text.chars().map(thousandths).map(f64::from).sum::<f64>() / 1000.0 * font * SLACK
}

/// The same of bold text.
pub fn bold(text: &str, font: f64) -> f64 {
    of(text, font) * BOLD
}

fn thousandths(c: char) -> u16 {
    match u32::from(c) {
        at @ 0x20..=0x7e => ASCII[at as usize - 0x20],
        _ if joins(c) => 0,
        0x7f..=0x24f | 0x1e00..=0x1eff => latin(c),
        // Greek and Cyrillic
        0x370..=0x52f => 800 + 200 * u16::from(c.is_uppercase()),
        0x2010..=0x2013 | 0x2018..=0x2022 => 600,
        // CJK, full width, emoji; the widest letters of other scripts
        _ => 1000,
    }
}

fn latin(c: char) -> u16 {
    match c {
        _ if WIDE.contains(c) => 1000,
        _ if c.is_uppercase() => 780,
        _ => 600,
    }
}

/// Whether a character takes no width of its own: combining marks, joiners, marks of direction, variation selectors.
fn joins(c: char) -> bool {
    matches!(u32::from(c),
        0x300..=0x36f | 0x1ab0..=0x1aff | 0x1dc0..=0x1dff | 0x200b..=0x200f | 0x202a..=0x202e | 0x2060..=0x2069 | 0x20d0..=0x20ff
        | 0xfe00..=0xfe0f | 0xfe20..=0xfe2f | 0xfeff | 0xe0100..=0xe01ef)
}

/// The text, or if it has no room its beginning with `…`.
pub fn cut(text: &str, font: f64, room: f64) -> String {
    if of(text, font) <= room {
        return text.to_string();
    }
    let fits = |end: &usize| of(&text[..*end], font) + of("…", font) <= room;
    let end = breaks(text).into_iter().rev().find(fits).unwrap_or(0);
    format!("{}…", text[..end].trim_end())
}

/// The same of bold text.
pub fn cut_bold(text: &str, font: f64, room: f64) -> String {
    cut(text, font, room / BOLD)
}

/// Where a text may be broken: before each character that does not belong to the one before it.
fn breaks(text: &str) -> Vec<usize> {
    let mut last = '\u{200d}';
    let mut ends = Vec::new();
    for (at, c) in text.char_indices() {
        if !joins(c) && last != '\u{200d}' {
            ends.push(at);
        }
        last = c;
    }
    ends
}

/// A paragraph in lines that have room; a word that has none is broken.
pub fn lines(text: &str, font: f64, room: f64) -> Vec<String> {
    let mut lines = Vec::new();
    let mut line = String::new();
    for word in text.split(' ').flat_map(|word| pieces(word, font, room)) {
        if !line.is_empty() && of(&line, font) + of(" ", font) + of(word, font) > room {
            lines.push(std::mem::take(&mut line));
        }
        line += if line.is_empty() { "" } else { " " };
        line += word;
    }
    lines.push(line);
    lines
}

/// A word in pieces that have room, at least a character each.
fn pieces(word: &str, font: f64, room: f64) -> Vec<&str> {
    let (mut from, mut to) = (0, 0);
    let mut pieces = Vec::new();
    for end in breaks(word).into_iter().chain([word.len()]) {
        if to > from && of(&word[from..end], font) > room {
            pieces.push(&word[from..to]);
            from = to;
        }
        to = end;
    }
    pieces.push(&word[from..]);
    pieces
}
