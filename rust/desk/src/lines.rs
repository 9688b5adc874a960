//! The lines of a text file: byte order mark and line ends taken off, comments cut, the rest UTF-8 without control
//! characters.
use crate::plant::{At, Fault, Place};
use crate::words::{is_blank, Line, NAME_LINES};
use std::rc::Rc;

/// Gives each line that is not empty to `each`, in order, until one is at fault. Gives the place after the last line.
pub fn each_line(file: &Rc<str>, bytes: &[u8], mut each: impl FnMut(&Line) -> Result<(), Fault>) -> Result<Place, Fault> {
    let place = |line, column| Place { file: file.clone(), at: At::Line { line, column } };
    if bytes.starts_with(&[0xFF, 0xFE]) || bytes.starts_with(&[0xFE, 0xFF]) {
        return Err(Fault { place: place(1, 1), reason: "this is UTF-16; a plant is text in UTF-8".into() });
    }
    let bytes = bytes.strip_prefix(b"\xEF\xBB\xBF").unwrap_or(bytes);
    let mut end = place(1, 1);
    // what stands after the last line end is a line only if there is something
    for (number, line) in (1..).zip(bytes.split_inclusive(|&b| b == b'\n')) {
        let line = line.strip_suffix(b"\n").unwrap_or(line);
        let line = line.strip_suffix(b"\r").unwrap_or(line);
        let text =
            text_of(without_comment(line)).map_err(|(column, reason)| Fault { place: place(number, column), reason: reason.into() })?;
        end = place(number, text.chars().count() + 1);
        if text.chars().any(|c| !is_blank(c)) {
            each(&Line { file, number, text })?;
        }
    }
    Ok(end)
}

/// A line up to its `#`. In a line of names every `#` begins a comment, in others one that stands in no quotes.
fn without_comment(line: &[u8]) -> &[u8] {
    let first = line.split(|b| b" \t#".contains(b)).find(|word| !word.is_empty()).unwrap_or_default();
    let names = NAME_LINES.iter().any(|word| word.as_bytes() == first);
    let (mut quoted, mut escaped) = (false, false);
    for (at, &b) in line.iter().enumerate() {
        if b == b'#' && !quoted {
            return &line[..at];
        }
        if b == b'"' && !escaped && !names {
            quoted = !quoted;
        }
        escaped = quoted && b == b'\\' && !escaped;
    }
    line
}

/// The text of a line, or the column and what is wrong there.
fn text_of(line: &[u8]) -> Result<&str, (usize, &'static str)> {
    let text = std::str::from_utf8(line).map_err(|e| {
        let good = String::from_utf8_lossy(&line[..e.valid_up_to()]).chars().count();
        (good + 1, "this is no text in UTF-8")
    })?;
    match text.chars().position(|c| c.is_ascii_control() && c != '\t') {
        Some(before) => Err((before + 1, "a control character stands here")),
        None => Ok(text),
    }
}
