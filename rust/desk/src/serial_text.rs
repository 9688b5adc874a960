//! Reading the lines `serials ..` of a tree in a plant's text: a serial for each vertex in order, or words that name the
//! vertices whose serials are known.
use crate::plant::{Fault, Place, Serial, Vertex};
use crate::words::{closed_up, is_digits, many, outside_quotes, quote, Line, Part, Word};
use std::mem::replace;

/// The serials of a tree while it is read; vertices that they are of may follow.
#[derive(Default)]
pub struct SerialsText {
    /// Where the last line begins; none if there is no line.
    last: Option<Place>,
    words: Vec<SerialWord>,
}

/// `S` or `END=S`.
struct SerialWord {
    end: Option<(Part, Place)>,
    serial: Serial,
}

impl SerialWord {
    fn read(line: &Line, word: Word) -> Result<SerialWord, Fault> {
        let at = match outside_quotes(word.text, '=') {
            Some(at) => at,
            None => return Ok(SerialWord { end: None, serial: serial(line, word)? }),
        };
        closed_up(line, &[word])?;
        let (end, number) = (&word.text[..at], &word.text[at + 1..]);
        let serial = serial(line, Word { text: number, column: word.column + end.chars().count() + 1 })?;
        let part = line.parts(Word { text: end, column: word.column }, &[])?.remove(0).0;
        Ok(SerialWord { end: Some((part, line.place(word.column))), serial })
    }
}

/// A serial: a number of 32 bits without a sign.
fn serial(line: &Line, word: Word) -> Result<Serial, Fault> {
    let number = Some(word.text).filter(|text| is_digits(text)).and_then(|text| text.parse().ok());
    match number {
        Some(number) => Ok(Serial { number, place: line.place(word.column) }),
        None => line.fault(word.column, format!("a serial is a number from 0 to {}, not {}", u32::MAX, quote(word.text))),
    }
}

impl SerialsText {
    /// A line `serials ..`.
    pub fn read(&mut self, line: &Line, words: &[Word]) -> Result<(), Fault> {
        if words.len() == 1 {
            return line.fault(words[0].column, "`serials` has a number for each vertex, or words as P1=70411");
        }
        self.last = Some(line.place(words[0].column));
        for &word in &words[1..] {
            let read = SerialWord::read(line, word)?;
            if self.words.first().map_or(false, |first| first.end.is_some() != read.end.is_some()) {
                let reason = "the serials of a tree are numbers for all vertices or words as P1=70411; the two do not mix";
                return line.fault(word.column, reason);
            }
            self.words.push(read);
        }
        Ok(())
    }

    /// The serials of these vertices, none if there was no line; `number_of` finds the vertex that an end names.
    pub fn finish(
        &self,
        vertices: &[Vertex],
        number_of: impl Fn(&(Part, Place)) -> Result<u8, Fault>,
    ) -> Result<Option<Vec<Serial>>, Fault> {
        let last = match &self.last {
            Some(last) => last,
            None => return Ok(None),
        };
        let serials = match self.words.iter().any(|word| word.end.is_some()) {
            true => self.named(vertices, number_of),
            false => self.listed(vertices.len(), last),
        };
        serials.map(Some)
    }

    /// One for each vertex.
    fn listed(&self, size: usize, last: &Place) -> Result<Vec<Serial>, Fault> {
        let vertices = many(size, "vertex", "vertices");
        if let Some(extra) = self.words.get(size) {
            let reason = format!("this serial is one too many; the tree has {vertices}");
            return Err(Fault { place: extra.serial.place.clone(), reason });
        }
        if self.words.len() < size {
            let serials = many(self.words.len(), "serial", "serials");
            let reason = format!("the tree has {vertices} and {serials}; there is to be one for each vertex, 0 where it is unknown");
            return Err(Fault { place: last.clone(), reason });
        }
        Ok(self.words.iter().map(|word| word.serial.clone()).collect())
    }

    /// Those of the vertices that are named; the others are unknown.
    fn named(&self, vertices: &[Vertex], number_of: impl Fn(&(Part, Place)) -> Result<u8, Fault>) -> Result<Vec<Serial>, Fault> {
        let mut serials: Vec<Serial> = vertices.iter().map(|vertex| Serial { number: 0, place: vertex.place.clone() }).collect();
        let mut given = vec![false; vertices.len()];
        for (end, serial) in self.words.iter().filter_map(|word| Some((word.end.as_ref()?, &word.serial))) {
            let vertex = usize::from(number_of(end)?);
            let fault = |reason| Err(Fault { place: end.1.clone(), reason });
            if vertex >= vertices.len() {
                return fault(format!("there is no vertex {vertex}: the tree has {}", many(vertices.len(), "vertex", "vertices")));
            }
            if replace(&mut given[vertex], true) {
                return fault(format!("vertex {vertex} has its serial already"));
            }
            serials[vertex] = serial.clone();
        }
        Ok(serials)
    }
}
