//! Reading the table's part of a plant's text: numbers of labels, names, and the weights, as rows or shortly.
use crate::plant::{Fault, Place, Table, Weights};
use crate::words::{is_bare, is_digits, many, quote, tidy, Line, Part, Word};
use pensummer::FORBIDDEN;

/// Vertex labels or edge labels while they are read.
pub struct Labels {
    /// `vertex` or `edge`, as the lines' words have it.
    kind: &'static str,
    count: usize,
    names: Option<Vec<String>>,
    rows: Vec<Vec<(i32, Place)>>,
    default: Option<(i32, Place)>,
    equal: Option<(i32, Place)>,
    pairs: Vec<LabelPair>,
}

/// A pair whose weight stands by itself; its labels may be names that follow.
struct LabelPair {
    labels: [(Part, Place); 2],
    weight: (i32, Place),
}

/// A label by its number or name, among these names.
pub fn label_of(part: &Part, place: &Place, kind: &str, names: &[String]) -> Result<u8, Fault> {
    let fault = |reason| Err(Fault { place: place.clone(), reason });
    if part.is_number() {
        return match part.byte() {
            Some(label) => Ok(label),
            None => fault(format!("a label is a number from 0 to 255 or a name, not {}", quote(&part.text))),
        };
    }
    if !part.quoted && !is_bare(&part.text, true) {
        return fault(format!("{} has a character that must stand in quotes", quote(&part.text)));
    }
    let name = tidy(&part.text);
    let mut found = names.iter().enumerate().filter(|(_, other)| **other == name).map(|(at, _)| at as u8);
    match (found.next(), found.next()) {
        (Some(label), None) => Ok(label),
        (Some(a), Some(b)) => fault(format!("{} is the name of the {kind} labels {a} and {b}; give the number", quote(&name))),
        (None, _) => fault(format!("no {kind} label is named {}{}", quote(&name), hint(&name, names))),
    }
}

/// A name that may have been meant.
fn hint(name: &str, names: &[String]) -> String {
    if names.iter().any(|other| other.len() > 2 && other.trim_matches('"') == name) {
        return "; in a line of names quotes belong to the name".into();
    }
    let near = names.iter().find(|other| other.to_lowercase() == name.to_lowercase());
    near.map_or(String::new(), |near| format!("; there is {}", quote(near)))
}

/// A weight: a number of 32 bits, or `forbidden`.
fn weight(line: &Line, word: Word) -> Result<(i32, Place), Fault> {
    let digits = word.text.strip_prefix('-').unwrap_or(word.text);
    let number = match word.text {
        "forbidden" => Some(FORBIDDEN),
        text if is_digits(digits) => text.parse().ok(),
        _ => None,
    };
    match number {
        Some(number) => Ok((number, line.place(word.column))),
        None => line.fault(word.column, format!("a weight is a number of 32 bits or `forbidden`, not {}", quote(word.text))),
    }
}

impl Labels {
    fn new(kind: &'static str, count: usize) -> Labels {
        Labels { kind, count, names: None, rows: Vec::new(), default: None, equal: None, pairs: Vec::new() }
    }

    /// A line of names between commas.
    fn read_names(&mut self, line: &Line, first: Word) -> Result<(), Fault> {
        if self.names.is_some() {
            return line.fault(first.column, format!("`{}` stands once", first.text));
        }
        let blank = line.text.len() - line.text.trim_start_matches([' ', '\t']).len();
        let rest = &line.text[blank + first.text.len()..];
        let mut names = Vec::new();
        let mut column = first.column + first.text.chars().count();
        // no names at all are none, not an empty one
        let none = tidy(rest).is_empty();
        for part in rest.split(',').filter(|_| !none) {
            names.push(tidy(part));
            if names.last().map_or(false, String::is_empty) {
                return line.fault(column, format!("name {} is empty", names.len()));
            }
            column += part.chars().count() + 1;
        }
        if names.len() != self.count {
            return line
                .fault(first.column, format!("this line has {}; there are to be {}", many(names.len(), "name", "names"), self.count));
        }
        self.names = Some(names);
        Ok(())
    }

    fn read_row(&mut self, line: &Line, words: &[Word]) -> Result<(), Fault> {
        let (kind, count) = (self.kind, self.count);
        if self.is_short() {
            return line.fault(words[0].column, format!("weights of {kind} labels are given shortly already; rows do not stand beside"));
        }
        if self.rows.len() == count {
            return line.fault(words[0].column, format!("this `{kind}` row is one too many; there are to be {count}"));
        }
        if words.len() - 1 != count {
            let column = words.get(count + 1).map_or(words[0].column, |word| word.column);
            return line.fault(column, format!("this row has {}; there are to be {count}", many(words.len() - 1, "weight", "weights")));
        }
        let row = words[1..].iter().map(|&word| weight(line, word)).collect::<Result<_, _>>()?;
        self.rows.push(row);
        Ok(())
    }

    /// A line `KIND-default W`, `KIND-equal W` or `KIND-pair A B W`.
    fn read_short(&mut self, line: &Line, words: &[Word], what: &str) -> Result<(), Fault> {
        if !self.rows.is_empty() {
            return line
                .fault(words[0].column, format!("rows of `{}` weights stand already; a short form does not stand beside", self.kind));
        }
        if what == "pair" {
            return self.read_pair(line, words);
        }
        if words.len() != 2 {
            return line.fault(words[0].column, format!("`{}` has one weight", words[0].text));
        }
        let given = if what == "default" { &mut self.default } else { &mut self.equal };
        if given.is_some() {
            return line.fault(words[0].column, format!("`{}` stands once", words[0].text));
        }
        *given = Some(weight(line, words[1])?);
        Ok(())
    }

    fn read_pair(&mut self, line: &Line, words: &[Word]) -> Result<(), Fault> {
        if words.len() != 4 {
            return line.fault(words[0].column, format!("`{}` has a recorded label, a found label and a weight", words[0].text));
        }
        let weight = weight(line, words[3])?;
        let label = |word: Word| -> Result<(Part, Place), Fault> {
            let mut parts = line.parts(word, &[])?;
            Ok((parts.remove(0).0, line.place(word.column)))
        };
        self.pairs.push(LabelPair { labels: [label(words[1])?, label(words[2])?], weight });
        Ok(())
    }

    fn is_short(&self) -> bool {
        self.default.is_some() || self.equal.is_some() || !self.pairs.is_empty()
    }

    /// All rows, after the last line of the table; `end` is where it ends.
    fn finish(mut self, end: &Place) -> Result<Weights, Fault> {
        let names = self.names.take().unwrap_or_default();
        if self.is_short() {
            self.rows = self.short_rows(end, &names)?;
        }
        if self.rows.len() != self.count {
            let (count, kind, rows) = (self.count, self.kind, self.rows.len());
            let reason = format!("there are {rows} `{kind}` rows before this; there are to be {count}, or `{kind}-default`");
            return Err(Fault { place: end.clone(), reason });
        }
        let (rows, places) = self.rows.into_iter().map(|row| row.into_iter().unzip()).unzip();
        Ok(Weights { rows, places, names })
    }

    /// The rows that a default, equal labels and single pairs give.
    fn short_rows(&self, end: &Place, names: &[String]) -> Result<Vec<Vec<(i32, Place)>>, Fault> {
        let default = match &self.default {
            Some(weight) => weight,
            None => {
                return Err(Fault { place: end.clone(), reason: format!("`{0}-equal` and `{0}-pair` want a `{0}-default`", self.kind) })
            }
        };
        let mut rows = vec![vec![default.clone(); self.count]; self.count];
        if let Some(equal) = &self.equal {
            (0..self.count).for_each(|label| rows[label][label] = equal.clone());
        }
        let mut given = vec![vec![false; self.count]; self.count];
        for pair in &self.pairs {
            let [a, b] = [self.number(&pair.labels[0], names)?, self.number(&pair.labels[1], names)?];
            if given[a][b] {
                return Err(Fault { place: pair.labels[0].1.clone(), reason: "this pair of labels has its weight already".into() });
            }
            given[a][b] = true;
            rows[a][b] = pair.weight.clone();
        }
        Ok(rows)
    }

    fn number(&self, (part, place): &(Part, Place), names: &[String]) -> Result<usize, Fault> {
        let label = usize::from(label_of(part, place, self.kind, names)?);
        if label >= self.count {
            let reason = format!("there is no {} label {label}: there are {}", self.kind, self.count);
            return Err(Fault { place: place.clone(), reason });
        }
        Ok(label)
    }
}

/// The table while it is read.
pub struct TableText {
    place: Place,
    vertex: Labels,
    edge: Labels,
}

impl TableText {
    /// The line `labels K L`.
    pub fn begin(line: &Line, words: &[Word]) -> Result<TableText, Fault> {
        if words[0].text != "labels" {
            return line.fault(words[0].column, format!("the first line is `labels K L`, not {}", quote(words[0].text)));
        }
        if words.len() != 3 {
            return line.fault(words[0].column, "`labels` has two numbers: vertex labels and edge labels");
        }
        let count = |word: Word| -> Result<usize, Fault> {
            let part = Part { text: word.text.into(), quoted: false, column: word.column };
            match part.byte() {
                Some(count) => Ok(count.into()),
                None => line.fault(word.column, format!("a count is a number from 0 to 255, not {}", quote(word.text))),
            }
        };
        let (vertex, edge) = (Labels::new("vertex", count(words[1])?), Labels::new("edge", count(words[2])?));
        Ok(TableText { place: line.place(words[0].column), vertex, edge })
    }

    /// A further line of the table.
    pub fn read(&mut self, line: &Line, words: &[Word]) -> Result<(), Fault> {
        let (kind, what) = match words[0].text.split_once('-') {
            Some((kind, what)) => (kind, what),
            None => (words[0].text, ""),
        };
        let labels = match kind {
            "vertex" => &mut self.vertex,
            "edge" => &mut self.edge,
            _ => return unknown(line, words[0]),
        };
        match what {
            "" if kind == words[0].text => labels.read_row(line, words),
            "names" => labels.read_names(line, words[0]),
            "default" | "equal" | "pair" => labels.read_short(line, words, what),
            _ => unknown(line, words[0]),
        }
    }

    /// The whole table; `end` is where its part of the text ends.
    pub fn finish(self, end: &Place) -> Result<Table, Fault> {
        Ok(Table { vertex: self.vertex.finish(end)?, edge: self.edge.finish(end)?, place: self.place })
    }
}

fn unknown(line: &Line, word: Word) -> Result<(), Fault> {
    match word.text {
        "labels" => line.fault(word.column, "`labels` stands once, and first"),
        "found" => line.fault(word.column, "`found` stands once, after the recorded tree"),
        "serials" => line.fault(word.column, "`serials` stands in a tree, after its first line"),
        other => {
            line.fault(word.column, format!("{} is none of `vertex`, `edge`, `recorded` and their kin; see docs/FORMAT.md", quote(other)))
        }
    }
}
