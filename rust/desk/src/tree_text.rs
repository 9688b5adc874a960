//! Reading a tree's part of a plant's text: vertices with labels and perhaps names and serials, and edges.
use crate::plant::{Edge, Fault, Place, Table, Tree, Vertex, DIRECTED};
use crate::serial_text::SerialsText;
use crate::table_text::label_of;
use crate::words::{closed_up, is_bare, is_digits, outside_quotes, quote, Line, Part, Word};

/// A count of vertices is a byte.
const VERTICES_WRITTEN: usize = 255;

/// The word that begins a line of serials.
const SERIALS: &str = "serials";

/// A tree while it is read; the ends of its edges may be names of vertices that follow.
pub struct TreeText {
    place: Place,
    vertices: Vec<Vertex>,
    edges: Vec<EdgeText>,
    serials: SerialsText,
}

struct EdgeText {
    ends: [(Part, Place); 2],
    label: u8,
    text: String,
    place: Place,
}

impl TreeText {
    /// The line that begins the tree: its word, and vertices.
    pub fn begin(line: &Line, words: &[Word], table: &Table) -> Result<TreeText, Fault> {
        let (vertices, edges, serials) = (Vec::new(), Vec::new(), SerialsText::default());
        let mut tree = TreeText { place: line.place(words[0].column), vertices, edges, serials };
        closed_up(line, &words[1..])?;
        for &word in &words[1..] {
            tree.read_vertex(line, word, table)?;
        }
        Ok(tree)
    }

    /// A further line of the tree: edges and vertices with names, or serials.
    pub fn read(&mut self, line: &Line, words: &[Word], table: &Table) -> Result<(), Fault> {
        if words[0].text == SERIALS {
            return self.serials.read(line, words);
        }
        closed_up(line, words)?;
        for &word in words {
            if outside_quotes(word.text, '=').is_some() {
                self.read_vertex(line, word, table)?;
            } else {
                self.read_edge(line, word, table)?;
            }
        }
        Ok(())
    }

    /// `LABEL` or `NAME=LABEL`.
    fn read_vertex(&mut self, line: &Line, word: Word, table: &Table) -> Result<(), Fault> {
        let mut parts = line.parts(word, &['='])?;
        if parts.len() > 2 {
            return line.fault(word.column, format!("a vertex is a label, or a name and a label as P1=2, not {}", quote(word.text)));
        }
        if self.vertices.len() == VERTICES_WRITTEN {
            return line.fault(word.column, format!("more than {VERTICES_WRITTEN} vertices"));
        }
        let label = parts.pop().map(|(part, _)| part);
        let name = parts.pop().map(|(part, _)| part);
        let label = label.map_or(Ok(0), |part| label_of(&part, &line.place(part.column), "vertex", &table.vertex.names))?;
        let name = name.map_or(Ok(None), |part| self.new_name(line, part).map(Some))?;
        self.vertices.push(Vertex { label, name, place: line.place(word.column) });
        Ok(())
    }

    /// A vertex's name, which no other has and which is no number.
    fn new_name(&self, line: &Line, part: Part) -> Result<String, Fault> {
        if is_digits(&part.text) {
            return line.fault(part.column, format!("a vertex's name is no number, and {} is one", quote(&part.text)));
        }
        if !part.quoted && !is_bare(&part.text, false) {
            return line.fault(part.column, format!("{} has a character that must stand in quotes", quote(&part.text)));
        }
        match self.number_of(&part.text) {
            Some(other) => line.fault(part.column, format!("vertex {other} is named {} already", quote(&part.text))),
            None => Ok(part.text),
        }
    }

    fn number_of(&self, name: &str) -> Option<u8> {
        let at = self.vertices.iter().position(|vertex| vertex.name.as_deref() == Some(name));
        at.map(|at| at as u8)
    }

    /// `END-END`, `END-END:LABEL` or `END>END:LABEL`.
    fn read_edge(&mut self, line: &Line, word: Word, table: &Table) -> Result<(), Fault> {
        let (ends, label) = match outside_quotes(word.text, ':') {
            Some(at) => (&word.text[..at], Some(&word.text[at + 1..])),
            None => (word.text, None),
        };
        let mut parts = line.parts(Word { text: ends, column: word.column }, &['-', '>'])?;
        if parts.len() != 2 {
            let reason = format!("an edge is two vertices and a label, as 0-1, 0-1:2 or 0>1:4, not {}", quote(word.text));
            return line.fault(word.column, reason);
        }
        let mut label_number = 0;
        if let Some(text) = label {
            let column = word.column + ends.chars().count() + 1;
            let part = line.parts(Word { text, column }, &[])?.remove(0).0;
            label_number = label_of(&part, &line.place(column), "edge", &table.edge.names)?;
        }
        if let Some(reason) = wrong_sign(parts[0].1, label_number) {
            return line.fault(parts[1].0.column - 1, reason);
        }
        let end = |(part, _): (Part, Option<char>)| (line.place(part.column), part);
        let ((second_at, second), (first_at, first)) = (end(parts.remove(1)), end(parts.remove(0)));
        let ends = [(first, first_at), (second, second_at)];
        self.edges.push(EdgeText { ends, label: label_number, text: word.text.into(), place: line.place(word.column) });
        Ok(())
    }

    /// The whole tree, the vertices that edges and serials name found by their names.
    pub fn finish(self) -> Result<Tree, Fault> {
        let mut edges = Vec::new();
        for edge in &self.edges {
            let ends = [self.end(&edge.ends[0])?, self.end(&edge.ends[1])?];
            edges.push(Edge { ends, label: edge.label, text: edge.text.clone(), place: edge.place.clone() });
        }
        let serials = self.serials.finish(&self.vertices, |end| self.end(end))?;
        Ok(Tree { vertices: self.vertices, edges, serials, place: self.place })
    }

    fn end(&self, (part, place): &(Part, Place)) -> Result<u8, Fault> {
        let fault = |reason| Err(Fault { place: place.clone(), reason });
        if part.is_number() {
            return match part.byte() {
                Some(vertex) => Ok(vertex),
                None => fault(format!("a vertex is a number from 0 to 255 or a name, not {}", quote(&part.text))),
            };
        }
        if !part.quoted && !is_bare(&part.text, false) {
            return fault(format!("{} has a character that must stand in quotes", quote(&part.text)));
        }
        match self.number_of(&part.text) {
            Some(vertex) => Ok(vertex),
            None => {
                let names = self.vertices.iter().filter_map(|vertex| vertex.name.as_ref());
                let near = names.into_iter().find(|name| name.to_lowercase() == part.text.to_lowercase());
                let hint = near.map_or(String::new(), |near| format!("; there is {}", quote(near)));
                fault(format!("no vertex of this tree is named {}{hint}", quote(&part.text)))
            }
        }
    }
}

/// What is wrong with the sign between the ends of an edge with this label. A label above all of edges may have either.
fn wrong_sign(sign: Option<char>, label: u8) -> Option<String> {
    let (first, label) = (DIRECTED.start, usize::from(label));
    match sign {
        Some('-') if DIRECTED.contains(&label) => {
            let last = DIRECTED.end - 1;
            Some(format!("label {label}, as all from {first} to {last}, has a direction: write `>` here, and the upstream end before it"))
        }
        Some('>') if label < first => {
            let last = first - 1;
            Some(format!("label {label}, as all from 0 to {last}, has no direction: write `-` here, or a label that has one"))
        }
        _ => None,
    }
}
