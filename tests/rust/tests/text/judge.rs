//! What must hold of every text that is read, whether it is a plant or not.
use super::made::is_digits;
use desk::bytes::{self, Bytes, Part};
use desk::plant::{At, Edge, Fault, Place, Plant, Tree, Vertex};
use desk::print::print;
use desk::text::{read, Text};
use pensummer_tests::reading::FORBIDDEN;
use std::rc::Rc;

/// Texts with names of their files.
pub fn files(texts: &[Vec<u8>]) -> Vec<Text> {
    texts.iter().enumerate().map(|(at, bytes)| Text { file: format!("file {at}").into(), bytes: bytes.clone() }).collect()
}

/// Texts for a message.
pub fn shown(texts: &[Text]) -> String {
    texts
        .iter()
        .map(|text| format!("\n--- {}: {:?}\n{}", text.file, text.bytes.escape_ascii().to_string(), String::from_utf8_lossy(&text.bytes)))
        .collect()
}

/// The lines of files without byte order marks and line ends; an empty file has one.
pub struct Lines(Vec<(Rc<str>, Vec<Vec<char>>)>);

impl Lines {
    pub fn of(texts: &[Text]) -> Lines {
        Lines(texts.iter().map(|text| (text.file.clone(), Lines::of_file(&text.bytes))).collect())
    }

    fn of_file(bytes: &[u8]) -> Vec<Vec<char>> {
        let bytes = bytes.strip_prefix(b"\xEF\xBB\xBF").unwrap_or(bytes);
        let mut lines: Vec<&[u8]> = bytes.split(|&b| b == b'\n').collect();
        if lines.len() > 1 && lines[lines.len() - 1].is_empty() {
            lines.pop();
        }
        lines.into_iter().map(|line| String::from_utf8_lossy(line).chars().collect()).collect()
    }

    /// The text from a place to the end of its line; none if there is no such place. Just after the line is one.
    pub fn at(&self, place: &Place) -> Option<&[char]> {
        let (line, column) = match place.at {
            At::Line { line, column } => (line, column),
            At::Byte(_) => return None,
        };
        let (_, lines) = self.0.iter().find(|(file, _)| *file == place.file)?;
        lines.get(line.checked_sub(1)?)?.get(column.checked_sub(1)?..)
    }
}

/// A fault is somewhere in the texts and says why, on one line.
pub fn judge_fault(texts: &[Text], fault: &Fault) {
    assert!(Lines::of(texts).at(&fault.place).is_some(), "no such place: {fault:?}{}", shown(texts));
    assert!(!fault.reason.is_empty(), "no reason: {fault:?}{}", shown(texts));
    assert!(!fault.reason.chars().any(char::is_control), "a control character in a reason: {:?}{}", fault.reason, shown(texts));
}

/// Every weight, vertex, edge and serial stands where the plant says.
pub fn judge_places(texts: &[Text], plant: &Plant) {
    let lines = Lines::of(texts);
    let at = |place: &Place| lines.at(place).unwrap_or_else(|| panic!("no such place: {place}{}", shown(texts)));
    for weights in [&plant.table.vertex, &plant.table.edge] {
        for (&weight, place) in weights.rows.iter().flatten().zip(weights.places.iter().flatten()) {
            let word: String = at(place).iter().take_while(|&&c| c == '-' || c.is_ascii_alphanumeric()).collect();
            let there = if word == "forbidden" { Ok(FORBIDDEN) } else { word.parse() };
            assert_eq!(there, Ok(weight), "the weight at {place}{}", shown(texts));
        }
    }
    let begins =
        |place: &Place, word: &str| at(place).iter().copied().zip(word.chars()).filter(|(a, b)| a == b).count() == word.chars().count();
    assert!(begins(&plant.table.place, "labels"), "the table at {}{}", plant.table.place, shown(texts));
    for (tree, word) in [(&plant.recorded, "recorded"), (&plant.found, "found")] {
        assert!(begins(&tree.place, word) || begins(&tree.place, "tree"), "the tree at {}{}", tree.place, shown(texts));
        for edge in &tree.edges {
            assert!(begins(&edge.place, &edge.text), "the edge at {}{}", edge.place, shown(texts));
        }
        for vertex in &tree.vertices {
            assert!(is_vertex(vertex, &at(&vertex.place).iter().collect::<String>()), "the vertex {vertex:?}{}", shown(texts));
        }
        for (serial, vertex) in tree.serials.iter().flatten().zip(&tree.vertices) {
            let digits: String = at(&serial.place).iter().take_while(|c| c.is_ascii_digit()).collect();
            let left_out = serial.number == 0 && serial.place == vertex.place;
            assert!(left_out || digits.parse() == Ok(serial.number), "the serial {serial:?}{}", shown(texts));
        }
    }
}

/// Whether a vertex's word begins here: with its own name, or with its label's number or name.
fn is_vertex(vertex: &Vertex, there: &str) -> bool {
    let digits: String = there.chars().take_while(char::is_ascii_digit).collect();
    match &vertex.name {
        Some(name) => there.starts_with('"') || there.starts_with(&format!("{name}=")),
        // a label's name may begin with digits too
        None if !digits.is_empty() && there[digits.len()..].starts_with([' ', '\t', '#']) => {
            digits.parse::<f64>() == Ok(vertex.label.into())
        }
        None => !there.starts_with([' ', '\t', '#']) && !there.is_empty(),
    }
}

/// Names are tidy, those of vertices no numbers and each of one vertex, and those of labels such as a line of names can hold.
pub fn judge_names(texts: &[Text], plant: &Plant) {
    let is_tidy = |name: &str| !name.chars().any(|c| c.is_ascii_control()) && name.split(' ').all(|word| !word.is_empty());
    for weights in [&plant.table.vertex, &plant.table.edge] {
        let whole = weights.names.is_empty() || weights.names.len() == weights.labels();
        let right = weights.names.iter().all(|name| is_tidy(name) && !name.contains([',', '#']));
        assert!(whole && right, "names of labels: {:?}{}", weights.names, shown(texts));
    }
    for tree in [&plant.recorded, &plant.found] {
        let names: Vec<&String> = tree.vertices.iter().filter_map(|vertex| vertex.name.as_ref()).collect();
        for (at, name) in names.iter().enumerate() {
            let right = is_tidy(name) && !is_digits(name) && !names[..at].contains(name);
            assert!(right, "a vertex named {name:?}{}", shown(texts));
        }
    }
}

/// The serials of a tree that has some in its vertex records.
pub fn serials(tree: &Tree) -> Option<Vec<u32>> {
    tree.serials.as_ref().map(|serials| serials.iter().map(|serial| serial.number).collect())
}

/// What a plant says, apart from where it stands.
pub fn said(plant: &Plant) -> impl PartialEq + std::fmt::Debug {
    let tree = |tree: &Tree| {
        let vertices: Vec<(u8, Option<String>)> = tree.vertices.iter().map(|vertex| (vertex.label, vertex.name.clone())).collect();
        let edge = |edge: &Edge| (edge.ends, edge.label);
        (vertices, tree.edges.iter().map(edge).collect::<Vec<_>>(), serials(tree))
    };
    let (vertex, edge) = (plant.table.vertex.clone(), plant.table.edge.clone());
    ((vertex.rows, vertex.names), (edge.rows, edge.names), tree(&plant.recorded), tree(&plant.found))
}

fn text(name: &str, text: &str) -> Text {
    Text { file: name.into(), bytes: text.as_bytes().to_vec() }
}

/// Printed and read again it is the same plant, and it is printed in the same way. Gives whether its bytes could be parted, too.
pub fn judge_print(texts: &[Text], plant: &Plant) -> bool {
    let printed = print(plant);
    let again = read(&[text("printed", &printed)]).unwrap_or_else(|fault| panic!("{fault}\n{printed}{}", shown(texts)));
    assert_eq!(said(&again), said(plant), "{printed}{}", shown(texts));
    assert_eq!(print(&again), printed, "{}", shown(texts));
    let bytes = Bytes::from(plant);
    assert_eq!(Bytes::from(&again), bytes);
    let in_range = |tree: &Tree| (1..=64).contains(&tree.size()) && tree.edges.len() == tree.size() - 1;
    let counts = (1..=32).contains(&plant.table.vertex.labels()) && (1..=8).contains(&plant.table.edge.labels());
    if !counts || !in_range(&plant.recorded) || !in_range(&plant.found) {
        return false;
    }
    judge_bytes(texts, plant, &bytes);
    true
}

/// The bytes in one are parted again, read as a plant, and that plant's text gives the same bytes.
fn judge_bytes(texts: &[Text], plant: &Plant, bytes: &Bytes) {
    let parted = Bytes::split(&bytes.joined());
    assert_eq!(&parted, bytes, "{}", shown(texts));
    let file: Rc<str> = "bytes".into();
    let part = |bytes, offset| Part { file: &file, bytes, offset };
    let found_at = parted.table.len() + parted.recorded.len();
    let of_bytes = bytes::read(part(&parted.table, 0), part(&parted.recorded, parted.table.len()), part(&parted.found, found_at))
        .unwrap_or_else(|shape| panic!("item {}: {}{}", shape.item, shape.fault, shown(texts)));
    assert_eq!([&of_bytes.recorded, &of_bytes.found].map(serials), [&plant.recorded, &plant.found].map(serials), "{}", shown(texts));
    assert_eq!(&Bytes::from(&of_bytes), bytes, "{}", shown(texts));
    assert_eq!(of_bytes.table.vertex.rows, plant.table.vertex.rows);
    let again = read(&[text("printed", &print(&of_bytes))]).unwrap_or_else(|fault| panic!("{fault}{}", shown(texts)));
    assert_eq!(&Bytes::from(&again), bytes, "{}", shown(texts));
}
