//! The text form of a plant, printed: reading it gives the same plant again.
use crate::bytes::edge_text;
use crate::plant::{Plant, Tree, Weights};
use crate::words::is_bare;
use pensummer::FORBIDDEN;
use std::fmt::Write;

/// Edges, or serials.
const IN_A_LINE: usize = 12;

pub fn print(plant: &Plant) -> String {
    let table = &plant.table;
    let mut text = format!("labels {} {}\n", table.vertex.labels(), table.edge.labels());
    for (kind, weights) in [("vertex", &table.vertex), ("edge", &table.edge)] {
        if !weights.names.is_empty() {
            let _ = writeln!(text, "{kind}-names {}", weights.names.join(", "));
        }
    }
    print_rows(&mut text, "vertex", &table.vertex);
    print_rows(&mut text, "edge", &table.edge);
    print_tree(&mut text, "recorded", &plant.recorded);
    print_tree(&mut text, "found", &plant.found);
    text
}

fn print_rows(text: &mut String, kind: &str, weights: &Weights) {
    for row in &weights.rows {
        text.push_str(kind);
        for &weight in row {
            text.push(' ');
            text.push_str(&weight_text(weight));
        }
        text.push('\n');
    }
}

/// A weight for people.
pub fn weight_text(weight: i32) -> String {
    if weight == FORBIDDEN {
        "forbidden".into()
    } else {
        weight.to_string()
    }
}

fn print_tree(text: &mut String, word: &str, tree: &Tree) {
    text.push_str(word);
    for vertex in &tree.vertices {
        text.push(' ');
        if let Some(name) = &vertex.name {
            text.push_str(&quoted(name));
            text.push('=');
        }
        let _ = write!(text, "{}", vertex.label);
    }
    text.push('\n');
    for line in tree.serials.iter().flat_map(|serials| serials.chunks(IN_A_LINE)) {
        let serials: Vec<String> = line.iter().map(|serial| serial.number.to_string()).collect();
        let _ = writeln!(text, "serials {}", serials.join(" "));
    }
    for line in tree.edges.chunks(IN_A_LINE) {
        let edges: Vec<String> = line.iter().map(|edge| edge_text(edge.ends[0], edge.ends[1], edge.label)).collect();
        let _ = writeln!(text, "{}", edges.join(" "));
    }
}

/// A vertex's name, in quotes where it cannot stand bare.
fn quoted(name: &str) -> String {
    if is_bare(name, false) {
        name.into()
    } else {
        format!("\"{}\"", name.replace('\\', "\\\\").replace('"', "\\\""))
    }
}
