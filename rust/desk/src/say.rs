//! A mapping in words, a line for each vertex: what is kept, changed, gone and new, and what is not certain.
use crate::answer::{Answer, Certainty};
use crate::changes::{counts, name_elsewhere, new_vertices, rows, Counts, Row, State};
use crate::plant::{Link, Tree, Weights};

/// A vertex for people: number, name of its own if it has one, label, and serial if that is known.
pub fn vertex(tree: &Tree, labels: &Weights, u: usize) -> String {
    let label = labels.called(tree.label(u));
    match (&tree.vertices[u].name, tree.serial(u)) {
        (Some(_), _) => format!("{} ({label}{})", tree.called(u), tree.serial_after(", ", u)),
        (None, Some(_)) => format!("{u} {label} ({})", tree.serial_after("", u)),
        (None, None) => format!("{u} {label}"),
    }
}

fn recorded(answer: &Answer, u: usize) -> String {
    format!("recorded {}", vertex(&answer.plant.recorded, &answer.plant.table.vertex, u))
}

fn found(answer: &Answer, v: usize) -> String {
    format!("found {}", vertex(&answer.plant.found, &answer.plant.table.vertex, v))
}

pub fn say(answer: &Answer) -> String {
    let mut rows = rows(answer);
    let mut text = summary(answer, counts(answer, &rows));
    rows.sort_by_key(|row| row.vertex);
    for row in &rows {
        text.push_str(&format!("{:<8} {}\n", row.state.word(), recorded_line(answer, row)));
    }
    for v in new_vertices(answer) {
        text.push_str(&format!("{:<8} {}\n", State::New.word(), found_line(answer, v)));
    }
    text
}

fn summary(answer: &Answer, c: Counts) -> String {
    let sure = match (c.unsure, c.unknown) {
        (0, 0) => "all certain".to_owned(),
        (unsure, 0) => format!("{unsure} not certain"),
        (unsure, unknown) => format!("{unsure} not certain, {unknown} not known"),
    };
    format!("weight {}: {} kept, {} changed, {} gone, {} new; {sure}\n\n", answer.weight, c.kept, c.changed, c.gone, c.new)
}

fn recorded_line(answer: &Answer, row: &Row) -> String {
    let mut line = recorded(answer, row.vertex);
    if let Some(v) = row.partner {
        line += &format!(" is {}", found(answer, v));
        line += &changes(answer, row, v);
    }
    line += &doubt(row.certain, |v| found(answer, v));
    if let (Some(parent), true) = (row.parent, row.edge_certain != Certainty::Certain) {
        let known = if row.edge_certain == Certainty::Unknown { "KNOWN to be certain" } else { "CERTAIN" };
        line += &format!("; its edge is NOT {known}, since recorded {} is not", answer.plant.recorded.called(parent));
    }
    match name_elsewhere(answer, row.vertex) {
        Some(v) => line + &format!("; THE SAME NAME stands at {}", found(answer, v)),
        None => line,
    }
}

/// What differs between a vertex and its partner.
fn changes(answer: &Answer, row: &Row, v: usize) -> String {
    let table = &answer.plant.table;
    let mut text = String::new();
    if answer.label_changed(row.vertex, v) {
        let (was, is) = (answer.plant.recorded.label(row.vertex), answer.plant.found.label(v));
        text += &format!("; its label was {} and is {}", called(&table.vertex, was, is), called(&table.vertex, is, was));
    }
    match (row.parent, row.edge) {
        (Some(parent), Some((was, is))) if was != is => {
            let to = answer.plant.recorded.called(parent) + was.direction.word();
            let [was, is] = [(was, is), (is, was)].map(|(one, other)| called(&table.edge, one.label, other.label));
            text += &format!("; its edge to {to} was {was} and is {is}");
        }
        _ => (),
    }
    text
}

/// A label beside another one: with its number if they have one name.
fn called(labels: &Weights, label: usize, other: usize) -> String {
    let name = labels.called(label);
    if name == labels.called(other) {
        format!("{name} ({label})")
    } else {
        name
    }
}

fn found_line(answer: &Answer, v: usize) -> String {
    let table = &answer.plant.table;
    let edge = |(w, link): (usize, Link)| {
        format!("{}{} by {}", vertex(&answer.plant.found, &table.vertex, w), link.direction.word(), table.edge.called(link.label))
    };
    let joined: Vec<String> = answer.found.links(v).map(edge).collect();
    let mut line = found(answer, v);
    if !joined.is_empty() {
        line += &format!(", joined to {}", joined.join(", "));
    }
    line + &doubt(answer.found_certain[v], |u| recorded(answer, u))
}

/// What another heaviest mapping says.
fn doubt(certain: Certainty, called: impl Fn(usize) -> String) -> String {
    match certain {
        Certainty::Certain => String::new(),
        Certainty::Otherwise(None) => "; NOT CERTAIN: as heavy without this pair".into(),
        Certainty::Otherwise(Some(other)) => format!("; NOT CERTAIN: as heavy with {}", called(other)),
        Certainty::Unknown => "; NOT KNOWN to be certain: to ask takes a label or a weight beyond the limits".into(),
    }
}

/// The lines that the match program prints.
pub fn plain(answer: &Answer) -> String {
    let mut text = format!("weight {}\n", answer.weight);
    for (u, v) in answer.partner.iter().enumerate() {
        let partner = v.map_or("-".to_owned(), |v| v.to_string());
        text += &format!("{u} {partner}\n");
    }
    text
}
