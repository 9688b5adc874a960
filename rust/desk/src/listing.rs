//! A mapping as a table: the recorded tree from vertex 0 down, children indented below their parent, with partners and
//! what each pair weighs; serials in columns of their own where one is known.
use crate::answer::{Answer, Certainty};
use crate::changes::{name_elsewhere, new_vertices, rows, Row};
use crate::plant::{Tree, Weights};
use crate::width::aligned;

const HEAD: [&str; 8] = ["recorded", "label", "serial", "edge", "partner", "label", "serial", "weight"];

/// Those that stand where no serial is known.
const WITHOUT_SERIALS: [usize; 6] = [0, 1, 3, 4, 5, 7];

pub fn listing(answer: &Answer) -> String {
    let rows = rows(answer);
    let pairs = answer.pairs().count();
    let edges = answer.edges_sum();
    let mapped = answer.mapped_edges().count();
    let vertices = answer.weight - edges;
    let mut text =
        format!("weight {}: vertex pairs {pairs}, weighing {vertices}; edge pairs {mapped}, weighing {edges}\n\n", answer.weight);
    let mut table = vec![HEAD.map(str::to_owned)];
    table.extend(rows.iter().map(|row| cells(answer, row)));
    let known = [&answer.plant.recorded, &answer.plant.found].iter().any(|tree| (0..tree.size()).any(|u| tree.serial(u).is_some()));
    text += &match known {
        true => aligned(&table, [false; HEAD.len()]),
        false => {
            let table: Vec<[String; 6]> = table.iter().map(|row| WITHOUT_SERIALS.map(|column| row[column].clone())).collect();
            aligned(&table, [false; WITHOUT_SERIALS.len()])
        }
    };
    text.push('\n');
    text += &without_partner(answer);
    text + &legend(answer, &rows)
}

/// A label: its number, and its name if it has one.
fn label(labels: &Weights, label: usize) -> String {
    match labels.names.get(label) {
        Some(_) => format!("{label} {}", labels.called(label)),
        None => label.to_string(),
    }
}

fn unsure(certain: Certainty) -> &'static str {
    if certain == Certainty::Certain {
        ""
    } else {
        " ?"
    }
}

/// A known serial.
fn serial(tree: &Tree, u: usize) -> String {
    tree.serial(u).map_or(String::new(), |serial| serial.to_string())
}

fn cells(answer: &Answer, row: &Row) -> [String; 8] {
    let (plant, u) = (answer.plant, row.vertex);
    let name = format!("{:indent$}{}", "", plant.recorded.called(u), indent = 2 * row.depth);
    let (own, known) = (label(&plant.table.vertex, plant.recorded.label(u)), serial(&plant.recorded, u));
    let edge = row.parent.map_or(String::new(), |parent| edge_cell(answer, row, parent));
    match row.partner {
        None => [name, own, known, edge, format!("-{}", unsure(row.certain)), String::new(), String::new(), String::new()],
        Some(v) => {
            let changed = if answer.label_changed(u, v) { " !" } else { "" };
            let elsewhere = if name_elsewhere(answer, u).is_some() { " *" } else { "" };
            let partner = format!("{}{}{elsewhere}", plant.found.called(v), unsure(row.certain));
            let other = format!("{}{changed}", label(&plant.table.vertex, plant.found.label(v)));
            [name, own, known, edge, partner, other, serial(&plant.found, v), weight_cell(answer, row, v)]
        }
    }
}

/// The label of the edge to the parent, of a directed edge after its ends; of a changed edge both labels.
fn edge_cell(answer: &Answer, row: &Row, parent: usize) -> String {
    let labels = &answer.plant.table.edge;
    let own = answer.recorded.edge(row.vertex, parent).map_or(String::new(), |link| {
        let ends = link.direction.ends(row.vertex, parent).map_or(String::new(), |[a, b]| format!("{a}>{b}: "));
        ends + &label(labels, link.label)
    });
    let unsure = unsure(row.edge_certain);
    match row.edge {
        Some((was, is)) if was != is => format!("{own} -> {} !{unsure}", label(labels, is.label)),
        _ => own + unsure,
    }
}

/// What the pair weighs, and what the edge above it weighs.
fn weight_cell(answer: &Answer, row: &Row, v: usize) -> String {
    let pair = answer.pair_weight(row.vertex, v);
    match row.edge {
        Some(edge) => format!("{pair} + {}", answer.edge_pair_weight(edge)),
        None => pair.to_string(),
    }
}

fn without_partner(answer: &Answer) -> String {
    if new_vertices(answer).next().is_none() {
        return "every found vertex has a partner\n".into();
    }
    let (found, table) = (&answer.plant.found, &answer.plant.table);
    let mut text = "found without a partner\n".to_owned();
    for v in new_vertices(answer) {
        text += &format!("{}{}  label {}", found.called(v), unsure(answer.found_certain[v]), label(&table.vertex, found.label(v)));
        text += &found.serial_after(", ", v);
        for (at, (w, link)) in answer.found.links(v).enumerate() {
            let (to, edge) = (found.called(w) + link.direction.word(), label(&table.edge, link.label));
            text += &format!(", {}{to} (edge label {edge})", if at == 0 { "joined to " } else { "" });
        }
        text.push('\n');
    }
    text
}

/// What the marks mean, of those that stand above.
fn legend(answer: &Answer, rows: &[Row]) -> String {
    let edges = rows.iter().any(|row| row.edge.map_or(false, |(was, is)| was != is));
    let changed = edges || answer.pairs().any(|(u, v)| answer.label_changed(u, v));
    let new = new_vertices(answer).map(|v| answer.found_certain[v] == Certainty::Certain);
    let unsure = !rows.iter().map(Row::is_certain).chain(new).all(|certain| certain);
    let elsewhere = answer.pairs().any(|(u, _)| name_elsewhere(answer, u).is_some());
    let marks = [
        (answer.plant.recorded.is_directed(), "> a directed edge: the end before this mark is upstream\n"),
        (changed, "! the label is another one now\n"),
        (unsure, "? not certain: another heaviest mapping says otherwise, or it is not known; `pensummer match` says which\n"),
        (elsewhere, "* the recorded name stands at another found vertex\n"),
    ];
    let said: String = marks.iter().filter(|(there, _)| *there).map(|(_, words)| *words).collect();
    if said.is_empty() {
        said
    } else {
        format!("\n{said}")
    }
}
