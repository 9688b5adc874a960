//! A certificate as text: its weight, its mapping, and each subproblem with its value and duals, whether they obey the
//! rules or not.
use super::{allowed, number_called, vertex_pair, Certificate, Dual, Record};
use crate::plant::{Plant, Tree};
use crate::width::aligned;

/// The head of each column, and whether its cells stand to the right.
const MAPPING: [(&str, bool); 4] = [("recorded", false), ("label", false), ("found", false), ("label", false)];

const SUBPROBLEMS: [(&str, bool); 8] = [
    ("byte", true),
    ("recorded u", false),
    ("found v", false),
    ("s", true),
    ("value", true),
    ("weight", true),
    ("duals of children", false),
    ("duals of neighbours", false),
];

const LEGEND: &str = "\
subproblems
u is a recorded vertex, its tree rooted at 0; v is a found vertex; s is v itself, or a neighbour of v that is left out.
The value is the weight of (u, v) plus a dual for each child of u and for each neighbour of v other than s.
A dual stands after the number of its vertex; byte is where the record begins.
";

/// For people: weight, the mapping, then each subproblem in order with its value and duals.
pub fn show(plant: &Plant, certificate: &Certificate) -> String {
    let partners = certificate.partners.iter().enumerate();
    let mapping = columns(&MAPPING, partners.map(|(u, &partner)| pair(plant, u, partner)).collect());
    let subproblems = columns(&SUBPROBLEMS, certificate.records.iter().map(|record| subproblem(plant, record)).collect());
    format!("weight {}\n\nmapping\n{mapping}\n{LEGEND}{subproblems}", certificate.weight)
}

/// A recorded vertex and its partner, each with its label, and its serial if that is known.
fn pair(plant: &Plant, u: usize, partner: u8) -> [String; 4] {
    let v = usize::from(partner);
    let [name, label] = if v < plant.found.size() {
        vertex(plant, &plant.found, v)
    } else if partner == pensummer::NONE {
        ["-".into(), String::new()]
    } else {
        [partner.to_string(), "no such vertex".into()]
    };
    let [recorded, own] = vertex(plant, &plant.recorded, u);
    [recorded, own, name, label]
}

/// A vertex, and its label with its serial if that is known.
fn vertex(plant: &Plant, tree: &Tree, vertex: usize) -> [String; 2] {
    [tree.called(vertex), plant.table.vertex.called(tree.label(vertex)) + &tree.serial_after(", ", vertex)]
}

fn subproblem(plant: &Plant, record: &Record) -> [String; 8] {
    [
        record.offset.to_string(),
        plant.recorded.called(record.u),
        plant.found.called(record.v),
        record.s.to_string(),
        number_called(allowed(record.value)),
        number_called(vertex_pair(plant, record.u, record.v)),
        duals(&record.children),
        duals(&record.neighbours),
    ]
}

fn duals(duals: &[Dual]) -> String {
    if duals.is_empty() {
        return "-".into();
    }
    duals.iter().map(|dual| format!("{}: {}", dual.vertex, dual.value)).collect::<Vec<_>>().join(", ")
}

/// Rows under their heads.
fn columns<const N: usize>(heads: &[(&str, bool); N], mut rows: Vec<[String; N]>) -> String {
    rows.insert(0, heads.map(|(head, _)| head.to_string()));
    aligned(&rows, heads.map(|(_, right)| right))
}
