//! What a command found, in one shape for programs (docs/FORMAT.md): every key is always there, null where it does not
//! apply.
use crate::answer::{Answer, Certainty};
use crate::changes::{name_elsewhere, rows, Row, State};
use crate::input::Refused;
use crate::json::Json;
use crate::plant::{At, Fault, Tree, Weights};

/// What is known; the rest is null.
#[derive(Default)]
pub struct Report<'a> {
    pub command: &'static str,
    pub refusal: Option<&'a Refused>,
    pub not_accepted: Option<&'a Fault>,
    pub answer: Option<&'a Answer<'a>>,
    pub weight: Option<i64>,
    pub certificate: Option<Json>,
    pub sizes: Option<Json>,
}

impl Report<'_> {
    pub fn json(self) -> String {
        let rows = self.answer.map(|answer| (answer, rows(answer)));
        let recorded = rows.as_ref().map(|(answer, rows)| recorded(answer, rows));
        let found = rows.as_ref().map(|(answer, rows)| found(answer, rows));
        let refused = self.refusal.map(refusal).or_else(|| self.not_accepted.map(not_accepted));
        let report = Json::Object(vec![
            ("command", self.command.into()),
            ("status", if refused.is_some() { "refused" } else { "done" }.into()),
            ("refusal", refused.into()),
            ("weight", self.answer.map(|answer| answer.weight).or(self.weight).into()),
            ("recorded", recorded.into()),
            ("found", found.into()),
            ("certificate", self.certificate.into()),
            ("sizes", self.sizes.into()),
        ]);
        format!("{report}\n")
    }
}

fn refusal(refused: &Refused) -> Json {
    Json::Object(vec![
        ("item", (refused.refusal.number() as usize).into()),
        ("sentence", refused.refusal.sentence().into()),
        ("place", refused.fault.as_ref().map(place).into()),
        ("reason", refused.fault.as_ref().map(|fault| fault.reason.as_str()).into()),
    ])
}

/// Of an answer that is not accepted: no item says so.
fn not_accepted(fault: &Fault) -> Json {
    let sentence = "the answer is not accepted";
    Json::Object(vec![
        ("item", Json::Null),
        ("sentence", sentence.into()),
        ("place", place(fault).into()),
        ("reason", fault.reason.as_str().into()),
    ])
}

fn place(fault: &Fault) -> Json {
    let (line, column, byte) = match fault.place.at {
        At::Line { line, column } => (Some(line), Some(column), None),
        At::Byte(byte) => (None, None, Some(byte)),
    };
    Json::Object(vec![("file", (&*fault.place.file).into()), ("line", line.into()), ("column", column.into()), ("byte", byte.into())])
}

fn recorded(answer: &Answer, rows: &[Row]) -> Json {
    let mut list: Vec<(usize, Json)> = rows.iter().map(|row| (row.vertex, recorded_vertex(answer, row))).collect();
    list.sort_by_key(|(vertex, _)| *vertex);
    Json::List(list.into_iter().map(|(_, json)| json).collect())
}

fn recorded_vertex(answer: &Answer, row: &Row) -> Json {
    let weight = row.partner.map(|v| answer.pair_weight(row.vertex, v));
    let edge = row.edge.and_then(|(was, is)| {
        let ends = was.direction.ends(row.vertex, row.parent?);
        Some(Json::Object(vec![
            ("to", row.parent?.into()),
            ("label", was.label.into()),
            ("partner_label", is.label.into()),
            ("upstream", ends.map(|[upstream, _]| upstream).into()),
            ("weight", answer.edge_pair_weight((was, is)).into()),
            ("certain", edge_certain(row)),
        ]))
    });
    let mut members = vertex(&answer.plant.recorded, &answer.plant.table.vertex, row.vertex);
    members.extend([("state", row.state.word().into()), ("partner", row.partner.into())]);
    members.extend(certainty(row.certain));
    members.extend([("weight", weight.into()), ("edge", edge.into()), ("same_name", name_elsewhere(answer, row.vertex).into())]);
    Json::Object(members)
}

fn found(answer: &Answer, rows: &[Row]) -> Json {
    let one = |v: usize| {
        let row = answer.back[v].and_then(|u| rows.iter().find(|row| row.vertex == u));
        let state = row.map_or(State::New, |row| row.state);
        let mut members = vertex(&answer.plant.found, &answer.plant.table.vertex, v);
        members.extend([("state", state.word().into()), ("partner", answer.back[v].into())]);
        members.extend(certainty(answer.found_certain[v]));
        members.extend([
            ("weight", row.map(|row| answer.pair_weight(row.vertex, v)).into()),
            ("edge", Json::Null),
            ("same_name", Json::Null),
        ]);
        Json::Object(members)
    };
    Json::List((0..answer.back.len()).map(one).collect())
}

fn vertex(tree: &Tree, labels: &Weights, u: usize) -> Vec<(&'static str, Json)> {
    let label = tree.label(u);
    vec![
        ("vertex", u.into()),
        ("name", tree.vertices[u].name.as_deref().into()),
        ("label", label.into()),
        ("label_name", labels.names.get(label).map(String::as_str).into()),
        ("serial", tree.serial(u).map(i64::from).into()),
    ]
}

/// Whether both ends of an edge are certain.
fn edge_certain(row: &Row) -> Json {
    match (row.certain, row.edge_certain) {
        (Certainty::Certain, Certainty::Certain) => true.into(),
        (Certainty::Unknown, _) | (_, Certainty::Unknown) => Json::Null,
        _ => false.into(),
    }
}

fn certainty(certain: Certainty) -> [(&'static str, Json); 2] {
    match certain {
        Certainty::Certain => [("certain", true.into()), ("otherwise", Json::Null)],
        Certainty::Otherwise(other) => [("certain", false.into()), ("otherwise", other.into())],
        Certainty::Unknown => [("certain", Json::Null), ("otherwise", Json::Null)],
    }
}
