//! The documented shape of what `--json` prints: every key always there, with a value of its kind.
use super::json::{line, Value};

const REPORT: [&str; 8] = ["command", "status", "refusal", "weight", "recorded", "found", "certificate", "sizes"];
const REFUSAL: [&str; 4] = ["item", "sentence", "place", "reason"];
const PLACE: [&str; 4] = ["file", "line", "column", "byte"];
const VERTEX: [&str; 12] =
    ["vertex", "name", "label", "label_name", "serial", "state", "partner", "certain", "otherwise", "weight", "edge", "same_name"];
const EDGE: [&str; 6] = ["to", "label", "partner_label", "upstream", "weight", "certain"];
const CERTIFICATE: [&str; 4] = ["length", "accepted", "mapping", "subproblems"];
const SIZES: [&str; 4] = ["subproblems", "work", "mapping", "certificate"];
const SUBPROBLEM: [&str; 7] = ["recorded", "found", "without", "byte", "value", "recorded_duals", "found_duals"];

/// What a line of JSON says, after its shape was tested.
pub fn report(text: &str) -> Value {
    let report = line(text);
    assert_eq!(report.keys(), REPORT, "{text}");
    let refused = *report.at("refusal") != Value::Null;
    assert_eq!(*report.at("status"), if refused { "refused" } else { "done" }.into(), "{text}");
    if refused {
        refusal(report.at("refusal"));
    }
    for side in ["recorded", "found"] {
        if *report.at(side) != Value::Null {
            report.at(side).list().iter().enumerate().for_each(|(at, of)| vertex(at, of));
        }
    }
    if *report.at("certificate") != Value::Null {
        certificate(report.at("certificate"));
    }
    if *report.at("sizes") != Value::Null {
        assert_eq!(report.at("sizes").keys(), SIZES);
    }
    report
}

fn refusal(refusal: &Value) {
    assert_eq!(refusal.keys(), REFUSAL);
    assert!(matches!((refusal.at("item"), refusal.at("sentence")), (Value::Number(_), Value::Text(_))), "{refusal:?}");
    let place = refusal.at("place");
    assert_eq!(*place == Value::Null, *refusal.at("reason") == Value::Null, "{refusal:?}");
    if *place != Value::Null {
        assert_eq!(place.keys(), PLACE);
        let of_text = *place.at("byte") == Value::Null;
        assert!(["line", "column"].iter().all(|key| (*place.at(key) == Value::Null) != of_text), "{place:?}");
    }
}

fn vertex(at: usize, vertex: &Value) {
    assert_eq!(vertex.keys(), VERTEX);
    assert_eq!(*vertex.at("vertex"), (at as i64).into());
    assert!(matches!(vertex.at("serial"), Value::Null | Value::Number(1..=0xFFFF_FFFF)), "{vertex:?}");
    let states = ["kept", "changed", "gone", "new"].map(Value::from);
    let state = states.iter().position(|state| state == vertex.at("state")).unwrap_or_else(|| panic!("{vertex:?}"));
    assert_eq!(*vertex.at("partner") == Value::Null, state > 1, "{vertex:?}");
    assert_eq!(*vertex.at("weight") == Value::Null, state > 1, "{vertex:?}");
    if *vertex.at("edge") != Value::Null {
        assert_eq!(vertex.at("edge").keys(), EDGE);
    }
}

fn certificate(certificate: &Value) {
    assert_eq!(certificate.keys(), CERTIFICATE);
    if *certificate.at("subproblems") == Value::Null {
        return;
    }
    for record in certificate.at("subproblems").list() {
        assert_eq!(record.keys(), SUBPROBLEM);
        let duals = record.at("recorded_duals").list().iter().chain(record.at("found_duals").list());
        duals.for_each(|dual| assert_eq!(dual.keys(), ["vertex", "dual"]));
    }
}

/// Whether each vertex of a side is certain, as JSON says it, with what it is otherwise.
pub fn certain(report: &Value, side: &str) -> Vec<(Value, Value)> {
    report.at(side).list().iter().map(|vertex| (vertex.at("certain").clone(), vertex.at("otherwise").clone())).collect()
}
