//! Certificates with the built program: written, checked and shown; from text and bytes; damaged ones with the item and
//! the byte.
mod support;

use support::json::Value;
use support::plants::{big, examples, hex, LOOP, NINE, THREE};
use support::report::report;
use support::{said, Folder};

/// The sheet of small plant 9.
const NINE_SHEET: &str = "C1 01 01 01 05 00 00 00 C1 02 00 C1 03 05 00 00 00";

const SENTENCES: [&str; 5] = [
    "the certificate's length, a mark, or a number of vertices is wrong",
    "the certificate's mapping breaks a rule",
    "the certificate's weight is not its mapping's",
    "a subproblem record of the certificate breaks a rule",
    "the certificate's weight is not the greater of 0 and its largest value with s = v",
];

/// A folder with a plant and its certificate, in `p` and `c`.
fn written(plant: &str) -> Folder {
    let folder = Folder::with(&[("p", plant)]);
    let (out, err, status) = folder.run(&["write", "p", "-o", "c"]);
    assert_eq!((err.as_str(), status), ("", 0));
    assert_eq!(out, format!("written {}\n", folder.get("c").len()));
    folder
}

/// The certificate in `c` is refused by this item, at this byte and with this reason, by check and show.
fn not_accepted(folder: &Folder, item: u32, place: &str) {
    let sentence = SENTENCES[item as usize - 20];
    assert_eq!(folder.run(&["check", "p", "c"]), said(format!("refused {item}: {sentence}\n"), format!("c: byte {place}\n"), 1));
    let (out, err, status) = folder.run(&["show", "p", "c"]);
    assert_eq!((err, status), (format!("pensummer: refused {item}: {sentence}\nc: byte {place}\n"), 1));
    assert!(out.starts_with(&format!("{} bytes, not accepted\n", folder.get("c").len())), "{out}");
    for name in ["check", "show"] {
        let (out, err, status) = folder.run(&[name, "--json", "p", "c"]);
        assert_eq!((err.as_str(), status), ("", 1), "{name}");
        let report = report(&out);
        let refusal = report.at("refusal");
        let byte = refusal.at("place").at("byte");
        assert_eq!((refusal.at("item"), refusal.at("sentence")), (&Value::Number(item.into()), &sentence.into()), "{name}");
        assert_eq!((byte.clone(), refusal.at("place").at("file")), (number(place), &"c".into()), "{name}");
        assert_eq!(*refusal.at("reason"), place.split_once(": ").map_or("", |(_, reason)| reason).into(), "{name}");
        assert_eq!(*report.at("certificate").at("accepted"), Value::Bool(false), "{name}");
    }
}

/// The number before a colon.
fn number(place: &str) -> Value {
    Value::Number(place.split(':').next().and_then(|word| word.parse().ok()).expect("a byte"))
}

/// Small plant 9 with this sheet.
fn nine(sheet: &str) -> Folder {
    let folder = Folder::with(&[("p", NINE)]);
    folder.put("c", hex(sheet));
    folder
}

#[test]
fn the_sheet_of_small_plant_9_is_written_and_accepted() {
    let folder = written(NINE);
    assert_eq!(folder.get("c"), hex(NINE_SHEET));
    assert_eq!(folder.run(&["check", "p", "c"]), said("accepted\n", "", 0));
}

#[test]
fn small_plant_9_with_head_weight_6_is_refused_by_22() {
    not_accepted(&nine(&NINE_SHEET.replacen("05", "06", 1)), 22, "4: the mapping weighs 5, the head says 6");
}

#[test]
fn small_plant_9_with_value_6_is_refused_by_23() {
    let reason = "the record of recorded 0 with found 0 has the value 6; the pair weighs 5 and the duals add up to 0, together 5";
    not_accepted(&nine("C1 01 01 01 05 00 00 00 C1 02 00 C1 03 06 00 00 00"), 23, &format!("13: {reason}"));
}

#[test]
fn small_plant_9_with_no_partner_and_weight_0_is_refused_by_24() {
    let reason = "the head says 0; the largest value with s = v is 5, that of recorded 0 with found 0";
    not_accepted(&nine("C1 01 01 01 00 00 00 00 C1 02 FF C1 03 05 00 00 00"), 24, &format!("4: {reason}"));
}

#[test]
fn a_certificate_of_another_form_is_refused_by_20() {
    let length = "the certificate has 16 bytes; that of these two trees has 17";
    not_accepted(&nine(&NINE_SHEET[..47]), 20, &format!("16: {length}"));
    not_accepted(&nine(&format!("{NINE_SHEET} 00")), 20, "17: the certificate has 18 bytes; that of these two trees has 17");
    not_accepted(
        &nine(&NINE_SHEET.replace("C1 02", "C1 04")),
        20,
        "9: the byte is 04, where the mark C1 02 of the partner of recorded 0 has 02",
    );
    let size = "the certificate says that the recorded tree has 2 vertices; it has 1";
    not_accepted(&nine(&NINE_SHEET.replacen("01 01 01", "01 02 01", 1)), 20, &format!("2: {size}"));
    not_accepted(&nine(""), 20, "0: the certificate has 0 bytes; that of these two trees has 17");
}

#[test]
fn a_mapping_that_breaks_a_rule_is_refused_by_21() {
    let reason = "recorded 0 has the partner 7; a partner is a found vertex, 0 to 0, or 255 for none";
    not_accepted(&nine(&NINE_SHEET.replace("C1 02 00", "C1 02 07")), 21, &format!("10: {reason}"));
}

#[test]
fn a_certificate_of_another_plant_is_not_accepted() {
    let folder = written(THREE);
    folder.put("p", THREE.replace("edge 1", "edge 2"));
    not_accepted(&folder, 22, "4: the mapping weighs 10, the head says 9");
    folder.put("p", NINE);
    let reason = "the certificate says that the recorded tree has 2 vertices; it has 1; \
                  also, the certificate has 94 bytes; that of these two trees has 17";
    not_accepted(&folder, 20, &format!("2: {reason}"));
}

#[test]
fn every_example_goes_from_text_to_a_certificate_that_is_accepted() {
    for (name, text) in examples() {
        let folder = written(&text);
        assert_eq!(folder.run(&["check", "p", "c"]), said("accepted\n", "", 0), "{name}");
        let (out, err, status) = folder.run(&["show", "p", "c"]);
        assert_eq!((err.as_str(), status), ("", 0), "{name}");
        let weight = folder.run(&["match", "--plain", "p"]).0.lines().next().map(str::to_owned).expect("a line");
        assert!(out.starts_with(&format!("{} bytes, accepted\n{weight}\n\nmapping\n", folder.get("c").len())), "{name}: {out}");
    }
}

#[test]
fn a_certificate_of_a_text_is_accepted_with_three_files_of_bytes() {
    for (name, text) in examples() {
        let folder = written(&text);
        assert_eq!(folder.run(&["plant", "p", "--split", "b"]), said("", "", 0), "{name}");
        let parts = ["b.table", "b.recorded", "b.found"];
        assert_eq!(folder.run(&["check", parts[0], parts[1], parts[2], "c"]), said("accepted\n", "", 0), "{name}");
        assert_eq!(folder.run(&["write", parts[0], parts[1], parts[2], "-o", "d"]).2, 0, "{name}");
        assert_eq!(folder.get("d"), folder.get("c"), "{name}");
        assert_eq!(folder.run(&["show", parts[0], parts[1], parts[2], "c"]).2, 0, "{name}");
    }
}

#[test]
fn a_certificate_may_be_checked_with_a_plant_in_one_or_two_files() {
    let folder = written(THREE);
    let (table, trees) = THREE.split_at(THREE.find("recorded").expect("trees"));
    folder.put("t", table);
    folder.put("rf", trees);
    assert_eq!(folder.run(&["check", "t", "rf", "c"]), said("accepted\n", "", 0));
    assert_eq!(folder.run(&["plant", "p", "-o", "b"]), said("", "", 0));
    assert_eq!(folder.run(&["check", "b", "c"]), said("accepted\n", "", 0));
}

#[test]
fn the_certificate_may_come_from_standard_input() {
    let folder = written(THREE);
    assert_eq!(folder.fed(&["check", "p", "-"], folder.get("c")), said("accepted\n", "", 0));
    let message = "-: byte 0: the certificate has 0 bytes; that of these two trees has 94\n";
    assert_eq!(folder.fed(&["check", "p", "-"], ""), said(format!("refused 20: {}\n", SENTENCES[0]), message, 1));
}

#[test]
fn certificates_of_the_largest_plants_are_written_and_accepted() {
    for seed in 1..3 {
        let folder = written(&big(seed));
        assert_eq!(folder.run(&["check", "p", "c"]), said("accepted\n", "", 0), "{seed}");
        let json = report(&folder.run(&["show", "--json", "p", "c"]).0);
        assert_eq!(json.at("certificate").at("subproblems").list().len(), 64 * (3 * 64 - 2), "{seed}");
        // the last byte of the last number made one more
        let mut bytes = folder.get("c");
        let last = bytes.len() - 1;
        bytes[last] = bytes[last].wrapping_add(1);
        folder.put("c", bytes);
        let (out, _, status) = folder.run(&["check", "p", "c"]);
        assert_eq!((out, status), (format!("refused 23: {}\n", SENTENCES[3]), 1), "{seed}");
    }
}

#[test]
fn the_longest_certificate_there_is_is_written_and_accepted() {
    // eight vertices of degree 8, one of degree 7, and leaves
    let edges: Vec<String> = (1..64).map(|i| format!("{i}-{}", (i - 1) / 7)).collect();
    let tree = format!("{}\n{}\n", " 0".repeat(64), edges.join(" ").replacen("8-1 ", "8-0 ", 1));
    let folder = written(&format!("labels 1 1\nvertex 1\nedge 1\nrecorded{tree}found{tree}"));
    assert_eq!(folder.get("c").len(), 278_736);
    assert_eq!(folder.run(&["check", "p", "c"]), said("accepted\n", "", 0));
    folder.put("c", [folder.get("c"), vec![0]].concat());
    let reason = "the certificate has 278737 bytes; that of these two trees has 278736";
    not_accepted(&folder, 20, &format!("278736: {reason}"));
}

#[test]
fn show_prints_the_weight_the_mapping_and_each_subproblem() {
    let expected = "\
94 bytes, accepted
weight 9

mapping
recorded  label    found  label
0         label 0  1      label 0
1         label 1  0      label 1

subproblems
u is a recorded vertex, its tree rooted at 0; v is a found vertex; s is v itself, or a neighbour of v that is left out.
The value is the weight of (u, v) plus a dual for each child of u and for each neighbour of v other than s.
A dual stands after the number of its vertex; byte is where the record begins.
byte  recorded u  found v  s  value  weight  duals of children  duals of neighbours
  14  1           0        0      3       3  -                  1: 0
  24  1           0        1      3       3  -                  -
  30  1           1        1     -2      -2  -                  0: 0
  40  1           1        0     -2      -2  -                  -
  46  0           0        0     -2      -2  1: 0               1: 0
  60  0           0        1     -2      -2  1: 0               -
  70  0           1        1      9       5  1: 4               0: 0
  84  0           1        0      5       5  1: 0               -
";
    assert_eq!(written(THREE).run(&["show", "p", "c"]), said(expected, "", 0));
}

#[test]
fn show_has_the_names_of_vertices_and_labels() {
    let plant = "labels 1 1\nvertex-names pump\nvertex forbidden\nedge 1\nrecorded \"P 1\"=pump\nfound Q=pump\n";
    let (out, _, status) = written(plant).run(&["show", "p", "c"]);
    assert_eq!(status, 0);
    assert!(out.contains("\nweight 0\n\nmapping\nrecorded  label  found  label\n0 P 1     pump   -\n"), "{out}");
    assert!(out.contains("\n  11  0 P 1       0 Q      0  forbidden  forbidden  -                  -\n"), "{out}");
}

#[test]
fn show_prints_a_certificate_that_is_not_accepted_too() {
    let folder = nine("C1 01 01 01 05 00 00 00 C1 02 07 C1 03 06 00 00 00");
    let (out, _, status) = folder.run(&["show", "p", "c"]);
    assert_eq!(status, 1);
    assert!(
        out.starts_with(
            "17 bytes, not accepted\nweight 5\n\nmapping\nrecorded  label    found  label\n0         label 0  7      no such vertex\n"
        ),
        "{out}"
    );
    assert!(out.ends_with("\n  11  0           0        0      6       5  -                  -\n"), "{out}");
    let folder = nine("C1 01");
    assert_eq!(folder.run(&["show", "p", "c"]).0, "2 bytes, not accepted\n");
}

#[test]
fn a_plant_as_a_certificate_is_not_accepted() {
    let folder = Folder::with(&[("p", THREE), ("c", THREE)]);
    let length = THREE.len();
    let also = format!("; also, the certificate has {length} bytes; that of these two trees has 94");
    not_accepted(&folder, 20, &format!("0: the byte is 6C, where the mark C1 01 of the head has C1{also}"));
}

#[test]
fn json_of_write_is_one_line_of_the_documented_shape() {
    let folder = Folder::with(&[("p", THREE)]);
    let (out, err, status) = folder.run(&["write", "--json", "p", "-o", "c"]);
    assert_eq!((err.as_str(), status), ("", 0));
    let json = report(&out);
    assert_eq!((json.at("command"), json.at("weight"), json.at("refusal")), (&"write".into(), &Value::Number(9), &Value::Null));
    let certificate = json.at("certificate");
    assert_eq!((certificate.at("length"), certificate.at("accepted")), (&Value::Number(94), &Value::Bool(true)));
    assert_eq!((certificate.at("mapping"), certificate.at("subproblems")), (&Value::Null, &Value::Null));
    assert_eq!((json.at("recorded"), json.at("found")), (&Value::Null, &Value::Null));
    assert_eq!(folder.run(&["check", "p", "c"]), said("accepted\n", "", 0));
}

#[test]
fn json_of_a_refused_plant_stands_beside_a_certificate_on_standard_output() {
    let folder = Folder::with(&[("p", LOOP)]);
    let (out, err, status) = folder.run(&["write", "--json", "p", "-o", "-"]);
    assert_eq!((out.as_str(), status), ("", 1));
    assert_eq!(*report(&err).at("refusal").at("item"), Value::Number(6));
}

#[test]
fn json_of_write_stands_beside_a_certificate_on_standard_output() {
    let folder = written(THREE);
    let output = folder.command(&["write", "--json", "p", "-o", "-"]).output().expect("the program");
    assert_eq!((output.stdout, output.status.code()), (folder.get("c"), Some(0)));
    assert_eq!(*report(&String::from_utf8(output.stderr).expect("UTF-8")).at("weight"), Value::Number(9));
}

#[test]
fn json_of_check_leaves_the_lists_out() {
    let folder = written(THREE);
    let expected = "{\"command\":\"check\",\"status\":\"done\",\"refusal\":null,\"weight\":9,\"recorded\":null,\"found\":null,\
                    \"certificate\":{\"length\":94,\"accepted\":true,\"mapping\":null,\"subproblems\":null},\"sizes\":null}\n";
    assert_eq!(folder.run(&["check", "--json", "p", "c"]), said(expected, "", 0));
    report(expected);
}

#[test]
fn json_of_show_has_the_numbers_of_the_certificate() {
    let folder = written(THREE);
    let (out, err, status) = folder.run(&["show", "--json", "p", "c"]);
    assert_eq!((err.as_str(), status), ("", 0));
    let json = report(&out);
    let records = json.at("certificate").at("subproblems").list();
    let values: Vec<&Value> = records.iter().map(|record| record.at("value")).collect();
    assert_eq!(values, [3, 3, -2, -2, -2, -2, 9, 5].map(Value::Number).iter().collect::<Vec<_>>());
    let bytes: Vec<&Value> = records.iter().map(|record| record.at("byte")).collect();
    assert_eq!(bytes, [14, 24, 30, 40, 46, 60, 70, 84].map(Value::Number).iter().collect::<Vec<_>>());
    let top = &records[6];
    assert_eq!((top.at("recorded"), top.at("found"), top.at("without")), (&Value::Number(0), &Value::Number(1), &Value::Null));
    let dual = &top.at("recorded_duals").list()[0];
    assert_eq!((dual.at("vertex"), dual.at("dual")), (&Value::Number(1), &Value::Number(4)));
    assert_eq!(*records[7].at("without"), Value::Number(0));
}

#[test]
fn json_of_show_has_null_for_forbidden_values_and_for_no_partner() {
    let folder = written("labels 1 1\nvertex forbidden\nedge 1\nrecorded 0\nfound 0\n");
    let json = report(&folder.run(&["show", "--json", "p", "c"]).0);
    assert_eq!((json.at("status"), json.at("weight")), (&"done".into(), &Value::Number(0)));
    assert_eq!(json.at("certificate").at("mapping"), &Value::List(vec![Value::Null]));
    assert_eq!(json.at("certificate").at("subproblems").list()[0].at("value"), &Value::Null);
}

#[test]
fn json_of_a_certificate_that_is_not_accepted_has_its_numbers_where_it_has_a_form() {
    let folder = nine(&NINE_SHEET.replacen("05", "06", 1));
    let json = report(&folder.run(&["show", "--json", "p", "c"]).0);
    assert_eq!((json.at("weight"), json.at("certificate").at("mapping")), (&Value::Number(6), &Value::List(vec![Value::Number(0)])));
    let json = report(&nine("C1 01").run(&["show", "--json", "p", "c"]).0);
    assert_eq!((json.at("weight"), json.at("certificate").at("mapping")), (&Value::Null, &Value::Null));
    assert_eq!(json.at("certificate").at("length"), &Value::Number(2));
}

#[test]
fn a_refused_plant_comes_before_its_certificate() {
    let folder = Folder::with(&[("p", LOOP)]);
    let (out, err, status) = folder.run(&["check", "p", "no such file"]);
    assert_eq!((out.as_str(), status), ("refused 6: an edge of the recorded tree closes a loop\n", 1));
    assert_eq!(err, "p:5:5: the edge 1-0 closes a loop\n");
}

#[test]
fn every_byte_of_a_certificate_counts() {
    let folder = written(THREE);
    let whole = folder.get("c");
    for at in 0..whole.len() {
        let mut bytes = whole.clone();
        bytes[at] = bytes[at].wrapping_add(1);
        folder.put("c", bytes);
        let (out, err, status) = folder.run(&["check", "p", "c"]);
        assert_eq!(status, 1, "byte {at}");
        assert!(out.starts_with("refused 2"), "byte {at}: {out}");
        // the reason is found wherever the library refuses
        assert!(err.starts_with("c: byte "), "byte {at}: {err}");
    }
}
