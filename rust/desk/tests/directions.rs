//! Directed edges: how the text form writes them and what is wrong with other ways, how the built program shows them,
//! and that a pair of edges whose directions differ is forbidden.
mod support;

use support::json::Value;
use support::plants::{examples, hex, of_repository};
use support::report::{certain, report};
use support::{bytes, out, said, wrong, Folder};

/// A table with a name for every edge label, of which the last has a sign in it; every pair of edge labels has a weight.
const TABLE: &str = "labels 1 8\nedge-names signal, power, earth, bus, suction, pressure, return pipe, x>y\nvertex 5\nedge-default 2\n";

/// A plant whose recorded tree has the vertices A, 1 and `C>3` and these edges in line 6.
fn with_edges(edges: &str) -> String {
    format!("{TABLE}recorded A=0 0 \"C>3\"=0\n{edges}\nfound 0\n")
}

/// Wrong edges, with the column and the reason.
fn wrong_edges(edges: &str, message: &str) {
    wrong(with_edges(edges), &format!("6:{message}"));
}

fn flow() -> String {
    String::from_utf8(of_repository("examples/flow.txt")).expect("UTF-8")
}

#[test]
fn the_first_end_of_a_directed_edge_is_the_first_in_its_bytes() {
    for (a, b, label) in (4..8).flat_map(|label| [(0, 1, label), (1, 0, label)]) {
        let tree = hex(&format!("B1 01 02 B1 02 00 B1 02 00 B1 03 0{a} 0{b} 0{label}"));
        let text = format!("{TABLE}recorded 0\nfound 0 0\n{a}>{b}:{label}\n");
        assert!(bytes(&text).ends_with(&tree), "{text}");
    }
}

#[test]
fn each_edge_comes_back_from_bytes_with_its_sign() {
    let tree = "0 0 0 0 0 0 0 0 0\n0-1 2-1:1 2-3:2 4-3:3 4>5:4 6>5:5 6>7:6 8>7:7\n";
    let plant = format!("labels 1 8\nvertex 5\n{}recorded {tree}found {tree}", "edge 2 2 2 2 2 2 2 2\n".repeat(8));
    let folder = Folder::new();
    folder.put("b", bytes(&plant));
    assert_eq!(folder.run(&["text", "b"]), said(plant.as_str(), "", 0));
    assert_eq!(out(&plant, &["text"]), plant);
}

#[test]
fn the_ends_and_the_label_of_a_directed_edge_may_be_names() {
    let numbers = bytes(with_edges("1>0:6 2>1:7"));
    for edges in ["1>A:\"return pipe\" \"C>3\">1:\"x>y\"", "1>A:6\n\"C>3\">1:\"x>y\"", "1>\"A\":006 2>1:7"] {
        assert_eq!(bytes(with_edges(edges)), numbers, "{edges}");
    }
    assert_eq!(bytes(with_edges("A-\"C>3\":bus 1>0:suction")), bytes(with_edges("0-2:3 1>0:4")));
}

#[test]
fn a_label_with_a_direction_wants_the_sign_of_one() {
    let reason = |label: u8| format!("label {label}, as all from 4 to 7, has a direction: write `>` here, and the upstream end before it");
    for label in 4..8 {
        wrong_edges(&format!("0-1:{label}"), &format!("2: {}", reason(label)));
    }
    wrong_edges("A-1  \"C>3\"-1:\"return pipe\"", &format!("11: {}", reason(6)));
    wrong_edges("0>1:4 1-2:pressure", &format!("8: {}", reason(5)));
}

#[test]
fn a_label_without_a_direction_wants_the_other_sign() {
    let reason = |label: u8| format!("label {label}, as all from 0 to 3, has no direction: write `-` here, or a label that has one");
    for label in 0..4 {
        wrong_edges(&format!("0>1:{label}"), &format!("2: {}", reason(label)));
    }
    wrong_edges("A-1 1>\"C>3\"", &format!("6: {}", reason(0)));
    wrong_edges("\"C>3\">A:bus", &format!("6: {}", reason(3)));
}

/// They have bytes, and the library refuses them.
#[test]
fn a_label_that_is_none_of_edges_has_either_sign() {
    for (sign, label) in ['-', '>'].into_iter().flat_map(|sign| [(sign, 8), (sign, 255)]) {
        let folder = Folder::with(&[("p", &with_edges(&format!("0-1 1{sign}2:{label}")))]);
        let refused = "pensummer: refused 4: a vertex or edge label of the recorded tree is not in the table\n";
        let reason = |edge: &str| format!("the edge {edge} has label {label}, and labels are 0 to 7\n");
        assert_eq!(folder.run(&["match", "p"]), said("", format!("{refused}p:6:5: {}", reason(&format!("1{sign}2:{label}"))), 1));
        folder.put("b", folder.bytes(&["plant", "p"]));
        // a table of 282 bytes, a head of 3, three vertices of 3, an edge of 5
        let place = 282 + 3 + 9 + 5;
        assert_eq!(folder.run(&["match", "b"]), said("", format!("{refused}b: byte {place}: {}", reason(&format!("1-2:{label}"))), 1));
    }
}

#[test]
fn a_directed_edge_of_a_label_beyond_the_table_is_shown_with_its_direction() {
    let folder = Folder::with(&[("p", "labels 1 1\nvertex 5\nedge 2\nrecorded 0 0\n1>0:5\nfound 0\n")]);
    folder.put("b", folder.bytes(&["plant", "p"]));
    for (name, place) in [("p", "p:5:1"), ("b", "b: byte 25")] {
        let (_, err, status) = folder.run(&["match", name]);
        assert!(err.ends_with(&format!("\n{place}: the edge 1>0:5 has label 5, and labels are 0 to 0\n")), "{err}");
        assert_eq!(status, 1);
    }
}

#[test]
fn no_other_sign_and_no_blank_stands_between_the_ends() {
    let shape = |word: &str| format!("an edge is two vertices and a label, as 0-1, 0-1:2 or 0>1:4, not `{word}`");
    for word in ["0<1:4", "0>1>2:4", "0>1-2:4", "0-1>2", "A|1:4"] {
        wrong_edges(word, &format!("1: {}", shape(word)));
    }
    for (edges, word, column) in [("0>", "0>", 1), (">1:4", ">1:4", 1), ("A-1 1 > 2:4", ">", 7), ("0-1 1> 2:4", "1>", 5)] {
        wrong_edges(edges, &format!("{column}: something is missing at `{word}`; no blanks stand around `-`, `>`, `=` and `:`"));
    }
    wrong_edges("0->1:4", "3: a name or a number is missing here");
    wrong_edges("0>>1:4", "3: a name or a number is missing here");
}

#[test]
fn a_name_with_the_sign_stands_in_quotes() {
    wrong_edges("B>2=0", "1: `B>2` has a character that must stand in quotes");
    wrong_edges("0>1:x>y", "5: `x>y` has a character that must stand in quotes");
    wrong_edges("0>1:<", "5: `<` has a character that must stand in quotes");
    wrong_edges("serials C>3=7", "9: `C>3` has a character that must stand in quotes");
    let (text, plain) = (with_edges("\"B>2\"=0 A>1:4 1>2:4 2>\"B>2\":4"), "recorded A=0 0 \"C>3\"=0 \"B>2\"=0\n0>1:4 1>2:4 2>3:4\n");
    assert!(out(&text, &["text"]).contains(plain), "{}", out(&text, &["text"]));
}

/// Vertices of two labels, so that a pair can be of equal labels only, joined by these edges.
fn two(recorded: &str, found: &str) -> String {
    format!(
        "labels 2 8\nvertex-default forbidden\nvertex-equal 5\nedge-default 2\nedge-equal 3\nrecorded 0 1\n{recorded}\nfound 0 1\n{found}\n"
    )
}

#[test]
fn edges_are_a_pair_if_they_run_the_same_way() {
    for (recorded, found, weight) in [
        ("0>1:4", "0>1:4", 13),
        ("1>0:7", "1>0:7", 13),
        ("0>1:4", "0>1:5", 12),
        ("1>0:6", "1>0:4", 12),
        ("0-1:3", "1-0:3", 13),
        ("0-1:2", "1-0:3", 12),
    ] {
        let text = out(&two(recorded, found), &["match", "--plain"]);
        assert_eq!(text, format!("weight {weight}\n0 0\n1 1\n"), "{recorded} {found}");
    }
}

#[test]
fn edges_whose_directions_differ_are_no_pair_whatever_the_table_says() {
    let reasons = ["they run opposite ways", "one has a direction and the other has not"];
    for (recorded, found, reason) in [
        ("0>1:4", "1>0:4", 0),
        ("1>0:7", "0>1:7", 0),
        ("0>1:4", "1>0:5", 0),
        ("0>1:4", "0-1:3", 1),
        ("0-1", "0>1:4", 1),
        ("0-1:3", "1>0:7", 1),
    ] {
        let folder = Folder::with(&[("p", &two(recorded, found)), ("a", "weight 12\n0 0\n1 1\n")]);
        let (text, _, status) = folder.run(&["match", "--plain", "p"]);
        assert!(text.starts_with("weight 5\n") && status == 0, "{recorded} {found}: {text}");
        let message = format!("a:3:1: the edge of recorded 0 and 1 is forbidden with that of their partners: {}\n", reasons[reason]);
        for name in ["match", "listing", "picture"] {
            assert_eq!(folder.run(&[name, "p", "--answer", "a"]), said("", message.as_str(), 1), "{recorded} {found}");
        }
    }
}

/// What the table forbids is said as ever.
#[test]
fn a_directed_pair_that_the_table_forbids_is_forbidden_without_a_word_of_direction() {
    let plant = two("0>1:4", "0>1:5").replace("edge-default 2", "edge-default forbidden");
    let folder = Folder::with(&[("p", &plant), ("a", "weight 12\n0 0\n1 1\n")]);
    let message = "a:3:1: the edge of recorded 0 and 1 is forbidden with that of their partners\n";
    assert_eq!(folder.run(&["match", "p", "--answer", "a"]), said("", message, 1));
}

const EXAMPLE_MATCH: &str = "\
weight 110: 4 kept, 1 changed, 2 gone, 2 new; all certain

gone     recorded 0 S1 (skimmer); THE SAME NAME stands at found 6 S1 (skimmer)
gone     recorded 1 M1 (circulation pump); THE SAME NAME stands at found 5 M1 (circulation pump)
kept     recorded 2 F1 (filter) is found 4 F1 (filter)
kept     recorded 3 H1 (heater) is found 2 H1 (heater)
changed  recorded 4 I1 (inlet) is found 0 I1 (inlet); its edge to 3 H1 upstream was pressure pipe and is return pipe
kept     recorded 5 C1 (chlorine pump) is found 1 C1 (chlorine pump)
kept     recorded 6 T1 (probe) is found 3 T1 (probe)
new      found 5 M1 (circulation pump), joined to 4 F1 (filter) upstream by pressure pipe, 6 S1 (skimmer) downstream by suction pipe
new      found 6 S1 (skimmer), joined to 5 M1 (circulation pump) upstream by suction pipe
";

const EXAMPLE_LISTING: &str = "\
weight 110: vertex pairs 5, weighing 100; edge pairs 4, weighing 10

recorded        label               edge                                     partner  label            weight
0 S1            0 skimmer                                                    -
  1 M1          1 circulation pump  0>1: 4 suction pipe                      -
    2 F1        2 filter            1>2: 5 pressure pipe                     4 F1     2 filter         20
      3 H1      3 heater            2>3: 5 pressure pipe                     2 H1     3 heater         20 + 3
        4 I1    4 inlet             3>4: 5 pressure pipe -> 6 return pipe !  0 I1     4 inlet          20 + 1
          5 C1  5 chlorine pump     5>4: 7 dosing hose                       1 C1     5 chlorine pump  30 + 3
        6 T1    6 probe             0 signal line                            3 T1     6 probe          10 + 3

found without a partner
5 M1  label 1 circulation pump, joined to 4 F1 upstream (edge label 5 pressure pipe), 6 S1 downstream (edge label 4 suction pipe)
6 S1  label 0 skimmer, joined to 5 M1 upstream (edge label 4 suction pipe)

> a directed edge: the end before this mark is upstream
! the label is another one now
";

#[test]
fn in_the_example_the_pump_that_was_turned_round_has_no_partner() {
    assert_eq!(out(&flow(), &["match"]), EXAMPLE_MATCH);
    assert_eq!(out(&flow(), &["listing"]), EXAMPLE_LISTING);
}

/// The example with the pump's pipes as they were.
fn not_turned() -> String {
    flow().replace("M1>S1:", "S1>M1:").replace("F1>M1:", "M1>F1:")
}

#[test]
fn in_the_example_with_its_pipes_as_they_were_the_pump_is_kept() {
    let text = out(&not_turned(), &["match"]);
    assert!(text.starts_with("weight 156: 6 kept, 1 changed, 0 gone, 0 new; all certain\n"), "{text}");
    assert!(text.contains("\nkept     recorded 1 M1 (circulation pump) is found 5 M1 (circulation pump)\n"), "{text}");
}

#[test]
fn an_answer_with_edges_that_run_opposite_ways_is_not_accepted_and_says_so() {
    let folder = Folder::with(&[("p", &flow()), ("a", &out(&not_turned(), &["match", "--plain"]))]);
    let reason = "the edge of recorded 0 and 1 is forbidden with that of their partners: they run opposite ways";
    assert_eq!(folder.run(&["listing", "p", "--answer", "a"]), said("", format!("a:3:1: {reason}\n"), 1));
    folder.put("a", out(&flow(), &["match", "--plain"]));
    assert_eq!(folder.run(&["match", "p", "--answer", "a"]), said(EXAMPLE_MATCH, "", 0));
}

#[test]
fn json_has_the_upstream_end_of_each_edge() {
    let json = report(&out(&flow(), &["match", "--json"]));
    let edge = |u: usize, key: &str| json.at("recorded").list()[u].at("edge").at(key).clone();
    let ends: Vec<[Value; 2]> = (3..7).map(|u| ["to", "upstream"].map(|key| edge(u, key))).collect();
    let number = Value::Number;
    assert_eq!(ends, [[number(2), number(2)], [number(3), number(3)], [number(4), number(5)], [number(3), Value::Null]]);
    assert_eq!(["label", "partner_label", "weight"].map(|key| edge(4, key)), [5, 6, 1].map(Value::Number));
    assert!((0..3).all(|u| *json.at("recorded").list()[u].at("edge") == Value::Null));
}

/// Arrow heads in the picture of the example: five in each tree, four of them grey.
#[test]
fn the_picture_has_a_head_for_each_directed_edge_and_says_what_it_means() {
    let svg = out(&flow(), &["picture"]);
    let heads: Vec<&str> = svg.lines().filter(|line| line.starts_with("<polygon class=\"head\" ")).collect();
    assert_eq!((heads.len(), heads.iter().filter(|head| head.ends_with("fill=\"#9a9a9a\"/>")).count()), (10, 4), "{svg}");
    assert!(svg.contains(" Arrow heads point downstream.</text>"), "{svg}");
}

#[test]
fn plants_without_directed_edges_say_nothing_of_direction() {
    for (name, text) in examples().into_iter().filter(|(name, _)| *name != "flow.txt") {
        let said = ["match", "listing", "picture"].map(|command| out(&text, &[command])).concat();
        assert!(!["stream", "polygon", "directed", "Arrow"].iter().any(|word| said.contains(word)), "{name}: {said}");
        let json = out(&text, &["match", "--json"]);
        assert_eq!(json.matches("\"upstream\":null").count(), json.matches("\"partner_label\"").count(), "{name}");
    }
}

/// A pump with two probes that are alike but for the way in which their edges run.
fn probes(recorded: &str, found: &str) -> Value {
    let table = "labels 2 5\nvertex-default forbidden\nvertex-pair 0 0 5\nvertex-pair 1 1 3\nedge-default 1\n";
    report(&out(&format!("{table}recorded 0 1 1\n{recorded}\nfound 0 1 1\n{found}\n"), &["match", "--json"]))
}

#[test]
fn directions_make_certain_what_labels_do_not() {
    let sure = (Value::Bool(true), Value::Null);
    let otherwise = |partner: i64| (Value::Bool(false), Value::Number(partner));
    let json = probes("0>1:4 2>0:4", "0>2:4 1>0:4");
    let partners: Vec<&Value> = json.at("recorded").list().iter().map(|vertex| vertex.at("partner")).collect();
    assert_eq!(partners, [0, 2, 1].map(Value::Number).iter().collect::<Vec<_>>());
    assert_eq!((certain(&json, "recorded"), certain(&json, "found")), (vec![sure.clone(); 3], vec![sure.clone(); 3]));
    for (recorded, found) in [("0>1:4 0>2:4", "0>2:4 0>1:4"), ("1>0:4 2>0:4", "1>0:4 2>0:4"), ("0-1:3 2-0:3", "0-2:3 1-0:3")] {
        let json = probes(recorded, found);
        assert_eq!(certain(&json, "recorded")[0], sure, "{recorded}");
        assert!([vec![otherwise(2), otherwise(1)], vec![otherwise(1), otherwise(2)]].contains(&certain(&json, "recorded")[1..].to_vec()));
    }
    // a probe that runs the other way than both is gone, and another one new, certainly
    let json = probes("0>1:4 0>2:4", "0>1:4 2>0:4");
    assert_eq!((json.at("weight"), certain(&json, "found")[2].clone()), (&Value::Number(9), sure));
}

#[test]
fn certificates_of_plants_with_directed_edges_are_written_checked_and_shown() {
    let folder = Folder::with(&[("p", &flow()), ("w", &not_turned())]);
    for (plant, certificate) in [("p", "c"), ("w", "d")] {
        assert_eq!(folder.run(&["write", plant, "-o", certificate]).2, 0);
        assert_eq!(folder.run(&["check", plant, certificate]), said("accepted\n", "", 0));
        assert_eq!(folder.run(&["show", plant, certificate]).2, 0);
    }
    // one that pairs the pumps is of the plant whose pump was not turned round
    let verdict = "refused 21: the certificate's mapping breaks a rule\n";
    let partners = "recorded 0 S1 and recorded 1 M1 have the partners found 6 S1 and found 5 M1";
    let reason = "the pair of their edges, suction pipe and suction pipe, is forbidden: they run opposite ways";
    assert_eq!(folder.run(&["check", "p", "d"]), said(verdict, format!("d: byte 13: {partners}; {reason}\n"), 1));
    let (shown, err, status) = folder.run(&["show", "p", "d"]);
    assert!(shown.contains(" bytes, not accepted\nweight 156\n") && err.contains("they run opposite ways") && status == 1, "{shown}{err}");
    // and the other one has records that do not cover what that plant's pairs weigh
    let (out, err, status) = folder.run(&["check", "w", "c"]);
    assert_eq!((out.as_str(), status), ("refused 23: a subproblem record of the certificate breaks a rule\n", 1));
    assert!(err.starts_with("c: byte ") && err.contains("their edge pair weighs 3 and the value of "), "{err}");
}
