//! Answers of the built program: match, listing, a given answer, JSON; what is kept, changed, gone, new, and what is
//! certain.
mod support;

use support::json::Value;
use support::plants::{big, examples, of_repository, tree, LOOP, NINE, THREE, THREE_PLAIN};
use support::report::{certain, report};
use support::{out, said, Folder, Ran};

/// Runs a command on a plant in the file `p`.
fn of(plant: &str, arguments: &[&str]) -> Ran {
    let folder = Folder::with(&[("p", plant)]);
    folder.run(&[arguments, &["p"]].concat())
}

fn pool() -> String {
    String::from_utf8(of_repository("examples/pool.txt")).expect("UTF-8")
}

const POOL_PLAIN: &str = "weight 130\n0 4\n1 3\n2 2\n3 0\n4 1\n5 5\n";

const POOL_MATCH: &str = "\
weight 130: 5 kept, 1 changed, 0 gone, 1 new; all certain

kept     recorded 0 circulation pump is found 4 circulation pump
kept     recorded 1 filter is found 3 filter
changed  recorded 2 heater is found 2 filter; its label was heater and is filter
kept     recorded 3 chlorine pump is found 0 chlorine pump
kept     recorded 4 acid pump is found 1 acid pump
kept     recorded 5 probe is found 5 probe
new      found 6 probe, joined to 1 acid pump by signal line
";

const POOL_LISTING: &str = "\
weight 130: vertex pairs 6, weighing 115; edge pairs 5, weighing 15

recorded   label               edge           partner  label               weight
0          0 circulation pump                 4        0 circulation pump  20
  1        1 filter            0 pipe         3        1 filter            20 + 3
    2      2 heater            0 pipe         2        1 filter !          5 + 3
      3    3 chlorine pump     0 pipe         0        3 chlorine pump     30 + 3
        5  5 probe             1 signal line  5        5 probe             10 + 3
      4    4 acid pump         0 pipe         1        4 acid pump         30 + 3

found without a partner
6  label 5 probe, joined to 1 (edge label 1 signal line)

! the label is another one now
";

#[test]
fn match_says_in_words_what_became_of_each_vertex() {
    assert_eq!(of(&pool(), &["match"]), said(POOL_MATCH, "", 0));
}

#[test]
fn match_prints_plainly_what_the_match_program_prints() {
    assert_eq!(of(&pool(), &["match", "--plain"]), said(POOL_PLAIN, "", 0));
    assert_eq!(of(THREE, &["match", "--plain"]), said(THREE_PLAIN, "", 0));
    assert_eq!(of(&NINE.replace("found 0", "found 1"), &["match", "--plain"]), said("weight 0\n0 -\n", "", 0));
}

#[test]
fn the_small_plants_of_the_paper_weigh_what_it_says() {
    let table = "labels 2 1\nvertex 5 -2\nvertex -2 3\nedge 1\n";
    let plants = [
        ("recorded 0\nfound 0\n", 5),
        ("recorded 0\nfound 1\n", 0),
        ("recorded 0 1\n0-1\nfound 1 0\n0-1\n", 9),
        ("recorded 0 1 0\n0-1 1-2\nfound 0 0 0\n0-1 1-2\n", 10),
        ("recorded 0 0 0 0\n0-1 0-2 0-3\nfound 0 0 0 0\n0-1 1-2 2-3\n", 17),
        ("recorded 1 0 0\n0-1 1-2\nfound 0 0\n0-1\n", 11),
    ];
    for (trees, weight) in plants {
        let text = out(&format!("{table}{trees}"), &["match", "--plain"]);
        assert!(text.starts_with(&format!("weight {weight}\n")), "{trees}: {text}");
    }
    let seven = "labels 2 1\nvertex 5 -2\nvertex -2 3\nedge forbidden\nrecorded 0 0\n0-1\nfound 0 0\n0-1\n";
    assert!(out(seven, &["match", "--plain"]).starts_with("weight 5\n"));
    let eight = "labels 3 1\nvertex-default forbidden\nvertex-equal 5\nvertex-pair 1 2 4\nvertex-pair 2 1 4\nvertex-pair 2 2 0\n\
                 edge 0\nrecorded 0 1 2\n0-1 0-2\nfound 0 1 2\n0-1 0-2\n";
    assert!(out(eight, &["match", "--plain"]).starts_with("weight 13\n"));
}

#[test]
fn listing_has_the_recorded_tree_with_partners_and_weights() {
    assert_eq!(of(&pool(), &["listing"]), said(POOL_LISTING, "", 0));
    assert_eq!(Folder::new().fed(&["listing", "-"], pool()), said(POOL_LISTING, "", 0));
}

#[test]
fn listing_without_names_has_numbers() {
    let expected = "\
weight 9: vertex pairs 2, weighing 8; edge pairs 1, weighing 1

recorded  label  edge  partner  label  weight
0         0            1        0      5
  1       1      0     0        1      3 + 1

every found vertex has a partner
";
    assert_eq!(of(THREE, &["listing"]), said(expected, "", 0));
}

#[test]
fn listing_of_no_pair() {
    let expected = "\
weight 0: vertex pairs 0, weighing 0; edge pairs 0, weighing 0

recorded  label  edge  partner  label  weight
0         0            -

found without a partner
0  label 1
";
    assert_eq!(of(&NINE.replace("found 0", "found 1"), &["listing"]), said(expected, "", 0));
}

#[test]
fn listing_is_aligned_by_what_characters_take_on_a_screen() {
    let plant = "labels 1 1\nvertex-names \u{4e2d}e\u{301}\nvertex 1\nedge 1\nrecorded \u{e4}=0\nfound 0\n";
    let lines: Vec<String> = out(plant, &["listing"]).lines().skip(2).take(2).map(str::to_owned).collect();
    assert_eq!(
        lines,
        ["recorded  label  edge  partner  label  weight", "0 \u{e4}       0 \u{4e2d}e\u{301}        0        0 \u{4e2d}e\u{301}  1"]
    );
}

#[test]
fn listing_indents_by_depth_and_lists_found_vertices_with_their_neighbours() {
    let plant = "labels 2 2\nvertex 5 forbidden\nvertex forbidden 5\nedge 1 forbidden\nedge forbidden 1\n\
                 recorded 0 0 0\n0-1 1-2\nfound 0 N=1 0 1\n0-1:1 1-2 0-3\n";
    let expected = "\
weight 5: vertex pairs 1, weighing 5; edge pairs 0, weighing 0

recorded  label  edge  partner  label  weight
0         0            0 ?      0      5
  1       0      0     - ?
    2     0      0     - ?

found without a partner
1 N  label 1, joined to 0 (edge label 1), 2 (edge label 0)
2 ?  label 0, joined to 1 N (edge label 0)
3  label 1, joined to 0 (edge label 0)

? not certain: another heaviest mapping says otherwise, or it is not known; `pensummer match` says which
";
    assert_eq!(out(plant, &["listing"]), expected);
}

/// A pump with two probes that are alike, found in the same way.
const PROBES: &str = "\
labels 2 1
vertex-names pump, probe
vertex-default forbidden
vertex-pair pump pump 5
vertex-pair probe probe 3
edge-default 1
recorded P=pump A=probe B=probe
P-A P-B
found Q=pump X=probe Y=probe
Q-X Q-Y
";

/// The same with one probe found.
fn one_probe() -> String {
    PROBES.replace(" Y=probe", "").replace(" Q-Y", "")
}

#[test]
fn of_two_equal_probes_match_says_that_their_pairs_are_not_certain_and_the_pump_is() {
    let expected = "\
weight 13: 3 kept, 0 changed, 0 gone, 0 new; 2 not certain

kept     recorded 0 P (pump) is found 0 Q (pump)
kept     recorded 1 A (probe) is found 1 X (probe); NOT CERTAIN: as heavy with found 2 Y (probe)
kept     recorded 2 B (probe) is found 2 Y (probe); NOT CERTAIN: as heavy with found 1 X (probe)
";
    assert_eq!(out(PROBES, &["match"]), expected);
}

#[test]
fn of_two_equal_probes_listing_marks_their_pairs_and_not_the_pump() {
    let expected = "\
weight 13: vertex pairs 3, weighing 11; edge pairs 2, weighing 2

recorded  label    edge  partner  label    weight
0 P       0 pump         0 Q      0 pump   5
  1 A     1 probe  0     1 X ?    1 probe  3 + 1
  2 B     1 probe  0     2 Y ?    1 probe  3 + 1

every found vertex has a partner

? not certain: another heaviest mapping says otherwise, or it is not known; `pensummer match` says which
";
    assert_eq!(out(PROBES, &["listing"]), expected);
}

/// What JSON says of a vertex that is certain, or not, with its other partner.
fn sure() -> (Value, Value) {
    (Value::Bool(true), Value::Null)
}

fn otherwise(partner: Option<i64>) -> (Value, Value) {
    (Value::Bool(false), partner.map_or(Value::Null, Value::Number))
}

fn unknown() -> (Value, Value) {
    (Value::Null, Value::Null)
}

#[test]
fn of_two_equal_probes_json_says_which_are_certain() {
    let json = report(&out(PROBES, &["match", "--json"]));
    assert_eq!(certain(&json, "recorded"), [sure(), otherwise(Some(2)), otherwise(Some(1))]);
    assert_eq!(certain(&json, "found"), [sure(), otherwise(Some(2)), otherwise(Some(1))]);
}

#[test]
fn a_vertex_that_is_gone_is_not_certain_where_another_mapping_as_heavy_has_it() {
    let expected = "\
weight 9: 2 kept, 0 changed, 1 gone, 0 new; 2 not certain

kept     recorded 0 P (pump) is found 0 Q (pump)
kept     recorded 1 A (probe) is found 1 X (probe); NOT CERTAIN: as heavy without this pair
gone     recorded 2 B (probe); NOT CERTAIN: as heavy with found 1 X (probe)
";
    assert_eq!(out(&one_probe(), &["match"]), expected);
    let listing = out(&one_probe(), &["listing"]);
    assert!(listing.contains("  1 A     1 probe  0     1 X ?    1 probe  3 + 1\n  2 B     1 probe  0     - ?\n"), "{listing}");
    let json = report(&out(&one_probe(), &["listing", "--json"]));
    assert_eq!(certain(&json, "recorded"), [sure(), otherwise(None), otherwise(Some(1))]);
}

#[test]
fn a_vertex_that_is_new_is_not_certain_where_another_mapping_as_heavy_has_it() {
    let plant = PROBES.replace(" B=probe", "").replace(" P-B", "");
    let text = out(&plant, &["match"]);
    let new = "new      found 2 Y (probe), joined to 0 Q (pump) by label 0; NOT CERTAIN: as heavy with recorded 1 A (probe)\n";
    assert!(text.ends_with(new), "{text}");
    let json = report(&out(&plant, &["match", "--json"]));
    assert_eq!(certain(&json, "found"), [sure(), otherwise(None), otherwise(Some(1))]);
}

#[test]
fn vertices_that_no_heaviest_mapping_has_are_certainly_gone_and_new() {
    let plant = PROBES.replace("vertex-pair probe probe 3\n", "");
    let json = report(&out(&plant, &["match", "--json"]));
    assert_eq!(certain(&json, "recorded"), [sure(), sure(), sure()]);
    assert_eq!(certain(&json, "found"), [sure(), sure(), sure()]);
    assert!(out(&plant, &["match"]).starts_with("weight 5: 1 kept, 0 changed, 2 gone, 2 new; all certain\n"));
    assert!(!out(&plant, &["listing"]).contains('?'));
}

#[test]
fn a_vertex_that_would_weigh_one_less_is_certainly_gone() {
    // the pair of probes with its edge weighs -1
    let plant = one_probe().replace("vertex-pair probe probe 3", "vertex-pair probe probe -2");
    let json = report(&out(&plant, &["match", "--json"]));
    assert_eq!(certain(&json, "recorded"), [sure(), sure(), sure()]);
    // and here 0
    let plant = one_probe().replace("vertex-pair probe probe 3", "vertex-pair probe probe -1");
    let json = report(&out(&plant, &["match", "--json"]));
    assert_eq!(certain(&json, "recorded"), [sure(), otherwise(Some(1)), otherwise(Some(1))]);
}

/// A pair that adds nothing.
const ZERO: &str = "labels 2 1\nvertex 5 forbidden\nvertex forbidden 0\nedge 0\nrecorded 0 1\n0-1\nfound 0 1\n0-1\n";

#[test]
fn a_pair_that_adds_nothing_is_not_certain_where_it_is_not_taken() {
    let expected = "\
weight 5: 1 kept, 0 changed, 1 gone, 1 new; 2 not certain

kept     recorded 0 label 0 is found 0 label 0
gone     recorded 1 label 1; NOT CERTAIN: as heavy with found 1 label 1
new      found 1 label 1, joined to 0 label 0 by label 0; NOT CERTAIN: as heavy with recorded 1 label 1
";
    assert_eq!(out(ZERO, &["match"]), expected);
}

#[test]
fn a_pair_that_adds_nothing_is_not_certain_where_it_is_taken() {
    let folder = Folder::with(&[("p", ZERO), ("a", "weight 5\n0 0\n1 1\n")]);
    let expected = "\
weight 5: 2 kept, 0 changed, 0 gone, 0 new; 1 not certain

kept     recorded 0 label 0 is found 0 label 0
kept     recorded 1 label 1 is found 1 label 1; NOT CERTAIN: as heavy without this pair
";
    assert_eq!(folder.run(&["match", "p", "--answer", "a"]), said(expected, "", 0));
}

#[test]
fn the_empty_mapping_is_not_certain_where_a_pair_weighs_nothing() {
    let expected = "\
weight 0: 0 kept, 0 changed, 1 gone, 1 new; 2 not certain

gone     recorded 0 label 0; NOT CERTAIN: as heavy with found 0 label 0
new      found 0 label 0; NOT CERTAIN: as heavy with recorded 0 label 0
";
    assert_eq!(out("labels 1 1\nvertex 0\nedge 0\nrecorded 0\nfound 0\n", &["match"]), expected);
}

/// Paths of 33 vertices with all 32 labels, label 0 at both ends.
fn all_labels() -> String {
    let path = |word: &str| {
        let labels: Vec<String> = (0..33).map(|at| (at % 32).to_string()).collect();
        let edges: String = (1..33).map(|at| format!("{}-{at}\n", at - 1)).collect();
        format!("{word} {}\n{edges}", labels.join(" "))
    };
    format!("labels 32 1\nvertex-default forbidden\nvertex-equal 5\nedge-default 1\n{}{}", path("recorded"), path("found"))
}

#[test]
fn where_all_labels_are_in_use_it_is_not_known_whether_a_pair_is_certain() {
    let text = out(&all_labels(), &["match"]);
    assert!(text.starts_with("weight 197: 33 kept, 0 changed, 0 gone, 0 new; 0 not certain, 3 not known\n"), "{text}");
    assert!(text.contains("found 1 label 1; its edge is NOT KNOWN to be certain, since recorded 0 is not\n"), "{text}");
    let unsure = "; NOT KNOWN to be certain: to ask takes a label or a weight beyond the limits\n";
    for at in [0, 32] {
        assert!(text.contains(&format!("kept     recorded {at} label 0 is found {at} label 0{unsure}")), "{text}");
    }
    assert_eq!(text.matches("NOT").count(), 3);
    let json = report(&out(&all_labels(), &["match", "--json"]));
    let expected: Vec<_> = (0..33).map(|at| if at % 32 == 0 { unknown() } else { sure() }).collect();
    assert_eq!((certain(&json, "recorded"), certain(&json, "found")), (expected.clone(), expected));
    let listing = out(&all_labels(), &["listing"]);
    assert_eq!(listing.matches(" ?").count(), 3, "{listing}");
}

/// Of a path and one edge of it one end is left over, with a weight that cannot be raised.
const AT_LIMIT: &str = "labels 3 1\nvertex-default forbidden\nvertex-pair 0 0 5\nvertex-pair 1 1 16000000\nedge 1\n";

#[test]
fn where_weights_are_at_their_limit_it_is_not_known_whether_a_vertex_is_certainly_gone() {
    let plant = format!("{AT_LIMIT}recorded 1 0 2 1\n0-1 1-2 2-3\nfound 1 0\n0-1\n");
    let expected = "\
weight 16000006: 2 kept, 0 changed, 2 gone, 0 new; 0 not certain, 1 not known

kept     recorded 0 label 1 is found 0 label 1
kept     recorded 1 label 0 is found 1 label 0
gone     recorded 2 label 2
gone     recorded 3 label 1; NOT KNOWN to be certain: to ask takes a label or a weight beyond the limits
";
    assert_eq!(out(&plant, &["match"]), expected);
    let json = report(&out(&plant, &["match", "--json"]));
    assert_eq!(certain(&json, "recorded"), [sure(), sure(), sure(), unknown()]);
    // one less than the limit leaves room to ask
    let json = report(&out(&plant.replace("16000000", "15999999"), &["match", "--json"]));
    assert_eq!(certain(&json, "recorded"), [sure(), sure(), sure(), sure()]);
}

#[test]
fn where_weights_are_at_their_limit_it_is_not_known_whether_a_vertex_is_certainly_new() {
    let plant = format!("{AT_LIMIT}recorded 1 0\n0-1\nfound 1 0 2 1\n0-1 1-2 2-3\n");
    let json = report(&out(&plant, &["match", "--json"]));
    assert_eq!(certain(&json, "found"), [sure(), sure(), sure(), unknown()]);
    assert!(out(&plant, &["listing"]).contains("\n3 ?  label 1, joined to 2 (edge label 0)\n"));
}

#[test]
fn where_there_is_no_room_to_ask_another_vertex_may_tell() {
    let plant = "labels 1 1\nvertex 16000000\nedge 1\nrecorded 0\nfound 0 0\n0-1\n";
    let expected = "\
weight 16000000: 1 kept, 0 changed, 0 gone, 1 new; 2 not certain

kept     recorded 0 label 0 is found 0 label 0; NOT CERTAIN: as heavy with found 1 label 0
new      found 1 label 0, joined to 0 label 0 by label 0; NOT CERTAIN: as heavy with recorded 0 label 0
";
    assert_eq!(out(plant, &["match"]), expected);
}

/// A probe whose pump is one of two: with the other one its edge is as it was.
const ONE_OF_TWO: &str = "labels 2 2\nvertex-names pump, probe\nedge-names signal, power\nvertex-default forbidden\nvertex-equal 5\n\
                          edge-default 1\nrecorded A=pump B=probe\nA-B:signal\nfound P1=pump B=probe P2=pump\nP1-B:power P2-B:signal\n";

#[test]
fn the_edge_of_a_certain_vertex_to_one_that_is_not_is_not_certain() {
    let expected = "\
weight 11: 1 kept, 1 changed, 0 gone, 1 new; 3 not certain

kept     recorded 0 A (pump) is found 0 P1 (pump); NOT CERTAIN: as heavy with found 2 P2 (pump)
changed  recorded 1 B (probe) is found 1 B (probe); its edge to 0 A was signal and is power; \
its edge is NOT CERTAIN, since recorded 0 A is not
new      found 2 P2 (pump), joined to 1 B (probe) by signal; NOT CERTAIN: as heavy with recorded 0 A (pump)
";
    assert_eq!(out(ONE_OF_TWO, &["match"]), expected);
    assert!(out(ONE_OF_TWO, &["listing"]).contains("  0 signal -> 1 power ! ?  1 B  "));
    let json = report(&out(ONE_OF_TWO, &["match", "--json"]));
    let probe = &json.at("recorded").list()[1];
    assert_eq!((probe.at("certain"), probe.at("edge").at("certain")), (&Value::Bool(true), &Value::Bool(false)));
}

/// Two probes that were exchanged: the names follow the devices, the mapping follows labels and edges.
const EXCHANGED: &str = "labels 3 1\nvertex-names pump, heater, probe\nvertex-default forbidden\nvertex-equal 5\nedge 1\n\
                         recorded P=0 H=1 pH=2 Redox=2\nP-H P-pH H-Redox\nfound P=0 H=1 pH=2 Redox=2\nP-H P-Redox H-pH\n";

#[test]
fn a_name_that_stands_at_another_vertex_now_is_said() {
    let expected = "\
weight 23: 4 kept, 0 changed, 0 gone, 0 new; all certain

kept     recorded 0 P (pump) is found 0 P (pump)
kept     recorded 1 H (heater) is found 1 H (heater)
kept     recorded 2 pH (probe) is found 3 Redox (probe); THE SAME NAME stands at found 2 pH (probe)
kept     recorded 3 Redox (probe) is found 2 pH (probe); THE SAME NAME stands at found 3 Redox (probe)
";
    assert_eq!(out(EXCHANGED, &["match"]), expected);
    let listing = out(EXCHANGED, &["listing"]);
    assert!(
        listing.contains("  3 Redox *  2 probe") && listing.ends_with("\n\n* the recorded name stands at another found vertex\n"),
        "{listing}"
    );
    let json = report(&out(EXCHANGED, &["match", "--json"]));
    let same: Vec<Value> = json.at("recorded").list().iter().map(|vertex| vertex.at("same_name").clone()).collect();
    assert_eq!(same, [Value::Null, Value::Null, Value::Number(2), Value::Number(3)]);
}

#[test]
fn labels_of_one_name_are_told_apart_by_their_numbers() {
    let plant = "labels 2 1\nvertex-names a, a\nvertex-default 1\nedge 1\nrecorded 0\nfound 1\n";
    assert!(out(plant, &["match"]).ends_with("changed  recorded 0 a is found 0 a; its label was a (0) and is a (1)\n"));
}

#[test]
fn of_the_largest_plants_no_vertex_is_certain_that_cannot_be_asked_about() {
    for seed in 1..4 {
        let json = report(&out(&big(seed), &["match", "--json"]));
        let all = [certain(&json, "recorded"), certain(&json, "found")].concat();
        assert_eq!(all.len(), 128);
        // every label occurs twice in each tree, so that none is free
        let mapped = json.at("recorded").list().iter().filter(|vertex| *vertex.at("partner") != Value::Null).count();
        assert!(mapped > 0 && all.iter().filter(|of| **of == unknown()).count() >= 2 * mapped, "{seed}");
        assert!(!all.iter().any(|of| *of == sure()), "{seed}");
    }
}

/// A signal line that became a power cable.
const CABLE: &str = "\
labels 2 2
vertex-names pump, probe
edge-names signal line, power cable
vertex-default forbidden
vertex-equal 5
edge-default 1
edge-equal 3
recorded P=pump A=probe
P-A:\"signal line\"
found pump probe
0-1:\"power cable\"
";

#[test]
fn a_changed_edge_is_said_by_match() {
    let expected = "\
weight 11: 1 kept, 1 changed, 0 gone, 0 new; all certain

kept     recorded 0 P (pump) is found 0 pump
changed  recorded 1 A (probe) is found 1 probe; its edge to 0 P was signal line and is power cable
";
    assert_eq!(out(CABLE, &["match"]), expected);
}

#[test]
fn a_changed_edge_and_a_changed_label_are_both_said() {
    let plant = CABLE.replace("found pump probe", "found pump pump").replace("vertex-default forbidden", "vertex-default 2");
    let changed = "changed  recorded 1 A (probe) is found 1 pump; its label was probe and is pump; \
                   its edge to 0 P was signal line and is power cable; NOT CERTAIN: as heavy with found 0 pump\n";
    assert!(out(&plant, &["match"]).ends_with(changed), "{}", out(&plant, &["match"]));
}

#[test]
fn a_changed_edge_is_marked_in_the_listing() {
    let expected = "\
weight 11: vertex pairs 2, weighing 10; edge pairs 1, weighing 1

recorded  label    edge                              partner  label    weight
0 P       0 pump                                     0        0 pump   5
  1 A     1 probe  0 signal line -> 1 power cable !  1        1 probe  5 + 1

every found vertex has a partner

! the label is another one now
";
    assert_eq!(out(CABLE, &["listing"]), expected);
}

#[test]
fn a_changed_edge_is_in_json() {
    let json = report(&out(CABLE, &["match", "--json"]));
    let vertex = &json.at("recorded").list()[1];
    assert_eq!(*vertex.at("state"), "changed".into());
    let edge = vertex.at("edge");
    let numbers = ["to", "label", "partner_label", "weight"].map(|key| edge.at(key).clone());
    assert_eq!(numbers, [0, 0, 1, 1].map(Value::Number));
    assert_eq!(*json.at("found").list()[1].at("state"), "changed".into());
    assert_eq!(*json.at("recorded").list()[0].at("state"), "kept".into());
}

#[test]
fn a_changed_edge_is_marked_in_the_picture() {
    let svg = out(CABLE, &["picture"]);
    assert_eq!(svg.matches("<path class=\"changed\" ").count(), 2, "{svg}");
    assert!(svg.contains("font-weight=\"bold\">0!</text>") && svg.contains("font-weight=\"bold\">1!</text>"), "{svg}");
    let same = out(&CABLE.replace(":\"power cable\"", ":\"signal line\""), &["picture"]);
    assert_eq!(same.matches("changed").count() + same.matches("!</text>").count(), 0, "{same}");
}

#[test]
fn an_edge_whose_label_is_the_same_is_kept() {
    let plant = CABLE.replace(":\"power cable\"", ":\"signal line\"");
    assert!(out(&plant, &["match"]).starts_with("weight 13: 2 kept, 0 changed, 0 gone, 0 new; all certain\n"));
    assert!(!out(&plant, &["listing"]).contains('!'));
}

/// Runs listing with an answer for the pool; `text` is the answer.
fn with_answer(text: &str) -> Ran {
    let folder = Folder::with(&[("p", &pool()), ("a", text)]);
    let ran = folder.run(&["listing", "p", "--answer", "a"]);
    for name in ["match", "picture"] {
        let other = folder.run(&[name, "p", "--answer", "a"]);
        assert_eq!((&other.1, other.2), (&ran.1, ran.2), "{name}: {text}");
    }
    ran
}

#[test]
fn a_given_answer_is_listed() {
    assert_eq!(with_answer(POOL_PLAIN), said(POOL_LISTING, "", 0));
    let folder = Folder::with(&[("p", &pool()), ("a", POOL_PLAIN)]);
    assert_eq!(folder.fed(&["listing", "p", "--answer", "-"], POOL_PLAIN), said(POOL_LISTING, "", 0));
    assert_eq!(folder.fed(&["listing", "-", "--answer", "a"], pool()), said(POOL_LISTING, "", 0));
    assert_eq!(folder.run(&["match", "p", "--answer", "a"]), said(POOL_MATCH, "", 0));
    assert_eq!(folder.run(&["match", "p", "--answer", "a", "--json"]), folder.run(&["match", "p", "--json"]));
}

#[test]
fn a_given_answer_may_end_its_lines_as_on_windows_or_lack_the_last_end() {
    assert_eq!(with_answer(&POOL_PLAIN.replace('\n', "\r\n")), said(POOL_LISTING, "", 0));
    assert_eq!(with_answer(POOL_PLAIN.trim_end()), said(POOL_LISTING, "", 0));
}

#[test]
fn another_heaviest_mapping_is_an_answer_too() {
    let folder = Folder::with(&[("p", PROBES), ("a", "weight 13\n0 0\n1 2\n2 1\n")]);
    let (text, err, status) = folder.run(&["match", "p", "--answer", "a"]);
    assert_eq!((err.as_str(), status), ("", 0));
    assert!(text.contains("recorded 1 A (probe) is found 2 Y (probe); NOT CERTAIN: as heavy with found 1 X (probe)\n"), "{text}");
}

/// An answer that is none: the line and what is wrong with it, status 2.
fn malformed(answer: &str, message: &str) {
    assert_eq!(with_answer(answer), said("", format!("a:{message}\n"), 2), "{answer}");
}

/// An answer that is not accepted: likewise, status 1.
fn not_accepted(answer: &str, message: &str) {
    assert_eq!(with_answer(answer), said("", format!("a:{message}\n"), 1), "{answer}");
}

#[test]
fn a_text_that_is_no_answer_gets_its_line_and_the_reason() {
    malformed("", "1:1: the first line is `weight` and a number, not ``");
    malformed("weight x\n", "1:1: the first line is `weight` and a number, not `weight x`");
    malformed("refused 6\n", "1:1: the first line is `weight` and a number, not `refused 6`");
    malformed("weight 0\n0 -\n2 -\n", "3:1: this line has recorded vertex 1 and its partner or `-`, not `2 -`");
    malformed("weight 0\n0 4 4\n", "2:1: this line has recorded vertex 0 and its partner or `-`, not `0 4 4`");
    malformed("weight 0\n0 7\n", "2:1: the found tree has no vertex 7");
    malformed("weight 0\n0 -\n1 -\n2 -\n3 -\n4 -\n5 -\n6 -\n", "8:1: the recorded tree has 6 vertices; this line is one too many");
}

#[test]
fn an_answer_that_ends_too_early_is_placed_at_its_last_line() {
    malformed("weight 0\n0 -\n", "2:1: the answer ends before recorded vertex 1");
}

#[test]
fn an_answer_that_is_no_mapping_of_the_plant_is_not_accepted() {
    let rest = "2 -\n3 -\n4 -\n5 -\n";
    not_accepted(&format!("weight 0\n0 4\n1 4\n{rest}"), "3:1: found vertex 4 is the partner of 0 already");
    not_accepted(&format!("weight 0\n0 0\n1 -\n{rest}"), "2:1: recorded 0 with found 0 is forbidden");
    let joined = "3:1: recorded 0 and 1 are joined and their partners are not, or the other way round";
    not_accepted(&format!("weight 40\n0 4\n1 2\n{rest}"), joined);
    not_accepted("weight 43\n0 4\n1 -\n2 -\n3 0\n4 -\n5 -\n", "1:1: the mapped vertices are not connected");
    not_accepted(&format!("weight 44\n0 4\n1 3\n{rest}"), "1:1: the pairs weigh 43, not 44");
    not_accepted(&POOL_PLAIN.replace("130", "131"), "1:1: the pairs weigh 130, not 131");
}

#[test]
fn an_answer_that_is_not_heaviest_is_not_accepted() {
    not_accepted("weight 43\n0 4\n1 3\n2 -\n3 -\n4 -\n5 -\n", "1:1: the mapping weighs 43, and a heaviest one weighs 130");
    not_accepted("weight 0\n0 -\n1 -\n2 -\n3 -\n4 -\n5 -\n", "1:1: the mapping weighs 0, and a heaviest one weighs 130");
}

#[test]
fn an_answer_with_a_forbidden_edge_is_not_accepted() {
    let plant = "labels 1 1\nvertex 1\nedge forbidden\nrecorded 0 0\n0-1\nfound 0 0\n0-1\n";
    let folder = Folder::with(&[("p", plant), ("a", "weight 2\n0 0\n1 1\n")]);
    let message = "a:3:1: the edge of recorded 0 and 1 is forbidden with that of their partners\n";
    assert_eq!(folder.run(&["listing", "p", "--answer", "a"]), said("", message, 1));
}

#[test]
fn an_answer_for_a_refused_plant_is_not_looked_at() {
    let folder = Folder::with(&[("p", LOOP), ("a", POOL_PLAIN)]);
    let message = "pensummer: refused 6: an edge of the recorded tree closes a loop\np:5:5: the edge 1-0 closes a loop\n";
    for name in ["match", "listing", "picture"] {
        assert_eq!(folder.run(&[name, "p", "--answer", "a"]), said("", message, 1), "{name}");
    }
}

#[test]
fn a_folder_as_an_answer_is_trouble() {
    let folder = Folder::with(&[("p", THREE)]);
    assert_eq!(folder.run(&["match", "p", "--answer", "."]), said("", "pensummer: .: Is a directory\n", 2));
}

#[test]
fn json_of_match_and_listing_is_one_line_of_the_documented_shape() {
    for (name, text) in examples() {
        let folder = Folder::with(&[("p", &text)]);
        let [of_match, of_listing] = ["match", "listing"].map(|command| {
            let (out, err, status) = folder.run(&[command, "--json", "p"]);
            assert_eq!((err.as_str(), status), ("", 0), "{name}");
            assert_eq!(*report(&out).at("command"), command.into(), "{name}");
            report(&out)
        });
        for key in ["status", "refusal", "weight", "recorded", "found", "certificate"] {
            assert_eq!(of_match.at(key), of_listing.at(key), "{name}: {key}");
        }
        assert_eq!((of_match.at("refusal"), of_match.at("certificate")), (&Value::Null, &Value::Null), "{name}");
    }
}

#[test]
fn json_of_small_plant_3_whole() {
    let vertex = |v: i64, label: i64, partner: i64, weight: i64, edge: &str| {
        format!(
            "{{\"vertex\":{v},\"name\":null,\"label\":{label},\"label_name\":null,\"serial\":null,\"state\":\"kept\",\
             \"partner\":{partner},\"certain\":true,\"otherwise\":null,\"weight\":{weight},\"edge\":{edge},\"same_name\":null}}"
        )
    };
    let edge = "{\"to\":0,\"label\":0,\"partner_label\":0,\"upstream\":null,\"weight\":1,\"certain\":true}";
    let recorded = [vertex(0, 0, 1, 5, "null"), vertex(1, 1, 0, 3, edge)].join(",");
    let found = [vertex(0, 1, 1, 3, "null"), vertex(1, 0, 0, 5, "null")].join(",");
    let expected = format!(
        "{{\"command\":\"match\",\"status\":\"done\",\"refusal\":null,\"weight\":9,\"recorded\":[{recorded}],\
         \"found\":[{found}],\"certificate\":null,\"sizes\":null}}\n"
    );
    assert_eq!(out(THREE, &["match", "--json"]), expected);
}

#[test]
fn json_agrees_with_the_plain_lines() {
    for (name, text) in examples() {
        let json = report(&out(&text, &["match", "--json"]));
        let number = |value: &Value| match value {
            Value::Number(number) => number.to_string(),
            _ => "-".to_owned(),
        };
        let mut lines = format!("weight {}\n", number(json.at("weight")));
        for vertex in json.at("recorded").list() {
            lines += &format!("{} {}\n", number(vertex.at("vertex")), number(vertex.at("partner")));
        }
        assert_eq!(lines, out(&text, &["match", "--plain"]), "{name}");
    }
}

#[test]
fn json_has_names_as_they_are() {
    let plant = "labels 1 1\nvertex-names say \"hi\" \\ \u{e4}\nvertex 1\nedge 1\nrecorded \"a\\\"b\\\\\"=0\nfound 0\n";
    let json = report(&out(plant, &["match", "--json"]));
    let vertex = &json.at("recorded").list()[0];
    assert_eq!((vertex.at("name"), vertex.at("label_name")), (&"a\"b\\".into(), &"say \"hi\" \\ \u{e4}".into()));
    assert_eq!(json.at("found").list()[0].at("name"), &Value::Null);
}

#[test]
fn the_largest_weight_there_is() {
    let path = |word: &str| tree(word, 64, |i| i - 1);
    let plant = format!("labels 1 1\nvertex 16000000\nedge 16000000\n{}{}", path("recorded"), path("found"));
    let text = out(&plant, &["match", "--plain"]);
    assert!(text.starts_with("weight 2032000000\n"), "{text}");
    let listing = out(&plant, &["listing"]);
    assert!(
        listing.starts_with("weight 2032000000: vertex pairs 64, weighing 1024000000; edge pairs 63, weighing 1008000000\n"),
        "{listing}"
    );
}

#[test]
fn trees_with_the_greatest_number_of_edges_at_a_vertex_are_matched() {
    let star = |word: &str, size: usize| tree(word, size, |_| 0);
    let plant = format!("labels 1 1\nvertex 1\nedge 1\n{}{}", star("recorded", 9), star("found", 9));
    assert!(out(&plant, &["match", "--plain"]).starts_with("weight 17\n"));
}

#[test]
fn weights_at_the_limits_are_accepted() {
    for weight in ["16000000", "-16000000"] {
        let plant = format!("labels 1 1\nvertex {weight}\nedge {weight}\nrecorded 0\nfound 0\n");
        assert_eq!(of(&plant, &["match", "--plain"]).2, 0, "{weight}");
    }
}
