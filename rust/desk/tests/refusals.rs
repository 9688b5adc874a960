//! Plants that the library refuses: the built program says the number, the sentence, the place and the reason, and does
//! nothing else.
mod support;

use support::json::Value;
use support::plants::{row, tree, ONE};
use support::report::report;
use support::{said, Folder};

/// The sentence of each item from 1, and of 25 and 26.
const SENTENCES: [&str; 14] = [
    "the table's length, a mark, or its number of labels is wrong",
    "a weight of the table is out of range and not the forbidden number",
    "the recorded tree's length, a mark, or its number of vertices is wrong",
    "a vertex or edge label of the recorded tree is not in the table",
    "an edge of the recorded tree names a vertex that is not there",
    "an edge of the recorded tree closes a loop",
    "a vertex of the recorded tree has more than 8 edges",
    "the found tree's length, a mark, or its number of vertices is wrong",
    "a vertex or edge label of the found tree is not in the table",
    "an edge of the found tree names a vertex that is not there",
    "an edge of the found tree closes a loop",
    "a vertex of the found tree has more than 8 edges",
    "a known serial stands twice in the recorded tree",
    "a known serial stands twice in the found tree",
];

fn sentence(item: usize) -> &'static str {
    SENTENCES[if item < 25 { item - 1 } else { item - 13 }]
}

/// What is said of a weight beyond the limits, before the weight.
const RANGE: &str = "a weight is -16000000 to 16000000 or `forbidden`, not";

/// A text that the library refuses by this item, and where and why, as `LINE:COLUMN: REASON`.
fn refused(text: &str, item: usize, place: &str) {
    let folder = Folder::with(&[("p", text), ("c", "")]);
    let sentence = sentence(item);
    let people = format!("pensummer: refused {item}: {sentence}\np:{place}\n");
    for call in [&["match"][..], &["listing"], &["picture"], &["picture", "-o", "w"], &["write", "-o", "w"], &["sizes"]] {
        assert_eq!(folder.run(&[call, &["p"]].concat()), said("", people.clone(), 1), "{call:?}");
    }
    assert_eq!(folder.run(&["show", "p", "c"]), said("", people.clone(), 1));
    assert_eq!(folder.run(&["match", "--plain", "p"]), said(format!("refused {item}\n"), people, 1));
    assert_eq!(folder.run(&["check", "p", "c"]), said(format!("refused {item}: {sentence}\n"), format!("p:{place}\n"), 1));
    json(&folder, item, place);
    assert_eq!(folder.names(), ["c", "p"]);
}

/// The same for programs.
fn json(folder: &Folder, item: usize, place: &str) {
    let mut words = place.splitn(3, ':').map(str::trim);
    let [line, column] = [0, 1].map(|_| Value::Number(words.next().and_then(|word| word.parse().ok()).expect("a number")));
    let of_plant = [&["match", "p"][..], &["listing", "p"], &["write", "-o", "w", "p"], &["sizes", "p"]];
    for call in of_plant.iter().copied().chain([&["check", "p", "c"][..], &["show", "p", "c"]]) {
        let (out, err, status) = folder.run(&[call, &["--json"]].concat());
        assert_eq!((err.as_str(), status), ("", 1), "{call:?}");
        let report = report(&out);
        let refusal = report.at("refusal");
        assert_eq!((refusal.at("item"), refusal.at("sentence")), (&Value::Number(item as i64), &sentence(item).into()), "{call:?}");
        let at = refusal.at("place");
        assert_eq!((at.at("file"), at.at("line"), at.at("column")), (&"p".into(), &line, &column), "{call:?}");
        assert_eq!(*refusal.at("reason"), place.splitn(3, ": ").last().unwrap_or_default().into(), "{call:?}");
        assert_eq!(*report.at("command"), call[0].into());
        assert!(["weight", "recorded", "found", "certificate"].iter().all(|key| *report.at(key) == Value::Null), "{call:?}");
    }
}

/// A text with the table of one label each.
fn refused_tree(lines: &str, item: usize, place: &str) {
    refused(&format!("{ONE}{lines}"), item, place);
}

/// A vertex with nine edges.
fn nine(word: &str) -> String {
    format!("{}0-1 0-2 0-3 0-4 0-5 0-6 0-7 0-8\n0-9\n", row(word, (0..10).map(|_| 0)))
}

#[test]
fn item_1_a_table_without_vertex_labels() {
    refused("labels 0 1\nedge 1\nrecorded 0\nfound 0\n", 1, "1:1: there are 1 to 32 vertex labels, not 0");
}

#[test]
fn item_1_a_table_with_too_many_labels() {
    let nine = "edge 0 0 0 0 0 0 0 0 0\n".repeat(9);
    refused(&format!("labels 1 9\nvertex 1\n{nine}recorded 0\nfound 0\n"), 1, "1:1: there are 1 to 8 edge labels, not 9");
    refused("labels 33 1\nvertex-default 0\nedge 1\nrecorded 0\nfound 0\n", 1, "1:1: there are 1 to 32 vertex labels, not 33");
}

#[test]
fn item_2_a_weight_beyond_the_limits() {
    refused("labels 1 1\nvertex 1\nedge 16000001\nrecorded 0\nfound 0\n", 2, &format!("3:6: {RANGE} 16000001"));
    refused("labels 2 1\nvertex 1 1\nvertex 1   -16000001\nedge 20000000\nrecorded 0\nfound 0\n", 2, &format!("3:12: {RANGE} -16000001"));
}

#[test]
fn item_2_a_short_weight_beyond_the_limits_is_placed_where_it_stands() {
    refused("labels 2 1\nvertex-default 70000000\nedge 1\nrecorded 0\nfound 0\n", 2, &format!("2:16: {RANGE} 70000000"));
    let pair = "labels 2 1\nvertex-default 1\nvertex-pair 1 0 70000000\nedge 1\nrecorded 0\nfound 0\n";
    refused(pair, 2, &format!("3:17: {RANGE} 70000000"));
}

#[test]
fn items_3_and_8_a_tree_without_vertices() {
    refused_tree("recorded\nfound 0\n", 3, "4:1: the tree has 0 vertices; there are to be 1 to 64");
    refused_tree("recorded 0\n  found\n", 8, "5:3: the tree has 0 vertices; there are to be 1 to 64");
}

#[test]
fn items_3_and_8_a_tree_with_65_vertices() {
    let path = |word: &str| tree(word, 65, |i| i - 1);
    refused_tree(&format!("{}found 0\n", path("recorded")), 3, "4:1: the tree has 65 vertices; there are to be 1 to 64");
    refused_tree(&format!("recorded 0\n{}", path("found")), 8, "5:1: the tree has 65 vertices; there are to be 1 to 64");
}

#[test]
fn items_3_and_8_too_few_edges_are_placed_at_a_vertex_that_is_not_connected() {
    let wanted = "there is to be one edge less than vertices";
    let place = format!("4:14: the tree has 3 vertices and 1 edge; {wanted}; vertex 2 is not connected with vertex 0");
    refused_tree("recorded 0 0 0\n0-1\nfound 0\n", 3, &place);
    let place = format!("5:9: the tree has 2 vertices and 0 edges; {wanted}; vertex 1 B is not connected with vertex 0");
    refused_tree("recorded 0\nfound 0 B=0\n", 8, &place);
}

#[test]
fn items_3_and_8_too_many_edges_are_placed_at_the_one_that_closes_a_loop() {
    let wanted = "there is to be one edge less than vertices";
    let place = format!("5:1: the tree has 1 vertex and 1 edge; {wanted}; the edge 0-0 joins a vertex with itself");
    refused_tree("recorded 0\n0-0\nfound 0\n", 3, &place);
    let place = format!("7:1: the tree has 3 vertices and 3 edges; {wanted}; the edge B-A closes a loop");
    refused_tree("recorded 0\nfound A=0 B=0 0\nA-B\nB-A\nB-2\n", 8, &place);
}

#[test]
fn items_4_and_9_a_vertex_label_that_is_not_in_the_table() {
    refused_tree("recorded 0 1\n0-1\nfound 0\n", 4, "4:12: vertex 1 has label 1, and labels are 0 to 0");
    refused_tree("recorded 0\nfound 3\n", 9, "5:7: vertex 0 has label 3, and labels are 0 to 0");
    refused_tree("recorded P1=9\nfound 0\n", 4, "4:10: vertex 0 P1 has label 9, and labels are 0 to 0");
}

#[test]
fn items_4_and_9_an_edge_label_that_is_not_in_the_table() {
    refused_tree("recorded 0 0\n\n0-1:1\nfound 0\n", 4, "6:1: the edge 0-1:1 has label 1, and labels are 0 to 0");
    refused_tree("recorded 0\nfound 0 0 0\n0-1  1>2:7\n", 9, "6:6: the edge 1>2:7 has label 7, and labels are 0 to 0");
}

#[test]
fn items_5_and_10_an_edge_of_a_vertex_that_is_not_there() {
    refused_tree("recorded 0 0\n0-2\nfound 0\n", 5, "5:1: the edge 0-2 names a vertex that is not there; vertices are 0 to 1");
    refused_tree("recorded 0\nfound 0 0\n2-0\n", 10, "6:1: the edge 2-0 names a vertex that is not there; vertices are 0 to 1");
}

#[test]
fn items_6_and_11_an_edge_of_a_vertex_with_itself() {
    refused_tree("recorded 0 0\n1-1\nfound 0\n", 6, "5:1: the edge 1-1 joins a vertex with itself");
    refused_tree("recorded 0\nfound A=0 B=0\n B-1\n", 11, "6:2: the edge B-1 joins a vertex with itself");
}

#[test]
fn items_6_and_11_an_edge_that_closes_a_loop() {
    refused_tree("recorded 0 0 0\n0-1 1-0\nfound 0\n", 6, "5:5: the edge 1-0 closes a loop");
    refused_tree("recorded 0\nfound 0 0 0 0\n0-1 1-2\n2-0\n", 11, "7:1: the edge 2-0 closes a loop");
}

#[test]
fn items_7_and_12_a_vertex_with_nine_edges() {
    let reason = "the edge 0-9 is one more than the 8 that vertex 0 may have";
    refused_tree(&format!("{}found 0\n", nine("recorded")), 7, &format!("6:1: {reason}"));
    refused_tree(&format!("recorded 0\n{}", nine("found")), 12, &format!("7:1: {reason}"));
}

#[test]
fn items_7_and_12_a_vertex_with_a_name_and_nine_edges() {
    let vertices = "recorded M=0 0 0 0 0 0 0 0 0 0\n";
    let reason = "the edge 9-M is one more than the 8 that vertex 0 M may have";
    refused_tree(&format!("{vertices}M-1 M-2 M-3 M-4 M-5 M-6 M-7 M-8 9-M\nfound 0\n"), 7, &format!("5:33: {reason}"));
}

#[test]
fn items_25_and_26_a_known_serial_that_stands_twice() {
    let two = "0 0 0\n0-1 1-2\n";
    refused_tree(&format!("recorded {two}serials 7 0 7\nfound 0\n"), 25, "6:13: serial 7 stands at vertex 0 already");
    refused_tree(&format!("recorded 0\nserials 7\nfound {two}serials 0 7\nserials   7\n"), 26, "9:11: serial 7 stands at vertex 1 already");
    // unknown ones before do not count
    let four = "recorded 0 0 0 0\n0-1 1-2 2-3\nserials 0 0 7 7\nfound 0\n";
    refused_tree(four, 25, "6:15: serial 7 stands at vertex 2 already");
    let most = "6:20: serial 4294967295 stands at vertex 0 already";
    refused_tree(&format!("recorded {two}serials 4294967295 4294967295 0\nfound 0\n"), 25, most);
}

/// The place is where the serial stands that is the second by the vertices' numbers, not by the lines.
#[test]
fn items_25_and_26_a_known_serial_that_stands_twice_by_names() {
    let vertices = "A=0 \"B 2\"=0 C=0\nA-\"B 2\" C-A\n";
    refused_tree(&format!("recorded {vertices}serials C=9 \"B 2\"=9\nfound 0\n"), 25, "6:11: serial 9 stands at vertex 1 B 2 already");
    refused_tree(&format!("recorded 0\nfound {vertices}serials 1=5\nserials  A=5\n"), 26, "7:11: serial 5 stands at vertex 0 A already");
}

#[test]
fn unknown_serials_may_stand_any_number_of_times() {
    let two = "0 0 0\n0-1 1-2\n";
    let folder = Folder::with(&[("p", &format!("{ONE}recorded {two}serials 0 0 0\nfound {two}serials 0 3 0\n"))]);
    let (out, err, status) = folder.run(&["match", "--plain", "p"]);
    assert_eq!((err.as_str(), status), ("", 0));
    assert!(out.starts_with("weight 5\n"), "{out}");
}

/// 25 after 7 and before 8, 26 after 12.
#[test]
fn serials_that_stand_twice_are_said_in_their_order() {
    let twice = "serials 0=5 1=5\n";
    let (recorded, found) = (nine("recorded"), nine("found"));
    let reason = "the edge 0-9 is one more than the 8 that vertex 0 may have";
    refused_tree(&format!("{recorded}{twice}found 0\n"), 7, &format!("6:1: {reason}"));
    let good = recorded.replace("0-9", "1-9");
    refused_tree(&format!("{good}{twice}found\n"), 25, "7:15: serial 5 stands at vertex 0 already");
    refused_tree(&format!("{good}{twice}{}{twice}", found.replace("0-9", "1-9")), 25, "7:15: serial 5 stands at vertex 0 already");
    refused_tree(&format!("recorded 0\n{found}{twice}"), 12, &format!("7:1: {reason}"));
    refused_tree(&format!("recorded 0\n{}{twice}", found.replace("0-9", "1-9")), 26, "8:15: serial 5 stands at vertex 0 already");
}

#[test]
fn a_serial_in_bytes_is_placed_at_its_first_byte() {
    let folder = Folder::with(&[("p", &format!("{ONE}recorded 0 0\nserials 1 2\n0-1\nfound 0 0\nserials 258 258\n0-1\n"))]);
    assert_eq!(folder.run(&["plant", "p", "-o", "b"]), said("", "", 0));
    // a table of 16 bytes, a tree of 22, a head of 3, a vertex of 7, mark and label of the next
    let message = format!("pensummer: refused 26: {}\nb: byte 51: serial 258 stands at vertex 0 already\n", sentence(26));
    assert_eq!(folder.run(&["match", "b"]), said("", &message, 1));
    assert_eq!(folder.run(&["plant", "p", "--split", "x"]), said("", "", 0));
    let message = message.replace("b: byte 51", "x.found: byte 13");
    assert_eq!(folder.run(&["match", "x.table", "x.recorded", "x.found"]), said("", &message, 1));
    let (out, _, _) = folder.run(&["sizes", "--json", "b"]);
    let refusal = report(&out).at("refusal").clone();
    assert_eq!((refusal.at("item"), refusal.at("place").at("byte")), (&Value::Number(26), &Value::Number(51)));
    // it has a text all the same
    let (text, _, status) = folder.run(&["text", "b"]);
    assert_eq!((text.as_str(), status), (format!("{ONE}recorded 0 0\nserials 1 2\n0-1\nfound 0 0\nserials 258 258\n0-1\n").as_str(), 0));
}

#[test]
fn the_first_item_that_applies_is_the_one_that_is_said() {
    // a loop, nine edges, an unknown label in the found tree, and a weight
    let text = format!("labels 1 1\nvertex 16000001\nedge 1\n{}found 7\n", nine("recorded").replace("0-8", "0-1"));
    refused(&text, 2, &format!("2:8: {RANGE} 16000001"));
    refused(&text.replace("16000001", "1"), 6, "5:29: the edge 0-1 closes a loop");
}

#[test]
fn an_edge_in_words_is_said_as_it_was_written() {
    let text = "labels 1 1\nedge-names signal line\nvertex 1\nedge 1\nrecorded A=0 \"B 2\"=0 C=0\n\
                A-\"B 2\":\"signal line\" \"B 2\"-A:\"signal line\"\nfound 0\n";
    refused(text, 6, "6:23: the edge \"B 2\"-A:\"signal line\" closes a loop");
}

#[test]
fn the_place_is_in_the_file_that_holds_the_part() {
    let table = "labels 1 1\nvertex 1\nedge 1\n";
    let folder = Folder::with(&[("t", table), ("r", "tree 0\n"), ("f", "tree 0 0 0\n0-1 0-1\n")]);
    let message = "pensummer: refused 11: an edge of the found tree closes a loop\nf:2:5: the edge 0-1 closes a loop\n";
    assert_eq!(folder.run(&["match", "t", "r", "f"]), said("", message, 1));
    let message = "pensummer: refused 6: an edge of the recorded tree closes a loop\nf:2:5: the edge 0-1 closes a loop\n";
    assert_eq!(folder.run(&["match", "t", "f", "r"]), said("", message, 1));
    assert_eq!(folder.fed(&["match", "t", "-", "r"], "tree 0 0 0\n0-1 0-1\n").1, message.replace("f:2:5", "-:2:5"));
}

#[test]
fn the_place_in_bytes_is_an_offset() {
    let folder = Folder::with(&[("p", "labels 1 1\nvertex 1\nedge 1\nrecorded 0 0 0\n0-1 1-0\nfound 0\n")]);
    assert_eq!(folder.run(&["plant", "p", "-o", "b"]), said("", "", 0));
    // a table of 16 bytes, a head of 3, three vertices of 3, an edge of 5
    let message = "pensummer: refused 6: an edge of the recorded tree closes a loop\nb: byte 33: the edge 1-0 closes a loop\n";
    assert_eq!(folder.run(&["match", "b"]), said("", message, 1));
    let (out, _, _) = folder.run(&["match", "--json", "b"]);
    let place = report(&out).at("refusal").at("place").clone();
    assert_eq!((place.at("file"), place.at("byte"), place.at("line")), (&"b".into(), &Value::Number(33), &Value::Null));
}

#[test]
fn a_weight_in_bytes_is_placed_at_its_first_byte() {
    let folder = Folder::with(&[("p", "labels 2 1\nvertex 1 1\nvertex 1 16000001\nedge 1\nrecorded 0\nfound 0\n")]);
    assert_eq!(folder.run(&["plant", "p", "-o", "b"]), said("", "", 0));
    let message = format!("pensummer: refused 2: {}\nb: byte 20: {RANGE} 16000001\n", SENTENCES[1]);
    assert_eq!(folder.run(&["match", "b"]), said("", &message, 1));
}

#[test]
fn a_refused_plant_has_bytes_and_a_text() {
    let text = "labels 1 1\nvertex 1\nedge 1\nrecorded 0 0 0\n0-1 1-0\nfound 0\n";
    let folder = Folder::with(&[("p", text)]);
    assert_eq!(folder.run(&["text", "p"]), said(text, "", 0));
    assert_eq!(folder.run(&["plant", "p", "-o", "b"]), said("", "", 0));
    assert_eq!(folder.run(&["text", "b"]), said(text, "", 0));
}

#[test]
fn the_greatest_counts_are_accepted() {
    let path = |word: &str| tree(word, 64, |i| i - 1);
    let plant = format!("labels 32 8\nvertex-default 1\nedge-default 1\n{}{}", path("recorded"), path("found"));
    let folder = Folder::with(&[("p", &plant)]);
    let (out, err, status) = folder.run(&["match", "--plain", "p"]);
    assert_eq!((err.as_str(), status), ("", 0));
    assert!(out.starts_with("weight 127\n"), "{out}");
}
