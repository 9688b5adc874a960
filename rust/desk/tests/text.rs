//! The text form of a plant, read by the built program: what its lines give as bytes, what is wrong with others, and
//! where.
mod support;

use support::plants::{big, examples, hex, of_repository, row, three_bytes, FOUND, ONE, RECORDED, TABLE, THREE, THREE_PLAIN};
use support::{bytes, said, wrong, Folder};

/// The plain form of a text, which is a plant.
fn plain(text: impl AsRef<[u8]>) -> String {
    let folder = Folder::new();
    folder.put("p", text);
    String::from_utf8(folder.bytes(&["text", "p"])).expect("UTF-8")
}

/// Wrong lines after the table with one label each.
fn wrong_tree(lines: &str, message: &str) {
    wrong(format!("{ONE}{lines}"), message);
}

/// Both texts are plants with the same bytes.
fn same(text: &str, other: &str) {
    assert_eq!(bytes(text), bytes(other), "{text}");
}

#[test]
fn text_gives_the_bytes_of_the_paper() {
    assert_eq!(bytes(THREE), three_bytes());
    assert_eq!(bytes(of_repository("examples/small_plant_3.txt")), three_bytes());
}

#[test]
fn the_line_of_labels_is_first_and_has_two_numbers() {
    wrong("labels 2\n", "1:1: `labels` has two numbers: vertex labels and edge labels");
    wrong("  labels 1 2 3\n", "1:3: `labels` has two numbers: vertex labels and edge labels");
    wrong("labels 1 300\n", "1:10: a count is a number from 0 to 255, not `300`");
    wrong("labels -1 1\n", "1:8: a count is a number from 0 to 255, not `-1`");
    wrong("recorded 0\n", "1:1: the first line is `labels K L`, not `recorded`");
    wrong("labels 1 1\n\nlabels 1 1\n", "3:1: `labels` stands once, and first");
}

#[test]
fn a_row_has_as_many_weights_as_there_are_labels() {
    wrong("labels 1 1\nvertex 1 2\n", "2:10: this row has 2 weights; there are to be 1");
    wrong("labels 1 1\nvertex\n", "2:1: this row has 0 weights; there are to be 1");
    wrong("labels 1 1\nvertex 1\nedge 1 2\n", "3:8: this row has 2 weights; there are to be 1");
}

#[test]
fn a_weight_is_a_number_of_32_bits() {
    wrong("labels 1 1\nvertex x\n", "2:8: a weight is a number of 32 bits or `forbidden`, not `x`");
    for word in ["2147483648", "-2147483649", "+1", "1.5", "1e3", "-", "--1", "99999999999999999999", "\"1\""] {
        wrong(format!("labels 1 1\nvertex {word}\n"), &format!("2:8: a weight is a number of 32 bits or `forbidden`, not `{word}`"));
    }
    assert_eq!(
        bytes(format!("labels 1 1\nvertex -2147483648\nedge 1\n{TREES}")),
        bytes(format!("labels 1 1\nvertex forbidden\nedge 1\n{TREES}"))
    );
    assert_eq!(bytes(format!("labels 1 1\nvertex -0\nedge 0001\n{TREES}")), bytes(format!("labels 1 1\nvertex 0\nedge 1\n{TREES}")));
}

/// Two trees of one vertex.
const TREES: &str = "recorded 0\nfound 0\n";

#[test]
fn there_are_as_many_rows_as_labels_before_the_trees() {
    wrong("labels 1 1\nvertex 1\nvertex 1\n", "3:1: this `vertex` row is one too many; there are to be 1");
    wrong(format!("labels 1 1\nvertex 1\n{TREES}"), "3:1: there are 0 `edge` rows before this; there are to be 1, or `edge-default`");
    wrong(
        format!("labels 2 1\nvertex 1 1\nedge 1\n{TREES}"),
        "4:1: there are 1 `vertex` rows before this; there are to be 2, or `vertex-default`",
    );
}

#[test]
fn rows_of_vertices_and_edges_may_stand_in_any_order() {
    same(
        &format!("labels 2 2\nedge 1 2\nvertex 3 4\nedge 5 6\nvertex 7 8\n{TREES}"),
        &format!("labels 2 2\nvertex 3 4\nvertex 7 8\nedge 1 2\nedge 5 6\n{TREES}"),
    );
}

#[test]
fn an_unknown_line_of_the_table_is_named() {
    let rest = "is none of `vertex`, `edge`, `recorded` and their kin; see docs/FORMAT.md";
    for word in ["vortex", "vertex-nam", "edge-", "Vertex", "0-1", "vertex=1"] {
        wrong(format!("labels 1 1\n {word} 1\n"), &format!("2:2: `{word}` {rest}"));
    }
}

#[test]
fn the_trees_stand_in_order_and_once() {
    wrong_tree("found 0\n", "4:1: `found` stands once, after the recorded tree");
    wrong_tree("tree 0\n", "4:1: the recorded tree begins with `recorded`, not `tree`");
    wrong_tree("recorded 0\nrecorded 0\n", "5:1: `recorded` stands once, and the found tree belongs here");
    wrong_tree("recorded 0\ntree 0\n", "5:1: the found tree begins with `found`, not `tree`");
    wrong_tree("recorded 0\nfound 0\nfound 0\n", "6:1: `found` stands once, and the plant has its two trees already");
    wrong_tree("recorded 0\nfound 0\nrecorded 0\n", "6:1: `recorded` stands once, and the plant has its two trees already");
}

#[test]
fn a_text_that_ends_too_early_is_placed_at_its_end() {
    wrong(ONE, "3:7: the text ends before the recorded tree");
    wrong_tree("recorded 0\n", "4:11: the text ends before the found tree");
    wrong_tree("recorded 0 # no more", "4:12: the text ends before the found tree");
    wrong_tree("recorded 0 0\n0-1\n\n# none\n", "7:1: the text ends before the found tree");
}

#[test]
fn a_label_is_a_number_of_a_byte() {
    wrong_tree("recorded 0 256\n", "4:12: a label is a number from 0 to 255 or a name, not `256`");
    wrong_tree("recorded 0 0\n0-1:999\nfound 0\n", "5:5: a label is a number from 0 to 255 or a name, not `999`");
    same(&format!("{ONE}recorded 007\nfound 0\n"), &format!("{ONE}recorded 7\nfound 0\n"));
}

#[test]
fn a_tree_is_written_with_255_vertices_at_most() {
    let most = row("recorded", (0..255).map(|_| 0));
    assert_eq!(bytes(format!("{ONE}{most}found 0\n")).len(), 4 + 6 + 6 + 3 + 3 * 255 + 6);
    wrong_tree(&row("recorded", (0..256).map(|_| 0)), "4:520: more than 255 vertices");
}

#[test]
fn an_edge_is_two_vertices_and_perhaps_a_label() {
    let shape = |word: &str| format!("an edge is two vertices and a label, as 0-1, 0-1:2 or 0>1:4, not `{word}`");
    wrong("labels 1 1\n# none\nvertex 1\nedge 1\nrecorded 0 0\n0+1\n", &format!("6:1: {}", shape("0+1")));
    wrong_tree("recorded 0 0\n0-1 1\n", &format!("5:5: {}", shape("1")));
    wrong_tree("recorded 0 0\n0-1-2\n", &format!("5:1: {}", shape("0-1-2")));
    wrong_tree("recorded 0 0\n0:1\n", &format!("5:1: {}", shape("0:1")));
    wrong_tree("recorded 0 0\n0-\n", "5:1: something is missing at `0-`; no blanks stand around `-`, `>`, `=` and `:`");
    wrong_tree("recorded 0 0\n-1\n", "5:1: something is missing at `-1`; no blanks stand around `-`, `>`, `=` and `:`");
    wrong_tree("recorded 0 0\n0 - 1\n", "5:3: something is missing at `-`; no blanks stand around `-`, `>`, `=` and `:`");
    wrong_tree("recorded 0 0\n0-1:\n", "5:1: something is missing at `0-1:`; no blanks stand around `-`, `>`, `=` and `:`");
}

#[test]
fn the_end_of_an_edge_is_a_number_of_a_byte() {
    wrong_tree("recorded 0 0\n0-1 0-256\nfound 0\n", "5:7: a vertex is a number from 0 to 255 or a name, not `256`");
    wrong_tree("recorded 0 0\n999-1\nfound 0\n", "5:1: a vertex is a number from 0 to 255 or a name, not `999`");
}

#[test]
fn names_are_as_many_as_labels_and_none_is_empty() {
    wrong("labels 2 1\nvertex-names pump\n", "2:1: this line has 1 name; there are to be 2");
    wrong("labels 2 1\nvertex-names pump, , valve\n", "2:19: name 2 is empty");
    wrong("labels 2 1\nvertex-names pump,\n", "2:19: name 2 is empty");
    wrong("labels 1 1\nvertex-names\n", "2:1: this line has 0 names; there are to be 1");
    wrong("labels 1 2\nedge-names pipe, hose\nedge-names pipe, hose\n", "3:1: `edge-names` stands once");
}

#[test]
fn names_of_labels_do_not_come_into_the_bytes() {
    same(&format!("labels 1 1\nvertex-names a\nvertex 1\nedge-names b\nedge 1\n{TREES}"), &format!("{ONE}{TREES}"));
}

#[test]
fn a_text_that_is_wrong_gives_no_bytes_and_no_files() {
    let folder = Folder::with(&[("p", "labels 1 1\nvertex x\n")]);
    assert_eq!(folder.run(&["plant", "p", "--split", "b"]).0, "");
    assert_eq!(folder.names(), ["p"]);
}

#[test]
fn a_byte_order_mark_is_taken() {
    assert_eq!(bytes(format!("\u{feff}{THREE}")), three_bytes());
    wrong("\u{feff}labels 2\n", "1:1: `labels` has two numbers: vertex labels and edge labels");
}

#[test]
fn a_byte_order_mark_within_the_text_is_none() {
    wrong(
        "labels 1 1\n\u{feff}vertex 1\n",
        "2:1: `\u{feff}vertex` is none of `vertex`, `edge`, `recorded` and their kin; see docs/FORMAT.md",
    );
}

#[test]
fn lines_may_end_as_on_windows() {
    assert_eq!(bytes(THREE.replace('\n', "\r\n")), three_bytes());
    wrong("labels 1 1\r\nvertex x\r\n", "2:8: a weight is a number of 32 bits or `forbidden`, not `x`");
}

#[test]
fn the_last_line_needs_no_end() {
    assert_eq!(bytes(THREE.trim_end()), three_bytes());
    assert_eq!(bytes(THREE.trim_end().to_owned() + "\r"), three_bytes());
}

#[test]
fn a_carriage_return_within_a_line_is_an_error() {
    wrong(THREE.replace('\n', "\r"), "1:11: a control character stands here");
}

#[test]
fn blanks_tabs_and_empty_lines_mean_nothing() {
    let text = "\n \t\n labels\t2  1 \nvertex 5 -2\t\n\tvertex -2 3\n\nedge 1\nrecorded 0 1\n \t0-1\nfound 1   0\n0-1\n\n\n";
    assert_eq!(bytes(text), three_bytes());
}

#[test]
fn latin_1_in_a_comment_is_taken() {
    assert_eq!(bytes([b"# W\xE4rmer\n", THREE.as_bytes(), b"# f\xFCr\n"].concat()), three_bytes());
    let behind = THREE.replace("edge 1\n", "edge 1 # Gr\u{e4}\n");
    let latin: Vec<u8> = behind.chars().map(|c| c as u8).collect();
    assert_eq!(bytes(latin), three_bytes());
}

#[test]
fn latin_1_in_a_name_is_an_error_with_line_and_column() {
    wrong(b"labels 1 1\nvertex-names W\xE4rmer\n", "2:15: this is no text in UTF-8");
    wrong(
        "labels 1 1\nvertex-names \u{e4}X\n".replace('X', "\u{e4}").chars().map(|c| c as u8).collect::<Vec<u8>>(),
        "2:14: this is no text in UTF-8",
    );
    let name = [b"labels 1 1\nvertex-names \xC3\xA4\xC3\xA4\xE4\n".as_slice(), b""].concat();
    wrong(name, "2:16: this is no text in UTF-8");
}

#[test]
fn utf_16_is_an_error_that_says_so() {
    let little: Vec<u8> = std::iter::once(0xFEFF).chain(THREE.encode_utf16()).flat_map(|unit| unit.to_le_bytes()).collect();
    let big: Vec<u8> = std::iter::once(0xFEFF).chain(THREE.encode_utf16()).flat_map(|unit| unit.to_be_bytes()).collect();
    wrong(little, "1:1: this is UTF-16; a plant is text in UTF-8");
    wrong(big, "1:1: this is UTF-16; a plant is text in UTF-8");
    let bare: Vec<u8> = THREE.encode_utf16().flat_map(|unit| unit.to_le_bytes()).collect();
    wrong(bare, "1:2: a control character stands here");
}

#[test]
fn control_characters_are_errors_except_in_comments() {
    wrong("labels 1 1\nvertex-names a\u{1}b\n", "2:15: a control character stands here");
    wrong("labels 1\0 1\n", "1:9: a control character stands here");
    wrong(format!("{ONE}recorded \"a\u{1b}[31m\"=0\n"), "4:12: a control character stands here");
    wrong("labels 1 1\u{7f}\n", "1:11: a control character stands here");
    assert_eq!(bytes(format!("# \u{1b}[31m\0\n{THREE}")), three_bytes());
}

/// The same table as rows and shortly, with the trees of small plant 3.
fn short(short: &str, rows: &str) {
    let trees = "recorded 0 1\n0-1\nfound 1 0\n0-1\n";
    same(&format!("labels 3 2\n{short}{trees}"), &format!("labels 3 2\n{rows}{trees}"));
}

#[test]
fn a_default_weight_is_that_of_every_pair() {
    short("vertex-default -7\nedge-default forbidden\n", &("vertex -7 -7 -7\n".repeat(3) + &"edge forbidden forbidden\n".repeat(2)));
}

#[test]
fn equal_labels_and_pairs_override_the_default() {
    let rows = "vertex 9 -1 4\nvertex -1 9 -1\nvertex 5 -1 9\nedge 3 -2147483648\nedge 2 3\n";
    let lines = ["vertex-default -1\n", "vertex-equal 9\n", "vertex-pair 0 2 4\n", "vertex-pair 2 0 5\n"];
    let edges = "edge-pair 1 0 2\nedge-default forbidden\nedge-equal 3\n";
    short(&(lines.concat() + edges), rows);
}

#[test]
fn a_pair_overrides_equal_and_equal_the_default_in_whatever_order_they_stand() {
    let lines = ["vertex-default 1\n", "vertex-equal 2\n", "vertex-pair 1 1 3\n"];
    let edges = "edge 0 0\nedge 0 0\n";
    for order in [[0, 1, 2], [0, 2, 1], [1, 0, 2], [1, 2, 0], [2, 0, 1], [2, 1, 0]] {
        let text: String = order.iter().map(|&at| lines[at]).collect();
        short(&(text + edges), &format!("vertex 2 1 1\nvertex 1 3 1\nvertex 1 1 2\n{edges}"));
    }
}

#[test]
fn vertices_may_have_rows_and_edges_short_weights() {
    let rows = "vertex 1 2 3\nvertex 4 5 6\nvertex 7 8 9\n";
    short(&format!("edge-default 0\n{rows}edge-equal 1\n"), &format!("{rows}edge 1 0\nedge 0 1\n"));
}

#[test]
fn a_pair_of_labels_may_be_named_before_or_after_the_names_stand() {
    let rows = "vertex 0 0 4\nvertex 0 0 0\nvertex 0 0 0\nedge 0 8\nedge 0 0\n";
    let names = "vertex-names circulation pump, probe, 0-1 T\nedge-names signal  line, hose\n";
    let pairs = "vertex-default 0\nvertex-pair \"circulation pump\" \"0-1 T\" 4\nedge-default 0\nedge-pair \"signal line\" hose 8\n";
    short(&format!("{names}{pairs}"), rows);
    short(&format!("{pairs}{names}"), rows);
}

#[test]
fn the_same_pair_of_labels_twice_is_an_error() {
    let text = format!("labels 2 1\nvertex-names a, b\nvertex-default 0\nvertex-pair 0 1 2\nvertex-pair a b 2\nedge-default 0\n{TREES}");
    wrong(text, "5:13: this pair of labels has its weight already");
}

#[test]
fn a_default_or_an_equal_weight_stands_once() {
    wrong("labels 1 1\nvertex-default 1\nvertex-default 1\n", "3:1: `vertex-default` stands once");
    wrong("labels 1 1\nedge-equal 1\nedge-equal 1\n", "3:1: `edge-equal` stands once");
}

#[test]
fn short_weights_without_a_default_are_an_error() {
    let reason = "`vertex-equal` and `vertex-pair` want a `vertex-default`";
    wrong(format!("labels 1 1\nvertex-equal 1\nedge 1\n{TREES}"), &format!("4:1: {reason}"));
    wrong(format!("labels 1 1\nvertex-pair 0 0 1\nedge 1\n{TREES}"), &format!("4:1: {reason}"));
    wrong(format!("labels 1 1\nvertex 1\nedge-equal 1\n{TREES}"), "4:1: `edge-equal` and `edge-pair` want a `edge-default`");
}

#[test]
fn rows_and_short_weights_of_one_kind_do_not_mix() {
    let rows = "rows of `vertex` weights stand already; a short form does not stand beside";
    wrong("labels 2 1\nvertex 1 1\nvertex-default 1\n", &format!("3:1: {rows}"));
    wrong("labels 2 1\nvertex 1 1\nvertex-equal 1\n", &format!("3:1: {rows}"));
    wrong("labels 2 1\nvertex 1 1\nvertex-pair 0 0 1\n", &format!("3:1: {rows}"));
    let shortly = "weights of edge labels are given shortly already; rows do not stand beside";
    for line in ["edge-default 1", "edge-equal 1", "edge-pair 0 0 1"] {
        wrong(format!("labels 1 1\n{line}\nedge 1\n"), &format!("3:1: {shortly}"));
    }
}

#[test]
fn labels_of_a_pair_that_are_not_there_are_errors() {
    let pair = |pair: &str| format!("labels 2 1\nvertex-names a, b\nvertex-default 0\nvertex-pair {pair} 1\nedge 1\n{TREES}");
    wrong(pair("0 2"), "4:15: there is no vertex label 2: there are 2");
    wrong(pair("255 0"), "4:13: there is no vertex label 255: there are 2");
    wrong(pair("256 0"), "4:13: a label is a number from 0 to 255 or a name, not `256`");
    wrong(pair("a c"), "4:15: no vertex label is named `c`");
}

#[test]
fn short_lines_have_the_right_number_of_words() {
    wrong("labels 1 1\nvertex-default\n", "2:1: `vertex-default` has one weight");
    wrong("labels 1 1\nedge-equal 1 2\n", "2:1: `edge-equal` has one weight");
    wrong("labels 1 1\nvertex-pair 0 0\n", "2:1: `vertex-pair` has a recorded label, a found label and a weight");
    wrong("labels 1 1\nvertex-pair 0 0 1 1\n", "2:1: `vertex-pair` has a recorded label, a found label and a weight");
    wrong("labels 1 1\nvertex-default x\n", "2:16: a weight is a number of 32 bits or `forbidden`, not `x`");
    wrong("labels 1 1\nvertex-pair 0 0 x\n", "2:17: a weight is a number of 32 bits or `forbidden`, not `x`");
}

/// The table of the tests of names.
const NAMED: &str =
    "labels 4 2\nvertex-names pump, circulation pump, T-1:2, 3\nedge-names pipe, signal line\nvertex-default 0\nedge-default 0\n";

/// Trees with names give the bytes of those with numbers.
fn named(trees: &str, numbers: &str) {
    same(&format!("{NAMED}{trees}"), &format!("{NAMED}{numbers}"));
}

#[test]
fn names_of_labels_stand_where_a_number_may() {
    named("recorded pump 1 \"circulation pump\"\n0-1:pipe 1-2:\"signal line\"\nfound pump\n", "recorded 0 1 1\n0-1:0 1-2:1\nfound 0\n");
}

#[test]
fn names_of_labels_with_a_colon_stand_in_quotes_and_with_a_hyphen_need_not() {
    named("recorded \"T-1:2\" \"T-1:2\"\n0-1\nfound P=\"T-1:2\"\n", "recorded 2 2\n0-1\nfound 2\n");
    wrong(format!("{NAMED}recorded T-1:2\n"), "6:10: `T-1:2` has a character that must stand in quotes");
    let table = NAMED.replace("T-1:2", "T-1");
    same(&format!("{table}recorded T-1 P=T-1\n0-P\nfound 0\n"), &format!("{table}recorded 2 2\n0-1\nfound 0\n"));
}

#[test]
fn a_backslash_in_quotes_stands_before_a_quote_or_another() {
    wrong(format!("{NAMED}recorded \"a\\x\"=0\n"), "6:12: in quotes `\\` stands before a quote or another `\\`");
}

#[test]
fn a_line_of_names_within_a_tree_is_no_line_of_edges() {
    let text = format!("{ONE}recorded vertex=0 names=0\nvertex-names 0-1\nfound 0\n");
    wrong(text, "5:1: `vertex-names` stands in the table, before the trees");
}

#[test]
fn a_number_stays_a_number_and_in_quotes_is_a_name() {
    named("recorded 3 \"3\" 0\n0-1 1-2\nfound 0\n", "recorded 3 3 0\n0-1 1-2\nfound 0\n");
    wrong(format!("{NAMED}recorded \"0\"\n"), "6:10: no vertex label is named `0`");
    let renamed = NAMED.replace("T-1:2, 3", "3, 2");
    same(&format!("{renamed}recorded 3 \"3\"\n0-1\nfound 0\n"), &format!("{renamed}recorded 3 2\n0-1\nfound 0\n"));
}

#[test]
fn blanks_in_a_name_count_as_one() {
    named("recorded \" circulation \t pump \"\nfound A=\"circulation  pump\"\n", "recorded 1\nfound 1\n");
}

#[test]
fn names_of_labels_that_are_unknown_are_errors() {
    wrong(format!("{NAMED}recorded pump pomp\n"), "6:15: no vertex label is named `pomp`");
    wrong(format!("{NAMED}recorded A=pomp\n"), "6:12: no vertex label is named `pomp`");
    wrong(format!("{NAMED}recorded 0 0\n0-1:hose\n"), "7:5: no edge label is named `hose`");
    wrong(format!("{NAMED}recorded pipe\n"), "6:10: no vertex label is named `pipe`");
    wrong(format!("{NAMED}recorded Pump\n"), "6:10: no vertex label is named `Pump`; there is `pump`");
    wrong_tree("recorded pump\n", "4:10: no vertex label is named `pump`");
}

#[test]
fn a_name_that_two_labels_have_is_ambiguous_where_it_is_used_only() {
    let table = "labels 3 2\nvertex-names a, b, a\nedge-names e, e\nvertex-default 0\nedge-default 0\n";
    same(&format!("{table}recorded b 2\n0-1:1\nfound 0\n"), &format!("{table}recorded 1 2\n0-1:1\nfound 0\n"));
    wrong(format!("{table}recorded b a\n"), "6:12: `a` is the name of the vertex labels 0 and 2; give the number");
    wrong(format!("{table}recorded 0 0\n0-1:e\n"), "7:5: `e` is the name of the edge labels 0 and 1; give the number");
}

#[test]
fn vertices_with_names_may_stand_on_further_lines_and_after_their_edges() {
    named("recorded P1=pump\nP1-P2 P2-P3:1\nP2=1 P3=0\nP4=pump 3-0\nfound 0\n", "recorded 0 1 0 0\n0-1 1-2:1 3-0\nfound 0\n");
}

#[test]
fn numbers_and_names_of_vertices_may_be_mixed_in_an_edge() {
    named("recorded A=0 1 B=2\nA-1 1-B 2-0\nfound 0\n", "recorded 0 1 2\n0-1 1-2 2-0\nfound 0\n");
}

#[test]
fn the_same_name_may_be_that_of_a_vertex_of_each_tree_and_of_a_label() {
    named("recorded pump=pump A=0\npump-A\nfound A=pump pump=1\nA-pump\n", "recorded 0 0\n0-1\nfound 0 1\n0-1\n");
}

#[test]
fn names_of_vertices_may_have_any_character_in_quotes() {
    let trees = "recorded \"a b\"=pump \"x-y\"=0 \"p:q\"=1 \"#1\"=2 \"k=v\"=0 \"say \\\"hi\\\" \\\\\"=0 \"u,v\"=\"T-1:2\" # all\n\
                 \"a b\"-\"x-y\" \"x-y\"-\"p:q\":\"signal line\" \"p:q\"-\"#1\" \"#1\"-\"k=v\"\n\
                 \"k=v\"-\"say \\\"hi\\\" \\\\\" \"u,v\"-0\nfound 0\n";
    named(trees, "recorded 0 0 1 2 0 0 2\n0-1 1-2:1 2-3 3-4 4-5 6-0\nfound 0\n");
    let line = "recorded \"a b\"=0 \"x-y\"=0 \"p:q\"=1 \"#1\"=2 \"k=v\"=0 \"say \\\"hi\\\" \\\\\"=0 \"u,v\"=2\n";
    let text = plain(format!("{NAMED}{trees}"));
    assert!(text.contains(line), "{text}");
}

#[test]
fn a_name_with_a_separator_that_is_not_in_quotes_is_an_error() {
    wrong(format!("{NAMED}recorded P-1=0\n"), "6:10: `P-1` has a character that must stand in quotes");
    wrong(format!("{NAMED}recorded 0 a:b=0\n"), "6:12: `a:b` has a character that must stand in quotes");
    wrong(format!("{NAMED}recorded a=b=0\n"), "6:10: a vertex is a label, or a name and a label as P1=2, not `a=b=0`");
}

#[test]
fn a_name_of_a_vertex_is_no_number_and_stands_once_in_its_tree() {
    wrong(format!("{NAMED}recorded 7=0\n"), "6:10: a vertex's name is no number, and `7` is one");
    wrong(format!("{NAMED}recorded \"7\"=0\n"), "6:10: a vertex's name is no number, and `7` is one");
    wrong(format!("{NAMED}recorded A=0 0 A=0\n"), "6:16: vertex 0 is named `A` already");
    wrong(format!("{NAMED}recorded A=0\nB=0 \"A\"=0\n"), "7:5: vertex 0 is named `A` already");
}

#[test]
fn a_name_of_a_vertex_that_is_not_there_is_an_error() {
    wrong(format!("{NAMED}recorded A=0 B=0\nA-C\nfound C=0\n"), "7:3: no vertex of this tree is named `C`");
    wrong(format!("{NAMED}recorded A=0 B=0\na-B\nfound 0\n"), "7:1: no vertex of this tree is named `a`; there is `A`");
    wrong(format!("{NAMED}recorded A=0 B=0\nA-\"1\"\nfound 0\n"), "7:3: no vertex of this tree is named `1`");
    wrong(format!("{NAMED}recorded A=0\nfound B=0 C=0\nC-A\n"), "8:3: no vertex of this tree is named `A`");
}

#[test]
fn quotes_that_are_open_empty_or_beside_something_are_errors() {
    wrong(format!("{NAMED}recorded \"pump\n"), "6:10: this quote is not closed");
    wrong(format!("{NAMED}recorded 0 \"pump\\\"\n"), "6:12: this quote is not closed");
    wrong(format!("{NAMED}recorded \"\"\n"), "6:10: a name or a number is missing here");
    wrong(format!("{NAMED}recorded \" \"=0\n"), "6:10: a name or a number is missing here");
    wrong(format!("{NAMED}recorded =0\n"), "6:10: something is missing at `=0`; no blanks stand around `-`, `>`, `=` and `:`");
    wrong(format!("{NAMED}recorded A=\n"), "6:10: something is missing at `A=`; no blanks stand around `-`, `>`, `=` and `:`");
    wrong(format!("{NAMED}recorded \"pump\"s\n"), "6:16: a name in quotes stands by itself, and this is beside one");
    wrong(format!("{NAMED}recorded s\"pump\"\n"), "6:11: a name in quotes stands by itself, and this is beside one");
}

#[test]
fn quotes_mean_nothing_in_a_line_of_names() {
    let text = format!("labels 2 1\nvertex-names a \"b, c\" # \"d\nvertex-default 0\nedge-default 0\n{TREES}");
    assert!(plain(&text).starts_with("labels 2 1\nvertex-names a \"b, c\"\nvertex 0 0\n"), "{}", plain(&text));
}

#[test]
fn columns_count_characters() {
    wrong(format!("{NAMED}recorded \"\u{e4}\u{f6}\"=0 \u{4e2d}=x\n"), "6:19: no vertex label is named `x`");
}

/// Runs `match --plain` on files of these contents, named `a`, `b`, `c`.
fn files(contents: &[&[u8]]) -> support::Ran {
    let folder = Folder::new();
    let names = &["a", "b", "c"][..contents.len()];
    names.iter().zip(contents).for_each(|(name, content)| folder.put(name, content));
    folder.run(&[&["match", "--plain"], names].concat())
}

/// Texts in several files, and the message.
fn wrong_files(contents: &[&str], message: &str) {
    let contents: Vec<&[u8]> = contents.iter().map(|text| text.as_bytes()).collect();
    assert_eq!(files(&contents), said("", format!("{message}\n"), 2));
}

/// The table of small plant 3 and its trees.
const THREE_TABLE: &str = "labels 2 1\nvertex 5 -2\nvertex -2 3\nedge 1\n";
const THREE_RECORDED: &str = "recorded 0 1\n0-1\n";
const THREE_FOUND: &str = "found 1 0\n0-1\n";

#[test]
fn a_plant_may_stand_in_one_two_or_three_files() {
    let trees = format!("{THREE_RECORDED}{THREE_FOUND}");
    let (recorded, found) = ("tree 0 1\n0-1\n", "tree 1 0\n0-1\n");
    let ways = [
        vec![THREE],
        vec![THREE_TABLE, trees.as_str()],
        vec![THREE_TABLE, THREE_RECORDED, THREE_FOUND],
        vec![THREE_TABLE, recorded, found],
        vec![THREE_TABLE, THREE_RECORDED, found],
        vec![THREE_TABLE, recorded, THREE_FOUND],
    ];
    for way in ways {
        let contents: Vec<&[u8]> = way.iter().map(|text| text.as_bytes()).collect();
        assert_eq!(files(&contents), said(THREE_PLAIN, "", 0), "{way:?}");
    }
}

#[test]
fn bytes_may_stand_in_one_two_or_three_files() {
    let (table, recorded, found) = (hex(TABLE), hex(RECORDED), hex(FOUND));
    assert_eq!(files(&[&three_bytes()]), said(THREE_PLAIN, "", 0));
    assert_eq!(files(&[&table, &[recorded.clone(), found.clone()].concat()]), said(THREE_PLAIN, "", 0));
    assert_eq!(files(&[&table, &recorded, &found]), said(THREE_PLAIN, "", 0));
}

#[test]
fn a_tree_in_the_place_of_another_is_an_error_that_names_the_file() {
    wrong_files(&[THREE_TABLE, THREE_FOUND, THREE_RECORDED], "b:1:1: this is a found tree, and the recorded one belongs here");
    wrong_files(&[THREE_TABLE, THREE_RECORDED, THREE_RECORDED], "c:1:1: `recorded` stands once, and the found tree belongs here");
    wrong_files(&[THREE_TABLE, &format!("{THREE_FOUND}{THREE_RECORDED}")], "b:1:1: the recorded tree begins with `recorded`, not `found`");
}

#[test]
fn a_table_that_is_not_in_the_first_file_is_an_error_that_names_the_file() {
    wrong_files(&[THREE_RECORDED, THREE_TABLE, THREE_FOUND], "a:1:1: the first line is `labels K L`, not `recorded`");
    wrong_files(&[THREE_TABLE, THREE_TABLE, THREE_FOUND], "b:1:1: the recorded tree begins with `recorded`, not `labels`");
    wrong_files(&[THREE_TABLE, THREE_RECORDED, THREE_TABLE], "c:1:1: the found tree begins with `found`, not `labels`");
}

#[test]
fn a_whole_plant_beside_other_files_is_an_error_that_names_it() {
    let alone = "this file is to hold the table alone: the trees stand in the files after it";
    wrong_files(&[THREE, THREE], &format!("a:5:1: {alone}"));
    wrong_files(&[THREE, THREE_RECORDED, THREE_FOUND], &format!("a:5:1: {alone}"));
}

#[test]
fn two_trees_in_one_of_three_files_are_an_error() {
    let both = format!("{THREE_RECORDED}{THREE_FOUND}");
    let recorded_alone = "this file is to hold the recorded tree alone: the found one stands in the file after it";
    wrong_files(&[THREE_TABLE, &both, THREE_FOUND], &format!("b:3:1: {recorded_alone}"));
    let third = "`recorded` stands once, and the plant has its two trees already";
    wrong_files(&[THREE_TABLE, THREE_RECORDED, &format!("{THREE_FOUND}{THREE_RECORDED}")], &format!("c:3:1: {third}"));
}

#[test]
fn a_tree_that_does_not_say_which_it_is_stands_in_a_file_of_its_own() {
    wrong_files(&[THREE_TABLE, "tree 0\nfound 0\n"], "b:1:1: the recorded tree begins with `recorded`, not `tree`");
    wrong_files(&[THREE_TABLE, "recorded 0\ntree 0\n"], "b:2:1: the found tree begins with `found`, not `tree`");
}

#[test]
fn a_file_that_lacks_its_part_is_named() {
    wrong_files(&["", THREE_RECORDED, THREE_FOUND], "a:1:1: the text ends before the table");
    wrong_files(&["# none\n", THREE_RECORDED], "a:1:1: the text ends before the table");
    wrong_files(&[THREE_TABLE, "", THREE_FOUND], "b:1:1: the text ends before the recorded tree");
    wrong_files(&[THREE_TABLE, THREE_RECORDED, "\n\n"], "c:2:1: the text ends before the found tree");
    wrong_files(&[THREE_TABLE, THREE_RECORDED], "b:2:4: the text ends before the found tree");
    wrong_files(
        &["labels 1 1\nvertex 1\n", "tree 0\n", "tree 0\n"],
        "a:2:9: there are 0 `edge` rows before this; there are to be 1, or `edge-default`",
    );
}

#[test]
fn text_and_bytes_do_not_mix() {
    let reason = |bytes: &str, text: &str| format!("{bytes}: byte 0: these are bytes and {text} is text; a plant is all of one kind\n");
    let (table, recorded, found) = (hex(TABLE), hex(RECORDED), hex(FOUND));
    assert_eq!(files(&[THREE_TABLE.as_bytes(), &recorded, &found]), said("", reason("b", "a"), 2));
    assert_eq!(files(&[&table, THREE_RECORDED.as_bytes(), &found]), said("", reason("a", "b"), 2));
    assert_eq!(files(&[&table, &recorded, THREE_FOUND.as_bytes()]), said("", reason("a", "c"), 2));
    assert_eq!(files(&[&table, b""]), said("", reason("a", "b"), 2));
}

#[test]
fn a_file_of_three_may_be_standard_input() {
    let folder = Folder::with(&[("t", THREE_TABLE), ("f", THREE_FOUND)]);
    assert_eq!(folder.fed(&["match", "--plain", "t", "-", "f"], "tree 0 1\n0-1\n"), said(THREE_PLAIN, "", 0));
    let message = "-:1:6: no vertex label is named `pump`\n";
    assert_eq!(folder.fed(&["match", "t", "-", "f"], "tree pump\n"), said("", message, 2));
}

#[test]
fn bytes_give_the_plain_text() {
    let folder = Folder::new();
    folder.put("b", three_bytes());
    assert_eq!(folder.run(&["text", "b"]), said(THREE, "", 0));
    assert_eq!(folder.fed(&["text", "-"], three_bytes()), said(THREE, "", 0));
}

/// The text of the bytes of a text is stable, and has the same bytes; so has the text of the text, with its names.
fn there_and_back(name: &str, text: &str) {
    let there = bytes(text);
    let back = plain(&there);
    assert_eq!(bytes(&back), there, "{name}");
    assert_eq!(plain(&back), back, "{name}");
    let with_names = plain(text);
    assert_eq!((bytes(&with_names), plain(&with_names)), (there, with_names), "{name}");
}

#[test]
fn text_and_bytes_of_each_example_are_stable() {
    for (name, text) in examples() {
        there_and_back(name, &text);
    }
}

#[test]
fn text_and_bytes_of_plants_of_the_greatest_size_are_stable() {
    for seed in 1..4 {
        let text = big(seed);
        assert_eq!(bytes(&text).len(), 4436 + 510 + 510, "{seed}");
        there_and_back(&format!("seed {seed}"), &text);
    }
}

#[test]
fn all_sorts_of_numbers_are_stable() {
    let text = "labels 3 1\nvertex 0 -1 1\nvertex 2147483647 -2147483647 forbidden\nvertex 255 256 -256\nedge 65536\n\
                recorded 255\nfound 0 1\n255-0:255\n";
    there_and_back("numbers", text);
    assert_eq!(plain(text), text);
}

#[test]
fn the_plain_form_keeps_names_and_gives_rows() {
    let text = "labels 2 2\nvertex-default -1\nvertex-equal 5\nedge-default forbidden\nvertex-names  a  b ,c\nedge-names d,e # names\n\
                recorded P1=\"a b\" \"P 2\"=c\nP1-\"P 2\":e\nfound c\n";
    let expected =
        "labels 2 2\nvertex-names a b, c\nedge-names d, e\nvertex 5 -1\nvertex -1 5\nedge forbidden forbidden\nedge forbidden forbidden\n\
                    recorded P1=0 \"P 2\"=1\n0-1:1\nfound 1\n";
    assert_eq!(plain(text), expected);
    assert_eq!(plain(expected), expected);
}

#[test]
fn the_plain_form_has_twelve_edges_in_a_line() {
    let text = plain(big(1));
    let lines: Vec<usize> = text
        .lines()
        .filter(|line| line.contains('-') && !line.contains(' ') || line.starts_with(|c: char| c.is_ascii_digit()))
        .map(|line| line.split(' ').count())
        .collect();
    assert_eq!(lines, [12, 12, 12, 12, 12, 3, 12, 12, 12, 12, 12, 3]);
}

/// Bytes of another shape: the library's number, the offset and what is wrong, and no text.
fn shape(bytes: &str, item: u32, message: &str) {
    let folder = Folder::new();
    folder.put("b", hex(bytes));
    let sentence = match item {
        1 => "the table's length, a mark, or its number of labels is wrong",
        3 => "the recorded tree's length, a mark, or its number of vertices is wrong",
        _ => "the found tree's length, a mark, or its number of vertices is wrong",
    };
    let err = format!("pensummer: refused {item}: {sentence}\nb: byte {message}\n");
    assert_eq!(folder.run(&["text", "b"]), said("", err.clone(), 1), "{bytes}");
    assert_eq!(folder.run(&["match", "b"]), said("", err, 1), "{bytes}");
}

#[test]
fn bytes_of_a_table_of_another_shape_are_refused_with_their_offset() {
    shape("B1", 1, "1: the bytes end here, before the mark of the table head is whole");
    shape("B1 01 02", 1, "0: the table head begins with B1 04, not B1 01");
    shape("B1 04", 1, "2: the bytes end here, within the table head");
    shape("B1 04 21 01", 1, "2: the number of vertex labels is 1 to 32, not 33");
    shape("B1 04 01 00", 1, "3: the number of edge labels is 1 to 8, not 0");
    shape(&format!("{} 00 00 B1 05", &TABLE[..26]), 1, "13: the bytes end here, within vertex row 0");
    shape(&TABLE.replace("B1 06", "B1 16"), 1, "24: edge row 0 begins with B1 06, not B1 16");
}

#[test]
fn bytes_of_a_tree_of_another_shape_are_refused_with_their_offset() {
    let both = format!("{TABLE} {RECORDED}");
    shape(TABLE, 3, "30: the bytes end here, before the mark of the head of the recorded tree is whole");
    shape(&format!("{TABLE} B1 01 41"), 3, "32: the number of vertices is 1 to 64, not 65");
    shape(&format!("{TABLE} B1 01 02 B1 02 00 B1 03 00"), 3, "36: recorded vertex 1 begins with B1 02, not B1 03");
    shape(&both, 8, "44: the bytes end here, before the mark of the head of the found tree is whole");
    shape(&format!("{both} {}", FOUND.replace("B1 03", "C1 03")), 8, "53: found edge 0 begins with B1 03, not C1 03");
    shape(&format!("{both} {}", &FOUND[..FOUND.len() - 3]), 8, "57: the bytes end here, within found edge 0");
    shape(&format!("{both} {FOUND} 00 00"), 8, "58: the found tree ends before this byte; bytes left over: 2");
    shape(&format!("{both} {FOUND} 00"), 8, "58: the found tree ends before this byte; bytes left over: 1");
}

#[test]
fn offsets_count_within_the_file_that_holds_the_part() {
    let folder = Folder::new();
    folder.put("t", hex(TABLE));
    folder.put("r", hex(RECORDED));
    folder.put("rf", hex(&format!("{RECORDED} {FOUND} 00")));
    folder.put("f", hex(&FOUND.replace("B1 03", "C1 03")));
    let refused = "pensummer: refused 8: the found tree's length, a mark, or its number of vertices is wrong\n";
    let message = format!("{refused}rf: byte 28: the found tree ends before this byte; bytes left over: 1\n");
    assert_eq!(folder.run(&["text", "t", "rf"]), said("", message, 1));
    let message = format!("{refused}f: byte 9: found edge 0 begins with B1 03, not C1 03\n");
    assert_eq!(folder.run(&["text", "t", "r", "f"]), said("", message, 1));
}

/// The item that refuses small plant 3 with byte `at` made one more; 0 for none.
fn item_of(at: usize) -> u32 {
    let marks = |start: usize, records: &[usize]| records.iter().any(|&mark| at == start + mark || at == start + mark + 1);
    match at {
        _ if at < 4 || marks(0, &[4, 14, 24]) => 1,
        // a high byte of a weight
        9 | 12 | 13 | 18 | 19 | 23 | 29 => 2,
        _ if at < 30 => 0,
        32 => 3,
        46 => 8,
        _ if at < 44 && marks(30, &[0, 3, 6, 9]) => 3,
        _ if marks(44, &[0, 3, 6, 9]) => 8,
        _ => tree_item(if at < 44 { at - 30 } else { at - 44 }, if at < 44 { 4 } else { 9 }, [5, 8][usize::from(at < 44)]),
    }
}

/// Of a byte of a tree that is no mark and no count; `label` is the item of labels, `last` where the label 1 stands.
fn tree_item(at: usize, label: u32, last: usize) -> u32 {
    match at {
        11 => label + 2,
        12 => label + 1,
        13 => label,
        5 | 8 if at == last => label,
        _ => 0,
    }
}

#[test]
fn every_byte_made_one_more_is_refused_by_its_item_and_has_a_text_unless_that_is_of_the_form() {
    let folder = Folder::new();
    // the first byte made one more is no mark: the file is taken for text
    for at in 1..58 {
        let mut bytes = three_bytes();
        bytes[at] = bytes[at].wrapping_add(1);
        folder.put("b", bytes);
        let (out, _, status) = folder.run(&["match", "--plain", "b"]);
        let number = out.strip_prefix("refused ").map_or(0, |rest| rest.trim_end().parse().expect("a number"));
        assert_eq!((number, status), (item_of(at), i32::from(number > 0)), "byte {at}");
        let form = [1, 3, 8].contains(&number);
        assert_eq!(folder.run(&["text", "b"]).2, i32::from(form), "byte {at}");
    }
}

#[test]
fn every_beginning_of_bytes_is_refused_at_its_end() {
    let folder = Folder::new();
    for length in 1..58 {
        folder.put("b", &three_bytes()[..length]);
        let item = if length < 30 { 1 } else { 3 + 5 * u32::from(length >= 44) };
        assert_eq!(folder.run(&["match", "--plain", "b"]).0, format!("refused {item}\n"), "{length}");
        let (out, err, status) = folder.run(&["text", "b"]);
        assert_eq!((out.as_str(), status), ("", 1), "{length}");
        // a mark that is cut is placed at the end too
        assert!(err.contains(&format!("\nb: byte {length}: the bytes end here, ")), "{length}: {err}");
    }
}

#[test]
fn bytes_that_begin_with_another_byte_are_taken_for_text() {
    let folder = Folder::new();
    let mut bytes = three_bytes();
    bytes[0] = 0xC1;
    folder.put("b", bytes);
    assert_eq!(folder.run(&["match", "b"]), said("", "b:1:1: this is no text in UTF-8\n", 2));
}

#[test]
fn bytes_with_labels_and_edges_out_of_range_have_a_text() {
    let folder = Folder::new();
    folder.put("b", hex(&format!("{TABLE} B1 01 02 B1 02 FF B1 02 01 B1 03 07 07 09 B1 01 01 B1 02 02")));
    let text = "labels 2 1\nvertex 5 -2\nvertex -2 3\nedge 1\nrecorded 255 1\n7-7:9\nfound 2\n";
    assert_eq!(folder.run(&["text", "b"]), said(text, "", 0));
    assert_eq!(folder.bytes(&["plant", "b"]), folder.get("b"));
}
