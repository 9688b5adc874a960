//! Serials: what their lines give as bytes, what is wrong with others and where, how the built program shows those that
//! are known, and that a pair of two that differ is forbidden.
mod support;

use support::json::Value;
use support::plants::{examples, hex, of_repository, row, tree, NINE, ONE, TABLE, THREE, THREE_PLAIN};
use support::report::{certain, report};
use support::{bytes, out, said, wrong, Folder};

/// Wrong lines after a recorded tree of three vertices A, 1 and C; they begin in line 6.
fn wrong_lines(lines: &str, message: &str) {
    wrong(format!("{ONE}recorded A=0 0 C=0\nA-1 1-C\n{lines}\nfound 0\n"), message);
}

/// Small plant 3 with serials: 7 at recorded vertex 0 and 4294967295 at vertex 1; 256 at found vertex 0, none at 1.
const RECORDED_SERIALS: &str = "B1 01 02 B1 07 00 07 00 00 00 B1 07 01 FF FF FF FF B1 03 00 01 00";
const FOUND_SERIALS: &str = "B1 01 02 B1 07 01 00 01 00 00 B1 07 00 00 00 00 00 B1 03 00 01 00";
const FOUND: &str = "B1 01 02 B1 02 01 B1 02 00 B1 03 00 01 00";

/// Small plant 3 with lines of serials in its trees.
fn three(recorded: &str, found: &str) -> String {
    THREE.replace("recorded 0 1\n", &format!("recorded 0 1\n{recorded}")).replace("found 1 0\n", &format!("found 1 0\n{found}"))
}

fn serials() -> String {
    String::from_utf8(of_repository("examples/serials.txt")).expect("UTF-8")
}

#[test]
fn lines_of_serials_give_the_longer_records() {
    let both = hex(&format!("{TABLE} {RECORDED_SERIALS} {FOUND_SERIALS}"));
    assert_eq!(bytes(three("serials 7 4294967295\n", "serials 256 0\n")), both);
    assert_eq!(bytes(three("serials 1=4294967295 0=7\n", "serials 0=256\n")), both);
    assert_eq!(bytes(three("serials 7\n# between\nserials 0004294967295\n", "serials 0=00256\nserials 1=0\n")), both);
}

#[test]
fn each_tree_has_a_kind_of_its_own() {
    assert_eq!(bytes(three("serials 7 4294967295\n", "")), hex(&format!("{TABLE} {RECORDED_SERIALS} {FOUND}")));
    let recorded = "B1 01 02 B1 02 00 B1 02 01 B1 03 00 01 00";
    assert_eq!(bytes(three("", "serials 256 0\n")), hex(&format!("{TABLE} {recorded} {FOUND_SERIALS}")));
}

#[test]
fn serials_that_are_all_unknown_are_the_longer_records_too() {
    let zeros = "B1 01 02 B1 07 01 00 00 00 00 B1 07 00 00 00 00 00 B1 03 00 01 00";
    for line in ["serials 0 0\n", "serials 1=0\n"] {
        assert!(bytes(three("", line)).ends_with(&hex(zeros)), "{line}");
    }
}

#[test]
fn lines_of_serials_stand_anywhere_in_their_tree() {
    let usual = format!("{ONE}recorded A=0 B=0 \"C 3\"=0\nserials 5 6 7\nA-B\nB-2\nfound 0\n");
    let ways = [
        "A=0 B=0 \"C 3\"=0\nA-B\nserials 5 6\nB-2\nserials 7\n",
        "\nserials 5 6 7\nA=0 B=0\n\"C 3\"=0 A-B B-2\n",
        "\nserials \"C 3\"=7 B=6\nA=0 B=0\nserials 0=5\n\"C 3\"=0 A-B B-2\n",
        "A=0 B=0 \"C 3\"=0\nA-B\nB-2\n\tserials  A=5\t\"C  3\"=7 1=6 # three\n",
    ];
    for way in ways {
        assert_eq!(bytes(format!("{ONE}recorded {way}found 0\n")), bytes(&usual), "{way}");
    }
}

#[test]
fn serials_stand_in_each_of_three_files() {
    let folder = Folder::with(&[("t", ONE), ("r", "tree 0\nserials 5\n"), ("f", "tree P=0\nserials P=5\n")]);
    assert_eq!(folder.run(&["match", "--plain", "t", "r", "f"]), said("weight 1\n0 0\n", "", 0));
    folder.put("f", "tree P=0\nserials Q=5\n");
    assert_eq!(folder.run(&["match", "t", "r", "f"]), said("", "f:2:9: no vertex of this tree is named `Q`\n", 2));
}

#[test]
fn a_vertex_may_be_named_serials() {
    let plant = format!("{ONE}recorded serials=0 x=0\nserials-x\nserials serials=9\nfound 0\n");
    assert!(out(&plant, &["text"]).contains("recorded serials=0 x=0\nserials 9 0\n0-1\n"));
}

#[test]
fn a_serial_is_a_number_of_32_bits_without_a_sign() {
    for word in ["4294967296", "99999999999999999999", "-1", "-0", "+1", "1.5", "x", "\"1\"", "1-2", "-", "0x7"] {
        let reason = format!("a serial is a number from 0 to 4294967295, not `{word}`");
        wrong_lines(&format!("serials 1 {word} 3"), &format!("6:11: {reason}"));
    }
    for word in ["4294967296", "-1", "x", "\"1\"", "1=2", "+1"] {
        let reason = format!("a serial is a number from 0 to 4294967295, not `{word}`");
        wrong_lines(&format!("serials A=1 C={word}"), &format!("6:15: {reason}"));
        wrong_lines(&format!("serials A=1 \"C\"={word}"), &format!("6:17: {reason}"));
    }
}

#[test]
fn there_is_a_serial_for_each_vertex() {
    let wanted = "there is to be one for each vertex, 0 where it is unknown";
    wrong_lines("serials 1 2", &format!("6:1: the tree has 3 vertices and 2 serials; {wanted}"));
    wrong_lines("serials 1\n  serials 2", &format!("7:3: the tree has 3 vertices and 2 serials; {wanted}"));
    wrong_lines("serials 1", &format!("6:1: the tree has 3 vertices and 1 serial; {wanted}"));
    wrong_lines("serials 1 2 3  4 5", "6:16: this serial is one too many; the tree has 3 vertices");
    wrong_lines("serials 1 2\nserials 3\nserials 4 5", "8:9: this serial is one too many; the tree has 3 vertices");
    wrong(format!("{ONE}recorded 0\nfound\nserials 0\n"), "6:9: this serial is one too many; the tree has 0 vertices");
    wrong(format!("{ONE}recorded 0\nfound 0\nserials 0 0\n"), "6:11: this serial is one too many; the tree has 1 vertex");
}

#[test]
fn a_line_of_serials_has_some() {
    let reason = "`serials` has a number for each vertex, or words as P1=70411";
    wrong_lines("serials", &format!("6:1: {reason}"));
    wrong_lines("serials 1 2 3\n serials # none", &format!("7:2: {reason}"));
}

#[test]
fn a_serial_is_of_a_vertex_that_is_there_and_once() {
    wrong_lines("serials A=1 B=2", "6:13: no vertex of this tree is named `B`");
    wrong_lines("serials a=1", "6:9: no vertex of this tree is named `a`; there is `A`");
    wrong_lines("serials \"2\"=1", "6:9: no vertex of this tree is named `2`");
    wrong_lines("serials A=1 3=2", "6:13: there is no vertex 3: the tree has 3 vertices");
    wrong_lines("serials 255=1", "6:9: there is no vertex 255: the tree has 3 vertices");
    wrong_lines("serials 256=1", "6:9: a vertex is a number from 0 to 255 or a name, not `256`");
    wrong_lines("serials A-C=1", "6:9: `A-C` has a character that must stand in quotes");
    wrong_lines("serials A=1 C=2 A=1", "6:17: vertex 0 has its serial already");
    wrong_lines("serials A=1 C=0\nserials 2=2", "7:9: vertex 2 has its serial already");
    wrong_lines("serials A=", "6:9: something is missing at `A=`; no blanks stand around `-`, `>`, `=` and `:`");
    wrong_lines("serials =5", "6:9: something is missing at `=5`; no blanks stand around `-`, `>`, `=` and `:`");
    wrong_lines("serials \"\"=5", "6:9: a name or a number is missing here");
    wrong_lines("serials \"A=5", "6:9: this quote is not closed");
}

#[test]
fn the_two_forms_do_not_mix_in_a_tree() {
    let reason = "the serials of a tree are numbers for all vertices or words as P1=70411; the two do not mix";
    wrong_lines("serials 1 A=2", &format!("6:11: {reason}"));
    wrong_lines("serials A=2 1", &format!("6:13: {reason}"));
    wrong_lines("serials 1 2\nserials 1 C=3", &format!("7:11: {reason}"));
    wrong_lines("serials C=3\n\nserials 1 2", &format!("8:9: {reason}"));
    bytes(three("serials 1 2\n", "serials 1=2\n"));
}

#[test]
fn serials_stand_in_a_tree_and_nowhere_else() {
    wrong("serials 1\n", "1:1: the first line is `labels K L`, not `serials`");
    wrong(format!("{ONE}serials 1\nrecorded 0\nfound 0\n"), "4:1: `serials` stands in a tree, after its first line");
    let reason = "an edge is two vertices and a label, as 0-1, 0-1:2 or 0>1:4, not `serials`";
    wrong_lines("A-1 serials 1 2 3", &format!("6:5: {reason}"));
    let folder = Folder::with(&[("t", ONE), ("r", "serials 1\ntree 0\n"), ("f", "tree 0\n")]);
    assert_eq!(folder.run(&["match", "t", "r", "f"]), said("", "r:1:1: the recorded tree begins with `recorded`, not `serials`\n", 2));
}

#[test]
fn bytes_with_serials_give_their_text_and_it_gives_them() {
    let folder = Folder::new();
    for (recorded, found, lines) in [
        (RECORDED_SERIALS, FOUND_SERIALS, ["serials 7 4294967295\n", "serials 256 0\n"]),
        (RECORDED_SERIALS, FOUND, ["serials 7 4294967295\n", ""]),
        ("B1 01 02 B1 02 00 B1 02 01 B1 03 00 01 00", FOUND_SERIALS, ["", "serials 256 0\n"]),
        ("B1 01 02 B1 07 00 00 00 00 00 B1 07 01 00 00 00 00 B1 03 00 01 00", FOUND, ["serials 0 0\n", ""]),
    ] {
        folder.put("b", hex(&format!("{TABLE} {recorded} {found}")));
        let text = three(lines[0], lines[1]);
        assert_eq!(folder.run(&["text", "b"]), said(text.as_str(), "", 0));
        assert_eq!(bytes(&text), folder.get("b"), "{text}");
        folder.put("t", hex(TABLE));
        folder.put("rf", hex(&format!("{recorded} {found}")));
        assert_eq!(folder.run(&["text", "t", "rf"]), said(text.as_str(), "", 0));
        folder.put("r", hex(recorded));
        folder.put("f", hex(found));
        assert_eq!(folder.run(&["text", "t", "r", "f"]), said(text, "", 0));
    }
}

#[test]
fn the_plain_form_has_a_list_of_serials_and_keeps_names() {
    let plant = format!("{ONE}recorded A=0 B=0\nA-B\nserials B=3\nfound 0\n");
    assert_eq!(out(&plant, &["text"]), format!("{ONE}recorded A=0 B=0\nserials 0 3\n0-1\nfound 0\n"));
}

/// A path of the greatest size, every serial as long as can be.
fn longest(word: &str) -> String {
    tree(word, 64, |i| i - 1) + &row("serials", (0..64u32).map(|at| u32::MAX - at))
}

#[test]
fn the_plain_form_has_twelve_serials_in_a_line() {
    let text = out(&format!("{ONE}{}{}", longest("recorded"), longest("found")), &["text"]);
    let lines: Vec<usize> = text.lines().filter(|line| line.starts_with("serials ")).map(|line| line.split(' ').count() - 1).collect();
    assert_eq!(lines, [12, 12, 12, 12, 12, 4, 12, 12, 12, 12, 12, 4]);
    assert!(text.lines().all(|line| line.chars().count() <= 140));
}

#[test]
fn plants_of_the_greatest_size_with_serials_go_there_and_back() {
    let labels = "labels 32 8\nvertex-default 1\nedge-default 1\n";
    for (recorded, found, length) in [
        (longest("recorded"), longest("found"), 766 + 766),
        (longest("recorded"), tree("found", 64, |i| i - 1), 766 + 510),
        (tree("recorded", 64, |i| i - 1), longest("found"), 510 + 766),
    ] {
        let folder = Folder::with(&[("p", &format!("{labels}{recorded}{found}"))]);
        folder.put("b", folder.bytes(&["plant", "p"]));
        assert_eq!(folder.get("b").len(), 4436 + length);
        folder.put("again", folder.bytes(&["text", "b"]));
        assert_eq!(folder.bytes(&["plant", "again"]), folder.get("b"));
        assert_eq!(folder.run(&["match", "--plain", "b"]), folder.run(&["match", "--plain", "p"]));
        assert!(folder.run(&["match", "--plain", "b"]).0.starts_with("weight 127\n"));
    }
}

/// Bytes of another shape: the library's number and the place.
fn shape(bytes: &str, item: u32, message: &str) {
    let folder = Folder::new();
    folder.put("b", hex(bytes));
    let side = if item == 3 { "recorded" } else { "found" };
    let sentence = format!("the {side} tree's length, a mark, or its number of vertices is wrong");
    let err = format!("pensummer: refused {item}: {sentence}\nb: byte {message}\n");
    for name in ["match", "text", "sizes"] {
        assert_eq!(folder.run(&[name, "b"]), said("", err.clone(), 1), "{bytes}");
    }
}

#[test]
fn vertex_records_of_two_kinds_are_refused_where_the_second_kind_stands() {
    let kind = "the vertex records of a tree are all of one kind";
    let short = RECORDED_SERIALS.replace("B1 07 01 FF FF FF FF", "B1 02 01");
    shape(&format!("{TABLE} {short} {FOUND}"), 3, &format!("40: recorded vertex 1 begins with B1 07, not B1 02; {kind}"));
    let long = RECORDED_SERIALS.replace("B1 07 00 07 00 00 00", "B1 02 00");
    shape(&format!("{TABLE} {long} {FOUND}"), 3, &format!("36: recorded vertex 1 begins with B1 02, not B1 07; {kind}"));
    let mixed = FOUND.replace("B1 02 00", "B1 07 00 00 00 00 00");
    shape(&format!("{TABLE} {RECORDED_SERIALS} {mixed}"), 8, &format!("58: found vertex 1 begins with B1 02, not B1 07; {kind}"));
    let mixed = FOUND_SERIALS.replace("B1 07 00 00 00 00 00", "B1 02 00");
    shape(&format!("{TABLE} {RECORDED_SERIALS} {mixed}"), 8, &format!("62: found vertex 1 begins with B1 07, not B1 02; {kind}"));
}

#[test]
fn the_first_vertex_record_has_a_mark_of_either_kind() {
    let either = "begins with B1 02 or B1 07, not";
    let other = RECORDED_SERIALS.replacen("B1 07", "B1 08", 1);
    shape(&format!("{TABLE} {other} {FOUND}"), 3, &format!("33: recorded vertex 0 {either} B1 08"));
    let other = FOUND.replacen("B1 02", "B1 03", 1);
    shape(&format!("{TABLE} {RECORDED_SERIALS} {other}"), 8, &format!("55: found vertex 0 {either} B1 03"));
    shape(&format!("{TABLE} B1 01 02 B1"), 3, "34: the bytes end here, before the mark of recorded vertex 0 is whole");
}

#[test]
fn a_tree_with_serials_has_its_own_length() {
    let both = format!("{TABLE} {RECORDED_SERIALS}");
    shape(&format!("{TABLE} {}", &RECORDED_SERIALS[..3 * 22 - 4]), 3, "51: the bytes end here, within recorded edge 0");
    shape(&format!("{TABLE} {}", &RECORDED_SERIALS[..3 * 9 - 1]), 3, "39: the bytes end here, within recorded vertex 0");
    shape(&both, 8, "52: the bytes end here, before the mark of the head of the found tree is whole");
    shape(&format!("{both} {FOUND_SERIALS} 00"), 8, "74: the found tree ends before this byte; bytes left over: 1");
    shape(&format!("{both} {FOUND} 00 00 00 00 00 00 00 00"), 8, "66: the found tree ends before this byte; bytes left over: 8");
}

#[test]
fn every_beginning_of_bytes_with_serials_is_refused_at_its_end() {
    let folder = Folder::new();
    let bytes = hex(&format!("{TABLE} {RECORDED_SERIALS} {FOUND_SERIALS}"));
    for length in 30..bytes.len() {
        folder.put("b", &bytes[..length]);
        let item = if length < 52 { 3 } else { 8 };
        let (out, err, status) = folder.run(&["match", "--plain", "b"]);
        assert_eq!((out, status), (format!("refused {item}\n"), 1), "{length}");
        assert!(err.contains(&format!("\nb: byte {length}: the bytes end here, ")), "{length}: {err}");
    }
}

/// The item that refuses a tree of `bytes` with byte `at` changed to `value`, from the item of its form; 0 for none.
fn item_of(bytes: &[u8], at: usize, value: u8, form: u32) -> u32 {
    let mut changed = bytes.to_vec();
    changed[at] = value;
    let other_end = if at == 19 { bytes[20] } else { bytes[19] };
    let [a, b] = [&changed[6..10], &changed[13..17]];
    match at {
        5 | 12 if value > 1 => form + 1,
        21 if value > 0 => form + 1,
        19 | 20 if value > 1 => form + 2,
        19 | 20 if value == other_end => form + 3,
        6..=9 | 13..=16 if a == b && a != [0; 4] => 25 + u32::from(form == 8),
        5 | 12 | 19..=21 | 6..=9 | 13..=16 => 0,
        _ => form,
    }
}

#[test]
fn every_byte_of_trees_with_serials_changed_is_refused_by_its_item_with_a_place() {
    let folder = Folder::new();
    let trees = [hex(RECORDED_SERIALS), hex(FOUND_SERIALS)];
    let mut twice = 0;
    folder.put("t", hex(TABLE));
    // what begins with another byte is taken for text
    for (side, at) in [0, 1].iter().flat_map(|&side| (1..22).map(move |at| (side, at))) {
        let was = trees[side][at];
        for value in [was ^ 1, was ^ 5, 0x02, 0x07, 0xFF].into_iter().filter(|&value| value != was) {
            let mut changed = trees.clone();
            changed[side][at] = value;
            folder.put("r", &changed[0]);
            folder.put("f", &changed[1]);
            let item = item_of(&trees[side], at, value, [3, 8][side]);
            twice += usize::from(item > 24);
            let (out, err, status) = folder.run(&["match", "--plain", "t", "r", "f"]);
            let number = out.strip_prefix("refused ").map_or(0, |rest| rest.trim_end().parse().expect("a number"));
            assert_eq!((number, status), (item, i32::from(item > 0)), "{side} {at} {value}: {err}");
            let place = err.lines().nth(1).map_or(item == 0, |line| line.starts_with(["r: byte ", "f: byte "][side]));
            assert!(place, "{side} {at} {value}: {err}");
        }
    }
    assert!(twice > 0);
}

/// Where an earlier part is refused, the place is there, though a later one has not even the form of a tree.
#[test]
fn the_place_is_that_of_the_item_whatever_stands_behind_it() {
    let folder = Folder::new();
    let twice = RECORDED_SERIALS.replace("FF FF FF FF", "07 00 00 00");
    let message =
        "pensummer: refused 25: a known serial stands twice in the recorded tree\nb: byte 43: serial 7 stands at vertex 0 already\n";
    for found in [FOUND, "B1 01 01 B1 09 00", ""] {
        folder.put("b", hex(&format!("{TABLE} {twice} {found}")));
        assert_eq!(folder.run(&["match", "b"]), said("", message, 1), "{found}");
    }
    let label = RECORDED_SERIALS.replace("B1 07 01", "B1 07 02");
    folder.put("b", hex(&format!("{TABLE} {label} {FOUND} 00")));
    let message = "pensummer: refused 4: a vertex or edge label of the recorded tree is not in the table\n\
                   b: byte 40: vertex 1 has label 2, and labels are 0 to 1\n";
    assert_eq!(folder.run(&["match", "b"]), said("", message, 1));
    folder.put("b", hex(&format!("{} B1 01", TABLE.replace("05 00 00 00 FE", "05 00 00 01 FE"))));
    let message = "pensummer: refused 2: a weight of the table is out of range and not the forbidden number\n\
                   b: byte 6: a weight is -16000000 to 16000000 or `forbidden`, not 16777221\n";
    assert_eq!(folder.run(&["text", "b"]), said("", message, 1));
}

/// Small plant 3 as the rule has it: vertex 0 goes with found vertex 1, vertex 1 with found vertex 0.
#[test]
fn pairs_of_equal_and_of_unknown_serials_weigh_what_the_table_says() {
    for (recorded, found) in [
        ("serials 7 8\n", "serials 8 7\n"),
        ("serials 0 0\n", "serials 0 0\n"),
        ("serials 7 8\n", "serials 0 7\n"),
        ("serials 0 8\n", "serials 8 7\n"),
        ("serials 7 8\n", ""),
        ("", "serials 9 10\n"),
    ] {
        assert_eq!(out(&three(recorded, found), &["match", "--plain"]), THREE_PLAIN, "{recorded}{found}");
    }
}

#[test]
fn a_pair_of_serials_that_differ_is_forbidden_whatever_the_table_says() {
    // recorded vertex 1 with found vertex 0 is forbidden, and what is left are the two of label 0
    assert_eq!(out(&three("serials 7 8\n", "serials 9 7\n"), &["match", "--plain"]), "weight 5\n0 1\n1 -\n");
    // nothing is left of equal labels, and the others weigh less than nothing
    assert_eq!(out(&three("serials 7 8\n", "serials 9 10\n"), &["match", "--plain"]), "weight 0\n0 -\n1 -\n");
    assert_eq!(out(&three("serials 4294967295 1\n", "serials 1 4294967294\n"), &["match", "--plain"]), "weight 3\n0 -\n1 0\n");
    // equal serials do not allow what the table forbids
    let forbidden = NINE.replace("vertex 5", "vertex forbidden").replace("recorded 0\n", "recorded 0\nserials 7\n") + "serials 7\n";
    assert_eq!(out(&forbidden, &["match", "--plain"]), "weight 0\n0 -\n");
}

const EXAMPLE_MATCH: &str = "\
weight 102: 5 kept, 0 changed, 1 gone, 1 new; all certain

kept     recorded 0 M1 (circulation pump) is found 1 M1 (circulation pump, serial 1188)
kept     recorded 1 F1 (filter) is found 0 F1 (filter)
kept     recorded 2 C1 (chlorine pump, serial 70411) is found 3 C1 (chlorine pump, serial 70411)
gone     recorded 3 A1 (acid pump, serial 70412); THE SAME NAME stands at found 2 A1 (acid pump, serial 80007)
kept     recorded 4 pH (probe) is found 5 pH (probe)
kept     recorded 5 Redox (probe) is found 4 Redox (probe)
new      found 2 A1 (acid pump, serial 80007), joined to 0 F1 (filter) by pipe
";

const EXAMPLE_LISTING: &str = "\
weight 102: vertex pairs 5, weighing 90; edge pairs 4, weighing 12

recorded       label               serial  edge           partner  label               serial  weight
0 M1           0 circulation pump                         1 M1     0 circulation pump  1188    20
  1 F1         1 filter                    0 pipe         0 F1     1 filter                    20 + 3
    2 C1       2 chlorine pump     70411   0 pipe         3 C1     2 chlorine pump     70411   30 + 3
      5 Redox  4 probe                     1 signal line  4 Redox  4 probe                     10 + 3
    3 A1       3 acid pump         70412   0 pipe         -
    4 pH       4 probe                     1 signal line  5 pH     4 probe                     10 + 3

found without a partner
2 A1  label 3 acid pump, serial 80007, joined to 0 F1 (edge label 0 pipe)
";

#[test]
fn in_the_example_the_pump_that_was_replaced_has_no_partner() {
    assert_eq!(out(&serials(), &["match"]), EXAMPLE_MATCH);
    assert_eq!(out(&serials(), &["listing"]), EXAMPLE_LISTING);
}

/// The text without its lines of serials.
fn without_serials(text: &str) -> String {
    text.split_inclusive('\n').filter(|line| !line.starts_with("serials")).collect()
}

#[test]
fn in_the_example_without_serials_the_pumps_are_a_pair() {
    let text = out(&without_serials(&serials()), &["match"]);
    assert!(text.starts_with("weight 135: 6 kept, 0 changed, 0 gone, 0 new; all certain\n"), "{text}");
    assert!(text.contains("kept     recorded 3 A1 (acid pump) is found 2 A1 (acid pump)\n"), "{text}");
}

#[test]
fn a_vertex_without_a_name_has_its_serial_behind_its_label() {
    let expected = "\
weight 9: 2 kept, 0 changed, 0 gone, 0 new; all certain

kept     recorded 0 label 0 (serial 7) is found 1 label 0
kept     recorded 1 label 1 is found 0 label 1 (serial 4294967295)
";
    assert_eq!(out(&three("serials 0=7\n", "serials 0=4294967295\n"), &["match"]), expected);
    let expected = "\
weight 9: vertex pairs 2, weighing 8; edge pairs 1, weighing 1

recorded  label  serial  edge  partner  label  serial      weight
0         0      7             1        0                  5
  1       1              0     0        1      4294967295  3 + 1

every found vertex has a partner
";
    assert_eq!(out(&three("serials 0=7\n", "serials 0=4294967295\n"), &["listing"]), expected);
}

/// Of each vertex of a side what a key holds.
fn all(report: &Value, side: &str, key: &str) -> Vec<Value> {
    report.at(side).list().iter().map(|vertex| vertex.at(key).clone()).collect()
}

#[test]
fn json_has_the_serials_that_are_known() {
    let json = report(&out(&three("serials 0=7\n", "serials 0=4294967295\n"), &["match", "--json"]));
    assert_eq!(all(&json, "recorded", "serial"), [Value::Number(7), Value::Null]);
    assert_eq!(all(&json, "found", "serial"), [Value::Number(4_294_967_295), Value::Null]);
    let json = report(&out(&serials(), &["listing", "--json"]));
    let known = |numbers: [i64; 6]| numbers.map(|number| if number == 0 { Value::Null } else { Value::Number(number) });
    assert_eq!(all(&json, "recorded", "serial"), known([0, 0, 70411, 70412, 0, 0]));
    assert_eq!(all(&json, "found", "serial"), known([0, 1188, 80007, 70411, 0, 0]));
    assert_eq!(all(&json, "recorded", "partner")[3], Value::Null);
}

#[test]
fn the_picture_has_the_serials_that_are_known() {
    let svg = out(&serials(), &["picture"]);
    assert!(svg.contains(">C1: chlorine pump (2), serial 70411</text>"), "{svg}");
    assert!(svg.contains("<title>recorded vertex 3, A1: acid pump (3), serial 70412, no partner</title>"), "{svg}");
    assert!(svg.contains("<title>found vertex 1, M1: circulation pump (0), serial 1188, partner 0</title>"), "{svg}");
    assert!(svg.contains(">F1: filter (1)</text>"), "{svg}");
    // in the text and in the title of each of the five
    assert_eq!(svg.matches("serial").count(), 2 * 5, "{svg}");
}

/// Where no serial is known all is as it is without.
#[test]
fn serials_that_are_all_unknown_are_not_shown() {
    for (name, text) in examples() {
        let without = without_serials(&text);
        let lines = without.split_inclusive('\n').map(|line| match line.split([' ', '\n']).next() {
            Some("recorded" | "found") => format!("{line}serials 0=0\n"),
            _ => line.to_owned(),
        });
        let plant: String = lines.collect();
        for arguments in [&["match"][..], &["listing"], &["picture"], &["match", "--json"], &["match", "--plain"], &["sizes"]] {
            assert_eq!(out(&plant, arguments), out(&without, arguments), "{name}: {arguments:?}");
        }
        assert!(bytes(&plant).len() > bytes(&without).len(), "{name}");
    }
}

#[test]
fn an_answer_with_a_pair_of_serials_that_differ_is_not_accepted_and_says_so() {
    let folder = Folder::with(&[("p", &serials()), ("a", "weight 135\n0 1\n1 0\n2 3\n3 2\n4 5\n5 4\n")]);
    let message = "a:5:1: recorded 3 with found 2 is forbidden: their serials, 70412 and 80007, differ\n";
    for name in ["match", "listing", "picture"] {
        assert_eq!(folder.run(&[name, "p", "--answer", "a"]), said("", message, 1), "{name}");
    }
    folder.put("a", "weight 102\n0 1\n1 0\n2 3\n3 -\n4 5\n5 4\n");
    assert_eq!(folder.run(&["match", "p", "--answer", "a"]), said(EXAMPLE_MATCH, "", 0));
    // what the table forbids is said as ever
    folder.put("a", "weight 0\n0 0\n1 -\n2 -\n3 -\n4 -\n5 -\n");
    assert_eq!(folder.run(&["match", "p", "--answer", "a"]), said("", "a:2:1: recorded 0 with found 0 is forbidden\n", 1));
}

/// A pump with two probes that are alike but for their serials.
const PROBES: &str = "labels 2 1\nvertex-names pump, probe\nvertex-default forbidden\nvertex-pair pump pump 5\nvertex-pair probe probe 3\n\
                      edge-default 1\nrecorded P=pump A=probe B=probe\nP-A P-B\n";

fn probes(recorded: &str, found: &str) -> Value {
    report(&out(&format!("{PROBES}{recorded}found Q=pump X=probe Y=probe\nQ-X Q-Y\n{found}"), &["match", "--json"]))
}

#[test]
fn serials_make_certain_what_labels_do_not() {
    let sure = (Value::Bool(true), Value::Null);
    let otherwise = |partner: i64| (Value::Bool(false), Value::Number(partner));
    let json = probes("", "");
    assert_eq!(certain(&json, "recorded"), [sure.clone(), otherwise(2), otherwise(1)]);
    for (recorded, found) in
        [("serials A=1 B=2\n", "serials X=2 Y=1\n"), ("serials A=1\n", "serials X=2 Y=1\n"), ("serials A=1 B=2\n", "serials X=2\n")]
    {
        let json = probes(recorded, found);
        assert_eq!(certain(&json, "recorded"), [sure.clone(), sure.clone(), sure.clone()], "{recorded}{found}");
        assert_eq!(certain(&json, "found"), [sure.clone(), sure.clone(), sure.clone()], "{recorded}{found}");
        assert_eq!(all(&json, "recorded", "partner"), [0, 2, 1].map(Value::Number), "{recorded}{found}");
    }
    // one serial alone tells nothing
    let json = probes("serials A=1\n", "");
    assert_eq!(certain(&json, "recorded"), [sure.clone(), otherwise(2), otherwise(1)]);
    // two that are known and no one's: the probes are gone and new, certainly
    let json = probes("serials A=1 B=2\n", "serials X=3 Y=4\n");
    assert_eq!(*json.at("weight"), Value::Number(5));
    assert_eq!(certain(&json, "recorded"), [sure.clone(), sure.clone(), sure.clone()]);
    assert_eq!(certain(&json, "found"), [sure.clone(), sure.clone(), sure]);
}

/// A weight at its limit is in the way of a question only where a pair could weigh it.
#[test]
fn a_weight_at_its_limit_is_known_not_to_count_where_serials_differ() {
    let plant = "labels 3 1\nvertex-default forbidden\nvertex-pair 0 0 5\nvertex-pair 1 1 16000000\nedge 1\n\
                 recorded 1 0 2 1\nserials 7 0 0 8\n0-1 1-2 2-3\nfound 1 0\nserials 7 0\n0-1\n";
    let sure = (Value::Bool(true), Value::Null);
    let json = report(&out(plant, &["match", "--json"]));
    assert_eq!(certain(&json, "recorded"), [sure.clone(), sure.clone(), sure.clone(), sure.clone()]);
    let json = report(&out(&without_serials(plant), &["match", "--json"]));
    assert_eq!(certain(&json, "recorded"), [sure.clone(), sure.clone(), sure, (Value::Null, Value::Null)]);
}

#[test]
fn certificates_of_plants_with_serials_are_written_checked_and_shown() {
    let folder = Folder::with(&[("p", &serials()), ("w", &without_serials(&serials()))]);
    assert_eq!(folder.run(&["write", "p", "-o", "c"]), said("written 1498\n", "", 0));
    assert_eq!(folder.run(&["check", "p", "c"]), said("accepted\n", "", 0));
    let (shown, _, status) = folder.run(&["show", "p", "c"]);
    assert_eq!(status, 0);
    assert!(shown.contains(
        "\n2 C1      chlorine pump, serial 70411  3 C1     chlorine pump, serial 70411\n3 A1      acid pump, serial 70412      -\n"
    ));
    let pair = shown.lines().find(|line| line.contains("  3 A1        2 A1  ")).expect("the pair of the pumps");
    assert!(pair.contains("  forbidden  forbidden  "), "{pair}");
    // a certificate that pairs the pumps is of the plant without serials
    assert_eq!(folder.run(&["write", "w", "-o", "d"]), said("written 1498\n", "", 0));
    assert_eq!(folder.run(&["check", "w", "d"]), said("accepted\n", "", 0));
    let verdict = "refused 21: the certificate's mapping breaks a rule\n";
    let reason = "recorded 3 A1 has the partner found 2 A1; their serials, 70412 and 80007, differ, so that the pair is forbidden";
    assert_eq!(folder.run(&["check", "p", "d"]), said(verdict, format!("d: byte 19: {reason}\n"), 1));
    let verdict = "refused 23: a subproblem record of the certificate breaks a rule\n";
    let (out, err, status) = folder.run(&["check", "w", "c"]);
    assert_eq!((out.as_str(), status), (verdict, 1), "{err}");
}

#[test]
fn a_certificate_may_be_checked_against_the_bytes_of_a_plant_with_serials() {
    let folder = Folder::with(&[("p", &serials())]);
    assert_eq!(folder.run(&["plant", "p", "--split", "x"]), said("", "", 0));
    assert_eq!(folder.run(&["write", "x.table", "x.recorded", "x.found", "-o", "c"]), said("written 1498\n", "", 0));
    folder.put("b", [folder.get("x.table"), folder.get("x.recorded"), folder.get("x.found")].concat());
    for plant in [&["p"][..], &["b"], &["x.table", "x.recorded", "x.found"]] {
        assert_eq!(folder.run(&[&["check"], plant, &["c"]].concat()), said("accepted\n", "", 0), "{plant:?}");
    }
}
