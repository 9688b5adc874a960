//! The text form of plants: random texts in every form that it has, damaged ones, and the old grammar beside the new one; and whole answers
//! of the plants that were read. What is expected comes from the plant that a text was written from, from the old tool's rules, and from
//! going through all mappings.
#[path = "text/damage.rs"]
mod damage;
#[path = "text/forms.rs"]
mod forms;
#[path = "text/judge.rs"]
mod judge;
#[path = "text/made.rs"]
mod made;
#[path = "text/old.rs"]
mod old;
#[path = "text/serials.rs"]
mod serials;
#[path = "text/whole.rs"]
mod whole;
#[path = "text/write.rs"]
mod write;

use damage::{damage, long_texts, random_bytes, salad};
use desk::answer::{Answer, Wrong};
use desk::bytes::Bytes;
use desk::input::Input;
use desk::plant::{At, Fault, Plant, Tree};
use desk::report::Report;
use desk::text::{read, Text};
use judge::{files, judge_fault, judge_names, judge_places, judge_print, shown};
use made::{Made, Size};
use pensummer_tests::mapping;
use pensummer_tests::random::Random;
use pensummer_tests::reading::Inputs;
use serials::Judged;
use std::collections::BTreeSet;
use std::panic::{catch_unwind, AssertUnwindSafe};
use std::time::{Duration, Instant};

/// The last three have what the old grammar had not.
const EXAMPLES: [&str; 6] = [
    include_str!("../../../examples/cellar.txt"),
    include_str!("../../../examples/pool.txt"),
    include_str!("../../../examples/small_plant_3.txt"),
    include_str!("../../../examples/named.txt"),
    include_str!("../../../examples/serials.txt"),
    include_str!("../../../examples/flow.txt"),
];

/// No input is longer.
const INPUT_MOST: usize = 1 << 20;

fn inputs(bytes: &Bytes) -> Inputs {
    Inputs { table: bytes.table.clone(), recorded: bytes.recorded.clone(), found: bytes.found.clone() }
}

/// The plant of texts that hold one.
fn plant_of(texts: &[Text]) -> Plant {
    read(texts).unwrap_or_else(|fault| panic!("{fault}{}", shown(texts)))
}

/// A random size of a plant that text can say.
fn size(random: &mut Random) -> Size {
    match random.below(20) {
        0 => Size::Accepted,
        1..=8 => Size::Small(7),
        _ => Size::Any,
    }
}

#[test]
fn every_form_gives_its_bytes_and_names() {
    let mut random = Random::of_test("every_form_gives_its_bytes_and_names");
    let (mut by_files, mut parted, mut kinds) = ([0; 3], 0, [0; 4]);
    for _ in 0..6000 {
        let size = size(&mut random);
        let made = Made::any(&mut random, size, false);
        let texts = files(&made.texts(&mut random));
        let plant = plant_of(&texts);
        assert_eq!(inputs(&Bytes::from(&plant)), made.inputs(), "{}", shown(&texts));
        assert_eq!((&plant.table.vertex.names, &plant.table.edge.names), (&made.vertex.names, &made.edge.names), "{}", shown(&texts));
        let names = |tree: &Tree| tree.vertices.iter().map(|vertex| vertex.name.clone()).collect::<Vec<_>>();
        assert_eq!(names(&plant.recorded), made.trees[0].names, "{}", shown(&texts));
        assert_eq!(names(&plant.found), made.trees[1].names, "{}", shown(&texts));
        let serials = [&plant.recorded, &plant.found].map(judge::serials);
        assert_eq!(serials, [made.trees[0].serials.clone(), made.trees[1].serials.clone()], "{}", shown(&texts));
        kinds[usize::from(serials[0].is_some()) + 2 * usize::from(serials[1].is_some())] += 1;
        judge_places(&texts, &plant);
        parted += usize::from(judge_print(&texts, &plant));
        by_files[texts.len() - 1] += 1;
    }
    println!("texts in 1, 2 and 3 files: {by_files:?}; bytes parted and read again: {parted}");
    println!("with serials in no tree, in the recorded one, in the found one, in both: {kinds:?}");
    assert!(by_files.iter().all(|&count| count > 1000) && parted > 1000 && kinds.iter().all(|&count| count > 600));
}

/// In a tree, the words of a line of names are an edge of two vertices with these names, or a fault; what stands behind is not lost.
#[test]
fn no_word_of_a_tree_is_lost() {
    for word in ["vertex-names", "edge-names"] {
        for tree in [
            format!("recorded vertex=0 edge=0 names=0\n{word} 0-1\nfound 0\n"),
            format!("recorded 0\nfound vertex=0 edge=0 names=0\n{word} 0-1\n"),
        ] {
            let texts = files(&[format!("labels 1 1\nvertex 5\nedge 3\n{tree}").into_bytes()]);
            match read(&texts) {
                Ok(plant) => assert_eq!(plant.recorded.edges.len() + plant.found.edges.len(), 2, "an edge is lost{}", shown(&texts)),
                Err(fault) => judge_fault(&texts, &fault),
            }
        }
    }
}

/// Lines that are at fault in a table or in a recorded tree of two vertices `a` and 1, the column of the fault, and words of its reason.
const WRONG_IN_TABLE: [(&str, usize, &str); 15] = [
    ("labels 1 1", 1, "stands once"),
    ("  vertex 1 2", 12, "2 weights"),
    ("vertex 1.5", 8, "a weight is"),
    ("vertex 2147483648", 8, "a weight is"),
    ("vertex\u{7f} 1", 7, "control"),
    ("vertex-names a,", 16, "name 2 is empty"),
    ("vertex-names a, b", 1, "2 names"),
    ("vertex-names a\0", 15, "control"),
    ("vertex-names a\nvertex-names a", 1, "stands once"),
    ("vertex 1\nvertex-equal 1", 1, "rows"),
    ("vertex-equal 1\nvertex 1", 1, "shortly"),
    ("vertex-default 1 2", 1, "one weight"),
    ("vertex-pair 0 0", 1, "a found label and a weight"),
    ("found 0", 1, "after the recorded tree"),
    ("  serials 0", 3, "stands in a tree"),
];
const WRONG_IN_TREE: [(&str, usize, &str); 42] = [
    ("0", 1, "an edge is"),
    ("0<1:4", 1, "an edge is"),
    ("0-1:4", 2, "label 4, as all from 4 to 7, has a direction"),
    ("\"a\"-1:7", 4, "label 7, as all from 4 to 7, has a direction"),
    ("0>1:3", 2, "label 3, as all from 0 to 3, has no direction"),
    ("0-1 a>1", 6, "label 0, as all from 0 to 3, has no direction"),
    ("0-1 0> 1:4", 5, "no blanks"),
    ("0>a>1:4", 1, "an edge is"),
    ("ä-1 0-", 5, "no blanks"),
    ("0-1:", 1, "no blanks"),
    ("0-256", 3, "0 to 255"),
    ("0-1:256", 5, "0 to 255"),
    ("\"a\"-b", 5, "is named `b`"),
    (" \"a-1", 2, "not closed"),
    ("\"a\"1-1", 4, "in quotes"),
    ("a=0", 1, "already"),
    ("12=0", 1, "no number"),
    ("b=c", 3, "no vertex label"),
    ("b=0=0", 1, "a vertex is"),
    ("\"  \"=0", 1, "missing"),
    ("vertex 1", 1, "an edge is"),
    ("serials", 1, "has a number for each vertex"),
    ("serials 1 2\n\tserials", 2, "has a number for each vertex"),
    ("serials 4294967296 0", 9, "a serial is a number from 0 to 4294967295, not `4294967296`"),
    ("serials 0 -1", 11, "a serial is a number from 0 to 4294967295, not `-1`"),
    ("serials 0  x", 12, "a serial is a number"),
    ("serials 0 \"1\"", 11, "a serial is a number"),
    ("serials a=4294967296", 11, "a serial is a number from 0 to 4294967295, not `4294967296`"),
    ("serials \"a\"=-1", 13, "a serial is a number from 0 to 4294967295, not `-1`"),
    ("serials 1=0 a=", 13, "no blanks"),
    ("serials 1", 1, "2 vertices and 1 serial;"),
    ("serials 1 2 3", 13, "one too many; the tree has 2 vertices"),
    ("serials 1\nserials 2\nserials 3", 9, "one too many; the tree has 2 vertices"),
    ("serials ä=0", 9, "is named `ä`"),
    ("serials A=0", 9, "is named `A`; there is `a`"),
    ("serials 2=0", 9, "no vertex 2"),
    ("serials 256=0", 9, "0 to 255"),
    ("serials a=0 0=0", 13, "vertex 0 has its serial already"),
    ("serials 0 a=0", 11, "do not mix"),
    ("serials a=0 0", 13, "do not mix"),
    ("serials 1=0\nserials 5 6", 9, "do not mix"),
    ("0-1 serials 1 2", 5, "an edge is"),
];

#[test]
fn wrong_lines_have_their_place() {
    let whole = "labels 1 1\nvertex 5\nedge 3\nrecorded a=0 0\n";
    let all = WRONG_IN_TABLE.iter().map(|&wrong| ("labels 1 1\n", wrong)).chain(WRONG_IN_TREE.iter().map(|&wrong| (whole, wrong)));
    for (before, (wrong, column, words)) in all {
        let begin = format!("{before}{wrong}");
        let rest = if before == whole { "0-1\nfound 0\n" } else { "edge 3\nrecorded 0\nfound 0\n" };
        let texts = files(&[format!("{begin}\n{rest}").into_bytes()]);
        let fault = read(&texts).expect_err(wrong);
        assert_eq!(fault.place.at, At::Line { line: begin.split('\n').count(), column }, "{fault}{}", shown(&texts));
        assert!(fault.reason.contains(words), "{fault}{}", shown(&texts));
    }
}

/// Texts that may be anything.
fn any_texts(random: &mut Random) -> Vec<Vec<u8>> {
    let mut texts = match random.below(12) {
        0 => return (0..1 + random.below(3)).map(|_| random_bytes(random)).collect(),
        1 | 2 => return (0..1 + random.below(2) * random.below(3)).map(|_| salad(random)).collect(),
        3 => vec![random.pick(&EXAMPLES).as_bytes().to_vec()],
        _ => {
            let size = if random.once_in(8) { Size::Any } else { Size::Small(5) };
            Made::any(random, size, false).texts(random)
        }
    };
    for _ in 0..*random.pick(&[1, 1, 1, 2, 3]) {
        let at = random.below(texts.len());
        damage(&mut texts[at], random);
    }
    if random.once_in(50) {
        texts.swap_remove(random.below(texts.len().min(2)));
        texts.resize(texts.len().max(1), Vec::new());
    }
    texts
}

/// A reason without what it quotes.
fn kind_of(reason: &str) -> String {
    let outside: String = reason.split('`').step_by(2).collect();
    outside.chars().filter(|c| !c.is_ascii_digit()).take(30).collect()
}

#[test]
fn damaged_texts_are_read_or_have_a_place() {
    let mut random = Random::of_test("damaged_texts_are_read_or_have_a_place");
    let (mut read_well, mut faults, mut kinds) = (0, 0, BTreeSet::new());
    for _ in 0..60_000 {
        let texts = files(&any_texts(&mut random));
        let result = catch_unwind(AssertUnwindSafe(|| read(&texts)));
        match result.unwrap_or_else(|_| panic!("the reader panics{}", shown(&texts))) {
            Ok(plant) => {
                read_well += 1;
                judge_places(&texts, &plant);
                judge_names(&texts, &plant);
                judge_print(&texts, &plant);
            }
            Err(fault) => {
                faults += 1;
                judge_fault(&texts, &fault);
                kinds.insert(kind_of(&fault.reason));
            }
        }
    }
    println!("read: {read_well}; at fault: {faults}, with {} kinds of reasons", kinds.len());
    assert!(read_well > 4000 && faults > 20_000 && kinds.len() > 40, "{kinds:#?}");
}

#[test]
fn long_texts_are_read_in_time() {
    let texts = long_texts(INPUT_MOST);
    for (what, bytes) in &texts {
        assert!(bytes.len() > INPUT_MOST - 20_000 && bytes.len() <= INPUT_MOST, "{what}: {}", bytes.len());
        let texts = [Text { file: "long".into(), bytes: bytes.clone() }];
        let began = Instant::now();
        let result = read(&texts);
        let took = began.elapsed();
        assert!(took < Duration::from_secs(5), "{what}: {took:?}");
        match result {
            Ok(_) => panic!("{what}: no plant is that long"),
            Err(fault) => assert!(judge::Lines::of(&texts).at(&fault.place).is_some(), "{what}: {}", fault.place),
        }
        println!("{what}: {} ms", took.as_millis());
    }
    println!("{} texts of 1 MiB", texts.len());
}

/// What the old tool let stand in names against its own words: a NUL, and bytes that are no UTF-8.
fn is_let_stand(text: &[u8]) -> bool {
    text.split(|&b| b == b'\n').any(|line| {
        let line = line.split(|&b| b == b'#').next().unwrap_or(line);
        let first = line.split(|b| b" \t".contains(b)).find(|word| !word.is_empty()).unwrap_or_default();
        first.ends_with(b"-names") && (line.contains(&0) || std::str::from_utf8(line).is_err())
    })
}

#[test]
fn what_the_old_grammar_takes_is_taken() {
    let mut random = Random::of_test("what_the_old_grammar_takes_is_taken");
    let (mut whole, mut damaged, mut refused, mut let_stand, mut directed) = (0, 0, 0, 0, 0);
    for _ in 0..40_000 {
        let text = old_text(&mut random);
        let old = match old::old(&text.0) {
            Some(old) => old,
            None => {
                assert!(text.1, "a whole text:{}", shown(&files(&[text.0])));
                refused += 1;
                continue;
            }
        };
        if is_let_stand(&text.0) {
            let_stand += 1;
            continue;
        }
        let texts = files(&[text.0]);
        if old.directed {
            // its order of ends would mean something that it did not mean
            let fault = read(&texts).expect_err("an edge has no direction");
            assert!(fault.reason.contains("has a direction"), "{fault}{}", shown(&texts));
            directed += 1;
            continue;
        }
        *(if text.1 { &mut damaged } else { &mut whole }) += 1;
        assert_eq!(Bytes::from(&plant_of(&texts)).joined(), old.bytes, "{}", shown(&texts));
    }
    println!(
        "taken: {whole} whole, {damaged} damaged; refused by the old one: {refused}; let stand by it: {let_stand}; directed: {directed}"
    );
    assert!(whole > 4000 && damaged > 4000 && refused > 4000 && directed > 1000);
}

/// A text of the old grammar, and whether it is damaged.
fn old_text(random: &mut Random) -> (Vec<u8>, bool) {
    let size = if random.once_in(4) { Size::Any } else { Size::Small(4) };
    let mut text = match random.below(12) {
        0 => random.pick(&EXAMPLES[..3]).as_bytes().to_vec(),
        _ => Made::any(random, size, true).texts(random).remove(0),
    };
    let damages = *random.pick(&[0, 1, 1, 1, 2, 3]);
    for _ in 0..damages {
        damage(&mut text, random);
    }
    if random.once_in(400) {
        return (b"labels 0 0\nvertex-names\nedge-names\nrecorded\nfound\n".to_vec(), false);
    }
    (text, damages > 0)
}

#[test]
fn refused_plants_have_a_place() {
    let mut random = Random::of_test("refused_plants_have_a_place");
    let mut items = [0; 27];
    for _ in 0..20_000 {
        let size = *random.pick(&[Size::Small(7), Size::Any, Size::Wrong, Size::Wrong]);
        let made = Made::any(&mut random, size, false);
        let texts = files(&made.texts(&mut random));
        let input = Input::of(plant_of(&texts));
        let expected = Judged::read(&made).map(|_| ());
        let got = input.accepted();
        let item = got.as_ref().err().map(|refused| refused.refusal.number());
        assert_eq!(item, expected.err(), "{}", shown(&texts));
        items[item.unwrap_or(0) as usize] += 1;
        if let Err(refused) = got {
            let fault = refused.fault.as_ref().unwrap_or_else(|| panic!("item {item:?} has no place{}", shown(&texts)));
            judge_fault(&texts, fault);
            if item >= Some(25) {
                judge_twice(&texts, fault, &made.trees[usize::from(item == Some(26))]);
            }
            let json = Report { command: "match", refusal: Some(&refused), ..Report::default() }.json();
            assert!(forms::json_texts(&json).contains(&fault.reason), "{json}");
        }
    }
    println!("accepted: {}; refused by the items 1 to 12: {:?}; by 25 and 26: {:?}", items[0], &items[1..13], &items[25..]);
    assert!(items[..13].iter().chain(&items[25..]).all(|&count| count > 4), "{items:?}");
}

/// The fault of a serial that stands twice is where it stands, and its reason names an earlier vertex that has it.
fn judge_twice(texts: &[Text], fault: &Fault, tree: &made::Tree) {
    let serials = tree.serials.as_ref().expect("serials");
    let lines = judge::Lines::of(texts);
    let there: String = lines.at(&fault.place).expect("a place").iter().take_while(|c| c.is_ascii_digit()).collect();
    let serial: u32 = there.parse().expect("a serial");
    let earlier = serials.iter().position(|&other| other == serial).expect("the first one");
    let vertex = tree.names[earlier].as_ref().map_or(String::new(), |name| format!(" {}", words(name)));
    assert_eq!(fault.reason, format!("serial {serial} stands at vertex {earlier}{vertex} already"), "{}", shown(texts));
    assert!(serial != 0 && serials.iter().filter(|&&other| other == serial).count() > 1, "{fault}{}", shown(texts));
}

/// A name as a message has it: what steers a terminal is made visible.
fn words(name: &str) -> String {
    name.chars().map(|c| if c == '\u{202e}' { char::REPLACEMENT_CHARACTER } else { c }).collect()
}

/// All that is printed of an answer has its form.
fn judge_printed(texts: &[Text], plant: &Plant, bytes: &Bytes, answer: &Answer) {
    let said = desk::say::say(answer);
    let new = answer.back.iter().filter(|partner| partner.is_none()).count();
    assert_eq!(said.lines().count(), 2 + plant.recorded.size() + new, "{said}{}", shown(texts));
    let listed = desk::listing::listing(answer);
    assert!(listed.lines().count() >= 4 + plant.recorded.size() + new.max(1), "{listed}{}", shown(texts));
    let json = forms::json_texts(&Report { command: "match", answer: Some(answer), ..Report::default() }.json());
    for vertex in plant.recorded.vertices.iter().chain(&plant.found.vertices) {
        let name = &vertex.name;
        assert!(
            name.iter().chain(plant.table.vertex.names.get(usize::from(vertex.label))).all(|name| json.contains(name)),
            "{name:?}: {json:?}"
        );
    }
    forms::judge_xml(&desk::picture::picture(answer, "a <title> & \"more\""));
    judge_serials(plant, answer);
    let plain = desk::say::plain(answer);
    match Answer::read(plant, bytes, &Text { file: "plain".into(), bytes: plain.clone().into_bytes() }) {
        Ok(again) => assert_eq!(&again, answer),
        Err(_) => panic!("{plain} is not read{}", shown(texts)),
    }
}

/// Every known serial is said, listed, drawn and reported, and no unknown one is reported.
fn judge_serials(plant: &Plant, answer: &Answer) {
    let json = Report { command: "match", answer: Some(answer), ..Report::default() }.json();
    let all = [&plant.recorded, &plant.found].map(|tree| judge::serials(tree).unwrap_or_else(|| vec![0; tree.size()])).concat();
    let [said, listed, drawn] = [desk::say::say(answer), desk::listing::listing(answer), desk::picture::picture(answer, "plant")];
    for serial in all.iter().filter(|&&serial| serial != 0) {
        assert!(said.contains(&format!("serial {serial})")), "{serial}: {said}");
        assert!(listed.split([' ', ',', '\n']).any(|word| word == serial.to_string()), "{serial}: {listed}");
        let number = |text: &str| text.chars().take_while(char::is_ascii_digit).collect::<String>();
        assert!(drawn.split(", serial ").skip(1).any(|rest| number(rest) == serial.to_string()), "{serial}: {drawn}");
        assert!(json.contains(&format!(",\"serial\":{serial},")), "{serial}: {json}");
    }
    let unknown = all.iter().filter(|&&serial| serial == 0).count();
    assert_eq!(json.matches(",\"serial\":null,").count(), unknown, "{json}");
}

/// A damaged answer is a heaviest mapping too, or it has a line that is at fault. Gives how many were.
fn judge_damaged(bytes: &Bytes, answer: &Answer, judged: &Judged, random: &mut Random) -> usize {
    let mut accepted = 0;
    for _ in 0..5 {
        let mut text = desk::say::plain(answer).into_bytes();
        (0..1 + random.below(2)).for_each(|_| damage(&mut text, random));
        let texts = files(&[text]);
        match Answer::read(answer.plant, bytes, &texts[0]) {
            Ok(other) => {
                let mapping: Vec<u8> = other.partner.iter().map(|v| v.map_or(mapping::NONE, |v| v as u8)).collect();
                assert!(judged.is_mapping(&mapping), "{mapping:?}{}", shown(&texts));
                assert_eq!((other.weight, judged.weight(&mapping)), (answer.weight, answer.weight), "{}", shown(&texts));
                accepted += 1;
            }
            Err(Wrong::Malformed(fault) | Wrong::NotAccepted(fault)) => judge_fault(&texts, &fault),
            Err(Wrong::Refused(refusal)) => panic!("{refusal}{}", shown(&texts)),
        }
    }
    accepted
}

#[test]
fn certain_is_what_all_heaviest_mappings_say() {
    let mut random = Random::of_test("certain_is_what_all_heaviest_mappings_say");
    let (mut counts, mut damaged, mut by_serials, mut directed) = (whole::Said::default(), 0, 0, 0);
    for _ in 0..1200 {
        let made = Made::any(&mut random, Size::Small(5), false);
        let texts = files(&made.texts(&mut random));
        let input = Input::of(plant_of(&texts));
        let plant = input.accepted().unwrap_or_else(|refused| panic!("{}{}", refused.refusal, shown(&texts)));
        let answer = Answer::found(plant, &input.bytes).unwrap_or_else(|refusal| panic!("{refusal}{}", shown(&texts)));
        let judged = Judged::read(&made).ok().expect("an accepted plant");
        by_serials += judged.forbidden_by_serials();
        directed += usize::from(made.trees.iter().all(|tree| tree.edges.iter().any(|edge| edge.2 > 3)));
        let right = catch_unwind(AssertUnwindSafe(|| whole::judge_certainty(&judged, &answer, &mut counts)));
        right.unwrap_or_else(|_| panic!("not so: {:?} {:?}{}", answer.certain, answer.found_certain, shown(&texts)));
        judge_printed(&texts, plant, &input.bytes, &answer);
        damaged += judge_damaged(&input.bytes, &answer, &judged, &mut random);
    }
    println!("damaged answers that are answers still: {damaged}");
    println!("1200 plants, of their vertices: {counts:?}; pairs that serials alone forbid: {by_serials}");
    println!("with directed edges in both trees: {directed}");
    assert!(counts.certain > 1000 && counts.another > 300 && counts.none > 100 && counts.unknown > 3, "{counts:?}");
    assert!(by_serials > 400 && directed > 80, "{by_serials} {directed}");
}

#[test]
fn answers_of_any_size_are_printed() {
    let mut random = Random::of_test("answers_of_any_size_are_printed");
    let mut counts = whole::Said::default();
    for _ in 0..6 {
        let made = Made::any(&mut random, Size::Accepted, false);
        let texts = files(&made.texts(&mut random));
        let input = Input::of(plant_of(&texts));
        let plant = input.accepted().unwrap_or_else(|refused| panic!("{}{}", refused.refusal, shown(&texts)));
        let answer = Answer::found(plant, &input.bytes).unwrap_or_else(|refusal| panic!("{refusal}{}", shown(&texts)));
        let judged = Judged::read(&made).ok().expect("an accepted plant");
        whole::judge_unknown(&judged, &answer, &mut counts);
        judge_printed(&texts, plant, &input.bytes, &answer);
    }
    println!("6 plants; vertices of which nothing is known: {}", counts.unknown);
}
