//! Certificates for people: what is read, the first rule that is broken, and the text; compared with the library over
//! damaged ones.
#[path = "certificate/damage.rs"]
mod damage;
#[path = "certificate/plants.rs"]
mod plants;

use damage::{put, Whole, DAMAGES};
use desk::certificate::{broken, read, show, Broken, Certificate, Record};
use desk::plant::Plant;
use plants::{named_plant, path, random_plant, small_plant_1, small_plant_8, table_p, tree, weights, with_serials, Bytes, Random, X};

/// The items of the rules, and words that only the reason of that rule has; the first that fits is meant.
const RULES: [(u32, &str); 20] = [
    (20, "where the mark"),
    (20, "the certificate says that the recorded tree"),
    (20, "the certificate says that the found tree"),
    (20, "bytes; that of these two trees has"),
    (21, "a partner is a found vertex"),
    (21, "have the same partner"),
    (21, "is forbidden: they run opposite ways"),
    (21, "is forbidden: one has a direction and the other has not"),
    (21, "the pair of their edges"),
    (21, "; the pair of "),
    (21, "; their serials, "),
    (21, "are joined, but their partners"),
    (21, "are not joined, but their partners"),
    (21, "are not connected"),
    (22, "the mapping weighs"),
    (23, "so its value is the forbidden number"),
    (23, "so its duals are 0"),
    (23, "duals are 0 or more"),
    (23, "their edge pair weighs"),
    (23, "and the duals add up to"),
];

/// How often a comparison ended with each rule; the last two are item 24 and an accepted certificate.
#[derive(Default)]
struct Tally([usize; RULES.len() + 2]);

impl Tally {
    fn count(&mut self, fault: &Option<Broken>) {
        let place = match fault {
            None => RULES.len() + 1,
            Some(fault) if fault.item == 24 => RULES.len(),
            Some(fault) => {
                RULES.iter().position(|(item, words)| *item == fault.item && fault.reason.contains(words)).expect("a rule is named")
            }
        };
        self.0[place] += 1;
    }

    fn total(&self) -> usize {
        self.0.iter().sum()
    }
}

/// What is broken, of bytes.
fn fault(plant: &Plant, bytes: &[u8]) -> Option<Broken> {
    match read(plant, bytes) {
        Ok(certificate) => broken(plant, &certificate),
        Err(fault) => Some(fault),
    }
}

/// Where a fault of each item may stand.
fn offset_fits(plant: &Plant, certificate: &Certificate, bytes: &[u8], fault: &Broken) -> bool {
    let front = 8 + 3 * plant.recorded.size();
    let in_record = |record: &Record| {
        let numbers = 1 + record.children.len() + record.neighbours.len();
        (0..numbers).any(|i| fault.offset == record.offset + 2 + 4 * i)
    };
    match fault.item {
        20 => fault.offset <= bytes.len(),
        21 => fault.offset < front && fault.offset % 3 == 10 % 3 && fault.offset > 8,
        22 | 24 => fault.offset == 4,
        _ => certificate.records.iter().any(in_record),
    }
}

/// The item, the offset and the reason fit the library's verdict.
fn compare(library: &Bytes, whole: &Whole, bytes: &[u8], tally: &mut Tally) {
    let fault = fault(whole.plant, bytes);
    let item = fault.as_ref().map_or(0, |fault| fault.item);
    assert_eq!(item, library.item(bytes), "{fault:?}\n{:?}\n{bytes:02X?}", whole.plant);
    if let Some(fault) = &fault {
        assert!(offset_fits(whole.plant, whole.certificate, bytes, fault), "{fault:?}");
    }
    tally.count(&fault);
}

/// What is read of a written certificate is what the library has; it breaks no rule. Gives its bytes.
fn written(plant: &Plant, library: &Bytes) -> (Vec<u8>, Certificate) {
    let (bytes, work) = library.written();
    let certificate = read(plant, &bytes).expect("the form is right");
    assert_eq!(certificate.weight, library.weight());
    let partners: Vec<u8> = (0..plant.recorded.size()).map(|u| bytes[8 + 3 * u + 2]).collect();
    assert_eq!(certificate.partners, partners);
    let values: Vec<i32> = certificate.records.iter().map(|record| record.value).collect();
    let count = plant.recorded.size() * (3 * plant.found.size() - 2);
    assert_eq!(values, work[..count]);
    assert_eq!(broken(plant, &certificate), None);
    assert_eq!(library.item(&bytes), 0);
    (bytes, certificate)
}

/// Writes the plant's certificate and compares so many damaged ones, some of them damaged twice; not those that damage
/// left as they were.
fn damaged(plant: &Plant, random: &mut Random, count: usize, tally: &mut Tally) {
    let library = Bytes::of(plant);
    let (bytes, certificate) = written(plant, &library);
    let whole = Whole { plant, certificate: &certificate, bytes: &bytes };
    for i in 0..count {
        let mut other = whole.bytes.to_vec();
        DAMAGES[i % DAMAGES.len()](&whole, random, &mut other);
        (0..random.below(3) / 2).for_each(|_| random.pick(&DAMAGES)(&whole, random, &mut other));
        if other != bytes {
            compare(&library, &whole, &other, tally);
        }
    }
}

#[test]
fn small_written_and_damaged() {
    let (mut random, mut tally) = (Random(1), Tally::default());
    for _ in 0..3_000 {
        let sizes = [1 + random.below(6), 1 + random.below(6)];
        let plant = random_plant(&mut random, sizes);
        damaged(&plant, &mut random, 8 * DAMAGES.len(), &mut tally);
    }
    println!("{} compared: {:?}", tally.total(), tally.0);
    assert!(tally.0.iter().all(|&count| count >= 100), "each rule is met often: {:?}", tally.0);
}

#[test]
fn large_written_and_damaged() {
    let (mut random, mut tally) = (Random(2), Tally::default());
    for sizes in [[64, 64], [64, 64], [64, 64], [64, 1], [1, 64], [64, 9], [31, 64]] {
        let plant = random_plant(&mut random, sizes);
        damaged(&plant, &mut random, 4 * DAMAGES.len(), &mut tally);
    }
    println!("{} compared: {:?}", tally.total(), tally.0);
}

/// Every byte of small certificates, changed in several ways. If the form is wrong then by that byte.
#[test]
fn every_byte() {
    let (mut random, mut tally) = (Random(3), Tally::default());
    for _ in 0..40 {
        let sizes = [1 + random.below(4), 1 + random.below(4)];
        let plant = random_plant(&mut random, sizes);
        let library = Bytes::of(&plant);
        let (bytes, certificate) = written(&plant, &library);
        let whole = Whole { plant: &plant, certificate: &certificate, bytes: &bytes };
        for (at, with) in (0..bytes.len()).flat_map(|at| [0x01, 0x02, 0x80, 0xFF].map(|with| (at, with))) {
            let mut other = bytes.clone();
            other[at] ^= with;
            compare(&library, &whole, &other, &mut tally);
            let form = fault(&plant, &other).filter(|fault| fault.item == 20);
            assert_eq!(form.map_or(at, |fault| fault.offset), at);
        }
    }
    println!("{} compared: {:?}", tally.total(), tally.0);
}

/// Every length of small certificates. One that is too short is wrong at its end, one that is too long where it should
/// end.
#[test]
fn every_length() {
    let mut random = Random(4);
    for _ in 0..20 {
        let sizes = [1 + random.below(4), 1 + random.below(4)];
        let plant = random_plant(&mut random, sizes);
        let library = Bytes::of(&plant);
        let (bytes, _) = written(&plant, &library);
        for length in (0..bytes.len() + 20).filter(|&length| length != bytes.len()) {
            let mut other = bytes.clone();
            other.resize(length, 0);
            let fault = fault(&plant, &other).expect("the length is wrong");
            assert_eq!((fault.item, fault.offset), (20, length.min(bytes.len())));
            assert_eq!(fault.reason, format!("the certificate has {length} bytes; that of these two trees has {}", bytes.len()));
            assert_eq!(library.item(&other), 20);
        }
    }
}

/// The bytes are refused by the item, at the offset, for the reason, and by the library by the same item.
fn refused(plant: &Plant, bytes: &[u8], item: u32, offset: usize, reason: &str) {
    assert_eq!(fault(plant, bytes), Some(Broken { item, offset, reason: reason.into() }));
    assert_eq!(Bytes::of(plant).item(bytes), item);
}

const SHEET_9: [u8; 17] = [0xC1, 1, 1, 1, 5, 0, 0, 0, 0xC1, 2, 0, 0xC1, 3, 5, 0, 0, 0];

/// The bytes with others from a place on.
fn with(bytes: &[u8], at: usize, others: &[u8]) -> Vec<u8> {
    let mut bytes = bytes.to_vec();
    bytes[at..at + others.len()].copy_from_slice(others);
    bytes
}

#[test]
fn small_plant_9() {
    let plant = small_plant_1();
    assert_eq!(fault(&plant, &SHEET_9), None);
    assert_eq!(Bytes::of(&plant).item(&SHEET_9), 0);
    assert_eq!(Bytes::of(&plant).written().0, SHEET_9);
    refused(&plant, &with(&SHEET_9, 4, &[6]), 22, 4, "the mapping weighs 5, the head says 6");
    let sum = "the record of recorded 0 with found 0 has the value 6; the pair weighs 5 and the duals add up to 0, together 5";
    refused(&plant, &with(&SHEET_9, 13, &[6]), 23, 13, sum);
    let largest = "the head says 0; the largest value with s = v is 5, that of recorded 0 with found 0";
    refused(&plant, &with(&with(&SHEET_9, 4, &[0]), 10, &[255]), 24, 4, largest);
}

#[test]
fn form() {
    let plant = small_plant_1();
    let mark = |at: usize, byte: u8, reason: &str| refused(&plant, &with(&SHEET_9, at, &[byte]), 20, at, reason);
    mark(0, 0xB1, "the byte is B1, where the mark C1 01 of the head has C1");
    mark(1, 0x0A, "the byte is 0A, where the mark C1 01 of the head has 01");
    mark(2, 2, "the certificate says that the recorded tree has 2 vertices; it has 1");
    mark(3, 0, "the certificate says that the found tree has 0 vertices; it has 1");
    mark(9, 3, "the byte is 03, where the mark C1 02 of the partner of recorded 0 has 02");
    mark(11, 0, "the byte is 00, where the mark C1 03 of the record of recorded 0 with found 0 has C1");
    refused(&plant, &[], 20, 0, "the certificate has 0 bytes; that of these two trees has 17");
    refused(&plant, &SHEET_9[..16], 20, 16, "the certificate has 16 bytes; that of these two trees has 17");
    refused(&plant, &[&SHEET_9[..], &[0]].concat(), 20, 17, "the certificate has 18 bytes; that of these two trees has 17");
    let both = "the certificate says that the found tree has 7 vertices; it has 1; \
                also, the certificate has 16 bytes; that of these two trees has 17";
    refused(&plant, &with(&SHEET_9, 3, &[7])[..16], 20, 3, both);
}

/// The mark of a record whose s is a neighbour, in a plant with names.
#[test]
fn form_of_a_record() {
    let plant = named_plant();
    let (bytes, certificate) = written(&plant, &Bytes::of(&plant));
    let at = record(&certificate, [1, 2, 3]).offset;
    let reason = "the byte is 00, where the mark C1 03 of the record of recorded 1 heater with found 2 filter 2, without found 3, has C1";
    refused(&plant, &with(&bytes, at, &[0]), 20, at, reason);
}

/// The record of (u, v, s).
fn record(certificate: &Certificate, [u, v, s]: [usize; 3]) -> &Record {
    certificate.records.iter().find(|record| (record.u, record.v, record.s) == (u, v, s)).expect("there is one")
}

#[test]
fn mapping() {
    let plant = named_plant();
    let (bytes, _) = written(&plant, &Bytes::of(&plant));
    let mapping = |partners: [u8; 3], offset: usize, reason: &str| {
        let bytes = (0..3).fold(bytes.clone(), |bytes, u| with(&bytes, 10 + 3 * u, &partners[u..u + 1]));
        refused(&plant, &bytes, 21, offset, reason);
    };
    mapping([0, 4, 2], 13, "recorded 1 heater has the partner 4; a partner is a found vertex, 0 to 3, or 255 for none");
    mapping([254, 1, 2], 10, "recorded 0 pump has the partner 254; a partner is a found vertex, 0 to 3, or 255 for none");
    mapping([0, 1, 0], 16, "recorded 0 pump and recorded 2 filter have the same partner, found 0 pump 2");
    mapping([2, 1, 0], 10, "recorded 0 pump has the partner found 2 filter 2; the pair of circulation and filtering is forbidden");
    let joined = "recorded 0 pump and recorded 1 heater are joined, but their partners, found 0 pump 2 and found 2 filter 2, are not";
    mapping([0, 2, 255], 13, joined);
    let not_joined = "recorded 0 pump and recorded 2 filter are not joined, but their partners, found 0 pump 2 and found 1 heater 2, are";
    mapping([0, 255, 1], 16, not_joined);
    let edges = "recorded 1 heater and recorded 2 filter have the partners found 2 filter 2 and found 3; \
                 the pair of their edges, pipe and cable, is forbidden";
    mapping([255, 2, 3], 16, edges);
    let parts = "recorded 0 pump and recorded 2 filter have partners, but are not connected by vertices with partners";
    mapping([0, 255, 2], 16, parts);
}

/// The first item counts, though later ones are broken too.
#[test]
fn items_in_order() {
    let plant = named_plant();
    let (mut bytes, certificate) = written(&plant, &Bytes::of(&plant));
    put(&mut bytes, certificate.records[0].offset + 2, 77);
    refused(&plant, &with(&bytes, 4, &[99, 0, 0, 0]), 22, 4, "the mapping weighs 14, the head says 99");
    let partner = "recorded 0 pump has the partner 9; a partner is a found vertex, 0 to 3, or 255 for none";
    refused(&plant, &with(&with(&bytes, 4, &[99, 0, 0, 0]), 10, &[9]), 21, 10, partner);
    let last = certificate.records[certificate.records.len() - 1].offset;
    let mark = "the byte is 02, where the mark C1 03 of the record of recorded 0 pump with found 3, without found 2 filter 2, has 03";
    refused(&plant, &with(&with(&bytes, 10, &[9]), last + 1, &[2]), 20, last + 1, mark);
}

/// The weight of a mapping has its edges in it, and the head's is signed.
#[test]
fn weight() {
    let plant = named_plant();
    let (bytes, _) = written(&plant, &Bytes::of(&plant));
    refused(&plant, &with(&bytes, 4, &(-14i32).to_le_bytes()), 22, 4, "the mapping weighs 14, the head says -14");
    let less = with(&with(&bytes, 4, &[13]), 16, &[255]);
    refused(&plant, &less, 22, 4, "the mapping weighs 10, the head says 13");
    let largest = "the head says 10; the largest value with s = v is 14, that of recorded 0 pump with found 0 pump 2";
    refused(&plant, &with(&less, 4, &[10]), 24, 4, largest);
}

#[test]
fn records() {
    let plant = named_plant();
    let (bytes, certificate) = written(&plant, &Bytes::of(&plant));
    let number = |of: [usize; 3], i: usize, number: i32, reason: &str| {
        let at = record(&certificate, of).offset + 2 + 4 * i;
        refused(&plant, &with(&bytes, at, &number.to_le_bytes()), 23, at, reason);
    };
    let forbidden = "the record of recorded 0 pump with found 2 filter 2 has";
    let reason = "the value 0; the pair is forbidden, so its value is the forbidden number";
    number([0, 2, 2], 0, 0, &format!("{forbidden} {reason}"));
    let duals = "the pair is forbidden, so its duals are 0";
    number([0, 2, 2], 1, -1, &format!("{forbidden} the dual -1 for recorded child 1 heater; {duals}"));
    number([0, 2, 2], 3, 8, &format!("{forbidden} the dual 8 for found neighbour 3; {duals}"));
    let allowed = "the record of recorded 1 heater with found 2 filter 2, without found 3, has";
    number([1, 2, 3], 1, -5, &format!("{allowed} the dual -5 for recorded child 2 filter; duals are 0 or more"));
    number([1, 2, 3], 2, X, &format!("{allowed} the dual -2147483648 for found neighbour 1 heater 2; duals are 0 or more"));
    number([1, 2, 3], 0, X, &format!("{allowed} the value forbidden; the pair weighs 1 and the duals add up to 3, together 4"));
    number([1, 2, 3], 0, 5, &format!("{allowed} the value 5; the pair weighs 1 and the duals add up to 3, together 4"));
}

/// Two vertices with different serials are a forbidden pair in the mapping and in the records, whatever the table says.
#[test]
fn serials() {
    let mut plant = named_plant();
    plant.recorded = with_serials(plant.recorded, &[0, 7, 8]);
    plant.found = with_serials(plant.found, &[1, 9, 8, 0]);
    let (bytes, certificate) = written(&plant, &Bytes::of(&plant));
    assert_eq!(record(&certificate, [1, 1, 1]).value, X);
    assert_eq!((record(&certificate, [0, 1, 1]).value, record(&certificate, [2, 2, 2]).value), (1, 3));
    let partner = |u: usize, v: u8| with(&(0..3).fold(bytes.clone(), |bytes, u| with(&bytes, 10 + 3 * u, &[255])), 10 + 3 * u, &[v]);
    let apart = "recorded 1 heater has the partner found 1 heater 2; their serials, 7 and 9, differ, so that the pair is forbidden";
    refused(&plant, &partner(1, 1), 21, 13, apart);
    // both the table and the serials forbid it: the serials are said
    plant.recorded = with_serials(plant.recorded, &[7, 0, 0]);
    let both = "recorded 0 pump has the partner found 2 filter 2; their serials, 7 and 8, differ, so that the pair is forbidden";
    refused(&plant, &partner(0, 2), 21, 10, both);
    plant.recorded = with_serials(plant.recorded, &[0, 7, 8]);
    let at = record(&certificate, [1, 1, 1]).offset + 2;
    let head = "the record of recorded 1 heater with found 1 heater 2 has";
    let value = "the value 4; the pair is forbidden by its serials, 7 and 9, so its value is the forbidden number";
    refused(&plant, &with(&bytes, at, &4i32.to_le_bytes()), 23, at, &format!("{head} {value}"));
    let dual = "the dual 1 for recorded child 2 filter; the pair is forbidden by its serials, 7 and 9, so its duals are 0";
    refused(&plant, &with(&bytes, at + 4, &[1, 0, 0, 0]), 23, at + 4, &format!("{head} {dual}"));
    let shown = show(&plant, &certificate);
    assert!(shown.contains("\n2 filter  filtering, serial 8  "), "{shown}");
    assert!(shown.lines().any(|line| line.contains(" 1 heater    1 heater 2  1  forbidden  forbidden  ")), "{shown}");
}

/// The same names, with pump and filter upstream of the heater in both trees; the table forbids no pair of edges.
fn directed_plant() -> Plant {
    let mut plant = named_plant();
    plant.table.edge = weights(&[&[1; 6][..]; 6], &["pipe", "cable", "rod", "rope", "supply", "return"]);
    plant.recorded = tree(&[0, 1, 2], &[(0, 1, 4), (2, 1, 4)], &["pump", "heater", "filter"]);
    plant.found = tree(&[0, 1, 2, 1], &[(0, 1, 4), (2, 1, 5), (2, 3, 1)], &["pump 2", "heater 2", "filter 2"]);
    plant
}

/// Edges that run opposite ways, and one with a direction and one without, are forbidden pairs in the mapping and in the
/// records, whatever the table says; two that run the same way weigh what it says.
#[test]
fn directions() {
    let plant = directed_plant();
    let (bytes, certificate) = written(&plant, &Bytes::of(&plant));
    assert_eq!((certificate.weight, &certificate.partners[..]), (5 + 4 + 3 + 1 + 1, &[0, 1, 2][..]));
    let mapping = |plant: &Plant, partners: [u8; 3], offset: usize, reason: &str| {
        let bytes = (0..3).fold(bytes.clone(), |bytes, u| with(&bytes, 10 + 3 * u, &partners[u..u + 1]));
        refused(plant, &bytes, 21, offset, reason);
    };
    let partners = "recorded 1 heater and recorded 2 filter have the partners found 2 filter 2 and found";
    let opposite = "1 heater 2; the pair of their edges, supply and return, is forbidden: they run opposite ways";
    mapping(&plant, [255, 2, 1], 16, &format!("{partners} {opposite}"));
    let neither = "3; the pair of their edges, supply and cable, is forbidden: one has a direction and the other has not";
    mapping(&plant, [255, 2, 3], 16, &format!("{partners} {neither}"));
    // a recorded edge turned round, and one without a direction
    let mut turned = plant.clone();
    turned.recorded.edges[0].ends = [1, 0];
    let both = "recorded 0 pump and recorded 1 heater have the partners found 0 pump 2 and found 1 heater 2; the pair of their edges,";
    mapping(&turned, [0, 1, 2], 13, &format!("{both} supply and supply, is forbidden: they run opposite ways"));
    turned.recorded.edges[0].label = 3;
    mapping(&turned, [0, 1, 2], 13, &format!("{both} rope and supply, is forbidden: one has a direction and the other has not"));
}

/// A child pair of edges that run opposite ways needs no cover; turned round it does.
#[test]
fn cover_of_directions() {
    let mut plant = directed_plant();
    plant.found.edges[0].ends = [1, 0];
    let (bytes, certificate) = written(&plant, &Bytes::of(&plant));
    let alone = record(&certificate, [1, 1, 2]);
    assert_eq!((alone.value, alone.children[0].value, alone.neighbours[0].value), (4, 0, 0));
    let reason = "the record of recorded 1 heater with found 1 heater 2, without found 2 filter 2, has the duals 0 for recorded child \
                  2 filter and 0 for found neighbour 0 pump 2, together 0; their edge pair weighs 1 and the value of recorded 2 filter \
                  with found 0 pump 2, without found 1 heater 2, is 1, together 2";
    // as the certificate's mapping has no pump, it is one of the plant with the edge turned back, too
    refused(&directed_plant(), &bytes, 23, alone.offset + 6, reason);
}

/// A child pair whose duals do not cover its weight, in a sum that is right; the left-out pairs beside it need no
/// cover.
#[test]
fn cover() {
    let plant = named_plant();
    let (mut bytes, certificate) = written(&plant, &Bytes::of(&plant));
    let [top, below] = [record(&certificate, [0, 0, 0]), record(&certificate, [1, 1, 0])];
    assert_eq!((top.value, below.value), (14, 8));
    [(0, 13), (1, 0), (2, 8)].iter().for_each(|&(i, number)| put(&mut bytes, top.offset + 2 + 4 * i, number));
    let reason = "the record of recorded 0 pump with found 0 pump 2 has the duals 0 for recorded child 1 heater and 8 for found neighbour \
                  1 heater 2, together 8; their edge pair weighs 1 and the value of recorded 1 heater with found 1 heater 2, without \
                  found 0 pump 2, is 8, together 9";
    refused(&plant, &bytes, 23, top.offset + 6, reason);
    [(0, 14), (1, 2), (2, 7)].iter().for_each(|&(i, number)| put(&mut bytes, top.offset + 2 + 4 * i, number));
    assert_eq!(fault(&plant, &bytes), None);
    assert_eq!(Bytes::of(&plant).item(&bytes), 0);
}

/// A mapping heavier than none of the others may still be lighter than the empty one.
#[test]
fn answer_below_zero() {
    let plant = Plant { table: table_p(), recorded: path(&[0]), found: path(&[1]) };
    let sheet = [0xC1, 1, 1, 1, 0xFE, 0xFF, 0xFF, 0xFF, 0xC1, 2, 0, 0xC1, 3, 0xFE, 0xFF, 0xFF, 0xFF];
    let reason = "the head says -2; the largest value with s = v is -2, that of recorded 0 with found 0; so the heaviest weight is 0";
    refused(&plant, &sheet, 24, 4, reason);
}

const LEGEND: &str = "\
subproblems
u is a recorded vertex, its tree rooted at 0; v is a found vertex; s is v itself, or a neighbour of v that is left out.
The value is the weight of (u, v) plus a dual for each child of u and for each neighbour of v other than s.
A dual stands after the number of its vertex; byte is where the record begins.
";

/// The text of a certificate, whatever its rules say.
fn shown(plant: &Plant, bytes: &[u8], before: &str, after: &str) {
    let text = show(plant, &read(plant, bytes).expect("the form is right"));
    assert_eq!(text, format!("{before}{LEGEND}{after}"), "\n{text}");
}

#[test]
fn show_small_plant_1() {
    let before = "\
weight 5

mapping
recorded  label    found  label
0         label 0  0      label 0

";
    let after = "\
byte  recorded u  found v  s  value  weight  duals of children  duals of neighbours
  11  0           0        0      5       5  -                  -
";
    shown(&small_plant_1(), &SHEET_9, before, after);
}

#[test]
fn show_small_plant_8() {
    let before = "\
weight 13

mapping
recorded  label    found  label
0         label 0  0      label 0
1         label 1  2      label 2
2         label 2  1      label 1

";
    let after = "\
byte  recorded u  found v  s      value     weight  duals of children  duals of neighbours
  17  1           0        0  forbidden  forbidden  -                  1: 0, 2: 0
  31  1           0        1  forbidden  forbidden  -                  2: 0
  41  1           0        2  forbidden  forbidden  -                  1: 0
  51  1           1        1          5          5  -                  0: 0
  61  1           1        0          5          5  -                  -
  67  1           2        2          4          4  -                  0: 0
  77  1           2        0          4          4  -                  -
  83  2           0        0  forbidden  forbidden  -                  1: 0, 2: 0
  97  2           0        1  forbidden  forbidden  -                  2: 0
 107  2           0        2  forbidden  forbidden  -                  1: 0
 117  2           1        1          4          4  -                  0: 0
 127  2           1        0          4          4  -                  -
 133  2           2        2          0          0  -                  0: 0
 143  2           2        0          0          0  -                  -
 149  0           0        0         13          5  1: 4, 2: 3         1: 1, 2: 0
 171  0           0        1          9          5  1: 4, 2: 0         2: 0
 189  0           0        2         10          5  1: 1, 2: 0         1: 4
 207  0           1        1  forbidden  forbidden  1: 0, 2: 0         0: 0
 225  0           1        0  forbidden  forbidden  1: 0, 2: 0         -
 239  0           2        2  forbidden  forbidden  1: 0, 2: 0         0: 0
 257  0           2        0  forbidden  forbidden  1: 0, 2: 0         -
";
    let plant = small_plant_8();
    shown(&plant, &Bytes::of(&plant).written().0, before, after);
}

/// Names, a vertex without partner, a partner that is not there, and numbers that break rules.
#[test]
fn show_names_and_broken_rules() {
    let before = "\
weight -7

mapping
recorded        label        found  label
0 Vorwärmstufe  circulation  9      no such vertex
1               heating      -

";
    let after = "\
byte  recorded u      found v  s      value  weight  duals of children  duals of neighbours
  14  1               0 pump   0         -2       1  -                  -
  20  0 Vorwärmstufe  0 pump   0  forbidden       5  1: -2147483648     -
";
    let mut plant = named_plant();
    plant.recorded = tree(&[0, 1], &[(1, 0, 0)], &["Vorwärmstufe"]);
    plant.found = tree(&[0], &[], &["pump"]);
    let mut bytes = with(&with(&Bytes::of(&plant).written().0, 10, &[9]), 13, &[255]);
    [(4, -7), (16, -2), (22, X), (26, X)].iter().for_each(|&(at, number)| put(&mut bytes, at, number));
    shown(&plant, &bytes, before, after);
}
