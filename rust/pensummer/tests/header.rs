//! Holds what is written twice against the crate: the constants of include/pensummer.h, the sentences of
//! office/items.c, and the items and the bytes of docs/FORMAT.md.
use pensummer::Refusal;
use std::collections::BTreeMap;
use std::fs;
use std::path::Path;

/// The items by the names of their constants.
macro_rules! named {
    ($($name:ident)*) => { [$((stringify!($name), Refusal::$name)),*] };
}

const ITEMS: [(&str, Refusal); 26] = named! {
    TABLE_FORM TABLE_WEIGHT
    RECORDED_FORM RECORDED_LABEL RECORDED_END RECORDED_LOOP RECORDED_DEGREE
    FOUND_FORM FOUND_LABEL FOUND_END FOUND_LOOP FOUND_DEGREE
    WORK_SHORT JOB_RECORD JOB_TREES WORK_NUMBER JOB_UNFINISHED MAPPING_SHORT
    CERTIFICATE_SHORT CERTIFICATE_FORM CERTIFICATE_MAPPING CERTIFICATE_WEIGHT CERTIFICATE_RECORD CERTIFICATE_ANSWER
    RECORDED_SERIAL FOUND_SERIAL
};

const LIMITS: [(&str, i64); 13] = [
    ("VERTICES_MOST", pensummer::VERTICES_MOST as i64),
    ("DEGREE_MOST", pensummer::DEGREE_MOST as i64),
    ("VERTEX_LABELS_MOST", pensummer::VERTEX_LABELS_MOST as i64),
    ("EDGE_LABELS_MOST", pensummer::EDGE_LABELS_MOST as i64),
    ("DIRECTED_FROM", pensummer::DIRECTED_FROM as i64),
    ("WEIGHT_MOST", pensummer::WEIGHT_MOST as i64),
    ("VALUE_MOST", pensummer::VALUE_MOST as i64),
    ("FORBIDDEN", pensummer::FORBIDDEN as i64),
    ("NONE", pensummer::NONE as i64),
    ("TABLE_MOST", pensummer::TABLE_MOST as i64),
    ("TREE_MOST", pensummer::TREE_MOST as i64),
    ("WORK_MOST", pensummer::WORK_MOST as i64),
    ("CERTIFICATE_MOST", pensummer::CERTIFICATE_MOST as i64),
];

/// The text of a file of the repository.
fn text(name: &str) -> String {
    let path = Path::new(env!("CARGO_MANIFEST_DIR")).join("../..").join(name);
    fs::read_to_string(&path).unwrap_or_else(|why| panic!("{}: {why}", path.display()))
}

/// The constants of the header that have a value, by their names without `PENSUMMER_`, in the order of the text.
fn defined() -> Vec<(String, String)> {
    let header = text("include/pensummer.h").replace("\\\n", " ");
    let lines = header.lines().filter_map(|line| line.strip_prefix("#define "));
    let parts = lines.filter_map(|line| line.split_once(' '));
    parts.map(|(name, value)| (name.strip_prefix("PENSUMMER_").expect(name).to_string(), value.to_string())).collect()
}

/// The value of an expression of numbers, names, `+`, `-`, `*` and parentheses.
struct Expression<'a> {
    rest: &'a str,
    known: &'a BTreeMap<String, i64>,
}

impl Expression<'_> {
    fn next_is(&mut self, sign: char) -> bool {
        self.rest = self.rest.trim_start();
        let after = self.rest.strip_prefix(sign);
        self.rest = after.unwrap_or(self.rest);
        after.is_some()
    }

    fn sum(&mut self) -> i64 {
        let mut value = self.product();
        loop {
            if self.next_is('+') {
                value += self.product();
            } else if self.next_is('-') {
                value -= self.product();
            } else {
                return value;
            }
        }
    }

    fn product(&mut self) -> i64 {
        let mut value = self.factor();
        while self.next_is('*') {
            value *= self.factor();
        }
        value
    }

    fn factor(&mut self) -> i64 {
        if self.next_is('-') {
            return -self.factor();
        }
        if self.next_is('(') {
            let value = self.sum();
            assert!(self.next_is(')'), "no `)` before `{}`", self.rest);
            return value;
        }
        let end = self.rest.find(|c: char| !c.is_ascii_alphanumeric() && c != '_').unwrap_or(self.rest.len());
        let (word, rest) = self.rest.split_at(end);
        self.rest = rest;
        match word.strip_prefix("PENSUMMER_") {
            Some(name) => *self.known.get(name).unwrap_or_else(|| panic!("{name} is used before it is defined")),
            None => word.parse().unwrap_or_else(|_| panic!("`{word}` is no number")),
        }
    }
}

/// The header's constants with their values.
fn values() -> BTreeMap<String, i64> {
    let mut known = BTreeMap::new();
    for (name, value) in defined() {
        let mut expression = Expression { rest: &value, known: &known };
        let number = expression.sum();
        assert_eq!(expression.rest.trim(), "", "{name}: {value}");
        assert_eq!(known.insert(name.clone(), number), None, "{name} is defined twice");
    }
    known
}

#[test]
fn every_item_has_its_name_here() {
    assert_eq!(ITEMS.map(|(_, item)| item), Refusal::ALL);
    assert_eq!(Refusal::ALL.map(Refusal::number).to_vec(), (1..=26).collect::<Vec<u32>>());
}

#[test]
fn every_item_has_its_sentence() {
    let none = Refusal::of(27).unwrap().sentence();
    let mut sentences: Vec<&str> = Refusal::ALL.map(Refusal::sentence).to_vec();
    assert!(sentences.iter().all(|sentence| *sentence != none && !sentence.is_empty() && !sentence.ends_with('.')));
    sentences.sort();
    sentences.dedup();
    assert_eq!(sentences.len(), 26);
}

/// The header has exactly the crate's limits and items, with their values.
#[test]
fn header() {
    let items = ITEMS.iter().map(|&(name, item)| (name.to_string(), item.number() as i64));
    let limits = LIMITS.iter().map(|&(name, value)| (name.to_string(), value));
    assert_eq!(values(), items.chain(limits).collect());
}

/// The most bytes of a certificate by its formula, with the squares of degrees of a tree of the most vertices: as many
/// of the greatest degree as the sum of all degrees allows, then one of what is left.
#[test]
fn longest_certificate() {
    let (n, degree) = (pensummer::VERTICES_MOST, pensummer::DEGREE_MOST);
    let over = n - 2; // the sum of all degrees is 2(n - 1), and each is 1 at least
    let (full, left) = (over / (degree - 1), over % (degree - 1) + 1);
    let squares = full * degree * degree + left * left + (n - full - 1);
    assert_eq!(pensummer::CERTIFICATE_MOST, 8 + 3 * n + 6 * n * (3 * n - 2) + 4 * (n - 1) * (3 * n - 2) + 4 * n * squares);
}

/// The C programs of the office say the crate's sentences: a line `[PENSUMMER_NAME] = "sentence",` for each item, in
/// order.
#[test]
fn office_sentences() {
    let source = text("office/items.c");
    let lines: Vec<&str> = source.lines().map(str::trim).filter(|line| line.starts_with('[')).collect();
    let ours: Vec<String> = ITEMS.iter().map(|(name, item)| format!("[PENSUMMER_{name}] = \"{}\",", item.sentence())).collect();
    assert_eq!(lines, ours);
}

/// The rows of docs/FORMAT.md on the items begin with the number, the name in C, the name in Rust and the sentence.
#[test]
fn format_items() {
    let format = text("docs/FORMAT.md");
    let rows: Vec<&str> = format.lines().filter(|line| line.contains("| `Refusal::")).collect();
    assert_eq!(rows.len(), ITEMS.len());
    for (row, (name, item)) in rows.iter().zip(ITEMS) {
        let start = format!("| {} | `PENSUMMER_{name}` | `Refusal::{name}` | {} | ", item.number(), item.sentence());
        assert!(row.starts_with(&start), "{row}\nnot\n{start}");
    }
}

/// A number as the texts write it, in groups of three digits.
fn grouped(number: i64) -> String {
    let digits = number.abs().to_string();
    let groups: Vec<&str> = digits.as_bytes().rchunks(3).rev().map(|group| std::str::from_utf8(group).unwrap()).collect();
    groups.join(",")
}

/// Each row of docs/FORMAT.md on the limits has the numbers of the constants that it names.
#[test]
fn format_limits() {
    let format = text("docs/FORMAT.md");
    let rows: Vec<&str> = format.lines().filter(|line| line.starts_with("| ") && line.contains("_MOST`")).collect();
    for (name, value) in LIMITS.into_iter().filter(|(name, _)| name.ends_with("_MOST")) {
        let row = rows.iter().find(|row| row.contains(&format!("`PENSUMMER_{name}`"))).expect(name);
        let number = grouped(value);
        assert!(row.split(' ').any(|word| word.trim_end_matches(',') == number), "{name}, {number}: {row}");
    }
}

/// What the texts for callers say of a million or more is a limit of today and no earlier one: of weights, values, numbers of 32 bits, and of the
/// program's text files.
#[test]
fn great_numbers() {
    let forbidden = pensummer::FORBIDDEN as i64;
    let known =
        [pensummer::WEIGHT_MOST as i64, pensummer::VALUE_MOST as i64, forbidden, forbidden + 1, u32::MAX as i64, 1 << 20].map(grouped);
    for name in ["include/pensummer.h", "docs/FORMAT.md", "README.md"] {
        let text = text(name);
        let words = text.split(|c: char| !c.is_ascii_digit() && c != ',').map(|word| word.trim_matches(','));
        let great: Vec<&str> = words.filter(|word| word.matches(',').count() > 1).collect();
        assert!(!great.is_empty() || name == "README.md", "{name}");
        for number in great {
            assert!(known.iter().any(|one| one == number), "{name}: {number}");
        }
    }
}

/// The bytes of the tables of docs/FORMAT.md whose columns are offset, bytes and meaning; each offset is where its
/// bytes stand.
fn listed() -> Vec<Vec<u8>> {
    let mut parts: Vec<Vec<u8>> = Vec::new();
    let mut inside = false;
    for line in text("docs/FORMAT.md").lines() {
        let cells: Vec<&str> = line.split('|').map(str::trim).collect();
        if cells.len() < 4 {
            inside = false;
        } else if cells[1..3] == ["offset", "bytes"] {
            inside = true;
            parts.push(Vec::new());
        } else if inside && !cells[1].starts_with('-') {
            let part = parts.last_mut().unwrap();
            assert_eq!(cells[1].parse(), Ok(part.len()), "{line}");
            let hex = cells[2].trim_matches('`').split(' ');
            part.extend(hex.map(|byte| u8::from_str_radix(byte, 16).expect(line)));
        }
    }
    parts
}

/// The number that docs/FORMAT.md has for the example, in the last cell of the row of this name, on how much to lend.
fn lent(name: &str) -> usize {
    let format = text("docs/FORMAT.md");
    let section = format.split("\n## ").find(|section| section.starts_with("How much to lend")).expect("a section");
    let row = section.lines().find(|line| line.starts_with(&format!("| `{name}` |"))).expect(name);
    row.trim_matches([' ', '|'].as_slice()).rsplit('|').next().unwrap().trim().parse().expect(row)
}

/// The example of docs/FORMAT.md is the match program's input, and its certificate is the one that is written.
#[test]
fn format_bytes() {
    let parts = listed();
    assert_eq!(parts.len(), 5, "lists of bytes");
    let (table, recorded, found, certificate) = (&parts[0], &parts[1], &parts[2], &parts[4]);
    let input = fs::read(Path::new(env!("CARGO_MANIFEST_DIR")).join("../../crates/matcher/stdin")).unwrap();
    assert_eq!([&table[..], recorded, found].concat(), input);
    let i = pensummer::Inputs { table, recorded, found };
    let sizes = pensummer::sizes(i).unwrap();
    assert_eq!([sizes.subproblems as usize, sizes.work, sizes.certificate], ["subproblems", "work", "certificate"].map(lent));
    let (mut work, mut room) = (vec![0; sizes.work], vec![0; sizes.certificate]);
    assert_eq!(pensummer::write_certificate(i, &mut work, &mut room), Ok(sizes.certificate));
    assert_eq!(&room, certificate);
    assert_eq!(work, [3, 3, -2, -2, -2, -2, 9, 5]);
    assert_eq!(pensummer::check_certificate(i, certificate), Ok(()));
    let mut mapping = [0; 2];
    assert_eq!(pensummer::match_trees(i, &mut work, &mut mapping), Ok(9));
    assert_eq!(mapping, [1, 0]);
}

/// The example with serials in its recorded tree: one that is unknown or equal changes nothing, one that differs makes
/// its pair a forbidden one, and one that stands twice is refused.
#[test]
fn format_serials() {
    let parts = listed();
    let (table, recorded, found, with_serials) = (&parts[0], &parts[1], &parts[2], &parts[3]);
    assert_eq!((recorded.len(), with_serials.len()), (8 * 2 - 2, 12 * 2 - 2));
    let twice = [&with_serials[..13], &with_serials[6..10], &with_serials[17..]].concat();
    let matched = |recorded: &[u8], found: &[u8]| {
        let (mut work, mut mapping) = ([0; 8], [0; 2]);
        pensummer::match_trees(pensummer::Inputs { table, recorded, found }, &mut work, &mut mapping).map(|weight| (weight, mapping))
    };
    assert_eq!(matched(with_serials, found), matched(recorded, found));
    // found vertex 0 has label 0 here, and the serial 70,411 or the next one
    assert_eq!(matched(recorded, with_serials), Ok((9, [0, 1])));
    assert_eq!(matched(with_serials, with_serials), Ok((9, [0, 1])));
    let mut next = with_serials.clone();
    next[6] += 1;
    assert_eq!(matched(with_serials, &next), Ok((3, [pensummer::NONE, 1])));
    assert_eq!(matched(&twice, found), Err(Refusal::RECORDED_SERIAL));
    assert_eq!(matched(&twice, &found[1..]), Err(Refusal::RECORDED_SERIAL));
    assert_eq!(matched(recorded, &twice), Err(Refusal::FOUND_SERIAL));
}
