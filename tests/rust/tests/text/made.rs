//! Random plants to be written as text, with the bytes and names that the text must give.
use pensummer_tests::random::Random;
use pensummer_tests::reading::{table_bytes, Inputs, FORBIDDEN, WEIGHT_MOST};

/// Vertex labels or edge labels.
pub struct Labels {
    pub count: usize,
    /// Of every label, or none at all.
    pub names: Vec<String>,
    pub rows: Vec<Vec<i32>>,
    pub short: Option<Short>,
}

/// Weights as the short form gives them.
pub struct Short {
    pub default: i32,
    pub equal: Option<i32>,
    pub pairs: Vec<(usize, usize, i32)>,
}

pub struct Tree {
    pub labels: Vec<usize>,
    pub names: Vec<Option<String>>,
    pub edges: Vec<(usize, usize, usize)>,
    /// Of every vertex, 0 where it is unknown; none if the vertex records have no serials.
    pub serials: Option<Vec<u32>>,
}

pub struct Made {
    pub vertex: Labels,
    pub edge: Labels,
    pub trees: [Tree; 2],
    /// Whether only forms of the old grammar are used.
    pub old: bool,
}

/// How large a plant is, and whether it keeps the rules.
#[derive(Clone, Copy, PartialEq, Eq)]
pub enum Size {
    /// Accepted, few labels, up to this many vertices.
    Small(usize),
    /// Accepted, any size.
    Accepted,
    /// An accepted table, and trees that mostly break a rule.
    Wrong,
    /// Anything that text can say.
    Any,
}

/// Characters of names; the last two stand in no label's name.
const CHARACTERS: [char; 34] = [
    'a', 'b', 'P', 'x', '0', '1', '9', '_', '.', '/', '(', '\'', '`', '%', '$', '&', '<', '>', '"', '\\', '=', '-', ':', 'ä', '漢', '😀',
    '\u{301}', '\u{202e}', '\u{a0}', '\u{feff}', '\u{2028}', '\u{ffff}', '#', ',',
];
/// Words that are no good names, between bars.
const WORDS: &str = "labels|vertex|edge|names|recorded|found|tree|serials|forbidden|vertex-names|edge-names|0-1|\"|\\\"|null|١|P1";

/// A name without blanks at its ends or twice in a row.
fn name(random: &mut Random, characters: &[char]) -> String {
    let word = |random: &mut Random| -> String {
        if random.once_in(3) {
            return random.pick(&WORDS.split('|').collect::<Vec<_>>()).to_string();
        }
        (0..=random.below(5)).map(|_| *random.pick(characters)).collect()
    };
    let words: Vec<String> = (0..if random.once_in(4) { 2 + random.below(2) } else { 1 }).map(|_| word(random)).collect();
    words.join(" ")
}

pub fn is_digits(text: &str) -> bool {
    text.bytes().all(|b| b.is_ascii_digit())
}

fn weight(random: &mut Random, size: Size) -> i32 {
    match random.below(12) {
        0 | 1 => FORBIDDEN,
        2 => *random.pick(&[WEIGHT_MOST, WEIGHT_MOST - 1, -WEIGHT_MOST]),
        3 if size == Size::Any => *random.pick(&[i32::MAX, i32::MIN + 1, WEIGHT_MOST + 1, -WEIGHT_MOST - 1]),
        4 if size == Size::Any => random.number(),
        5..=7 => random.between(-1, 1) as i32,
        _ => random.between(-6, 9) as i32,
    }
}

impl Labels {
    fn any(random: &mut Random, count: usize, size: Size, old: bool) -> Labels {
        let named = count > 0 && random.once_in(2);
        let names = (0..if named { count } else { 0 }).map(|_| name(random, &CHARACTERS[..32])).collect();
        let mut labels = Labels { count, names, rows: Vec::new(), short: None };
        if old || random.once_in(2) {
            labels.rows = (0..count).map(|_| (0..count).map(|_| weight(random, size)).collect()).collect();
        } else {
            let short = Short::any(random, count, size);
            labels.rows = (0..count).map(|a| (0..count).map(|b| short.weight(a, b)).collect()).collect();
            labels.short = Some(short);
        }
        labels
    }

    /// Whether this label has a name that no other has.
    pub fn has_own_name(&self, label: usize) -> bool {
        label < self.names.len() && self.names.iter().filter(|name| **name == self.names[label]).count() == 1
    }
}

impl Short {
    fn any(random: &mut Random, count: usize, size: Size) -> Short {
        let equal = if random.once_in(3) { None } else { Some(weight(random, size)) };
        let mut pairs: Vec<(usize, usize, i32)> = Vec::new();
        for _ in 0..if count > 0 { random.below(6) } else { 0 } {
            let (a, b) = (random.below(count), random.below(count));
            if !pairs.iter().any(|pair| (pair.0, pair.1) == (a, b)) {
                pairs.push((a, b, weight(random, size)));
            }
        }
        Short { default: weight(random, size), equal, pairs }
    }

    fn weight(&self, a: usize, b: usize) -> i32 {
        match (self.pairs.iter().find(|pair| (pair.0, pair.1) == (a, b)), self.equal) {
            (Some(pair), _) => pair.2,
            (None, Some(equal)) if a == b => equal,
            _ => self.default,
        }
    }
}

impl Tree {
    /// A tree with these numbers of labels.
    fn right(random: &mut Random, n: usize, (k, l): (usize, usize)) -> Tree {
        let mut degree = vec![0; n];
        let mut edges = Vec::new();
        for u in 1..n {
            let free: Vec<usize> = (0..u).filter(|&v| degree[v] < 8).collect();
            let v = *random.pick(&free);
            degree[u] += 1;
            degree[v] += 1;
            edges.push(if random.once_in(2) { (u, v, random.below(l)) } else { (v, u, random.below(l)) });
        }
        random.shuffle(&mut edges);
        Tree { labels: (0..n).map(|_| random.below(k)).collect(), names: vec![None; n], edges, serials: None }
    }

    /// What text can say of a tree, mostly with one thing wrong.
    fn wrong(random: &mut Random, n: usize, (k, l): (usize, usize)) -> Tree {
        let mut tree = Tree::right(random, n, (k.max(1), l.max(1)));
        let any = |random: &mut Random| if random.once_in(2) { random.below(n + 1) } else { random.below(256) };
        match random.below(10) {
            0 => tree.edges.push((any(random).min(255), any(random).min(255), random.below(l + 1))),
            1 => drop(tree.edges.pop()),
            2 if n > 0 => tree.labels[random.below(n)] = random.below(256),
            3 | 4 if n > 1 => tree.edges[random.below(n - 1)] = (random.below(n), random.below(n), random.below(l.max(1))),
            5 if n > 1 => tree.edges[random.below(n - 1)] = (any(random).min(255), any(random).min(255), random.below(l.max(1))),
            7 if n > 1 => tree.edges[random.below(n - 1)].2 = random.below(256),
            6 if n > 9 => (1..10).for_each(|u| tree.edges[u - 1] = (0, u, 0)),
            _ => (),
        }
        tree
    }

    /// No serials, or known and unknown ones. Many stand in other trees too; one stands here twice only in a tree that may be wrong.
    fn give_serials(&mut self, random: &mut Random, wrong: bool) {
        let n = self.labels.len();
        if n == 0 || random.once_in(2) {
            return;
        }
        // a third of them as large as can be
        let mut numbers: Vec<u32> = (1..=n as u32 + 2).map(|number| if number % 3 == 0 { u32::MAX - number + 3 } else { number }).collect();
        random.shuffle(&mut numbers);
        let share = *random.pick(&[0, 2, 3, 4]);
        let mut serials: Vec<u32> = (0..n).map(|u| if random.below(4) < share { numbers[u] } else { 0 }).collect();
        if wrong && random.once_in(4) {
            serials[random.below(n)] = serials[random.below(n)];
        }
        self.serials = Some(serials);
    }

    /// Whether a known serial stands twice.
    pub fn has_serial_twice(&self) -> bool {
        let mut known: Vec<u32> = self.serials.iter().flatten().copied().filter(|&serial| serial != 0).collect();
        known.sort_unstable();
        known.windows(2).any(|two| two[0] == two[1])
    }

    /// Its bytes, with vertex records of the kind that it has or of the one without serials.
    fn bytes(&self, with_serials: bool) -> Vec<u8> {
        let mut bytes = vec![0xB1, 0x01, self.labels.len() as u8];
        for (u, &label) in self.labels.iter().enumerate() {
            match &self.serials {
                Some(serials) if with_serials => bytes.extend([&[0xB1, 0x07, label as u8][..], &serials[u].to_le_bytes()].concat()),
                _ => bytes.extend([0xB1, 0x02, label as u8]),
            }
        }
        bytes.extend(self.edges.iter().flat_map(|&(a, b, label)| [0xB1, 0x03, a as u8, b as u8, label as u8]));
        bytes
    }

    fn name_vertices(&mut self, random: &mut Random) {
        let share = *random.pick(&[0, 1, 2, 4]);
        for u in 0..self.names.len() {
            let new = name(random, &CHARACTERS);
            let taken = self.names.iter().flatten().any(|other| *other == new);
            if random.below(4) < share && !taken && !is_digits(&new) {
                self.names[u] = Some(new);
            }
        }
        // an edge that looks like a word of the grammar
        let (n, words) = (self.names.len(), [*random.pick(&["vertex", "edge"]), "names"].map(|word| Some(word.to_owned())));
        let edge = self.edges.iter().find(|edge| edge.0 < n && edge.1 < n && edge.0 != edge.1);
        if let (Some(&(a, b, _)), true) = (edge, random.once_in(4) && !words.iter().any(|word| self.names.contains(word))) {
            let [first, second] = words;
            self.names[a] = first;
            self.names[b] = second;
        }
    }
}

impl Made {
    pub fn any(random: &mut Random, size: Size, old: bool) -> Made {
        let (k, l) = match size {
            // the last two have directed edges; the old grammar is to have few
            Size::Small(_) | Size::Wrong => (1 + random.below(4), *random.pick(&[1, 2, 3, 6, 8][..if old { 4 } else { 5 }])),
            Size::Accepted => *random.pick(&[(32, 8), (1, 1), (32, 1), (7, 3), (7, 8)]),
            Size::Any if random.once_in(60) => (random.below(256), random.below(256)),
            Size::Any => {
                let (k, l) = (if random.once_in(8) { 40 } else { 5 }, if random.once_in(8) { 12 } else { 4 });
                (random.below(k), random.below(l))
            }
        };
        let (vertex, edge) = (Labels::any(random, k, size, old), Labels::any(random, l, size, old));
        let trees = [Made::tree(random, size, (k, l), old), Made::tree(random, size, (k, l), old)];
        Made { vertex, edge, trees, old }
    }

    fn tree(random: &mut Random, size: Size, counts: (usize, usize), old: bool) -> Tree {
        let n = match size {
            Size::Small(most) => 1 + random.below(most),
            Size::Accepted => 1 + random.below(64),
            Size::Any if random.once_in(20) => random.below(256),
            Size::Any | Size::Wrong => random.below(14),
        };
        let mut tree = match size {
            Size::Small(_) | Size::Accepted => Tree::right(random, n, counts),
            Size::Wrong | Size::Any => Tree::wrong(random, n, counts),
        };
        if !old {
            tree.name_vertices(random);
            tree.give_serials(random, matches!(size, Size::Wrong | Size::Any));
        }
        tree
    }

    /// The bytes that the text must give.
    pub fn inputs(&self) -> Inputs {
        self.inputs_of(true)
    }

    /// The bytes of the same plant without its serials.
    pub fn inputs_without_serials(&self) -> Inputs {
        self.inputs_of(false)
    }

    fn inputs_of(&self, serials: bool) -> Inputs {
        let [recorded, found] = [self.trees[0].bytes(serials), self.trees[1].bytes(serials)];
        Inputs { table: table_bytes(&self.vertex.rows, &self.edge.rows), recorded, found }
    }
}
