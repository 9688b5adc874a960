//! Plants for tests, as text and as bytes.

/// Small plant 3 of the paper, as examples/small_plant_3.txt has it, without its comment.
pub const THREE: &str = "labels 2 1\nvertex 5 -2\nvertex -2 3\nedge 1\nrecorded 0 1\n0-1\nfound 1 0\n0-1\n";

/// Its table and its trees as bytes.
pub const TABLE: &str = "B1 04 02 01 B1 05 05 00 00 00 FE FF FF FF B1 05 FE FF FF FF 03 00 00 00 B1 06 01 00 00 00";
pub const RECORDED: &str = "B1 01 02 B1 02 00 B1 02 01 B1 03 00 01 00";
pub const FOUND: &str = "B1 01 02 B1 02 01 B1 02 00 B1 03 00 01 00";

/// What `match --plain` prints for it.
pub const THREE_PLAIN: &str = "weight 9\n0 1\n1 0\n";

/// Small plant 9: one vertex each.
pub const NINE: &str = "labels 2 1\nvertex 5 -2\nvertex -2 3\nedge 1\nrecorded 0\nfound 0\n";

/// A table with one label each, for plants whose trees matter.
pub const ONE: &str = "labels 1 1\nvertex 1\nedge 1\n";

/// A plant that is refused by item 6.
pub const LOOP: &str = "labels 1 1\nvertex 1\nedge 1\nrecorded 0 0 0\n0-1 1-0\nfound 0\n";

/// The bytes of hexadecimal digits.
pub fn hex(text: &str) -> Vec<u8> {
    text.split_whitespace().map(|byte| u8::from_str_radix(byte, 16).expect("two digits")).collect()
}

/// Small plant 3 as bytes, which the match program reads.
pub fn three_bytes() -> Vec<u8> {
    [hex(TABLE), hex(RECORDED), hex(FOUND)].concat()
}

/// A file of the repository.
pub fn of_repository(name: &str) -> Vec<u8> {
    let path = std::path::Path::new(env!("CARGO_MANIFEST_DIR")).join("../..").join(name);
    std::fs::read(&path).unwrap_or_else(|why| panic!("{}: {why}", path.display()))
}

/// The examples, each with its name.
pub fn examples() -> Vec<(&'static str, String)> {
    let text = |name: &str| String::from_utf8(of_repository(&format!("examples/{name}"))).expect("UTF-8");
    let names = ["cellar.txt", "flow.txt", "named.txt", "pool.txt", "serials.txt", "small_plant_3.txt"];
    names.map(|name| (name, text(name))).to_vec()
}

/// A row of numbers after a word.
pub fn row(word: &str, numbers: impl Iterator<Item = impl ToString>) -> String {
    numbers.fold(word.to_owned(), |line, number| line + " " + &number.to_string()) + "\n"
}

/// A tree whose vertices all have label 0: its line and its edges, each after `i` to what `above` says.
pub fn tree(word: &str, size: usize, above: impl Fn(usize) -> usize) -> String {
    let edges: String = (1..size).map(|i| format!("{i}-{}\n", above(i))).collect();
    row(word, (0..size).map(|_| 0)) + &edges
}

/// A plant of the greatest size: 32 and 8 labels, 64 vertices in each tree, weights up to the limits, labels all used.
pub fn big(seed: u32) -> String {
    let mut random = Random(seed);
    let mut text = "labels 32 8\n".to_owned() + &weights(&mut random, "vertex", 32);
    text += &weights(&mut random, "edge", 8);
    text += &big_tree(&mut random, "recorded");
    text + &big_tree(&mut random, "found")
}

struct Random(u32);

impl Random {
    fn below(&mut self, most: u32) -> u32 {
        self.0 = (self.0 * 1103 + 12345) % 65536;
        self.0 / 8 % most
    }
}

fn weights(random: &mut Random, word: &str, labels: u32) -> String {
    let mut weight = |i, j| match random.below(4) {
        0 => "forbidden".to_owned(),
        _ if i == j => "16000000".to_owned(),
        _ => ((i64::from(random.below(1001)) - 1000) * 16000).to_string(),
    };
    (0..labels).map(|i| row(word, (0..labels).map(|j| weight(i, j)).collect::<Vec<_>>().into_iter())).collect()
}

/// Each vertex below an earlier one that has room; of the labels every one occurs twice.
fn big_tree(random: &mut Random, word: &str) -> String {
    let mut text = row(word, (0..64).map(|i| i % 32));
    let mut used = vec![0; 64];
    for i in 1..64u32 {
        let mut above = random.below(i);
        while used[above as usize] > 7 {
            above = random.below(i);
        }
        used[above as usize] += 1;
        used[i as usize] = 1;
        let label = random.below(8);
        text += &format!("{i}{}{above}:{label}\n", if label < 4 { '-' } else { '>' });
    }
    text
}
