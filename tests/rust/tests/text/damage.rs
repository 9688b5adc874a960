//! Damage to texts, and texts that never were any: random bytes, and words of the grammar in no order.
use pensummer_tests::random::Random;

/// What stands in the way of a reader, between bars.
const ODD: &[u8] = b"\"|\\|\\\"|#|=|-|:|,|\0|\r|\n|\t| |\x0B|\x7F|\xFF|\xC3|\xED\xA0\x80|\xEF\xBB\xBF|\xC2\x9B|\xE2\x80\xA8|\"a\tb\"|\
    99999999999999999999|-1|256|-2147483649|0-1|>|0>1:4|:5|a=0|\"\"|forbidden|\nfound 0\n|\nlabels 1 1\n|\ntree|\
    \nserials 0 1\n|\nserials 0=7\n|4294967296|serials ";

/// Words of the grammar, and what looks like some, between bars.
const WORDS: &str = "labels|vertex|edge|vertex-names|edge-names|vertex-default|edge-default|vertex-equal|edge-equal|vertex-pair|edge-pair|\
    recorded|found|tree|serials|\nserials|\nserials 7 8|0=7|a=4294967295|1=4294967296|forbidden|0|1|2|00|-5|255|256|4294967296|a|b|a,b|,|P1=0|P2=a|a=1|\"a b\"=0|\"a b\"|0-1|1-0:0|a-P1|P1-P2:a|\
    0>1:4|P1>0:7|a>P1|0-1:5|>|\"a b\"-0|1-2:1|=|-|:|\"|\\|#|\"\\\"\"=1|vertex-|edge-x";

/// Damages a text once.
pub fn damage(text: &mut Vec<u8>, random: &mut Random) {
    let at = random.below(text.len() + 1);
    match random.below(12) {
        0 if at < text.len() => text[at] ^= 1 << random.below(8),
        1 if at < text.len() => text[at] = random.byte(),
        2 => drop(text.drain(at..(at + 1 + random.below(8)).min(text.len()))),
        3 | 4 => {
            let odd: Vec<&[u8]> = ODD.split(|&b| b == b'|').collect();
            text.splice(at..at, random.pick(&odd).iter().copied());
        }
        5 => {
            let piece = text[at..(at + random.below(40)).min(text.len())].to_vec();
            let to = random.below(text.len() + 1);
            text.splice(to..to, piece);
        }
        6 => text.truncate(at),
        7 | 8 => damage_lines(text, random),
        9 | 10 => swap_words(text, random),
        _ => grow_number(text, random),
    }
}

fn lines(text: &[u8]) -> Vec<Vec<u8>> {
    text.split_inclusive(|&b| b == b'\n').map(<[u8]>::to_vec).collect()
}

/// Lines swapped, dropped or doubled.
fn damage_lines(text: &mut Vec<u8>, random: &mut Random) {
    let mut lines = lines(text);
    if lines.is_empty() {
        return;
    }
    let (a, b) = (random.below(lines.len()), random.below(lines.len()));
    match random.below(3) {
        0 => lines.swap(a, b),
        1 => drop(lines.remove(a)),
        _ => lines.insert(b, lines[a].clone()),
    }
    *text = lines.concat();
}

/// The words of a text as ranges of bytes.
fn words(text: &[u8]) -> Vec<(usize, usize)> {
    let mut words = Vec::new();
    let mut start = None;
    for at in 0..=text.len() {
        let blank = text.get(at).map_or(true, u8::is_ascii_whitespace);
        match start {
            None if !blank => start = Some(at),
            Some(from) if blank => {
                words.push((from, at));
                start = None;
            }
            _ => (),
        }
    }
    words
}

fn swap_words(text: &mut Vec<u8>, random: &mut Random) {
    let words = words(text);
    if words.is_empty() {
        return;
    }
    let (a, b) = (*random.pick(&words), *random.pick(&words));
    let (first, second) = (a.min(b), a.max(b));
    if first != second {
        let (one, other) = (text[first.0..first.1].to_vec(), text[second.0..second.1].to_vec());
        text.splice(second.0..second.1, one);
        text.splice(first.0..first.1, other);
    }
}

/// Digits put after a digit.
fn grow_number(text: &mut Vec<u8>, random: &mut Random) {
    let digits: Vec<usize> = (0..text.len()).filter(|&at| text[at].is_ascii_digit()).collect();
    if !digits.is_empty() {
        let at = *random.pick(&digits);
        let count = *random.pick(&[1, 2, 9, 400]);
        text.splice(at..at, (0..count).map(|_| b'0' + random.below(10) as u8).collect::<Vec<_>>());
    }
}

pub fn random_bytes(random: &mut Random) -> Vec<u8> {
    (0..random.below(200)).map(|_| random.byte()).collect()
}

/// Words of the grammar, sometimes after a right beginning.
pub fn salad(random: &mut Random) -> Vec<u8> {
    let begin = ["", "labels 1 1\n", "labels 2 1\nvertex-default 1\nedge 1\n", "labels 1 1\nvertex 1\nedge 1\nrecorded 0 a=0\n"];
    let words: Vec<&str> = WORDS.split('|').collect();
    let mut text = String::from(*random.pick(&begin));
    for _ in 0..random.below(30) {
        text += *random.pick(&words);
        text += *random.pick(&[" ", " ", " ", "\t", "\n", "\n", "\r\n", ""]);
    }
    text.into_bytes()
}

/// The table and the beginning of a recorded tree.
const BEGIN: &str = "labels 1 1\nvertex 1\nedge 1\nrecorded a=0 \"b c\"=0\n";

/// What a long text is of, how it begins, and what follows again and again.
const LONG: [(&str, &str, &str); 26] = [
    ("blank lines", "", "\n"),
    ("blanks", "", " \t"),
    ("comment signs", "", "#"),
    ("comments", "", "# a\r\n"),
    ("quotes", "", "\""),
    ("backslashes in quotes", "recorded \"", "\\"),
    ("quoted quotes", "recorded \"", "\\\""),
    ("a digit", "labels ", "1"),
    ("zeros", "labels ", "0"),
    ("commas", "labels 1 1\nvertex-names ", ","),
    ("names", "labels 1 1\nvertex-names ", "a,"),
    ("weights", "labels 255 1\nvertex ", "1 "),
    ("edges in a line", BEGIN, "0-1 "),
    ("edges in lines", BEGIN, "0-1\n"),
    ("edges by quoted names", BEGIN, "\"b c\"-a:0\n"),
    ("vertices", BEGIN, "x=0 "),
    ("minus signs", BEGIN, "-"),
    ("directed edges", BEGIN, "0>1:4 "),
    ("greater signs", BEGIN, "0>"),
    ("UTF-8 that ends badly", "labels 1 1\nvertex-names ", "ä\u{10ffff}"),
    ("no known name", BEGIN, "a-z "),
    ("lines of names", "labels 1 1\n", "edge-names a\nvertex-names b\n"),
    ("lines of serials", BEGIN, "serials 0 1\n"),
    ("lines of serials by quoted names", BEGIN, "serials \"b c\"=7 a=0\n"),
    ("equals signs", BEGIN, "serials a=0=\n"),
    ("empty lines of serials", BEGIN, "serials\n"),
];

/// Texts of nearly `most` bytes, each of much of one thing, with what it is.
pub fn long_texts(most: usize) -> Vec<(&'static str, Vec<u8>)> {
    let all_names: String = (0..255).map(|name| format!(" n{name:0>9}=0")).collect();
    let labels: Vec<String> = (0..255).map(|label| format!("label {label}")).collect();
    let named = format!("labels 255 1\nvertex-names {}\nvertex-default 1\nedge 1\n", labels.join(","));
    let mut texts: Vec<(&str, String, String)> = LONG.iter().map(|&(what, begin, piece)| (what, begin.into(), piece.into())).collect();
    let edges = (0..254).map(|at| format!("n{at:0>9}-n{:0>9}\n", at + 1)).collect();
    texts.push(("edges by many names", format!("labels 1 1\nvertex 1\nedge 1\nrecorded{all_names}\n"), edges));
    let serials: String = (0..255).map(|at| format!(" n{at:0>9}=7")).collect();
    texts.push(("serials by many names", format!("labels 1 1\nvertex 1\nedge 1\nrecorded{all_names}\nserials"), serials));
    texts.push(("serials in a line", format!("{BEGIN}serials "), "0 ".into()));
    texts.push(("the digits of a serial", format!("{BEGIN}serials "), "0".into()));
    let pairs = (0..255).map(|at| format!("vertex-pair \"label 254\" \"label {at}\" 5\n")).collect();
    texts.push(("pairs by names", named, pairs));
    let fill = |begin: String, piece: String| begin.clone() + &piece.repeat((most - begin.len()) / piece.len());
    texts.into_iter().map(|(what, begin, piece)| (what, fill(begin, piece).into_bytes())).collect()
}
