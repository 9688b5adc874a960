//! A random plant written as text, each thing in one of the forms that it may have, over one to three files.
use super::made::{is_digits, Labels, Made, Tree};
use pensummer_tests::random::Random;
use pensummer_tests::reading::FORBIDDEN;

/// Whether a name may stand without quotes.
fn is_bare(name: &str, of_label: bool) -> bool {
    let inside = |c: char| c.is_ascii_alphanumeric() || "_.".contains(c) || !c.is_ascii() || of_label && c == '-';
    name.chars().all(inside) && !name.starts_with('-') && !name.ends_with('-')
}

/// A text while it is written.
struct Writer<'a> {
    random: &'a mut Random,
    out: Vec<u8>,
    /// Whether lines of nothing or a comment, odd blanks and line ends come in.
    odd: bool,
    /// Whether only forms of the old grammar are used.
    old: bool,
}

impl Made {
    /// The texts: all in one; or a table and both trees; or a table and a tree each.
    pub fn texts(&self, random: &mut Random) -> Vec<Vec<u8>> {
        let files = if self.old { 1 } else { 1 + random.below(3) };
        let word = |random: &mut Random, own: &'static str| if files == 3 && random.once_in(2) { "tree" } else { own };
        let odd = !random.once_in(4);
        let mut texts = Vec::new();
        let mut writer = Writer { random, out: Vec::new(), odd, old: self.old };
        writer.table(self);
        for (at, own) in ["recorded", "found"].into_iter().enumerate() {
            if at + 2 <= files {
                texts.push(writer.whole());
            }
            let own = word(writer.random, own);
            writer.tree(self, own, &self.trees[at]);
        }
        texts.push(writer.whole());
        texts
    }
}

impl Writer<'_> {
    /// What is written so far, as a file; the next one is empty.
    fn whole(&mut self) -> Vec<u8> {
        self.filling();
        let mut out = std::mem::take(&mut self.out);
        if out.ends_with(b"\n") && self.random.once_in(4) {
            out.pop();
        }
        if !self.old && self.random.once_in(4) {
            out.splice(0..0, *b"\xEF\xBB\xBF");
        }
        out
    }

    fn blanks(&mut self, least: usize) -> String {
        let more = if self.odd && self.random.once_in(5) { self.random.below(4) } else { 0 };
        (0..least + more).map(|_| if self.odd && self.random.once_in(4) { '\t' } else { ' ' }).collect()
    }

    fn end(&mut self) {
        if self.odd && self.random.once_in(6) {
            self.comment();
        }
        self.out.extend(if self.odd && self.random.once_in(4) { &b"\r\n"[..] } else { b"\n" });
    }

    /// A comment of any bytes.
    fn comment(&mut self) {
        self.out.push(b'#');
        for _ in 0..self.random.below(12) {
            let any = self.random.byte();
            let byte = if self.random.once_in(3) { any } else { *self.random.pick(b"\"#\\ab-=:0, ") };
            self.out.push(if byte == b'\n' { b'"' } else { byte });
        }
    }

    /// Lines that say nothing.
    fn filling(&mut self) {
        while self.odd && self.random.once_in(6) {
            let blanks = self.blanks(0);
            self.out.extend(blanks.bytes());
            self.end();
        }
    }

    /// A line of words.
    fn line(&mut self, words: &[String]) {
        self.filling();
        for (at, word) in words.iter().enumerate() {
            let blanks = self.blanks(usize::from(at > 0));
            self.out.extend(blanks.bytes().chain(word.bytes()));
        }
        let blanks = self.blanks(0);
        self.out.extend(blanks.bytes());
        self.end();
    }

    fn number(&mut self, number: usize) -> String {
        let zeros = if self.odd && self.random.once_in(8) { self.random.below(30) } else { 0 };
        format!("{}{number}", "0".repeat(zeros))
    }

    fn weight(&mut self, weight: i32) -> String {
        if weight == FORBIDDEN && !self.random.once_in(8) {
            return "forbidden".into();
        }
        let digits = self.number(weight.unsigned_abs() as usize);
        let minus = weight < 0 || weight == 0 && self.random.once_in(8);
        format!("{}{digits}", if minus { "-" } else { "" })
    }

    /// A name with its blanks as any, and some at its ends.
    fn spread(&mut self, name: &str) -> String {
        let words: Vec<&str> = name.split(' ').collect();
        let mut text = self.blanks(0);
        for (at, word) in words.iter().enumerate() {
            text += &self.blanks(usize::from(at > 0));
            text += word;
        }
        text + &self.blanks(0)
    }

    /// A name in quotes, or bare where it can be.
    fn name(&mut self, name: &str, bare: bool) -> String {
        if bare && self.random.once_in(2) {
            return name.into();
        }
        format!("\"{}\"", self.spread(&name.replace('\\', "\\\\").replace('"', "\\\"")))
    }

    /// A label by its number, or by its name.
    fn label(&mut self, labels: &Labels, label: usize) -> String {
        if !self.old && labels.has_own_name(label) && self.random.once_in(2) {
            let name = &labels.names[label];
            return self.name(name, !is_digits(name) && is_bare(name, true));
        }
        self.number(label)
    }

    fn table(&mut self, made: &Made) {
        let counts = vec!["labels".into(), self.number(made.vertex.count), self.number(made.edge.count)];
        self.line(&counts);
        let mut both = [self.lines_of("vertex", &made.vertex), self.lines_of("edge", &made.edge)];
        // names stand anywhere; rows keep their order, and in the old grammar those of vertices come first
        let mut names = [self.names_of("vertex", &made.vertex), self.names_of("edge", &made.edge)];
        while names.iter().chain(&both).any(|lines| !lines.is_empty()) {
            let which = self.random.below(2);
            if self.random.once_in(3) && !names[which].is_empty() {
                let line = names[which].remove(0);
                self.names_line(&line);
            }
            let which = if made.old { usize::from(both[0].is_empty()) } else { self.random.below(2) };
            if !both[which].is_empty() {
                let line = both[which].remove(0);
                self.line(&line);
            }
        }
    }

    /// A line of names is put together already: blanks count as they are.
    fn names_line(&mut self, line: &[String]) {
        self.filling();
        let blanks = self.blanks(0);
        self.out.extend(blanks.bytes().chain(line.concat().bytes()));
        self.end();
    }

    fn names_of(&mut self, kind: &str, labels: &Labels) -> Vec<Vec<String>> {
        if labels.names.is_empty() {
            return Vec::new();
        }
        let names: Vec<String> = labels.names.iter().map(|name| self.spread(name)).collect();
        vec![vec![format!("{kind}-names"), self.blanks(1), names.join(",")]]
    }

    fn lines_of(&mut self, kind: &str, labels: &Labels) -> Vec<Vec<String>> {
        let short = match &labels.short {
            Some(short) => short,
            None => {
                let row = |writer: &mut Self, row: &Vec<i32>| -> Vec<String> {
                    std::iter::once(kind.to_owned()).chain(row.iter().map(|&weight| writer.weight(weight)).collect::<Vec<_>>()).collect()
                };
                return labels.rows.iter().map(|weights| row(self, weights)).collect();
            }
        };
        let mut lines = vec![vec![format!("{kind}-default"), self.weight(short.default)]];
        if let Some(equal) = short.equal {
            lines.push(vec![format!("{kind}-equal"), self.weight(equal)]);
        }
        for &(a, b, weight) in &short.pairs {
            lines.push(vec![format!("{kind}-pair"), self.label(labels, a), self.label(labels, b), self.weight(weight)]);
        }
        self.random.shuffle(&mut lines);
        lines
    }

    fn vertex(&mut self, made: &Made, tree: &Tree, u: usize) -> String {
        let label = self.label(&made.vertex, tree.labels[u]);
        match &tree.names[u] {
            Some(name) => format!("{}={label}", self.name(name, is_bare(name, false))),
            None => label,
        }
    }

    /// An end of an edge by its number, or by its name.
    fn edge_end(&mut self, tree: &Tree, u: usize) -> String {
        match tree.names.get(u) {
            Some(Some(name)) if self.random.once_in(2) => self.name(name, is_bare(name, false)),
            _ => self.number(u),
        }
    }

    /// The sign between the ends of an edge, by its label; with one above 7, which no edge has, it may be either.
    fn sign(&mut self, label: usize) -> char {
        match label {
            4..=7 if !self.old => '>',
            8.. if !self.old => *self.random.pick(&['-', '>']),
            _ => '-',
        }
    }

    fn edge(&mut self, made: &Made, tree: &Tree, (a, b, label): (usize, usize, usize)) -> String {
        let ends = format!("{}{}{}", self.edge_end(tree, a), self.sign(label), self.edge_end(tree, b));
        if label == 0 && self.random.once_in(2) {
            return ends;
        }
        format!("{ends}:{}", self.label(&made.edge, label))
    }

    /// The lines of serials: of all vertices in order, or of those that are known, and some others, by their names.
    fn serial_lines(&mut self, tree: &Tree) -> Vec<Vec<String>> {
        let named = self.random.once_in(2);
        let mut words = Vec::new();
        for (u, &serial) in tree.serials.iter().flatten().enumerate() {
            let number = self.number(serial as usize);
            if !named {
                words.push(number);
            } else if serial != 0 || self.random.once_in(3) {
                words.push(format!("{}={number}", self.edge_end(tree, u)));
            }
        }
        if named {
            self.random.shuffle(&mut words);
        }
        if tree.serials.is_some() && words.is_empty() {
            words.push(format!("{}=0", self.edge_end(tree, 0)));
        }
        let mut lines: Vec<Vec<String>> = Vec::new();
        for word in words {
            match lines.last_mut() {
                Some(line) if !self.random.once_in(6) => line.push(word),
                _ => lines.push(vec!["serials".into(), word]),
            }
        }
        lines
    }

    /// The tree's line with its vertices; the last ones may follow, beside the edges, if they all have names. Serials stand anywhere after
    /// it.
    fn tree(&mut self, made: &Made, word: &str, tree: &Tree) {
        let named = tree.names.iter().rev().take_while(|name| name.is_some()).count();
        let on_line = tree.labels.len() - self.random.below(named + 1);
        let mut first = vec![word.to_owned()];
        for u in 0..on_line {
            first.push(self.vertex(made, tree, u));
        }
        self.line(&first);
        let mut serials = self.serial_lines(tree).into_iter().peekable();
        let mut vertices = (on_line..tree.labels.len()).collect::<Vec<_>>().into_iter().peekable();
        let mut edges = tree.edges.iter().peekable();
        let mut words = Vec::new();
        while vertices.peek().is_some() || edges.peek().is_some() {
            match (vertices.peek(), self.random.once_in(2)) {
                (Some(&u), true) => words.push(self.vertex(made, tree, vertices.next().unwrap_or(u))),
                _ => words.extend(edges.next().map(|&edge| self.edge(made, tree, edge))),
            }
            if self.random.once_in(4) && !words.is_empty() {
                self.tree_line(std::mem::take(&mut words));
            }
            if words.is_empty() && serials.peek().is_some() && self.random.once_in(3) {
                self.line(&serials.next().unwrap_or_default());
            }
        }
        if !words.is_empty() {
            self.tree_line(words);
        }
        serials.for_each(|line| self.line(&line));
    }

    /// A further line of a tree. An edge that looks like the word of a line of names does not begin it: whether it may is tested apart.
    fn tree_line(&mut self, mut words: Vec<String>) {
        if words[0] == "vertex-names" || words[0] == "edge-names" {
            words[0] = words[0].replace("names", "\"names\"");
        }
        self.line(&words);
    }
}
