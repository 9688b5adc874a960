//! Tests the pictures: that their XML is well formed, that they show the mapping, that nothing overlaps, and that large
//! ones can be read on a page.
use desk::answer::{Answer, Certainty};
use desk::graph::Graph;
use desk::picture::{picture, widths};
use desk::plant::{At, Edge, Place, Plant, Serial, Table, Tree, Vertex, Weights};
use std::collections::{BTreeMap, BTreeSet};

// Plants and answers

fn place() -> Place {
    Place { file: "test".into(), at: At::Byte(0) }
}

fn weights(labels: usize, names: &[&str]) -> Weights {
    let names = names.iter().map(|name| name.to_string()).collect();
    Weights { rows: vec![vec![1; labels]; labels], places: vec![vec![place(); labels]; labels], names }
}

/// Vertices by their labels, edges by their ends and their labels.
#[derive(Clone, Debug, Default)]
struct Shape {
    labels: Vec<u8>,
    edges: Vec<(u8, u8, u8)>,
    names: Vec<Option<String>>,
    /// Of every vertex, 0 for unknown, or none at all.
    serials: Vec<u32>,
}

impl Shape {
    fn tree(&self) -> Tree {
        let name = |u: usize| self.names.get(u).cloned().flatten();
        let vertices = self.labels.iter().enumerate().map(|(u, &label)| Vertex { label, name: name(u), place: place() }).collect();
        let edges = self.edges.iter().map(|&(a, b, label)| Edge { ends: [a, b], label, text: String::new(), place: place() }).collect();
        let serials: Vec<Serial> = self.serials.iter().map(|&number| Serial { number, place: place() }).collect();
        Tree { vertices, edges, serials: Some(serials).filter(|serials| !serials.is_empty()), place: place() }
    }

    fn parents(parents: &[usize]) -> Shape {
        let edges = parents.iter().enumerate().map(|(u, &parent)| (parent as u8, u as u8 + 1, 0)).collect();
        Shape { labels: vec![0; parents.len() + 1], edges, ..Shape::default() }
    }
}

fn plant(vertex: Weights, edge: Weights, recorded: &Shape, found: &Shape) -> Plant {
    Plant { table: Table { vertex, edge, place: place() }, recorded: recorded.tree(), found: found.tree() }
}

fn answer(plant: &Plant, partner: Vec<Option<usize>>) -> Answer<'_> {
    let mut back = vec![None; plant.found.size()];
    partner.iter().enumerate().filter_map(|(u, v)| v.map(|v| (u, v))).for_each(|(u, v)| back[v] = Some(u));
    let (certain, found_certain) = (vec![Certainty::Certain; partner.len()], vec![Certainty::Certain; back.len()]);
    Answer {
        plant,
        recorded: Graph::of(&plant.recorded),
        found: Graph::of(&plant.found),
        weight: 130,
        partner,
        back,
        certain,
        found_certain,
    }
}

const DEVICES: [&str; 6] = ["circulation pump", "filter", "heater", "chlorine pump", "acid pump", "probe"];

const EDGES: [&str; 8] = ["pipe", "signal line", "power cable", "hose", "suction pipe", "pressure pipe", "return pipe", "dosing hose"];

/// A tree as a plant's text has it: labels, and edges like `0-1`, `0-1:2` or `0>1:4`.
fn shape(labels: &str, edges: &str) -> Shape {
    let number = |s: &str| s.parse::<u8>().expect("a number");
    let edge = |s: &str| {
        let (ends, label) = s.split_once(':').unwrap_or((s, "0"));
        let (a, b) = ends.split_once(['-', '>']).expect("an edge");
        (number(a), number(b), number(label))
    };
    Shape { labels: labels.split(' ').map(number).collect(), edges: edges.split(' ').map(edge).collect(), ..Shape::default() }
}

/// Partners as numbers, `-` for none.
fn partners(text: &str) -> Vec<Option<usize>> {
    text.split(' ').map(|s| s.parse().ok()).collect()
}

/// examples/pool.txt and its answer.
fn pool() -> (Plant, Vec<Option<usize>>) {
    let recorded = shape("0 1 2 3 4 5", "0-1 1-2 2-3 2-4 3-5:1");
    let found = shape("3 4 1 1 0 5 5", "0-2 1-2 2-3 3-4 0-5:1 1-6:1");
    (plant(weights(6, &DEVICES), weights(2, &["pipe", "signal line"]), &recorded, &found), partners("4 3 2 0 1 5"))
}

/// examples/cellar.txt and its answer.
fn cellar() -> (Plant, Vec<Option<usize>>) {
    let names = ["manifold", "circulation pump", "filter", "heater", "chlorine pump", "acid pump", "probe", "valve", "flow switch"];
    let recorded = shape(
        "0 7 1 2 3 4 6 5 7 1 2 3 4 6 5 7 7 8 6",
        "0-1 1-2 2-3 3-4 4-5:2 5-6:1 4-7:2 0-8 8-9 9-10 10-11 11-12:2 12-13:1 11-14:2 0-15 0-16 16-17:1 0-18:1",
    );
    let found = shape(
        "6 4 5 3 2 1 7 0 7 1 2 4 5 6 7 8 7 8 6",
        "0-1:1 1-3:2 2-3:2 3-4 4-5 5-6 6-7 7-8 8-9 9-10 10-11:2 10-12:2 11-13:1 7-14 14-15:1 7-16 16-17:1 7-18:1",
    );
    let partner = partners("7 6 5 4 3 1 0 2 8 9 10 - - - - 16 14 15 18");
    (plant(weights(9, &names), weights(3, &["pipe", "signal line", "hose"]), &recorded, &found), partner)
}

// Random shapes

struct Random(u64);

impl Random {
    fn below(&mut self, n: usize) -> usize {
        self.0 ^= self.0 << 13;
        self.0 ^= self.0 >> 7;
        self.0 ^= self.0 << 17;
        ((self.0 >> 11) % n as u64) as usize
    }

    fn shuffled(&mut self, n: usize) -> Vec<usize> {
        let mut order: Vec<usize> = (0..n).collect();
        (1..n).for_each(|i| order.swap(i, self.below(i + 1)));
        order
    }
}

/// The degrees of vertices, up to 8.
fn degrees(shape: &Shape) -> Vec<usize> {
    let mut degrees = vec![0; shape.labels.len()];
    shape.edges.iter().flat_map(|&(a, b, _)| [a, b]).for_each(|u| degrees[u as usize] += 1);
    degrees
}

/// Adds vertices up to `n`, each at one of the last `window` vertices that has room.
fn grown(mut shape: Shape, n: usize, window: usize, random: &mut Random) -> Shape {
    while shape.labels.len() < n {
        let size = shape.labels.len();
        let parent = size - 1 - random.below(size.min(window));
        if degrees(&shape)[parent] < 8 {
            shape.labels.push(0);
            shape.edges.push((parent as u8, size as u8, 0));
        }
    }
    shape
}

/// A random labelled tree, all of them alike, of those with degree up to 8.
fn labelled(n: usize, random: &mut Random) -> Shape {
    let mut shape = Shape { labels: vec![0; n], ..Shape::default() };
    let mut seen = vec![false; n];
    let mut at = 0;
    seen[0] = true;
    while shape.edges.len() + 1 < n {
        let to = random.below(n);
        if !seen[to] && degrees(&shape)[at] < 8 {
            shape.edges.push((at as u8, to as u8, 0));
            seen[to] = true;
        }
        at = if seen[to] { to } else { at };
    }
    shape
}

/// Renumbers the vertices: `to[u]` is the new number.
fn renumbered(shape: &Shape, to: &[usize]) -> Shape {
    let mut other = shape.clone();
    (0..to.len()).for_each(|u| other.labels[to[u]] = shape.labels[u]);
    other.edges = shape.edges.iter().map(|&(a, b, l)| (to[a as usize] as u8, to[b as usize] as u8, l)).collect();
    other
}

/// Random labels of vertices and of edges, which run either way.
fn labels(shape: &mut Shape, vertex: usize, edge: usize, random: &mut Random) {
    shape.labels.iter_mut().for_each(|label| *label = random.below(vertex) as u8);
    shape.edges.iter_mut().for_each(|e| *e = any_way(*e, edge, random));
}

/// The edge with its ends in any order, and a random label.
fn any_way((a, b, _): (u8, u8, u8), labels: usize, random: &mut Random) -> (u8, u8, u8) {
    let (first, second) = if random.below(2) == 0 { (a, b) } else { (b, a) };
    (first, second, random.below(labels) as u8)
}

/// A connected part of the tree: so many vertices from a random one on.
fn part(shape: &Shape, n: usize, random: &mut Random) -> Vec<usize> {
    let mut chosen = if n == 0 { Vec::new() } else { vec![random.below(shape.labels.len())] };
    while chosen.len() < n {
        let &(a, b, _) = &shape.edges[random.below(shape.edges.len())];
        let (a, b) = (a as usize, b as usize);
        match (chosen.contains(&a), chosen.contains(&b)) {
            (true, false) => chosen.push(b),
            (false, true) => chosen.push(a),
            _ => {}
        }
    }
    chosen
}

/// Another edge label, of a directed edge that of a directed one.
fn another(label: u8) -> u8 {
    if label < 4 {
        1 - label.min(1)
    } else {
        4 + (label + 1) % 4
    }
}

/// Random labels for the edges of vertices without a partner.
fn free_edges(found: &mut Shape, partner: &[Option<usize>], edge: usize, random: &mut Random) {
    let mapped = |v: u8| partner.contains(&Some(v.into()));
    found.edges.iter_mut().filter(|e| !mapped(e.0) || !mapped(e.1)).for_each(|e| *e = any_way(*e, edge, random));
}

/// A found tree with a copy of a part of the recorded tree, and the partners; labels stay the same but for `odds` in a
/// hundred.
fn found_with(
    recorded: &Shape,
    chosen: &[usize],
    n: usize,
    window: usize,
    odds: usize,
    random: &mut Random,
) -> (Shape, Vec<Option<usize>>) {
    let at = |u: u8| chosen.iter().position(|&c| c == usize::from(u)).map(|at| at as u8);
    let mut edges: Vec<(u8, u8, u8)> = recorded.edges.iter().filter_map(|&(a, b, l)| Some((at(a)?, at(b)?, l))).collect();
    edges.iter_mut().for_each(|e| e.2 = if random.below(100) < odds { another(e.2) } else { e.2 });
    let mut kept = Shape { labels: chosen.iter().map(|&u| recorded.labels[u]).collect(), edges, ..Shape::default() };
    kept.labels.iter_mut().for_each(|l| *l = if random.below(100) < odds { 0 } else { *l });
    if kept.labels.is_empty() {
        kept.labels.push(0);
    }
    let whole = grown(kept, n.max(chosen.len()).max(1), window, random);
    let to = random.shuffled(whole.labels.len());
    let mut partner = vec![None; recorded.labels.len()];
    chosen.iter().enumerate().for_each(|(at, &u)| partner[u] = Some(to[at]));
    (renumbered(&whole, &to), partner)
}

// Reading the picture

#[derive(Clone, Debug)]
struct Element {
    tag: String,
    /// Its own and those of the groups around it.
    values: BTreeMap<String, String>,
    text: String,
}

impl Element {
    fn get(&self, key: &str) -> &str {
        self.values.get(key).map_or("", String::as_str)
    }

    fn number(&self, key: &str) -> f64 {
        self.get(key).parse().unwrap_or_else(|_| panic!("{key} of {self:?} is no number"))
    }
}

/// Reads attributes: ` key="value"` again and again.
fn attributes(mut rest: &str) -> BTreeMap<String, String> {
    let mut values = BTreeMap::new();
    while !rest.is_empty() {
        let (key, after) = rest.trim_start().split_once("=\"").unwrap_or_else(|| panic!("no attribute: {rest}"));
        let (value, after) = after.split_once('"').expect("a value has no end");
        assert!(rest.starts_with(' ') && key.chars().all(|c| c.is_ascii_alphanumeric() || c == '-'), "no attribute: {rest}");
        assert!(!value.contains('<') && values.insert(key.to_string(), value.to_string()).is_none());
        rest = after;
    }
    values
}

fn unescaped(text: &str) -> String {
    let bare = ["&amp;", "&lt;", "&gt;", "&quot;"].iter().fold(text.to_string(), |text, entity| text.replace(entity, ""));
    assert!(!bare.contains('&') && !bare.contains('>') && !bare.contains('"'), "not escaped: {text}");
    text.replace("&lt;", "<").replace("&gt;", ">").replace("&quot;", "\"").replace("&amp;", "&")
}

/// The elements in the order in which they end. Panics where the XML is not well formed.
fn read(svg: &str) -> Vec<Element> {
    let mut rest = svg.strip_prefix("<?xml version=\"1.0\" encoding=\"UTF-8\"?>\n").expect("no XML");
    let (mut open, mut done): (Vec<Element>, Vec<Element>) = (Vec::new(), Vec::new());
    while let Some(at) = rest.find('<') {
        let text = &rest[..at];
        assert!(!open.is_empty() || text.trim().is_empty(), "text outside: {text}");
        if let Some(element) = open.last_mut() {
            element.text += &unescaped(text);
        }
        let (tag, after) = rest[at + 1..].split_once('>').expect("a tag has no end");
        rest = after;
        if let Some(name) = tag.strip_prefix('/') {
            let element = open.pop().expect("nothing is open");
            assert_eq!(element.tag, name);
            done.push(element);
            continue;
        }
        let whole = tag.strip_suffix('/').unwrap_or(tag);
        let (name, values) = whole.split_at(whole.find(' ').unwrap_or(whole.len()));
        let mut all = open.last().map_or(BTreeMap::new(), |element| element.values.clone());
        all.extend(attributes(values));
        let element = Element { tag: name.to_string(), values: all, text: String::new() };
        (if tag.ends_with('/') { &mut done } else { &mut open }).push(element);
    }
    assert!(open.is_empty() && rest.trim().is_empty());
    done
}

#[derive(Clone, Debug)]
struct Circle {
    side: usize,
    vertex: usize,
    x: f64,
    y: f64,
    r: f64,
    fill: String,
    title: String,
    text: String,
}

/// A picture, read.
struct Seen {
    elements: Vec<Element>,
    circles: Vec<Circle>,
    width: f64,
    height: f64,
}

fn seen(svg: &str) -> Seen {
    let elements = read(svg);
    let mut circles: Vec<Circle> = Vec::new();
    for (i, circle) in elements.iter().enumerate().filter(|(_, element)| element.tag == "circle") {
        let title = elements[i - 1].text.clone();
        let side = usize::from(title.starts_with("found vertex "));
        let (x, y, r) = (circle.number("cx"), circle.number("cy"), circle.number("r"));
        let vertex = elements[i + 1].text.parse().expect("a number");
        assert!(title.starts_with(&format!("{} vertex {vertex}, ", ["recorded", "found"][side])), "{title}");
        circles.push(Circle { side, vertex, x, y, r, fill: circle.get("fill").to_string(), title, text: elements[i + 2].text.clone() });
    }
    let svg = elements.last().expect("an element");
    let (width, height) = (svg.number("width"), svg.number("height"));
    assert_eq!(svg.get("viewBox"), format!("0 0 {width} {height}"));
    Seen { elements, circles, width, height }
}

impl Seen {
    fn all(&self, tag: &str) -> Vec<&Element> {
        self.elements.iter().filter(|element| element.tag == tag).collect()
    }

    fn legend(&self) -> String {
        let texts: Vec<&str> = self.all("text").into_iter().filter(|t| t.get("fill") == "#333").map(|t| t.text.as_str()).collect();
        texts.join(" ")
    }

    /// The size in points of the smallest text of a vertex, on a page of A4 with margins of 10 mm.
    fn points(&self) -> f64 {
        let scale = (190.0 / self.width).min(277.0 / self.height) / 25.4 * 72.0;
        let fonts = self.elements.iter().enumerate().filter(|(_, e)| e.tag == "circle");
        scale * fonts.flat_map(|(i, _)| [1, 2].map(|k| self.elements[i + k].number("font-size"))).fold(f64::MAX, f64::min)
    }

    /// Of each circle how many vertices are folded into it.
    fn folded(&self) -> Vec<(&Circle, usize)> {
        let more = |circle: &Circle| circle.text.rsplit_once(" and ").and_then(|(_, n)| n.split_once(" more")?.0.parse().ok());
        self.circles.iter().filter_map(|circle| more(circle).map(|n| (circle, n))).collect()
    }
}

// What must hold of every picture

#[derive(Clone, Copy, Debug)]
struct Area {
    x: [f64; 2],
    y: [f64; 2],
}

impl Area {
    fn meets(&self, other: &Area) -> bool {
        let meet = |a: [f64; 2], b: [f64; 2]| a[0] < b[1] - 0.05 && b[0] < a[1] - 0.05;
        meet(self.x, other.x) && meet(self.y, other.y)
    }

    /// How far a point is from it.
    fn distance(&self, x: f64, y: f64) -> f64 {
        let off = |at: f64, [from, to]: [f64; 2]| (from - at).max(at - to).max(0.0);
        off(x, self.x).hypot(off(y, self.y))
    }
}

fn text_area(text: &Element) -> Area {
    let font = text.number("font-size");
    let bold = text.get("font-weight") == "bold";
    let width = if bold { widths::bold(&text.text, font) } else { widths::of(&text.text, font) };
    let back = match text.get("text-anchor") {
        "middle" => width / 2.0,
        "end" => width,
        _ => 0.0,
    };
    let (x, y) = (text.number("x") - back, text.number("y"));
    let digits = text.text.chars().all(|c| c.is_ascii_digit() || c == '!');
    Area { x: [x, x + width], y: [y - 0.72 * font, y + if digits { 0.0 } else { 0.21 * font }] }
}

/// The straight pieces of a path of `M x y`, `V y`, `H x` and `Q x y x y`, as wide as it is drawn; a curve belongs to
/// what follows.
fn path_areas(path: &Element) -> Vec<Area> {
    let (mut areas, mut at) = (Vec::new(), [0.0, 0.0]);
    let half = path.number("stroke-width") / 2.0;
    let d = path.get("d").replace(['M', 'V', 'H', 'Q'], ";").replacen(';', "", 1);
    let ways = path.get("d").chars().filter(char::is_ascii_alphabetic);
    for (way, numbers) in ways.zip(d.split(';')) {
        let n: Vec<f64> = numbers.split_whitespace().map(|n| n.parse().expect("a number")).collect();
        let to = match way {
            'V' => [at[0], n[0]],
            'H' => [n[0], at[1]],
            'Q' => [at[0], n[3]],
            _ => [n[0], n[1]],
        };
        let off = |axis: usize| if at[axis] == to[axis] { half } else { 0.0 };
        let span = |axis: usize| [at[axis].min(to[axis]) - off(axis), at[axis].max(to[axis]) + off(axis)];
        if way == 'V' || way == 'H' {
            areas.push(Area { x: span(0), y: span(1) });
        }
        at = to;
    }
    areas
}

/// The corners of an arrow head: its point, and the two of its base.
fn corners(head: &Element) -> [[f64; 2]; 3] {
    let corner = |text: &str| {
        let (x, y) = text.split_once(',').expect("a corner");
        [x, y].map(|n| n.parse::<f64>().expect("a number"))
    };
    let all: Vec<[f64; 2]> = head.get("points").split(' ').map(corner).collect();
    all.try_into().expect("three corners")
}

fn head_area(head: &Element) -> Area {
    let span = |axis: usize| {
        let all = corners(head).map(|corner| corner[axis]);
        [all.into_iter().fold(f64::MAX, f64::min), all.into_iter().fold(f64::MIN, f64::max)]
    };
    Area { x: span(0), y: span(1) }
}

/// No text meets a line, a head, a circle or another text, or runs out of the picture; no line and no head meets a
/// circle, no head a line or another head.
fn nothing_overlaps(seen: &Seen) {
    let texts: Vec<(&Element, Area)> = seen.all("text").into_iter().map(|text| (text, text_area(text))).collect();
    let pairs =
        seen.all("line").into_iter().map(|l| Area { x: [l.number("x1"), l.number("x2")], y: [l.number("y1") - 1.0, l.number("y1") + 1.0] });
    let lines: Vec<Area> = pairs.chain(seen.all("path").into_iter().flat_map(path_areas)).collect();
    for (i, (text, area)) in texts.iter().enumerate() {
        assert!(area.x[0] >= 0.0 && area.x[1] <= seen.width && area.y[0] >= 0.0 && area.y[1] <= seen.height, "runs out: {text:?}");
        assert!(!lines.iter().any(|line| line.meets(area)), "a line meets {text:?}");
        assert!(!texts[..i].iter().any(|(_, other)| other.meets(area)), "a text meets {text:?}");
        let meets =
            |c: &&Circle| area.distance(c.x, c.y) < c.r - 0.3 && !(text.number("x") == c.x && (text.number("y") - c.y - 4.0).abs() < 0.2);
        assert!(!seen.circles.iter().any(|c| meets(&c)), "{:?} meets {text:?}", seen.circles.iter().find(meets));
    }
    let pairs = seen.all("line").len();
    assert!(!lines[..pairs].iter().any(|pair| lines[pairs..].iter().any(|line| line.meets(pair))), "a line across meets another");
    for circle in &seen.circles {
        assert!(!lines.iter().any(|line| line.distance(circle.x, circle.y) < circle.r - 0.4), "a line meets {circle:?}");
    }
    let heads: Vec<Area> = seen.all("polygon").into_iter().map(head_area).collect();
    for (i, head) in heads.iter().enumerate() {
        assert!(!texts.iter().any(|(_, text)| text.meets(head)), "a text meets the head {head:?}");
        // its own line ends before it and goes on behind it
        assert!(!lines.iter().chain(&heads[..i]).any(|other| other.meets(head)), "a line or a head meets the head {head:?}");
        // its point leaves the circle free too
        assert!(!seen.circles.iter().any(|c| head.distance(c.x, c.y) < c.r + 0.4), "a circle meets the head {head:?}");
    }
}

/// Each pair has a line between two circles of its row and colour, vertices have rows of their own, and what is folded
/// has no partner.
fn shows_the_mapping(seen: &Seen, answer: &Answer) {
    let circle = |side: usize, u: usize| seen.circles.iter().find(|c| c.side == side && c.vertex == u);
    let rows: BTreeSet<(usize, String)> = seen.circles.iter().map(|c| (c.side, c.y.to_string())).collect();
    assert_eq!(rows.len(), seen.circles.len(), "two vertices in a row");
    let lines: BTreeMap<String, &Element> =
        seen.all("line").into_iter().filter(|l| l.get("class") == "pair").map(|l| (l.get("y1").to_string(), l)).collect();
    for (u, v) in answer.partner.iter().enumerate().filter_map(|(u, v)| v.map(|v| (u, v))) {
        let (left, right) = (circle(0, u).expect("recorded"), circle(1, v).expect("found"));
        let line = lines[&left.y.to_string()];
        assert!(left.y == right.y && left.fill == right.fill && left.fill != "#fff" && line.get("stroke") == left.fill);
        assert!(line.get("y1") == line.get("y2") && left.x < line.number("x1") && line.number("x1") + 4.0 < line.number("x2"));
        assert!(line.number("x2") < right.x);
        let differ = answer.plant.recorded.label(u) != answer.plant.found.label(v);
        assert_eq!(!line.get("stroke-dasharray").is_empty(), differ);
    }
    let pairs = answer.partner.iter().flatten().count();
    assert_eq!((lines.len(), seen.all("line").len()), (pairs, pairs));
    assert_eq!(seen.circles.iter().filter(|c| c.fill != "#fff").count(), 2 * pairs);
    for side in [0, 1] {
        let shown = seen.circles.iter().filter(|c| c.side == side).count();
        let folded: usize = seen.folded().iter().filter(|(c, _)| c.side == side).map(|(_, n)| n).sum();
        assert_eq!(shown + folded, [answer.partner.len(), answer.back.len()][side]);
    }
    assert_eq!(seen.all("path").len() + 2, seen.circles.len());
}

/// Changed edges are marked in both trees, exactly where labels differ.
fn marks_changes(seen: &Seen, answer: &Answer) {
    let joined = |e: &&Edge| Some((answer.partner[e.ends[0] as usize]?, answer.partner[e.ends[1] as usize]?));
    let changed = answer.plant.recorded.edges.iter().filter(|e| {
        let other = joined(e).and_then(|(a, b)| answer.found.edge(a, b));
        matches!(other, Some(link) if link.label != usize::from(e.label))
    });
    let count = changed.count();
    // recorded edges stand before the first circle
    let first = seen.elements.iter().position(|e| e.tag == "circle");
    let marked: Vec<usize> = (0..seen.elements.len()).filter(|&i| seen.elements[i].get("class") == "changed").collect();
    assert!(marked.iter().all(|&i| seen.elements[i].tag == "path" && !seen.elements[i].get("stroke-dasharray").is_empty()));
    assert_eq!((marked.iter().filter(|&&i| Some(i) < first).count(), marked.len()), (count, 2 * count));
    let labels =
        seen.all("text").into_iter().filter(|t| t.text.ends_with('!') && t.get("font-weight") == "bold" && t.get("fill") == "#333");
    assert_eq!(labels.count(), 2 * count);
    assert_eq!(seen.legend().contains("thick and dashed"), count > 0);
}

/// Whether a vertex is the child of the other one of its edge: further in, or straight below.
fn is_child(u: &Circle, other: &Circle) -> bool {
    let inward = [u.x - other.x, other.x - u.x][u.side];
    inward > 0.05 || inward > -0.05 && u.y > other.y
}

/// The vertex to whose line a head belongs: the one in its row, or else the next one below it.
fn child_of<'a>(seen: &'a Seen, side: usize, head: &Element) -> &'a Circle {
    let [tip, a, b] = corners(head);
    let level = a[0] == b[0];
    let of = |c: &&Circle| c.side == side && if level { c.y == tip[1] } else { c.x == tip[0] && c.y > tip[1] };
    seen.circles.iter().filter(of).min_by(|a, b| a.y.total_cmp(&b.y)).unwrap_or_else(|| panic!("no vertex has {head:?}"))
}

/// The heads by the side and the child of their edge, none of which has two.
fn heads(seen: &Seen) -> BTreeMap<(usize, usize), &Element> {
    // what is recorded stands before the first circle
    let first = seen.elements.iter().position(|e| e.tag == "circle");
    let mut heads = BTreeMap::new();
    for (i, head) in seen.elements.iter().enumerate().filter(|(_, e)| e.tag == "polygon") {
        let side = usize::from(Some(i) > first);
        assert!(heads.insert((side, child_of(seen, side, head).vertex), head).is_none(), "a second head: {head:?}");
    }
    heads
}

/// A head of the edge from `up` to `down` points to its downstream end, in the colour of its line.
fn points_to(head: &Element, up: &Circle, down: &Circle) {
    let [tip, a, b] = corners(head);
    let child = if is_child(up, down) { up } else { down };
    let far = |x: f64, y: f64| (x - child.x).hypot(y - child.y);
    let base = far((a[0] + b[0]) / 2.0, (a[1] + b[1]) / 2.0);
    assert_eq!(far(tip[0], tip[1]) < base, child.vertex == down.vertex, "{up:?} {down:?} {head:?}");
    let mapped = up.fill != "#fff" && down.fill != "#fff";
    assert_eq!(head.get("fill"), if mapped { "#222" } else { "#9a9a9a" }, "{up:?} {down:?}");
}

/// Each directed edge that is shown has a head, and no other edge has one.
fn points_downstream(seen: &Seen, answer: &Answer) {
    let mut heads = heads(seen);
    let trees = [&answer.plant.recorded, &answer.plant.found];
    let edges = || trees.into_iter().enumerate().flat_map(|(side, tree)| tree.edges.iter().map(move |edge| (side, edge)));
    for (side, edge) in edges().filter(|(_, edge)| edge.label > 3) {
        let shown = edge.ends.map(|u| seen.circles.iter().find(|c| c.side == side && c.vertex == usize::from(u)));
        if let [Some(up), Some(down)] = shown {
            let child = if is_child(up, down) { up } else { down };
            points_to(heads.remove(&(side, child.vertex)).unwrap_or_else(|| panic!("no head: {edge:?}")), up, down);
        }
    }
    assert!(heads.is_empty(), "heads of no edge: {heads:?}");
    assert_eq!(seen.legend().contains("Arrow heads point downstream."), edges().any(|(_, edge)| edge.label > 3));
}

fn checked(answer: &Answer) -> Seen {
    let seen = seen(&picture(answer, "plant.txt"));
    shows_the_mapping(&seen, answer);
    marks_changes(&seen, answer);
    points_downstream(&seen, answer);
    nothing_overlaps(&seen);
    assert_eq!(seen.legend().contains("folded"), !seen.folded().is_empty());
    seen
}

// The tests

/// How many random plants are tested: ROUNDS times as many if that is set.
fn rounds(usual: usize) -> usize {
    usual * std::env::var("ROUNDS").ok().and_then(|n| n.parse().ok()).unwrap_or(1)
}

/// Writes a picture to the folder that PICTURES names, to be looked at.
fn keep(name: &str, answer: &Answer) {
    if let Some(folder) = std::env::var_os("PICTURES") {
        std::fs::write(std::path::Path::new(&folder).join(name), picture(answer, name)).expect("written");
    }
}

#[test]
fn the_pool() {
    let (plant, partner) = pool();
    let answer = answer(&plant, partner);
    keep("pool.svg", &answer);
    let seen = checked(&answer);
    assert_eq!((seen.circles.len(), seen.all("path").len()), (13, 11));
    assert!(seen.circles.iter().all(|c| c.r == 11.0 || c.r == 10.3));
    assert!(seen.circles.iter().any(|c| c.text == "circulation pump (0)" && c.title == "found vertex 4, circulation pump (0), partner 0"));
    assert!(picture(&answer, "pool.txt").contains("<title id=\"title\">pool.txt: weight 130</title>\n"));
    assert_eq!(seen.all("desc")[0].text.split(": ").last(), Some("0 with 4, 1 with 3, 2 with 2, 3 with 0, 4 with 1, 5 with 5."));
    assert!(seen.legend().contains("Lines across join partners; dashed: their labels differ. Grey: no partner. Numbers at"));
    assert!(seen.legend().ends_with("Numbers at edges are edge labels: 0 pipe, 1 signal line."));
}

#[test]
fn the_cellar() {
    let (plant, partner) = cellar();
    let answer = answer(&plant, partner);
    keep("cellar.svg", &answer);
    let seen = checked(&answer);
    assert_eq!((seen.circles.len(), seen.folded().len()), (38, 0));
    assert!(seen.circles.iter().all(|c| c.r == 11.0 || c.r == 10.3));
}

/// examples/flow.txt and its answer.
#[test]
fn the_flow() {
    let recorded = shape("0 1 2 3 4 5 6", "0>1:4 1>2:5 2>3:5 3>4:5 5>4:7 3-6");
    let found = shape("4 5 3 6 2 1 0", "5>6:4 4>5:5 4>2:5 2>0:6 1>0:7 3-2");
    let devices = ["skimmer", "circulation pump", "filter", "heater", "inlet", "chlorine pump", "probe"];
    let plant = plant(weights(7, &devices), weights(8, &EDGES), &recorded, &found);
    let answer = answer(&plant, partners("- - 4 2 0 1 3"));
    keep("flow.svg", &answer);
    let seen = checked(&answer);
    assert_eq!((seen.circles.len(), seen.all("path").len(), seen.all("polygon").len()), (14, 12, 10));
    assert!(seen.legend().contains("7 dosing hose. Arrow heads point downstream. Edges thick and dashed"), "{}", seen.legend());
}

#[test]
fn names_changes_and_doubts() {
    let (mut plant, partner) = pool();
    plant.recorded.vertices[3].name = Some("\"P<3>\" & co".to_string());
    plant.found.vertices[6].name = Some("测量 ä\u{308}\u{ffff}".to_string());
    plant.found.edges[4].label = 0;
    let mut answer = answer(&plant, partner);
    answer.certain[4] = Certainty::Otherwise(None);
    answer.found_certain[6] = Certainty::Unknown;
    keep("names.svg", &answer);
    let seen = checked(&answer);
    let text = |side: usize, u: usize| seen.circles.iter().find(|c| c.side == side && c.vertex == u).map(|c| c.text.as_str());
    assert_eq!(text(0, 3), Some("\"P<3>\" & co: chlorine pump (3)"));
    assert_eq!(text(1, 6), Some("测量 ä\u{308}\u{fffd}: probe (5) ?"));
    assert_eq!((text(0, 4), text(1, 1)), (Some("acid pump (4) ?"), Some("acid pump (4) ?")));
    assert_eq!(seen.circles.iter().filter(|c| c.text.ends_with(" ?")).count(), 3);
    assert!(seen.legend().contains("another heaviest mapping says otherwise, or that is not known"));
    assert_eq!(seen.all("path").iter().filter(|p| p.get("class") == "changed").count(), 2);
}

#[test]
fn without_names_of_labels() {
    let shape = Shape::parents(&[0, 1]);
    let plant = plant(weights(1, &[]), weights(1, &[]), &shape, &shape);
    let none = checked(&answer(&plant, vec![None; 3]));
    assert!(none.legend().starts_with("No vertex has a partner."));
    let all = checked(&answer(&plant, vec![Some(2), Some(1), Some(0)]));
    assert!(all.circles.iter().all(|c| c.text == "label 0"));
    assert_eq!(all.legend(), "Lines across join partners; dashed: their labels differ.");
    let long = "x".repeat(400);
    let svg = picture(&answer(&plant, vec![None; 3]), &long);
    nothing_overlaps(&self::seen(&svg));
    assert!(svg.contains(&format!("<title id=\"title\">{long}: weight 130</title>")));
}

#[test]
fn widths_of_texts() {
    assert!(widths::of("W", 10.0) > 9.44 && widths::of("iii", 10.0) < widths::of("mm", 10.0));
    assert_eq!(widths::of("a\u{308}\u{fe0f}", 10.0), widths::of("a", 10.0));
    assert!(widths::of("测", 10.0) >= 10.0 && widths::of("🏊", 10.0) >= 10.0 && widths::of("é", 10.0) >= 5.56);
    assert_eq!(widths::cut("short", 10.0, 100.0), "short");
    let (whole, cut) = ("e\u{301}".repeat(50), widths::cut(&"e\u{301}".repeat(50), 10.0, 60.0));
    assert!(cut.ends_with("\u{301}…") && whole.starts_with(cut.trim_end_matches('…')) && widths::of(&cut, 10.0) <= 60.0);
    assert_eq!(widths::cut("abc", 10.0, 0.0), "…");
    let text = format!("words and {} again", "w".repeat(70));
    let lines = widths::lines(&text, 10.0, 120.0);
    assert!(lines.iter().all(|line| widths::of(line, 10.0) <= 120.0));
    assert_eq!(lines.concat().replace(' ', ""), text.replace(' ', ""));
}

#[test]
fn folds_large_branches_only() {
    // a hub with a path of 20 and a path of 30 that have no partner, one of 3 that has none either, and 6 vertices that
    // have one
    let mut parents = vec![0, 1, 2, 3, 4];
    parents.push(0);
    parents.extend(6..25);
    parents.push(1);
    parents.extend(26..55);
    parents.extend([2, 56, 57]);
    let recorded = Shape::parents(&parents);
    let found = Shape::parents(&[0, 1, 2, 3, 4]);
    let plant = plant(weights(1, &["device"]), weights(1, &[]), &recorded, &found);
    let partner = (0..recorded.labels.len()).map(|u| Some(u).filter(|&u| u < 6)).collect();
    let answer = answer(&plant, partner);
    let seen = checked(&answer);
    let folded: Vec<(usize, usize)> = seen.folded().iter().map(|(c, n)| (c.vertex, *n)).collect();
    assert_eq!(folded, [(26, 29)]);
    assert_eq!(seen.circles.iter().find(|c| c.vertex == 26).map(|c| c.text.as_str()), Some("device (0) and 29 more"));
    let title = &seen.circles.iter().find(|c| c.vertex == 26).expect("26").title;
    assert!(
        (27..56).all(|u| title.contains(&format!("; {u}, device (0)")) || title.contains(&format!("; with {u}, device (0)"))),
        "{title}"
    );
}

/// Names of vertices, of all, of some or of none.
fn give_names(shape: &mut Shape, kind: usize, random: &mut Random) {
    let named = |random: &mut Random| match kind {
        0 => None,
        1 => Some(format!("P{}", random.below(900))),
        _ => Some("Überlaufrinne ".repeat(random.below(12)) + "Ost").filter(|_| random.below(3) == 0),
    };
    shape.names = (0..shape.labels.len()).map(|_| named(random)).collect();
}

/// Serials of all, of some or of no vertex, of all lengths, or records without.
fn give_serials(shape: &mut Shape, random: &mut Random) {
    let kind = random.below(4);
    let mut number = |u: usize| [0, u32::MAX - u as u32, 1 + u as u32][if kind < 2 { kind } else { random.below(3) }];
    shape.serials = if kind == 3 { Vec::new() } else { (0..shape.labels.len()).map(&mut number).collect() };
}

/// A known serial stands beside its vertex and in its title, and no other does.
fn shows_serials(seen: &Seen, recorded: &Shape, found: &Shape) {
    for circle in &seen.circles {
        let serial = [recorded, found][circle.side].serials.get(circle.vertex).copied().unwrap_or(0);
        let title = circle.title.split("; with ").next().unwrap_or_default();
        let said = format!(", serial {serial}");
        let ends = circle.text.split(" and ").next().unwrap_or_default().trim_end_matches(" ?").ends_with(&said);
        assert_eq!(ends, serial != 0, "{circle:?}");
        assert_eq!(title.contains(&format!("{said}, ")), serial != 0, "{circle:?}");
        assert_eq!(title.contains(", serial ") || circle.text.contains(", serial "), serial != 0, "{circle:?}");
    }
}

#[test]
fn random_trees_of_all_sizes() {
    let mut random = Random(0x9e3779b97f4a7c15);
    for round in 0..rounds(600) {
        let n = 1 + random.below(64);
        let window = [1, 2, 5, 64][round % 4];
        let (edge_labels, kind) = ([1, 2, 8][random.below(3)], random.below(3));
        let mut recorded = if round % 5 == 0 { labelled(n, &mut random) } else { grown(Shape::parents(&[]), n, window, &mut random) };
        labels(&mut recorded, 6, edge_labels, &mut random);
        let to = random.shuffled(n);
        recorded = renumbered(&recorded, &to);
        let mapped = random.below(n + 1);
        let chosen = part(&recorded, mapped, &mut random);
        let odds = if edge_labels > 1 { 20 } else { 0 };
        let size = 1 + random.below(64);
        let (mut found, partner) = found_with(&recorded, &chosen, size, window, odds, &mut random);
        free_edges(&mut found, &partner, edge_labels, &mut random);
        give_names(&mut recorded, kind, &mut random);
        give_names(&mut found, kind, &mut random);
        give_serials(&mut recorded, &mut random);
        give_serials(&mut found, &mut random);
        let plant = plant(weights(6, if kind > 0 { &DEVICES } else { &[] }), weights(edge_labels, &[]), &recorded, &found);
        let mut answer = answer(&plant, partner);
        if random.below(2) == 0 {
            answer.certain[0] = Certainty::Unknown;
        }
        shows_serials(&checked(&answer), &recorded, &found);
        if round < 40 {
            keep(&format!("random-{round}.svg"), &answer);
        }
    }
}

/// The worst and the middle size in points of plants with 64 vertices in each tree.
fn points(name: &str, mapped: usize, make: impl Fn(&mut Random) -> (Shape, usize)) -> f64 {
    let mut random = Random(0x1234_5678_9abc_def1);
    let mut sizes = Vec::new();
    for round in 0..rounds(40) {
        let (mut recorded, window) = make(&mut random);
        // without directed edges, and with them
        let edge_labels = [2, 8][round / 2 % 2];
        labels(&mut recorded, 6, edge_labels, &mut random);
        let chosen = part(&recorded, mapped, &mut random);
        let (mut found, partner) = found_with(&recorded, &chosen, 64, window, 5, &mut random);
        free_edges(&mut found, &partner, edge_labels, &mut random);
        give_names(&mut recorded, round % 2, &mut random);
        give_names(&mut found, round % 2, &mut random);
        let plant = plant(weights(6, &DEVICES), weights(edge_labels, &EDGES[..edge_labels]), &recorded, &found);
        let answer = answer(&plant, partner);
        let seen = checked(&answer);
        sizes.push((seen.points(), seen.width, seen.height, seen.folded().len()));
        if round < 4 {
            keep(&format!("{name}-{mapped}-{round}.svg").replace(' ', "-"), &answer);
        }
    }
    sizes.sort_by(|a, b| a.partial_cmp(b).expect("numbers"));
    let (worst, middle) = (sizes[0], sizes[sizes.len() / 2]);
    let page = |(_, width, height, folded): (f64, f64, f64, usize)| format!("{width} by {height}, {folded} folded");
    println!("{name}, {mapped} mapped: {:.1} points at worst ({}), {:.1} in the middle ({})", worst.0, page(worst), middle.0, page(middle));
    worst.0
}

#[test]
fn large_plants_on_a_page() {
    let path = |_: &mut Random| (Shape::parents(&(0..63).collect::<Vec<_>>()), 1);
    let hubs = |_: &mut Random| (Shape::parents(&(0..63).map(|u| if u < 8 { 0 } else { u / 7 }).collect::<Vec<_>>()), 64);
    let caterpillar = |_: &mut Random| (Shape::parents(&(1..64).map(|u| if u % 2 == 1 { u - 1 } else { u - 2 }).collect::<Vec<_>>()), 3);
    let binary = |_: &mut Random| (Shape::parents(&(1..64).map(|u| (u - 1) / 2).collect::<Vec<_>>()), 64);
    let recursive = |random: &mut Random| (grown(Shape::parents(&[]), 64, 64, random), 64);
    let deep = |random: &mut Random| (grown(Shape::parents(&[]), 64, 4, random), 4);
    let any = |random: &mut Random| (labelled(64, random), 8);
    let mut least = f64::MAX;
    for mapped in [0, 16, 32, 48, 64] {
        least = least.min(points("paths", mapped, path));
        least = least.min(points("hubs", mapped, hubs));
        least = least.min(points("caterpillars", mapped, caterpillar));
        least = least.min(points("binary trees", mapped, binary));
        least = least.min(points("recursive trees", mapped, recursive));
        least = least.min(points("deep trees", mapped, deep));
        least = least.min(points("labelled trees", mapped, any));
    }
    assert!(least >= 5.0, "{least}");
}
