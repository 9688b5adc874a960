//! How large everything in a picture is, and where: the first of some styles that can be read on a printed page.
use super::layout::{Layout, FOUND, RECORDED};
use super::{heads, widths, words};
use crate::answer::Answer;

/// A4 upright with margins of 10 mm, in points.
const PAGE: [f64; 2] = [190.0 / 25.4 * 72.0, 277.0 / 25.4 * 72.0];

/// Text on the page is to have so many points.
const READABLE: f64 = 5.8;

pub const MARGIN: f64 = 24.0;
/// Where the rows begin.
pub const TOP: f64 = 76.0;
/// The font sizes of the picture's title, of the trees' titles and of the paragraphs below.
pub const TITLE: f64 = 17.0;
pub const HEADING: f64 = 13.0;
pub const NOTE: f64 = 12.0;
/// From one line of these to the next.
pub const LEADING: f64 = 18.0;

/// From a circle to its text, and from texts to lines across.
pub const BESIDE: f64 = 5.0;
pub const CLEAR: f64 = 6.0;

/// The radius of the corners of tree lines, where there is room, and the width of those of changed edges.
const ROUND: f64 = 6.0;
pub const THICK: f64 = 4.0;

pub struct Style {
    narrow: bool,
    /// Of a row.
    height: f64,
    /// Of a circle; a hollow one is as large.
    pub radius: f64,
    /// Font sizes: of labels, of numbers in circles, of edge labels.
    pub label: f64,
    pub number: f64,
    pub edge: f64,
    /// How far edge labels stand above their line.
    pub lift: f64,
    /// Of the picture, at least.
    width: f64,
    /// Between the two trees in a row; with a line across.
    gap: f64,
    /// How far a tree is indented in all, if each step can be that large.
    indent: f64,
    largest_step: f64,
}

/// From the roomiest on. A row of the closest one has just room for its text, and a circle for two digits.
const STYLES: [Style; 4] = [
    style(false, [28.0, 11.0], [12.0, 11.0, 10.0], 4.0, [480.0, 80.0], [640.0, 44.0]),
    style(true, [24.0, 10.0], [12.0, 11.0, 10.0], 4.0, [640.0, 70.0], [240.0, 36.0]),
    style(true, [20.0, 8.7], [11.5, 11.0, 9.0], 3.0, [640.0, 60.0], [180.0, 28.0]),
    style(true, [16.0, 7.0], [10.5, 10.0, 8.0], 3.0, [640.0, 50.0], [140.0, 24.0]),
];

const fn style(narrow: bool, row: [f64; 2], fonts: [f64; 3], lift: f64, across: [f64; 2], steps: [f64; 2]) -> Style {
    let ([height, radius], [label, number, edge]) = (row, fonts);
    let ([width, gap], [indent, largest_step]) = (across, steps);
    Style { narrow, height, radius, label, number, edge, lift, width, gap, indent, largest_step }
}

impl Style {
    /// The length of an arrow head, and half of its width, which leaves the labels above the line free.
    pub fn head(&self) -> [f64; 2] {
        let half = 1.2 * (self.lift - 1.0);
        [1.6 * half, half]
    }
}

/// 1 if a tree grows to the right, -1 if to the left.
pub fn sign(side: usize) -> f64 {
    if side == RECORDED {
        1.0
    } else {
        -1.0
    }
}

/// A picture before it is written.
pub struct Sheet<'a> {
    pub answer: &'a Answer<'a>,
    pub layout: Layout<'a>,
    pub style: &'static Style,
    /// Of each vertex the text beside it.
    pub texts: [Vec<String>; 2],
    /// The middle of each row; the first is where they begin.
    middles: Vec<f64>,
    pub step: f64,
    /// The radius of the corners of tree lines.
    pub round: f64,
    /// The lines below the trees.
    pub notes: Vec<String>,
    pub width: f64,
    pub height: f64,
}

impl<'a> Sheet<'a> {
    /// The roomiest that can be read on a page; if none can, the one whose text is largest there.
    pub fn of(answer: &'a Answer<'a>) -> Sheet<'a> {
        let mut best = Sheet::in_style(answer, &STYLES[0]);
        for style in &STYLES[1..] {
            if best.points() >= READABLE {
                break;
            }
            let other = Sheet::in_style(answer, style);
            best = if other.points() > best.points() { other } else { best };
        }
        best
    }

    fn in_style(answer: &'a Answer<'a>, style: &'static Style) -> Sheet<'a> {
        let layout = Layout::of(answer, style.narrow);
        let texts = [RECORDED, FOUND].map(|side| {
            let vertices = 0..layout.hung[side].tree.size();
            vertices.map(|u| words::beside(answer, &layout, side, u, style.label)).collect()
        });
        let (middles, step) = (middles(&layout, style), step(answer, &layout, style));
        let round = (step - style.radius - 1.0).min(ROUND);
        let mut sheet = Sheet { answer, layout, style, texts, middles, step, round, notes: Vec::new(), width: 0.0, height: 0.0 };
        sheet.width = sheet.needed_width();
        for paragraph in words::legend(answer, &sheet.layout) {
            sheet.notes.extend(widths::lines(&paragraph, NOTE, sheet.width - 2.0 * MARGIN));
        }
        sheet.height = (sheet.bottom() + 20.0 + LEADING * sheet.notes.len() as f64).ceil();
        sheet
    }

    /// The size of the smallest text of a vertex where the picture fills a page.
    fn points(&self) -> f64 {
        self.style.number * (PAGE[0] / self.width).min(PAGE[1] / self.height)
    }

    /// The middle of a vertex's circle.
    pub fn x(&self, side: usize, u: usize) -> f64 {
        let x = self.inward(self.layout.stand[side].indent[u]);
        if side == RECORDED {
            x
        } else {
            self.width - x
        }
    }

    pub fn y(&self, side: usize, u: usize) -> f64 {
        self.middles[self.layout.stand[side].row[u]]
    }

    /// How far the row of a vertex is from the one above.
    pub fn above(&self, side: usize, u: usize) -> f64 {
        let row = self.layout.stand[side].row[u];
        self.middles[row] - self.middles[row - 1]
    }

    /// Where the rows end.
    pub fn bottom(&self) -> f64 {
        self.middles[self.layout.rows] + self.style.height / 2.0
    }

    /// How far the middle of an indented circle is from the picture's edge.
    fn inward(&self, indent: usize) -> f64 {
        MARGIN + self.style.radius + indent as f64 * self.step
    }

    /// How far a vertex with its text is from the picture's edge.
    pub fn reach(&self, side: usize, u: usize) -> f64 {
        let text = widths::of(&self.texts[side][u], self.style.label);
        (self.inward(self.layout.stand[side].indent[u]) + self.style.radius + BESIDE + text).ceil()
    }

    fn needed_width(&self) -> f64 {
        let reaches = [RECORDED, FOUND].map(|side| self.reaches(side));
        let widest = reaches[RECORDED].iter().zip(&reaches[FOUND]).map(|(r, f)| r + f).fold(0.0, f64::max);
        (widest + self.style.gap).max(self.style.width)
    }

    /// How far the tree reaches in each row, with its lines.
    fn reaches(&self, side: usize) -> Vec<f64> {
        let stand = &self.layout.stand[side];
        let mut reaches = vec![MARGIN; self.layout.rows + 1];
        for &u in &stand.order {
            let parent = self.layout.hung[side].rooted.parent[u].unwrap_or(u);
            let (from, to) = (stand.row[u].min(stand.row[parent]), stand.row[u].max(stand.row[parent]));
            let line = self.inward(stand.indent[parent]);
            reaches[from..=to].iter_mut().for_each(|reach| *reach = reach.max(line));
            reaches[stand.row[u]] = reaches[stand.row[u]].max(self.reach(side, u));
        }
        reaches
    }
}

/// The vertices of both trees that are shown, each after its side.
fn shown<'a>(layout: &'a Layout) -> impl Iterator<Item = (usize, usize)> + 'a {
    [RECORDED, FOUND].into_iter().flat_map(|side| layout.stand[side].order.iter().map(move |&u| (side, u)))
}

/// Where rows begin, and the middle of each: where a head has no other place than between two circles, these are so far
/// apart that it has room.
fn middles(layout: &Layout, style: &Style) -> Vec<f64> {
    let mut heights = vec![style.height; layout.rows + 1];
    heights[0] = TOP;
    heights[1] = style.height / 2.0;
    for (side, u) in shown(layout).filter(|&(side, u)| layout.stand[side].straight[u]) {
        let (hung, row) = (&layout.hung[side], |u: usize| layout.stand[side].row[u]);
        let above = hung.rooted.parent[u].filter(|&parent| row(parent) + 1 == row(u));
        if above.and_then(|parent| hung.graph.edge(u, parent)?.direction.ends(u, parent)).is_some() {
            heights[row(u)] = style.height.max(2.0 * (style.radius + heads::CLEAR) + style.head()[0]);
        }
    }
    let mut at = 0.0;
    let next = |height: f64| {
        at += height;
        at
    };
    heights.into_iter().map(next).collect()
}

/// How far a child is indented: so far that the label of its edge has room, which is more than a head takes, and further
/// where the tree is not deep.
fn step(answer: &Answer, layout: &Layout, style: &Style) -> f64 {
    let deepest = shown(layout).map(|(side, u)| layout.stand[side].indent[u]).max().unwrap_or(0).max(1);
    let labels = shown(layout).filter_map(|(side, u)| words::edge_label(answer, layout, side, u));
    let widest = labels.map(|label| widths::bold(&label, style.edge)).fold(0.0, f64::max);
    let least = (style.radius + 5.5 + widest).ceil();
    (style.indent / deepest as f64).floor().min(style.largest_step).max(least)
}
