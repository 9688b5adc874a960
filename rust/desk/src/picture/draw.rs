//! Writes a picture as SVG.
use super::heads::Head;
use super::layout::{FOUND, RECORDED};
use super::sheet::{sign, Sheet, BESIDE, CLEAR, HEADING, LEADING, MARGIN, NOTE, THICK, TITLE, TOP};
use super::{widths, words};
use std::fmt;

/// The colours of pairs, by rows: white digits can be read on each.
const PALETTE: [&str; 8] = ["#1b5e9e", "#b0451a", "#2a7534", "#84349b", "#a8203f", "#0b7078", "#725700", "#4b4fa3"];

/// A number of the picture: with one decimal at most.
struct N(f64);

impl fmt::Display for N {
    fn fmt(&self, f: &mut fmt::Formatter<'_>) -> fmt::Result {
        let tenths = (self.0 * 10.0).round() as i64;
        match tenths % 10 {
            0 => write!(f, "{}", tenths / 10),
            _ => write!(f, "{:.1}", tenths as f64 / 10.0),
        }
    }
}

/// A text for XML. Characters that XML cannot have are shown as unknown ones.
fn escaped(text: &str) -> String {
    let mut out = String::new();
    for c in text.chars() {
        match c {
            '&' => out += "&amp;",
            '<' => out += "&lt;",
            '>' => out += "&gt;",
            '"' => out += "&quot;",
            '\u{0}'..='\u{1f}' | '\u{fffe}' | '\u{ffff}' => out.push('\u{fffd}'),
            _ => out.push(c),
        }
    }
    out
}

pub fn svg(sheet: &Sheet, title: &str) -> String {
    let mut out = head(sheet, title);
    out += &across(sheet);
    for side in [RECORDED, FOUND] {
        out += &lines(sheet, side);
        out += &heads(sheet, side);
        out += &edge_labels(sheet, side);
        out += &vertices(sheet, side);
    }
    out += &format!("<g font-size=\"{}\" fill=\"#333\">\n", N(NOTE));
    for (i, note) in sheet.notes.iter().enumerate() {
        let y = sheet.bottom() + 8.0 + LEADING * (i as f64 + 1.0);
        out += &format!("<text x=\"{}\" y=\"{}\">{}</text>\n", N(MARGIN), N(y), escaped(note));
    }
    out + "</g>\n</svg>\n"
}

fn head(sheet: &Sheet, title: &str) -> String {
    let (width, height) = (N(sheet.width), N(sheet.height));
    let weight = format!(": weight {}", sheet.answer.weight);
    let short = widths::cut_bold(title, TITLE, sheet.width - 2.0 * MARGIN - widths::bold(&weight, TITLE)) + &weight;
    let mut out = "<?xml version=\"1.0\" encoding=\"UTF-8\"?>\n".to_string();
    out += &format!("<svg xmlns=\"http://www.w3.org/2000/svg\" width=\"{width}\" height=\"{height}\" viewBox=\"0 0 {width} {height}\"");
    out += " role=\"img\" aria-labelledby=\"title desc\" font-family=\"Helvetica, Arial, DejaVu Sans, sans-serif\">\n";
    out += &format!("<title id=\"title\">{}</title>\n", escaped(&format!("{title}{weight}")));
    out += &format!("<desc id=\"desc\">{}</desc>\n", escaped(&words::description(sheet.answer)));
    out += &format!("<rect width=\"{width}\" height=\"{height}\" fill=\"#fff\"/>\n");
    out += &heading(sheet.width / 2.0, 30.0, TITLE, " text-anchor=\"middle\"", &short);
    out += &heading(MARGIN, TOP - LEADING, HEADING, "", words::SIDES[RECORDED]);
    out + &heading(sheet.width - MARGIN, TOP - LEADING, HEADING, " text-anchor=\"end\"", words::SIDES[FOUND])
}

fn heading(x: f64, y: f64, font: f64, anchor: &str, text: &str) -> String {
    let place = format!("x=\"{}\" y=\"{}\" font-size=\"{}\"", N(x), N(y), N(font));
    format!("<text {place} font-weight=\"bold\"{anchor} fill=\"#111\">{}</text>\n", escaped(text))
}

/// The lines that join partners.
fn across(sheet: &Sheet) -> String {
    let mut out = "<g stroke-width=\"2\">\n".to_string();
    for (u, v) in sheet.answer.partner.iter().enumerate().filter_map(|(u, mate)| mate.map(|v| (u, v))) {
        let (from, to) = (sheet.reach(RECORDED, u) + CLEAR, sheet.width - sheet.reach(FOUND, v) - CLEAR);
        let differ = sheet.answer.plant.recorded.label(u) != sheet.answer.plant.found.label(v);
        let dashes = if differ { " stroke-dasharray=\"7 5\"" } else { "" };
        let (y, colour) = (N(sheet.y(RECORDED, u)), colour(sheet, RECORDED, u));
        let place = format!("x1=\"{}\" y1=\"{y}\" x2=\"{}\" y2=\"{y}\"", N(from), N(to));
        out += &format!("<line class=\"pair\" {place} stroke=\"{colour}\"{dashes}/>\n");
    }
    out + "</g>\n"
}

fn colour(sheet: &Sheet, side: usize, u: usize) -> &'static str {
    PALETTE[sheet.layout.stand[side].row[u] % PALETTE.len()]
}

/// The edges that are shown, by their lower vertex, with the upper one.
fn edges<'a>(sheet: &'a Sheet, side: usize) -> impl Iterator<Item = (usize, usize)> + 'a {
    let shown = (0..sheet.texts[side].len()).filter(move |&u| sheet.layout.stand[side].row[u] > 0);
    shown.filter_map(move |u| sheet.layout.hung[side].rooted.parent[u].map(|parent| (u, parent)))
}

/// Whether both ends of an edge have partners.
fn is_mapped(sheet: &Sheet, side: usize, u: usize, parent: usize) -> bool {
    let mate = sheet.layout.hung[side].mate;
    mate[u].is_some() && mate[parent].is_some()
}

/// The edges: grey where a vertex has no partner, then the others, changed ones last so that they lie on top.
fn lines(sheet: &Sheet, side: usize) -> String {
    let mut parts = [String::new(), String::new(), String::new()];
    let thick = format!("class=\"changed\" stroke-width=\"{}\" stroke-dasharray=\"4 2.5\" ", N(THICK));
    for (u, parent) in edges(sheet, side) {
        let changed = words::is_changed(&sheet.layout, side, u);
        let mapped = is_mapped(sheet, side, u, parent);
        let marks = if changed { &thick } else { "" };
        parts[usize::from(mapped) + usize::from(changed)] += &format!("<path {marks}d=\"{}\"/>\n", line(sheet, side, u, parent));
    }
    let [grey, same, changed] = parts;
    let group = |stroke: &str, paths: String| format!("<g fill=\"none\" {stroke}>\n{paths}</g>\n");
    group("stroke=\"#9a9a9a\" stroke-width=\"1.5\"", grey) + &group("stroke=\"#222\" stroke-width=\"2\"", same + &changed)
}

/// From the parent along the rows, then to the vertex in its own row, with a round corner; to a straight vertex only
/// along the rows.
fn line(sheet: &Sheet, side: usize, u: usize, parent: usize) -> String {
    let (x, y, from) = (sheet.x(side, parent), sheet.y(side, u), sheet.y(side, parent));
    let bend = if y > from { 1.0 } else { -1.0 };
    let begin = format!("M{} {}", N(x), N(from + bend * sheet.style.radius));
    let head = Head::of(sheet, side, u, parent);
    if sheet.layout.stand[side].straight[u] {
        return begin + &piece('V', y - bend * sheet.style.radius, head);
    }
    let (corner, end) = (x + sign(side) * sheet.round, sheet.x(side, u) - sign(side) * sheet.style.radius);
    format!("{begin} V{} Q{} {} {} {}{}", N(y - bend * sheet.round), N(x), N(y), N(corner), N(y), piece('H', end, head))
}

/// The last piece of a line: to its end, to the head that stands there, or on behind a head that points to the parent.
fn piece(way: char, end: f64, head: Option<Head>) -> String {
    let along = |place: [f64; 2]| N(place[usize::from(way == 'V')]);
    match head {
        None => format!(" {way}{}", N(end)),
        Some(head) if head.to_child => format!(" {way}{}", along(head.base)),
        Some(head) => format!(" {way}{} M{} {} {way}{}", along(head.tip), N(head.base[0]), N(head.base[1]), N(end)),
    }
}

/// The heads of the directed edges, in the colours of their lines.
fn heads(sheet: &Sheet, side: usize) -> String {
    let mut out = String::new();
    for (u, parent) in edges(sheet, side) {
        let colour = if is_mapped(sheet, side, u, parent) { "#222" } else { "#9a9a9a" };
        if let Some(head) = Head::of(sheet, side, u, parent) {
            let points = head.corners(sheet.style.head()[1]).map(|[x, y]| format!("{},{}", N(x), N(y))).join(" ");
            out += &format!("<polygon class=\"head\" points=\"{points}\" fill=\"{colour}\"/>\n");
        }
    }
    out
}

/// The labels of edges: above the line to a vertex; at a straight one beside the line.
fn edge_labels(sheet: &Sheet, side: usize) -> String {
    let style = sheet.style;
    let mut texts = String::new();
    for (u, _) in edges(sheet, side) {
        let straight = sheet.layout.stand[side].straight[u];
        let (away, up) =
            if straight { (0.7 * style.radius, sheet.above(side, u) / 2.0 - 0.36 * style.edge) } else { (style.radius + 2.0, style.lift) };
        let (x, y) = (sheet.x(side, u) - sign(side) * away, sheet.y(side, u) - up);
        let bold = if words::is_changed(&sheet.layout, side, u) { " font-weight=\"bold\"" } else { "" };
        if let Some(label) = words::edge_label(sheet.answer, &sheet.layout, side, u) {
            texts += &format!("<text x=\"{}\" y=\"{}\"{bold}>{label}</text>\n", N(x), N(y));
        }
    }
    if texts.is_empty() && sheet.answer.plant.table.edge.labels() < 2 {
        return texts;
    }
    let anchor = ["end", "start"][side];
    format!("<g font-size=\"{}\" fill=\"#333\" text-anchor=\"{anchor}\">\n{texts}</g>\n", N(style.edge))
}

fn vertices(sheet: &Sheet, side: usize) -> String {
    let mut out = format!("<g font-size=\"{}\" text-anchor=\"{}\">\n", N(sheet.style.label), ["start", "end"][side]);
    for u in (0..sheet.texts[side].len()).filter(|&u| sheet.layout.stand[side].row[u] > 0) {
        out += &vertex(sheet, side, u);
    }
    out + "</g>\n"
}

fn vertex(sheet: &Sheet, side: usize, u: usize) -> String {
    let (x, y) = (sheet.x(side, u), sheet.y(side, u));
    let title = escaped(&words::title(sheet.answer, &sheet.layout, side, u));
    let text = if sheet.layout.hung[side].mate[u].is_some() { "#111" } else { "#595959" };
    let beside = x + sign(side) * (sheet.style.radius + BESIDE);
    format!(
        "<g><title>{title}</title>\n{}<text x=\"{}\" y=\"{}\" fill=\"{text}\">{}</text></g>\n",
        circle(sheet, side, u, x, y),
        N(beside),
        N(y + 4.0),
        escaped(&sheet.texts[side][u])
    )
}

/// The circle of a vertex with its number, bold if there is room: filled with the pair's colour, or hollow.
fn circle(sheet: &Sheet, side: usize, u: usize, x: f64, y: f64) -> String {
    let radius = sheet.style.radius;
    let ring = if radius < 8.0 { 1.0 } else { 1.4 };
    let (outer, inner, fill, digits) = match sheet.layout.hung[side].mate[u] {
        Some(_) => (radius, radius, format!("fill=\"{}\"", colour(sheet, side, u)), "#fff"),
        None => (radius - ring / 2.0, radius - ring, format!("fill=\"#fff\" stroke=\"#767676\" stroke-width=\"{}\"", N(ring)), "#595959"),
    };
    let weight = if widths::bold("00", sheet.style.number) <= 2.0 * inner { " font-weight=\"bold\"" } else { "" };
    let number = format!("font-size=\"{}\"{weight} text-anchor=\"middle\" fill=\"{digits}\"", N(sheet.style.number));
    let (x, y, base) = (N(x), N(y), N(y + 4.0));
    format!("<circle cx=\"{x}\" cy=\"{y}\" r=\"{}\" {fill}/>\n<text x=\"{x}\" y=\"{base}\" {number}>{u}</text>\n", N(outer))
}
