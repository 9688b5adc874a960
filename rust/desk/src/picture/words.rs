//! What a picture says: the texts beside vertices, their titles, and the paragraphs below the trees.
use super::layout::{Layout, FOUND, RECORDED};
use super::widths;
use crate::answer::{Answer, Certainty};

/// The trees for people, in the order of `RECORDED` and `FOUND`.
pub const SIDES: [&str; 2] = ["recorded", "found"];

/// Names of vertices are cut at so many times the font size in large plants.
const LONGEST: f64 = 24.0;

/// The name and the label of a vertex, without what stands behind: the label's number if it has a name, and the serial
/// if it is known; and these.
fn parts(answer: &Answer, side: usize, u: usize) -> (String, String) {
    let tree = [&answer.plant.recorded, &answer.plant.found][side];
    let weights = &answer.plant.table.vertex;
    let label = tree.label(u);
    let number = weights.names.get(label).map_or(String::new(), |_| format!(" ({label})"));
    let name = tree.vertices[u].name.as_ref().map_or(String::new(), |name| format!("{name}: "));
    (name + &weights.called(label), number + &tree.serial_after(", ", u))
}

/// A vertex by its name, its label and its serial.
fn called(answer: &Answer, side: usize, u: usize) -> String {
    let (name, number) = parts(answer, side, u);
    name + &number
}

/// The text beside the circle of a vertex.
pub fn beside(answer: &Answer, layout: &Layout, side: usize, u: usize, font: f64) -> String {
    let (name, number) = parts(answer, side, u);
    let name = if layout.large { widths::cut(&name, font, LONGEST * font) } else { name };
    name + &number + doubt(is_certain(answer, side, u)) + &more(answer, layout, side, u)
}

/// What is folded into a vertex.
fn more(answer: &Answer, layout: &Layout, side: usize, u: usize) -> String {
    if !layout.stand[side].folded[u] {
        return String::new();
    }
    let hidden = layout.hung[side].below(u);
    let certain = hidden.iter().all(|&v| is_certain(answer, side, v));
    format!(" and {} more{}", hidden.len(), doubt(certain))
}

fn doubt(certain: bool) -> &'static str {
    if certain {
        ""
    } else {
        " ?"
    }
}

fn certainty(answer: &Answer, side: usize, u: usize) -> Certainty {
    match (side, answer.back.get(u)) {
        (FOUND, Some(&Some(partner))) => answer.certain[partner],
        (FOUND, _) => answer.found_certain[u],
        _ => answer.certain[u],
    }
}

fn is_certain(answer: &Answer, side: usize, u: usize) -> bool {
    certainty(answer, side, u) == Certainty::Certain
}

/// The title of a vertex, all of it, with what is folded into it.
pub fn title(answer: &Answer, layout: &Layout, side: usize, u: usize) -> String {
    let mate = layout.hung[side].mate[u];
    let partner = mate.map_or("no partner".to_string(), |v| format!("partner {v}"));
    let mut title = format!("{} vertex {u}, {}, {partner}", SIDES[side], called(answer, side, u));
    title += &match (certainty(answer, side, u), mate) {
        (Certainty::Certain, _) => String::new(),
        (Certainty::Unknown, _) => ", not known whether certain".to_string(),
        // of a pair it is the recorded vertex that has another partner
        (Certainty::Otherwise(_), Some(_)) if side == FOUND => ", otherwise in another heaviest mapping".to_string(),
        (Certainty::Otherwise(Some(other)), _) => format!(", partner {other} in another heaviest mapping"),
        (Certainty::Otherwise(None), _) => ", no partner in another heaviest mapping".to_string(),
    };
    let hidden = if layout.stand[side].folded[u] { layout.hung[side].below(u) } else { Vec::new() };
    for (i, &v) in hidden.iter().enumerate() {
        title += if i == 0 { "; with " } else { "; " };
        title += &format!("{v}, {}{}", called(answer, side, v), doubt(is_certain(answer, side, v)));
    }
    title
}

/// The pairs, for those who cannot see the picture.
pub fn description(answer: &Answer) -> String {
    let pairs: Vec<String> = answer.partner.iter().enumerate().filter_map(|(u, mate)| mate.map(|v| format!("{u} with {v}"))).collect();
    let pairs = if pairs.is_empty() { "none".to_string() } else { pairs.join(", ") };
    format!(
        "The recorded tree (vertices: {}) on the left, the found tree (vertices: {}) on the right. Partners, recorded with found: {pairs}.",
        answer.partner.len(),
        answer.back.len()
    )
}

/// Whether the edge of a vertex to its parent joins partners of neighbours whose edge has another label.
pub fn is_changed(layout: &Layout, side: usize, u: usize) -> bool {
    let (here, there) = (&layout.hung[side], &layout.hung[1 - side]);
    let pair = here.rooted.parent[u].and_then(|parent| Some((parent, here.mate[parent]?, here.mate[u]?)));
    matches!(pair, Some((parent, mate, own)) if here.graph.edge(u, parent) != there.graph.edge(own, mate))
}

/// The label of the edge of a vertex to its parent; nothing if there is only one edge label.
pub fn edge_label(answer: &Answer, layout: &Layout, side: usize, u: usize) -> Option<String> {
    let hung = &layout.hung[side];
    let link = hung.rooted.parent[u].and_then(|parent| hung.graph.edge(u, parent))?;
    let mark = if is_changed(layout, side, u) { "!" } else { "" };
    Some(format!("{}{mark}", link.label)).filter(|_| answer.plant.table.edge.labels() > 1)
}

/// The paragraphs below the trees.
pub fn legend(answer: &Answer, layout: &Layout) -> Vec<String> {
    let mut legend = vec![pairs(answer)];
    if answer.plant.table.edge.labels() > 1 {
        legend.push(edges(answer));
    }
    if (0..answer.partner.len()).any(|u| is_changed(layout, RECORDED, u)) {
        legend.push("Edges thick and dashed, with ! at their label: the edge between the partners has another label.".to_string());
    }
    legend.extend(doubts(answer));
    if layout.stand.iter().any(|stand| stand.folded.contains(&true)) {
        legend.push("“and … more”: a branch without any partner, folded into its first vertex.".to_string());
    }
    legend
}

fn pairs(answer: &Answer) -> String {
    let alone = answer.partner.contains(&None) || answer.back.contains(&None);
    match (answer.partner.iter().any(Option::is_some), alone) {
        (false, _) => "No vertex has a partner.",
        (true, true) => "Lines across join partners; dashed: their labels differ. Grey: no partner.",
        (true, false) => "Lines across join partners; dashed: their labels differ.",
    }
    .to_string()
}

fn edges(answer: &Answer) -> String {
    let names = &answer.plant.table.edge.names;
    let named: Vec<String> = names.iter().enumerate().map(|(label, name)| format!("{label} {name}")).collect();
    let colon = if named.is_empty() { "" } else { ": " };
    let directed = [&answer.plant.recorded, &answer.plant.found].iter().any(|tree| tree.is_directed());
    let heads = if directed { " Arrow heads point downstream." } else { "" };
    format!("Numbers at edges are edge labels{colon}{}.{heads}", named.join(", "))
}

/// What `?` means in this picture.
fn doubts(answer: &Answer) -> Option<String> {
    let all = || answer.certain.iter().chain(&answer.found_certain);
    let otherwise = all().any(|c| matches!(c, Certainty::Otherwise(_)));
    let unknown = all().any(|c| *c == Certainty::Unknown);
    let why = match (otherwise, unknown) {
        (false, false) => return None,
        (true, false) => "another heaviest mapping says otherwise",
        (false, true) => "whether every heaviest mapping says so is not known",
        (true, true) => "another heaviest mapping says otherwise, or that is not known",
    };
    Some(format!("Not certain, with ?: {why}."))
}
