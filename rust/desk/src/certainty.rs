//! Whether a mapping is the only heaviest one, vertex by vertex. A pair is asked about by forbidding it and matching
//! again; a vertex without a partner by making its pairs weigh one more and matching again. Both give the vertices in
//! question labels of their own in a table made for the question.
use crate::answer::{heaviest, Answer, Certainty};
use crate::bytes::{tree_bytes, Bytes};
use crate::plant::{Plant, Tree};
use pensummer::{FORBIDDEN, VERTEX_LABELS_MOST, WEIGHT_MOST};

/// The partner of each recorded vertex.
type Partners = Vec<Option<usize>>;

/// What a question gives: a mapping as heavy that says otherwise, that there is none, or that it could not be asked.
enum Asked {
    Otherwise(Partners),
    None,
    NoRoom,
}

/// Fills in what is certain.
pub fn ask(answer: &mut Answer) {
    let plant = answer.plant;
    // what each question gave, of recorded vertices and of found ones without a partner
    let recorded: Vec<Asked> = (0..answer.partner.len())
        .map(|u| match answer.partner[u] {
            Some(v) => without_pair(plant, answer.weight, u, v),
            None => with_recorded(plant, answer.weight, u),
        })
        .collect();
    let found: Vec<Asked> = (0..answer.back.len())
        .map(|v| match answer.back[v] {
            Some(_) => Asked::NoRoom,
            None => with_found(plant, answer.weight, v),
        })
        .collect();
    let others: Vec<&Partners> = recorded.iter().chain(&found).filter_map(Asked::other).collect();
    for u in 0..answer.partner.len() {
        answer.certain[u] = recorded[u].certainty(&others, answer.partner[u], |partner| partner[u]);
    }
    for v in 0..answer.back.len() {
        // a pair was asked about by its recorded vertex
        let asked = answer.back[v].map_or(&found[v], |u| &recorded[u]);
        answer.found_certain[v] = asked.certainty(&others, answer.back[v], |partner| recorded_with(partner, v));
    }
}

impl Asked {
    fn other(&self) -> Option<&Partners> {
        match self {
            Asked::Otherwise(partner) => Some(partner),
            _ => None,
        }
    }

    /// What is known of a vertex with this partner. Where there was no room for its own question, another's answer may
    /// tell.
    fn certainty(&self, others: &[&Partners], own: Option<usize>, of: impl Fn(&Partners) -> Option<usize>) -> Certainty {
        match self {
            Asked::Otherwise(partner) => Certainty::Otherwise(of(partner)),
            Asked::None => Certainty::Certain,
            Asked::NoRoom => {
                let other = others.iter().map(|partner| of(partner)).find(|&other| other != own);
                other.map_or(Certainty::Unknown, Certainty::Otherwise)
            }
        }
    }
}

/// Is there a mapping as heavy without this pair?
fn without_pair(plant: &Plant, weight: i64, u: usize, v: usize) -> Asked {
    let mut question = Question::about(plant, Some(u), Some(v));
    question.weights[question.recorded[u]][question.found[v]] = FORBIDDEN;
    match question.answer(plant) {
        None => Asked::NoRoom,
        Some((best, partner)) if i64::from(best) == weight => Asked::Otherwise(partner),
        Some(_) => Asked::None,
    }
}

/// The recorded vertex whose partner is v.
fn recorded_with(partner: &[Option<usize>], v: usize) -> Option<usize> {
    partner.iter().position(|&w| w == Some(v))
}

/// Is there a mapping as heavy that has recorded u?
fn with_recorded(plant: &Plant, weight: i64, u: usize) -> Asked {
    let mut question = Question::about(plant, Some(u), None);
    let whole = question.raise((0..plant.found.size()).filter(|&v| plant.serials_apart(u, v).is_none()).map(|v| (u, v)));
    question.raised(plant, weight, whole)
}

/// Is there a mapping as heavy that has found v?
fn with_found(plant: &Plant, weight: i64, v: usize) -> Asked {
    let mut question = Question::about(plant, None, Some(v));
    let whole = question.raise((0..plant.recorded.size()).filter(|&u| plant.serials_apart(u, v).is_none()).map(|u| (u, v)));
    question.raised(plant, weight, whole)
}

/// A plant like another, serials and all, but with labels that occur only, and with labels of their own for the
/// vertices in question.
struct Question {
    weights: Vec<Vec<i32>>,
    recorded: Vec<usize>,
    found: Vec<usize>,
}

impl Question {
    fn about(plant: &Plant, u: Option<usize>, v: Option<usize>) -> Question {
        let (rows, recorded) = classes(&plant.recorded, u);
        let (columns, found) = classes(&plant.found, v);
        let size = rows.len().max(columns.len());
        let mut weights = vec![vec![0; size]; size];
        for (row, &a) in rows.iter().enumerate() {
            for (column, &b) in columns.iter().enumerate() {
                weights[row][column] = plant.table.vertex.rows[a][b];
            }
        }
        Question { weights, recorded, found }
    }

    /// Makes the labels of these pairs of vertices weigh one more, each once; says whether all could be.
    fn raise(&mut self, pairs: impl Iterator<Item = (usize, usize)>) -> bool {
        let mut done = vec![vec![false; self.weights.len()]; self.weights.len()];
        let mut whole = true;
        for (row, column) in pairs.map(|(u, v)| (self.recorded[u], self.found[v])) {
            let weight = &mut self.weights[row][column];
            if std::mem::replace(&mut done[row][column], true) || *weight == FORBIDDEN {
                continue;
            }
            whole &= *weight < WEIGHT_MOST;
            *weight = (*weight + 1).min(WEIGHT_MOST);
        }
        whole
    }

    /// After a vertex's pairs were raised: a mapping that has the vertex and was as heavy weighs one more now.
    fn raised(&self, plant: &Plant, weight: i64, whole: bool) -> Asked {
        match self.answer(plant) {
            Some((best, partner)) if i64::from(best) > weight => Asked::Otherwise(partner),
            Some(_) if whole => Asked::None,
            _ => Asked::NoRoom,
        }
    }

    /// The heaviest mapping; none if there are more labels than a table can have.
    fn answer(&self, plant: &Plant) -> Option<(i32, Partners)> {
        if self.weights.len() > VERTEX_LABELS_MOST {
            return None;
        }
        let mut asked = plant.clone();
        asked.table.vertex.rows = self.weights.clone();
        relabel(&mut asked.recorded, &self.recorded);
        relabel(&mut asked.found, &self.found);
        let bytes = Bytes {
            recorded: tree_bytes(&asked.recorded),
            found: tree_bytes(&asked.found),
            table: crate::bytes::table_bytes(&asked.table),
        };
        heaviest(&bytes).ok()
    }
}

fn relabel(tree: &mut Tree, labels: &[usize]) {
    for (vertex, &label) in tree.vertices.iter_mut().zip(labels) {
        vertex.label = label as u8;
    }
}

/// The labels that occur, the vertex apart with one of its own, and for each vertex which of them it has.
fn classes(tree: &Tree, apart: Option<usize>) -> (Vec<usize>, Vec<usize>) {
    let mut labels: Vec<usize> = (0..tree.size()).filter(|&u| Some(u) != apart).map(|u| tree.label(u)).collect();
    labels.sort_unstable();
    labels.dedup();
    let others = labels.len();
    labels.extend(apart.map(|u| tree.label(u)));
    let of = |u: usize| if Some(u) == apart { others } else { labels[..others].partition_point(|&label| label < tree.label(u)) };
    let which = (0..tree.size()).map(of).collect();
    (labels, which)
}
