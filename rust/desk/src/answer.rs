//! A heaviest mapping of a plant: found by the library, or read from what the match program printed and tested here.
use crate::bytes::Bytes;
use crate::certainty;
use crate::graph::Graph;
use crate::plant::{At, Fault, Link, Place, Plant};
use crate::text::Text;
use crate::words::{is_digits, quote};
use pensummer::{Refusal, FORBIDDEN, NONE};
use std::rc::Rc;

/// Whether every heaviest mapping agrees on a vertex.
#[derive(Clone, Copy, Debug, PartialEq, Eq)]
pub enum Certainty {
    /// Every heaviest mapping says the same.
    Certain,
    /// Another heaviest mapping gives it this partner, or none.
    Otherwise(Option<usize>),
    /// Not known: the table has no room for the label or the weight that the question needs.
    Unknown,
}

/// A mapping of an accepted plant.
#[derive(Clone, Debug, PartialEq, Eq)]
pub struct Answer<'a> {
    pub plant: &'a Plant,
    pub recorded: Graph,
    pub found: Graph,
    pub weight: i64,
    /// Of each recorded vertex its partner.
    pub partner: Vec<Option<usize>>,
    /// Of each found vertex its partner.
    pub back: Vec<Option<usize>>,
    /// Of each recorded vertex whether that is certain.
    pub certain: Vec<Certainty>,
    /// Of each found vertex likewise; of a pair either both are certain or neither is.
    pub found_certain: Vec<Certainty>,
}

/// The match in one call: the weight, and the partners.
pub fn heaviest(bytes: &Bytes) -> Result<(i32, Vec<Option<usize>>), Refusal> {
    let sizes = pensummer::sizes(bytes.inputs())?;
    let (mut work, mut mapping) = (vec![0; sizes.work], vec![NONE; bytes.recorded[2].into()]);
    let weight = pensummer::match_trees(bytes.inputs(), &mut work, &mut mapping)?;
    Ok((weight, mapping.iter().map(|&v| if v == NONE { None } else { Some(v.into()) }).collect()))
}

/// Why an answer that a person gave is none.
pub enum Wrong {
    /// A line that no answer has.
    Malformed(Fault),
    /// It is no mapping of this plant, or not its heaviest, or weighs something else.
    NotAccepted(Fault),
    /// The plant itself is refused.
    Refused(Refusal),
}

impl<'a> Answer<'a> {
    /// The library's answer. `bytes` are the plant's.
    pub fn found(plant: &'a Plant, bytes: &Bytes) -> Result<Answer<'a>, Refusal> {
        let (weight, partner) = heaviest(bytes)?;
        Ok(Answer::with(plant, weight.into(), partner))
    }

    /// The answer that the match program printed, as a file has it.
    pub fn read(plant: &'a Plant, bytes: &Bytes, text: &Text) -> Result<Answer<'a>, Wrong> {
        let (best, _) = heaviest(bytes).map_err(Wrong::Refused)?;
        let lines = Lines::of(&text.file, &text.bytes);
        let (weight, partner) = lines.partners(plant).map_err(Wrong::Malformed)?;
        let answer = Answer::unsure(plant, weight, partner);
        answer.test(&lines, best.into()).map_err(Wrong::NotAccepted)?;
        Ok(Answer::with(plant, weight, answer.partner))
    }

    fn with(plant: &'a Plant, weight: i64, partner: Vec<Option<usize>>) -> Answer<'a> {
        let mut answer = Answer::unsure(plant, weight, partner);
        certainty::ask(&mut answer);
        answer
    }

    /// An answer of whose vertices nothing is known to be certain.
    fn unsure(plant: &'a Plant, weight: i64, partner: Vec<Option<usize>>) -> Answer<'a> {
        let (n, m) = (plant.recorded.size(), plant.found.size());
        let mut back = vec![None; m];
        for (u, v) in partner.iter().enumerate() {
            if let Some(v) = *v {
                back[v] = Some(u);
            }
        }
        let (recorded, found) = (Graph::of(&plant.recorded), Graph::of(&plant.found));
        Answer {
            plant,
            recorded,
            found,
            weight,
            partner,
            back,
            certain: vec![Certainty::Unknown; n],
            found_certain: vec![Certainty::Unknown; m],
        }
    }

    /// The pairs, by the recorded vertex.
    pub fn pairs(&self) -> impl Iterator<Item = (usize, usize)> + '_ {
        self.partner.iter().enumerate().filter_map(|(u, &v)| Some((u, v?)))
    }

    /// What the pair of recorded u and found v weighs.
    pub fn pair_weight(&self, u: usize, v: usize) -> i32 {
        self.plant.pair_weight(u, v)
    }

    /// Of two mapped neighbours u and x of the recorded tree: their edge, seen from u, and their partners' edge, seen
    /// from the partner of u, if there is one.
    pub fn edge_pair(&self, u: usize, x: usize) -> Option<(Link, Link)> {
        let recorded = self.recorded.edge(u, x)?;
        Some((recorded, self.found.edge(self.partner[u]?, self.partner[x]?)?))
    }

    pub fn edge_pair_weight(&self, (recorded, found): (Link, Link)) -> i32 {
        self.plant.edge_pair_weight(recorded, found)
    }

    /// Whether the partners of a pair have different labels.
    pub fn label_changed(&self, u: usize, v: usize) -> bool {
        self.plant.recorded.label(u) != self.plant.found.label(v)
    }

    /// The mapped edges of the recorded tree, by its two ends in order.
    pub fn mapped_edges(&self) -> impl Iterator<Item = (usize, usize)> + '_ {
        let all = (0..self.recorded.size()).flat_map(move |x| self.recorded.neighbours(x).filter(move |&u| u > x).map(move |u| (x, u)));
        all.filter(move |&(x, u)| self.partner[x].is_some() && self.partner[u].is_some())
    }

    /// Whether this is a mapping, of the weight that it says and as heavy as the best.
    fn test(&self, lines: &Lines, best: i64) -> Result<(), Fault> {
        self.test_pairs(lines)?;
        let edges = self.test_edges(lines)?;
        let pairs = self.pairs().count();
        if pairs > 0 && edges != pairs - 1 {
            return lines.fault(1, "the mapped vertices are not connected".into());
        }
        let sum = self.sum();
        if sum != self.weight {
            return lines.fault(1, format!("the pairs weigh {sum}, not {}", self.weight));
        }
        if sum != best {
            return lines.fault(1, format!("the mapping weighs {sum}, and a heaviest one weighs {best}"));
        }
        Ok(())
    }

    /// No partner twice, no forbidden pair.
    fn test_pairs(&self, lines: &Lines) -> Result<(), Fault> {
        for (u, v) in self.pairs() {
            if let Some((other, _)) = self.pairs().find(|&(other, w)| w == v && other < u) {
                return lines.fault(u + 2, format!("found vertex {v} is the partner of {other} already"));
            }
            if self.pair_weight(u, v) == FORBIDDEN {
                let serials = self.plant.serials_apart(u, v);
                let why = serials.map_or(String::new(), |[a, b]| format!(": their serials, {a} and {b}, differ"));
                return lines.fault(u + 2, format!("recorded {u} with found {v} is forbidden{why}"));
            }
        }
        Ok(())
    }

    /// Two mapped vertices are joined exactly if their partners are, and not by a forbidden pair of edges; gives the
    /// number of mapped edges.
    fn test_edges(&self, lines: &Lines) -> Result<usize, Fault> {
        let mut edges = 0;
        for (u, v) in self.pairs() {
            for (x, y) in self.pairs().take_while(|&(x, _)| x < u) {
                let joined = (self.recorded.edge(u, x), self.found.edge(v, y));
                match joined {
                    (None, None) => (),
                    (Some(a), Some(b)) if self.edge_pair_weight((a, b)) != FORBIDDEN => edges += 1,
                    (Some(a), Some(b)) => {
                        let edges = format!("the edge of recorded {x} and {u} is forbidden with that of their partners");
                        return lines.fault(u + 2, edges + a.apart(b));
                    }
                    _ => {
                        let reason = format!("recorded {x} and {u} are joined and their partners are not, or the other way round");
                        return lines.fault(u + 2, reason);
                    }
                }
            }
        }
        Ok(edges)
    }

    fn sum(&self) -> i64 {
        let vertices: i64 = self.pairs().map(|(u, v)| i64::from(self.pair_weight(u, v))).sum();
        vertices + self.edges_sum()
    }

    /// What the mapped edges weigh.
    pub fn edges_sum(&self) -> i64 {
        let pairs = self.mapped_edges().filter_map(|(x, u)| self.edge_pair(u, x));
        pairs.map(|pair| i64::from(self.edge_pair_weight(pair))).sum()
    }
}

/// Digits, after a sign or not.
fn is_number(text: &&str) -> bool {
    is_digits(text.strip_prefix('-').unwrap_or(text))
}

/// The lines of a printed answer.
struct Lines<'a> {
    name: &'a Rc<str>,
    lines: Vec<String>,
}

impl<'a> Lines<'a> {
    fn of(name: &'a Rc<str>, text: &[u8]) -> Lines<'a> {
        let text = String::from_utf8_lossy(text);
        Lines { name, lines: text.lines().map(str::to_owned).collect() }
    }

    /// A fault of a line, or of the last one where that is not there.
    fn fault<T>(&self, line: usize, reason: String) -> Result<T, Fault> {
        let line = line.min(self.lines.len().max(1));
        Err(Fault { place: Place { file: self.name.clone(), at: At::Line { line, column: 1 } }, reason })
    }

    fn line(&self, number: usize) -> &str {
        self.lines.get(number - 1).map_or("", String::as_str)
    }

    /// The weight and the partners, or the line that is none of an answer for this plant.
    fn partners(&self, plant: &Plant) -> Result<(i64, Vec<Option<usize>>), Fault> {
        let weight = match self.line(1).strip_prefix("weight ").filter(is_number).and_then(|number| number.parse().ok()) {
            Some(weight) => weight,
            None => return self.fault(1, format!("the first line is `weight` and a number, not {}", quote(self.line(1)))),
        };
        let size = plant.recorded.size();
        let mut partners = Vec::new();
        for u in 0..size {
            partners.push(self.partner(u, plant.found.size())?);
        }
        if self.lines.len() > size + 1 {
            return self.fault(size + 2, format!("the recorded tree has {size} vertices; this line is one too many"));
        }
        Ok((weight, partners))
    }

    fn partner(&self, u: usize, found: usize) -> Result<Option<usize>, Fault> {
        let at = u + 2;
        if self.lines.len() < at {
            return self.fault(at, format!("the answer ends before recorded vertex {u}"));
        }
        let partner = self.line(at).strip_prefix(&format!("{u} "));
        match partner.map(|v| (v, v.parse())) {
            Some(("-", _)) => Ok(None),
            Some((text, Ok(v))) if v < found && is_digits(text) => Ok(Some(v)),
            Some((text, Ok(v))) if is_digits(text) => self.fault(at, format!("the found tree has no vertex {v}")),
            _ => self.fault(at, format!("this line has recorded vertex {u} and its partner or `-`, not {}", quote(self.line(at)))),
        }
    }
}
