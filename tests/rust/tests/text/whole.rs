//! Whole answers of small plants: what is certain, compared with all mappings, and the forms of what is printed.
use super::serials::Judged;
use desk::answer::{Answer, Certainty};
use pensummer_tests::mapping::NONE;
use pensummer_tests::reading::WEIGHT_MOST;

/// Every heaviest mapping, by going through all mappings.
pub struct Heaviest {
    pub weight: i64,
    pub mappings: Vec<Vec<u8>>,
}

impl Heaviest {
    pub fn of(plant: &Judged) -> Heaviest {
        let mut heaviest = Heaviest { weight: i64::MIN, mappings: Vec::new() };
        heaviest.extend(plant, &mut vec![NONE; plant.n()], 0);
        heaviest
    }

    fn extend(&mut self, plant: &Judged, mapping: &mut Vec<u8>, u: usize) {
        if u == plant.n() {
            if plant.is_mapping(mapping) {
                self.add(plant.weight(mapping), mapping);
            }
            return;
        }
        self.extend(plant, mapping, u + 1);
        for v in (0..plant.m()).filter(|&v| plant.pair(u, v).is_some()) {
            if !mapping[..u].contains(&(v as u8)) {
                mapping[u] = v as u8;
                self.extend(plant, mapping, u + 1);
            }
        }
        mapping[u] = NONE;
    }

    fn add(&mut self, weight: i64, mapping: &[u8]) {
        if weight > self.weight {
            self.weight = weight;
            self.mappings.clear();
        }
        if weight == self.weight {
            self.mappings.push(mapping.to_vec());
        }
    }

    /// The partners that recorded u has in heaviest mappings, perhaps none.
    fn partners(&self, u: usize) -> Vec<Option<usize>> {
        self.mappings.iter().map(|mapping| Some(mapping[u]).filter(|&v| v != NONE).map(usize::from)).collect()
    }

    /// The partners that found v has in heaviest mappings, perhaps none.
    fn partners_of_found(&self, v: usize) -> Vec<Option<usize>> {
        self.mappings.iter().map(|mapping| mapping.iter().position(|&w| usize::from(w) == v)).collect()
    }
}

/// How often each was said.
#[derive(Default, Debug)]
pub struct Said {
    pub certain: usize,
    pub another: usize,
    pub none: usize,
    pub unknown: usize,
}

/// Whether `said` is right of a vertex that has partner `own` here and these in heaviest mappings; `unknown` where it may be unknown.
fn judge_one(said: Certainty, own: Option<usize>, partners: &[Option<usize>], unknown: bool, counts: &mut Said) {
    match said {
        Certainty::Certain => {
            counts.certain += 1;
            assert!(partners.iter().all(|&partner| partner == own), "{own:?} is not certain: {partners:?}");
        }
        Certainty::Otherwise(other) => {
            *(if other.is_some() { &mut counts.another } else { &mut counts.none }) += 1;
            assert_ne!(other, own, "otherwise is the same");
            assert!(partners.contains(&other), "no heaviest mapping has {other:?}: {partners:?}");
        }
        Certainty::Unknown => {
            counts.unknown += 1;
            assert!(unknown, "{own:?} of {partners:?} can be known");
        }
    }
}

/// Compares an answer with all mappings.
pub fn judge_certainty(plant: &Judged, answer: &Answer, counts: &mut Said) {
    let heaviest = Heaviest::of(plant);
    assert_eq!(answer.weight, heaviest.weight);
    let own: Vec<u8> = answer.partner.iter().map(|v| v.map_or(NONE, |v| v as u8)).collect();
    assert!(heaviest.mappings.contains(&own), "{own:?} is no heaviest mapping");
    for u in 0..plant.n() {
        let limit = (0..plant.m()).any(|v| plant.pair(u, v) == Some(WEIGHT_MOST));
        judge_one(answer.certain[u], answer.partner[u], &heaviest.partners(u), limit && answer.partner[u].is_none(), counts);
    }
    for v in 0..plant.m() {
        let own = own.iter().position(|&w| usize::from(w) == v);
        assert_eq!(answer.back[v], own);
        let limit = own.is_none() && (0..plant.n()).any(|u| plant.pair(u, v) == Some(WEIGHT_MOST));
        judge_one(answer.found_certain[v], own, &heaviest.partners_of_found(v), limit, counts);
    }
}

/// Of a plant of any size: a vertex is unknown only where labels run out or a weight is at its limit.
pub fn judge_unknown(plant: &Judged, answer: &Answer, counts: &mut Said) {
    let apart = |labels: &[usize], u: usize| {
        let mut others: Vec<usize> = (0..labels.len()).filter(|&x| x != u).map(|x| labels[x]).collect();
        others.sort_unstable();
        others.dedup();
        others.len() + 1 > 32
    };
    for u in 0..plant.n() {
        let found_apart = answer.partner[u].map_or(false, |v| apart(&plant.plant.found.labels, v));
        let limit = answer.partner[u].is_none() && (0..plant.m()).any(|v| plant.pair(u, v) == Some(WEIGHT_MOST));
        let unknown = answer.certain[u] == Certainty::Unknown;
        counts.unknown += usize::from(unknown);
        assert!(!unknown || limit || found_apart || apart(&plant.plant.recorded.labels, u), "recorded {u} can be known");
    }
    for v in (0..plant.m()).filter(|&v| answer.back[v].is_none()) {
        let limit = (0..plant.n()).any(|u| plant.pair(u, v) == Some(WEIGHT_MOST));
        let unknown = answer.found_certain[v] == Certainty::Unknown;
        counts.unknown += usize::from(unknown);
        assert!(!unknown || limit || apart(&plant.plant.found.labels, v), "found {v} can be known");
    }
}
