//! The rules of a certificate, items 21 to 24: the first that is broken, and why. Each function gives nothing where its
//! rule holds.
use super::{allowed, number_called, vertex_pair, Broken, Certificate, Dual, Record, HEAD, PARTNER, WEIGHT_AT};
use crate::graph::{Graph, Rooted};
use crate::plant::Plant;
use std::cmp::Reverse;

/// The first rule that is broken, in the paper's order: each item is tested over the whole certificate before the next.
pub fn broken(plant: &Plant, certificate: &Certificate) -> Option<Broken> {
    let rules = Rules::of(plant, certificate);
    rules.mapping().or_else(|| rules.weight()).or_else(|| rules.records()).or_else(|| rules.answer())
}

/// What the rules are about.
struct Rules<'a> {
    plant: &'a Plant,
    certificate: &'a Certificate,
    recorded: Graph,
    rooted: Rooted,
    found: Graph,
    /// Of each recorded u, found v which record is the first of theirs, at place um + v.
    first: Vec<usize>,
}

impl<'a> Rules<'a> {
    fn of(plant: &'a Plant, certificate: &'a Certificate) -> Rules<'a> {
        let (recorded, found) = (Graph::of(&plant.recorded), Graph::of(&plant.found));
        let mut first = vec![0; recorded.size() * found.size()];
        for (k, record) in certificate.records.iter().enumerate().filter(|(_, record)| record.s == record.v) {
            first[record.u * found.size() + record.v] = k;
        }
        let rooted = recorded.rooted(0);
        Rules { plant, certificate, recorded, rooted, found, first }
    }

    /// A recorded vertex by its number and name, after the word that says what it is.
    fn recorded(&self, u: usize) -> String {
        format!("recorded {}", self.plant.recorded.called(u))
    }

    fn found(&self, v: usize) -> String {
        format!("found {}", self.plant.found.called(v))
    }

    /// The partner of a recorded vertex, which may be out of range.
    fn partner(&self, u: usize) -> Option<usize> {
        Some(self.certificate.partners[u]).filter(|&partner| partner != pensummer::NONE).map(usize::from)
    }

    /// The weight of recorded edge ab with found edge cd, a with c; none if it is forbidden or an edge is not there.
    fn edge_pair(&self, [a, b]: [usize; 2], [c, d]: [usize; 2]) -> Option<i32> {
        allowed(self.plant.edge_pair_weight(self.recorded.edge(a, b)?, self.found.edge(c, d)?))
    }

    /// Item 21: the first vertex whose partner breaks a rule, alone or together with an earlier one; then whether the
    /// mapping is connected.
    fn mapping(&self) -> Option<Broken> {
        let fault = |u: usize| self.own_pair(u).or_else(|| (0..u).find_map(|w| self.two_pairs([w, u])));
        let (u, reason) = (0..self.recorded.size()).find_map(|u| Some((u, fault(u)?))).or_else(|| self.parts())?;
        Some(Broken { item: 21, offset: HEAD + PARTNER * u + 2, reason })
    }

    /// The partner is a vertex, and the pair is allowed.
    fn own_pair(&self, u: usize) -> Option<String> {
        let v = self.partner(u)?;
        let last = self.found.size() - 1;
        if v > last {
            return Some(format!("{} has the partner {v}; a partner is a found vertex, 0 to {last}, or 255 for none", self.recorded(u)));
        }
        if vertex_pair(self.plant, u, v).is_some() {
            return None;
        }
        let labels = &self.plant.table.vertex;
        let [a, b] = [self.plant.recorded.label(u), self.plant.found.label(v)].map(|label| labels.called(label));
        let why = match self.plant.serials_apart(u, v) {
            Some([a, b]) => format!("their serials, {a} and {b}, differ, so that the pair is forbidden"),
            None => format!("the pair of {a} and {b} is forbidden"),
        };
        Some(format!("{} has the partner {}; {why}", self.recorded(u), self.found(v)))
    }

    /// Two vertices have different partners, and are joined exactly if these are, by an edge pair that is allowed.
    fn two_pairs(&self, [w, u]: [usize; 2]) -> Option<String> {
        let [x, v] = [self.partner(w)?, self.partner(u)?];
        let both = || format!("{} and {}", self.recorded(w), self.recorded(u));
        let theirs = || format!("{} and {}", self.found(x), self.found(v));
        if x == v {
            return Some(format!("{} have the same partner, {}", both(), self.found(v)));
        }
        match (self.recorded.edge(w, u), self.found.edge(x, v)) {
            (Some(_), None) => Some(format!("{} are joined, but their partners, {}, are not", both(), theirs())),
            (None, Some(_)) => Some(format!("{} are not joined, but their partners, {}, are", both(), theirs())),
            (Some(a), Some(b)) if allowed(self.plant.edge_pair_weight(a, b)).is_none() => {
                let why = a.apart(b);
                let [a, b] = [a, b].map(|link| self.plant.table.edge.called(link.label));
                Some(format!("{} have the partners {}; the pair of their edges, {a} and {b}, is forbidden{why}", both(), theirs()))
            }
            _ => None,
        }
    }

    /// The mapped vertices are connected: only one of them has no mapped parent. Gives a second one.
    fn parts(&self) -> Option<(usize, String)> {
        let parents = |u: usize| self.rooted.parent[u].and_then(|parent| self.partner(parent));
        let mut tops = (0..self.recorded.size()).filter(|&u| self.partner(u).is_some() && parents(u).is_none());
        let [a, b] = [tops.next()?, tops.next()?];
        let [first, other] = [self.recorded(a), self.recorded(b)];
        Some((b, format!("{first} and {other} have partners, but are not connected by vertices with partners")))
    }

    /// Item 22.
    fn weight(&self) -> Option<Broken> {
        let [sum, said] = [(0..self.recorded.size()).map(|u| self.pair_weight(u)).sum::<i64>(), self.certificate.weight.into()];
        if sum == said {
            return None;
        }
        Some(Broken { item: 22, offset: WEIGHT_AT, reason: format!("the mapping weighs {sum}, the head says {said}") })
    }

    /// What a vertex adds to the weight of a mapping that obeys its rules: its pair, and that of the edge to its
    /// parent.
    fn pair_weight(&self, u: usize) -> i64 {
        let pair = self.partner(u).and_then(|v| vertex_pair(self.plant, u, v));
        let edge = self.rooted.parent[u].and_then(|p| self.edge_pair([u, p], [self.partner(u)?, self.partner(p)?]));
        i64::from(pair.unwrap_or(0)) + i64::from(edge.unwrap_or(0))
    }

    /// Item 23: the first record that breaks a rule.
    fn records(&self) -> Option<Broken> {
        self.certificate.records.iter().find_map(|record| self.record(record))
    }

    fn record(&self, record: &Record) -> Option<Broken> {
        let (offset, what) = match vertex_pair(self.plant, record.u, record.v) {
            None => self.forbidden(record),
            Some(weight) => self.negative(record).or_else(|| self.uncovered(record)).or_else(|| self.no_sum(record, weight)),
        }?;
        Some(Broken { item: 23, offset, reason: format!("the record of {} {what}", record.called(self.plant)) })
    }

    /// A forbidden pair has the forbidden value and duals 0.
    fn forbidden(&self, record: &Record) -> Option<(usize, String)> {
        let serials = self.plant.serials_apart(record.u, record.v);
        let why = serials.map_or(String::new(), |[a, b]| format!(" by its serials, {a} and {b}"));
        if let Some(value) = allowed(record.value) {
            let what = format!("has the value {value}; the pair is forbidden{why}, so its value is the forbidden number");
            return Some((record.value_at(), what));
        }
        let dual = record.duals().find(|dual| dual.value != 0)?;
        Some((dual.offset, format!("has the dual {}; the pair is forbidden{why}, so its duals are 0", self.dual(record, dual))))
    }

    /// No dual is negative.
    fn negative(&self, record: &Record) -> Option<(usize, String)> {
        let dual = record.duals().find(|dual| dual.value < 0)?;
        Some((dual.offset, format!("has the dual {}; duals are 0 or more", self.dual(record, dual))))
    }

    /// A dual of a record and whose it is.
    fn dual(&self, record: &Record, dual: &Dual) -> String {
        if record.children.contains(dual) {
            format!("{} for recorded child {}", dual.value, self.plant.recorded.called(dual.vertex))
        } else {
            format!("{} for found neighbour {}", dual.value, self.plant.found.called(dual.vertex))
        }
    }

    /// The two duals of each child pair that is not left out add up to at least its weight.
    fn uncovered(&self, record: &Record) -> Option<(usize, String)> {
        let mut pairs = record.children.iter().flat_map(|child| record.neighbours.iter().map(move |other| (child, other)));
        pairs.find_map(|(child, other)| Some((child.offset, self.pair_uncovered(record, child, other)?)))
    }

    fn pair_uncovered(&self, record: &Record, child: &Dual, other: &Dual) -> Option<String> {
        let edge = i64::from(self.edge_pair([record.u, child.vertex], [record.v, other.vertex])?);
        let below = self.below(child.vertex, other.vertex, record.v)?;
        let value = i64::from(allowed(below.value)?);
        let (sum, gain) = (i64::from(child.value) + i64::from(other.value), edge + value);
        if sum >= gain {
            return None;
        }
        let duals = format!("has the duals {} and {}, together {sum}", self.dual(record, child), self.dual(record, other));
        let due = format!("their edge pair weighs {edge} and the value of {} is {value}, together {gain}", below.called(self.plant));
        Some(format!("{duals}; {due}"))
    }

    /// The record of (u, v, s).
    fn below(&self, u: usize, v: usize, s: usize) -> Option<&Record> {
        self.certificate.records[self.first[u * self.found.size() + v]..].iter().find(|record| record.s == s)
    }

    /// The value is the pair's weight plus all duals.
    fn no_sum(&self, record: &Record, weight: i32) -> Option<(usize, String)> {
        let duals: i64 = record.duals().map(|dual| i64::from(dual.value)).sum();
        let sum = i64::from(weight) + duals;
        if i64::from(record.value) == sum {
            return None;
        }
        let value = number_called(allowed(record.value));
        let what = format!("has the value {value}; the pair weighs {weight} and the duals add up to {duals}, together {sum}");
        Some((record.value_at(), what))
    }

    /// Item 24.
    fn answer(&self) -> Option<Broken> {
        let tops = self.certificate.records.iter().filter(|record| record.s == record.v);
        let top = tops.min_by_key(|record| Reverse(record.value))?;
        if self.certificate.weight == top.value.max(0) {
            return None;
        }
        let largest = format!("the largest value with s = v is {}, that of {}", number_called(allowed(top.value)), top.called(self.plant));
        let so = if top.value < 0 { "; so the heaviest weight is 0" } else { "" };
        Some(Broken { item: 24, offset: WEIGHT_AT, reason: format!("the head says {}; {largest}{so}", self.certificate.weight) })
    }
}
