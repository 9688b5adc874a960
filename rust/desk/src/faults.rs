//! Where in its input a refused plant is at fault, for people. The number of the item is the library's; this finds the
//! place that it is about.
use crate::plant::{Fault, Place, Plant, Tree, Weights};
use crate::words::{many, shown};
use pensummer::{DEGREE_MOST, EDGE_LABELS_MOST, FORBIDDEN, VERTEX_LABELS_MOST, VERTICES_MOST, WEIGHT_MOST};

/// What item `item`, which refused the plant, is about; none if that item does not apply by this reading.
pub fn fault(plant: &Plant, item: u32) -> Option<Fault> {
    match item {
        1 => label_counts(plant),
        2 => weight_range(&plant.table.vertex).or_else(|| weight_range(&plant.table.edge)),
        3..=7 => tree_fault(plant, &plant.recorded, item - 3),
        8..=12 => tree_fault(plant, &plant.found, item - 8),
        25 => twice(&plant.recorded),
        26 => twice(&plant.found),
        _ => None,
    }
}

fn found(place: &Place, reason: String) -> Option<Fault> {
    Some(Fault { place: place.clone(), reason })
}

fn label_counts(plant: &Plant) -> Option<Fault> {
    let counts = [("vertex", plant.table.vertex.labels(), VERTEX_LABELS_MOST), ("edge", plant.table.edge.labels(), EDGE_LABELS_MOST)];
    let (kind, count, most) = counts.into_iter().find(|(_, count, most)| !(1..=*most).contains(count))?;
    found(&plant.table.place, format!("there are 1 to {most} {kind} labels, not {count}"))
}

fn weight_range(weights: &Weights) -> Option<Fault> {
    let all = weights.rows.iter().flatten().zip(weights.places.iter().flatten());
    let mut far = all.filter(|(&weight, _)| weight != FORBIDDEN && !(-WEIGHT_MOST..=WEIGHT_MOST).contains(&weight));
    let (weight, place) = far.next()?;
    found(place, format!("a weight is -{WEIGHT_MOST} to {WEIGHT_MOST} or `forbidden`, not {weight}"))
}

/// The first fault of a tree of the kind that its items have in order: form, label, end, loop, degree.
fn tree_fault(plant: &Plant, tree: &Tree, kind: u32) -> Option<Fault> {
    match kind {
        0 => form(tree),
        1 => labels(plant, tree),
        2 => ends(tree),
        3 => loops(tree),
        _ => degrees(tree),
    }
}

fn form(tree: &Tree) -> Option<Fault> {
    let (size, edges) = (tree.size(), tree.edges.len());
    if !(1..=VERTICES_MOST).contains(&size) {
        return found(&tree.place, format!("the tree has {}; there are to be 1 to {VERTICES_MOST}", many(size, "vertex", "vertices")));
    }
    if edges == size - 1 {
        return None;
    }
    let sizes = format!("the tree has {} and {}", many(size, "vertex", "vertices"), many(edges, "edge", "edges"));
    let said = |place: &Place, why: String| found(place, format!("{sizes}; there is to be one edge less than vertices{why}"));
    match (loops(tree), tree.edges.get(size - 1), loose(tree)) {
        // the edge that is one too many, as far as it can be told
        (Some(fault), Some(_), _) => said(&fault.place, format!("; {}", fault.reason)),
        (_, Some(extra), _) => said(&extra.place, String::new()),
        (_, None, Some(vertex)) => {
            said(&tree.vertices[vertex].place, format!("; vertex {} is not connected with vertex 0", tree.called(vertex)))
        }
        (_, None, None) => said(&tree.place, String::new()),
    }
}

/// The first vertex that no edges connect with vertex 0.
fn loose(tree: &Tree) -> Option<usize> {
    let mut reached = vec![false; tree.size()];
    *reached.get_mut(0)? = true;
    for _ in 0..tree.size() {
        for edge in &tree.edges {
            let [a, b] = edge.ends.map(usize::from);
            let (one, other) = (*reached.get(a)?, *reached.get(b)?);
            reached[a] = one || other;
            reached[b] = one || other;
        }
    }
    reached.iter().position(|there| !there)
}

fn labels(plant: &Plant, tree: &Tree) -> Option<Fault> {
    let (most, most_edge) = (plant.table.vertex.labels(), plant.table.edge.labels());
    if let Some((at, vertex)) = tree.vertices.iter().enumerate().find(|(_, vertex)| usize::from(vertex.label) >= most) {
        let reason = format!("vertex {} has label {}, and labels are 0 to {}", tree.called(at), vertex.label, most - 1);
        return found(&vertex.place, reason);
    }
    let edge = tree.edges.iter().find(|edge| usize::from(edge.label) >= most_edge)?;
    found(&edge.place, format!("the edge {} has label {}, and labels are 0 to {}", shown(&edge.text), edge.label, most_edge - 1))
}

fn ends(tree: &Tree) -> Option<Fault> {
    let edge = tree.edges.iter().find(|edge| edge.ends.iter().any(|&end| usize::from(end) >= tree.size()))?;
    found(&edge.place, format!("the edge {} names a vertex that is not there; vertices are 0 to {}", shown(&edge.text), tree.size() - 1))
}

/// The first edge whose ends are connected by the edges before it.
fn loops(tree: &Tree) -> Option<Fault> {
    let mut part: Vec<usize> = (0..tree.size()).collect();
    for edge in &tree.edges {
        let [a, b] = edge.ends.map(usize::from);
        let (kept, gone) = (*part.get(a)?, *part.get(b)?);
        if kept == gone {
            let how = if a == b { "joins a vertex with itself" } else { "closes a loop" };
            return found(&edge.place, format!("the edge {} {how}", shown(&edge.text)));
        }
        part.iter_mut().filter(|of| **of == gone).for_each(|of| *of = kept);
    }
    None
}

/// The first edge that is one too many at one of its ends.
fn degrees(tree: &Tree) -> Option<Fault> {
    let mut degree = vec![0; tree.size()];
    for edge in &tree.edges {
        for end in edge.ends.map(usize::from) {
            *degree.get_mut(end)? += 1;
            if degree[end] > DEGREE_MOST {
                let reason =
                    format!("the edge {} is one more than the {DEGREE_MOST} that vertex {} may have", shown(&edge.text), tree.called(end));
                return found(&edge.place, reason);
            }
        }
    }
    None
}

/// The first known serial that stands at an earlier vertex already.
fn twice(tree: &Tree) -> Option<Fault> {
    let serials = tree.serials.as_ref()?;
    let earlier = |at: usize| (0..at).find(|&other| tree.serial(at).is_some() && tree.serial(other) == tree.serial(at));
    let (at, other) = (0..tree.size()).find_map(|at| Some((at, earlier(at)?)))?;
    found(&serials[at].place, format!("serial {} stands at vertex {} already", serials[at].number, tree.called(other)))
}
