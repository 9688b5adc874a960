//! Plants of 64 by 64 vertices of several shapes, against the independent dynamic program; the longest certificate is among those written.

use pensummer::{Job, TREE_MOST, VERTICES_MOST};
use pensummer_tests::answers::weight;
use pensummer_tests::certificate;
use pensummer_tests::compare::{self, Solved};
use pensummer_tests::directions;
use pensummer_tests::mapping::NONE;
use pensummer_tests::plants::{self, large_shapes, Shape, Weights, WEIGHTS};
use pensummer_tests::random::Random;
use pensummer_tests::reading::{Inputs, Places, Plant, Tree, ITEMS, UNKNOWN, WEIGHT_MOST};
use pensummer_tests::serials;
use pensummer_tests::values::VALUE_MOST;

/// The work numbers that this plant wants.
fn wanted(inputs: &Inputs) -> usize {
    compare::sizes(inputs).expect("an accepted plant").work
}

/// A plant of two large shapes with these kinds of weights; serials in both trees, or one, or none.
fn large_mixed(recorded: &Shape, found: &Shape, vertex: Weights, edge: Weights, random: &mut Random) -> Inputs {
    let mut inputs = large(recorded, found, vertex, edge, random);
    serials::give(&mut inputs, random);
    inputs
}

/// The same without serials.
fn large(recorded: &Shape, found: &Shape, vertex: Weights, edge: Weights, random: &mut Random) -> Inputs {
    let labels = *random.pick(&[(1, 1), (3, 2), (2, 5), (32, 8)]);
    plants::weighted(recorded, found, labels, (vertex, edge), random)
}

/// A tree recorded and found again, with this kind of weights alone.
fn with_itself(shape: &Shape, weights: Weights, random: &mut Random) -> Inputs {
    let inputs = large(shape, shape, weights, weights, random);
    Inputs { found: inputs.recorded.clone(), ..inputs }
}

#[test]
fn plants_of_middle_size() {
    let mut random = Random::of_test("plants_of_middle_size");
    let (mut tried, mut damaged, mut refusals) = (0, 0, [0; ITEMS + 1]);
    for _ in 0..1_500 {
        // up to 20 vertices a side, sometimes one side up to 64; matchings of up to 8 children with 8 neighbours
        let (n, m) = match random.below(10) {
            0 => (1 + random.below(64), 1 + random.below(4)),
            1 => (1 + random.below(4), 1 + random.below(64)),
            _ => (1 + random.below(20), 1 + random.below(20)),
        };
        let (recorded, found) = (plants::middle_shape(n, &mut random), plants::middle_shape(m, &mut random));
        let inputs = plants::plant(&recorded, &found, &mut random);
        let solved = Solved::read(&inputs).expect("an accepted plant");
        let sizes = compare::sizes(&inputs).expect("an accepted plant");
        let (values, length) = (sizes.work, sizes.certificate);
        compare::match_trees(&inputs, values + random.below(2), n + random.below(2), &mut random).expect("a match");
        let (job, work) = compare::in_slices(&inputs, values / 4 + 1, &mut random);
        assert_eq!(compare::finish(&job, &inputs, &work, n, &mut random), Ok(solved.weight), "{inputs:?}");
        let written = compare::write(&inputs, values, length + random.below(2), &mut random).expect("a written certificate");
        let records = certificate::records(&solved.plant, &solved.order);
        for _ in 0..20 {
            let mut bytes = written.clone();
            let at = random.below(length);
            bytes[at] ^= 1 << random.below(8);
            let item = certificate::check(&solved.plant, &solved.order, &records, &bytes);
            refusals[compare::check_gives(&inputs, &bytes, item) as usize] += 1;
            damaged += 1;
        }
        tried += 1;
    }
    println!("{tried} plants, {damaged} damaged certificates with the numbers {refusals:?}");
}

#[test]
fn every_pair_of_shapes() {
    let mut random = Random::of_test("every_pair_of_shapes");
    let shapes = large_shapes(&mut random);
    let mut tried = 0;
    for (_, recorded) in &shapes {
        for (_, found) in &shapes {
            let vertex = *random.pick(&[Weights::Wide, Weights::SmallForbidden, Weights::Small, Weights::Positive, Weights::Extremes]);
            let edge = *random.pick(&[Weights::Wide, Weights::SmallForbidden, Weights::Small, Weights::Positive]);
            let inputs = large_mixed(recorded, found, vertex, edge, &mut random);
            compare::match_trees(&inputs, wanted(&inputs) + 1, 65, &mut random).expect("a match");
            tried += 1;
        }
    }
    println!("{tried} plants");
}

#[test]
fn every_kind_of_weights() {
    let mut random = Random::of_test("every_kind_of_weights");
    let shapes = large_shapes(&mut random);
    let (mut tried, mut heaviest) = (0, 0);
    // ties, all forbidden, the most and the least weights are among them
    for weights in WEIGHTS {
        for (name, shape) in &shapes {
            let mut inputs = large(shape, shape, weights, weights, &mut random);
            if matches!(weights, Weights::Most | Weights::One) {
                // found again with other numbers, so that directions allow what is asserted
                inputs.found = plants::renumbered(&inputs.recorded, &mut random);
            }
            compare::match_trees(&inputs, wanted(&inputs), 64, &mut random).expect("a match");
            tried += 1;
            let weight = Solved::read(&inputs).unwrap().weight;
            match weights {
                // a tree with itself: everything is mapped
                Weights::Most => assert_eq!(weight, VALUE_MOST, "{name}"),
                Weights::One => assert_eq!(weight, 127, "{name}"),
                Weights::Forbidden | Weights::Least | Weights::Zero => assert_eq!(weight, 0, "{name}"),
                _ => {}
            }
            heaviest = heaviest.max(weight);
        }
    }
    for (vertex, edge) in [(Weights::Most, Weights::Forbidden), (Weights::Forbidden, Weights::Most), (Weights::Most, Weights::Least)] {
        for (_, shape) in &shapes {
            let inputs = large(shape, shape, vertex, edge, &mut random);
            compare::match_trees(&inputs, wanted(&inputs), 64, &mut random).expect("a match");
            tried += 1;
        }
    }
    assert_eq!(heaviest, VALUE_MOST);
    println!("{tried} plants");
}

#[test]
fn the_greatest_and_the_least_weights() {
    let mut random = Random::of_test("the_greatest_and_the_least_weights");
    let shapes = large_shapes(&mut random);
    for (name, shape) in &shapes {
        // everything is mapped, or nothing
        for (weights, heaviest, mapped) in [(Weights::Most, 2_032_000_000, 64), (Weights::Least, 0, 0)] {
            let mapping = all_give(&with_itself(shape, weights, &mut random), heaviest, &mut random);
            assert_eq!(mapping.iter().filter(|&&partner| partner != NONE).count(), mapped, "{name}");
        }
    }
    println!("{} trees", shapes.len());
}

#[test]
fn the_lightest_mapping() {
    let mut random = Random::of_test("the_lightest_mapping");
    let (_, path) = &large_shapes(&mut random)[0];
    let inputs = with_itself(path, Weights::Least, &mut random);
    let solved = Solved::read(&inputs).expect("an accepted plant");
    let (n, m, position) = (64, 64, solved.values.len() as u32);
    // over numbers as great as they may be, and that of the pair (0, 0) the greatest, a finish maps the path on itself
    let mut work = vec![VALUE_MOST - 1; solved.values.len()];
    work[solved.order.place(&solved.plant, 0, 0, 0)] = VALUE_MOST;
    let job = Job { idle: 0, n, m, position, total: 0 };
    assert_eq!(compare::finish(&job, &inputs, &work, 64, &mut random), Ok(-2_032_000_000));
    // such a mapping with its weight is only not heaviest, and with another weight it is refused for that
    let sizes = compare::sizes(&inputs).expect("an accepted plant");
    let mut bytes = compare::write(&inputs, sizes.work, sizes.certificate, &mut random).expect("a written certificate");
    certificate::put_partners(&mut bytes, &(0..64).collect::<Vec<u8>>());
    for (weight, item) in [(-2_032_000_000, 24), (-2_031_999_999, 22), (-2_032_000_001, 22), (i32::MIN, 22), (2_032_000_000, 22)] {
        certificate::put(&mut bytes, 4, weight);
        assert_eq!(compare::check(&inputs, &bytes), item, "{weight}");
    }
}

/// The match, a job and a certificate of a plant all give this weight. Gives back the mapping of the match.
fn all_give(inputs: &Inputs, heaviest: i32, random: &mut Random) -> Vec<u8> {
    let (weight, mapping) = compare::heaviest(inputs, random);
    assert_eq!(weight, heaviest, "{inputs:?}");
    mapping
}

#[test]
fn serials_all_known() {
    let mut random = Random::of_test("serials_all_known");
    for (_, shape) in &large_shapes(&mut random) {
        let plain = with_itself(shape, Weights::Most, &mut random);
        let all = serials::known(2 * VERTICES_MOST, &mut random);
        let (one, other) = all.split_at(VERTICES_MOST);
        let under = |recorded: &[u32], found: &[u32]| Inputs {
            table: plain.table.clone(),
            recorded: serials::numbered(&plain.recorded, recorded),
            found: serials::numbered(&plain.found, found),
        };
        // the same: each vertex with itself, and with no other
        let same = under(one, one);
        assert_eq!((same.recorded.len(), same.found.len()), (TREE_MOST, TREE_MOST));
        assert_eq!(all_give(&same, VALUE_MOST, &mut random), (0..VERTICES_MOST as u8).collect::<Vec<u8>>());
        // different throughout: nothing
        assert_eq!(all_give(&under(one, other), 0, &mut random), [NONE; VERTICES_MOST]);
        // and but for one that is unknown: one pair
        let (mut found, v) = (other.to_vec(), random.below(VERTICES_MOST));
        found[v] = UNKNOWN;
        let mapping = all_give(&under(one, &found), WEIGHT_MOST, &mut random);
        assert_eq!(mapping.into_iter().filter(|&partner| partner != NONE).collect::<Vec<u8>>(), [v as u8]);
        // all unknown: as without
        let unknown = [UNKNOWN; VERTICES_MOST];
        let mapping = all_give(&plain, VALUE_MOST, &mut random);
        assert_eq!(all_give(&under(&unknown, &unknown), VALUE_MOST, &mut random), mapping);
    }
}

/// How many vertices there are on this side of an edge: on that of `a`.
fn on_side_of(tree: &Tree, a: usize, b: usize) -> usize {
    1 + tree.neighbours[a].iter().filter(|&&c| c != b).map(|&c| on_side_of(tree, c, a)).sum::<usize>()
}

/// All edges are directed, and by its serial each vertex can only be paired with itself.
#[test]
fn each_edge_turned() {
    let mut random = Random::of_test("each_edge_turned");
    let mut tried = 0;
    for (name, shape) in &large_shapes(&mut random) {
        let plain = plants::weighted(shape, shape, (2, 4), (Weights::Most, Weights::Most), &mut random);
        let recorded = serials::numbered(&plain.recorded, &serials::known(VERTICES_MOST, &mut random));
        let inputs = directions::raised(&Inputs { found: recorded.clone(), recorded, ..plain });
        assert_eq!(weight(&inputs), VALUE_MOST, "{name}");
        let tree = Plant::read(&inputs).expect("an accepted plant").recorded;
        for edge in 0..VERTICES_MOST - 1 {
            let turned = directions::turned(&inputs.recorded, |other, _| other == edge);
            // the larger side of the edge is mapped: its vertices, and one edge fewer
            let at = Places::of(&turned).expect("an accepted tree").edge(edge);
            let side = on_side_of(&tree, turned[at + 2].into(), turned[at + 3].into());
            let heaviest = WEIGHT_MOST * (2 * side.max(VERTICES_MOST - side) as i32 - 1);
            assert_eq!(weight(&Inputs { recorded: turned.clone(), ..inputs.clone() }), heaviest, "{name}: recorded edge {edge}");
            assert_eq!(weight(&Inputs { found: turned.clone(), ..inputs.clone() }), heaviest, "{name}: found edge {edge}");
            // turned in both trees it is the same edge again
            assert_eq!(weight(&Inputs { recorded: turned.clone(), found: turned, ..inputs.clone() }), VALUE_MOST, "{name}: edge {edge}");
            tried += 1;
        }
    }
    println!("{tried} edges");
}

#[test]
fn jobs_in_slices() {
    let mut random = Random::of_test("large jobs_in_slices");
    let shapes = large_shapes(&mut random);
    let mut tried = 0;
    for (_, shape) in &shapes {
        let found = &random.pick(&shapes).1;
        let inputs = large_mixed(shape, found, Weights::Wide, Weights::SmallForbidden, &mut random);
        let solved = Solved::read(&inputs).expect("an accepted plant");
        let (job, mut work) = compare::in_slices(&inputs, 750, &mut random);
        assert_eq!(job, Job { idle: 0, n: 64, m: 64, position: 12_160, total: 12_160 });
        assert_eq!(work, solved.values);
        assert_eq!(compare::finish(&job, &inputs, &work, 64, &mut random), Ok(solved.weight));
        // the same end with every allowed number at its most: the mapping is legal and its weight exact
        for number in work.iter_mut().filter(|number| **number != i32::MIN) {
            *number = VALUE_MOST;
        }
        compare::finish(&job, &inputs, &work, 64, &mut random).expect("a finish");
        // and an advance over them stores no more than the most
        let mut half = Job { position: job.position / 2, ..job };
        compare::advance(&mut half, &inputs, u32::MAX, &mut work, &mut random).expect("an advance");
        tried += 1;
    }
    println!("{tried} jobs");
}

#[test]
fn certificates() {
    let mut random = Random::of_test("large certificates");
    let shapes = large_shapes(&mut random);
    let (mut written, mut longest, mut damaged) = (0, 0, 0);
    for (name, found) in &shapes {
        for (_, recorded) in &shapes {
            let vertex = *random.pick(&[Weights::Wide, Weights::Ties, Weights::Positive, Weights::Extremes, Weights::Forbidden]);
            let edge = *random.pick(&[Weights::Wide, Weights::Ties, Weights::Positive, Weights::Small]);
            let inputs = large_mixed(recorded, found, vertex, edge, &mut random);
            let sizes = compare::sizes(&inputs).expect("an accepted plant");
            let length = sizes.certificate;
            assert_eq!((sizes.subproblems, sizes.work), (12_160, 12_160), "{name}");
            assert!(length <= certificate::LONGEST);
            assert_eq!(length == certificate::LONGEST, name.contains("hubs"), "{name}: {length} bytes");
            assert_eq!(compare::write(&inputs, sizes.work, length - 1, &mut random), Err(19));
            let mut bytes = compare::write(&inputs, sizes.work + 1, length + 2, &mut random).expect("a written certificate");
            assert_eq!(bytes.len(), length);
            for _ in 0..4 {
                let at = random.below(length);
                bytes[at] ^= 1 << random.below(8);
                compare::check(&inputs, &bytes);
                damaged += 1;
            }
            longest = longest.max(length);
            written += 1;
        }
    }
    assert_eq!(longest, 278_736);
    println!("{written} written certificates, the longest of {longest} bytes; {damaged} damaged ones");
}
