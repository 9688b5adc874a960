//! Directed edges: which pairs of edges directions forbid, which end of an edge may be written first without any change, and certificates and
//! jobs that do not heed directions. The random plants of the other tests have directed edges too.

use pensummer::Job;
use pensummer_tests::answers::{weight, Answers};
use pensummer_tests::certificate::{self, put, put_partners};
use pensummer_tests::compare::{self, Solved};
use pensummer_tests::directions::{self, Decided};
use pensummer_tests::mapping::{self, NONE};
use pensummer_tests::plants::{self, small_shapes, Shape, Weights};
use pensummer_tests::random::Random;
use pensummer_tests::reading::{is_directed, table_bytes, tree_bytes, Edge, Inputs, Plant, FORBIDDEN, ITEMS};

/// Edge weights of so many labels; for each pair of them another one.
fn told_apart(labels: usize) -> Vec<Vec<i32>> {
    (0..labels).map(|a| (0..labels).map(|b| told_apart_by(a, b)).collect()).collect()
}

fn told_apart_by(recorded: usize, found: usize) -> i32 {
    (1 + 10 * recorded + found) as i32
}

/// Two trees of as many vertices with these edges. A vertex can only be paired with the one of the same number, and then weighs 5.
fn pinned(edge_weights: &[Vec<i32>], recorded: &[Edge], found: &[Edge]) -> Inputs {
    let labels: Vec<usize> = (0..=recorded.len()).collect();
    let row = |&label: &usize| labels.iter().map(|&other| if other == label { 5 } else { FORBIDDEN }).collect();
    let vertex_weights: Vec<Vec<i32>> = labels.iter().map(row).collect();
    Inputs { table: table_bytes(&vertex_weights, edge_weights), recorded: tree_bytes(&labels, recorded), found: tree_bytes(&labels, found) }
}

/// The same with vertices that are all alike: every pair of them weighs 5.
fn alike(edge_weights: &[Vec<i32>], recorded: &[Edge], found: &[Edge]) -> Inputs {
    let tree = |edges: &[Edge]| tree_bytes(&vec![0; edges.len() + 1], edges);
    Inputs { table: table_bytes(&[vec![5]], edge_weights), recorded: tree(recorded), found: tree(found) }
}

/// A small plant with a directed edge in one tree at least.
fn directed_plant(shapes: &[Shape], random: &mut Random) -> Inputs {
    std::iter::repeat_with(|| plants::small_plant(shapes, random)).find(directions::some).expect("a plant")
}

/// The certificate of a plant.
fn written(inputs: &Inputs, random: &mut Random) -> Vec<u8> {
    let sizes = compare::sizes(inputs).expect("an accepted plant");
    compare::write(inputs, sizes.work, sizes.certificate, random).expect("a written certificate")
}

/// Every pair of labels under every number of labels, either end first in either tree: so the upstream end is the parent, or the child.
#[test]
fn which_pairs() {
    let mut random = Random::of_test("directions which_pairs");
    let pairs = (1..=8).flat_map(|labels| (0..labels * labels).map(move |pair| (labels, pair / labels, pair % labels)));
    let mut tried = 0;
    for (labels, a, b) in pairs {
        for (recorded, found) in [((0, 1), (0, 1)), ((0, 1), (1, 0)), ((1, 0), (0, 1)), ((1, 0), (1, 0))] {
            let inputs = pinned(&told_apart(labels), &[(recorded.0, recorded.1, a)], &[(found.0, found.1, b)]);
            let allowed = if a < 4 { b < 4 } else { b >= 4 && recorded == found };
            let heaviest = if allowed { 5 + 5 + told_apart_by(a, b) } else { 5 };
            assert_eq!(compare::heaviest(&inputs, &mut random).0, heaviest, "labels {a} and {b} of {labels}{inputs:?}");
            tried += 1;
        }
    }
    println!("{tried} pairs of edges");
}

#[test]
fn worked_out_by_hand() {
    let mut random = Random::of_test("worked_out_by_hand");
    let mut given = |inputs: Inputs| compare::heaviest(&inputs, &mut random);
    let (none, one) = (NONE, vec![vec![1; 8]; 8]);
    // 0 > 1 with itself: both vertices and the edge
    assert_eq!(given(pinned(&one, &[(0, 1, 4)], &[(0, 1, 4)])), (11, vec![0, 1]));
    // with 0 < 1: one vertex; if they are alike 0 with 1 and 1 with 0
    assert_eq!(given(pinned(&one, &[(0, 1, 4)], &[(1, 0, 4)])).0, 5);
    assert_eq!(given(alike(&one, &[(0, 1, 4)], &[(1, 0, 4)])), (11, vec![1, 0]));
    // 0 > 1 > 2 > 3 with its mirror image: one vertex; if they are alike all, from the other end
    let (path, mirror) = ([(0, 1, 4), (1, 2, 5), (2, 3, 4)], [(1, 0, 4), (2, 1, 5), (3, 2, 4)]);
    assert_eq!(given(pinned(&one, &path, &mirror)).0, 5);
    assert_eq!(given(alike(&one, &path, &mirror)), (23, vec![3, 2, 1, 0]));
    // with 0 > 1 < 2 > 3: one of the outer edges; if they are alike one edge too, since no two of these follow each other downstream
    let turning = [(0, 1, 4), (2, 1, 5), (2, 3, 4)];
    assert_eq!(given(pinned(&one, &path, &turning)).0, 11);
    assert_eq!(given(alike(&one, &path, &turning)).0, 11);
    // 0 > 1 - 2 > 3 with 0 > 1 - 2 < 3: all but vertex 3; which end of the undirected edge is first says nothing
    let (mixed, last_turned) = ([(0, 1, 4), (1, 2, 3), (2, 3, 4)], [(0, 1, 4), (2, 1, 3), (3, 2, 4)]);
    assert_eq!(given(pinned(&one, &mixed, &last_turned)), (17, vec![0, 1, 2, none]));
    // a directed edge with an undirected one, whatever the table says: one vertex, either way round
    let much = vec![vec![1_000; 8]; 8];
    assert_eq!(given(alike(&much, &[(0, 1, 4)], &[(0, 1, 3)])).0, 5);
    assert_eq!(given(alike(&much, &[(0, 1, 3)], &[(0, 1, 4)])).0, 5);
    // labels 4 and 5: what the table says of that pair, 1 + 40 + 5, and not of 5 and 4; if it forbids it, one vertex
    assert_eq!(given(alike(&told_apart(6), &[(0, 1, 4)], &[(0, 1, 5)])), (5 + 5 + 46, vec![0, 1]));
    assert_eq!(given(alike(&vec![vec![FORBIDDEN; 6]; 6], &[(0, 1, 4)], &[(0, 1, 5)])).0, 5);
    // two edges away from the centre 0 and one towards it, with one away and two towards: one of each, so two leaves
    assert_eq!(given(alike(&one, &[(0, 1, 6), (0, 2, 6), (3, 0, 6)], &[(0, 1, 7), (2, 0, 7), (3, 0, 7)])).0, 17);
    // 1 is the centre of both, and 0, where the tree is rooted, a leaf: 0 > 1 > 2 with 1 > 0, 2 > 1 is 0 with 2, 1 with 1, 2 with 0
    assert_eq!(given(alike(&one, &[(0, 1, 4), (1, 2, 4)], &[(1, 0, 4), (2, 1, 4)])), (17, vec![2, 1, 0]));
}

#[test]
fn heaviest_by_exhaustive_search() {
    let mut random = Random::of_test("directions heaviest_by_exhaustive_search");
    let shapes = small_shapes();
    let (mut decided, mut tried, mut mappings) = (Decided::default(), 0, 0);
    while tried < 3_000 {
        let inputs = directed_plant(&shapes, &mut random);
        let plant = Plant::read(&inputs).expect("an accepted plant");
        let (heaviest, count) = mapping::search(&plant);
        assert_eq!(i64::from(compare::heaviest(&inputs, &mut random).0), heaviest, "the heaviest of {count} mappings{inputs:?}");
        decided.add(&inputs, &plant, heaviest);
        tried += 1;
        mappings += count;
    }
    decided.report(tried);
    println!("{tried} plants, {mappings} mappings searched");
}

/// Which end of an undirected edge is first changes no answer, nor do directed edges that are all turned round.
#[test]
fn turned_without_any_change() {
    let mut random = Random::of_test("turned_without_any_change");
    let shapes = small_shapes();
    let (mut undirected, mut directed) = (0, 0);
    for _ in 0..3_000 {
        let inputs = plants::small_plant(&shapes, &mut random);
        let budget = 1 + random.below(20) as u32;
        let answers = Answers::of(&inputs, budget);
        let some = directions::both_turned(&inputs, |label| !is_directed(label) && random.once_in(2));
        let all = directions::both_turned(&inputs, is_directed);
        assert_eq!(Answers::of(&some, budget), answers, "{inputs:?}{some:?}");
        assert_eq!(Answers::of(&all, budget), answers, "{inputs:?}{all:?}");
        undirected += usize::from(some != inputs);
        directed += usize::from(all != inputs);
    }
    assert!(undirected > 1_000 && directed > 1_000, "{undirected} and {directed}");
    println!("{undirected} plants with undirected edges turned, {directed} with all directed ones");
}

/// A tree of the same vertices under other numbers is the same tree; a directed edge turned round is another edge.
#[test]
fn renumbered_and_turned() {
    let mut random = Random::of_test("renumbered_and_turned");
    let shapes = small_shapes();
    let mut changed = 0;
    for _ in 0..3_000 {
        let inputs = directed_plant(&shapes, &mut random);
        let (recorded, found) = (plants::renumbered(&inputs.recorded, &mut random), plants::renumbered(&inputs.found, &mut random));
        let other = Inputs { recorded, found, ..inputs.clone() };
        assert_eq!(weight(&other), weight(&inputs), "{inputs:?}{other:?}");
        let mut turned = inputs.clone();
        directions::turn_one(&mut turned, &mut random);
        changed += usize::from(weight(&turned) != weight(&inputs));
    }
    assert!(changed > 150, "{changed}");
    println!("{changed} weights changed by an edge turned round");
}

/// The certificate of a plant, and how both checks judge it where a directed edge is turned round: the mapping has then a forbidden pair of
/// edges, or a pair that was left out is not covered, or all holds as before.
#[test]
fn certificates_under_other_directions() {
    let mut random = Random::of_test("certificates_under_other_directions");
    let shapes = small_shapes();
    let mut numbers = [0; ITEMS + 1];
    for _ in 0..3_000 {
        let mut inputs = directed_plant(&shapes, &mut random);
        let certificate = written(&inputs, &mut random);
        directions::turn_one(&mut inputs, &mut random);
        numbers[compare::check(&inputs, &certificate) as usize] += 1;
    }
    assert!([0, 21, 23].iter().all(|&item| numbers[item] > 100), "{numbers:?}");
    assert_eq!(numbers[0] + numbers[21] + numbers[23], 3_000, "{numbers:?}");
    println!("certificates by number {numbers:?}");
}

/// Two joined vertices with two joined partners, where only directions forbid the pair of edges.
struct Against {
    partners: Vec<u8>,
    /// What the table says of the two pairs of vertices and the pair of edges.
    weight: i32,
}

/// All that there are in a plant.
fn against(plant: &Plant) -> Vec<Against> {
    let ignoring = directions::ignored(plant);
    let joined = |neighbours: &[Vec<usize>]| -> Vec<(usize, usize)> {
        neighbours.iter().enumerate().flat_map(|(a, of)| of.iter().map(move |&b| (a, b))).collect()
    };
    let found = joined(&plant.found.neighbours);
    let edges = joined(&plant.recorded.neighbours).into_iter().flat_map(|recorded| found.iter().map(move |&found| (recorded, found)));
    edges
        .filter(|&((u, x), (v, y))| plant.directions_differ(u, x, v, y))
        .filter_map(|((u, x), (v, y))| {
            let mut partners = vec![NONE; plant.n()];
            partners[u] = v as u8;
            partners[x] = y as u8;
            let weight = plant.pair(u, v)? + plant.pair(x, y)? + ignoring.edge_pair(u, x, v, y)?;
            Some(Against { partners, weight })
        })
        .collect()
}

/// A certificate's mapping may have none of these, alone and with the weight that the table gives them.
#[test]
fn mappings_against_directions() {
    let mut random = Random::of_test("mappings_against_directions");
    let shapes = small_shapes();
    let mut tried = 0;
    while tried < 20_000 {
        let inputs = directed_plant(&shapes, &mut random);
        let certificate = written(&inputs, &mut random);
        for Against { partners, weight } in against(&Plant::read(&inputs).expect("an accepted plant")) {
            let mut bytes = certificate.clone();
            put_partners(&mut bytes, &partners);
            put(&mut bytes, 4, weight);
            assert_eq!(compare::check(&inputs, &bytes), 21, "{partners:?}{inputs:?}");
            tried += 1;
        }
    }
    println!("{tried} mappings of two vertices");
}

/// The same plant twice, with all edges undirected and with all directed, and the certificate of each for the other.
#[test]
fn certificates_that_do_not_heed_directions() {
    let mut random = Random::of_test("certificates_that_do_not_heed_directions");
    let shapes = small_shapes();
    let mut numbers = [[0; ITEMS + 1]; 2];
    for _ in 0..1_000 {
        let (recorded, found) = (random.pick(&shapes).clone(), random.pick(&shapes).clone());
        let (labels, weights) = ((2, 1 + random.below(4)), (Weights::any(&mut random), Weights::any(&mut random)));
        let plain = plants::weighted(&recorded, &found, labels, weights, &mut random);
        let inputs = directions::raised(&plain);
        let (unheeding, heeding) = (written(&plain, &mut random), written(&inputs, &mut random));
        let plant = Plant::read(&inputs).expect("an accepted plant");
        // if its mapping heeds directions by chance, the first is a certificate of both plants: it only covers more than it must
        let heeds = mapping::is_mapping(&plant, &certificate::partners(&plant, &unheeding));
        let given = [compare::check(&inputs, &unheeding), compare::check(&plain, &heeding)];
        assert_eq!(given[0], if heeds { 0 } else { 21 }, "{inputs:?}");
        numbers.iter_mut().zip(given).for_each(|(numbers, item)| numbers[item as usize] += 1);
    }
    let [unheeding, heeding] = numbers;
    assert!(unheeding[0] > 100 && unheeding[21] > 100 && heeding[0] > 100 && heeding[23] > 100, "{numbers:?}");
    println!("certificates of undirected plants and of directed ones by number {numbers:?}");
}

/// Recorded 0 > 1, found 0 < 1, worked out by hand: 0 with 0 weighs 5, 1 with 1 weighs 3, the edges would weigh 1; other pairs are forbidden.
#[test]
fn a_certificate_by_hand() {
    let table = table_bytes(&[vec![5, FORBIDDEN], vec![FORBIDDEN, 3]], &vec![vec![1; 5]; 5]);
    let tree = |upstream: usize| tree_bytes(&[0, 1], &[(upstream, 1 - upstream, 4)]);
    let against = Inputs { table, recorded: tree(0), found: tree(1) };
    let along = Inputs { found: tree(0), ..against.clone() };
    let bytes = |weight: i32, partners: [u8; 2], records: &[(i32, &[i32])]| certificate::bytes(2, weight, &partners, records);
    let no = FORBIDDEN;
    // recorded 1 below 0: with found 0, s = 0 and 1, then with found 1, s = 1 and 0; then recorded 0 in the same way
    let heeding: [(i32, &[i32]); 8] = [(no, &[0]), (no, &[]), (3, &[0]), (3, &[]), (5, &[0, 0]), (5, &[0]), (no, &[0, 0]), (no, &[0])];
    // the child's pair with its edges weighs 4, which the child's dual covers
    let mut unheeding = heeding;
    unheeding[4] = (9, &[4, 0]);
    let both = |weight: i32, partners: [u8; 2], records: &[(i32, &[i32])]| {
        [&against, &along].map(|inputs| compare::check(inputs, &bytes(weight, partners, records)))
    };
    // along its direction the pair must be covered, against it need not be
    assert_eq!(both(5, [0, NONE], &heeding), [0, 23]);
    assert_eq!(both(9, [0, 1], &unheeding), [21, 0]);
    assert_eq!(both(9, [0, 1], &heeding), [21, 23]);
    // more than covered it may be, but then a weight of 5 is not the largest value
    assert_eq!(both(5, [0, NONE], &unheeding), [24, 24]);
    assert_eq!(both(9, [0, NONE], &unheeding), [22, 22]);
    assert_eq!(both(3, [NONE, 1], &heeding), [24, 23]);
    // no other one has these values
    let mut random = Random::of_test("directions a_certificate_by_hand");
    assert_eq!(compare::write(&against, 8, 94, &mut random), Ok(bytes(5, [0, NONE], &heeding)));
}

/// A job that was begun under some directions goes on under others: no item looks at them. Its mapping heeds those at the end.
#[test]
fn a_job_under_other_directions() {
    let mut random = Random::of_test("a_job_under_other_directions");
    let shapes = small_shapes();
    let mut lighter = 0;
    for _ in 0..3_000 {
        let begun = directed_plant(&shapes, &mut random);
        let mut after = begun.clone();
        directions::turn_one(&mut after, &mut random);
        let (solved, then) = (Solved::read(&begun).expect("an accepted plant"), Solved::read(&after).expect("an accepted plant"));
        let (n, m, mut work) = (solved.plant.n(), solved.plant.m(), solved.values);
        let position = random.below(work.len() + 1) as u32;
        let mut job = Job { idle: 0, n: n as u32, m: m as u32, position, total: 0 };
        compare::advance(&mut job, &after, u32::MAX, &mut work, &mut random).expect("an advance");
        let weight = compare::finish(&job, &after, &work, n, &mut random).expect("a finish");
        assert!(weight <= then.weight, "{begun:?}{after:?}");
        lighter += usize::from(weight < then.weight);
    }
    assert!(lighter > 40, "{lighter}");
    println!("{lighter} jobs ended lighter than one from the start");
}
