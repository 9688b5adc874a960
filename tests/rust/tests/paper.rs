//! The paper's small plants 1 to 10 and the limits that it names after them; the same with serials, by paper 02, [3].

use pensummer::Refusal;
use pensummer_tests::compare;
use pensummer_tests::mapping::NONE;
use pensummer_tests::random::Random;
use pensummer_tests::reading::{table_bytes, tree_bytes, Inputs, Places, FORBIDDEN, UNKNOWN};
use pensummer_tests::serials;

/// Table P; the edge weight is 1 or forbidden.
fn table_p(edge: i32) -> Vec<u8> {
    table_bytes(&[vec![5, -2], vec![-2, 3]], &[vec![edge]])
}

/// A path of vertices with these labels.
fn path(labels: &[usize]) -> Vec<u8> {
    let edges: Vec<_> = (1..labels.len()).map(|vertex| (vertex - 1, vertex, 0)).collect();
    tree_bytes(labels, &edges)
}

/// A centre, vertex 0, with leaves.
fn star(labels: &[usize]) -> Vec<u8> {
    let edges: Vec<_> = (1..labels.len()).map(|leaf| (0, leaf, 0)).collect();
    tree_bytes(labels, &edges)
}

/// A tree in the longer form, all serials unknown.
fn unknown(tree: &[u8]) -> Vec<u8> {
    serials::numbered(tree, &vec![UNKNOWN; tree[2] as usize])
}

/// A plant in the longer form: the recorded tree, the found one, both.
fn longer(inputs: &Inputs) -> [Inputs; 3] {
    let (recorded, found) = (unknown(&inputs.recorded), unknown(&inputs.found));
    [
        Inputs { recorded: recorded.clone(), ..inputs.clone() },
        Inputs { found: found.clone(), ..inputs.clone() },
        Inputs { recorded, found, ..inputs.clone() },
    ]
}

/// The weight and the mapping; the same in the longer form.
fn found_with(inputs: &Inputs, random: &mut Random) -> (i32, Vec<u8>) {
    let answer = given(inputs, random);
    for other in longer(inputs) {
        assert_eq!(given(&other, random), answer, "{other:?}");
    }
    answer
}

/// The weight and the mapping, the same twice.
fn given(inputs: &Inputs, random: &mut Random) -> (i32, Vec<u8>) {
    let answer = compare::heaviest(inputs, random);
    assert_eq!(compare::heaviest(inputs, random), answer, "the same calls twice{inputs:?}");
    answer
}

fn refused(inputs: &Inputs) -> u32 {
    let (mut work, mut mapping) = (vec![0x55; 20_000], vec![0x55; 64]);
    pensummer::match_trees(inputs.lent(), &mut work, &mut mapping).map_or_else(Refusal::number, |_| 0)
}

#[test]
fn small_plants_1_to_8() {
    let mut random = Random::of_test("small_plants_1_to_8");
    let mut found = |inputs: &Inputs| found_with(inputs, &mut random);
    let p = table_p(1);
    let plant = |recorded: Vec<u8>, found: Vec<u8>| Inputs { table: p.clone(), recorded, found };
    assert_eq!(found(&plant(path(&[0]), path(&[0]))), (5, vec![0]));
    assert_eq!(found(&plant(path(&[0]), path(&[1]))), (0, vec![255]));
    assert_eq!(found(&plant(path(&[0, 1]), path(&[1, 0]))), (9, vec![1, 0]));
    let (weight, mapping) = found(&plant(path(&[0, 1, 0]), path(&[0, 0, 0])));
    assert_eq!(weight, 10);
    assert!(!mapping.contains(&255), "all are mapped: {mapping:?}");
    assert_eq!(found(&plant(star(&[0, 0, 0, 0]), path(&[0, 0, 0, 0]))).0, 17);
    let (weight, mapping) = found(&plant(path(&[1, 0, 0]), path(&[0, 0])));
    assert_eq!((weight, mapping[0]), (11, 255));
    let lines_forbidden = Inputs { table: table_p(FORBIDDEN), recorded: path(&[0, 0]), found: path(&[0, 0]) };
    assert_eq!(found(&lines_forbidden).0, 5);
    let eight = table_bytes(&[vec![5, FORBIDDEN, FORBIDDEN], vec![FORBIDDEN, 5, 4], vec![FORBIDDEN, 4, 0]], &[vec![0]]);
    assert_eq!(found(&Inputs { table: eight, recorded: star(&[0, 1, 2]), found: star(&[0, 1, 2]) }).0, 13);
}

/// Plant 3 with these serials: path 0,1 with path 1,0.
fn plant_3(recorded: [u32; 2], found: [u32; 2]) -> Inputs {
    Inputs { table: table_p(1), recorded: serials::numbered(&path(&[0, 1]), &recorded), found: serials::numbered(&path(&[1, 0]), &found) }
}

#[test]
fn small_plant_3_with_serials() {
    let mut random = Random::of_test("small_plant_3_with_serials");
    let mut given = |recorded: [u32; 2], found: [u32; 2]| given(&plant_3(recorded, found), &mut random);
    let none = NONE;
    // both pairs have the same serial: 5 + 3 and the edge
    assert_eq!(given([7, 8], [8, 7]), (9, vec![1, 0]));
    // recorded 1 has serial 8, found 0 has 9: only recorded 0 with found 1 is left
    assert_eq!(given([7, 8], [9, 7]), (5, vec![1, none]));
    // recorded 0 has 7, found 1 has 9: only recorded 1 with found 0
    assert_eq!(given([7, 8], [8, 9]), (3, vec![none, 0]));
    // all different: nothing is left
    assert_eq!(given([7, 8], [9, 10]), (0, vec![none, none]));
    // the serials pair 0 with 0 and 1 with 1, which weigh -2 each
    assert_eq!(given([7, 8], [7, 8]), (0, vec![none, none]));
    // an unknown one forbids nothing
    assert_eq!(given([7, 8], [0, 0]), (9, vec![1, 0]));
    assert_eq!(given([0, 8], [8, 9]), (9, vec![1, 0]));
    assert_eq!(given([0, 8], [9, 7]), (5, vec![1, none]));
    // each byte counts, and the highest bit is no sign
    for other in [0x12_34_56_79, 0x12_34_57_78, 0x12_35_56_78, 0x13_34_56_78, 0x92_34_56_78] {
        assert_eq!(given([0x12_34_56_78, 0], [0, 0x12_34_56_78]), (9, vec![1, 0]));
        assert_eq!(given([0x12_34_56_78, 0], [0, other]), (3, vec![none, 0]), "{other:X}");
    }
    assert_eq!(given([u32::MAX, 1 << 31], [1 << 31, u32::MAX]), (9, vec![1, 0]));
    assert_eq!(given([u32::MAX, 1 << 31], [u32::MAX, 1 << 31]), (0, vec![none, none]));
}

#[test]
fn serials_twice() {
    for serial in [1, 7, 255, 256, 1 << 16, 1 << 24, (1 << 31) - 1, 1 << 31, u32::MAX] {
        assert_eq!(refused(&plant_3([serial, serial], [0, 0])), 25);
        assert_eq!(refused(&plant_3([0, 0], [serial, serial])), 26);
        assert_eq!(refused(&plant_3([serial, serial], [serial, serial])), 25);
    }
    assert_eq!(refused(&plant_3([0, 0], [0, 0])), 0);
    let p = table_p(1);
    let plant = |recorded: &[u8], found: &[u8]| Inputs { table: p.clone(), recorded: recorded.to_vec(), found: found.to_vec() };
    let one = path(&[0]);
    let twice = serials::numbered(&path(&[0; 3]), &[4, 0, 4]);
    // 25 stands behind 7 and before 8, 26 behind 12 and before 13
    let crowded = serials::numbered(&star(&[0; 10]), &[4; 10]);
    assert_eq!([refused(&plant(&crowded, &one)), refused(&plant(&one, &crowded))], [7, 12]);
    assert_eq!([refused(&plant(&twice, &[0])), refused(&plant(&[0], &twice))], [25, 3]);
    assert_eq!([refused(&plant(&twice, &crowded)), refused(&plant(&crowded, &twice))], [25, 7]);
    let match_without_work = |inputs: &Inputs| pensummer::match_trees(inputs.lent(), &mut [], &mut []).map_err(Refusal::number);
    assert_eq!(match_without_work(&plant(&one, &twice)), Err(26));
    assert_eq!(match_without_work(&plant(&one, &one)), Err(13));
}

#[test]
fn small_plant_9() {
    let plant = Inputs { table: table_p(1), recorded: path(&[0]), found: path(&[0]) };
    let certificate = [0xC1, 1, 1, 1, 5, 0, 0, 0, 0xC1, 2, 0, 0xC1, 3, 5, 0, 0, 0];
    let mut random = Random::of_test("small_plant_9");
    for plant in longer(&plant).iter().chain([&plant]) {
        assert_eq!(pensummer::check_certificate(plant.lent(), &certificate), Ok(()));
        let with = |changes: &[(usize, u8)]| {
            let mut changed = certificate;
            for &(at, byte) in changes {
                changed[at] = byte;
            }
            compare::check(plant, &changed)
        };
        assert_eq!(with(&[(4, 6)]), 22);
        assert_eq!(with(&[(13, 6)]), 23);
        assert_eq!(with(&[(10, 255), (4, 0)]), 24);
        // there is no other certificate of this plant
        assert_eq!(compare::write(plant, 1, 17, &mut random), Ok(certificate.to_vec()));
    }
}

#[test]
fn small_plant_10_and_limits() {
    let p = table_p(1);
    let plant = |recorded: &[u8], found: &[u8]| Inputs { table: p.clone(), recorded: recorded.to_vec(), found: found.to_vec() };
    let one = path(&[0]);
    let sides = |tree: &[u8]| [refused(&plant(tree, &one)), refused(&plant(&one, tree))];
    let both = |tree: &[u8]| {
        if Places::of(tree).is_some() {
            assert_eq!(sides(&unknown(tree)), sides(tree), "the longer form");
        }
        sides(tree)
    };
    assert_eq!(both(&tree_bytes(&[0; 3], &[(0, 1, 0), (1, 0, 0)])), [6, 11]);
    assert_eq!(both(&tree_bytes(&[0; 3], &[(0, 1, 0), (0, 3, 0)])), [5, 10]);
    assert_eq!(both(&star(&[0; 9])), [0, 0]);
    assert_eq!(both(&star(&[0; 10])), [7, 12]);
    assert_eq!(both(&star(&[0; 64])), [7, 12]);
    assert_eq!(both(&path(&[0; 64])), [0, 0]);
    assert_eq!(both(&path(&[0; 65])), [3, 8]);
    let numbered = |tree: &[u8]| serials::numbered(tree, &(1..=tree[2].into()).collect::<Vec<u32>>());
    assert_eq!(numbered(&path(&[0; 64])).len(), 766);
    assert_eq!(both(&numbered(&path(&[0; 64]))), [0, 0]);
    assert_eq!(both(&numbered(&path(&[0; 65]))), [3, 8]);
    assert_eq!(both(&[0xB1, 1, 1, 0xB1, 7, 0, 1, 0, 0, 0]), [0, 0]);
    assert_eq!(both(&[0xB1, 1, 0]), [3, 8]);
    assert_eq!(both(&path(&[2])), [4, 9]);
    let edge_kind = tree_bytes(&[0, 0], &[(0, 1, 1)]);
    assert_eq!(both(&edge_kind), [4, 9]);
    for (weight, item) in
        [(16_000_000, 0), (16_000_001, 2), (-16_000_000, 0), (-16_000_001, 2), (FORBIDDEN, 0), (FORBIDDEN + 1, 2), (i32::MAX, 2)]
    {
        for table in [table_bytes(&[vec![weight]], &[vec![0]]), table_bytes(&[vec![0]], &[vec![weight]])] {
            assert_eq!(refused(&Inputs { table, recorded: one.clone(), found: one.clone() }), item, "weight {weight}");
        }
    }
    let wide = |labels: usize, edge_labels: usize| table_bytes(&vec![vec![1; labels]; labels], &vec![vec![1; edge_labels]; edge_labels]);
    for (labels, edge_labels, item) in [(32, 8, 0), (33, 8, 1), (32, 9, 1), (0, 1, 1), (1, 0, 1)] {
        let table = wide(labels, edge_labels);
        assert_eq!(refused(&Inputs { table, recorded: one.clone(), found: one.clone() }), item, "{labels} and {edge_labels} labels");
    }
}
