//! Compares the proved assignment with a plain textbook Hungarian method (row by row, slack array) on the same matrices, in one
//! run. Both give the greatest weight; a difference stops the program. It prints the best of several rounds, in nanoseconds for
//! one matrix, and the ratio. Run it by run.sh.

use std::hint::black_box;
use std::time::Instant;

const GAIN_LIMIT: u64 = 1 << 48;
const MATRICES: usize = 2000;
const REPEATS: usize = 20;
const ROUNDS: usize = 9;

extern "C" {
    fn assignment_total(gains: &[u64; 64], rows: usize, columns: usize) -> u64;
}

/// The textbook method with potentials, for costs -gain on a square matrix.
fn textbook(gains: &[u64; 64], rows: usize, columns: usize) -> u64 {
    let n = rows.max(columns);
    let cost = |i: usize, j: usize| -> i64 {
        if i <= rows && j <= columns { -(gains[(i - 1) * 8 + j - 1] as i64) } else { 0 }
    };
    let (mut u, mut v) = ([0i64; 9], [0i64; 9]);
    let (mut row_of, mut way) = ([0usize; 9], [0usize; 9]);
    for i in 1..=n {
        row_of[0] = i;
        let mut j0 = 0;
        let (mut slack, mut used) = ([i64::MAX / 4; 9], [false; 9]);
        loop {
            used[j0] = true;
            let (i0, mut delta, mut j1) = (row_of[j0], i64::MAX / 4, 0);
            for j in 1..=n {
                if !used[j] {
                    let reduced = cost(i0, j) - u[i0] - v[j];
                    if reduced < slack[j] {
                        slack[j] = reduced;
                        way[j] = j0;
                    }
                    if slack[j] < delta {
                        delta = slack[j];
                        j1 = j;
                    }
                }
            }
            for j in 0..=n {
                if used[j] {
                    u[row_of[j]] += delta;
                    v[j] -= delta;
                } else {
                    slack[j] -= delta;
                }
            }
            j0 = j1;
            if row_of[j0] == 0 {
                break;
            }
        }
        loop {
            let j1 = way[j0];
            row_of[j0] = row_of[j1];
            j0 = j1;
            if j0 == 0 {
                break;
            }
        }
    }
    v[0] as u64
}

/// The sum of all answers, and the nanoseconds for one matrix in one round.
fn round(matrices: &[[u64; 64]], n: usize, f: impl Fn(&[u64; 64], usize, usize) -> u64) -> (u64, f64) {
    let start = Instant::now();
    let mut sum = 0u64;
    for _ in 0..REPEATS {
        for g in matrices {
            sum = sum.wrapping_add(f(black_box(g), n, n));
        }
    }
    (sum, start.elapsed().as_secs_f64() * 1e9 / (REPEATS * matrices.len()) as f64)
}

fn main() {
    let mut state = 88172645463325252u64;
    let mut next = move || {
        state ^= state << 13;
        state ^= state >> 7;
        state ^= state << 17;
        state
    };
    let mut worst = 0f64;
    for n in [8, 4, 2] {
        for kind in ["random", "many ties", "mostly equal"] {
            let matrices: Vec<[u64; 64]> = (0..MATRICES)
                .map(|_| {
                    let mut g = [0; 64];
                    for i in 0..n {
                        for j in 0..n {
                            g[i * 8 + j] = match kind {
                                "random" => next() % (GAIN_LIMIT + 1),
                                "many ties" => next() % 4,
                                _ => if next() % 8 == 0 { 999 } else { 1000 },
                            };
                        }
                    }
                    g
                })
                .collect();
            let (mut ours, mut theirs) = (f64::MAX, f64::MAX);
            for _ in 0..ROUNDS {
                let (a, t) = round(&matrices, n, textbook);
                let (b, s) = round(&matrices, n, |g, k, l| unsafe { assignment_total(g, k, l) });
                assert_eq!(a, b, "{n} by {n}, {kind}");
                theirs = theirs.min(t);
                ours = ours.min(s);
            }
            worst = worst.max(ours / theirs);
            println!("{n} by {n}, {kind:<12}  textbook {theirs:7.1} ns  assignment {ours:7.1} ns  ratio {:.2}", ours / theirs);
        }
    }
    println!("worst ratio {worst:.2}");
}
