//! Writing and checking a certificate as one would write them in Rust for speed, over the plain match.
use crate::plain::{children, chosen, deliver, fill, gains, plan, read_table, read_tree, Plan, Tree, FORBIDDEN, NONE};

/// The certificate's length.
pub fn length(r: &Tree, f: &Tree) -> usize {
    let squares: usize = f.degree[..f.n].iter().map(|d| d * d).sum();
    let width = 3 * f.n - 2;
    8 + 3 * r.n + 6 * r.n * width + 4 * (r.n - 1) * width + 4 * r.n * squares
}

/// How much to lend: the work numbers wanted, one for each subproblem, and a certificate's length.
pub fn sizes(table: &[u8], recorded: &[u8], found: &[u8]) -> Result<(usize, usize), u32> {
    let t = read_table(table)?;
    let (r, f) = (read_tree(recorded, &t, 3)?, read_tree(found, &t, 8)?);
    Ok((r.n * (3 * f.n - 2), length(&r, &f)))
}

struct Out<'a> {
    bytes: &'a mut [u8],
    at: usize,
}

impl Out<'_> {
    fn put(&mut self, b: &[u8]) {
        self.bytes[self.at..self.at + b.len()].copy_from_slice(b);
        self.at += b.len();
    }
}

/// All values in `work`, a certificate in the front of `certificate`; its length, or the item that applies.
#[inline(never)]
pub fn write(table: &[u8], recorded: &[u8], found: &[u8], work: &mut [i32], certificate: &mut [u8]) -> Result<usize, u32> {
    let p = plan(table, recorded, found)?;
    let all = p.r.n * p.width;
    if work.len() < all {
        return Err(13);
    }
    let length = length(&p.r, &p.f);
    if certificate.len() < length {
        return Err(19);
    }
    fill(&p, work, 0, all);
    let mut mapping = [NONE; 64];
    let weight = deliver(&p, work, &mut mapping);
    let mut out = Out { bytes: certificate, at: 0 };
    out.put(&[0xC1, 1, p.r.n as u8, p.f.n as u8]);
    out.put(&weight.to_le_bytes());
    for &partner in &mapping[..p.r.n] {
        out.put(&[0xC1, 2, partner]);
    }
    let mut g = [[0; 8]; 8];
    for (i, &u) in p.order[..p.r.n].iter().enumerate() {
        let (kids, _, k) = children(&p, u as usize);
        for v in 0..p.f.n {
            let d = p.f.degree[v];
            let w = p.t.vertex[p.r.label[u as usize] as usize][p.f.label[v] as usize];
            if w != FORBIDDEN {
                gains(&p, work, &kids[..k], v, &mut g);
            }
            for q in 0..=d {
                let (l, column) = if q == 0 { (d, 8) } else { (d - 1, q - 1) };
                let (y, z) = if w == FORBIDDEN { ([0; 8], [0; 8]) } else { duals(&g, k, d, column) };
                out.put(&[0xC1, 3]);
                out.put(&work[i * p.width + p.starts[v] + q].to_le_bytes());
                for x in y[..k].iter().chain(&z[..l]) {
                    out.put(&(*x as i32).to_le_bytes());
                }
            }
        }
    }
    Ok(length)
}

/// The duals of the k children, and of the d neighbours but the one in column `out`, by the read-out's search, whose duals are 0 or more.
fn duals(g: &[[i64; 8]; 8], k: usize, d: usize, out: usize) -> ([i64; 8], [i64; 8]) {
    let mut m = chosen(g, k, d, out);
    if out < d {
        m.z.copy_within(out + 1..d, out);
    }
    (m.y, m.z)
}

fn number(z: &[u8], at: usize) -> i32 {
    i32::from_le_bytes([z[at], z[at + 1], z[at + 2], z[at + 3]])
}

/// The mapping's weight, or none if it breaks a rule.
fn weigh(p: &Plan, mapping: &[u8]) -> Option<i64> {
    let (mut used, mut sum, mut tops) = ([false; 64], 0i64, 0);
    for u in 0..p.r.n {
        let v = mapping[u] as usize;
        if v == NONE as usize {
            continue;
        }
        if v >= p.f.n || used[v] {
            return None;
        }
        used[v] = true;
        let w = p.t.vertex[p.r.label[u] as usize][p.f.label[v] as usize];
        if w == FORBIDDEN {
            return None;
        }
        sum += w as i64;
        let up = p.parent[u];
        if up == NONE || mapping[up as usize] == NONE {
            tops += 1;
            continue;
        }
        let i = p.r.near[u][..p.r.degree[u]].iter().position(|&x| x == up)?;
        let j = p.f.near[v][..p.f.degree[v]].iter().position(|&x| x == mapping[up as usize])?;
        let e = p.t.edge[p.r.edge[u][i] as usize][p.f.edge[v][j] as usize];
        if e == FORBIDDEN {
            return None;
        }
        sum += e as i64;
    }
    if tops > 1 {
        None
    } else {
        Some(sum)
    }
}

/// 0 for accepted, or the first of the items 1 to 12 and 20 to 24 that applies.
#[inline(never)]
pub fn check(table: &[u8], recorded: &[u8], found: &[u8], z: &[u8]) -> u32 {
    let p = match plan(table, recorded, found) {
        Ok(p) => p,
        Err(item) => return item,
    };
    if z.len() != length(&p.r, &p.f) || z[..4] != [0xC1, 1, p.r.n as u8, p.f.n as u8] {
        return 20;
    }
    let mut mapping = [NONE; 64];
    for u in 0..p.r.n {
        if z[8 + 3 * u] != 0xC1 || z[9 + 3 * u] != 2 {
            return 20;
        }
        mapping[u] = z[10 + 3 * u];
    }
    // where each row's records begin, and where v's begin within one: by the number of u's children
    let squares: Vec<usize> = p.f.degree[..p.f.n]
        .iter()
        .scan(0, |s, d| {
            *s += d * d;
            Some(*s - d * d)
        })
        .collect();
    let total: usize = p.f.degree[..p.f.n].iter().map(|d| d * d).sum();
    let (mut rows, mut sizes, mut at) = ([0; 64], [0; 64], 8 + 3 * p.r.n);
    for (i, &u) in p.order[..p.r.n].iter().enumerate() {
        let (_, _, k) = children(&p, u as usize);
        (rows[i], sizes[i]) = (at, 6 + 4 * k);
        at += p.width * sizes[i] + 4 * total;
    }
    let record = |i: usize, v: usize, q: usize| {
        let d = p.f.degree[v];
        rows[i] + (p.starts[v] + q) * sizes[i] + 4 * squares[v] + if q == 0 { 0 } else { 4 * d + 4 * (q - 1) * (d - 1) }
    };
    for i in 0..p.r.n {
        for v in 0..p.f.n {
            for q in 0..=p.f.degree[v] {
                let at = record(i, v, q);
                if z[at] != 0xC1 || z[at + 1] != 3 {
                    return 20;
                }
            }
        }
    }
    let weight = number(z, 4) as i64;
    match weigh(&p, &mapping) {
        None => return 21,
        Some(w) if w != weight => return 22,
        _ => (),
    }
    let mut largest = 0;
    for (i, &u) in p.order[..p.r.n].iter().enumerate() {
        let (kids, _, k) = children(&p, u as usize);
        for v in 0..p.f.n {
            let d = p.f.degree[v];
            let w = p.t.vertex[p.r.label[u as usize] as usize][p.f.label[v] as usize];
            // the branches' weights, once for all s
            let mut branch = [[None; 8]; 8];
            for a in 0..k {
                for j in 0..d {
                    let x = p.f.near[v][j] as usize;
                    let e = p.t.edge[kids[a].0][p.f.edge[v][j] as usize];
                    let value = number(z, record(kids[a].1 / p.width, x, p.back[v][j] - p.starts[x]) + 2);
                    if e != FORBIDDEN && value != FORBIDDEN {
                        branch[a][j] = Some(e as i64 + value as i64);
                    }
                }
            }
            for q in 0..=d {
                let at = record(i, v, q);
                let (l, out) = if q == 0 { (d, 8) } else { (d - 1, q - 1) };
                let value = number(z, at + 2);
                let dual = |j: usize| number(z, at + 6 + 4 * j) as i64;
                if w == FORBIDDEN {
                    if value != FORBIDDEN || (0..k + l).any(|j| dual(j) != 0) {
                        return 23;
                    }
                    continue;
                }
                let mut sum = w as i64;
                for j in 0..k + l {
                    let x = dual(j);
                    if x < 0 {
                        return 23;
                    }
                    sum += x;
                }
                for a in 0..k {
                    for j in 0..l {
                        let column = if j < out { j } else { j + 1 };
                        if branch[a][column].is_some_and(|b| b > dual(a) + dual(k + j)) {
                            return 23;
                        }
                    }
                }
                if sum != value as i64 {
                    return 23;
                }
                if q == 0 {
                    largest = largest.max(value as i64);
                }
            }
        }
    }
    if weight == largest {
        0
    } else {
        24
    }
}
