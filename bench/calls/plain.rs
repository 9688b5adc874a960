//! The baseline of the proved calls: the match in one call, and the job in slices, in plain Rust written for speed. Each call reads and tests
//! the bytes, solves its subproblems in the order of paper 01, and reads out the mapping that the proved library reads out. Weights and
//! neighbours stand in fixed arrays that are built once; the gains of a pair of vertices are built once for all choices of s. Each matching
//! is solved afresh by the textbook Hungarian method (row by row, potentials, slack array). Only the read-out, and a certificate's duals,
//! search as the proved library does: the read-out to choose the same of several heaviest matchings.

use pensummer::{VALUE_MOST, WEIGHT_MOST};

pub const FORBIDDEN: i32 = i32::MIN;
pub const NONE: u8 = 255;
const FAR: i64 = i64::MAX / 4;

pub struct Table {
    pub kinds: usize,
    pub edge_kinds: usize,
    pub vertex: [[i32; 32]; 32],
    pub edge: [[i32; 8]; 8],
}

pub struct Tree {
    pub n: usize,
    pub label: [u8; 64],
    pub degree: [usize; 64],
    pub near: [[u8; 8]; 64],
    pub edge: [[u8; 8]; 64],
}

fn weight_at(b: &[u8], at: usize) -> i32 {
    i32::from_le_bytes([b[at], b[at + 1], b[at + 2], b[at + 3]])
}

/// The table, or item 1 or 2.
pub fn read_table(b: &[u8]) -> Result<Table, u32> {
    if b.len() < 4 || b[0] != 0xB1 || b[1] != 4 {
        return Err(1);
    }
    let (k, l) = (b[2] as usize, b[3] as usize);
    if k < 1 || k > 32 || l < 1 || l > 8 || b.len() != 4 + k * (2 + 4 * k) + l * (2 + 4 * l) {
        return Err(1);
    }
    let mut t = Table { kinds: k, edge_kinds: l, vertex: [[0; 32]; 32], edge: [[0; 8]; 8] };
    let (mut at, mut marks, mut ranges) = (4, true, true);
    let mut weight = |at: usize| {
        let w = weight_at(b, at);
        ranges &= w == FORBIDDEN || (-WEIGHT_MOST <= w && w <= WEIGHT_MOST);
        w
    };
    for i in 0..k {
        marks &= b[at] == 0xB1 && b[at + 1] == 5;
        at += 2;
        for j in 0..k {
            t.vertex[i][j] = weight(at);
            at += 4;
        }
    }
    for i in 0..l {
        marks &= b[at] == 0xB1 && b[at + 1] == 6;
        at += 2;
        for j in 0..l {
            t.edge[i][j] = weight(at);
            at += 4;
        }
    }
    if !marks {
        return Err(1);
    }
    if !ranges {
        return Err(2);
    }
    Ok(t)
}

fn root(up: &mut [u8; 64], mut v: usize) -> usize {
    while up[v] as usize != v {
        up[v] = up[up[v] as usize];
        v = up[v] as usize;
    }
    v
}

/// The tree, or the item that turns it down, counted from `item`.
pub fn read_tree(b: &[u8], t: &Table, item: u32) -> Result<Tree, u32> {
    if b.len() < 3 || b[0] != 0xB1 || b[1] != 1 {
        return Err(item);
    }
    let n = b[2] as usize;
    if n < 1 || n > 64 || b.len() != 8 * n - 2 {
        return Err(item);
    }
    let lines = 3 + 3 * n;
    if (0..n).any(|v| b[3 + 3 * v] != 0xB1 || b[4 + 3 * v] != 2)
        || (0..n - 1).any(|e| b[lines + 5 * e] != 0xB1 || b[lines + 5 * e + 1] != 3)
    {
        return Err(item);
    }
    if (0..n).any(|v| b[5 + 3 * v] as usize >= t.kinds) || (0..n - 1).any(|e| b[lines + 5 * e + 4] as usize >= t.edge_kinds) {
        return Err(item + 1);
    }
    if (0..n - 1).any(|e| b[lines + 5 * e + 2] as usize >= n || b[lines + 5 * e + 3] as usize >= n) {
        return Err(item + 2);
    }
    let mut up = [0u8; 64];
    for v in 0..n {
        up[v] = v as u8;
    }
    for e in 0..n - 1 {
        let a = root(&mut up, b[lines + 5 * e + 2] as usize);
        let c = root(&mut up, b[lines + 5 * e + 3] as usize);
        if a == c {
            return Err(item + 3);
        }
        up[a] = c as u8;
    }
    let mut r = Tree { n, label: [0; 64], degree: [0; 64], near: [[NONE; 8]; 64], edge: [[0; 8]; 64] };
    for v in 0..n {
        r.label[v] = b[5 + 3 * v];
    }
    for e in 0..n - 1 {
        let (x, y, z) = (b[lines + 5 * e + 2], b[lines + 5 * e + 3], b[lines + 5 * e + 4]);
        for (x, y) in [(x, y), (y, x)] {
            let d = r.degree[x as usize];
            if d == 8 {
                return Err(item + 4);
            }
            let (near, edge) = (&mut r.near[x as usize], &mut r.edge[x as usize]);
            let mut i = d;
            while i > 0 && near[i - 1] > y {
                near[i] = near[i - 1];
                edge[i] = edge[i - 1];
                i -= 1;
            }
            near[i] = y;
            edge[i] = z;
            r.degree[x as usize] = d + 1;
        }
    }
    Ok(r)
}

/// Vertices in postorder from vertex 0, children ascending, and each one's parent.
fn postorder(t: &Tree) -> ([u8; 64], [u8; 64]) {
    let (mut order, mut parent, mut next) = ([0u8; 64], [NONE; 64], [0usize; 64]);
    let (mut v, mut done) = (0usize, 0);
    loop {
        if next[v] < t.degree[v] {
            let x = t.near[v][next[v]];
            next[v] += 1;
            if x != parent[v] {
                parent[x as usize] = v as u8;
                v = x as usize;
            }
        } else {
            order[done] = v as u8;
            done += 1;
            if parent[v] == NONE {
                return (order, parent);
            }
            v = parent[v] as usize;
        }
    }
}

/// All that a call knows before it solves.
pub struct Plan {
    pub t: Table,
    pub r: Tree,
    pub f: Tree,
    pub order: [u8; 64],
    pub place: [usize; 64],
    pub parent: [u8; 64],
    pub width: usize,
    pub starts: [usize; 64],
    pub back: [[usize; 8]; 64],
}

/// The items 1 to 12 tested, and all that is read before solving.
pub fn plan(table: &[u8], recorded: &[u8], found: &[u8]) -> Result<Plan, u32> {
    let t = read_table(table)?;
    let r = read_tree(recorded, &t, 3)?;
    let f = read_tree(found, &t, 8)?;
    let (order, parent) = postorder(&r);
    let (mut place, mut starts, mut back) = ([0; 64], [0; 64], [[0; 8]; 64]);
    for i in 0..r.n {
        place[order[i] as usize] = i;
    }
    for v in 1..f.n {
        starts[v] = starts[v - 1] + 1 + f.degree[v - 1];
    }
    for v in 0..f.n {
        for j in 0..f.degree[v] {
            let x = f.near[v][j] as usize;
            back[v][j] = starts[x] + 1 + f.near[x].iter().position(|&y| y as usize == v).unwrap();
        }
    }
    let width = 3 * f.n - 2;
    Ok(Plan { t, r, f, order, place, parent, width, starts, back })
}

/// The gains of u's children with all of v's neighbours. FORBIDDEN is further below 0 than any weight or value is above, and so gives 0.
#[inline]
pub fn gains(p: &Plan, work: &[i32], kids: &[(usize, usize)], v: usize, g: &mut [[i64; 8]; 8]) {
    let (d, edge, back) = (p.f.degree[v], &p.f.edge[v], &p.back[v]);
    for (&(kind, base), row) in kids.iter().zip(g) {
        let (edges, values) = (&p.t.edge[kind], &work[base..base + p.width]);
        for j in 0..d {
            row[j] = (edges[edge[j] as usize & 7] as i64 + values[back[j]] as i64).max(0);
        }
    }
}

/// The gains turned over: a row for each of the d neighbours.
#[inline(never)]
fn turn(g: &[[i64; 8]; 8], k: usize, d: usize, turned: &mut [[i64; 8]; 8]) {
    for i in 0..k {
        for j in 0..d {
            turned[j][i] = g[i][j];
        }
    }
}

/// The columns of a set, ascending.
#[inline]
fn members(mut set: u32) -> impl Iterator<Item = usize> {
    std::iter::from_fn(move || {
        let j = set.trailing_zeros() as usize;
        set &= set.wrapping_sub(1);
        (j < 8).then_some(j)
    })
}

/// The weight of a heaviest matching by the textbook Hungarian method. `g` has gains of 0 or more; row `no_row` and column `no_column` are
/// left out, 8 for none, and no more rows than columns are left. Each row in turn gets a column by a path search: a step finds the column of
/// least slack outside the tree, moves the potentials of the tree by that slack, and takes in the column with its row, if it has one.
#[inline(never)]
fn hungarian(g: &[[i64; 8]; 8], rows: usize, columns: usize, no_row: usize, no_column: usize) -> i64 {
    let all = ((1 << columns) - 1) & !(1 << no_column);
    // potentials, whose sums cover the gains; each column's row, and the column before it on the path, 8 for none
    let (mut u, mut v, mut row_of, mut way) = ([0; 8], [0; 8], [8; 8], [8; 8]);
    let mut weight = 0;
    for r in 0..rows {
        if r == no_row {
            continue;
        }
        let (mut slack, mut outside, mut tree) = ([FAR; 8], all, 0);
        let (mut i, mut last) = (r, 8);
        let mut end = loop {
            let (mut delta, mut next) = (FAR, 8);
            for j in members(outside) {
                let reduced = u[i] + v[j] - g[i][j];
                if reduced < slack[j] {
                    (slack[j], way[j]) = (reduced, last);
                }
                if slack[j] < delta {
                    (delta, next) = (slack[j], j);
                }
            }
            weight -= delta;
            u[r] -= delta;
            for j in members(tree) {
                u[row_of[j]] -= delta;
                v[j] += delta;
            }
            if row_of[next] == 8 {
                break next;
            }
            for x in &mut slack[..columns] {
                *x -= delta;
            }
            outside &= !(1 << next);
            tree |= 1 << next;
            (i, last) = (row_of[next], next);
        };
        while end != 8 {
            row_of[end] = if way[end] == 8 { r } else { row_of[way[end]] };
            end = way[end];
        }
    }
    weight
}

/// The weight of a heaviest matching of k children with the d neighbours but the one in column `out`; `turned` is read where d <= k. One row
/// or one column needs no matching.
#[inline]
fn matching(g: &[[i64; 8]; 8], turned: &[[i64; 8]; 8], k: usize, d: usize, out: usize) -> i64 {
    if k == 1 || d - (out < d) as usize <= 1 {
        let mut best = 0;
        for row in &g[..k] {
            for (j, &x) in row[..d].iter().enumerate() {
                best = best.max(if j == out { 0 } else { x });
            }
        }
        return best;
    }
    let (g, rows, columns, no_row, no_column) = if d <= k { (turned, d, k, out, 8) } else { (g, k, d, 8, out) };
    hungarian(g, rows, columns, no_row, no_column)
}

/// The children of u: edge label, where their values begin, and the vertex.
#[inline]
pub fn children(p: &Plan, u: usize) -> ([(usize, usize); 8], [u8; 8], usize) {
    let (mut kids, mut names, mut k) = ([(0, 0); 8], [0; 8], 0);
    for i in 0..p.r.degree[u] {
        let c = p.r.near[u][i];
        if c != p.parent[u] {
            kids[k] = (p.r.edge[u][i] as usize, p.place[c as usize] * p.width);
            names[k] = c;
            k += 1;
        }
    }
    (kids, names, k)
}

/// The subproblems from, from + 1, .. below `to`, each from the work numbers before it.
pub fn fill(p: &Plan, work: &mut [i32], from: usize, to: usize) {
    let (mut g, mut turned) = ([[0; 8]; 8], [[0; 8]; 8]);
    let mut at = from;
    while at < to {
        let (i, rest) = (at / p.width, at % p.width);
        let u = p.order[i] as usize;
        let (kids, _, k) = children(p, u);
        let weights = &p.t.vertex[p.r.label[u] as usize];
        let (before, now) = work.split_at_mut(i * p.width);
        let end = (to - i * p.width).min(p.width);
        let mut left = &mut now[rest..end];
        let mut v = p.starts[..p.f.n].iter().rposition(|&s| s <= rest).unwrap();
        let mut first = rest - p.starts[v];
        while !left.is_empty() {
            let d = p.f.degree[v];
            let count = (d + 1 - first).min(left.len());
            let (values, more) = left.split_at_mut(count);
            let w = weights[p.f.label[v] as usize];
            if w == FORBIDDEN || k == 0 {
                values.fill(w);
            } else {
                gains(p, before, &kids[..k], v, &mut g);
                if 1 < d && d <= k {
                    turn(&g, k, d, &mut turned);
                }
                for (i, x) in values.iter_mut().enumerate() {
                    let all = w as i64 + matching(&g, &turned, k, d, if first + i == 0 { 8 } else { first + i - 1 });
                    *x = all.min(VALUE_MOST as i64) as i32;
                }
            }
            (left, v, first) = (more, v + 1, 0);
        }
        at = i * p.width + end;
    }
}

/// A heaviest matching of rows with columns.
pub struct Matching {
    /// Duals of rows and of columns, 0 or more: their sums cover each gain, and all of them add up to the matching's weight.
    pub y: [i64; 8],
    pub z: [i64; 8],
    /// Each row's column and each column's row, 8 for none.
    pub column: [u8; 8],
    row: [u8; 8],
}

/// The heaviest matching of k rows with d columns but column `out`, whose dual is FAR, that the proved library chooses: one path search for
/// each row, with the duals of its tree settled at its end. A search takes the nearest column into its tree, the lowest of equals, and the
/// row that has it. It ends at a column that no row has, or where none is nearer than to leave the tree row of the least dual without a
/// column; so no pair of gain 0 is matched.
pub fn chosen(g: &[[i64; 8]; 8], k: usize, d: usize, out: usize) -> Matching {
    let mut m = Matching { y: [0; 8], z: [0; 8], column: [8; 8], row: [8; 8] };
    let d = d.min(8);
    if out < d {
        m.z[out] = FAR;
    }
    for r in 0..k.min(8) {
        // minus the weight that the search adds: `near` where it ends at column b, 8 for none, `low` where it ends at row `least`
        let (mut low, mut least, mut near, mut b) = (0, r, 0, 8);
        let (mut dist, mut from, mut tree) = ([0; 8], [r as u8; 8], 0u32);
        for j in 0..d {
            dist[j] = m.z[j] - g[r][j];
            if dist[j] < near {
                (near, b) = (dist[j], j);
            }
        }
        let mut end = loop {
            if b == 8 {
                break std::mem::replace(&mut m.column[least & 7], 8) as usize;
            }
            let o = m.row[b & 7] as usize;
            if o == 8 {
                low = near;
                break b;
            }
            tree |= 1 << b;
            let base = m.y[o & 7] + near;
            if base < low {
                (low, least) = (base, o);
            }
            (near, b) = (low, 8);
            for j in 0..d {
                if tree >> j & 1 == 0 {
                    let x = base + m.z[j] - g[o & 7][j];
                    if x < dist[j] {
                        (dist[j], from[j]) = (x, o as u8);
                    }
                    if dist[j] < near {
                        (near, b) = (dist[j], j);
                    }
                }
            }
        };
        m.y[r] = -low;
        for j in 0..d {
            if tree >> j & 1 == 1 {
                m.y[m.row[j] as usize & 7] += dist[j] - low;
                m.z[j] += low - dist[j];
            }
        }
        while end != 8 {
            let p = from[end & 7];
            m.row[end & 7] = p;
            end = std::mem::replace(&mut m.column[p as usize & 7], end as u8) as usize;
        }
    }
    m
}

/// Each child's column in the matching of (u, v, s), 8 for none; not inlined, for the stack's sake.
#[inline(never)]
fn columns_of(p: &Plan, work: &[i32], kids: &[(usize, usize)], v: usize, s: u8) -> [u8; 8] {
    let (d, mut g) = (p.f.degree[v], [[0; 8]; 8]);
    gains(p, work, kids, v, &mut g);
    let out = p.f.near[v][..d].iter().position(|&x| x == s).unwrap_or(8);
    chosen(&g, kids.len(), d, out).column
}

fn read_out(p: &Plan, work: &[i32], u: usize, v: usize, s: u8, mapping: &mut [u8]) {
    mapping[u] = v as u8;
    let (kids, names, k) = children(p, u);
    let columns = columns_of(p, work, &kids[..k], v, s);
    for i in 0..k {
        if columns[i] < 8 {
            read_out(p, work, names[i] as usize, p.f.near[v][columns[i] as usize] as usize, v as u8, mapping);
        }
    }
}

/// The largest value with s = v, at least 0, and a heaviest mapping read out.
pub fn deliver(p: &Plan, work: &[i32], mapping: &mut [u8]) -> i32 {
    let (mut best, mut top) = (0, None);
    for u in 0..p.r.n {
        let values = &work[p.place[u] * p.width..][..p.width];
        for (v, &start) in p.starts[..p.f.n].iter().enumerate() {
            if values[start] > best {
                best = values[start];
                top = Some((u, v));
            }
        }
    }
    mapping[..p.r.n].fill(NONE);
    if let Some((u, v)) = top {
        read_out(p, work, u, v, NONE, mapping);
    }
    best
}

/// The weight of a heaviest mapping, with all values in `work` and the mapping in `mapping`; or the item that applies.
#[inline(never)]
pub fn match_trees(table: &[u8], recorded: &[u8], found: &[u8], work: &mut [i32], mapping: &mut [u8]) -> Result<i32, u32> {
    let p = plan(table, recorded, found)?;
    let all = p.r.n * p.width;
    if work.len() < all {
        return Err(13);
    }
    if mapping.len() < p.r.n {
        return Err(18);
    }
    fill(&p, work, 0, all);
    Ok(deliver(&p, work, mapping))
}

/// A job's state.
pub struct Job {
    pub n: usize,
    pub m: usize,
    pub position: usize,
}

#[inline(never)]
pub fn start(table: &[u8], recorded: &[u8], found: &[u8], work: &[i32]) -> Result<Job, u32> {
    let p = plan(table, recorded, found)?;
    if work.len() < p.r.n * p.width {
        return Err(13);
    }
    Ok(Job { n: p.r.n, m: p.f.n, position: 0 })
}

/// Items 1 to 16 of a job that is not idle.
fn resume(job: &Job, table: &[u8], recorded: &[u8], found: &[u8], work: &[i32]) -> Result<Plan, u32> {
    let p = plan(table, recorded, found)?;
    if work.len() < p.r.n * p.width {
        return Err(13);
    }
    if job.n < 1 || job.n > 64 || job.m < 1 || job.m > 64 || job.position > job.n * (3 * job.m - 2) {
        return Err(14);
    }
    if job.n != p.r.n || job.m != p.f.n {
        return Err(15);
    }
    let mut k = 0;
    'all: for &u in &p.order[..p.r.n] {
        for v in 0..p.f.n {
            let allowed = p.t.vertex[p.r.label[u as usize] as usize][p.f.label[v] as usize] != FORBIDDEN;
            for _ in 0..=p.f.degree[v] {
                if k == job.position {
                    break 'all;
                }
                let x = work[k];
                if if allowed { x < -WEIGHT_MOST || x > VALUE_MOST } else { x != FORBIDDEN } {
                    return Err(16);
                }
                k += 1;
            }
        }
    }
    Ok(p)
}

#[inline(never)]
pub fn advance(job: &mut Job, table: &[u8], recorded: &[u8], found: &[u8], budget: usize, work: &mut [i32]) -> Result<usize, u32> {
    let p = resume(job, table, recorded, found, work)?;
    let count = budget.min(p.r.n * p.width - job.position);
    fill(&p, work, job.position, job.position + count);
    job.position += count;
    Ok(count)
}

#[inline(never)]
pub fn finish(job: &Job, table: &[u8], recorded: &[u8], found: &[u8], work: &[i32], mapping: &mut [u8]) -> Result<i32, u32> {
    let p = resume(job, table, recorded, found, work)?;
    if job.position < p.r.n * p.width {
        return Err(17);
    }
    if mapping.len() < p.r.n {
        return Err(18);
    }
    Ok(deliver(&p, work, mapping))
}
