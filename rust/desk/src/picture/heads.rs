//! The heads of directed edges.
//!
//! A head stands at the downstream end of what is its edge's alone: the lines from a vertex to its children lie on each
//! other up to where each turns to its child, and a head there would be that of all of them.
use super::sheet::{sign, Sheet, THICK};

/// From the point of a head to the circle before it.
pub const CLEAR: f64 = 0.6;

/// A head by its point and the middle of its base.
pub struct Head {
    pub tip: [f64; 2],
    pub base: [f64; 2],
    /// Whether it points to the child, not to the parent.
    pub to_child: bool,
}

impl Head {
    /// Of the edge from a vertex to its parent, if that is directed.
    pub fn of(sheet: &Sheet, side: usize, u: usize, parent: usize) -> Option<Head> {
        let [_, downstream] = sheet.layout.hung[side].graph.edge(u, parent)?.direction.ends(u, parent)?;
        let (to_child, straight) = (downstream == u, sheet.layout.stand[side].straight[u]);
        let (x, y, out, near) = (sheet.x(side, u), sheet.y(side, u), sign(side), sheet.style.radius + CLEAR);
        let (tip, way) = match (straight, to_child) {
            (true, true) => ([x, y - near], [0.0, 1.0]),
            (true, false) => ([x, own_from(sheet, side, u, parent)], [0.0, -1.0]),
            (false, true) => ([x - out * near, y], [out, 0.0]),
            (false, false) => ([sheet.x(side, parent) + out * sheet.round, y], [-out, 0.0]),
        };
        let base = [0, 1].map(|axis| tip[axis] - way[axis] * sheet.style.head()[0]);
        Some(Head { tip, base, to_child })
    }

    /// Its three corners.
    pub fn corners(&self, half: f64) -> [[f64; 2]; 3] {
        let [x, y] = self.base;
        let level = self.tip[1] == y;
        let [a, b] = [half, -half].map(|off| if level { [x, y + off] } else { [x + off, y] });
        [self.tip, a, b]
    }
}

/// Where the line to a straight vertex is its own: below the last of its siblings, or else below the parent.
fn own_from(sheet: &Sheet, side: usize, u: usize, parent: usize) -> f64 {
    let row = &sheet.layout.stand[side].row;
    let siblings = sheet.layout.hung[side].rooted.children(parent);
    let between = siblings.filter(|&c| row[parent] < row[c] && row[c] < row[u]).max_by_key(|&c| row[c]);
    between.map_or(sheet.y(side, parent) + sheet.style.radius + CLEAR, |c| sheet.y(side, c) + THICK / 2.0)
}
