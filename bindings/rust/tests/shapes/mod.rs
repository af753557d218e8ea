//! Meshes that several tests use.

#![allow(dead_code)]

pub const SQUARE: [[f64; 3]; 4] = [
    [0.0, 0.0, 0.0],
    [1.0, 0.0, 0.0],
    [1.0, 1.0, 0.0],
    [0.0, 1.0, 0.0],
];
pub const HALVES: [[u32; 3]; 2] = [[0, 1, 2], [0, 2, 3]];

/// Wider at the top: nodes that are inserted above the edge 0-1 lie in its triangles, and at size 0.5 the run inserts, flips and places.
pub const FLARED: [[f64; 3]; 4] = [
    [0.0, 0.0, 7.0],
    [1.0, 0.0, 7.0],
    [2.0, 2.0, 7.0],
    [-1.0, 2.0, 7.0],
];

/// A grid of so many squares a side, its inner points moved.
pub fn grid(side: u32) -> (Vec<[f64; 3]>, Vec<[u32; 3]>) {
    let mut points = Vec::new();
    for j in 0..=side {
        for i in 0..=side {
            let (x, y) = (f64::from(i), f64::from(j));
            let inner = 0 < i && i < side && 0 < j && j < side;
            let moved = if inner { 0.08 } else { 0.0 };
            let shift = [(7.0 * x + 3.0 * y).sin(), (5.0 * x + 11.0 * y).cos()];
            points.push([
                0.25 * x + moved * shift[0],
                0.25 * y + moved * shift[1],
                0.0,
            ]);
        }
    }
    let square = |k: u32| {
        let a = k / side * (side + 1) + k % side;
        let b = a + side + 1;
        [[a, a + 1, b + 1], [a, b + 1, b]]
    };
    (points, (0..side * side).flat_map(square).collect())
}
