//! Strips whose rows lie on a straight line but for rounding, so that the float
//! test of crossing answers at random for edges of one row.

use super::shape::Room;
use crate::input::Input;
use crate::random::Random;

/// Three rows of points, turned by any angle. The middle row is numbered first, and
/// some of its edges are flipped away: a quad on the outer row recovers them, among
/// edges of the same row that the bucket test alone tells apart.
#[allow(clippy::approx_constant)] // any angle will do, and the stored answers are of this one
pub fn strip(r: &mut Random, room: &Room) -> Input {
    let width = 5 + r.below(9.min(room.points / 3 - 5));
    let step = r.pick(&[1.0, 0.5, 0.3, 0.25, 0.7, 0.4]);
    let turn = r.unit() * if r.once_in(3) { 0.01 } else { 6.283 };
    let (cos, sin) = (turn.cos(), turn.sin());
    let (left, down) = (r.unit() * step * width as f64, r.unit() * step * 2.0);
    let mut points = Vec::new();
    for row in [1.0, 0.0, 2.0] {
        for i in 0..width {
            let (x, y) = (i as f64 * step - left, row * step - down);
            points.push([
                (cos * x - sin * y).to_bits(),
                (sin * x + cos * y).to_bits(),
                0,
            ]);
        }
    }
    let mut triangles = Vec::new();
    let kept = 1 + r.below(width - 2);
    for i in 0..width - 1 {
        let at = |row: usize, i: usize| (row * width + i) as u32;
        let (d, e, a, b, f, g) = (
            at(0, i),
            at(0, i + 1),
            at(1, i),
            at(1, i + 1),
            at(2, i),
            at(2, i + 1),
        );
        let cell = match (i >= kept || r.once_in(6), r.once_in(2)) {
            (true, true) => [[a, b, e], [a, e, g], [a, g, d], [d, g, f]],
            (true, false) => [[a, b, d], [b, e, f], [b, f, d], [e, g, f]],
            (false, _) => [[a, b, e], [a, e, d], [d, e, g], [d, g, f]],
        };
        triangles.extend(cell);
    }
    triangles.truncate(room.triangles);
    let size: f64 = step * r.pick(&[1.0, 1.0, 1.2, 1.5, 2.0, 0.8, 0.5]);
    Input {
        size: size.to_bits(),
        stop: r.below(2) as u32,
        triangles,
        points,
        ..Input::default()
    }
}
