//! Cells with a corner at a limit: flat, nearly flat, or with a cosine at the limit and a unit beside it.

use super::damage::{beside, within};
use super::Judged;
use crate::accept::geometry::{any_above, is_corner_above, Limit, Place};
use crate::accept::{COSINES, THINS};
use crate::random::Random;

type Point = [f64; 2];

/// How far around its place the limit of a corner is looked for.
const NEAR: f64 = 1e-6;

/// Where cells are, and how large: ends of vectors stay within 8.
struct Frame {
    at: Point,
    size: f64,
}

impl Frame {
    fn new(r: &mut Random) -> Frame {
        let size = match r.below(4) {
            0 => 2.5,
            1 => 1.0,
            2 => 2.0 * 0.5f64.powi(r.below(60) as i32),
            _ => 2.0 * 0.5f64.powi(r.below(1070) as i32),
        };
        let at = match r.below(3) {
            0 => [0.0, 0.0],
            1 => [size * r.around(), size * r.around()],
            _ => [4.0 * r.around(), 4.0 * r.around()],
        };
        Frame { at, size }
    }

    fn place(&self, x: f64, y: f64) -> Point {
        [self.at[0] + self.size * x, self.at[1] + self.size * y]
    }
}

/// The point at so many lengths of `size` in a direction.
fn toward(f: &Frame, from: Point, way: f64, length: f64) -> Point {
    let (y, x) = way.sin_cos();
    [from[0] + f.size * length * x, from[1] + f.size * length * y]
}

/// A few quads that are good, one of them nearly flat at a corner, in any order.
pub fn turns(r: &mut Random) -> Judged {
    let mut j = Judged::default();
    let odd = r.below(3);
    for k in 0..=odd + r.below(2) {
        let f = Frame::new(r);
        let mut quad = if k == odd {
            nearly_flat(&f, r)
        } else {
            [
                f.place(0., 0.),
                f.place(1., 0.),
                f.place(1., 1.),
                f.place(0., 1.),
            ]
        };
        quad.rotate_left(r.below(4));
        j.quad(quad, r);
    }
    j
}

/// A triangle with a fourth corner on one of its sides, or some units off it.
fn nearly_flat(f: &Frame, r: &mut Random) -> [Point; 4] {
    let (a, b, c) = if r.once_in(3) {
        // Whole numbers, whose middle is exact.
        let (x, y) = (r.from_to(1, 9) as f64, r.from_to(0, 9) as f64);
        let n = 0.5f64.powi(4);
        (
            f.at,
            f.place(2. * x * n, 2. * y * n),
            f.place((x - y) * n, (x + y) * n),
        )
    } else {
        let way = std::f64::consts::TAU * r.unit();
        let b = toward(f, f.at, way, 1.0 + 0.2 * r.unit());
        (f.at, b, toward(f, f.at, way + 0.8, 0.8))
    };
    let share = if r.once_in(2) {
        0.5
    } else {
        0.3 + 0.4 * r.unit()
    };
    let mut m = [0, 1].map(|k| a[k] + share * (b[k] - a[k]));
    let k = r.below(2);
    for _ in 0..r.below(4) {
        m[k] = beside(m[k], r);
    }
    [a, m, b, c]
}

/// Quads or leftover triangles that are good, one of them with a corner whose cosine is just at the limit.
pub fn cosines(r: &mut Random) -> Judged {
    let mut j = Judged::default();
    let thin = r.once_in(2);
    let range = if thin { THINS } else { COSINES };
    let any = within(range, r);
    let limit = r.pick(&[range[0], range[1].min(0.9999), j.cosine, any, any]);
    let odd = r.below(2);
    for k in 0..=odd + r.below(2) {
        let f = Frame::new(r);
        let corner = at_limit(&f, limit, k == odd, r);
        match thin {
            true => j.triangle(corner, r),
            false => j.quad(kite(corner), r),
        }
    }
    if thin {
        j.thin = limit;
    } else {
        j.cosine = limit;
    }
    if r.once_in(3) {
        fit(&mut j, range, thin, r);
    }
    j
}

/// A corner and the ends of its sides, at the limit or wide of it; where `close`, to a unit.
fn at_limit(f: &Frame, limit: f64, close: bool, r: &mut Random) -> [Point; 3] {
    let angle = (limit + 1e-9).min(1.0).acos();
    let off = r.pick(&[0.0, 1e-15, 1e-12, 1e-9, 3e-9]) * r.around();
    let way = std::f64::consts::TAU * r.unit();
    let first = toward(f, f.at, way, 0.8 + 0.4 * r.unit());
    let wide = if close { angle + off } else { 1.1 * angle };
    let mut second = toward(f, f.at, way + wide, 0.8 + 0.4 * r.unit());
    if close && !r.once_in(4) {
        second = searched(f.at, first, second, &Limit::new(limit), r);
    }
    [f.at, first, second]
}

/// One coordinate of the second end is where the corner's test turns, or a unit beside it.
fn searched(here: Point, first: Point, second: Point, limit: &Limit, r: &mut Random) -> Point {
    let place = |p: Point| Place::of(p[0], p[1]);
    let k = r.below(2);
    let at = |x: f64| {
        let mut p = second;
        p[k] = x;
        p
    };
    let above = |x: f64| is_corner_above(&place(here), &place(first), &place(at(x)), limit);
    let x = turning(second[k] * (1.0 - NEAR), second[k] * (1.0 + NEAR), above);
    let x = x.unwrap_or(second[k]);
    at(r.pick(&[x, x, x.next_up(), x.next_down()]))
}

/// A double between two of one sign at which the test is other than at the next one toward the second.
fn turning(from: f64, to: f64, test: impl Fn(f64) -> bool) -> Option<f64> {
    if test(from) == test(to) {
        return None;
    }
    let first = test(from);
    let (mut near, mut far) = (from.to_bits(), to.to_bits());
    while near.abs_diff(far) > 1 {
        let middle = near.min(far) + near.abs_diff(far) / 2;
        if test(f64::from_bits(middle)) == first {
            near = middle;
        } else {
            far = middle;
        }
    }
    Some(f64::from_bits(near))
}

/// The fourth corner is nearer than that of the parallelogram, so that no other corner is as sharp.
fn kite([a, b, d]: [Point; 3]) -> [Point; 4] {
    let c = [0, 1].map(|k| a[k] + 0.8 * (b[k] - a[k] + (d[k] - a[k])));
    [a, b, c, d]
}

/// The limit is the least that the cells keep, or a unit beside it.
fn fit(j: &mut Judged, range: [f64; 2], thin: bool, r: &mut Random) {
    let sharp = |t: f64| {
        let limit = Limit::new(t);
        match thin {
            true => j.left.iter().any(|t| any_above(&j.points, t, &limit)),
            false => j.quads.iter().any(|q| any_above(&j.points, q, &limit)),
        }
    };
    let Some(t) = turning(range[0], range[1], sharp) else {
        return;
    };
    let t = r.pick(&[t, t.next_up()]).clamp(range[0], range[1]);
    if thin {
        j.thin = t;
    } else {
        j.cosine = t;
    }
}
