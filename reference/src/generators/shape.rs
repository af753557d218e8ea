//! A triangle mesh in the making, and how it becomes an input.

use crate::input::Input;
use crate::random::Random;

/// The most triangles and points that an input may have.
#[derive(Clone, Copy)]
pub struct Room {
    pub triangles: usize,
    pub points: usize,
}

/// Points and triangles. `step` is the usual length of an edge.
#[derive(Clone, Default)]
pub struct Shape {
    pub points: Vec<[f64; 2]>,
    pub tris: Vec<[u32; 3]>,
    pub step: f64,
}

/// Bucket entries that the given edges may take; more is slow.
const MOST_BUCKETS: f64 = 2e4;

impl Shape {
    pub fn add(&mut self, x: f64, y: f64) -> u32 {
        self.points.push([x, y]);
        self.points.len() as u32 - 1
    }

    pub fn join(&mut self, other: &Shape) {
        let first = self.points.len() as u32;
        self.points.extend(&other.points);
        self.tris
            .extend(other.tris.iter().map(|t| t.map(|v| v + first)));
    }

    pub fn scaled(mut self, sx: f64, sy: f64) -> Self {
        for p in &mut self.points {
            *p = [p[0] * sx, p[1] * sy];
        }
        self.step *= sx.abs().max(sy.abs());
        self
    }

    /// Without the points that no triangle names.
    pub fn pruned(mut self) -> Self {
        for v in (0..self.points.len() as u32).rev() {
            if !self.tris.iter().flatten().any(|&n| n == v) {
                self.points.remove(v as usize);
                for n in self.tris.iter_mut().flatten() {
                    *n -= u32::from(*n > v);
                }
            }
        }
        self
    }

    /// Moved by up to `share` of the step in either axis.
    pub fn jittered(mut self, r: &mut Random, share: f64) -> Self {
        for p in &mut self.points {
            p[0] += share * self.step * r.around();
            p[1] += share * self.step * r.around();
        }
        self
    }

    /// Shrunk by powers of two until it lies within `most` of zero.
    pub fn within(mut self, most: f64) -> Self {
        while self.points.iter().flatten().any(|c| c.abs() > most) {
            self = self.scaled(0.5, 0.5);
        }
        self
    }

    /// Twice the signed area of a triangle.
    pub fn area2(&self, t: [u32; 3]) -> f64 {
        let [a, b, c] = t.map(|v| self.points[v as usize]);
        (b[0] - a[0]) * (c[1] - a[1]) - (b[1] - a[1]) * (c[0] - a[0])
    }

    /// Turned, shuffled and renumbered, so that no order of the making stays.
    pub fn mixed(mut self, r: &mut Random) -> Self {
        if r.once_in(3) {
            return self;
        }
        for t in &mut self.tris {
            t.rotate_left(r.below(3));
        }
        if r.once_in(2) {
            r.shuffle(&mut self.tris);
        }
        if r.once_in(2) {
            let mut order: Vec<u32> = (0..self.points.len() as u32).collect();
            r.shuffle(&mut order);
            let mut points = self.points.clone();
            for (old, &new) in order.iter().enumerate() {
                points[new as usize] = self.points[old];
            }
            self.points = points;
            for t in &mut self.tris {
                *t = t.map(|v| order[v as usize]);
            }
        }
        self
    }

    /// Bucket entries that the triangles' edges take at a size.
    fn buckets(&self, size: f64) -> f64 {
        let side = if size > 1e-9 { size } else { 1.0 };
        let edge = |a: [f64; 2], b: [f64; 2]| {
            ((a[0] - b[0]).abs() / side + 1.0) * ((a[1] - b[1]).abs() / side + 1.0)
        };
        let of = |t: &[u32; 3]| {
            let [a, b, c] = t.map(|v| self.points[v as usize]);
            edge(a, b) + edge(b, c) + edge(c, a)
        };
        self.tris.iter().map(of).sum()
    }

    /// A size at which an edge's length is on one of the module's bounds, but for
    /// last places.
    fn on_bound(&self, r: &mut Random) -> f64 {
        if self.tris.is_empty() {
            return 1.0;
        }
        let t = self.tris[r.below(self.tris.len())];
        let [a, b, _] = t.map(|v| self.points[v as usize]);
        let length = ((b[0] - a[0]).powi(2) + (b[1] - a[1]).powi(2)).sqrt();
        let size = length / r.pick(&[0.25, 0.4, 0.5, 1.5, 2.2, 2.5]);
        let size = size.clamp(0.02, 7.9);
        f64::from_bits(size.to_bits() + r.below(3) as u64 - 1)
    }

    /// A size: often near the step, at times an end of the range or a zero.
    pub fn size(&self, r: &mut Random) -> f64 {
        let share = r.pick(&[
            0.25, 0.5, 0.6, 0.75, 0.9, 1.0, 1.0, 1.0, 1.0, 1.2, 1.5, 2.0, 3.0,
        ]);
        let near = (self.step * share).clamp(1.0 / 64.0, 8.0);
        let size = match r.below(18) {
            0 => 0.0,
            1 => -0.0,
            2 => 1.0 / 64.0,
            3 => 1.0,
            4 => 8.0,
            5 => f64::from_bits((1.0f64 / 64.0).to_bits() + 1),
            6 => f64::from_bits(8.0f64.to_bits() - 1),
            7 => (2.0f64).powf(9.0 * r.unit() - 6.0).clamp(1.0 / 64.0, 8.0),
            8 | 9 => self.on_bound(r),
            _ => near,
        };
        let size = if self.step < 1.0 / 64.0 && r.once_in(2) {
            0.0
        } else {
            size
        };
        let most = if r.once_in(400) {
            20.0 * MOST_BUCKETS
        } else {
            MOST_BUCKETS
        };
        if self.buckets(size) > most {
            near.max(self.step)
        } else {
            size
        }
    }

    /// The input with a size of its choice.
    pub fn input(self, r: &mut Random) -> Input {
        let shape = self.within(8.0);
        let size = shape.size(r);
        shape.with_size(r, size)
    }

    /// The input at a given size; z is mostly 0, or else any bits.
    pub fn with_size(self, r: &mut Random, size: f64) -> Input {
        let shape = self.within(8.0).mixed(r);
        let deep = r.once_in(8);
        let mut z = || if deep { any_z(r) } else { 0 };
        let points = shape.points.iter();
        Input {
            points: points
                .map(|p| [p[0].to_bits(), p[1].to_bits(), z()])
                .collect(),
            triangles: shape.tris,
            size: size.to_bits(),
            stop: r.below(2) as u32,
            ..Input::default()
        }
    }
}

/// Bits of a z: infinities, NaN patterns of either sign, subnormal numbers, any.
pub fn any_z(r: &mut Random) -> u64 {
    match r.below(6) {
        0 => 0x7ff0000000000000 | r.bits() << 63,
        1 => 0x7ff8000000000000 | r.bits() & 0x8007ffffffffffff,
        2 => 0x7ff0000000000001 | r.bits() & 0x8000000000ffffff,
        3 => r.bits() & 0x800fffffffffffff,
        _ => r.bits(),
    }
}
