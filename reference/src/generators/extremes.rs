//! Inputs at the ends of what is accepted, and beyond.

use super::shape::{any_z, Room, Shape};
use super::{grids, soups};
use crate::input::Input;
use crate::random::Random;

/// One to three triangles.
pub fn single(r: &mut Random, _: &Room) -> Shape {
    let mut s = Shape {
        step: 1.0,
        ..Shape::default()
    };
    for _ in 0..r.from_to(1, 3) {
        let exact = r.once_in(2);
        let start = s.points.len();
        for k in 0..3 {
            let corner = [[0.0, 0.0], [1.0, 0.0], [0.0, 1.0]][k];
            let far = if exact { 0.0 } else { 0.8 };
            s.add(corner[0] + far * r.around(), corner[1] + far * r.around());
        }
        let old = start > 0 && !r.once_in(3);
        let v = start as u32;
        let mut t = if old {
            [v - 2, v - 1, v]
        } else {
            [v, v + 1, v + 2]
        };
        if old {
            s.points.truncate(start + 1);
            s.points[start] = [1.0 + 0.3 * r.around(), 1.0 + 0.3 * r.around()];
        }
        if r.once_in(4) {
            t.swap(0, 2);
        }
        s.tris.push(t);
    }
    s
}

/// Coordinates at 8 and -8.
pub fn corners(r: &mut Random, room: &Room) -> Shape {
    let mut s = match r.below(3) {
        0 => soups::lattice(r, room),
        1 => grids::scatter(r, room),
        _ => grids::grid(r, room),
    };
    let most = s
        .points
        .iter()
        .flatten()
        .fold(0.0f64, |m, c| m.max(c.abs()));
    let scale = 8.0 / most.max(1e-3);
    s = s.scaled(scale, scale);
    for c in s.points.iter_mut().flatten() {
        *c = if c.abs() > 7.5 {
            8.0f64.copysign(*c)
        } else {
            c.clamp(-8.0, 8.0)
        };
    }
    s
}

/// Coordinates near zero: subnormal ones, zeros of either sign, crosses near the
/// tolerance of 1e-12.
pub fn tiny(r: &mut Random, room: &Room) -> Shape {
    let mut s = if r.once_in(3) {
        soups::lattice(r, room)
    } else {
        grids::grid(r, room)
    };
    if r.once_in(2) {
        let scale = r.pick(&[1e-5, 2e-6, 1e-6, 5e-7, 1e-9, 1e-12, 1e-160, 1e-310]);
        return s.scaled(scale, scale);
    }
    for c in s.points.iter_mut().flatten() {
        if *c == 0.0 || r.once_in(6) {
            let small = r.pick(&[
                0.0, -0.0, 5e-324, 1e-310, 2.3e-308, 1e-160, 1e-13, 1e-12, 1e-9,
            ]);
            *c = if r.once_in(2) { -small } else { small };
        }
    }
    s
}

/// A float some units in the last place away.
fn near(c: f64, r: &mut Random) -> f64 {
    if c == 0.0 {
        return c;
    }
    let moved = c.to_bits() as i64 + r.from_to(0, 6) as i64 - 3;
    f64::from_bits(moved as u64)
}

/// Sheared grids whose quads have corners of 25 degrees, but for last places.
pub fn thin(r: &mut Random, _: &Room) -> Shape {
    let (nx, ny) = (r.from_to(1, 3), r.from_to(1, 2));
    let rising = r.once_in(2);
    let mut s = grids::squares(nx, ny, |_, _| true, |_, _| rising);
    let angle = 25.0f64.to_radians();
    for p in &mut s.points {
        *p = [p[0] + p[1] * angle.cos(), p[1] * angle.sin()];
    }
    let scale = 0.5 + r.unit();
    s = s.scaled(scale, scale);
    s.points.iter_mut().flatten().for_each(|c| *c = near(*c, r));
    s
}

/// Quads with a corner whose scaled Jacobian is 0.3, but for last places.
pub fn blunt(r: &mut Random, _: &Room) -> Shape {
    let mut s = Shape {
        step: 1.0,
        ..Shape::default()
    };
    let tall = 1.0 + 0.5 * r.unit();
    for p in [[0.0, 0.0], [0.91f64.sqrt(), 0.3], [0.0, tall], [-1.0, 0.0]] {
        s.add(p[0], p[1]);
    }
    s.tris = if r.once_in(2) {
        vec![[0, 1, 2], [0, 2, 3]]
    } else {
        vec![[0, 1, 3], [1, 2, 3]]
    };
    let scale = 0.5 + r.unit();
    s = s.scaled(scale, scale);
    s.points.iter_mut().flatten().for_each(|c| *c = near(*c, r));
    s
}

/// z of any bits.
pub fn deep(r: &mut Random, room: &Room) -> Input {
    let mut input = grids::grid(r, room).input(r);
    for p in &mut input.points {
        p[2] = any_z(r);
    }
    input
}

/// Edges much longer or shorter than the size, so that points are added.
pub fn insertion(r: &mut Random, room: &Room) -> Input {
    let part = Room {
        triangles: room.triangles.min(24),
        points: room.points,
    };
    let s = match r.below(4) {
        0 => grids::scatter(r, &part),
        1 => grids::stretched(r, &part),
        2 => single(r, &part),
        _ => grids::graded(r, &part),
    };
    let s = s.within(8.0);
    let share = r.pick(&[0.1, 0.2, 0.25, 0.3, 0.4, 0.5, 0.6, 2.1, 3.0, 4.0]);
    let size = (s.step * share).clamp(1.0 / 64.0, 8.0);
    s.with_size(r, size)
}

/// A small size near the shape's step.
pub fn at_step(s: Shape, r: &mut Random) -> Input {
    let size = s.step;
    s.with_size(r, size)
}

/// Meets one to three of the conditions 2, 3, 5, 6 and 7, or comes close to them.
pub fn refused(r: &mut Random, room: &Room) -> Input {
    let part = Room {
        triangles: room.triangles.min(12),
        points: room.points.min(20),
    };
    let mut input = grids::grid(r, &part).input(r);
    for _ in 0..r.from_to(1, 3) {
        match r.below(5) {
            0 => input.size = bad_size(r),
            1 => input.stop = r.from_to(2, 9) as u32,
            2 => {
                let given = input.points.len() as u32;
                let far = r.pick(&[given, given + 1, 4096, u32::MAX]);
                set_node(&mut input, r, far);
            }
            3 => repeat_node(&mut input, r),
            _ => {
                let i = r.below(input.points.len());
                input.points[i][r.below(3)] = bad_coordinate(r);
            }
        }
    }
    input
}

fn set_node(input: &mut Input, r: &mut Random, node: u32) {
    if !input.triangles.is_empty() {
        let i = r.below(input.triangles.len());
        input.triangles[i][r.below(3)] = node;
    }
}

fn repeat_node(input: &mut Input, r: &mut Random) {
    if !input.triangles.is_empty() {
        let i = r.below(input.triangles.len());
        let k = r.below(3);
        input.triangles[i][k] = input.triangles[i][(k + 1) % 3];
    }
}

/// Sizes out of their range, and their neighbours within.
fn bad_size(r: &mut Random) -> u64 {
    let (least, most) = ((1.0f64 / 64.0).to_bits(), 8.0f64.to_bits());
    let minus = 1u64 << 63;
    r.pick(&[
        least - 1,
        least,
        most,
        most + 1,
        minus | 1.0f64.to_bits(),
        1,
        minus | 1,
        0x7ff0000000000000,
        0xfff0000000000000,
        0x7ff8000000000000,
        0xfff8000000000001,
        (1.0f64 / 128.0).to_bits(),
        0,
        minus,
    ])
}

/// Coordinates out of their range, and their neighbours within.
fn bad_coordinate(r: &mut Random) -> u64 {
    let most = 8.0f64.to_bits();
    let minus = 1u64 << 63;
    r.pick(&[
        most,
        most + 1,
        minus | most,
        minus | (most + 1),
        0x7ff0000000000000,
        0xfff0000000000000,
        0x7ff8000000000000,
        0xfff8000000000000,
        0x7ff0000000000001,
        0x7fefffffffffffff,
    ])
}
