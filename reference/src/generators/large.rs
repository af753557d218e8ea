//! Large shapes, each of about the triangles asked for.

use super::shape::{Room, Shape};
use super::{grids, soups};
use crate::input::Input;
use crate::random::Random;

type Make = fn(&mut Random, usize) -> Input;

pub const SHAPES: &[(&str, Make)] = &[
    ("plate", |r, n| sized(plate(r, n), r, 1.0)),
    ("plate-even", |r, n| Input {
        stop: 1,
        ..sized(plate(r, n), r, 1.0)
    }),
    ("coarse", |r, n| sized(plate(r, n), r, 0.4)),
    ("fine", |r, n| sized(plate(r, n), r, 2.5)),
    ("no-size", |r, n| Input {
        size: 0,
        ..sized(plate(r, n), r, 1.0)
    }),
    ("scatter", |r, n| sized(scatter(r, n), r, 1.0)),
    ("scatter-even", |r, n| Input {
        stop: 1,
        ..sized(scatter(r, n), r, 1.0)
    }),
    ("wheel", |r, n| sized(wheel(r, n), r, 1.0)),
    ("sheets", |r, n| sized(sheets(r, n), r, 1.0)),
    ("torn", |r, n| sized(torn(r, n), r, 1.0)),
    ("heap", |r, n| sized(heap(r, n), r, 1.0)),
    ("hub", |r, n| Input {
        stop: 0,
        ..sized(hub(r, n), r, 1.0)
    }),
];

/// The input at so many steps as its size.
fn sized(s: Shape, r: &mut Random, share: f64) -> Input {
    let s = s.within(8.0);
    let size = (share * s.step).clamp(1.0 / 64.0, 8.0);
    s.with_size(r, size)
}

/// A square grid with a hole, jittered.
fn plate(r: &mut Random, triangles: usize) -> Shape {
    let side = ((triangles / 2) as f64).sqrt() as usize;
    let hole = side / 3..side / 2;
    let mut turns = Random::new(r.bits(), 0);
    let keep = |i: usize, j: usize| !(hole.contains(&i) && hole.contains(&j));
    let s = grids::squares(side, side, keep, |_, _| turns.once_in(2));
    let share = r.pick(&[0.1, 0.2, 0.3]);
    s.jittered(r, share)
}

/// Points at random between those of a grid.
fn scatter(r: &mut Random, triangles: usize) -> Shape {
    let side = ((triangles / 6) as f64).sqrt() as usize;
    let base = grids::squares(side, side, |_, _| true, |i, j| (i + j) % 2 == 0);
    let mut base = base.scaled(1.0 / side as f64, 1.0 / side as f64);
    let low = -((side / 2) as f64) / side as f64;
    base.points.iter_mut().flatten().for_each(|c| *c -= low);
    grids::scattered(r, base, triangles / 3).scaled(8.0, 8.0)
}

/// A ring of many layers.
fn wheel(r: &mut Random, triangles: usize) -> Shape {
    let layers = ((triangles / 12) as f64).sqrt() as usize;
    let around = triangles / 2 / layers.max(1);
    grids::annulus(r, around, layers.max(1), 2.0, 6.0 / layers.max(1) as f64)
}

/// Two grids on the same nodes, with other diagonals.
fn sheets(r: &mut Random, triangles: usize) -> Shape {
    let side = ((triangles / 4) as f64).sqrt() as usize;
    let mut s = grids::squares(side, side, |_, _| true, |i, j| (i + j) % 2 == 0);
    let mut turns = Random::new(r.bits(), 0);
    let mut gaps = Random::new(r.bits(), 0);
    let second = grids::squares(side, side, |_, _| !gaps.once_in(3), |_, _| turns.once_in(2));
    s.tris.extend(second.tris);
    s.jittered(r, 0.1)
}

/// Triangles between near points of a lattice, over each other.
fn torn(r: &mut Random, triangles: usize) -> Shape {
    let side = ((triangles as f64).sqrt() as usize).clamp(3, 60);
    let mut s = grids::squares(side, side, |_, _| false, |_, _| true);
    let wide = side + 1;
    while s.tris.len() < triangles {
        let (i, j) = (r.below(side - 1), r.below(side - 1));
        let t = [(); 3].map(|_| ((j + r.below(3)) * wide + i + r.below(3)) as u32);
        if s.area2(t) != 0.0 {
            s.tris.push(t);
        }
    }
    s
}

/// Triangles with nodes of their own, at a size that adds points.
fn heap(r: &mut Random, triangles: usize) -> Shape {
    let most = triangles.min(1300);
    let mut s = soups::pile(r, most);
    s.step = 0.2;
    s
}

/// No more than 1,000 triangles, which reach the limit on attempts: it takes long.
fn hub(r: &mut Random, triangles: usize) -> Shape {
    let room = Room {
        triangles: triangles.min(1000),
        points: usize::MAX,
    };
    soups::hub(r, &room)
}
