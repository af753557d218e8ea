//! Meshes on which a mesher's time can grow fast: most triangles meet at one node, or one loop of the front goes through it again and again, or every node is in reach of every other. None is made at random.

use std::f64::consts::TAU;

use super::grids;
use super::shape::Shape;
use crate::input::Input;

/// A name, and the mesh of about so many triangles with its size and stop rule.
pub type Hub = (&'static str, fn(usize) -> Input);

pub const HUBS: &[Hub] = &[
    ("hub", |n| sized(hub(n), 1.0, 0)),
    ("hub-path", |n| sized(hub_path(n), 1.0, 0)),
    ("hub-fan", |n| sized(hub_fan(n), 1.0, 0)),
    ("fan-twice", |n| sized(fan_twice(n), 1.0, 0)),
    ("star", |n| sized(star(n), 1.0, 0)),
    ("flat-star", |n| sized(flat_star(n), 1.0, 0)),
    ("one-loop", |n| sized(one_loop(n), 1.0, 0)),
    ("odd-wheel", |n| sized(wheel(n - 1 + n % 2), 1.0, 1)),
    ("repeated", |n| sized(repeated(n), 1.0, 0)),
    ("in-reach", |n| sized(grid(n), 22.0, 0)),
];

/// The shape within 8 of zero, at so many of its steps as its size.
fn sized(s: Shape, steps: f64, stop: u32) -> Input {
    let s = s.within(8.0);
    Input {
        size: (steps * s.step).min(8.0).to_bits(),
        stop,
        triangles: s.tris,
        points: s
            .points
            .iter()
            .map(|p| [p[0].to_bits(), p[1].to_bits(), 0])
            .collect(),
        ..Input::default()
    }
}

/// One node in the middle.
fn middle() -> (Shape, u32) {
    let mut s = Shape {
        step: 1.0,
        ..Shape::default()
    };
    let hub = s.add(0.0, 0.0);
    (s, hub)
}

/// So many unit squares at a node, each of two triangles, over each other but for their first corner.
fn squares_at(s: &mut Shape, hub: u32, count: usize) {
    for k in 0..count {
        let a = s.add(1.0 + 0.1 * k as f64 / count as f64, 0.0);
        let b = s.add(1.0, 1.0);
        let c = s.add(0.0, 1.0);
        s.tris.extend([[hub, a, b], [hub, b, c]]);
    }
}

/// Nodes on the unit circle, from the angle 0 to `turn`, of which `count` steps are made.
fn arc(s: &mut Shape, count: usize, turn: f64) -> Vec<u32> {
    (0..=count)
        .map(|k| turn * k as f64 / count as f64)
        .map(|angle| s.add(angle.cos(), angle.sin()))
        .collect()
}

fn fan(s: &mut Shape, hub: u32, rim: &[u32]) {
    s.tris.extend(rim.windows(2).map(|e| [hub, e[0], e[1]]));
}

/// Triangles without extent all round a node.
fn flat_all_round(s: &mut Shape, hub: u32, count: usize) {
    for k in 0..count {
        let (y, x) = (TAU * k as f64 / count as f64).sin_cos();
        let a = s.add(x, y);
        let b = s.add(1.5 * x, 1.5 * y);
        s.tris.push([hub, a, b]);
    }
}

/// Triangles in one point, and squares.
fn hub(n: usize) -> Shape {
    let (mut s, hub) = middle();
    for _ in 0..n / 2 {
        let a = s.add(0.0, 0.0);
        let b = s.add(0.0, 0.0);
        s.tris.push([hub, a, b]);
    }
    squares_at(&mut s, hub, n / 4);
    s
}

/// The triangles in one point along a path of edges, and squares.
fn hub_path(n: usize) -> Shape {
    let (mut s, hub) = middle();
    let path: Vec<u32> = (0..=n / 2).map(|_| s.add(0.0, 0.0)).collect();
    fan(&mut s, hub, &path);
    squares_at(&mut s, hub, n / 4);
    s
}

/// A fan nearly all round, and squares.
fn hub_fan(n: usize) -> Shape {
    let (mut s, hub) = middle();
    let rim = arc(&mut s, n / 2, 6.0);
    fan(&mut s, hub, &rim);
    squares_at(&mut s, hub, n / 4);
    s
}

/// A fan given twice, and squares.
fn fan_twice(n: usize) -> Shape {
    let (mut s, hub) = middle();
    let rim = arc(&mut s, n / 4, 1.5);
    fan(&mut s, hub, &rim);
    fan(&mut s, hub, &rim);
    squares_at(&mut s, hub, n / 4);
    s
}

/// Flat triangles all round, and squares.
fn star(n: usize) -> Shape {
    let (mut s, hub) = middle();
    flat_all_round(&mut s, hub, n / 2);
    squares_at(&mut s, hub, n / 4);
    s
}

/// Flat triangles all round.
fn flat_star(n: usize) -> Shape {
    let (mut s, hub) = middle();
    flat_all_round(&mut s, hub, n);
    s
}

/// Strips that begin at one node, narrow enough to lie apart: the front is one loop, which goes through that node after each strip.
fn one_loop(n: usize) -> Shape {
    const EACH: usize = 4;
    let (mut s, hub) = middle();
    let strips = (n / 2 / EACH).max(1);
    let width = 0.6 / strips as f64;
    for k in 0..strips {
        let (y, x) = (TAU * k as f64 / strips as f64).sin_cos();
        let mut at =
            |along: f64, across: f64| s.add(along * x - across * y, along * y + across * x);
        let mut left = vec![at(0.2, width)];
        let mut right = vec![hub];
        for j in 1..=EACH {
            let along = 0.2 + 6.0 * j as f64 / EACH as f64;
            right.push(at(along, -width));
            left.push(at(along, width));
        }
        for j in 0..EACH {
            let (a, b, c, d) = (right[j], right[j + 1], left[j + 1], left[j]);
            s.tris.extend([[a, b, d], [b, c, d]]);
        }
    }
    s
}

/// A closed fan.
fn wheel(n: usize) -> Shape {
    let (mut s, hub) = middle();
    let mut rim = arc(&mut s, n, TAU);
    rim[n] = rim[0];
    fan(&mut s, hub, &rim);
    s.points.pop();
    s
}

fn grid(n: usize) -> Shape {
    let side = ((n / 2) as f64).sqrt() as usize;
    grids::squares(side, side, |_, _| true, |_, _| true)
}

/// A grid with every triangle given twice.
fn repeated(n: usize) -> Shape {
    let mut s = grid(n / 2);
    s.tris.extend_from_within(..);
    s
}

#[cfg(test)]
mod tests {
    use super::*;

    /// Every mesh is one that a run takes, and has about the triangles that were asked for.
    #[test]
    fn meshes_are_accepted() {
        for (name, make) in HUBS {
            for n in [16, 64, 256] {
                let input = make(n);
                assert_eq!(input.refusal(crate::input::LARGEST), None, "{name} {n}");
                let count = input.triangles.len();
                assert!(2 * count >= n && count <= n, "{name} {n}: {count}");
            }
        }
    }

    /// In each of the first six at least half of all triangles meet at the first node.
    #[test]
    fn triangles_meet_at_a_node() {
        for (name, make) in &HUBS[..6] {
            let input = make(256);
            let at_first = input.triangles.iter().filter(|t| t.contains(&0)).count();
            assert!(at_first * 2 >= input.triangles.len(), "{name}: {at_first}");
        }
    }
}
