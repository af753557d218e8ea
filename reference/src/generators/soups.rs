//! Meshes with overlap: soups, layers, repeats, fans, heaps.

use super::grids;
use super::shape::{Room, Shape};
use crate::random::Random;

/// Three different nodes.
fn triple(r: &mut Random, nodes: usize) -> [u32; 3] {
    loop {
        let t = [(); 3].map(|_| r.below(nodes) as u32);
        if t[0] != t[1] && t[1] != t[2] && t[0] != t[2] {
            return t;
        }
    }
}

/// Few often, many at times.
fn some(r: &mut Random, low: usize, few: usize, most: usize) -> usize {
    let high = if r.once_in(4) { most } else { few.min(most) };
    r.from_to(low.min(high), high)
}

/// Triangles over the points of a small lattice: exact ties, overlaps, flat ones.
pub fn lattice(r: &mut Random, room: &Room) -> Shape {
    let side = r.from_to(2, 5);
    let mut s = Shape {
        step: 1.0,
        ..Shape::default()
    };
    for j in 0..side {
        for i in 0..side {
            s.add(i as f64, j as f64);
        }
    }
    let flat = r.once_in(6);
    let short = r.once_in(2);
    let count = some(r, 2, 16, room.triangles);
    for _ in 0..20 * count {
        let t = triple(r, s.points.len());
        let area = s.area2(t);
        if (area == 0.0 && !flat) || (short && area.abs() > 2.0) {
            continue;
        }
        s.tris.push(t);
        if s.tris.len() == count {
            break;
        }
    }
    let scale = r.pick(&[1.0, 0.5, 0.25, 2.0]);
    s.scaled(scale, scale)
}

/// Triangles over points at random.
pub fn soup(r: &mut Random, room: &Room) -> Shape {
    let mut s = Shape {
        step: 1.0,
        ..Shape::default()
    };
    let nodes = some(r, 4, 14, room.points);
    for _ in 0..nodes {
        s.add(2.0 * r.around(), 2.0 * r.around());
    }
    for _ in 0..some(r, 2, 20, room.triangles) {
        s.tris.push(triple(r, nodes));
    }
    s
}

/// Grids over each other, on the same nodes or on nodes of their own.
pub fn layers(r: &mut Random, room: &Room) -> Shape {
    let count = r.from_to(2, 4);
    let part = Room {
        triangles: room.triangles / count,
        points: room.points / count,
    };
    let first = grids::grid(r, &part);
    let own = r.once_in(2);
    let mut s = first.clone();
    for _ in 1..count {
        let mut layer = first.clone();
        for t in &mut layer.tris {
            if r.once_in(4) {
                t.swap(0, 1);
            }
        }
        layer.tris.retain(|_| !r.once_in(5));
        if own {
            let share = r.pick(&[0.0, 0.1, 0.3]);
            s.join(&layer.jittered(r, share));
        } else {
            turn_diagonals(&mut layer, r);
            s.tris.extend(layer.tris);
        }
    }
    s
}

/// Pairs that follow each other in a grid take their other diagonal.
fn turn_diagonals(s: &mut Shape, r: &mut Random) {
    for pair in s.tris.chunks_mut(2) {
        if let [[a, b, c], [d, e, f]] = *pair {
            if a == d && c == e && r.once_in(2) {
                pair.copy_from_slice(&[[a, b, f], [b, c, f]]);
            }
        }
    }
}

/// Triangles given more than once, turned or the other way round.
pub fn repeats(r: &mut Random, room: &Room) -> Shape {
    let part = Room {
        triangles: room.triangles / 2,
        points: room.points,
    };
    let mut s = match r.below(3) {
        0 => lattice(r, &part),
        1 => grids::ring(r, &part),
        _ => grids::grid(r, &part),
    };
    let count = s.tris.len();
    for _ in 0..r.from_to(1, 8) {
        if count == 0 || s.tris.len() >= room.triangles {
            break;
        }
        let mut t = s.tris[r.below(count)];
        t.rotate_left(r.below(3));
        if r.once_in(3) {
            t.swap(0, 1);
        }
        s.tris.push(t);
    }
    s
}

/// Several triangles on one edge, and more on the edges of those.
pub fn fans(r: &mut Random, room: &Room) -> Shape {
    let mut s = Shape {
        step: 1.0,
        ..Shape::default()
    };
    let (a, b) = (s.add(0.0, 0.0), s.add(1.0, 0.0));
    let lattice = r.once_in(2);
    let most = room.triangles.min(room.points - 2).min(20);
    for k in 0..r.from_to(3, most) {
        let on = if k < 3 || r.once_in(3) {
            [a, b, 0]
        } else {
            s.tris[r.below(s.tris.len())]
        };
        let side = if k < 3 { 0 } else { r.below(3) };
        let ends = [on[side], on[(side + 1) % 3]];
        let ends = if k < 3 { [a, b] } else { ends };
        if ends[0] == ends[1] {
            continue;
        }
        let [p, q] = ends.map(|v| s.points[v as usize]);
        let up = if r.once_in(3) { -1.0 } else { 1.0 };
        let wobble = if lattice { 0.0 } else { 0.3 * r.around() };
        let x = p[0] + (wobble - up * (q[1] - p[1])) + r.pick(&[0.0, 0.5, 1.0]) * (q[0] - p[0]);
        let y = p[1] + (wobble + up * (q[0] - p[0])) + r.pick(&[0.0, 0.5]) * (q[1] - p[1]);
        let v = s.add(x, y);
        s.tris.push([ends[0], ends[1], v]);
    }
    s
}

/// Points drawn together or onto a line, so that some triangles are flat.
pub fn flat(r: &mut Random, room: &Room) -> Shape {
    let mut s = if r.once_in(2) {
        grids::grid(r, room)
    } else {
        soup(r, room)
    };
    for _ in 0..r.from_to(1, 6) {
        let (i, j) = (r.below(s.points.len()), r.below(s.points.len()));
        match r.below(3) {
            0 => s.points[i] = s.points[j],
            1 => s.points[i][1] = s.points[j][1],
            _ => s.points[i][0] = s.points[j][0] + 1e-9 * r.around(),
        }
    }
    s
}

/// Large triangles over each other, each with nodes of its own.
pub fn heap(r: &mut Random, room: &Room) -> Shape {
    let most = room.triangles.min(room.points / 3);
    let count = some(r, 1, 8, most);
    let mut s = pile(r, count);
    s.step = r.pick(&[0.125, 0.25, 0.3, 0.5, 1.0]);
    s
}

/// So many large triangles.
pub fn pile(r: &mut Random, count: usize) -> Shape {
    let mut s = Shape::default();
    for _ in 0..count {
        push_large(&mut s, r);
    }
    s
}

/// A triangle with nodes of its own and sides of one to four.
fn push_large(s: &mut Shape, r: &mut Random) {
    loop {
        let (x, y) = (r.around(), r.around());
        let a = s.add(x, y);
        let b = s.add(x + 1.0 + r.unit(), y + 0.5 * r.around());
        let c = s.add(x + r.unit(), y + 1.0 + r.unit());
        if s.area2([a, b, c]) > 0.5 {
            s.tris.push([a, b, c]);
            return;
        }
        s.points.truncate(a as usize);
    }
}

/// Triangles that meet at their nodes only, `side` along each border, with holes
/// between them, and a triangle under all: each edge is on the front, and with a
/// small size a point is added at both its ends, in the triangle under all.
fn lace(r: &mut Random, side: usize, wanted: usize) -> Shape {
    let mut s = Shape {
        step: 1.0,
        ..Shape::default()
    };
    let wide = side as f64;
    let corners = [[-3.0, -1.0], [wide + 3.0, -1.0], [0.5 * wide, wide + 3.0]];
    let under = corners.map(|p| s.add(p[0], p[1]));
    s.tris.push(under);
    let tall = 0.866;
    for j in 0..=side {
        for i in 0..=side - j {
            s.add(i as f64 + 0.5 * j as f64, tall * j as f64);
        }
    }
    let row = |j: usize| 3 + (j * (2 * side + 3 - j) / 2) as u32;
    let mut up = Vec::new();
    for j in 0..side {
        for i in 0..(side - j) as u32 {
            up.push([row(j) + i, row(j) + i + 1, row(j + 1) + i]);
        }
    }
    // The triangles at the border's corners go first: they take two nodes along.
    let ends = [0, side - 1, up.len() - 1];
    for end in ends.iter().rev() {
        if up.len() > wanted {
            up.remove(*end);
        }
    }
    up.truncate(wanted);
    s.tris.extend(up);
    s.pruned().jittered(r, 0.05)
}

/// Lace of as many triangles as let the run reach its limit on live triangles with
/// the program's points and slots.
pub fn runaway(r: &mut Random, _: &Room) -> Shape {
    let wanted = r.from_to(11, 13);
    let mut s = lace(r, 5, wanted).within(8.0);
    s.step *= r.pick(&[0.15, 0.2, 0.25, 0.25, 0.3]);
    s
}

/// Many points given, and edges that want more than the program lends.
pub fn crowded(r: &mut Random, _: &Room) -> Shape {
    let count = r.from_to(8, 21);
    let mut s = pile(r, count);
    s.step = r.pick(&[0.125, 0.2, 0.25]);
    s
}

/// Lace that adds points, triangles that only take slots, and a grid at its own
/// size: the slots run out at a split or at a quad.
pub fn slots(r: &mut Random, _: &Room) -> Shape {
    let (side, wanted) = r.pick(&[(3, 6), (4, 7), (4, 8), (4, 9), (4, 9), (5, 12)]);
    let mut s = lace(r, side, wanted);
    let mut grid = grids::squares(3, 3, |_, _| true, |_, _| true).scaled(0.25, 0.25);
    grid.points.iter_mut().for_each(|p| p[1] -= 3.0);
    s.join(&grid);
    let mut idle = Shape::default();
    let nodes = [[3.0, -4.0], [4.0, -4.0], [3.0, -3.0]].map(|p| idle.add(p[0], p[1]));
    let most = 64 - s.tris.len();
    idle.tris = vec![nodes; r.from_to(10, most.min(32))];
    s.join(&idle);
    s.step = 0.25;
    s.within(8.0)
}

/// Squares, and triangles without extent, at one node. Each quad frees all edges at it, and those without length
/// come first in every round, so the attempts grow with the square of the triangles: from about 900 on they reach
/// their limit.
pub fn hub(r: &mut Random, room: &Room) -> Shape {
    let points = room.triangles / 2;
    let squares = room.triangles / 4;
    let mut s = Shape {
        step: 1.0,
        ..Shape::default()
    };
    let hub = s.add(0.0, 0.0);
    for _ in 0..points {
        let a = s.add(0.0, 0.0);
        let b = s.add(0.0, 0.0);
        s.tris.push([hub, a, b]);
    }
    for _ in 0..squares {
        let a = s.add(1.0 + 0.1 * r.unit(), 0.0);
        let b = s.add(1.0, 1.0);
        let c = s.add(0.0, 1.0);
        s.tris.extend([[hub, a, b], [hub, b, c]]);
    }
    s
}
