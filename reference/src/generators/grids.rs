//! Meshes without overlap: grids, rings, slits, scattered points.

use super::shape::{Room, Shape};
use crate::random::Random;

/// Cells in x and y that fit the room.
fn cells(r: &mut Random, room: &Room) -> (usize, usize) {
    let most = if r.once_in(2) {
        room.triangles.min(18)
    } else {
        room.triangles
    };
    loop {
        let nx = r.from_to(1, (most / 2).clamp(1, 64));
        let ny = r.from_to(1, (most / 2 / nx).max(1));
        if (nx + 1) * (ny + 1) <= room.points && 2 * nx * ny <= most.max(2) {
            return (nx, ny);
        }
    }
}

/// A grid of unit squares around zero, each in two triangles; `keep` says which
/// squares are there and `rising` which diagonal they have.
pub fn squares(
    nx: usize,
    ny: usize,
    mut keep: impl FnMut(usize, usize) -> bool,
    mut rising: impl FnMut(usize, usize) -> bool,
) -> Shape {
    let mut s = Shape {
        step: 1.0,
        ..Shape::default()
    };
    for j in 0..=ny {
        for i in 0..=nx {
            s.add((i as f64) - (nx / 2) as f64, (j as f64) - (ny / 2) as f64);
        }
    }
    let at = |i: usize, j: usize| (j * (nx + 1) + i) as u32;
    for j in 0..ny {
        for i in 0..nx {
            if !keep(i, j) {
                continue;
            }
            let (a, b, c, d) = (at(i, j), at(i + 1, j), at(i + 1, j + 1), at(i, j + 1));
            if rising(i, j) {
                s.tris.extend([[a, b, c], [a, c, d]]);
            } else {
                s.tris.extend([[a, b, d], [b, c, d]]);
            }
        }
    }
    s
}

/// A grid with one of several rules for diagonals and holes.
pub fn plain(r: &mut Random, room: &Room) -> Shape {
    let (nx, ny) = cells(r, room);
    let rule = r.below(4);
    let (holes, diagonals) = (r.bits(), r.bits());
    let share = r.pick(&[0, 0, 1, 3]);
    let mut left = Random::new(holes, 0);
    let mut turns = Random::new(diagonals, 0);
    let keep = move |_: usize, _: usize| left.below(10) >= share;
    let rising = move |i: usize, j: usize| match rule {
        0 => true,
        1 => (i + j) & 1 == 0,
        _ => turns.once_in(2),
    };
    squares(nx, ny, keep, rising)
}

/// Jittered, with holes and random diagonals, at some scale.
pub fn grid(r: &mut Random, room: &Room) -> Shape {
    let share = r.pick(&[0.0, 0.0, 0.05, 0.15, 0.25, 0.4]);
    let scale = r.pick(&[1.0, 1.0, 0.5, 0.25, 2.0, 0.7, 0.1]);
    plain(r, room).jittered(r, share).scaled(scale, scale)
}

/// Some triangles split at a point within, some edges halved.
pub fn refined(r: &mut Random, room: &Room) -> Shape {
    let part = Room {
        triangles: room.triangles / 2,
        points: room.points / 2,
    };
    let mut s = grid(r, &part);
    for _ in 0..r.from_to(1, 12) {
        if s.tris.is_empty() || s.tris.len() + 2 > room.triangles || s.points.len() >= room.points {
            break;
        }
        let id = r.below(s.tris.len());
        if r.once_in(2) {
            split(&mut s, id);
        } else {
            halve(&mut s, id);
        }
    }
    s
}

fn split(s: &mut Shape, id: usize) {
    let t = s.tris[id];
    let [a, b, c] = t.map(|v| s.points[v as usize]);
    let v = s.add((a[0] + b[0] + c[0]) / 3.0, (a[1] + b[1] + c[1]) / 3.0);
    s.tris[id] = [t[0], t[1], v];
    s.tris.extend([[t[1], t[2], v], [t[2], t[0], v]]);
}

/// Halves the first edge of a triangle in all triangles that have it.
fn halve(s: &mut Shape, id: usize) {
    let [a, b, _] = s.tris[id];
    let (p, q) = (s.points[a as usize], s.points[b as usize]);
    let v = s.add((p[0] + q[0]) / 2.0, (p[1] + q[1]) / 2.0);
    let old = std::mem::take(&mut s.tris);
    for t in old {
        if t.contains(&a) && t.contains(&b) {
            s.tris.push(t.map(|n| if n == b { v } else { n }));
            s.tris.push(t.map(|n| if n == a { v } else { n }));
        } else {
            s.tris.push(t);
        }
    }
}

/// Longer in one axis than in the other.
pub fn stretched(r: &mut Random, room: &Room) -> Shape {
    let s = grid(r, room);
    let long = r.pick(&[1.5, 2.0, 3.0, 4.0, 8.0, 16.0]);
    if r.once_in(2) {
        s.scaled(long, 1.0)
    } else {
        s.scaled(1.0, 1.0 / long)
    }
}

/// Steps that grow from one side to the other.
pub fn graded(r: &mut Random, room: &Room) -> Shape {
    let mut s = plain(r, room);
    let grow = r.pick(&[0.05, 0.1, 0.2, 0.4]);
    for p in &mut s.points {
        p[0] += grow * p[0] * p[0].abs();
    }
    let share = r.pick(&[0.0, 0.1, 0.2]);
    s.jittered(r, share)
}

/// Layers of triangles around a hole.
pub fn ring(r: &mut Random, room: &Room) -> Shape {
    let around = r.from_to(3, (room.triangles / 2).clamp(3, 24));
    let most = (room.triangles / (2 * around))
        .min(room.points / around - 1)
        .max(1);
    let layers = r.from_to(1, most);
    let inner = r.pick(&[0.5, 1.0, 2.0]);
    let width = r.pick(&[0.25, 0.5, 1.0]);
    let share = r.pick(&[0.0, 0.0, 0.1, 0.2]);
    annulus(r, around, layers, inner, width).jittered(r, share)
}

/// So many nodes around and so many layers, from an inner radius, each so wide.
pub fn annulus(r: &mut Random, around: usize, layers: usize, inner: f64, width: f64) -> Shape {
    let mut s = Shape {
        step: width,
        ..Shape::default()
    };
    for k in 0..=layers {
        for i in 0..around {
            let angle = std::f64::consts::TAU * i as f64 / around as f64;
            let radius = inner + width * k as f64;
            s.add(radius * angle.cos(), radius * angle.sin());
        }
    }
    for k in 0..layers {
        for i in 0..around {
            let at = |k: usize, i: usize| (k * around + i % around) as u32;
            let (a, b, c, d) = (at(k + 1, i), at(k + 1, i + 1), at(k, i + 1), at(k, i));
            if r.once_in(3) {
                s.tris.extend([[a, b, d], [b, c, d]]);
            } else {
                s.tris.extend([[a, b, c], [a, c, d]]);
            }
        }
    }
    s
}

/// A grid cut along a row: the squares above have nodes of their own there.
pub fn slit(r: &mut Random, room: &Room) -> Shape {
    let part = Room {
        triangles: room.triangles,
        points: room.points * 2 / 3,
    };
    let mut s = grid(r, &part);
    let row = r.pick(&[0.0, 0.0, 1.0]);
    let below = |s: &Shape, t: &[u32; 3]| t.iter().any(|&v| s.points[v as usize][1] < row);
    let cut: Vec<u32> = (0..s.points.len() as u32)
        .filter(|&v| (s.points[v as usize][1] - row).abs() < 0.3 * s.step)
        .filter(|_| !r.once_in(4))
        .collect();
    for v in cut {
        if s.points.len() >= room.points {
            break;
        }
        let [x, y] = s.points[v as usize];
        let twin = s.add(x, y);
        for i in 0..s.tris.len() {
            if below(&s, &s.tris[i]) {
                s.tris[i] = s.tris[i].map(|n| if n == v { twin } else { n });
            }
        }
    }
    s
}

/// Points at random in a square, each put in and the edges around it flipped.
pub fn scatter(r: &mut Random, room: &Room) -> Shape {
    let most = ((room.triangles - 2) / 2).min(room.points - 4);
    let few = if r.once_in(2) { most.min(10) } else { most };
    let inner = r.from_to(1, few.max(1));
    let scale = r.pick(&[1.0, 2.0, 4.0, 0.5]);
    let base = squares(1, 1, |_, _| true, |_, _| true);
    scattered(r, base, inner).scaled(scale, scale)
}

/// So many points in a base that covers the unit square.
pub fn scattered(r: &mut Random, base: Shape, inner: usize) -> Shape {
    let mut s = base;
    for _ in 0..inner {
        let (x, y) = (0.02 + 0.96 * r.unit(), 0.02 + 0.96 * r.unit());
        let v = s.add(x, y);
        let inside = |t: &[u32; 3]| {
            let [a, b, c] = *t;
            s.area2([a, b, v]) > 0.0 && s.area2([b, c, v]) > 0.0 && s.area2([c, a, v]) > 0.0
        };
        match s.tris.iter().position(inside) {
            None => {
                s.points.pop();
            }
            Some(id) => {
                let t = s.tris[id];
                s.tris[id] = [t[0], t[1], v];
                s.tris.extend([[t[1], t[2], v], [t[2], t[0], v]]);
                legalise(&mut s, v);
            }
        }
    }
    s.step = 1.0 / (s.points.len() as f64).sqrt();
    s
}

/// Flips edges opposite `v` while a circle through a triangle holds the far node.
fn legalise(s: &mut Shape, v: u32) {
    for _ in 0..64 {
        let Some((i, j)) = flippable(s, v) else {
            return;
        };
        let (a, b) = opposite(s.tris[i], v);
        let far = s.tris[j].iter().copied().find(|&n| n != a && n != b);
        let far = far.expect("a third node");
        s.tris[i] = [v, a, far];
        s.tris[j] = [v, far, b];
    }
}

/// The two nodes after `v`, in the triangle's order.
fn opposite(t: [u32; 3], v: u32) -> (u32, u32) {
    let k = t.iter().position(|&n| n == v).expect("a corner");
    (t[(k + 1) % 3], t[(k + 2) % 3])
}

fn flippable(s: &Shape, v: u32) -> Option<(usize, usize)> {
    for i in 0..s.tris.len() {
        if !s.tris[i].contains(&v) {
            continue;
        }
        let (a, b) = opposite(s.tris[i], v);
        let other = |t: &[u32; 3]| t.contains(&a) && t.contains(&b) && !t.contains(&v);
        let Some(j) = s.tris.iter().position(other) else {
            continue;
        };
        let far = s.tris[j].iter().copied().find(|&n| n != a && n != b)?;
        if in_circle(s, s.tris[i], far) && s.area2([v, a, far]) > 0.0 && s.area2([v, far, b]) > 0.0
        {
            return Some((i, j));
        }
    }
    None
}

fn in_circle(s: &Shape, t: [u32; 3], v: u32) -> bool {
    let p = s.points[v as usize];
    let rows = t.map(|n| {
        let q = s.points[n as usize];
        let (x, y) = (q[0] - p[0], q[1] - p[1]);
        [x, y, x * x + y * y]
    });
    let [a, b, c] = rows;
    let minor = |i: usize, j: usize| b[i] * c[j] - b[j] * c[i];
    a[0] * minor(1, 2) - a[1] * minor(0, 2) + a[2] * minor(0, 1) > 1e-12
}

/// Any of the above with triangles turned clockwise.
pub fn clockwise(r: &mut Random, room: &Room) -> Shape {
    let mut s = match r.below(3) {
        0 => ring(r, room),
        1 => scatter(r, room),
        _ => grid(r, room),
    };
    let often = r.pick(&[1, 1, 2, 6]);
    for t in &mut s.tris {
        if r.once_in(often) {
            t.swap(1, 2);
        }
    }
    s
}
