//! A mesh that was good, changed in one place.

use super::Judged;
use crate::accept::{COSINES, THINS};
use crate::generators::joints::{key, sides};
use crate::random::Random;

/// A change's name and the change; where the mesh has no place for it nothing happens.
pub type Damage = (&'static str, fn(&mut Judged, &mut Random));

pub const DAMAGES: &[Damage] = &[
    ("nothing", |_, _| {}),
    ("a corner moved by a unit", |j, r| moved(&mut j.points, r)),
    ("a given point changed in its last bit", |j, r| {
        last_bit(&mut j.given, 3, r)
    }),
    ("a point of both moved", both_moved),
    ("z of the other zero", other_zero),
    ("a quad turned over", |j, r| {
        on(&mut j.quads, r, |q, _| q.reverse())
    }),
    ("a bow-tie", |j, r| on(&mut j.quads, r, |q, _| q.swap(0, 1))),
    ("a node exchanged", exchanged),
    ("two nodes renumbered", renumbered),
    ("a given triangle dropped", |j, r| {
        dropped(&mut j.triangles, r)
    }),
    ("a given triangle twice", |j, r| {
        doubled(&mut j.triangles, r)
    }),
    ("a given triangle turned", |j, r| {
        on(&mut j.triangles, r, |t, _| t.swap(0, 1))
    }),
    ("a leftover triangle dropped", |j, r| {
        dropped(&mut j.left, r)
    }),
    ("a leftover triangle twice", |j, r| doubled(&mut j.left, r)),
    ("a leftover triangle turned", |j, r| {
        on(&mut j.left, r, |t, _| t.swap(0, 1))
    }),
    ("a quad dropped", |j, r| dropped(&mut j.quads, r)),
    ("a quad twice", |j, r| doubled(&mut j.quads, r)),
    ("a quad and its back", back),
    ("a quad split", split),
    ("a triangle more on both sides", more_on_both),
    ("a joint covered", covered),
    ("a point more", |j, r| {
        j.points.push([r.around(), 8.0 * r.around(), 0.0])
    }),
    ("a point less", less),
    ("two points exchanged", exchanged_points),
    ("other limits", limits),
    ("lists in another order", mixed),
];

/// Changes one entry of a list.
fn on<T>(list: &mut [T], r: &mut Random, change: fn(&mut T, &mut Random)) {
    if !list.is_empty() {
        let i = r.below(list.len());
        change(&mut list[i], r);
    }
}

fn dropped<T>(list: &mut Vec<T>, r: &mut Random) {
    if !list.is_empty() {
        list.remove(r.below(list.len()));
    }
}

fn doubled<T: Copy>(list: &mut Vec<T>, r: &mut Random) {
    if !list.is_empty() {
        let (entry, place) = (r.pick(list), r.below(list.len() + 1));
        list.insert(place, entry);
    }
}

/// The next double, either way.
pub fn beside(x: f64, r: &mut Random) -> f64 {
    if r.once_in(2) {
        x.next_up()
    } else {
        x.next_down()
    }
}

fn moved(points: &mut [[f64; 3]], r: &mut Random) {
    on(points, r, |p, r| {
        let k = r.below(2);
        p[k] = beside(p[k], r);
    });
}

/// The last bit of one of the first coordinates.
fn last_bit(points: &mut [[f64; 3]], first: usize, r: &mut Random) {
    if !points.is_empty() {
        let (i, k) = (r.below(points.len()), r.below(first));
        points[i][k] = f64::from_bits(points[i][k].to_bits() ^ 1);
    }
}

/// Both meshes have the point at another place: by a unit, or anywhere near.
fn both_moved(j: &mut Judged, r: &mut Random) {
    let n = j.given.len().min(j.points.len());
    if n == 0 {
        return;
    }
    let (i, k) = (r.below(n), r.below(2));
    let x = j.given[i][k];
    let to = match r.below(3) {
        0 => r.around(),
        _ => beside(x, r),
    };
    j.given[i][k] = to;
    j.points[i][k] = to;
}

fn other_zero(j: &mut Judged, r: &mut Random) {
    on(&mut j.points, r, |p, _| {
        p[2] = if p[2] == 0.0 { -p[2] } else { 0.0 };
    });
}

/// A node of a cell is another one.
fn exchanged(j: &mut Judged, r: &mut Random) {
    let n = j.points.len().min(j.given.len());
    let mut cells: Vec<&mut [u32]> = Vec::new();
    cells.extend(j.quads.iter_mut().map(|q| &mut q[..]));
    cells.extend(j.left.iter_mut().map(|t| &mut t[..]));
    cells.extend(j.triangles.iter_mut().map(|t| &mut t[..]));
    if n == 0 || cells.is_empty() {
        return;
    }
    let cell = r.below(cells.len());
    let to = r.below(n) as u32;
    if !cells[cell].contains(&to) {
        let k = r.below(cells[cell].len());
        cells[cell][k] = to;
    }
}

/// Two node numbers stand for one another in the judged cells.
fn renumbered(j: &mut Judged, r: &mut Random) {
    if j.points.is_empty() {
        return;
    }
    let [a, b] = [0; 2].map(|_: u8| r.below(j.points.len()) as u32);
    let quads = j.quads.as_flattened_mut().iter_mut();
    for v in quads.chain(j.left.as_flattened_mut()) {
        *v = match *v {
            v if v == a => b,
            v if v == b => a,
            v => v,
        };
    }
}

/// A quad once more, and one that runs the other way: the sides balance.
fn back(j: &mut Judged, r: &mut Random) {
    if !j.quads.is_empty() {
        let q = r.pick(&j.quads);
        j.quads.extend([q, [q[3], q[2], q[1], q[0]]]);
    }
}

/// A quad as two triangles.
fn split(j: &mut Judged, r: &mut Random) {
    if !j.quads.is_empty() {
        let mut q = j.quads.remove(r.below(j.quads.len()));
        q.rotate_left(r.below(2));
        j.left.extend([[q[0], q[1], q[2]], [q[0], q[2], q[3]]]);
    }
}

/// Any three nodes, given and left over.
fn more_on_both(j: &mut Judged, r: &mut Random) {
    let n = j.points.len().min(j.given.len());
    if n >= 3 {
        let a = r.below(n);
        let b = (a + 1 + r.below(n - 1)) % n;
        let c = (0..n).find(|c| *c != a && *c != b).unwrap_or(0);
        let t = [a, b, c].map(|v| v as u32);
        j.triangles.insert(r.below(j.triangles.len() + 1), t);
        j.left.insert(r.below(j.left.len() + 1), [t[1], t[0], t[2]]);
    }
}

/// A joint on an edge that only the given triangles have, else on any of theirs.
fn covered(j: &mut Judged, r: &mut Random) {
    let of_quads = j.quads.iter().flat_map(|q| sides(q));
    let has: Vec<_> = of_quads
        .chain(j.left.iter().flat_map(|t| sides(t)))
        .collect();
    let had: Vec<_> = j.triangles.iter().flat_map(|t| sides(t)).map(key).collect();
    let gone: Vec<_> = had.iter().copied().filter(|e| !has.contains(e)).collect();
    let from = if gone.is_empty() { had } else { gone };
    if !from.is_empty() {
        let [u, v] = r.pick(&from);
        let place = r.below(j.joints.len() + 1);
        j.joints.insert(place, r.pick(&[[u, v], [v, u]]));
    }
}

/// The last judged point is gone, with the cells that have it.
fn less(j: &mut Judged, _: &mut Random) {
    j.points.pop();
    let n = j.points.len();
    let known = |cell: &[u32]| cell.iter().all(|&v| (v as usize) < n);
    j.left.retain(|t| known(t));
    j.quads.retain(|q| known(q));
}

fn exchanged_points(j: &mut Judged, r: &mut Random) {
    if !j.points.is_empty() {
        let (a, b) = (r.below(j.points.len()), r.below(j.points.len()));
        j.points.swap(a, b);
    }
}

/// Any number of a range.
pub fn within([low, high]: [f64; 2], r: &mut Random) -> f64 {
    low + (high - low) * r.unit()
}

pub fn limits(j: &mut Judged, r: &mut Random) {
    let (cosine, thin) = (within(COSINES, r), within(THINS, r));
    j.cosine = r.pick(&[0.5, 0.99, 0.7, cosine]);
    j.thin = r.pick(&[0.5, 1.0, 1.0f64.next_down(), 0.9, thin]);
}

/// The same cells: lists in any order, each cell from any of its nodes on, triangles either way.
pub fn mixed(j: &mut Judged, r: &mut Random) {
    r.shuffle(&mut j.triangles);
    r.shuffle(&mut j.left);
    r.shuffle(&mut j.quads);
    r.shuffle(&mut j.joints);
    j.quads.iter_mut().for_each(|q| q.rotate_left(r.below(4)));
    for t in j.triangles.iter_mut().chain(&mut j.left) {
        t.rotate_left(r.below(3));
        if r.once_in(2) {
            t.swap(0, 1);
        }
    }
}
