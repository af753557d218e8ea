//! Lists of cells that no mesher makes: covers that wind twice or lie upon one another, and any node numbers at all.

use super::Judged;
use crate::accept::MOST;
use crate::random::Random;

/// The quad of two triangles that share an edge, around it; `None` where they share none or all nodes.
pub fn united(s: &[u32; 3], t: &[u32; 3]) -> Option<[u32; 4]> {
    let k = (0..3).find(|&k| !t.contains(&s[k]))?;
    let (a, b, c) = (s[k], s[(k + 1) % 3], s[(k + 2) % 3]);
    let off = t.iter().find(|v| !s.contains(v))?;
    (t.contains(&b) && t.contains(&c)).then_some([a, b, *off, c])
}

/// A point of a small lattice, so that places coincide and corners are flat.
fn on_lattice(r: &mut Random) -> [f64; 2] {
    [0; 2].map(|_: u8| r.below(4) as f64 - 1.0)
}

/// So many different node numbers.
fn nodes<const N: usize>(below: usize, r: &mut Random) -> [u32; N] {
    let mut all: Vec<u32> = (0..below as u32).collect();
    r.shuffle(&mut all);
    std::array::from_fn(|k| all[k])
}

/// A few points and any cells on them; half of the times the judged triangles are the given ones, turned and in another order.
pub fn any(r: &mut Random) -> Judged {
    let mut j = Judged::default();
    for _ in 0..r.from_to(4, 8) {
        let p = match r.below(4) {
            0 => [r.around(), r.around()],
            _ => on_lattice(r),
        };
        j.point(p, r);
    }
    let n = j.given.len();
    j.triangles = (0..r.below(6)).map(|_| nodes(n, r)).collect();
    if r.once_in(2) {
        j.left = j.triangles.clone();
        r.shuffle(&mut j.left);
        for t in &mut j.left {
            *t = r.pick(&[*t, [t[1], t[2], t[0]], [t[1], t[0], t[2]]]);
        }
    } else {
        j.left = (0..r.below(6)).map(|_| nodes(n, r)).collect();
        j.quads = (0..r.below(4)).map(|_| nodes(n, r)).collect();
    }
    j.joints = (0..r.below(5)).map(|_| nodes(n, r)).collect();
    j.points.truncate(n - r.below(2) * r.below(2));
    let known = |cell: &[u32]| cell.iter().all(|&v| (v as usize) < j.points.len());
    j.left.retain(|t| known(t));
    j.quads.retain(|q| known(q));
    j.thin = r.pick(&[1.0, 0.75, 0.5]);
    j.cosine = r.pick(&[0.5, 0.75, 0.99]);
    j
}

/// A ring of nodes around a middle node, gone round `turns` times; its triangles are made quads two by two. Once in a while with a second cover on the same or on
/// other nodes.
pub fn wound(r: &mut Random) -> Judged {
    let mut j = Judged::default();
    let (around, turns) = (r.from_to(3, 12), r.from_to(1, 3));
    let middle = j.point([0.0, 0.0], r);
    let size = r.pick(&[7.0, 1.0, 1e-3, 1e-200]);
    for k in 0..around {
        let way = std::f64::consts::TAU * (turns * k) as f64 / around as f64;
        let far = size * (1.0 + 0.1 * r.unit());
        j.point([far * way.cos(), far * way.sin()], r);
    }
    let node = |k: usize| 1 + (k % around) as u32;
    let fan: Vec<[u32; 3]> = (0..around)
        .map(|k| [middle, node(k), node(k + 1)])
        .collect();
    for _ in 0..r.from_to(1, 2) {
        j.triangles.extend(&fan);
        let pairs = fan.chunks(2);
        for pair in pairs {
            match pair {
                [s, t] if !r.once_in(4) => j.quads.extend(united(s, t)),
                _ => j.left.extend(pair),
            }
        }
    }
    j.thin = r.pick(&[1.0, 1.0, 0.95]);
    j.cosine = r.pick(&[0.9, 0.99]);
    j
}

/// A mesh whose nodes have other numbers, far apart, among points that no cell has.
pub fn spread(j: &Judged, r: &mut Random) -> Judged {
    let n = match r.below(1000) {
        0 => MOST,
        1..=20 => r.pick(&[65_536, 65_537, 70_000]),
        21..=99 => 5_000,
        _ => 300,
    };
    let mut out = j.clone();
    let k = j.given.len();
    if k == 0 || k > n || j.points.len() > n {
        return out;
    }
    let (first, step) = (r.below(n), odd_step(n, r));
    let number = |v: u32| ((first + v as usize * step) % n) as u32;
    out.given = vec![[0.25, -0.5, 0.0]; n];
    out.points = out.given.clone();
    for (v, p) in j.given.iter().enumerate() {
        out.given[number(v as u32) as usize] = *p;
    }
    for (v, p) in j.points.iter().enumerate() {
        out.points[number(v as u32) as usize] = *p;
        if v >= k {
            out.given[number(v as u32) as usize] = *p;
        }
    }
    out.triangles
        .as_flattened_mut()
        .iter_mut()
        .for_each(|v| *v = number(*v));
    out.quads
        .as_flattened_mut()
        .iter_mut()
        .for_each(|v| *v = number(*v));
    out.left
        .as_flattened_mut()
        .iter_mut()
        .for_each(|v| *v = number(*v));
    out.joints
        .as_flattened_mut()
        .iter_mut()
        .for_each(|v| *v = number(*v));
    out
}

/// A step that meets every number below `n` once.
fn odd_step(n: usize, r: &mut Random) -> usize {
    let common = |mut a: usize, mut b: usize| {
        while b > 0 {
            (a, b) = (b, a % b);
        }
        a
    };
    loop {
        let step = r.from_to(1, n);
        if common(step, n) == 1 {
            return step;
        }
    }
}
