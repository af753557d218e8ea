//! Pairs of nodes that are asked for: front edges, and such as are none.

use std::collections::BTreeMap;

use reference::generators::joints::sides;
use reference::input::Input;
use reference::random::Random;

pub type Pair = (usize, usize);

/// Up to so many triangles every front edge is asked for.
const SMALL: usize = 40;

/// Front edges that are asked for in a larger mesh.
const SOME: usize = 6;

/// Pairs of each sort beside them.
const BESIDE: usize = 2;

/// Bucket entries of the reference's meshes, one built for each pair: where there are more, fewer pairs are asked for.
const ENTRIES: f64 = 2e6;

/// The least number of pairs.
const LEAST: usize = 4;

/// The pairs of a mesh.
pub fn pairs(input: &Input, r: &mut Random) -> Vec<Pair> {
    let (mut front, inner) = edges(input);
    if input.triangles.len() > SMALL {
        r.shuffle(&mut front);
        front.truncate(SOME);
    }
    let mut beside = Vec::new();
    for _ in 0..BESIDE {
        beside.push(apart(input, r));
        beside.push(twice(input, r));
        beside.push(nameless(input, &front, r));
        if !inner.is_empty() {
            beside.push(r.pick(&inner));
        }
    }
    let mut all = [front, beside].concat();
    let most = (ENTRIES / entries(input)) as usize;
    if all.len() > most.max(LEAST) {
        r.shuffle(&mut all);
        all.truncate(most.max(LEAST));
    }
    all
}

/// Pairs for a mesh that is refused.
pub fn any(input: &Input, r: &mut Random) -> Vec<Pair> {
    let nodes: Vec<usize> = input.tris().as_flattened().to_vec();
    let side = match nodes[..] {
        [u, v, ..] => (u, v),
        _ => (0, 1),
    };
    vec![side, nameless(input, &[side], r)]
}

/// The edges that one triangle has, and those that several have.
fn edges(input: &Input) -> (Vec<Pair>, Vec<Pair>) {
    let mut owners: BTreeMap<Pair, usize> = BTreeMap::new();
    for [u, v] in input.triangles.iter().flat_map(|t| sides(t)) {
        *owners.entry((u as usize, v as usize)).or_default() += 1;
    }
    let (front, inner): (Vec<_>, Vec<_>) = owners.into_iter().partition(|&(_, n)| n == 1);
    let keys = |list: Vec<(Pair, usize)>| list.into_iter().map(|e| e.0).collect();
    (keys(front), keys(inner))
}

/// Two nodes, mostly without an edge.
fn apart(input: &Input, r: &mut Random) -> Pair {
    let given = input.points.len().max(1);
    (r.below(given), r.below(given))
}

/// One node twice, of the mesh or not.
fn twice(input: &Input, r: &mut Random) -> Pair {
    let node = r.below(input.points.len() + 2);
    let node = r.pick(&[node, node, usize::MAX]);
    (node, node)
}

/// Numbers that name no point: just behind the given ones, as large as they come, and such as are front edges in their low half.
fn nameless(input: &Input, front: &[Pair], r: &mut Random) -> Pair {
    let given = input.points.len();
    let (u, v) = match front {
        [] => (0, 1),
        _ => r.pick(front),
    };
    let high = r.pick(&[1 << 32, 1 << 63, 7 << 40]);
    let behind = given + r.below(4);
    let wide = r.bits() as usize | 1 << 62;
    let far = r.pick(&[usize::MAX, usize::MAX - 1, u32::MAX as usize, wide]);
    r.pick(&[
        (u, given),
        (u, behind),
        (behind, v),
        (u, far),
        (far, v),
        (far, wide),
        (u + high, v),
        (u, v + high),
        (u + high, v + high),
    ])
}

/// Entries of the reference's buckets, about.
fn entries(input: &Input) -> f64 {
    let size = input.size();
    let bucket = if size > 1e-9 { size } else { 1.0 };
    let points = input.nodes();
    let over = |u: u32, v: u32, k: usize| {
        let by = points[u as usize][k] - points[v as usize][k];
        (by / bucket).abs() + 1.0
    };
    let boxes = input.triangles.iter().flat_map(|t| sides(t));
    boxes.map(|[u, v]| over(u, v, 0) * over(u, v, 1)).sum()
}
