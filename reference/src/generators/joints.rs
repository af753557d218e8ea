//! Joints of a mesh: edges that it has, edges that only flips make, pairs that are never edges; lines across it, borders, all its edges; lists of every length
//! up to the limit and one more.

use std::collections::BTreeSet;

use crate::input::{Input, MOST_JOINTS};
use crate::random::Random;

type Pair = [u32; 2];

/// The smaller node first.
pub fn key(pair: Pair) -> Pair {
    [pair[0].min(pair[1]), pair[0].max(pair[1])]
}

/// The sides of a cell.
pub fn sides(nodes: &[u32]) -> impl Iterator<Item = Pair> + '_ {
    let next = |i: usize| nodes[(i + 1) % nodes.len()];
    (0..nodes.len()).map(move |i| key([nodes[i], next(i)]))
}

/// The edges of the given triangles.
pub fn edges(input: &Input) -> BTreeSet<Pair> {
    input.triangles.iter().flat_map(|t| sides(t)).collect()
}

/// Joints that are not refused, of an input that is not refused; none where the mesh has no two points.
pub fn good(input: &Input, r: &mut Random) -> Vec<Pair> {
    let given = input.points.len();
    if given < 2 {
        return Vec::new();
    }
    let all: Vec<Pair> = edges(input).into_iter().collect();
    let mut list = match r.below(8) {
        0 => all.clone(),
        1 => some(&all, 1, r),
        2 => line(input, &all, r),
        3 => border(input, r),
        4 => flips(input),
        5 => (0..length(r)).map(|_| apart(given, r)).collect(),
        _ => {
            let few = length(r);
            some(&all, few, r)
        }
    };
    if r.once_in(4) {
        let more = flips(input);
        list.extend(some(&more, 3, r));
        list.extend((0..r.below(3)).map(|_| apart(given, r)));
    }
    r.shuffle(&mut list);
    list.truncate(MOST_JOINTS);
    if r.once_in(3) && !list.is_empty() {
        let most = if r.once_in(4) {
            MOST_JOINTS
        } else {
            list.len() + 3
        };
        while list.len() < most.min(MOST_JOINTS) {
            list.push(r.pick(&list));
        }
    }
    for pair in list.iter_mut().filter(|_| r.once_in(2)) {
        pair.swap(0, 1);
    }
    list
}

/// Joints with a bad pair among them, at any place, or with one too many, or just not so many; some are good.
pub fn doubtful(input: &Input, r: &mut Random) -> Vec<Pair> {
    let given = input.points.len() as u32;
    let mut list = good(input, r);
    if r.once_in(2) {
        let pair = list.last().copied().unwrap_or([0, 1]);
        let most = r.pick(&[0, 1, 1, 44]) + MOST_JOINTS;
        list.resize(most, pair);
    }
    if r.once_in(2) {
        let node = r.below(given as usize + 1) as u32;
        let far = r.pick(&[given, given + 1, u32::MAX, u32::MAX - 1, 4096]);
        let bad = r.pick(&[[node, node], [node, far], [far, node], [far, far]]);
        let any = r.below(list.len() + 1);
        let place = r.pick(&[0, list.len(), any]);
        list.insert(place, bad);
    }
    list
}

/// From one to the most, few more often.
fn length(r: &mut Random) -> usize {
    let most = r.pick(&[2, 4, 16, 64, MOST_JOINTS]);
    r.from_to(1, most)
}

/// So many of the pairs, or all.
fn some(pairs: &[Pair], count: usize, r: &mut Random) -> Vec<Pair> {
    let mut list = pairs.to_vec();
    r.shuffle(&mut list);
    list.truncate(count);
    list
}

/// Two nodes, neighbours or not.
fn apart(given: usize, r: &mut Random) -> Pair {
    let a = r.below(given);
    let b = (a + 1 + r.below(given - 1)) % given;
    [a as u32, b as u32]
}

/// A line across the mesh: from an edge on, at each node the edge that goes on most straight, as far as one goes on at all.
fn line(input: &Input, all: &[Pair], r: &mut Random) -> Vec<Pair> {
    if all.is_empty() {
        return Vec::new();
    }
    let at = |v: u32| input.points[v as usize].map(f64::from_bits);
    let way = |a: u32, b: u32| [at(b)[0] - at(a)[0], at(b)[1] - at(a)[1]];
    let mut list = vec![r.pick(all)];
    let [mut before, mut here] = list[0];
    while list.len() < MOST_JOINTS {
        let u = way(before, here);
        let cosine = |pair: &Pair| {
            let other = if pair[0] == here { pair[1] } else { pair[0] };
            let v = way(here, other);
            let lengths = u[0].hypot(u[1]) * v[0].hypot(v[1]);
            ((u[0] * v[0] + u[1] * v[1]) / lengths, other)
        };
        let ways = all.iter().filter(|p| p.contains(&here)).map(cosine);
        let best = ways
            .filter(|w| w.0 > 0.5 && !list.contains(&key([here, w.1])))
            .max_by(|a, b| a.0.total_cmp(&b.0));
        let Some((_, other)) = best else {
            break;
        };
        list.push(key([here, other]));
        (before, here) = (here, other);
    }
    list
}

/// The border between two surfaces: the edges between triangles on either side of a straight line.
fn border(input: &Input, r: &mut Random) -> Vec<Pair> {
    let at = |v: u32| input.points[v as usize].map(f64::from_bits);
    let middle = at(r.below(input.points.len()) as u32);
    let (a, b) = (r.around(), r.around());
    let side = |t: &[u32; 3]| {
        let sum = |k: usize| t.iter().map(|&v| at(v)[k] - middle[k]).sum::<f64>();
        a * sum(0) + b * sum(1) > 0.0
    };
    let of = |on: bool| -> BTreeSet<Pair> {
        let own = input.triangles.iter().filter(|t| side(t) == on);
        own.flat_map(|t| sides(t)).collect()
    };
    of(true).intersection(&of(false)).copied().collect()
}

/// The pairs that a flip of an edge would make edges, and that are none.
fn flips(input: &Input) -> Vec<Pair> {
    let have = edges(input);
    let mut made = BTreeSet::new();
    for (i, t) in input.triangles.iter().enumerate() {
        for s in &input.triangles[..i] {
            let off = |a: &[u32; 3], b: &[u32; 3]| a.iter().copied().find(|v| !b.contains(v));
            let common = t.iter().filter(|v| s.contains(v)).count();
            if let (2, Some(p), Some(q)) = (common, off(t, s), off(s, t)) {
                made.insert(key([p, q]));
            }
        }
    }
    made.difference(&have).copied().collect()
}

#[test]
fn good_joints_are_good_and_doubtful_ones_are_both() {
    use crate::generators::{of_case, TEXT};
    use crate::input::LARGEST;
    let (mut lengths, mut refused, mut tried) = (BTreeSet::new(), 0, 0);
    for case in 0..6_000 {
        let mut r = Random::new(3, case);
        let mut input = of_case(None, case).1(&mut r, &TEXT);
        if input.refusal(LARGEST).is_some() {
            continue;
        }
        input.joints = good(&input, &mut r);
        lengths.insert(input.joints.len());
        assert_eq!(input.refusal(LARGEST), None);
        input.joints = doubtful(&input, &mut r);
        lengths.insert(input.joints.len());
        tried += 1;
        refused += (input.refusal(LARGEST) == Some(13)) as usize;
    }
    let missing: Vec<usize> = (0..=257).filter(|n| !lengths.contains(n)).collect();
    assert!(missing.iter().all(|n| (64..255).contains(n)), "{missing:?}");
    assert!(
        refused > tried / 2 && refused < tried,
        "{refused} of {tried}"
    );
}
