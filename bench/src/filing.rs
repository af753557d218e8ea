//! Times of the filing order and of Rust's `sort_unstable` over the same keys, points compared and triangles rotated in both: two meshes of 4,096 points and
//! triangles whose difference is in the last triangle of the filed list.

use std::cmp::Ordering;
use std::hint::black_box;

use reference::random::Random;
use sedgepick::lent::{self, Lent, FILING_WORK};

use crate::clock;

const COUNT: usize = 4096;
const RUNS: usize = 400;

/// A triangle from its smallest node on.
fn rotated(t: &[u32]) -> [u32; 3] {
    let [a, b, c] = [t[0], t[1], t[2]];
    if a <= b && a <= c {
        [a, b, c]
    } else if b <= c {
        [b, c, a]
    } else {
        [c, a, b]
    }
}

/// 12 binary digits a node.
fn key(t: &[u32]) -> u64 {
    rotated(t).iter().fold(0, |k, &n| k << 12 | n as u64)
}

fn rust(points: [&[f64]; 2], triangles: [&[u32]; 2], keys: &mut [Vec<u64>; 2]) -> Ordering {
    for (p, q) in points[0].chunks_exact(3).zip(points[1].chunks_exact(3)) {
        match (p[0], p[1]).partial_cmp(&(q[0], q[1])) {
            Some(Ordering::Equal) => {}
            other => return other.expect("no NaN"),
        }
    }
    for (keys, triangles) in keys.iter_mut().zip(triangles) {
        keys.clear();
        keys.extend(triangles.chunks_exact(3).map(key));
        keys.sort_unstable();
    }
    keys[0].cmp(&keys[1])
}

/// The least processor time of so many calls, in microseconds.
fn best(mut call: impl FnMut() -> Ordering) -> (f64, Ordering) {
    let mut least = f64::INFINITY;
    let mut answer = Ordering::Equal;
    for _ in 0..RUNS {
        let start = clock();
        answer = black_box(call());
        least = least.min(clock() - start);
    }
    (1e6 * least, answer)
}

/// The list with its last triangle, as filed, turned over.
fn turned(list: &[[u32; 3]]) -> Vec<[u32; 3]> {
    let mut list = list.to_vec();
    let last = list.iter_mut().max_by_key(|t| key(*t)).expect("a triangle");
    last.swap(1, 2);
    list
}

fn row(name: &str, points: &[f64], first: &[[u32; 3]], second: &[[u32; 3]]) {
    let (s, t) = (first.as_flattened(), second.as_flattened());
    let mut keys = [Vec::new(), Vec::new()];
    let (slow, answer) = best(|| rust([points; 2], [s, t], &mut keys));
    let mut work = [0; 2].map(|_: u32| vec![7; FILING_WORK * COUNT]);
    let (port, same) = best(|| {
        let [v, w] = &mut work;
        let lend = |triangles, work| Lent {
            points,
            triangles,
            work,
            given: COUNT,
            count: COUNT,
        };
        lent::filing_order(lend(s, v), lend(t, w)).expect("both pass")
    });
    assert_eq!(answer, same, "the order");
    println!("| {name} | {slow:.0} | {port:.0} | {:.2} |", port / slow);
}

pub fn run() {
    let mut r = Random::new(1, 0);
    let points: Vec<f64> = (0..3 * COUNT).map(|_| 8.0 * r.around()).collect();
    let mut any: Vec<[u32; 3]> = (0..COUNT)
        .map(|_| {
            let a = r.below(COUNT);
            let (b, c) = (a + 1 + r.below(2000), a + 2001 + r.below(2000));
            [a, b, c].map(|n| (n % COUNT) as u32)
        })
        .collect();
    println!("| triangles listed | Rust, us | port, us | port / Rust |");
    println!("|---|---|---|---|");
    let mut other = turned(&any);
    r.shuffle(&mut other);
    row("in any order", &points, &any, &other);
    any.sort_by_key(|t| key(t));
    row("ascending", &points, &any, &turned(&any));
    any.reverse();
    row("descending", &points, &any, &turned(&any));
    let mut grid: Vec<[u32; 3]> = (0..COUNT as u32 / 2)
        .map(|i| i / 62 * 63 + i % 62)
        .flat_map(|a| [[a, a + 1, a + 64], [a + 64, a + 63, a]])
        .collect();
    row("as a grid's rows", &points, &grid, &turned(&grid));
    r.shuffle(&mut grid);
    row("a grid in any order", &points, &grid, &turned(&grid));
    let few: Vec<[u32; 3]> = (0..COUNT).map(|_| r.pick(&grid[..16])).collect();
    row("16 triangles, repeated", &points, &few, &turned(&few));
}
