//! Every list of one to three different triangles on 3, 4 or 5 points, meshed in 128 settings;
//! the hashes that the crate `acceptance` holds.

use crate::input::{Input, Lent};
use crate::records::{counts, records, WORDS};

type Triangle = [u32; 3];

/// Five points to a position; three and four points are the first of them.
const POSITIONS: [[[f64; 2]; 5]; 8] = [
    // a square and its centre
    [[0.0, 0.0], [1.0, 0.0], [1.0, 1.0], [0.0, 1.0], [0.5, 0.5]],
    // the square in another order, and a point off its centre
    [[0.0, 0.0], [1.0, 0.0], [0.0, 1.0], [1.0, 1.0], [0.5, 0.25]],
    // a pentagon
    [
        [1.0, 0.0],
        [0.3125, 0.9375],
        [-0.8125, 0.5625],
        [-0.8125, -0.5625],
        [0.3125, -0.9375],
    ],
    // a strip
    [
        [0.0, 0.0],
        [0.5, 0.875],
        [1.0, 0.0],
        [1.5, 0.875],
        [2.0, 0.0],
    ],
    // a trapezoid, with a point on its longer side
    [[0.0, 0.0], [2.0, 0.0], [1.5, 1.0], [0.5, 1.0], [1.0, 0.0]],
    // two points alike
    [[0.0, 0.0], [1.0, 0.0], [1.0, 1.0], [1.0, 1.0], [0.0, 1.0]],
    // on a line
    [[0.0, 0.0], [0.5, 0.25], [1.0, 0.5], [1.5, 0.75], [2.0, 1.0]],
    // the corners of the largest square, and its centre
    [
        [-8.0, -8.0],
        [8.0, -8.0],
        [8.0, 8.0],
        [-8.0, 8.0],
        [0.0, 0.0],
    ],
];

const SIZES: [f64; 4] = [0.0, 0.25, 1.0, 3.0];

/// Enough for every run here, and too little for some.
const LENT: [Lent; 2] = [
    Lent {
        points: 24,
        slots: 48,
    },
    Lent {
        points: 8,
        slots: 9,
    },
];

/// What a lent slice holds beforehand; no node has this number.
const UNUSED: u64 = u32::MAX as u64;

/// By sets: every set of one to three triangles, sorted by length and then by node numbers.
fn lists(points: u32) -> Vec<Vec<Triangle>> {
    let mut triangles = Vec::new();
    for c in 0..points {
        for b in 0..c {
            triangles.extend((0..b).map(|a| [a, b, c]));
        }
    }
    triangles.sort();
    let chosen = |set: &u32| {
        let has = |i: &usize| set >> i & 1 == 1;
        let places = (0..triangles.len()).filter(has);
        places.map(|i| triangles[i]).collect()
    };
    let few = |set: &u32| (1..=3).contains(&set.count_ones());
    let mut all: Vec<Vec<Triangle>> = (0..1u32 << triangles.len())
        .filter(few)
        .map(|s| chosen(&s))
        .collect();
    all.sort_by_key(|list| (list.len(), list.clone()));
    all
}

/// A point's bits; z is 0.
fn bits(p: &[f64; 2]) -> [u64; 3] {
    [p[0].to_bits(), p[1].to_bits(), 0]
}

/// The list at a position.
fn mesh(list: &[Triangle], points: u32, position: &[[f64; 2]], size: f64, stop: u32) -> Input {
    Input {
        size: size.to_bits(),
        stop,
        triangles: list.to_vec(),
        points: position[..points as usize].iter().map(bits).collect(),
        ..Input::default()
    }
}

/// A list at the front of a slice: the entries past it stay.
fn onto(slice: &mut [u64], list: impl Iterator<Item = u64>) {
    slice.iter_mut().zip(list).for_each(|(old, new)| *old = new);
}

/// What a call returns, as numbers: the refusal, 0 where there is none, the counts, the lengths,
/// the trials; then the whole slices at exit: quads, triangles, components, points. They are lent for as much
/// as `LENT[0]` says; the points of the position come first in theirs.
fn returned(input: &Input, position: &[[f64; 2]], lent: Lent) -> Vec<u64> {
    let most = LENT[0];
    let mut quads = vec![UNUSED; WORDS * most.slots];
    let mut triangles = vec![UNUSED; 3 * most.slots];
    let mut components = vec![UNUSED; most.slots];
    let mut points = vec![0; 3 * most.points];
    onto(&mut points, position.iter().flat_map(bits));
    let mut head = vec![0; 15];
    if let Some(number) = input.refusal(lent) {
        head[0] = number as u64;
    } else {
        let r = input.run_unchecked(lent);
        let wide = |&n: &usize| n as u64;
        onto(&mut quads, records(&r).iter().flatten().map(wide));
        onto(&mut points, r.points.iter().flatten().map(|x| x.to_bits()));
        if let Some(number) = r.refused {
            head[0] = number as u64;
        } else {
            onto(&mut head[1..], counts(&r).iter().map(wide));
            onto(&mut triangles, r.triangles.iter().flatten().map(wide));
            onto(&mut components, r.region_components.iter().map(wide));
        }
    }
    [head, quads, triangles, components, points].concat()
}

/// Where a hash starts.
const BASIS: u64 = 0xcbf29ce484222325;

/// FNV-1a with a step for each number instead of each byte, from a hash on.
fn hash_on(from: u64, numbers: &[u64]) -> u64 {
    let step = |h: u64, n: &u64| (h ^ n).wrapping_mul(0x100000001b3);
    numbers.iter().fold(from, step)
}

/// The hash of all answers to a list, one after the other.
fn list_hash(list: &[Triangle], points: u32) -> u64 {
    let mut hash = BASIS;
    for position in &POSITIONS {
        for size in SIZES {
            for stop in [0, 1] {
                for lent in LENT {
                    let input = mesh(list, points, position, size, stop);
                    hash = hash_on(hash, &returned(&input, position, lent));
                }
            }
        }
    }
    hash
}

/// A line `POINTS PLACE HASH` for each list.
fn lines() -> Vec<String> {
    let mut out = Vec::new();
    for points in 3..=5 {
        for (place, list) in lists(points).iter().enumerate() {
            out.push(format!("{points} {place} {:016x}", list_hash(list, points)));
        }
    }
    out
}

/// Prints the line of each list.
pub fn print() -> std::io::Result<()> {
    lines().iter().for_each(|line| println!("{line}"));
    Ok(())
}

/// As many as the paper says.
#[test]
fn as_many_lists() {
    assert_eq!([3, 4, 5].map(|n| lists(n).len()), [1, 14, 175]);
}

/// The hashes that `acceptance` holds are these, in this order.
#[test]
fn acceptance_holds_the_hashes() {
    let path = concat!(
        env!("CARGO_MANIFEST_DIR"),
        "/../crates/acceptance/src/stored.rt"
    );
    let code = std::fs::read_to_string(path).unwrap();
    let held: Vec<&str> = code.split("0x").skip(1).map(|rest| &rest[..16]).collect();
    let made = lines();
    let made: Vec<&str> = made.iter().map(|l| l.rsplit(' ').next().unwrap()).collect();
    assert_eq!(held, made);
}
