//! What holds of every finished run: the account, in floats where it
//! speaks of exact arithmetic, the trials, the births of quads, that joints are kept, and
//! the area of the grid profile.

use std::collections::BTreeSet;

use crate::generators::joints::{edges, key, sides};
use crate::input::{Input, Lent, GRID, UNBOUNDED};
use crate::patched::{FrontResult, Quality, STANDARD};
use crate::random::Random;

/// Sizes of the components, descending: triangles with two nodes in common belong
/// together.
pub fn components(tris: &[[usize; 3]]) -> Vec<usize> {
    let mut class: Vec<usize> = (0..tris.len()).collect();
    for i in 0..tris.len() {
        for j in 0..i {
            let common = tris[i].iter().filter(|v| tris[j].contains(v)).count();
            if common >= 2 && class[i] != class[j] {
                let (keep, drop) = (class[j], class[i]);
                class
                    .iter_mut()
                    .filter(|c| **c == drop)
                    .for_each(|c| *c = keep);
            }
        }
    }
    let mut sizes: Vec<usize> = (0..tris.len())
        .map(|k| class.iter().filter(|&&c| c == k).count())
        .filter(|&n| n > 0)
        .collect();
    sizes.sort_unstable_by(|a, b| b.cmp(a));
    sizes
}

/// Panics where a finished run does not keep its account.
pub fn check(input: &Input, r: &FrontResult) {
    check_within(input, r, input.usual_limit());
}

/// The same of a run with this limit on attempts.
pub fn check_within(input: &Input, r: &FrontResult, limit: usize) {
    let c = &r.refusals;
    let refused = c.placement + c.invalid_quad + c.recovery + c.region + c.odd_region;
    assert_eq!(c.attempts, r.quads.len() + refused + c.limit, "attempts");
    assert!(c.limit <= 1 && c.front_empty <= 1, "limit, front_empty");
    check_trials(input, r, limit);
    assert_eq!(
        r.points.len(),
        input.points.len() + c.mismatch_insertions,
        "points"
    );
    for (given, kept) in input.points.iter().zip(&r.points) {
        assert_eq!(*given, kept.map(f64::to_bits), "a given point");
    }
    for added in &r.points[input.points.len()..] {
        assert!(
            added[0].abs() <= 8.0 && added[1].abs() <= 8.0,
            "an added point"
        );
        assert_eq!(added[2].to_bits(), 0, "an added z");
    }
    r.quads
        .iter()
        .for_each(|q| check_quad(r, &input.quality, q));
    check_births(input, r);
    assert_eq!(r.region_components, components(&r.triangles), "components");
    assert_eq!(
        r.region_components.iter().sum::<usize>(),
        r.triangles.len(),
        "sizes"
    );
    assert_eq!(lost(input, r), 0, "joints");
    if input.grid != 0 {
        assert_eq!(c.mismatch_insertions, 0, "a point added in the profile");
        let (before, after) = areas(input, r);
        assert_eq!(before, after, "the area of the profile");
    }
    let even = |sizes: &[usize]| sizes.iter().all(|n| n % 2 == 0);
    if input.even() && (!r.quads.is_empty() || even(&components(&input.tris()))) {
        assert!(even(&r.region_components), "even components");
    }
}

/// Convex and counterclockwise; no corner's cosine above the set's cosine plus 1e-9,
/// which for the standard set is no corner under 24.99 degrees;
/// the sine at no corner below the set's Jacobian but for rounding.
fn check_quad(r: &FrontResult, set: &Quality, quad: &[usize; 4]) {
    for k in 0..4 {
        let at = |i: usize| r.points[quad[(k + i) % 4]];
        let (here, next, before) = (at(0), at(1), at(3));
        let u = [next[0] - here[0], next[1] - here[1]];
        let v = [before[0] - here[0], before[1] - here[1]];
        assert!(u[0] * v[1] - u[1] * v[0] > 5e-13, "a corner's turn");
        let dot = u[0] * v[0] + u[1] * v[1];
        let squares = (u[0] * u[0] + u[1] * u[1]) * (v[0] * v[0] + v[1] * v[1]);
        let most = set.largest_cosine + 1e-9;
        let most = if *set == STANDARD { 0.90638 } else { most };
        assert!(
            dot <= 0.0 || dot * dot <= most * most * squares,
            "a corner's angle"
        );
        let sine = (u[0] * v[1] - u[1] * v[0]) / squares.sqrt();
        assert!(sine >= set.least_jacobian - 1e-4, "a corner's Jacobian");
    }
}

/// An attempt that placed a quad, or was refused after its pairs, tried one at least and the set's
/// number at most; any other tried none. The limit on attempts lets all but the last be made.
fn check_trials(input: &Input, r: &FrontResult, limit: usize) {
    let c = &r.refusals;
    let with_pairs = r.quads.len() + c.recovery + c.region + c.odd_region;
    assert!(with_pairs <= c.trials, "an attempt without its trial");
    assert!(
        c.trials <= input.quality.pairs * with_pairs,
        "more trials than pairs"
    );
    assert!(c.attempts - c.limit <= limit, "attempts over the limit");
    if c.limit == 1 {
        let by_triangles = r.triangles.len() > 4 * input.triangles.len() + 100;
        assert!(
            by_triangles || c.attempts == limit + 1,
            "the limit's attempts"
        );
    }
}

/// Each quad grew from the edge between its first two nodes, the first in round 1, the next in
/// round 2, and so on; the triangles left are the given ones and two for each insertion, less
/// those that quads replaced.
fn check_births(input: &Input, r: &FrontResult) {
    assert_eq!(r.births.len(), r.quads.len(), "births");
    for (k, (quad, birth)) in r.quads.iter().zip(&r.births).enumerate() {
        let edge = (quad[0].min(quad[1]), quad[0].max(quad[1]));
        assert_eq!(birth.edge, edge, "a quad's edge");
        assert_eq!(birth.round, k + 1, "a quad's round");
        assert!(birth.replaced > 0, "a quad in place of nothing");
    }
    let replaced: usize = r.births.iter().map(|b| b.replaced).sum();
    assert_eq!(
        r.triangles.len() + replaced,
        input.triangles.len() + 2 * r.refusals.mismatch_insertions,
        "left over"
    );
}

/// Twice the summed areas of the given triangles and of the cells that came back, each without sign, in squares of the grid; the points are on it.
pub fn areas(input: &Input, r: &FrontResult) -> (u128, u128) {
    let whole = |x: f64| (GRID * x) as i128;
    let twice = |nodes: &[usize]| {
        let at = |i: usize| r.points[nodes[i % nodes.len()]].map(whole);
        let part = |i: usize| at(i)[0] * at(i + 1)[1] - at(i + 1)[0] * at(i)[1];
        (0..nodes.len()).map(part).sum::<i128>().unsigned_abs()
    };
    let left: u128 = r.triangles.iter().map(|t| twice(t)).sum();
    let quads: u128 = r.quads.iter().map(|q| twice(q)).sum();
    (input.tris().iter().map(|t| twice(t)).sum(), left + quads)
}

/// The edges of the finished mesh.
fn edges_left(r: &FrontResult) -> BTreeSet<[u32; 2]> {
    let narrow = |nodes: &[usize]| nodes.iter().map(|&v| v as u32).collect::<Vec<_>>();
    let quads = r.quads.iter().map(|q| narrow(q));
    let cells = quads.chain(r.triangles.iter().map(|t| narrow(t)));
    cells.flat_map(|c| sides(&c).collect::<Vec<_>>()).collect()
}

/// The joints that the given triangles have as edges, each once.
pub fn standing(input: &Input) -> BTreeSet<[u32; 2]> {
    let listed: BTreeSet<[u32; 2]> = input.joints.iter().map(|j| key(*j)).collect();
    listed.intersection(&edges(input)).copied().collect()
}

/// How many of them the finished mesh has not; with the joints handed in, none.
pub fn lost(input: &Input, r: &FrontResult) -> usize {
    if input.joints.is_empty() {
        return 0;
    }
    let left = edges_left(r);
    standing(input).difference(&left).count()
}

/// Slots that a finished run used: its triangles, two a split, one a quad.
pub fn slots_used(input: &Input, r: &FrontResult) -> usize {
    input.triangles.len() + 2 * r.refusals.mismatch_insertions + r.quads.len()
}

/// Tries some capacities on an input whose unbounded run is `full`: with enough the
/// run is the same, with less it is refused and has gone as far as it could. Says
/// how many runs were made.
pub fn check_lent(input: &Input, full: &FrontResult, r: &mut Random) -> usize {
    let (given, tris) = (input.points.len(), input.triangles.len());
    let (points, slots) = (full.points.len(), slots_used(input, full));
    let mut tried = vec![Lent { points, slots }];
    for _ in 0..3 {
        let points = r.from_to(given, points);
        let slots = r.from_to(tris, slots);
        tried.push(Lent {
            points,
            ..UNBOUNDED
        });
        tried.push(Lent { slots, ..UNBOUNDED });
        tried.push(Lent { points, slots });
    }
    for lent in &tried {
        let short = input.run_unchecked(*lent);
        check_short(full, &short, *lent, points, slots);
    }
    tried.len()
}

fn check_short(full: &FrontResult, short: &FrontResult, lent: Lent, points: usize, slots: usize) {
    let enough = lent.points >= points && lent.slots >= slots;
    assert_eq!(
        short.refused.is_none(),
        enough,
        "a refusal without need, or none"
    );
    assert!(full.quads.starts_with(&short.quads), "quads so far");
    assert!(full.births.starts_with(&short.births), "births so far");
    assert_eq!(short.quads.len(), short.births.len(), "a quad's birth");
    let bits = |r: &FrontResult| {
        r.points
            .iter()
            .map(|p| p.map(f64::to_bits))
            .collect::<Vec<_>>()
    };
    assert!(bits(full).starts_with(&bits(short)), "points so far");
    match short.refused {
        None => assert_eq!(full.triangles, short.triangles, "triangles"),
        Some(8) => assert_eq!(short.points.len(), lent.points, "8 with points free"),
        _ => assert!(lent.slots < slots, "9 with slots free"),
    }
}
