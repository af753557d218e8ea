//! Calls that meet a refusal, or just do not: every condition at its boundary, alone and with another.

use super::{Judged, FORMS};
use crate::accept::{Handed, Lent, COSINES, MOST, NUMBERS, THINS};
use crate::random::Random;

/// Longer lists than any that are made.
const LONG: usize = 10_000;

type Change = fn(&mut Handed, &mut Random);

const CHANGES: &[Change] = &[
    over, cosine, thin, stated, unknown, twice, far, far, joint, joint,
];

/// The mesh with one of the conditions, now and then with two.
pub fn all(j: &Judged, r: &mut Random) -> Vec<Handed> {
    let one = |r: &mut Random| {
        let mut h = j.handed();
        for _ in 0..=r.below(3) / 2 {
            r.pick(CHANGES)(&mut h, r);
        }
        h
    };
    (0..FORMS).map(|_| one(r)).collect()
}

/// One of the numbers stated.
fn number<'a>(h: &'a mut Handed, r: &mut Random) -> &'a mut usize {
    match r.below(6) {
        0 => &mut h.given,
        1 => &mut h.count,
        2 => &mut h.point_count,
        3 => &mut h.quad_count,
        4 => &mut h.left_count,
        _ => &mut h.joint_count,
    }
}

fn over(h: &mut Handed, r: &mut Random) {
    *number(h, r) = r.pick(&[MOST, MOST + 1, MOST + 1, usize::MAX, 1 << 32]);
}

/// At a bound of the range, a unit beyond it, or nowhere near.
fn around([low, high]: [f64; 2], r: &mut Random) -> f64 {
    let others = [f64::NAN, f64::INFINITY, -low, 0.0, -f64::NAN];
    let other = r.pick(&others);
    r.pick(&[low, high, low.next_down(), high.next_up(), other])
}

fn cosine(h: &mut Handed, r: &mut Random) {
    h.cosine = around(COSINES, r);
}

fn thin(h: &mut Handed, r: &mut Random) {
    h.thin = around(THINS, r);
}

/// One more or one less than there are.
fn stated(h: &mut Handed, r: &mut Random) {
    let n = number(h, r);
    *n = r.pick(&[n.saturating_add(1), n.saturating_sub(1)]);
}

/// A node number at its bound, of a given or a judged cell.
fn unknown(h: &mut Handed, r: &mut Random) {
    let (list, bound) = match r.below(3) {
        0 => (&mut h.triangles, h.given),
        1 => (&mut h.quads, h.point_count),
        _ => (&mut h.left, h.point_count),
    };
    if !list.is_empty() {
        let bound = bound as u32;
        let i = r.below(list.len());
        list[i] = r.pick(&[
            bound,
            bound,
            bound.wrapping_sub(1),
            bound.wrapping_add(1),
            u32::MAX,
        ]);
    }
}

/// A node stands twice in a cell, at any two places.
fn twice(h: &mut Handed, r: &mut Random) {
    let (list, width) = match r.below(3) {
        0 => (&mut h.triangles, 3),
        1 => (&mut h.quads, 4),
        _ => (&mut h.left, 3),
    };
    if list.len() >= width {
        let first = width * r.below(list.len() / width);
        list[first + r.below(width)] = list[first + r.below(width)];
    }
}

/// A coordinate at 8, beyond it or not finite; z may be anything.
fn far(h: &mut Handed, r: &mut Random) {
    let beyond = 8.0f64.next_up();
    let at = [
        8.0,
        -8.0,
        beyond,
        -beyond,
        f64::NAN,
        f64::INFINITY,
        f64::NEG_INFINITY,
    ];
    let x = r.pick(&at);
    let i = r.below(h.given_points.len().max(1));
    let both = r.once_in(3);
    let which = r.once_in(2);
    if both || which {
        h.given_points.get_mut(i).into_iter().for_each(|p| *p = x);
    }
    if both || !which {
        h.points.get_mut(i).into_iter().for_each(|p| *p = x);
    }
}

/// A joint at any place, good or of one node or of one that was not given.
fn joint(h: &mut Handed, r: &mut Random) {
    let given = h.given as u32;
    let node = r.below(h.given.max(1)) as u32;
    let last = given.wrapping_sub(1);
    let pairs = [
        [node, node],
        [node, given],
        [given, node],
        [last, 0],
        [node, last],
        [u32::MAX, node],
    ];
    let [u, v] = r.pick(&pairs);
    let place = 2 * r.below(h.joints.len() / 2 + 1);
    h.joints.splice(place..place, [u, v]);
    h.joint_count = h.joint_count.saturating_add(1);
}

/// The handed slices are longer than stated, each half of the times.
pub fn tails(h: &mut Handed, r: &mut Random) {
    let mut more = || r.below(2) * r.below(5);
    h.given_points.extend(vec![f64::NAN; more()]);
    h.points.extend(vec![f64::INFINITY; more()]);
    for list in [&mut h.triangles, &mut h.quads, &mut h.left, &mut h.joints] {
        list.extend(vec![u32::MAX; more()]);
    }
}

/// Keeps one number less than a list needs.
fn cut<T>(list: &mut Vec<T>, needs: usize) {
    list.truncate(needs.saturating_sub(1));
}

/// What components, work and parents need, or a little where a list is stated that is not there.
pub fn needs(h: &Handed) -> [usize; 3] {
    let long = [h.count, h.quad_count, h.left_count]
        .into_iter()
        .any(|n| n > LONG);
    if long {
        [9; 3]
    } else {
        h.needs()
    }
}

/// One of the slices is a number short.
pub fn shorten(h: &mut Handed, lent: &mut Lent, r: &mut Random) {
    let times = |n: usize, width: usize| n.saturating_mul(width);
    match r.below(10) {
        0 => cut(&mut h.given_points, times(h.given, 3)),
        1 => cut(&mut h.triangles, times(h.count, 3)),
        2 => cut(&mut h.points, times(h.point_count, 3)),
        3 => cut(&mut h.quads, times(h.quad_count, 4)),
        4 => cut(&mut h.left, times(h.left_count, 3)),
        5 => cut(&mut h.joints, times(h.joint_count, 2)),
        6 => cut(&mut lent.components, h.left_count),
        7 => cut(&mut lent.parents, times(h.left_count, 2)),
        8 => cut(&mut lent.answer, NUMBERS),
        _ => cut(&mut lent.work, needs(h)[1]),
    }
}
