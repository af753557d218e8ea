//! Quality sets: within their ranges, at the ends of them, and just outside.

use crate::input::{COSINES, FACTORS, JACOBIANS, PAIRS};
use crate::patched::{Quality, STANDARD};
use crate::random::Random;

/// A set that is not refused: some numbers of the standard set, the others anywhere in their ranges or at an end.
pub fn good(r: &mut Random) -> Quality {
    let mut set = STANDARD;
    if r.once_in(2) {
        set.least_jacobian = within(r, JACOBIANS);
    }
    if r.once_in(2) {
        set.largest_cosine = within(r, COSINES);
    }
    if r.once_in(2) {
        set.side_low = within(r, FACTORS);
    }
    if r.once_in(2) {
        set.side_high = within(r, FACTORS);
    }
    if set.side_low > set.side_high {
        (set.side_low, set.side_high) = (set.side_high, set.side_low);
    }
    if r.once_in(8) {
        set.side_low = set.side_high;
    }
    if r.once_in(2) {
        let few = r.from_to(1, 12);
        set.pairs = r.pick(&[1, 2, few, few, 7, 9, 63, 64]);
    }
    set
}

/// A set with one or two numbers at or just beyond an end, a NaN or an infinity among them, or with the low factor just
/// above the high one; some are good.
pub fn doubtful(r: &mut Random) -> Quality {
    let mut set = good(r);
    for _ in 0..r.from_to(1, 2) {
        match r.below(6) {
            0 => set.least_jacobian = beside(r, JACOBIANS),
            1 => set.largest_cosine = beside(r, COSINES),
            2 => set.side_low = beside(r, FACTORS),
            3 => set.side_high = beside(r, FACTORS),
            4 => set.side_low = next_up(set.side_high),
            _ => set.pairs = beside_pairs(r),
        }
    }
    set
}

/// A number of a range, an end now and then; of the range from 0, either zero.
fn within(r: &mut Random, [low, high]: [f64; 2]) -> f64 {
    match r.below(8) {
        0 => low,
        1 => high,
        2 if low == 0.0 => -0.0,
        3 => low + (high - low) * (r.from_to(1, 15) as f64 / 16.0),
        _ => low + (high - low) * r.unit(),
    }
}

/// The ends of a range, the doubles beside them, and numbers in no range.
fn beside(r: &mut Random, [low, high]: [f64; 2]) -> f64 {
    let quiet = f64::from_bits(0x7ff8000000000000 | r.bits() & 0x8007ffffffffffff);
    let loud = f64::from_bits(0x7ff0000000000001 | r.bits() & 0x8000000000ffffff);
    let any = f64::from_bits(r.bits());
    r.pick(&[
        low,
        high,
        next_down(low),
        next_up(low),
        next_down(high),
        next_up(high),
        -low,
        -high,
        quiet,
        loud,
        f64::INFINITY,
        f64::NEG_INFINITY,
        f64::MAX,
        f64::MIN_POSITIVE,
        any,
    ])
}

/// The ends of the range of pairs, the numbers beside them, and some far beyond.
fn beside_pairs(r: &mut Random) -> usize {
    let [least, most] = PAIRS;
    r.pick(&[
        least - 1,
        least,
        most,
        most + 1,
        1 << 32,
        (1 << 32) + 1,
        usize::MAX,
    ])
}

/// The double above a finite one.
fn next_up(x: f64) -> f64 {
    let bits = x.to_bits();
    f64::from_bits(match bits {
        0x8000000000000000 => 1,
        _ if x < 0.0 => bits - 1,
        _ => bits + 1,
    })
}

/// The double below a finite one.
fn next_down(x: f64) -> f64 {
    -next_up(-x)
}

#[test]
fn good_sets_are_good_and_doubtful_ones_are_both() {
    let mut refused = 0;
    for case in 0..10_000 {
        let mut r = Random::new(1, case);
        assert!(good(&mut r).is_good());
        refused += !doubtful(&mut r).is_good() as usize;
    }
    assert!((4_000..9_500).contains(&refused), "{refused}");
}

#[test]
fn the_ends_of_the_ranges_pass_and_the_next_doubles_do_not() {
    let with = |change: &dyn Fn(&mut Quality)| {
        let mut set = Quality {
            side_low: 0.1,
            side_high: 4.0,
            ..STANDARD
        };
        change(&mut set);
        set.is_good()
    };
    type Put = fn(&mut Quality, f64);
    let ends: [(Put, [f64; 2]); 4] = [
        (|q, x| q.least_jacobian = x, JACOBIANS),
        (|q, x| q.largest_cosine = x, COSINES),
        (|q, x| q.side_low = x, FACTORS),
        (|q, x| q.side_high = x, FACTORS),
    ];
    for (put, [low, high]) in ends {
        for (x, passes) in [
            (low, true),
            (high, true),
            (next_down(low), false),
            (next_up(high), false),
            (f64::NAN, false),
        ] {
            assert_eq!(with(&|q| put(q, x)), passes, "{x:e}");
        }
    }
    assert!(with(&|q| q.least_jacobian = -0.0));
    for (pairs, passes) in [(0, false), (1, true), (64, true), (65, false)] {
        assert_eq!(with(&|q| q.pairs = pairs), passes, "{pairs} pairs");
    }
    let [equal, above] = [2.2, next_up(2.2)];
    assert!(with(&|q| (q.side_low, q.side_high) = (equal, 2.2)));
    assert!(!with(&|q| (q.side_low, q.side_high) = (above, 2.2)));
}
