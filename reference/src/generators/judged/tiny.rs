//! Cells whose coordinates are at the ends of the doubles: subnormal, equal, at 8 and just below.

use super::damage::{beside, within};
use super::Judged;
use crate::accept::THINS;
use crate::random::Random;

/// A coordinate, least ones more often.
fn coordinate(r: &mut Random) -> f64 {
    let unit = f64::from_bits(1 + r.below(5) as u64);
    let x = match r.below(8) {
        0 => 0.0,
        1 => r.pick(&[8.0, 8.0f64.next_down(), 1.0, 1.0f64.next_up()]),
        2 => r.pick(&[f64::MIN_POSITIVE, f64::MIN_POSITIVE.next_down()]),
        3 => 0.5f64.powi(r.below(1075) as i32),
        _ => unit,
    };
    if r.once_in(2) {
        x
    } else {
        -x
    }
}

/// Two coordinates, the smaller one first; now and then they are equal.
fn span(r: &mut Random) -> [f64; 2] {
    let (a, b) = (coordinate(r), coordinate(r));
    match r.below(12) {
        0 => [a, a],
        _ => [a.min(b), a.max(b)],
    }
}

/// Boxes, some with a corner moved by a unit or elsewhere, and triangles out of boxes.
pub fn tiny(r: &mut Random) -> Judged {
    let mut j = Judged::default();
    for _ in 0..r.from_to(1, 3) {
        let ([x, u], [y, v]) = (span(r), span(r));
        let mut quad = [[x, y], [u, y], [u, v], [x, v]];
        if r.once_in(2) {
            let (i, k) = (r.below(4), r.below(2));
            quad[i][k] = match r.below(4) {
                0 => coordinate(r),
                _ => beside(quad[i][k], r).clamp(-8.0, 8.0),
            };
        }
        quad.rotate_left(r.below(4));
        match r.below(3) {
            0 => j.triangle([quad[0], quad[1], quad[2]], r),
            _ => j.quad(quad, r),
        }
    }
    let any = within(THINS, r);
    let least = 0.999_999_999f64;
    j.thin = r.pick(&[1.0, 1.0f64.next_down(), least, least.next_down(), any, 0.75]);
    j.cosine = r.pick(&[0.5, 0.99, j.cosine]);
    j
}
