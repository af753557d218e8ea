//! Inputs of the grid profile: meshes with their points moved to the grid, and such with a point just off it or with a size.

use crate::input::{Input, GRID};
use crate::random::Random;

/// The input on the grid, in the profile. Now and then a coarser grid, on which points fall together and triangles have no area.
pub fn good(input: &Input, r: &mut Random) -> Input {
    let lines = r.pick(&[GRID, GRID, GRID, 64.0, 16.0, 4.0]);
    let nearest = |bits: u64| ((f64::from_bits(bits) * lines).round() / lines).to_bits();
    let zero = r.pick(&[0.0, -0.0f64]);
    Input {
        points: input
            .points
            .iter()
            .map(|p| [nearest(p[0]), nearest(p[1]), p[2]])
            .collect(),
        size: zero.to_bits(),
        grid: r.pick(&[1, 1, 1, 2, u32::MAX]),
        ..input.clone()
    }
}

/// The same with a coordinate on the grid's edge, beside a line or halfway between two, or with a size; some are good.
pub fn doubtful(input: &Input, r: &mut Random) -> Input {
    let mut input = good(input, r);
    if r.once_in(4) {
        let sizes = [1.0f64 / 64.0, 8.0, 1.0, 0.0, -0.0];
        input.size = r.pick(&sizes).to_bits();
    }
    if r.once_in(4) || input.points.is_empty() {
        return input;
    }
    let place = r.below(input.points.len());
    let axis = r.below(3);
    let here = input.points[place][axis];
    let line = 1.0 / GRID;
    let any = (8.0 * r.around()).to_bits();
    let digit = r.below(52);
    input.points[place][axis] = r.pick(&[
        here ^ 1,
        here ^ 1 << digit,
        (f64::from_bits(here) + line / 2.0).to_bits(),
        8.0f64.to_bits(),
        8.0f64.to_bits() - 1,
        line.to_bits() + 1,
        1,
        1 << 63,
        any,
    ]);
    input
}

#[test]
fn good_inputs_are_good_and_doubtful_ones_are_both() {
    use crate::generators::{of_case, TEXT};
    use crate::input::LARGEST;
    let (mut refused, mut passed) = (0, 0);
    for case in 0..4_000 {
        let mut r = Random::new(4, case);
        let input = of_case(None, case).1(&mut r, &TEXT);
        if input.refusal(LARGEST).is_some() {
            continue;
        }
        assert_eq!(good(&input, &mut r).refusal(LARGEST), None);
        match doubtful(&input, &mut r).refusal(LARGEST) {
            Some(15) => refused += 1,
            None => passed += 1,
            Some(7) => {}
            other => panic!("{other:?}"),
        }
    }
    assert!(refused > 1_000 && passed > 500, "{refused} {passed}");
}
