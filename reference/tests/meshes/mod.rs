//! Generated meshes that several tests run.

use reference::generators::{joints, of_case, on_grid, sets, SMALL};
use reference::input::{Input, LARGEST};
use reference::random::Random;

/// The least size of a mesh here: below it long edges stand in very many buckets.
const LEAST_SIZE: f64 = 0.5;

/// Not refused, and quickly run.
pub fn taken(input: &Input) -> bool {
    let fine = input.size() != 0.0 && input.size() < LEAST_SIZE;
    !fine && input.refusal(LARGEST).is_none()
}

/// Small meshes of all kinds that are not refused, with sets, joints and the profile among them.
pub fn meshes(seed: u64, count: u64) -> Vec<Input> {
    let one = |case: u64| {
        let mut r = Random::new(seed, case);
        let mut input = of_case(None, case).1(&mut r, &SMALL);
        if !taken(&input) {
            return None;
        }
        match r.below(6) {
            0 => input = on_grid::good(&input, &mut r),
            1 => input.quality = sets::good(&mut r),
            2 => input.joints = joints::good(&input, &mut r),
            _ => {}
        }
        Some(input)
    };
    (0..count).filter_map(one).collect()
}
