//! What a mesh is asked with: the grid profile, a quality set, joints, good or doubtful.

use reference::generators::{joints, on_grid, sets};
use reference::input::Input;
use reference::random::Random;

/// The input, not refused as it is, with each of the three four times in `of` and doubtful ones once or twice; `of` is 6 at least.
pub fn asked(plain: Input, of: usize, r: &mut Random) -> Input {
    let mut input = match r.below(of) {
        0..=3 => on_grid::good(&plain, r),
        4 => on_grid::doubtful(&plain, r),
        _ => plain,
    };
    match r.below(of) {
        0..=3 => input.quality = sets::good(r),
        4 => input.quality = sets::doubtful(r),
        _ => {}
    }
    match r.below(of) {
        0..=3 => input.joints = joints::good(&input, r),
        4..=5 => input.joints = joints::doubtful(&input, r),
        _ => {}
    }
    input
}
