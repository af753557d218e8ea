//! The library's call of an acceptance, and its finished runs.

use reference::accept::{Handed, Lent};
use reference::generators::judged::Finished;
use reference::input::{Input, LARGEST};
use sedgepick::raw::sedgepick_accept;
use sedgepick::{run_front_with, Options, Quality, Stop};

/// The number that the library returns for a call over these slices.
pub fn port(h: &Handed, lent: &mut Lent) -> usize {
    // Each pointer comes with the length of its slice, and no two share memory.
    unsafe {
        sedgepick_accept(
            h.given_points.as_ptr(),
            h.given_points.len(),
            h.triangles.as_ptr(),
            h.triangles.len(),
            h.points.as_ptr(),
            h.points.len(),
            h.quads.as_ptr(),
            h.quads.len(),
            h.left.as_ptr(),
            h.left.len(),
            h.joints.as_ptr(),
            h.joints.len(),
            lent.components.as_mut_ptr(),
            lent.components.len(),
            lent.work.as_mut_ptr(),
            lent.work.len(),
            lent.parents.as_mut_ptr(),
            lent.parents.len(),
            h.given,
            h.count,
            h.point_count,
            h.quad_count,
            h.left_count,
            h.joint_count,
            h.cosine,
            h.thin,
            lent.answer.as_mut_ptr(),
            lent.answer.len(),
        )
    }
}

/// The library's run of an input; `None` where it is refused.
pub fn finish(input: &Input) -> Option<Finished> {
    if input.refusal(LARGEST).is_some() {
        return None;
    }
    let q = &input.quality;
    let quality = Quality::builder()
        .least_jacobian(q.least_jacobian)
        .largest_cosine(q.largest_cosine)
        .sides(q.side_low, q.side_high)
        .pairs(q.pairs);
    let options = Options {
        size: input.size(),
        stop: [Stop::Exhaust, Stop::EvenComponents][input.stop as usize],
        quality: quality.build().ok()?,
        joints: &input.joints,
        ..Options::default()
    };
    let mesh = run_front_with(&input.nodes(), &input.triangles, &options).ok()?;
    Some(Finished {
        points: mesh.points,
        quads: mesh.quads.iter().map(|q| q.nodes).collect(),
        left: mesh.triangles,
    })
}
