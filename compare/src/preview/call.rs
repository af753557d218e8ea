//! The call of a preview: the port's, and what it must leave.

use reference::input::{Input, Lent};
use reference::preview::{Kind, Shown};
use sedgepick::raw::sedgepick_preview;

use crate::left::Left;
use crate::memory;

/// Numbers of an answer.
pub const ANSWER: usize = 12;

/// The port's call over these slices.
pub fn port(input: &Input, lent: Lent, (u, v): (usize, usize), mut l: Left) -> Left {
    let mut points = memory::floats(&l.slices.points);
    let mut float_work = memory::floats(&l.slices.float_work);
    let (s, q) = (&mut l.slices, &input.quality);
    // Each pointer comes with the length of its slice, and no two share memory.
    l.number = unsafe {
        sedgepick_preview(
            points.as_mut_ptr(),
            points.len(),
            l.triangles.as_ptr(),
            l.triangles.len(),
            s.joints.as_ptr(),
            s.joints.len(),
            s.quads.as_ptr(),
            s.quads.len(),
            s.triangles.as_ptr(),
            s.triangles.len(),
            s.components.as_ptr(),
            s.components.len(),
            s.work.as_mut_ptr(),
            s.work.len(),
            float_work.as_mut_ptr(),
            float_work.len(),
            input.points.len(),
            lent.points,
            input.triangles.len(),
            lent.slots,
            input.joints.len(),
            input.size(),
            input.stop,
            q.least_jacobian,
            q.largest_cosine,
            q.side_low,
            q.side_high,
            q.pairs,
            input.grid,
            u,
            v,
            l.answer.as_mut_ptr(),
            l.answer.len(),
        )
    };
    l.slices.points = memory::bits(&points);
    l.slices.float_work = memory::bits(&float_work);
    l
}

/// What must be returned and left where the reference shows this.
pub fn after(before: &Left, shown: &Shown) -> Left {
    let mut l = before.clone();
    l.number = 0;
    match words(shown) {
        Ok(words) => l.answer[..ANSWER].copy_from_slice(&words),
        Err(number) => l.number = number as usize,
    }
    if shown.clears() {
        l.slices.work.fill(0);
        l.slices.float_work.fill(0);
    }
    l
}

/// The numbers of an answer: what is shown, the kind of a refused attempt, insertions, flips, the quad's record.
fn words(shown: &Shown) -> Result<[usize; ANSWER], u32> {
    let mut words = [0; ANSWER];
    let head = match *shown {
        Shown::OffFront => [0; 4],
        Shown::Quad(quad, cost) => {
            words[4..].copy_from_slice(&quad);
            [1, 0, cost.insertions, cost.flips]
        }
        Shown::Refused(kind, cost) => [2, place(kind), cost.insertions, cost.flips],
        Shown::Refusal(number) => return Err(number),
    };
    words[..4].copy_from_slice(&head);
    Ok(words)
}

/// A kind's number.
pub fn place(kind: Kind) -> usize {
    match kind {
        Kind::Placement => 1,
        Kind::InvalidQuad => 2,
        Kind::Recovery => 3,
        Kind::Region => 4,
        Kind::OddRegion => 5,
    }
}
