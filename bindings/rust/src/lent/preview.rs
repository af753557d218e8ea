//! The call of a preview.

use super::{quad, Call, Further, Memory, QUAD_WORDS};
use crate::raw::sedgepick_preview;
use crate::{Cost, Kind, Refusal, Shown};

/// Numbers that a preview writes: what it is, the kind of refusal, insertions, flips, and the quad's record.
const SHOWN: usize = 4 + QUAD_WORDS;

/// What the edge between two nodes would give, their numbers in either order and whatever they are: one attempt on the mesh that `run_front_with` would start
/// from, of which nothing stays.
///
/// The work slices are zeros then, also after 8 and 9, and every other slice is as it was. Refusals before the attempt (1 to 7, 13 to 15) touch nothing. With two
/// points and five slots beyond the given ones there is neither 8 nor 9.
pub fn preview(
    edge: [usize; 2],
    triangles: &[u32],
    memory: Memory<'_>,
    call: Call,
    further: Further<'_>,
) -> Result<Shown, Refusal> {
    let mut a = [0usize; SHOWN];
    let set = further.set;
    // Each pointer comes with the length of its slice, the slices are exclusive or only read, and the function asks nothing else.
    let number = unsafe {
        sedgepick_preview(
            memory.points.as_mut_ptr(),
            memory.points.len(),
            triangles.as_ptr(),
            triangles.len(),
            further.joints.as_ptr(),
            further.joints.len(),
            memory.quads.as_ptr(),
            memory.quads.len(),
            memory.triangles.as_ptr(),
            memory.triangles.len(),
            memory.components.as_ptr(),
            memory.components.len(),
            memory.work.as_mut_ptr(),
            memory.work.len(),
            memory.float_work.as_mut_ptr(),
            memory.float_work.len(),
            call.given,
            call.capacity,
            call.count,
            call.slots,
            further.joint_count,
            call.size,
            call.stop,
            set.least_jacobian,
            set.largest_cosine,
            set.side_low,
            set.side_high,
            set.pairs,
            further.grid,
            edge[0],
            edge[1],
            a.as_mut_ptr(),
            a.len(),
        )
    };
    Refusal::check(number).map(|()| shown(a))
}

/// What the twelve numbers stand for.
fn shown(a: [usize; SHOWN]) -> Shown {
    let cost = Cost {
        insertions: a[2],
        flips: a[3],
    };
    let q: [u32; QUAD_WORDS] = std::array::from_fn(|i| a[4 + i] as u32);
    match (a[0], a[1]) {
        (1, _) => Shown::Quad {
            quad: quad(&q),
            cost,
        },
        (2, kind) => Shown::Refused {
            kind: Kind::ALL[kind - 1],
            cost,
        },
        _ => Shown::OffFront,
    }
}
