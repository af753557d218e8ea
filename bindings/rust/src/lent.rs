//! The call over memory that the caller lends: nothing is allocated, and every number is tested before any slice is touched.

mod job;
mod preview;
mod replay;

pub use job::{job, State, Step};
pub use preview::preview;
pub use replay::{replay, Lengths, Told};

use std::cmp::Ordering;

use crate::raw::{sedgepick_filing_order, sedgepick_run_front, sedgepick_run_front_with};
use crate::{Counts, Quad, Refusal};

/// Numbers that a finished run writes: nine counts, four lengths, the trials and the words of the trace.
const ANSWER: usize = 15;

/// Numbers of a quad's record: four nodes, the edge's two, the round, the triangles replaced.
pub const QUAD_WORDS: usize = 8;

/// u32 of work for a triangle whose mesh is filed.
pub const FILING_WORK: usize = 4;

/// A call of an export that takes what `sedgepick_run_front_with` does up to the grid profile, and then these.
macro_rules! call_with {
    ($export:ident, $triangles:expr, $memory:expr, $call:expr, $further:expr, $($behind:expr),+ $(,)?) => {
        $export(
            $memory.points.as_mut_ptr(),
            $memory.points.len(),
            $triangles.as_ptr(),
            $triangles.len(),
            $further.joints.as_ptr(),
            $further.joints.len(),
            $memory.quads.as_mut_ptr(),
            $memory.quads.len(),
            $memory.triangles.as_mut_ptr(),
            $memory.triangles.len(),
            $memory.components.as_mut_ptr(),
            $memory.components.len(),
            $memory.work.as_mut_ptr(),
            $memory.work.len(),
            $memory.float_work.as_mut_ptr(),
            $memory.float_work.len(),
            $memory.trace.as_mut_ptr(),
            $memory.trace.len(),
            $call.given,
            $call.capacity,
            $call.count,
            $call.slots,
            $further.joint_count,
            $call.size,
            $call.stop,
            $further.set.least_jacobian,
            $further.set.largest_cosine,
            $further.set.side_low,
            $further.set.side_high,
            $further.set.pairs,
            $further.grid,
            $($behind),+
        )
    };
}
use call_with;

/// The numbers of a call. Any are safe: those that do not fit are refused.
#[derive(Clone, Copy, Debug, PartialEq)]
pub struct Call {
    /// Given points, at most 4,096.
    pub given: usize,
    /// Points that the points slice has room for, at most 8,192.
    pub capacity: usize,
    /// Given triangles, at most 4,096.
    pub count: usize,
    /// Slots for cells, at most 16,384. Each given triangle takes one, each quad one more, each insertion two more; none is used twice.
    pub slots: usize,
    /// The target length of an edge: 0 for none, otherwise from 1/64 to 8.
    pub size: f64,
    /// 0: the front goes on while an edge is open. 1: components stay even.
    pub stop: u32,
}

impl Call {
    /// u32 of work that the call needs.
    pub fn work_len(&self) -> usize {
        64usize
            .saturating_mul(self.slots)
            .saturating_add(8usize.saturating_mul(self.capacity))
    }

    /// u32 that the quads need.
    pub fn quads_len(&self) -> usize {
        QUAD_WORDS.saturating_mul(self.slots)
    }

    /// f64 of work.
    pub fn float_work_len(&self) -> usize {
        4usize.saturating_mul(self.slots)
    }
}

/// The numbers of a quality set. Any are safe: those that do not fit are refused as 14. `Quality` has only such as fit. `Default` is the standard set.
#[derive(Clone, Copy, Debug, PartialEq)]
pub struct Set {
    /// The least scaled Jacobian of a quad, from 0 to 1.
    pub least_jacobian: f64,
    /// The largest cosine of a quad's corner, from 0.5 to 0.99.
    pub largest_cosine: f64,
    /// The distances at which side nodes are looked for, in target lengths, from 0.1 to 4.
    pub side_low: f64,
    pub side_high: f64,
    /// The pairs of side nodes tried for an edge, from 1 to 64.
    pub pairs: usize,
}

impl Default for Set {
    fn default() -> Self {
        Set {
            least_jacobian: 0.3,
            largest_cosine: 0.90630778703665,
            side_low: 0.5,
            side_high: 2.2,
            pairs: 8,
        }
    }
}

/// What a call may take beside its mesh. `Default` is without joints, with the standard set and without the grid profile.
#[derive(Clone, Copy, Debug, Default, PartialEq)]
pub struct Further<'a> {
    /// Two node numbers a joint, in either order. May be longer than the call needs.
    pub joints: &'a [u32],
    /// Joints, at most 256.
    pub joint_count: usize,
    pub set: Set,
    /// 0, or any other number for the grid profile.
    pub grid: u32,
}

/// The lent slices. Each may be longer than the call needs; what it holds beforehand does not matter, but for the given points.
#[derive(Debug)]
pub struct Memory<'a> {
    /// Three f64 a point of capacity: the given points first. Added points come behind them.
    pub points: &'a mut [f64],
    /// Eight u32 a slot: the quads' records come to its front; `quads` reads them.
    pub quads: &'a mut [u32],
    /// Three u32 a slot: the triangles that are left come to its front.
    pub triangles: &'a mut [u32],
    /// One u32 a slot: the sizes of the components of the triangles left, descending, come to its front.
    pub components: &'a mut [u32],
    /// 64 u32 a slot and 8 more a point of capacity. Zeros after a run.
    pub work: &'a mut [u32],
    /// Four f64 a slot. Zeros after a run.
    pub float_work: &'a mut [f64],
    /// The words of the trace come to its front, entry after entry; `Entry::read` reads them. Empty for none. Only `run_front_with` and `job` write it, and no length
    /// is asked for: where one entry more does not fit, the run is refused with 11.
    pub trace: &'a mut [u32],
}

/// What a finished run counted, and the lengths of its lists; entries past a list's length are as they were.
#[derive(Clone, Copy, Debug, PartialEq, Eq)]
pub struct Answer {
    pub counts: Counts,
    pub quads: usize,
    pub triangles: usize,
    pub points: usize,
    pub components: usize,
    /// Words of the trace.
    pub words: usize,
}

/// Meshes the first `call.count` triangles, three node numbers each, over the first `call.given` points of the memory.
///
/// Refusals before a run (1 to 7, 13 to 15) touch nothing. 8, 9 and 11 leave the points added, the quads written and the entries made before them, clear both work
/// slices and touch nothing else. Here no trace is made; what `memory.trace` holds stays.
pub fn run_front(triangles: &[u32], memory: Memory<'_>, call: Call) -> Result<Answer, Refusal> {
    let mut a = [0usize; ANSWER];
    // Each pointer comes with the length of its slice, the slices are exclusive or only read, and the function asks nothing else.
    let number = unsafe {
        sedgepick_run_front(
            memory.points.as_mut_ptr(),
            memory.points.len(),
            triangles.as_ptr(),
            triangles.len(),
            memory.quads.as_mut_ptr(),
            memory.quads.len(),
            memory.triangles.as_mut_ptr(),
            memory.triangles.len(),
            memory.components.as_mut_ptr(),
            memory.components.len(),
            memory.work.as_mut_ptr(),
            memory.work.len(),
            memory.float_work.as_mut_ptr(),
            memory.float_work.len(),
            call.given,
            call.capacity,
            call.count,
            call.slots,
            call.size,
            call.stop,
            a.as_mut_ptr(),
            a.len(),
        )
    };
    answered(number, a)
}

/// The same with joints, a quality set, the grid profile and a trace; by default, and without a trace, it is `run_front`.
pub fn run_front_with(
    triangles: &[u32],
    memory: Memory<'_>,
    call: Call,
    further: Further<'_>,
) -> Result<Answer, Refusal> {
    let mut a = [0usize; ANSWER];
    // As above.
    let number = unsafe {
        call_with!(
            sedgepick_run_front_with,
            triangles,
            memory,
            call,
            further,
            a.as_mut_ptr(),
            a.len(),
        )
    };
    answered(number, a)
}

/// What a number and the answer's slice stand for.
fn answered(number: usize, a: [usize; ANSWER]) -> Result<Answer, Refusal> {
    Refusal::check(number)?;
    Ok(Answer {
        counts: Counts {
            front_empty: a[0],
            attempts: a[1],
            placement: a[2],
            invalid_quad: a[3],
            recovery: a[4],
            region: a[5],
            odd_region: a[6],
            mismatch_insertions: a[7],
            limit: a[8],
            trials: a[13],
        },
        quads: a[9],
        triangles: a[10],
        points: a[11],
        components: a[12],
        words: a[14],
    })
}

/// The first `count` quads of a slice.
pub fn quads(records: &[u32], count: usize) -> impl Iterator<Item = Quad> + '_ {
    records.chunks_exact(QUAD_WORDS).take(count).map(quad)
}

/// A quad's record.
fn quad(q: &[u32]) -> Quad {
    Quad {
        nodes: [q[0], q[1], q[2], q[3]],
        edge: [q[4], q[5]],
        round: q[6],
        replaced: q[7],
    }
}

/// A mesh that is filed. Any numbers are safe: those that do not fit are refused. Each slice may be longer than they need, and what the work holds does not
/// matter.
#[derive(Debug)]
pub struct Lent<'a> {
    /// Three f64 a point.
    pub points: &'a [f64],
    /// Three node numbers a triangle.
    pub triangles: &'a [u32],
    /// Four u32 a triangle. Zeros after an answer, the whole slice.
    pub work: &'a mut [u32],
    /// Points, at most 4,096.
    pub given: usize,
    /// Triangles, at most 4,096.
    pub count: usize,
}

/// How the first mesh stands to the second. A refusal, 1, 4, 5, 6 or 7, touches nothing; all tests of the first mesh come before those of the second.
pub fn filing_order(first: Lent<'_>, second: Lent<'_>) -> Result<Ordering, Refusal> {
    // As for a run; points and triangles are only read.
    let number = unsafe {
        sedgepick_filing_order(
            first.points.as_ptr(),
            first.points.len(),
            first.triangles.as_ptr(),
            first.triangles.len(),
            first.work.as_mut_ptr(),
            first.work.len(),
            first.given,
            first.count,
            second.points.as_ptr(),
            second.points.len(),
            second.triangles.as_ptr(),
            second.triangles.len(),
            second.work.as_mut_ptr(),
            second.work.len(),
            second.given,
            second.count,
        )
    };
    match number {
        100 => Ok(Ordering::Less),
        101 => Ok(Ordering::Equal),
        102 => Ok(Ordering::Greater),
        0 => Err(Refusal::Unknown(0)), // no answer of this function
        number => Err(Refusal::check(number).expect_err("0 is tried above")),
    }
}
