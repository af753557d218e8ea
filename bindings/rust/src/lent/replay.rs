//! The call of a replay.

use super::Memory;
use crate::raw::sedgepick_replay;
use crate::Refusal;

/// Numbers that a replay writes: the lengths of its four lists.
const REPLAYED: usize = 4;

/// The numbers of a replay. Any are safe: those that do not fit are refused.
#[derive(Clone, Copy, Debug, PartialEq, Eq)]
pub struct Told {
    /// Given points, at most 4,096.
    pub given: usize,
    /// Points that the points slice has room for, at most 8,192.
    pub capacity: usize,
    /// Given triangles, at most 4,096.
    pub count: usize,
    /// Slots for cells, at most 16,384. Each given triangle takes one, each quad one more, each insertion two more.
    pub slots: usize,
    /// Words of the trace. All of them are read, and no others.
    pub words: usize,
}

/// The lengths of the lists; entries past them are as they were.
#[derive(Clone, Copy, Debug, PartialEq, Eq)]
pub struct Lengths {
    pub quads: usize,
    pub triangles: usize,
    pub points: usize,
    pub components: usize,
}

/// Replays the first `told.words` words of a trace on the first `told.count` triangles, three node numbers each, over the first `told.given` points of the memory:
/// the lists are those of the run that wrote them. Memory is as for a run; its own trace stays as it is.
///
/// Refusals before the first entry (1, 4 to 7) touch nothing. 12, 8 and 9 leave the points added and the quads written before them, clear both work slices and
/// touch nothing else.
pub fn replay(
    triangles: &[u32],
    trace: &[u32],
    memory: Memory<'_>,
    told: Told,
) -> Result<Lengths, Refusal> {
    let mut a = [0usize; REPLAYED];
    // Each pointer comes with the length of its slice, the slices are exclusive or only read, and the function asks nothing else.
    let number = unsafe {
        sedgepick_replay(
            memory.points.as_mut_ptr(),
            memory.points.len(),
            triangles.as_ptr(),
            triangles.len(),
            trace.as_ptr(),
            trace.len(),
            memory.quads.as_mut_ptr(),
            memory.quads.len(),
            memory.triangles.as_mut_ptr(),
            memory.triangles.len(),
            memory.components.as_mut_ptr(),
            memory.components.len(),
            memory.work.as_mut_ptr(),
            memory.work.len(),
            memory.float_work.as_mut_ptr(),
            memory.float_work.len(),
            told.given,
            told.capacity,
            told.count,
            told.slots,
            told.words,
            a.as_mut_ptr(),
            a.len(),
        )
    };
    let [quads, triangles, points, components] = a;
    let lengths = Lengths {
        quads,
        triangles,
        points,
        components,
    };
    Refusal::check(number).map(|()| lengths)
}
