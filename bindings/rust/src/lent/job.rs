//! The call of a job's mesh.

use super::{answered, call_with, Answer, Call, Further, Memory, ANSWER};
use crate::raw::sedgepick_job;
use crate::Refusal;

/// Numbers of a job: its state, and the attempts charged.
const JOB: usize = 5;

/// The state of a job, handed from mesh to mesh. Any numbers are safe: those that do not fit are refused as 16. Hand each state on once.
#[derive(Clone, Copy, Debug, PartialEq, Eq)]
pub struct State {
    /// Meshes of the job, 1 to 16.
    pub meshes: usize,
    /// Attempts that they may make together, 1 to 1,000,000.
    pub allowance: usize,
    /// Meshes before this one.
    pub done: usize,
    /// What the one before left of what it was entitled to.
    pub left: usize,
}

impl State {
    /// Before the first mesh.
    pub fn new(meshes: usize, allowance: usize) -> State {
        State {
            meshes,
            allowance,
            done: 0,
            left: 0,
        }
    }
}

/// What a mesh of a job came to: its answer, the attempts charged, and the state for the next one.
#[derive(Clone, Copy, Debug, PartialEq, Eq)]
pub struct Step {
    pub answer: Result<Answer, Refusal>,
    pub charged: usize,
    pub next: State,
}

/// The next mesh of a job, as `run_front_with`, with no more attempts than it is entitled to. 16 comes before all else, writes nothing and hands the state back as it was.
pub fn job(
    state: State,
    triangles: &[u32],
    memory: Memory<'_>,
    call: Call,
    further: Further<'_>,
) -> Step {
    let mut a = [0usize; ANSWER];
    let mut j: [usize; JOB] = [state.meshes, state.allowance, state.done, state.left, 0];
    // Each pointer comes with the length of its slice, the slices are exclusive or only read, and the function asks nothing else.
    let number = unsafe {
        call_with!(
            sedgepick_job,
            triangles,
            memory,
            call,
            further,
            j.as_mut_ptr(),
            j.len(),
            a.as_mut_ptr(),
            a.len(),
        )
    };
    Step {
        answer: answered(number, a),
        charged: j[4],
        next: State {
            meshes: j[0],
            allowance: j[1],
            done: j[2],
            left: j[3],
        },
    }
}
