//! The call of a job's mesh: the port's, and what it must leave.

use reference::input::{Input, Lent};
use reference::job::{Job, Step, BAD_JOB};
use reference::patched::FrontResult;
use reference::records::counts;
use sedgepick::raw::sedgepick_job;

use crate::memory::{self, Slices};

/// Numbers of a job, and of an answer.
pub const JOB: usize = 5;
pub const ANSWER: usize = 15;

/// What a call returns and leaves.
#[derive(PartialEq)]
pub struct Left {
    pub number: usize,
    pub job: Vec<usize>,
    pub answer: Vec<usize>,
    pub slices: Slices,
}

/// The port's call over these slices.
pub fn port(input: &Input, lent: Lent, mut l: Left) -> Left {
    let mut points = memory::floats(&l.slices.points);
    let mut float_work = memory::floats(&l.slices.float_work);
    let (s, q) = (&mut l.slices, &input.quality);
    let triangles = input.triangles.as_flattened();
    // Each pointer comes with the length of its slice, and no two share memory.
    l.number = unsafe {
        sedgepick_job(
            points.as_mut_ptr(),
            points.len(),
            triangles.as_ptr(),
            triangles.len(),
            s.joints.as_ptr(),
            s.joints.len(),
            s.quads.as_mut_ptr(),
            s.quads.len(),
            s.triangles.as_mut_ptr(),
            s.triangles.len(),
            s.components.as_mut_ptr(),
            s.components.len(),
            s.work.as_mut_ptr(),
            s.work.len(),
            float_work.as_mut_ptr(),
            float_work.len(),
            s.trace.as_mut_ptr(),
            s.trace.len(),
            input.points.len(),
            lent.points,
            input.triangles.len(),
            lent.slots,
            input.joints.len(),
            input.size(),
            input.stop,
            q.least_jacobian,
            q.largest_cosine,
            q.side_low,
            q.side_high,
            q.pairs,
            input.grid,
            l.job.as_mut_ptr(),
            l.job.len(),
            l.answer.as_mut_ptr(),
            l.answer.len(),
        )
    };
    l.slices.points = memory::bits(&points);
    l.slices.float_work = memory::bits(&float_work);
    l
}

/// The same slices with another number.
pub fn copy(before: &Left, number: usize) -> Left {
    Left {
        number,
        job: before.job.clone(),
        answer: before.answer.clone(),
        slices: before.slices.clone(),
    }
}

/// What the slices must hold after the reference's step: after 16 what they held.
pub fn after(before: &Left, step: Step) -> Left {
    let mut l = copy(before, 0);
    if let Err(BAD_JOB) = step.ran {
        l.number = BAD_JOB as usize;
        return l;
    }
    let Job {
        meshes,
        allowance,
        done,
        left,
    } = step.next;
    l.job[..JOB].copy_from_slice(&[meshes, allowance, done, left, step.charged]);
    match step.ran {
        Err(number) => l.number = number as usize,
        Ok(rust) => {
            l.number = rust.refused.unwrap_or(0) as usize;
            l.slices = memory::after_run(&before.slices, &rust);
            if rust.refused.is_none() {
                l.answer[..ANSWER].copy_from_slice(&words(&rust));
            }
        }
    }
    l
}

/// The numbers of an answer.
fn words(rust: &FrontResult) -> [usize; ANSWER] {
    let mut words = [rust.trace.len(); ANSWER];
    words[..ANSWER - 1].copy_from_slice(&counts(rust));
    words
}
