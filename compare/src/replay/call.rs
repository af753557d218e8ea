//! The call of a replay: the port's, and what it must leave.

use reference::input::{Input, Lent};
use reference::replay::Replayed;
use sedgepick::raw::sedgepick_replay;

use crate::left::Left;
use crate::memory;

/// Numbers of an answer.
pub const ANSWER: usize = 4;

/// The port's call over these slices, with so many words stated.
pub fn port(input: &Input, lent: Lent, words: usize, mut l: Left) -> Left {
    let mut points = memory::floats(&l.slices.points);
    let mut float_work = memory::floats(&l.slices.float_work);
    let s = &mut l.slices;
    // Each pointer comes with the length of its slice, and no two share memory.
    l.number = unsafe {
        sedgepick_replay(
            points.as_mut_ptr(),
            points.len(),
            l.triangles.as_ptr(),
            l.triangles.len(),
            s.trace.as_ptr(),
            s.trace.len(),
            s.quads.as_mut_ptr(),
            s.quads.len(),
            s.triangles.as_mut_ptr(),
            s.triangles.len(),
            s.components.as_mut_ptr(),
            s.components.len(),
            s.work.as_mut_ptr(),
            s.work.len(),
            float_work.as_mut_ptr(),
            float_work.len(),
            input.points.len(),
            lent.points,
            input.triangles.len(),
            lent.slots,
            words,
            l.answer.as_mut_ptr(),
            l.answer.len(),
        )
    };
    l.slices.points = memory::bits(&points);
    l.slices.float_work = memory::bits(&float_work);
    l
}

/// What must be returned and left: after a refusal before the first entry nothing differs.
pub fn after(before: &Left, replayed: &Result<Replayed, u32>) -> Left {
    let mut l = before.clone();
    match replayed {
        Err(number) => l.number = *number as usize,
        Ok(rust) => {
            l.number = rust.refused.unwrap_or(0) as usize;
            lists(&mut l, rust);
        }
    }
    l
}

fn lists(l: &mut Left, rust: &Replayed) {
    let s = &mut l.slices;
    s.work.fill(0);
    s.float_work.fill(0);
    let bits = rust.points.iter().flatten().map(|x| x.to_bits());
    memory::onto(&mut s.points, bits);
    memory::onto(&mut s.quads, rust.quads.iter().flatten().copied());
    if rust.refused.is_none() {
        memory::onto(&mut s.triangles, memory::words(&rust.triangles));
        let sizes = rust.components.iter().map(|&n| n as u32);
        memory::onto(&mut s.components, sizes);
        let lengths = [
            rust.quads.len(),
            rust.triangles.len(),
            rust.points.len(),
            rust.components.len(),
        ];
        l.answer[..ANSWER].copy_from_slice(&lengths);
    }
}
