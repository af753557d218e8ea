//! What a call of a preview or of a replay returns and leaves.

use crate::memory::{self, Slices};

/// The given triangles, the joints and, for a replay, the trace are only read.
#[derive(Clone)]
pub struct Left {
    pub number: usize,
    pub answer: Vec<usize>,
    pub triangles: Vec<u32>,
    pub slices: Slices,
}

/// The first thing in which the two differ.
pub fn difference(got: &Left, want: &Left) -> Option<String> {
    if got.number != want.number {
        return Some(format!("port {}, Rust {}", got.number, want.number));
    }
    if got.answer != want.answer {
        let (port, rust) = (&got.answer, &want.answer);
        return Some(format!("answer\n  port {port:?}\n  Rust {rust:?}"));
    }
    if got.triangles != want.triangles {
        return Some("the given triangles".to_string());
    }
    memory::first_difference(&got.slices, &want.slices)
}
