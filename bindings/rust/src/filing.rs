//! The filing order of meshes: by point count, by each point's x and y in turn, by triangle count, by the triangles, each from its smallest node on, in
//! ascending order. z is not read, and zeros of either sign are equal. Two meshes are equal exactly when their points agree and their triangles agree up
//! to rotation and list order, repeats counted.

use std::cmp::Ordering;

use crate::lent::{self, Lent};
use crate::{Refusal, MOST_GIVEN};

/// A mesh in the order of the archive: `new` tests it, so that any two can be compared and a list of them sorted.
#[derive(Clone, Copy, Debug)]
pub struct Filed<'a> {
    points: &'a [[f64; 3]],
    triangles: &'a [[u32; 3]],
}

impl<'a> Filed<'a> {
    /// The mesh, or the refusal of its tests: 1, 5, 6 or 7.
    pub fn new(points: &'a [[f64; 3]], triangles: &'a [[u32; 3]]) -> Result<Self, Refusal> {
        filing_order((points, triangles), (points, triangles))?;
        Ok(Filed { points, triangles })
    }

    pub fn points(&self) -> &'a [[f64; 3]] {
        self.points
    }

    pub fn triangles(&self) -> &'a [[u32; 3]] {
        self.triangles
    }
}

impl Ord for Filed<'_> {
    fn cmp(&self, other: &Self) -> Ordering {
        filing_order(
            (self.points, self.triangles),
            (other.points, other.triangles),
        )
        .expect("both meshes passed their tests")
    }
}

impl PartialOrd for Filed<'_> {
    fn partial_cmp(&self, other: &Self) -> Option<Ordering> {
        Some(self.cmp(other))
    }
}

impl PartialEq for Filed<'_> {
    fn eq(&self, other: &Self) -> bool {
        self.cmp(other) == Ordering::Equal
    }
}

impl Eq for Filed<'_> {}

/// How the first mesh, its points and triangles, stands to the second. All tests of the first come before those of the second.
pub fn filing_order(
    first: (&[[f64; 3]], &[[u32; 3]]),
    second: (&[[f64; 3]], &[[u32; 3]]),
) -> Result<Ordering, Refusal> {
    lent::filing_order(
        Lent {
            points: first.0.as_flattened(),
            triangles: first.1.as_flattened(),
            work: &mut work(first.1.len()),
            given: first.0.len(),
            count: first.1.len(),
        },
        Lent {
            points: second.0.as_flattened(),
            triangles: second.1.as_flattened(),
            work: &mut work(second.1.len()),
            given: second.0.len(),
            count: second.1.len(),
        },
    )
}

/// Work for so many triangles. A mesh over the limit is refused before its work is looked at.
fn work(count: usize) -> Vec<u32> {
    vec![
        0;
        if count > MOST_GIVEN {
            0
        } else {
            lent::FILING_WORK * count
        }
    ]
}
