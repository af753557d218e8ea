//! What an edge would give: one attempt on a copy of the starting mesh.

use crate::input::{Input, Lent};
use crate::patched::{FrontResult, Refusals};
use crate::records::{records, WORDS};

/// What the attempt costs.
#[derive(Clone, Copy, Debug, Default, PartialEq, Eq)]
pub struct Cost {
    pub insertions: usize,
    pub flips: usize,
}

/// What an attempt is refused under, by the names of the counts.
#[derive(Clone, Copy, Debug, PartialEq, Eq)]
pub enum Kind {
    Placement,
    InvalidQuad,
    Recovery,
    Region,
    OddRegion,
}

/// What a preview answers.
#[derive(Clone, Copy, Debug, PartialEq, Eq)]
pub enum Shown {
    /// Not on the front: no attempt, so nothing is spent.
    OffFront,
    /// The quad's record, with round 1.
    Quad([usize; WORDS], Cost),
    Refused(Kind, Cost),
    /// The number of a refusal: before the attempt, or 8 or 9 where points or slots ran out in it.
    Refusal(u32),
}

impl Shown {
    /// Whether the work slices are cleared: after every answer but that of a refusal before the
    /// attempt. No other lent memory ever differs.
    pub fn clears(&self) -> bool {
        !matches!(self, Shown::Refusal(number) if *number != 8 && *number != 9)
    }
}

/// What the edge between u and v would give, its nodes in either order.
pub fn preview(input: &Input, lent: Lent, u: usize, v: usize) -> Shown {
    if let Some(number) = input.refusal(lent) {
        return Shown::Refusal(number);
    }
    let attempt = input.run_on(lent, None, Some((u.min(v), u.max(v))));
    if let Some(number) = attempt.refused {
        return Shown::Refusal(number);
    }
    let cost = cost(&attempt);
    match (attempt.refusals.attempts, &records(&attempt)[..]) {
        (0, []) => Shown::OffFront,
        (1, [quad]) => Shown::Quad(*quad, cost),
        (1, []) => Shown::Refused(kind(&attempt.refusals), cost),
        _ => unreachable!("one attempt, and one quad at most"),
    }
}

fn cost(attempt: &FrontResult) -> Cost {
    Cost {
        insertions: attempt.refusals.mismatch_insertions,
        flips: attempt.flips,
    }
}

/// The one count of a refused attempt.
fn kind(counts: &Refusals) -> Kind {
    let kinds = [
        (counts.placement, Kind::Placement),
        (counts.invalid_quad, Kind::InvalidQuad),
        (counts.recovery, Kind::Recovery),
        (counts.region, Kind::Region),
        (counts.odd_region, Kind::OddRegion),
    ];
    assert_eq!(kinds.iter().map(|k| k.0).sum::<usize>(), 1, "one refusal");
    let refused = kinds.iter().find(|k| k.0 == 1);
    refused.expect("one refusal").1
}
