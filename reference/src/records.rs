//! A quad's record and a finished run's numbers, as a run hands them out.

use crate::patched::FrontResult;

/// Numbers of a record.
pub const WORDS: usize = 8;

/// The names of its numbers: the nodes, the front edge that it grew from, the round, the triangles that it replaced.
pub const NAMES: &str = "n0 n1 n2 n3 u v round replaced";

/// The records of a run's quads.
pub fn records(r: &FrontResult) -> Vec<[usize; WORDS]> {
    assert_eq!(r.quads.len(), r.births.len(), "a birth for each quad");
    let record = |k: usize| {
        let ([a, b, c, d], birth) = (r.quads[k], r.births[k]);
        let (u, v) = birth.edge;
        [a, b, c, d, u, v, birth.round, birth.replaced]
    };
    (0..r.quads.len()).map(record).collect()
}

/// The counts, the lengths and the trials of a finished run.
pub fn counts(r: &FrontResult) -> [usize; 14] {
    let c = &r.refusals;
    [
        c.front_empty,
        c.attempts,
        c.placement,
        c.invalid_quad,
        c.recovery,
        c.region,
        c.odd_region,
        c.mismatch_insertions,
        c.limit,
        r.quads.len(),
        r.triangles.len(),
        r.points.len(),
        r.region_components.len(),
        c.trials,
    ]
}
