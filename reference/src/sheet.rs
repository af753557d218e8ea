//! The quality sheet of a list of quads: each quad's scaled Jacobian and largest cosine, the worst of each, and the quads counted by steps.

use crate::mesh::Node;
use crate::patched::quad_metrics;
use crate::records::WORDS;

/// Limits on what is stated.
pub const MOST_QUADS: usize = 16_384;
pub const MOST_POINTS: usize = 8_192;

/// The bounds between the steps; one that is met counts upward.
pub const BOUNDS: [f64; 9] = [0.1, 0.2, 0.3, 0.4, 0.5, 0.6, 0.7, 0.8, 0.9];

/// Ten steps, then the quads without metrics.
pub const PLACES: usize = 11;

/// What is handed in: stated numbers, slices, and how long the slice is that the rows are written to.
#[derive(Clone, Copy, Debug)]
pub struct Listed<'a> {
    pub points: &'a [f64],
    pub quads: &'a [u32],
    pub out: usize,
    pub given: usize,
    pub count: usize,
}

/// A quad's number and its value.
pub type Worst = Option<(usize, f64)>;

#[derive(Clone, Debug)]
pub struct Sheet {
    /// Scaled Jacobian and cosine, quad after quad.
    pub rows: Vec<[f64; 2]>,
    pub counts: [usize; PLACES],
    pub jacobian: Worst,
    pub cosine: Worst,
}

impl Listed<'_> {
    fn corners(&self, i: usize) -> [usize; 4] {
        [0, 1, 2, 3].map(|k| self.quads[WORDS * i + k] as usize)
    }

    /// The first test that fails.
    fn refusal(&self) -> Option<u32> {
        if self.count > MOST_QUADS || self.given > MOST_POINTS {
            return Some(1);
        }
        let room = [
            (self.points.len(), 3 * self.given),
            (self.quads.len(), WORDS * self.count),
            (self.out, 2 * self.count),
        ];
        if room.iter().any(|(has, needs)| has < needs) {
            return Some(4);
        }
        let unknown = |i| self.corners(i).iter().any(|&v| v >= self.given);
        if (0..self.count).any(unknown) {
            return Some(5);
        }
        let far = |x: f64| !x.is_finite() || x.abs() > 8.0;
        let stated = self.points[..3 * self.given].chunks(3);
        if stated.into_iter().any(|p| far(p[0]) || far(p[1])) {
            return Some(7);
        }
        None
    }

    pub fn sheet(&self) -> Result<Sheet, u32> {
        if let Some(number) = self.refusal() {
            return Err(number);
        }
        let nodes: Vec<Node> = self.points[..3 * self.given]
            .chunks(3)
            .map(|p| [p[0], p[1], p[2]])
            .collect();
        let metrics: Vec<Option<(f64, f64)>> = (0..self.count)
            .map(|i| quad_metrics(&nodes, &self.corners(i)))
            .collect();
        let mut counts = [0; PLACES];
        for m in &metrics {
            counts[m.map_or(PLACES - 1, |(sj, _)| step(sj))] += 1;
        }
        let numbered = |pick: fn((f64, f64)) -> f64| -> Vec<(usize, f64)> {
            let value = |(i, m): (usize, &Option<(f64, f64)>)| m.map(|m| (i, pick(m)));
            metrics.iter().enumerate().filter_map(value).collect()
        };
        let jacobians = numbered(|m| m.0);
        let cosines = numbered(|m| m.1);
        let least = jacobians.iter().map(|v| v.1).fold(f64::INFINITY, f64::min);
        let largest = cosines
            .iter()
            .map(|v| v.1)
            .fold(f64::NEG_INFINITY, f64::max);
        Ok(Sheet {
            rows: metrics
                .iter()
                .map(|m| m.map_or([0.0; 2], |(sj, k)| [sj, k]))
                .collect(),
            counts,
            jacobian: jacobians.into_iter().find(|v| v.1 == least),
            cosine: cosines.into_iter().find(|v| v.1 == largest),
        })
    }
}

/// Between which bounds a scaled Jacobian lies.
fn step(sj: f64) -> usize {
    BOUNDS.iter().rposition(|b| *b <= sj).map_or(0, |i| i + 1)
}
