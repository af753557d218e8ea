//! A call's numbers, and the refusals 1 to 7 and 13 to 15 that they meet before a run.

use crate::mesh::Node;
use crate::patched::{self, FrontResult, FrontStop, Quality};

/// What a call hands in. Floats of the mesh are kept as their bits, so a NaN stays as read.
#[derive(Clone, Debug, Default, PartialEq)]
pub struct Input {
    pub size: u64,
    pub stop: u32,
    pub quality: Quality,
    pub joints: Vec<[u32; 2]>,
    /// The grid profile, chosen by any number but 0.
    pub grid: u32,
    /// Words of the trace that is lent; 0 for none.
    pub trace: usize,
    pub triangles: Vec<[u32; 3]>,
    pub points: Vec<[u64; 3]>,
}

/// The standard set.
impl Default for Quality {
    fn default() -> Self {
        patched::STANDARD
    }
}

/// Points and slots that the caller lends.
#[derive(Clone, Copy, Debug)]
pub struct Lent {
    pub points: usize,
    pub slots: usize,
}

/// What the program lends.
pub const PROGRAM: Lent = Lent {
    points: 96,
    slots: 160,
};

/// The most that may be lent.
pub const LARGEST: Lent = Lent {
    points: MOST_POINTS,
    slots: MOST_SLOTS,
};

/// As much as no run can use.
pub const UNBOUNDED: Lent = Lent {
    points: usize::MAX,
    slots: usize::MAX,
};

/// Grid lines to a unit, in the grid profile.
pub const GRID: f64 = 1024.0;

/// The most joints, repeats counted.
pub const MOST_JOINTS: usize = 256;

pub const MOST_GIVEN: usize = 4096;
pub const MOST_POINTS: usize = 8192;
pub const MOST_SLOTS: usize = 16384;
const LEAST_SIZE: f64 = 1.0 / 64.0;
const MOST_SIZE: f64 = 8.0;
const MOST_COORDINATE: f64 = 8.0;

/// What the numbers of a quality set may be, the bounds included.
pub const JACOBIANS: [f64; 2] = [0.0, 1.0];
pub const COSINES: [f64; 2] = [0.5, 0.99];
pub const FACTORS: [f64; 2] = [0.1, 4.0];
pub const PAIRS: [usize; 2] = [1, 64];

impl Quality {
    /// Whether refusal 14 passes the set; a NaN is in no range.
    pub fn is_good(&self) -> bool {
        let within = |x: f64, [low, high]: [f64; 2]| low <= x && x <= high;
        within(self.least_jacobian, JACOBIANS)
            && within(self.largest_cosine, COSINES)
            && within(self.side_low, FACTORS)
            && within(self.side_high, FACTORS)
            && self.side_low <= self.side_high
            && PAIRS[0] <= self.pairs
            && self.pairs <= PAIRS[1]
    }
}

impl Input {
    pub fn size(&self) -> f64 {
        f64::from_bits(self.size)
    }

    /// The given points as floats.
    pub fn nodes(&self) -> Vec<Node> {
        self.points.iter().map(|p| p.map(f64::from_bits)).collect()
    }

    /// The given triangles as the modules take them.
    pub fn tris(&self) -> Vec<[usize; 3]> {
        let wide = |t: &[u32; 3]| t.map(|v| v as usize);
        self.triangles.iter().map(wide).collect()
    }

    /// True for stop rule 1.
    pub fn even(&self) -> bool {
        self.stop == 1
    }

    /// The joints as the module takes them.
    pub fn pairs(&self) -> Vec<[usize; 2]> {
        let wide = |j: &[u32; 2]| j.map(|v| v as usize);
        self.joints.iter().map(wide).collect()
    }

    /// The first of the conditions of 1, 2, 3, 14, 4, 5, 6, 7, 15 and 13 that holds. The
    /// lent slices are as long as `lent` states, so of 4 only the capacities are tested.
    pub fn refusal(&self, lent: Lent) -> Option<u32> {
        let (tris, given) = (self.triangles.len(), self.points.len());
        let over = tris > MOST_GIVEN
            || given > MOST_GIVEN
            || lent.points > MOST_POINTS
            || lent.slots > MOST_SLOTS;
        let sized = self.size() == 0.0 || LEAST_SIZE <= self.size() && self.size() <= MOST_SIZE;
        let mut nodes = self.triangles.iter().flatten();
        let twice = |t: &[u32; 3]| t[0] == t[1] || t[1] == t[2] || t[0] == t[2];
        let far = |p: &[u64; 3]| outside(p[0]) || outside(p[1]);
        let bad = |j: &[u32; 2]| j[0] == j[1] || j.iter().any(|&v| v as usize >= given);
        let joints = &self.joints;
        let off = |p: &[u64; 3]| off_grid(p[0]) || off_grid(p[1]);
        let off_profile = self.size() != 0.0 || self.points.iter().any(off);
        let conditions = [
            (1, over),
            (2, !sized),
            (3, self.stop > 1),
            (14, !self.quality.is_good()),
            (4, lent.points < given || lent.slots < tris),
            (5, nodes.any(|&v| v as usize >= given)),
            (6, self.triangles.iter().any(twice)),
            (7, self.points.iter().any(far)),
            (15, self.grid != 0 && off_profile),
            (13, joints.len() > MOST_JOINTS || joints.iter().any(bad)),
        ];
        conditions.iter().find(|c| c.1).map(|c| c.0)
    }

    /// The patched run, after the refusals before a run.
    pub fn run(&self, lent: Lent) -> Result<FrontResult, u32> {
        if let Some(number) = self.refusal(lent) {
            return Err(number);
        }
        let result = self.run_unchecked(lent);
        match result.refused {
            Some(number) => Err(number),
            None => Ok(result),
        }
    }

    /// The limit on attempts of a run by itself.
    pub fn usual_limit(&self) -> usize {
        200 * self.triangles.len() + 10_000
    }

    /// The patched run of an input that is not refused before it.
    pub fn run_unchecked(&self, lent: Lent) -> FrontResult {
        self.run_within(lent, None)
    }

    /// The same with another limit on attempts than the usual one.
    pub fn run_within(&self, lent: Lent, limit: Option<usize>) -> FrontResult {
        self.run_on(lent, limit, None)
    }

    /// The same where one edge alone has a turn, smaller node first: one attempt on a copy of the
    /// starting mesh, or none where the edge is not on its front; and no trace.
    pub fn run_on(
        &self,
        lent: Lent,
        limit: Option<usize>,
        only: Option<(usize, usize)>,
    ) -> FrontResult {
        let stop = if self.even() {
            FrontStop::EvenComponents
        } else {
            FrontStop::Exhaust
        };
        let (tris, nodes) = (self.tris(), self.nodes());
        patched::run_front(
            &tris,
            &nodes,
            self.size(),
            stop,
            lent.points,
            lent.slots,
            self.quality,
            &self.pairs(),
            self.grid != 0,
            limit,
            only,
            only.map_or(self.trace, |_| 0),
        )
    }
}

/// No multiple of 1/1024; of what is within 8, the product is exact.
fn off_grid(bits: u64) -> bool {
    let units = GRID * f64::from_bits(bits);
    units != units.floor()
}

/// Not finite, or beyond 8 in magnitude.
pub fn outside(bits: u64) -> bool {
    let within = f64::from_bits(bits).abs() <= MOST_COORDINATE;
    !within
}
