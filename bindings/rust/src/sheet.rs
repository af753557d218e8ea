//! The quality sheet of a list of quads.

use crate::raw::sedgepick_sheet;
use crate::{Mesh, Refusal, MOST_CAPACITY, MOST_SLOTS};

/// Steps of the scaled Jacobian, bounded by the doubles nearest 0.1, 0.2 and so on to 0.9; a bound counts upward.
pub const STEPS: usize = 10;

/// Numbers that a sheet writes: a count a step, one of the quads without metrics, and the quads that have the worst of each kind.
pub const SHEET_NUMBERS: usize = STEPS + 3;

/// Numbers of a quad's record: four corners, then what it says of its birth, which a sheet does not read.
pub const RECORD: usize = 8;

/// The sheet of the first `count` quads over the first `given` points, in memory that the caller lends: three f64 a point, eight numbers a quad, two f64 a
/// quad to write, and [`SHEET_NUMBERS`] numbers. Any numbers are safe: those that do not fit are refused, which touches nothing.
///
/// `out` gets scaled Jacobian and cosine, quad after quad, two zeros for a quad without metrics. `answer` gets the counts, then the quads that have the worst
/// scaled Jacobian and the worst cosine, `count` where no quad has metrics.
pub fn put_sheet(
    points: &[f64],
    quads: &[u32],
    out: &mut [f64],
    given: usize,
    count: usize,
    answer: &mut [usize],
) -> Result<(), Refusal> {
    // Each pointer comes with the length of its slice; those written to are exclusive, and the function asks nothing else.
    let number = unsafe {
        sedgepick_sheet(
            points.as_ptr(),
            points.len(),
            quads.as_ptr(),
            quads.len(),
            out.as_mut_ptr(),
            out.len(),
            given,
            count,
            answer.as_mut_ptr(),
            answer.len(),
        )
    };
    Refusal::check(number)
}

/// A quad's two numbers.
#[derive(Clone, Copy, Debug, PartialEq)]
pub struct Metrics {
    /// The least scaled Jacobian of the corners.
    pub jacobian: f64,
    /// The largest cosine of the corners' angles.
    pub cosine: f64,
}

/// The worst value of a kind, and the first quad that has it.
#[derive(Clone, Copy, Debug, PartialEq)]
pub struct Worst {
    pub quad: usize,
    pub value: f64,
}

/// What a sheet says of a list of quads.
#[derive(Clone, Debug, PartialEq)]
pub struct Sheet {
    /// Quad by quad; two zeros for one without metrics: it is not convex, not counterclockwise, or has no area.
    pub metrics: Vec<Metrics>,
    /// How many quads lie in each step of the scaled Jacobian. With `without_metrics` they add up to the quads.
    pub steps: [usize; STEPS],
    pub without_metrics: usize,
    /// The least scaled Jacobian; `None` where no quad has metrics.
    pub worst_jacobian: Option<Worst>,
    /// The largest cosine; `None` where no quad has metrics.
    pub worst_cosine: Option<Worst>,
}

/// The sheet of quads over points, by their corners: at most 16,384 quads and 8,192 points (1), every corner one of the points (5), every x and y within 8 (7).
///
/// ```
/// use sedgepick::{sheet, Refusal};
///
/// let points = [[0.0, 0.0, 0.0], [1.0, 0.0, 0.0], [1.0, 1.0, 0.0], [0.0, 1.0, 0.0]];
/// let s = sheet(&points, &[[0, 1, 2, 3], [3, 2, 1, 0]])?;
/// assert_eq!(s.metrics[0].jacobian, 1.0);
/// assert_eq!((s.steps[9], s.without_metrics), (1, 1));
/// assert_eq!(s.worst_jacobian.map(|w| w.quad), Some(0));
/// assert_eq!(sheet(&points, &[[3, 2, 1, 0]])?.worst_jacobian, None);
/// assert_eq!(sheet(&points, &[[0, 1, 2, 4]]), Err(Refusal::UnknownNode));
/// # Ok::<(), Refusal>(())
/// ```
pub fn sheet(points: &[[f64; 3]], quads: &[[u32; 4]]) -> Result<Sheet, Refusal> {
    let (given, count) = (points.len(), quads.len());
    // A list over the limits is refused before any slice is looked at.
    let over = given > MOST_CAPACITY || count > MOST_SLOTS;
    let room = if over { 0 } else { count };
    let mut records = vec![0; RECORD * room];
    for (record, quad) in records.chunks_exact_mut(RECORD).zip(quads) {
        record[..4].copy_from_slice(quad);
    }
    let mut out = vec![0.0; 2 * room];
    let mut answer = [0; SHEET_NUMBERS];
    put_sheet(
        points.as_flattened(),
        &records,
        &mut out,
        given,
        count,
        &mut answer,
    )?;
    let worst = |quad: usize, place: usize| {
        let value = out.get(2 * quad + place).copied();
        value
            .filter(|_| quad < count)
            .map(|value| Worst { quad, value })
    };
    let mut steps = [0; STEPS];
    steps.copy_from_slice(&answer[..STEPS]);
    Ok(Sheet {
        steps,
        without_metrics: answer[STEPS],
        worst_jacobian: worst(answer[STEPS + 1], 0),
        worst_cosine: worst(answer[STEPS + 2], 1),
        metrics: out
            .chunks_exact(2)
            .map(|v| Metrics {
                jacobian: v[0],
                cosine: v[1],
            })
            .collect(),
    })
}

impl Mesh {
    /// The sheet of the mesh's quads.
    pub fn sheet(&self) -> Result<Sheet, Refusal> {
        let corners: Vec<[u32; 4]> = self.quads.iter().map(|quad| quad.nodes).collect();
        sheet(&self.points, &corners)
    }
}
