//! Quads from the triangles of a plane mesh, by an advancing front.
//!
//! The mesher is proved: a finished mesh is the one that a short definition fixes, bit for bit, and each of its quads is, in exact arithmetic, convex
//! and counterclockwise. With the standard quality set no quad has a corner under 24.99 degrees; with any other set, the exact cosine of each corner is at most
//! the set's largest cosine plus 1e-9. This crate lends it memory.
//!
//! ```
//! use sedgepick::{run_front, Refusal, Stop};
//!
//! let points = [[0.0, 0.0, 0.0], [1.0, 0.0, 0.0], [1.0, 1.0, 0.0], [0.0, 1.0, 0.0]];
//! let triangles = [[0, 1, 2], [0, 2, 3]];
//! let mesh = run_front(&points, &triangles, 1.0, Stop::Exhaust)?;
//! assert_eq!(mesh.quads[0].nodes, [0, 1, 2, 3]);
//! assert_eq!((mesh.quads[0].edge, mesh.quads[0].round, mesh.quads[0].replaced), ([0, 1], 1, 2));
//! assert!(mesh.triangles.is_empty());
//! assert_eq!((mesh.counts.attempts, mesh.counts.trials), (1, 1));
//!
//! let refused = run_front(&points, &[[0, 1, 4]], 1.0, Stop::Exhaust);
//! assert_eq!(refused, Err(Refusal::UnknownNode));
//! # Ok::<(), Refusal>(())
//! ```
//!
//! An office may hold its quads to other numbers:
//!
//! ```
//! use sedgepick::{run_front_with, Options, Quality, Refusal};
//!
//! let points = [[0.0, 0.0, 0.0], [1.0, 0.0, 0.0], [1.5, 1.0, 0.0], [0.5, 1.0, 0.0]];
//! let triangles = [[0, 1, 2], [0, 2, 3]];
//! let usual = Options { size: 1.0, ..Options::default() };
//! assert_eq!(run_front_with(&points, &triangles, &usual)?.quads.len(), 1);
//! let quality = Quality::builder().least_jacobian(0.9).build()?;
//! let strict = Options { quality, ..usual };
//! assert_eq!(run_front_with(&points, &triangles, &strict)?.quads.len(), 0);
//! # Ok::<(), Refusal>(())
//! ```
//!
//! A joint, here the edge between the triangles, is an edge of the finished mesh too:
//!
//! ```
//! use sedgepick::{run_front_with, Options, Refusal};
//!
//! let points = [[0.0, 0.0, 0.0], [1.0, 0.0, 0.0], [1.0, 1.0, 0.0], [0.0, 1.0, 0.0]];
//! let options = Options { size: 1.0, joints: &[[2, 0]], ..Options::default() };
//! let mesh = run_front_with(&points, &[[0, 1, 2], [0, 2, 3]], &options)?;
//! assert_eq!((mesh.quads.len(), mesh.triangles.len()), (0, 2));
//! # Ok::<(), Refusal>(())
//! ```
//!
//! What one edge would give is told before a run, see [`preview`]:
//!
//! ```
//! use sedgepick::{preview, Cost, Kind, Options, Refusal, Shown};
//!
//! let points = [[0.0, 0.0, 0.0], [1.0, 0.0, 0.0], [1.0, 1.0, 0.0], [0.0, 1.0, 0.0]];
//! let triangles = [[0, 1, 2], [0, 2, 3]];
//! let options = Options { size: 1.0, ..Options::default() };
//! let shown = preview(&points, &triangles, [1, 0], &options)?;
//! assert!(matches!(shown, Shown::Quad { quad, .. } if quad.nodes == [0, 1, 2, 3]));
//! assert_eq!(preview(&points, &triangles, [0, 2], &options)?, Shown::OffFront);
//! let locked = Options { joints: &[[0, 2]], ..options };
//! let cost = Cost { insertions: 0, flips: 0 };
//! assert_eq!(preview(&points, &triangles, [0, 1], &locked)?, Shown::Refused { kind: Kind::Region, cost });
//! # Ok::<(), Refusal>(())
//! ```
//!
//! A run can be asked for its trace, and a mesh be stepped through as it grew, see [`Entry`] and [`replay`]:
//!
//! ```
//! use sedgepick::{entries, replay, run_front_with, Entry, Options, Refusal};
//!
//! let points = [[0.0, 0.0, 0.0], [1.0, 0.0, 0.0], [1.0, 1.0, 0.0], [0.0, 1.0, 0.0]];
//! let triangles = [[0, 1, 2], [0, 2, 3]];
//! let options = Options { size: 1.0, trace: true, ..Options::default() };
//! let mesh = run_front_with(&points, &triangles, &options)?;
//! let entry = Entry::Quad { quad: mesh.quads[0], slots: vec![0, 1] };
//! assert!(entries(&mesh.trace).eq([entry]));
//! assert_eq!(replay(&points, &triangles, &mesh.trace)?.quads, mesh.quads);
//! assert_eq!(replay(&points, &triangles, &[])?.triangles, triangles);
//! assert_eq!(replay(&points, &triangles, &[2, 0, 2])?.triangles, [[1, 3, 0], [3, 1, 2]]);
//! assert_eq!(replay(&points, &triangles, &[2, 2, 0]), Err(Refusal::BadTrace));
//! # Ok::<(), Refusal>(())
//! ```
//!
//! Several slabs can share one attempt allowance, see [`Job`]:
//!
//! ```
//! use sedgepick::{Job, Options, Refusal};
//!
//! let points = [[0.0, 0.0, 0.0], [1.0, 0.0, 0.0], [1.0, 1.0, 0.0], [0.0, 1.0, 0.0]];
//! let options = Options { size: 1.0, ..Options::default() };
//! let mut job = Job::new(2, 7)?;
//! let ground = job.run(&points, &[[0, 1, 1]], &options);
//! assert_eq!((ground.mesh, ground.charged, ground.left), (Err(Refusal::RepeatedNode), 0, 3));
//! let roof = job.run(&points, &[[0, 1, 2], [0, 2, 3]], &options);
//! assert_eq!((roof.mesh?.quads.len(), roof.limit, roof.charged, roof.left), (1, 6, 1, 5));
//! assert_eq!(job.charged(), 1);
//! # Ok::<(), Refusal>(())
//! ```
//!
//! A finished mesh, ours or not, can be judged against the mesh that was given, in exact arithmetic, see [`accept`]:
//!
//! ```
//! use sedgepick::{run_front, Refusal, Stop};
//!
//! let points = [[0.0, 0.0, 0.0], [1.0, 0.0, 0.0], [1.0, 1.0, 0.0], [0.0, 1.0, 0.0]];
//! let triangles = [[0, 1, 2], [0, 2, 3]];
//! let mut mesh = run_front(&points, &triangles, 1.0, Stop::Exhaust)?;
//! assert!(mesh.accept(&points, &triangles, &[])?.accepted());
//! mesh.points[3] = [0.75, 0.5, 0.0];
//! let verdict = mesh.accept(&points, &triangles, &[])?;
//! assert_eq!((verdict.accepted(), verdict.moved, verdict.folded), (false, Some(3), Some(0)));
//! # Ok::<(), Refusal>(())
//! ```
//!
//! Meshes have an order of their own, in which an archive can keep them:
//!
//! ```
//! use sedgepick::{Filed, Refusal};
//!
//! let points = [[0.0, 0.0, 0.0], [1.0, 0.0, 0.0], [1.0, 1.0, 0.0], [0.0, 1.0, 0.0]];
//! let square = Filed::new(&points, &[[0, 1, 2], [0, 2, 3]])?;
//! assert_eq!(square, Filed::new(&points, &[[2, 3, 0], [1, 2, 0]])?);
//! assert!(square < Filed::new(&points, &[[0, 1, 3], [1, 2, 3]])?);
//! # Ok::<(), Refusal>(())
//! ```
//!
//! A mesh must lie within 8 of zero in x and y; z is carried and never read. Larger meshes are scaled by their user, with the size.

mod accept;
mod filing;
mod job;
pub mod lent;
mod preview;
mod quality;
#[doc(hidden)]
pub mod raw;
mod refusal;
mod sheet;
mod small;
mod trace;

pub use accept::{accept, Judged, Verdict, ANY_TRIANGLE, MOST_JUDGED, VERDICT_NUMBERS};
pub use filing::{filing_order, Filed};
pub use job::{Job, Over, Slab, MOST_ALLOWANCE, MOST_MESHES, MOST_TRACE};
pub use preview::{preview, Cost, Kind, Shown};
pub use quality::{Quality, QualityBuilder, COSINES, JACOBIANS, PAIRS, SIDES};
pub use refusal::Refusal;
pub use sheet::{put_sheet, sheet, Metrics, Sheet, Worst, RECORD, SHEET_NUMBERS, STEPS};
pub use small::small_mesh;
pub use trace::{entries, replay, Entries, Entry, Replayed};

use lent::{Call, Further, Lengths, Memory};

/// Limits on points and slots, and on the given ones.
pub const MOST_CAPACITY: usize = 8192;
pub const MOST_SLOTS: usize = 16384;
pub const MOST_GIVEN: usize = 4096;

/// Lines of the grid profile to a unit.
pub const GRID_LINES: f64 = 1024.0;

/// The most joints, repeats counted.
pub const MOST_JOINTS: usize = 256;

/// When a run stops.
#[derive(Clone, Copy, Debug, PartialEq, Eq, Hash)]
#[repr(u32)]
pub enum Stop {
    /// It goes on while an edge of the front is open.
    Exhaust = 0,
    /// And a quad that would leave a component with an odd number of triangles is refused.
    EvenComponents = 1,
}

/// What a run goes by beside points and triangles. `Default` has no size, stop rule 0, the standard quality set, no joints, no profile and no trace.
#[derive(Clone, Copy, Debug, PartialEq)]
pub struct Options<'a> {
    /// The target length of an edge: 0 for none, otherwise from 1/64 to 8.
    pub size: f64,
    pub stop: Stop,
    pub quality: Quality,
    /// Edges that are locked, their nodes in either order, at most 256. One that the given triangles have is an edge of the finished mesh. The order of the
    /// list and repeats change nothing.
    pub joints: &'a [[u32; 2]],
    /// The grid profile: x and y of every point are multiples of 1/1024 and the size is 0. Nothing is inserted, and the summed area of quads and triangles,
    /// each without sign, equals that of the given triangles, exactly.
    pub grid: bool,
    /// The mesh comes with the trace of its run; nothing else changes. A preview has none.
    pub trace: bool,
}

impl<'a> Options<'a> {
    /// As a call over lent memory takes them, beside size and stop rule.
    fn further(&self) -> Further<'a> {
        Further {
            joints: self.joints.as_flattened(),
            joint_count: self.joints.len(),
            set: self.quality.set(),
            grid: self.grid as u32,
        }
    }

    /// Words of trace to lend, where one is asked for.
    fn words(&self, most: usize) -> usize {
        if self.trace {
            most
        } else {
            0
        }
    }
}

impl Default for Options<'_> {
    fn default() -> Self {
        Options {
            size: 0.0,
            stop: Stop::Exhaust,
            quality: Quality::default(),
            joints: &[],
            grid: false,
            trace: false,
        }
    }
}

/// What a run counted. Attempts are quads, refused attempts and, where a limit ended the run, the one that passed it.
#[derive(Clone, Copy, Debug, Default, PartialEq, Eq, Hash)]
pub struct Counts {
    /// 1 when no front edge was left.
    pub front_empty: usize,
    pub attempts: usize,
    /// Attempts refused: no side nodes, an edge without length, or an edge that flips took off the front.
    pub placement: usize,
    /// No pair of side nodes with a good quad.
    pub invalid_quad: usize,
    /// A side that flips could not bring into the mesh.
    pub recovery: usize,
    /// The triangles inside the quad do not fill it, or a joint is inside it.
    pub region: usize,
    /// They do, and without them some component would be odd.
    pub odd_region: usize,
    /// Points added.
    pub mismatch_insertions: usize,
    /// 1 when a limit ended the run.
    pub limit: usize,
    /// Pairs of side nodes tried, over all attempts: at most the set's number in each. A refused attempt tried all the pairs it had, up to that number, one
    /// that placed a quad those up to the quad's.
    pub trials: usize,
}

/// A quad, and how it came about.
#[derive(Clone, Copy, Debug, PartialEq, Eq, Hash)]
pub struct Quad {
    /// Counterclockwise.
    pub nodes: [u32; 4],
    /// The front edge that it grew from, which is that between its first two nodes, the smaller one first.
    pub edge: [u32; 2],
    /// The round that placed it, counted from 1.
    pub round: u32,
    /// How many triangles it replaced.
    pub replaced: u32,
}

/// A finished mesh. The triangles that are left are as many as the given ones and two for each added point, less what the quads replaced.
#[derive(Clone, Debug, Default, PartialEq)]
pub struct Mesh {
    /// The given points, then the added ones in order of insertion.
    pub points: Vec<[f64; 3]>,
    /// Each convex and counterclockwise, in the order in which they were placed.
    pub quads: Vec<Quad>,
    /// The triangles that are left.
    pub triangles: Vec<[u32; 3]>,
    /// The sizes of their components, descending.
    pub components: Vec<u32>,
    pub counts: Counts,
    /// The words of the trace, which [`entries`] reads; none where it was not asked for.
    pub trace: Vec<u32>,
}

/// Meshes the triangles over the points with the standard quality set, no joints and no profile. `size` is the target length of an edge: 0 for none, otherwise from 1/64 to 8.
///
/// Where points or slots run out the run is made again with more, up to the limits, so that 8 and 9 come back only from a run that needs more than them.
/// The result does not depend on how much was lent. So it is with the trace where one is asked for, which has no limit: 11 does not come back.
pub fn run_front(
    points: &[[f64; 3]],
    triangles: &[[u32; 3]],
    size: f64,
    stop: Stop,
) -> Result<Mesh, Refusal> {
    let options = Options {
        size,
        stop,
        ..Options::default()
    };
    run_front_with(points, triangles, &options)
}

/// The same with further options. Whatever the set, each quad is exactly convex and counterclockwise, and the exact cosine of each of its corners is at
/// most the set's and 1e-9.
pub fn run_front_with(
    points: &[[f64; 3]],
    triangles: &[[u32; 3]],
    options: &Options<'_>,
) -> Result<Mesh, Refusal> {
    let (given, count) = (points.len(), triangles.len());
    let mut call = Call {
        given,
        capacity: (given + given / 4 + 32).min(MOST_CAPACITY).max(given),
        count,
        slots: (2 * count + 64).min(MOST_SLOTS).max(count),
        size: options.size,
        stop: options.stop as u32,
    };
    let mut words = options.words(TRACE_WORDS * (count + TRACE_WORDS));
    loop {
        match attempt(
            points,
            triangles,
            call,
            words,
            options,
            lent::run_front_with,
        ) {
            Err(Refusal::NoTrace) => words *= 2,
            Err(Refusal::NoPoint) if call.capacity < MOST_CAPACITY => {
                call.capacity = (2 * call.capacity).min(MOST_CAPACITY)
            }
            Err(Refusal::NoSlots) if call.slots < MOST_SLOTS => {
                call.slots = (2 * call.slots).min(MOST_SLOTS)
            }
            other => return other,
        }
    }
}

/// Words of trace that are lent at first for each triangle, and for so many more.
const TRACE_WORDS: usize = 16;

/// One run, with as much memory as the call states and so many words of trace.
fn attempt(
    points: &[[f64; 3]],
    triangles: &[[u32; 3]],
    call: Call,
    words: usize,
    options: &Options<'_>,
    run: impl FnOnce(&[u32], Memory<'_>, Call, Further<'_>) -> Result<lent::Answer, Refusal>,
) -> Result<Mesh, Refusal> {
    let mut room = Room::new(points, call, words);
    let further = options.further();
    let cells = triangles.as_flattened();
    let answer = run(cells, room.memory(), call, further)?;
    room.trace.truncate(answer.words);
    let lengths = Lengths {
        quads: answer.quads,
        triangles: answer.triangles,
        points: answer.points,
        components: answer.components,
    };
    Ok(Mesh {
        counts: answer.counts,
        ..room.lists(lengths)
    })
}

/// Memory that a call is lent, with the given points in it.
struct Room {
    points: Vec<f64>,
    quads: Vec<u32>,
    triangles: Vec<u32>,
    components: Vec<u32>,
    work: Vec<u32>,
    float_work: Vec<f64>,
    trace: Vec<u32>,
}

impl Room {
    /// As much as the call states, and so many words of trace. One over the limits is refused before any memory is looked at.
    fn new(points: &[[f64; 3]], call: Call, words: usize) -> Room {
        let over = call.given > MOST_GIVEN || call.count > MOST_GIVEN;
        let lend = if over {
            Call {
                capacity: 0,
                slots: 0,
                ..call
            }
        } else {
            call
        };
        let mut xyz: Vec<f64> = points.iter().flatten().copied().collect();
        xyz.resize(xyz.len().max(3 * lend.capacity), 0.0);
        Room {
            points: xyz,
            quads: vec![0; lend.quads_len()],
            triangles: vec![0; 3 * lend.slots],
            components: vec![0; lend.slots],
            work: vec![0; lend.work_len()],
            float_work: vec![0.0; lend.float_work_len()],
            trace: vec![0; words],
        }
    }

    fn memory(&mut self) -> Memory<'_> {
        Memory {
            points: &mut self.points,
            quads: &mut self.quads,
            triangles: &mut self.triangles,
            components: &mut self.components,
            work: &mut self.work,
            float_work: &mut self.float_work,
            trace: &mut self.trace,
        }
    }

    /// The lists of such lengths, and the trace as it is.
    fn lists(mut self, lengths: Lengths) -> Mesh {
        self.components.truncate(lengths.components);
        let points = self.points.chunks_exact(3).take(lengths.points);
        let triangles = self.triangles.chunks_exact(3).take(lengths.triangles);
        Mesh {
            points: points.map(|p| [p[0], p[1], p[2]]).collect(),
            quads: lent::quads(&self.quads, lengths.quads).collect(),
            triangles: triangles.map(|t| [t[0], t[1], t[2]]).collect(),
            components: self.components,
            counts: Counts::default(),
            trace: self.trace,
        }
    }
}
