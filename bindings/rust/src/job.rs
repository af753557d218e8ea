//! Several meshes under one attempt allowance.

use crate::lent::{self, Call, State};
use crate::{attempt, Mesh, Options, Refusal, MOST_CAPACITY, MOST_SLOTS};

/// The most meshes of a job, and the greatest allowance.
pub const MOST_MESHES: usize = 16;
pub const MOST_ALLOWANCE: usize = 1_000_000;

/// Words of trace that a mesh of a job is lent where one is asked for and nothing else is set.
pub const MOST_TRACE: usize = 1 << 22;

/// A job: up to 16 meshes under one attempt allowance, run in turn.
///
/// Each mesh is entitled to the whole part of the allowance divided by the number of meshes, and to what the one before it left. What it leaves is that less
/// what it is charged. The attempts made never pass the allowance, and where a mesh run by itself is finished, its quads in the job are the first ones of that
/// run. A job is no value to copy, so each of its states is handed on once.
///
/// A mesh is run once. `run_front` makes a run again with more memory where it runs out; here that would take the attempts from the allowance twice. So a job
/// lends as much as the limits allow at once, and 8 and 9 come back only from a run that needs more than them, or than `lend` set; and 11 only where a trace that is
/// asked for needs more than [`MOST_TRACE`] words, or than `lend_trace` set.
#[derive(Debug, PartialEq, Eq)]
pub struct Job {
    state: State,
    charged: usize,
    capacity: usize,
    slots: usize,
    words: usize,
}

/// What a mesh of a job came to.
#[derive(Clone, Debug, PartialEq)]
pub struct Slab {
    /// A refused mesh has its number, and the job goes on.
    pub mesh: Result<Mesh, Refusal>,
    /// Attempts that the mesh was entitled to.
    pub entitled: usize,
    /// The limit on attempts of its run: that, or the usual one of 200 for each triangle and 10,000.
    pub limit: usize,
    /// The attempts charged: those made, where 8, 9 or 11 ended the run those begun, and none where it was refused before.
    pub charged: usize,
    /// What is left for the next mesh.
    pub left: usize,
}

impl Job {
    /// A job of 1 to 16 meshes under an allowance of 1 to 1,000,000 attempts; other numbers are refused as [`Refusal::BadJob`].
    pub fn new(meshes: usize, allowance: usize) -> Result<Job, Refusal> {
        let good = (1..=MOST_MESHES).contains(&meshes) && (1..=MOST_ALLOWANCE).contains(&allowance);
        if !good {
            return Err(Refusal::BadJob);
        }
        Ok(Job {
            state: State::new(meshes, allowance),
            charged: 0,
            capacity: MOST_CAPACITY,
            slots: MOST_SLOTS,
            words: MOST_TRACE,
        })
    }

    /// Sets how many points of capacity and slots each mesh is lent, at least as many as it has and at most as many as the limits allow.
    pub fn lend(&mut self, capacity: usize, slots: usize) {
        self.capacity = capacity.min(MOST_CAPACITY);
        self.slots = slots.min(MOST_SLOTS);
    }

    /// Sets how many words of trace a mesh is lent that asks for one.
    pub fn lend_trace(&mut self, words: usize) {
        self.words = words;
    }

    /// The state before the next mesh.
    pub fn state(&self) -> State {
        self.state
    }

    /// Attempts charged so far.
    pub fn charged(&self) -> usize {
        self.charged
    }

    /// Meshes that are still to come.
    pub fn to_come(&self) -> usize {
        self.state.meshes - self.state.done
    }

    /// A mesh's own part of the allowance.
    pub fn share(&self) -> usize {
        self.state.allowance / self.state.meshes
    }

    /// Runs the next mesh. Past the last one it is refused as [`Refusal::BadJob`], and the job stays as it is.
    pub fn run(
        &mut self,
        points: &[[f64; 3]],
        triangles: &[[u32; 3]],
        options: &Options<'_>,
    ) -> Slab {
        let (given, count) = (points.len(), triangles.len());
        let call = Call {
            given,
            capacity: self.capacity.max(given),
            count,
            slots: self.slots.max(count),
            size: options.size,
            stop: options.stop as u32,
        };
        let (before, mut charged) = (self.state, 0);
        let state = &mut self.state;
        let mesh = attempt(
            points,
            triangles,
            call,
            options.words(self.words),
            options,
            |cells, memory, call, further| {
                let step = lent::job(before, cells, memory, call, further);
                (*state, charged) = (step.next, step.charged);
                step.answer
            },
        );
        self.charged += charged;
        let entitled = self.share() + before.left;
        Slab {
            mesh,
            entitled,
            limit: entitled.min(200 * count + 10_000),
            charged,
            left: self.state.left,
        }
    }

    /// Runs meshes in turn, each when the iterator is asked for it, until the job has no mesh to come.
    pub fn over<I: IntoIterator>(&mut self, meshes: I) -> Over<'_, I::IntoIter> {
        Over {
            job: self,
            meshes: meshes.into_iter(),
        }
    }
}

/// Points, triangles and options of meshes, run in turn as the next ones of a job.
#[derive(Debug)]
pub struct Over<'j, I> {
    job: &'j mut Job,
    meshes: I,
}

impl<'m, I> Iterator for Over<'_, I>
where
    I: Iterator<Item = (&'m [[f64; 3]], &'m [[u32; 3]], Options<'m>)>,
{
    type Item = Slab;

    fn next(&mut self) -> Option<Slab> {
        if self.job.to_come() == 0 {
            return None;
        }
        let (points, triangles, options) = self.meshes.next()?;
        Some(self.job.run(points, triangles, &options))
    }
}
