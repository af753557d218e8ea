//! Meshes for a job with their memory, allowances and states.

use reference::account::slots_used;
use reference::generators::shape::Room;
use reference::generators::{KINDS, TEXT};
use reference::input::{Input, Lent, LARGEST};
use reference::job::{Job, Step, MOST_ALLOWANCE};
use reference::patched::FrontResult;
use reference::random::Random;

use crate::asked::asked;
use crate::cases::BEFORE_SLICES;
use crate::memory::{self, Tails, SLICES};

/// Of so many meshes four have a set, four have joints, four are in the profile.
const ASKED_OF: usize = 24;

/// A mesh for a job, its memory, and its run by itself with all that may be lent and its whole trace.
pub struct Slab {
    pub input: Input,
    pub lent: Lent,
    pub tails: Tails,
    pub alone: Option<FrontResult>,
}

impl Slab {
    pub fn new(r: &mut Random) -> Slab {
        let (kind, space) = (r.pick(KINDS), space(r));
        let mut input = (kind.1)(r, &space);
        if input.stop < 2 {
            input.stop = r.below(2) as u32;
        }
        if input.refusal(LARGEST).is_none() {
            input = asked(input, ASKED_OF, r);
        }
        let mut slab = Slab {
            lent: Lent {
                points: input.points.len() + r.below(9),
                slots: input.triangles.len() + r.below(9),
            },
            alone: None,
            tails: Tails([(); SLICES].map(|_| r.below(5) as isize)),
            input,
        };
        if slab.input.refusal(LARGEST).is_none() {
            slab.input.trace = usize::MAX;
            let alone = slab.input.run_unchecked(LARGEST);
            slab.input.trace = room(alone.trace.len(), r);
            slab.lend(&alone, r);
            slab.alone = Some(alone);
        } else {
            slab.input.trace = r.pick(&[0, 0, 1, 30]);
        }
        if r.once_in(24) {
            slab.shorten(r);
        }
        slab
    }

    /// As much as the run by itself needs, or less; rarely less than it has, or more than may be.
    fn lend(&mut self, alone: &FrontResult, r: &mut Random) {
        let (given, count) = (self.input.points.len(), self.input.triangles.len());
        let need = match alone.refused {
            Some(_) => LARGEST,
            None => Lent {
                points: alone.points.len(),
                slots: slots_used(&self.input, alone),
            },
        };
        let points = r.from_to(given, need.points);
        let slots = r.from_to(count, need.slots);
        self.lent = match r.below(32) {
            0 => Lent {
                points: 8193,
                ..need
            },
            1 => Lent {
                slots: 16385,
                ..need
            },
            2 => Lent {
                points: given.saturating_sub(1),
                ..need
            },
            3 => Lent {
                slots: count.saturating_sub(1),
                ..need
            },
            4..=7 => Lent { points, ..need },
            8..=11 => Lent { slots, ..need },
            12..=13 => Lent { points, slots },
            14 => LARGEST,
            _ => need,
        };
    }

    /// One slice too short.
    fn shorten(&mut self, r: &mut Random) {
        let slice = r.below(SLICES);
        let need = memory::needs(&self.input, self.lent)[slice];
        if need > 0 {
            self.tails.0[slice] = -(r.from_to(1, need.min(9)) as isize);
        }
    }

    /// The refusal before a run, a short slice's too.
    fn refusal(&self) -> Option<u32> {
        let number = self.input.refusal(self.lent);
        let short = self.tails.0.iter().any(|&tail| tail < 0);
        match number {
            Some(number) if BEFORE_SLICES.contains(&number) => Some(number),
            _ if short => Some(4),
            other => other,
        }
    }

    /// What the reference makes of it in a job.
    pub fn step(&self, job: Job) -> Step {
        match self.refusal() {
            Some(number) => job.refused(number),
            None => job.run(&self.input, self.lent),
        }
    }
}

/// Words of trace that are lent to a run that needs so many: mostly none, otherwise enough or not.
fn room(need: usize, r: &mut Random) -> usize {
    let less = r.below(need + 1);
    r.pick(&[0, 0, 0, 0, 0, need, need + 1, need + 40, less, less])
}

/// Small rooms, larger ones now and then.
fn space(r: &mut Random) -> Room {
    match r.below(32) {
        0 => Room {
            triangles: 200,
            points: 160,
        },
        1..=6 => TEXT,
        _ => Room {
            triangles: 24,
            points: 32,
        },
    }
}

/// Allowances: so small that shares are 0, so small that limits bite, and all that there are.
pub fn allowance(meshes: usize, r: &mut Random) -> usize {
    let most = match r.below(8) {
        0 => meshes,
        1..=3 => 12 * meshes,
        4..=5 => 100 * meshes,
        6 => 20_000,
        _ => MOST_ALLOWANCE,
    };
    let any = r.from_to(1, most);
    r.pick(&[1, most, any, any, any, any])
}

/// A state beside the job's way: refused, or just not.
pub fn beside(job: Job, r: &mut Random) -> Job {
    let share = job.share();
    let wide = r.bits() as usize;
    match r.below(14) {
        0 => Job { meshes: 0, ..job },
        1 => Job { meshes: 17, ..job },
        2 => Job {
            meshes: wide,
            ..job
        },
        3 => Job {
            allowance: 0,
            ..job
        },
        4 => Job {
            allowance: MOST_ALLOWANCE + 1,
            ..job
        },
        5 => Job {
            allowance: wide,
            ..job
        },
        6 => Job {
            done: job.meshes,
            ..job
        },
        7 => Job {
            done: job.meshes + 1 + r.below(3),
            ..job
        },
        8 => Job { done: wide, ..job },
        9 => Job {
            left: job.done * share + 1,
            ..job
        },
        10 => Job {
            left: job.done * share + 1 + r.below(99),
            ..job
        },
        11 => Job { left: wide, ..job },
        12 => Job {
            left: job.done * share,
            ..job
        },
        _ => Job {
            left: r.from_to(0, job.done * share),
            ..job
        },
    }
}
