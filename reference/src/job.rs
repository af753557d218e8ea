//! A job: up to 16 meshes under one attempt allowance, run in turn.

use crate::input::{Input, Lent};
use crate::patched::FrontResult;

pub const MOST_MESHES: usize = 16;
pub const MOST_ALLOWANCE: usize = 1_000_000;

/// The refusal of a state that is handed in.
pub const BAD_JOB: u32 = 16;

/// What is handed from mesh to mesh.
#[derive(Clone, Copy, Debug, PartialEq, Eq)]
pub struct Job {
    pub meshes: usize,
    pub allowance: usize,
    /// The meshes before this one.
    pub done: usize,
    /// What the one before left of what it was entitled to.
    pub left: usize,
}

/// What a mesh of a job came to.
pub struct Step {
    /// The run, which 8, 9 or 11 may have ended; or the refusal before it.
    pub ran: Result<FrontResult, u32>,
    pub charged: usize,
    pub next: Job,
}

impl Job {
    /// Before the first mesh.
    pub fn new(meshes: usize, allowance: usize) -> Job {
        Job {
            meshes,
            allowance,
            done: 0,
            left: 0,
        }
    }

    /// 16: no mesh, over 16 or one past their number; no allowance or one over its limit;
    /// more left than the meshes before could leave.
    pub fn is_bad(&self) -> bool {
        self.meshes == 0
            || self.meshes > MOST_MESHES
            || self.done >= self.meshes
            || self.allowance == 0
            || self.allowance > MOST_ALLOWANCE
            || self.left > self.done * self.share()
    }

    /// The whole part of the allowance divided by the number of meshes.
    pub fn share(&self) -> usize {
        self.allowance / self.meshes
    }

    /// What this mesh is entitled to.
    pub fn entitled(&self) -> usize {
        self.share() + self.left
    }

    /// Its limit on attempts.
    pub fn limit(&self, input: &Input) -> usize {
        self.entitled().min(input.usual_limit())
    }

    /// A mesh that came to this and was charged so much.
    fn step(&self, ran: Result<FrontResult, u32>, charged: usize) -> Step {
        let next = Job {
            done: self.done + 1,
            left: self.entitled() - charged,
            ..*self
        };
        Step { ran, charged, next }
    }

    /// A mesh that is refused so before its run, if the job's state is not.
    pub fn refused(&self, number: u32) -> Step {
        if self.is_bad() {
            let (charged, next) = (0, *self);
            return Step {
                ran: Err(BAD_JOB),
                charged,
                next,
            };
        }
        self.step(Err(number), 0)
    }

    /// The next mesh.
    pub fn run(&self, input: &Input, lent: Lent) -> Step {
        if self.is_bad() {
            return self.refused(BAD_JOB);
        }
        if let Some(number) = input.refusal(lent) {
            return self.refused(number);
        }
        let result = input.run_within(lent, Some(self.limit(input)));
        let charged = charge(&result);
        self.step(Ok(result), charged)
    }
}

/// The attempts made, where 8, 9 or 11 ended the run those begun. A counted attempt that a limit stopped
/// is not made.
fn charge(result: &FrontResult) -> usize {
    let counts = &result.refusals;
    match result.refused {
        Some(_) => counts.attempts,
        None => counts.attempts - counts.limit,
    }
}

#[cfg(test)]
mod tests {
    use super::*;
    use crate::generators::{self, of_case, SMALL};
    use crate::input::{LARGEST, UNBOUNDED};
    use crate::random::Random;
    use crate::{account, records::records};

    /// The first of a kind's meshes of which the wish holds.
    fn mesh(kind: &str, wish: impl Fn(&Input, &FrontResult) -> bool) -> Input {
        let make = generators::kind(kind).unwrap().1;
        let inputs = (0..4000).map(|case| make(&mut Random::new(13, case), &SMALL));
        let mut good = inputs.filter(|input| input.refusal(LARGEST).is_none());
        good.find(|input| wish(input, &input.run_unchecked(LARGEST)))
            .expect("a mesh")
    }

    /// A mesh whose run makes several attempts and places several quads.
    fn busy() -> Input {
        mesh("grid", |_, r| {
            r.refusals.limit == 0 && r.refusals.attempts > 8 && r.quads.len() > 3
        })
    }

    fn attempts(input: &Input) -> usize {
        input.run_unchecked(LARGEST).refusals.attempts
    }

    fn ran(step: &Step) -> &FrontResult {
        step.ran.as_ref().expect("a run")
    }

    #[test]
    fn a_job_keeps_its_allowance_and_no_state_on_its_way_is_refused() {
        let (mut bitten, mut refused, mut during) = (0, 0, 0);
        for case in 0..300 {
            let mut r = Random::new(31, case);
            let meshes = r.from_to(1, MOST_MESHES);
            let allowance = r.from_to(1, 1 + 20 * meshes);
            let (mut job, mut made) = (Job::new(meshes, allowance), 0);
            for place in 0..meshes {
                assert!(!job.is_bad());
                let input = of_case(None, 16 * case + place as u64).1(&mut r, &SMALL);
                let lent = Lent {
                    points: input.points.len() + r.below(8),
                    slots: input.triangles.len() + r.below(24),
                };
                let step = job.run(&input, lent);
                assert!(step.charged <= job.entitled());
                assert_eq!((step.next.meshes, step.next.allowance), (meshes, allowance));
                assert_eq!(step.next.done, place + 1);
                match &step.ran {
                    Err(number) => {
                        assert_eq!(input.refusal(lent), Some(*number));
                        assert_eq!(step.charged, 0);
                        refused += 1;
                    }
                    Ok(result) => {
                        let whole = input.run_unchecked(UNBOUNDED);
                        assert!(records(&whole).starts_with(&records(result)));
                        if result.refused.is_none() {
                            account::check_within(&input, result, job.limit(&input));
                            // Each attempt that was made ended in a quad or in a refusal.
                            let c = &result.refusals;
                            let ended = c.placement + c.invalid_quad + c.recovery + c.region;
                            let made = result.quads.len() + ended + c.odd_region;
                            assert_eq!(step.charged, made);
                            bitten += c.limit;
                        }
                        during += result.refused.is_some() as usize;
                    }
                }
                made += step.charged;
                job = step.next;
            }
            assert!(made <= allowance, "{made} of {allowance}");
            assert!(job.is_bad());
        }
        assert!(bitten > 50 && refused > 50 && during > 50);
    }

    #[test]
    fn what_a_mesh_leaves_goes_to_the_next() {
        let busy = busy();
        let need = attempts(&busy);
        let none = Input::default();
        // Its share alone is one attempt too few.
        let start = Job::new(2, 2 * (need - 1));
        let first = start.run(&busy, LARGEST);
        assert_eq!((ran(&first).refusals.limit, first.next.left), (1, 0));
        let first = start.run(&none, LARGEST);
        assert_eq!((first.charged, first.next.left), (0, need - 1));
        let second = first.next.run(&busy, LARGEST);
        assert_eq!((second.charged, second.next.left), (need, need - 2));
        let alone = busy.run_unchecked(LARGEST);
        assert_eq!(records(ran(&second)), records(&alone));
        assert_eq!(ran(&second).refusals.limit, 0);
    }

    #[test]
    fn the_remainder_of_the_division_goes_to_none() {
        let none = Input::default();
        let job = Job::new(3, 11);
        let mut entitled = Vec::new();
        let last = (0..3).fold(job, |job, _| {
            entitled.push(job.entitled());
            job.run(&none, LARGEST).next
        });
        assert_eq!((entitled, last.left), (vec![3, 6, 9], 9));
    }

    #[test]
    fn a_limit_lets_so_many_attempts_be_made_and_counts_one_more() {
        let busy = busy();
        let need = attempts(&busy);
        let alone = busy.run_unchecked(LARGEST);
        for limit in 0..need + 3 {
            // Of 16 meshes, so that an entitlement of 0 can be had.
            let job = Job::new(MOST_MESHES, (MOST_MESHES * limit).max(1));
            assert_eq!(job.limit(&busy), limit);
            let step = job.run(&busy, LARGEST);
            let counts = ran(&step).refusals;
            let stopped = limit < need;
            assert_eq!(counts.limit, stopped as usize, "{limit}");
            assert_eq!(counts.attempts, if stopped { limit + 1 } else { need });
            assert_eq!(step.charged, limit.min(need));
            assert_eq!(step.next.left, limit - step.charged);
            assert!(records(&alone).starts_with(&records(ran(&step))));
        }
    }

    #[test]
    fn the_usual_limit_stays_where_more_is_left() {
        let busy = busy();
        let job = Job::new(1, MOST_ALLOWANCE);
        assert_eq!(job.entitled(), MOST_ALLOWANCE);
        assert_eq!(job.limit(&busy), 200 * busy.triangles.len() + 10_000);
    }

    #[test]
    fn refused_during_a_run_it_is_charged_what_it_began() {
        let inserts = |input: &Input, r: &FrontResult| {
            r.refusals.limit == 0 && r.quads.len() > 1 && r.points.len() > input.points.len() + 1
        };
        let input = mesh("insertion", inserts);
        let full = input.run_unchecked(LARGEST);
        let short = [
            Lent {
                points: full.points.len() - 1,
                slots: LARGEST.slots,
            },
            Lent {
                points: LARGEST.points,
                slots: account::slots_used(&input, &full) - 1,
            },
        ];
        for (lent, number) in short.into_iter().zip([8, 9]) {
            let job = Job::new(1, 100_000);
            let step = job.run(&input, lent);
            assert_eq!(ran(&step).refused, Some(number));
            // With a limit of one less the attempt that was refused is not begun.
            let least = (0..).find(|&limit| input.run_within(lent, Some(limit)).refused.is_some());
            assert_eq!(Some(step.charged), least);
            assert!(step.charged > 1);
            assert_eq!(step.next.left, 100_000 - step.charged);
            let before = Job::new(1, step.charged - 1).run(&input, lent);
            assert_eq!(ran(&before).refused, None);
            assert_eq!(before.charged, step.charged - 1);
        }
    }

    #[test]
    fn refused_before_its_run_it_leaves_what_it_was_entitled_to() {
        let busy = busy();
        let lent = Lent {
            points: 0,
            slots: 0,
        };
        let job = Job {
            done: 1,
            left: 7,
            ..Job::new(2, 41)
        };
        let step = job.run(&busy, lent);
        let next = Job {
            done: 2,
            left: 27,
            ..job
        };
        assert_eq!(
            (step.ran.err(), step.charged, step.next),
            (Some(4), 0, next)
        );
        assert_eq!(job.refused(4).next, next);
    }

    #[test]
    fn sixteen_comes_first_under_its_conditions_and_under_no_other() {
        let state = |meshes, allowance, done, left| Job {
            meshes,
            allowance,
            done,
            left,
        };
        for bad in [
            state(0, 5, 0, 0),
            state(17, 5, 0, 0),
            state(usize::MAX, 5, 0, 0),
            state(2, 0, 0, 0),
            state(2, 1_000_001, 0, 0),
            state(2, usize::MAX, 1, 1),
            state(2, 100, 2, 0),
            state(2, 100, 3, 0),
            state(2, 100, usize::MAX, 0),
            state(2, 100, 0, 1),
            state(2, 100, 1, 51),
            state(3, 100, 2, 67),
            state(16, 15, 15, 1),
            state(2, 100, 1, usize::MAX),
        ] {
            // Also before a refusal with 1 and one with 3.
            for stop in [0, 3] {
                let input = Input {
                    stop,
                    points: vec![[0; 3]; 4097 * (stop / 3) as usize],
                    ..Input::default()
                };
                let step = bad.run(&input, LARGEST);
                assert_eq!((step.ran.err(), step.charged), (Some(16), 0), "{bad:?}");
                assert_eq!(step.next, bad);
                assert_eq!(bad.refused(4).next, bad);
            }
        }
        for good in [
            state(1, 1, 0, 0),
            state(16, 1_000_000, 15, 15 * 62_500),
            state(2, 100, 1, 50),
            state(3, 100, 2, 66),
            state(16, 15, 15, 0),
        ] {
            let step = good.run(&Input::default(), LARGEST);
            assert!(step.ran.is_ok(), "{good:?}");
        }
    }
}
