//! Jobs of generated meshes: the port against the reference, every number of the state, the charge, the answer and every slice, in memory full of garbage; and
//! what is promised of a job, on the way.

mod call;
mod slabs;

use reference::job::{Job, BAD_JOB, MOST_MESHES};
use reference::random::Random;
use reference::records::{records, WORDS};

use crate::cases::REFUSALS;
use crate::{memory, threads};
use call::{after, copy, port, Left, ANSWER, JOB};
use slabs::{allowance, beside, Slab};

/// Partings that are printed whole.
const SHOWN: usize = 3;

/// What jobs of so many meshes came to.
#[derive(Clone, Copy, Default)]
struct Tally {
    jobs: u64,
    calls: u64,
    finished: u64,
    limited: u64,
    refused: [u64; REFUSALS],
    quads: u64,
    words: u64,
    allowed: u64,
    charged: u64,
    differ: u64,
}

impl Tally {
    fn add(&mut self, other: &Tally) {
        self.jobs += other.jobs;
        self.calls += other.calls;
        self.finished += other.finished;
        self.limited += other.limited;
        self.refused
            .iter_mut()
            .zip(other.refused)
            .for_each(|(to, n)| *to += n);
        self.quads += other.quads;
        self.words += other.words;
        self.allowed += other.allowed;
        self.charged += other.charged;
        self.differ += other.differ;
    }
}

/// A call on which the two part, or that breaks a promise.
struct Parting {
    case: u64,
    state: Job,
    what: String,
    text: Vec<u8>,
}

/// What a thread found: tallies by the number of meshes.
#[derive(Default)]
struct Found {
    tallies: [Tally; MOST_MESHES],
    partings: Vec<Parting>,
}

/// One job.
struct Turn<'a> {
    case: u64,
    r: Random,
    tally: &'a mut Tally,
    partings: &'a mut Vec<Parting>,
}

impl Turn<'_> {
    /// Its meshes in turn, each now and then first with another state; and one more than it has.
    fn run(&mut self, mut job: Job) {
        self.tally.jobs += 1;
        self.tally.allowed += job.allowance as u64;
        let mut charged = 0;
        for place in 0..job.meshes {
            let slab = Slab::new(&mut self.r);
            if self.r.once_in(6) {
                let state = beside(job, &mut self.r);
                self.call(state, &slab);
            }
            if self.r.once_in(48) {
                self.short(job, &slab);
            }
            let next = self.call(job, &slab);
            charged += next.1;
            self.hold(job, &slab, next.0.done == place + 1, "the meshes done");
            self.hold(job, &slab, charged <= job.allowance, "the allowance passed");
            let over = place + 1 == job.meshes;
            self.hold(
                job,
                &slab,
                next.0.is_bad() == over,
                "a state on its way refused",
            );
            job = next.0;
        }
        self.tally.charged += charged as u64;
        let slab = Slab::new(&mut self.r);
        self.call(job, &slab);
    }

    fn garbage(&mut self, count: usize) -> Vec<usize> {
        (0..count).map(|_| self.r.bits() as usize).collect()
    }

    /// Slices for a call in this state, a job's and an answer's of such lengths.
    fn before(&mut self, state: Job, slab: &Slab, job_len: usize, answer_len: usize) -> Left {
        let mut job = self.garbage(job_len);
        let numbers = [state.meshes, state.allowance, state.done, state.left];
        job.iter_mut().zip(numbers).for_each(|(to, n)| *to = n);
        Left {
            number: 0,
            job,
            answer: self.garbage(answer_len),
            slices: memory::slices(&slab.input, slab.lent, slab.tails, &mut self.r),
        }
    }

    /// The call as the reference has it; the state that the port hands on, and what it charges.
    fn call(&mut self, state: Job, slab: &Slab) -> (Job, usize) {
        let longer = [self.r.below(3), self.r.below(3)];
        let before = self.before(state, slab, JOB + longer[0], ANSWER + longer[1]);
        let want = after(&before, slab.step(state));
        let got = port(&slab.input, slab.lent, before);
        self.judge(state, slab, &got, &want);
        self.first_ones(state, slab, &got);
        let [meshes, allowance, done, left, charged] = got.job[..JOB] else {
            unreachable!("its length is kept")
        };
        let next = Job {
            meshes,
            allowance,
            done,
            left,
        };
        (next, charged)
    }

    /// A job's slice too short is 4 before all else, an answer's is 4 behind 16, whatever the mesh is; nothing is written.
    fn short(&mut self, state: Job, slab: &Slab) {
        let beside = beside(state, &mut self.r);
        let state = self.r.pick(&[state, beside]);
        let length = self.r.below(JOB);
        let answer = self.r.below(ANSWER + 1);
        let before = self.before(state, slab, length, answer);
        let want = copy(&before, 4);
        let got = port(&slab.input, slab.lent, before);
        self.judge(state, slab, &got, &want);
        let answer = self.r.below(ANSWER);
        let before = self.before(state, slab, JOB, answer);
        let number = if state.is_bad() { BAD_JOB as usize } else { 4 };
        let want = copy(&before, number);
        let got = port(&slab.input, slab.lent, before);
        self.judge(state, slab, &got, &want);
    }

    fn judge(&mut self, state: Job, slab: &Slab, got: &Left, want: &Left) {
        self.tally.calls += 1;
        if got.number == 0 {
            self.tally.finished += 1;
            self.tally.limited += got.answer[8] as u64;
            self.tally.quads += got.answer[9] as u64;
            self.tally.words += got.answer[14] as u64;
        } else if let Some(n) = self.tally.refused.get_mut(got.number) {
            *n += 1;
        }
        let what = if got.number != want.number {
            format!("port {}, Rust {}", got.number, want.number)
        } else if got.job != want.job {
            format!("job: port {:?}, Rust {:?}", got.job, want.job)
        } else if got.answer != want.answer {
            format!("answer: port {:?}, Rust {:?}", got.answer, want.answer)
        } else {
            match memory::first_difference(&got.slices, &want.slices) {
                Some(what) => what,
                None => return,
            }
        };
        self.part(state, slab, what);
    }

    /// Where the run by itself is finished, the quads in the job are its first ones.
    fn first_ones(&mut self, state: Job, slab: &Slab, got: &Left) {
        let Some(alone) = slab.alone.as_ref().filter(|a| a.refused.is_none()) else {
            return;
        };
        if got.number == 0 {
            let words: Vec<u32> = records(alone).iter().flatten().map(|&n| n as u32).collect();
            let count = WORDS * got.answer[9];
            let first = words.get(..count) == got.slices.quads.get(..count);
            self.hold(state, slab, first, "quads that are not the first ones");
            let whole = got.answer[8] == 1 || count == words.len();
            self.hold(state, slab, whole, "fewer quads without a limit");
        }
    }

    fn hold(&mut self, state: Job, slab: &Slab, holds: bool, what: &str) {
        if !holds {
            self.part(state, slab, what.to_string());
        }
    }

    fn part(&mut self, state: Job, slab: &Slab, what: String) {
        self.tally.differ += 1;
        self.partings.push(Parting {
            case: self.case,
            state,
            what,
            text: reference::call::write(slab.lent, &slab.input),
        });
    }
}

/// Compares the jobs of the seed; true where none differs.
pub fn run(seed: u64, count: u64, threads: u64) -> bool {
    let one = |case: u64, found: &mut Found| {
        let mut r = Random::new(seed, case);
        let meshes = r.from_to(1, MOST_MESHES);
        let job = Job::new(meshes, allowance(meshes, &mut r));
        let before = found.partings.len();
        Turn {
            case,
            r,
            tally: &mut found.tallies[meshes - 1],
            partings: &mut found.partings,
        }
        .run(job);
        found.partings.len() - before
    };
    let mut all = Found::default();
    for found in threads::run(count, threads, "jobs", one) {
        let pairs = all.tallies.iter_mut().zip(&found.tallies);
        pairs.for_each(|(to, tally)| to.add(tally));
        all.partings.extend(found.partings);
    }
    let sums = print(&all.tallies);
    all.partings.sort_by_key(|p| (p.text.len(), p.case));
    for p in all.partings.iter().take(SHOWN) {
        let text = String::from_utf8_lossy(&p.text);
        eprintln!("job {}, {:?}: {}\n{text}", p.case, p.state, p.what);
    }
    all.partings.sort_by_key(|p| p.case);
    all.partings.dedup_by_key(|p| p.case);
    let differ = all.partings.len() as u64;
    println!(
        "{} of {} jobs agree, in {} calls",
        sums.jobs - differ,
        sums.jobs,
        sums.calls
    );
    differ == 0
}

/// A line for each number of meshes, then the sums.
fn print(tallies: &[Tally]) -> Tally {
    const NUMBERS: [usize; 14] = [16, 1, 2, 3, 14, 4, 5, 6, 7, 15, 13, 8, 9, 11];
    println!("meshes | jobs | calls | finished | by limit | refused 16 1 2 3 14 4 5 6 7 15 13 8 9 11 | quads | words | allowed | charged | differ");
    let mut all = Tally::default();
    let line = |name: &str, t: &Tally| {
        let refused = NUMBERS.map(|k| t.refused[k].to_string()).join(" ");
        println!(
            "{name} | {} | {} | {} | {} | {refused} | {} | {} | {} | {} | {}",
            t.jobs,
            t.calls,
            t.finished,
            t.limited,
            t.quads,
            t.words,
            t.allowed,
            t.charged,
            t.differ
        );
    };
    for (k, tally) in tallies.iter().enumerate() {
        line(&(k + 1).to_string(), tally);
        all.add(tally);
    }
    line("all", &all);
    all
}
