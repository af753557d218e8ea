//! Replays on generated meshes: the port against the reference, the answer and every slice, in memory full of garbage. Each mesh is run with a trace, whose replay must
//! have the run's lists; then words of several sorts that no run wrote.

mod call;

use std::collections::BTreeMap;

use reference::generators::traces::{self, SORTS};
use reference::input::{Input, Lent, LARGEST};
use reference::patched::FrontResult;
use reference::random::Random;
use reference::replay::{Handed, Replayed};
use reference::replays;

use crate::asked::asked;
use crate::cases::{self, REFUSALS};
use crate::left::{difference, Left};
use crate::memory::{self, Export, Tails, SLICES};
use crate::threads;
use call::{after, port, ANSWER};

/// Partings that are printed whole.
const SHOWN: usize = 3;

/// Of so many meshes four have a set, four have joints, four are in the profile.
const ASKED_OF: usize = 12;

/// Words of other sorts for each mesh.
const OTHERS: usize = 6;

/// A mesh with triangles without area comes once in so many cases.
const ON_A_LINE: usize = 12;

/// Traces of so many words have every replay; of longer ones the slow sorts are left out.
const LONG: usize = 4000;

/// Slices that can be too short beside those of a run: the given triangles, the trace, the answer.
const GIVEN: usize = SLICES;
const TRACE: usize = SLICES + 1;
const ANSWERED: usize = SLICES + 2;
const ALL: usize = SLICES + 3;

/// The place of the joints among a run's slices; a replay has none.
const JOINTS: usize = SLICES - 1;

/// What replays of a sort of words came to.
#[derive(Clone, Copy, Default)]
struct Tally {
    replays: u64,
    finished: u64,
    /// Refusals by their number.
    refused: [u64; REFUSALS],
    quads: u64,
    inserted: u64,
    /// Replays that took a quad with a node twice or in place of nothing, or a point beyond 8.
    twice: u64,
    nothing: u64,
    beyond: u64,
    differ: u64,
}

impl Tally {
    fn add(&mut self, other: &Tally) {
        self.replays += other.replays;
        self.finished += other.finished;
        let sums = self.refused.iter_mut().zip(other.refused);
        sums.for_each(|(to, n)| *to += n);
        self.quads += other.quads;
        self.inserted += other.inserted;
        self.twice += other.twice;
        self.nothing += other.nothing;
        self.beyond += other.beyond;
        self.differ += other.differ;
    }

    fn count(&mut self, given: usize, replayed: &Result<Replayed, u32>) {
        self.replays += 1;
        let number = match replayed {
            Err(number) => Some(*number),
            Ok(rust) => rust.refused,
        };
        match number {
            Some(number) => self.refused[number as usize] += 1,
            None => self.finished += 1,
        }
        if let Ok(rust) = replayed {
            let repeats = |q: &[u32; 8]| (0..4).any(|i| q[..i].contains(&q[i]));
            self.quads += rust.quads.len() as u64;
            self.inserted += (rust.points.len() - given) as u64;
            self.twice += rust.quads.iter().any(repeats) as u64;
            self.nothing += rust.quads.iter().any(|q| q[7] == 0) as u64;
            let far = |p: &[f64; 3]| p[0].abs() > 8.0 || p[1].abs() > 8.0;
            self.beyond += rust.points.iter().any(far) as u64;
        }
    }
}

/// A call on which the two part.
struct Parting {
    case: u64,
    sort: &'static str,
    what: String,
    text: Vec<u8>,
}

/// What a thread found: tallies by the sort of words, and the runs that wrote traces.
#[derive(Default)]
struct Found {
    sorts: BTreeMap<&'static str, Tally>,
    runs: u64,
    partings: Vec<Parting>,
}

/// The replays of one mesh.
struct Turn<'a> {
    case: u64,
    r: Random,
    found: &'a mut Found,
}

impl Turn<'_> {
    /// Entries as no run makes them, where floats are at their end.
    fn on_a_line(&mut self) {
        let input = traces::on_a_line(&mut self.r);
        let trace = self.run(&input);
        for (name, make) in SORTS.iter().filter(|sort| sort.0.starts_with("wild")) {
            for _ in 0..OTHERS {
                let words = make(&input, &trace, &mut self.r);
                self.replay(&input, name, &words);
            }
        }
        let (input, words) = traces::far_flip(&mut self.r);
        self.replay(&input, "far flip", &words);
    }

    fn mesh(&mut self, mut input: Input) {
        if input.stop < 2 {
            input.stop = self.r.below(2) as u32;
        }
        if input.refusal(LARGEST).is_some() {
            return self.not_run(&input);
        }
        let input = asked(input, ASKED_OF, &mut self.r);
        if input.refusal(LARGEST).is_some() {
            return self.not_run(&input);
        }
        let trace = self.run(&input);
        self.replay(&input, "whole", &trace);
        for _ in 0..OTHERS {
            let (name, make) = self.r.pick(SORTS);
            if trace.len() > LONG && name.starts_with("wild") {
                continue;
            }
            let words = make(&input, &trace, &mut self.r);
            self.replay(&input, name, &words);
        }
    }

    /// A mesh that a run refuses: a replay takes it where size, rule, set, joints or profile were the reason.
    fn not_run(&mut self, input: &Input) {
        self.replay(input, "no run", &[]);
        let words: Vec<u32> = (0..self.r.below(20))
            .map(|_| self.r.below(5) as u32)
            .collect();
        self.replay(input, "no run", &words);
    }

    /// The port's run with a trace is the Rust's; its replay has the run's lists. Gives the trace.
    fn run(&mut self, input: &Input) -> Vec<u32> {
        let mut traced = input.clone();
        traced.trace = usize::MAX;
        let rust = traced.run_unchecked(LARGEST);
        traced.trace = rust.trace.len() + self.r.below(4);
        let lent = need(&traced, &rust);
        let rust = traced.run_unchecked(lent);
        let before = memory::slices(&traced, lent, Tails::default(), &mut self.r);
        let mut slices = before.clone();
        let got = memory::run_port(&traced, lent, Export::With, &mut slices);
        self.found.runs += 1;
        let want = memory::after_run(&before, &rust);
        let parts = got != memory::answer(&rust) || slices != want;
        let handed = handed(input, lent, &rust.trace, rust.trace.len());
        let replayed = handed.replay();
        let same = matches!(&replayed, Ok(r) if same_lists(&rust, r));
        for (holds, what) in [
            (!parts, "the run with a trace"),
            (same, "the replay has not the run's lists"),
        ] {
            if !holds {
                self.part(input, "run", lent, &rust.trace, what.to_string());
            }
        }
        rust.trace
    }

    /// As much as the replay with all that may be lent uses, or less; rarely less than is given, all that may be lent, or more.
    fn lend(&mut self, input: &Input, words: &[u32]) -> Lent {
        let (given, count) = (input.points.len(), input.triangles.len());
        let ample = match handed(input, LARGEST, words, words.len()).replay() {
            Ok(r) => Lent {
                points: r.points.len(),
                slots: count + 2 * (r.points.len() - given) + r.quads.len(),
            },
            Err(_) => Lent {
                points: given,
                slots: count,
            },
        };
        let more = Lent {
            points: (ample.points + self.r.below(9)).min(LARGEST.points.max(given)),
            slots: (ample.slots + self.r.below(9)).min(LARGEST.slots.max(count)),
        };
        let (points, slots) = (
            self.r.from_to(given, ample.points),
            self.r.from_to(count, ample.slots),
        );
        match self.r.below(256) {
            0 => LARGEST,
            1 => Lent {
                points: LARGEST.points + 1,
                ..more
            },
            2 => Lent {
                slots: LARGEST.slots + 1,
                ..more
            },
            3..=5 => Lent {
                points: given.saturating_sub(1),
                ..more
            },
            6..=8 => Lent {
                slots: count.saturating_sub(1),
                ..more
            },
            9..=40 => Lent { points, ..more },
            41..=72 => Lent { slots, ..more },
            73..=90 => Lent { points, slots },
            91..=150 => ample,
            _ => more,
        }
    }

    /// How much longer each slice is than it needs to be; rarely one is shorter.
    fn tails(&mut self, input: &Input, lent: Lent, words: usize) -> [isize; ALL] {
        let mut tails = [(); ALL].map(|_| self.r.below(5) as isize);
        if self.r.once_in(48) {
            let slice = self.r.below(ALL);
            let need = match slice {
                GIVEN => 3 * input.triangles.len(),
                TRACE => words,
                ANSWERED => ANSWER,
                JOINTS => 0,
                _ => memory::needs(input, lent)[slice],
            };
            if need > 0 {
                let any = self.r.from_to(1, need);
                tails[slice] = -(self.r.pick(&[1, 1, need, any]) as isize);
            }
        }
        tails
    }

    /// Slices for a call.
    fn before(&mut self, input: &Input, lent: Lent, words: &[u32], tails: [isize; ALL]) -> Left {
        let mut of_run = Tails::default();
        of_run.0.copy_from_slice(&tails[..SLICES]);
        let length = |need: usize, tail: isize| need.saturating_add_signed(tail);
        let mut triangles = input.triangles.as_flattened().to_vec();
        let given = length(triangles.len(), tails[GIVEN]);
        triangles.resize(given, self.r.bits() as u32);
        let mut slices = memory::slices(input, lent, of_run, &mut self.r);
        slices.trace = words.to_vec();
        let behind = self.r.pick(&[0, 1, 2, 4, 7]);
        let trace = length(words.len(), tails[TRACE]);
        slices.trace.resize(trace, behind);
        let answer = length(ANSWER, tails[ANSWERED]);
        Left {
            number: 0,
            answer: (0..answer).map(|_| self.r.bits() as usize).collect(),
            triangles,
            slices,
        }
    }

    fn replay(&mut self, input: &Input, sort: &'static str, words: &[u32]) {
        let input = &Input {
            joints: Vec::new(),
            ..input.clone()
        };
        let lent = self.lend(input, words);
        let tails = self.tails(input, lent, words.len());
        let before = self.before(input, lent, words, tails);
        let handed = handed(input, lent, words, words.len());
        let short = tails.iter().any(|&tail| tail < 0);
        let replayed = match handed.refusal() {
            Some(1) => Err(1),
            _ if short => Err(4),
            _ => handed.replay(),
        };
        let want = after(&before, &replayed);
        let got = port(input, lent, words.len(), before);
        let tally = self.found.sorts.entry(sort).or_default();
        tally.count(input.points.len(), &replayed);
        if let Some(what) = difference(&got, &want) {
            tally.differ += 1;
            self.part(input, sort, lent, words, what);
        }
    }

    fn part(&mut self, input: &Input, sort: &'static str, lent: Lent, words: &[u32], what: String) {
        self.found.partings.push(Parting {
            case: self.case,
            sort,
            what,
            text: replays::write(lent, words.len(), words, input),
        });
    }
}

fn handed<'a>(input: &'a Input, lent: Lent, trace: &'a [u32], words: usize) -> Handed<'a> {
    Handed {
        points: &input.points,
        triangles: &input.triangles,
        lent,
        trace,
        words,
    }
}

/// As much as a finished run used.
fn need(input: &Input, rust: &FrontResult) -> Lent {
    match rust.refused {
        Some(_) => LARGEST,
        None => Lent {
            points: rust.points.len(),
            slots: reference::account::slots_used(input, rust),
        },
    }
}

/// Points and quads, and where the run finished triangles and components.
fn same_lists(run: &FrontResult, replayed: &Replayed) -> bool {
    let bits = |points: &[[f64; 3]]| memory::bits(points.as_flattened());
    let quads = reference::records::records(run);
    let finished = run.refused.is_some()
        || replayed.triangles == run.triangles && replayed.components == run.region_components;
    replayed.refused.is_none()
        && bits(&replayed.points) == bits(&run.points)
        && memory::words(&quads).eq(replayed.quads.iter().flatten().copied())
        && finished
}

/// Compares the replays of the seed's meshes; true where none differs.
pub fn run(seed: u64, count: u64, threads: u64) -> bool {
    let one = |case: u64, found: &mut Found| {
        let (_, input, r) = cases::mesh(seed, case);
        let before = found.partings.len();
        let mut turn = Turn { case, r, found };
        turn.mesh(input);
        if turn.r.once_in(ON_A_LINE) {
            turn.on_a_line();
        }
        found.partings.len() - before
    };
    let mut all = Found::default();
    for found in threads::run(count, threads, "meshes", one) {
        for (sort, tally) in found.sorts {
            all.sorts.entry(sort).or_default().add(&tally);
        }
        all.runs += found.runs;
        all.partings.extend(found.partings);
    }
    let sums = print(&all.sorts);
    all.partings.sort_by_key(|p| (p.text.len(), p.case));
    for p in all.partings.iter().take(SHOWN) {
        let text = String::from_utf8_lossy(&p.text);
        eprintln!("mesh {}, {}: {}\n{text}", p.case, p.sort, p.what);
    }
    println!(
        "{} of {} replays agree, with {} runs that wrote a trace",
        sums.replays - sums.differ,
        sums.replays,
        all.runs
    );
    all.partings.is_empty()
}

/// A line for each sort of words, then the sums.
fn print(sorts: &BTreeMap<&'static str, Tally>) -> Tally {
    const NUMBERS: [usize; 8] = [1, 4, 5, 6, 7, 12, 8, 9];
    println!("words | replays | finished | refused 1 4 5 6 7 12 8 9 | quads | insertions | a node twice | in place of nothing | a point beyond 8 | differ");
    let mut all = Tally::default();
    let line = |name: &str, t: &Tally| {
        let refused = NUMBERS.map(|k| t.refused[k].to_string()).join(" ");
        println!(
            "{name} | {} | {} | {refused} | {} | {} | {} | {} | {} | {}",
            t.replays, t.finished, t.quads, t.inserted, t.twice, t.nothing, t.beyond, t.differ
        );
    };
    for (sort, tally) in sorts {
        line(sort, tally);
        all.add(tally);
    }
    line("all", &all);
    all
}
