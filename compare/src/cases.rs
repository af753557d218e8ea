//! One generated mesh: the port against the Rust, under both rules, with the standard set and with others, with and without joints, in the grid
//! profile, with and without a trace, and with memory that does or does not suffice.

use reference::account::{areas, lost, slots_used, standing};
use reference::generators::hubs::HUBS;
use reference::generators::large::SHAPES;
use reference::generators::shape::Room;
use reference::generators::{joints, of_case, on_grid, sets, KINDS, TEXT};
use reference::input::{Input, Lent, LARGEST};
use reference::patched::{FrontResult, STANDARD};
use reference::random::Random;
use sedgepick::Refusal;

use crate::memory::{self, Export, Tails, QUADS, SLICES};

/// A large mesh comes once in so many cases.
const LARGE_EACH: u64 = 4096;

/// Up to so many words some meshes are run with a trace of every length.
const EVERY_ROOM: usize = 120;

/// One more than the largest number of a refusal.
pub const REFUSALS: usize = 17;

/// Refusals that come before that of a short slice.
pub const BEFORE_SLICES: [u32; 4] = [1, 2, 3, 14];

/// Refusals that end a run.
const DURING: [u32; 3] = [8, 9, 11];

/// Triangles of large meshes.
const LARGE: (usize, usize) = (600, 4000);

/// A mesh around one node comes once in so many cases, with so many triangles.
const HUB_EACH: u64 = 509;
const HUB: (usize, usize) = (16, 160);

/// Runs of a kind of mesh, by what the port answered.
#[derive(Clone, Copy, Default)]
pub struct Tally {
    pub meshes: u64,
    pub runs: u64,
    /// With another set than the standard one and no joints, not refused before a run; and those whose quads its set does not give.
    pub sets: u64,
    pub changed: u64,
    /// With joints, not refused before a run; those whose quads the run without them does not give; the joints that the given triangles have as edges in
    /// those that finished, and how many of these the run without joints loses.
    pub joined: u64,
    pub rejoined: u64,
    pub standing: u64,
    pub saved: u64,
    /// In the grid profile, not refused before a run.
    pub grids: u64,
    pub finished: u64,
    pub limited: u64,
    /// Refusals by their number.
    pub refused: [u64; REFUSALS],
    pub quads: u64,
    pub inserted: u64,
    pub trials: u64,
    /// With a trace lent, not refused before a run; and the words of those that finished.
    pub traced: u64,
    pub words: u64,
    pub differ: u64,
}

impl Tally {
    pub fn add(&mut self, other: &Tally) {
        self.meshes += other.meshes;
        self.runs += other.runs;
        self.sets += other.sets;
        self.changed += other.changed;
        self.joined += other.joined;
        self.rejoined += other.rejoined;
        self.standing += other.standing;
        self.saved += other.saved;
        self.grids += other.grids;
        self.finished += other.finished;
        self.limited += other.limited;
        self.refused
            .iter_mut()
            .zip(other.refused)
            .for_each(|(to, n)| *to += n);
        self.quads += other.quads;
        self.inserted += other.inserted;
        self.trials += other.trials;
        self.traced += other.traced;
        self.words += other.words;
        self.differ += other.differ;
    }
}

/// A call on which the two part.
pub struct Parting {
    pub input: Input,
    pub lent: Lent,
    pub export: Export,
    pub what: String,
}

/// The mesh of a case: kinds in turn, larger rooms now and then, and once in a while one of the large shapes or a mesh around one node.
pub fn mesh(seed: u64, case: u64) -> (&'static str, Input, Random) {
    let mut r = Random::new(seed, case);
    if case % LARGE_EACH == LARGE_EACH - 1 {
        let (name, make) = SHAPES[(case / LARGE_EACH) as usize % SHAPES.len()];
        let triangles = r.from_to(LARGE.0, LARGE.1);
        let input = make(&mut r, triangles);
        return (large_name(name), input, r);
    }
    if case % HUB_EACH == HUB_EACH - 1 {
        let (name, make) = HUBS[(case / HUB_EACH) as usize % HUBS.len()];
        let input = make(r.from_to(HUB.0, HUB.1));
        return (name, input, r);
    }
    let kind = of_case(None, case);
    let room = match case / KINDS.len() as u64 % 64 {
        63 => Room {
            triangles: 600,
            points: 500,
        },
        n if n % 16 == 15 => Room {
            triangles: 200,
            points: 160,
        },
        n if n % 4 == 3 => TEXT,
        _ => Room {
            triangles: 24,
            points: 32,
        },
    };
    (kind.0, kind.1(&mut r, &room), r)
}

/// The mesh under both rules; under the given one where it is neither.
pub fn rules(input: Input) -> Vec<Input> {
    if input.stop > 1 {
        return vec![input];
    }
    let under = |stop| Input {
        stop,
        ..input.clone()
    };
    vec![under(0), under(1)]
}

/// The large shapes are listed as one kind each, apart from the small ones of their name.
fn large_name(name: &str) -> &'static str {
    match name {
        "plate" => "large plate",
        "plate-even" => "large plate-even",
        "coarse" => "large coarse",
        "fine" => "large fine",
        "no-size" => "large no-size",
        "scatter" => "large scatter",
        "scatter-even" => "large scatter-even",
        "wheel" => "large wheel",
        "sheets" => "large sheets",
        "torn" => "large torn",
        "heap" => "large heap",
        "hub" => "large hub",
        _ => "large",
    }
}

/// The runs of one mesh.
pub struct Case<'a> {
    pub tally: &'a mut Tally,
    pub partings: &'a mut Vec<Parting>,
    pub r: Random,
    pub export: Export,
}

impl Case<'_> {
    /// Both rules, and the given one where it is neither: with the standard set and no joints, then with others and with joints.
    pub fn run(&mut self, input: Input) {
        self.tally.meshes += 1;
        let rules = rules(input);
        let plain: Vec<Option<FrontResult>> = rules.iter().map(|i| self.run_rule(i)).collect();
        self.export = Export::With;
        for (input, plain) in rules.into_iter().zip(plain) {
            self.run_sets(input.clone(), &plain);
            if let Some(plain) = plain {
                self.run_grids(&input);
                self.run_joints(input, plain);
            }
        }
    }

    /// Half of the meshes with another set, some with one that is refused or just not, some with the standard one handed in.
    fn run_sets(&mut self, mut input: Input, plain: &Option<FrontResult>) {
        if self.r.once_in(8) {
            self.run_rule(&input);
        }
        if self.r.once_in(2) {
            input.quality = sets::good(&mut self.r);
            self.run_set(&input, plain);
        }
        if self.r.once_in(8) {
            input.quality = sets::doubtful(&mut self.r);
            self.run_set(&input, plain);
        }
    }

    /// Half of the meshes with joints, a third of those with another set too, and some with joints that are refused or just not.
    fn run_joints(&mut self, mut input: Input, mut plain: FrontResult) {
        if self.r.once_in(2) {
            if self.r.once_in(3) {
                input.quality = sets::good(&mut self.r);
                plain = input.run_unchecked(LARGEST);
            }
            input.joints = joints::good(&input, &mut self.r);
            self.run_joined(&input, &plain);
        }
        if self.r.once_in(8) {
            input.joints = joints::doubtful(&input, &mut self.r);
            self.run_joined(&input, &plain);
        }
    }

    /// A third of the meshes in the grid profile, a third of those with another set and with joints, and some that are refused or just not.
    fn run_grids(&mut self, plain: &Input) {
        if self.r.once_in(3) {
            let mut input = on_grid::good(plain, &mut self.r);
            if self.r.once_in(3) {
                input.quality = sets::good(&mut self.r);
                input.joints = joints::good(&input, &mut self.r);
            }
            self.run_grid(&input);
        }
        if self.r.once_in(8) {
            let mut input = on_grid::doubtful(plain, &mut self.r);
            if self.r.once_in(3) {
                input.joints = joints::doubtful(&input, &mut self.r);
            }
            self.run_grid(&input);
        }
    }

    /// Nothing is inserted, and areas are kept in whole numbers.
    fn run_grid(&mut self, input: &Input) {
        let Some(full) = self.run_rule(input) else {
            return;
        };
        self.tally.grids += 1;
        if full.refused.is_none() {
            assert_eq!(full.points.len(), input.points.len(), "a point is added");
            let (before, after) = areas(input, &full);
            assert_eq!(before, after, "an area is lost");
        }
    }

    fn run_joined(&mut self, input: &Input, plain: &FrontResult) {
        let Some(full) = self.run_rule(input) else {
            return;
        };
        self.tally.joined += 1;
        self.tally.rejoined += (full.quads != plain.quads) as u64;
        if full.refused.is_none() {
            self.tally.standing += standing(input).len() as u64;
            assert_eq!(lost(input, &full), 0, "a joint is lost");
            if plain.refused.is_none() {
                self.tally.saved += lost(input, plain) as u64;
            }
        }
    }

    fn run_set(&mut self, input: &Input, plain: &Option<FrontResult>) {
        if let (Some(full), Some(plain)) = (self.run_rule(input), plain) {
            self.tally.sets += (input.quality != STANDARD) as u64;
            self.tally.changed += (full.quads != plain.quads) as u64;
        }
    }

    /// The Rust's run with all that may be lent, where the input is not refused before it.
    fn run_rule(&mut self, input: &Input) -> Option<FrontResult> {
        let small = Lent {
            points: input.points.len() + self.r.below(9),
            slots: input.triangles.len() + self.r.below(9),
        };
        if input.refusal(LARGEST).is_some() {
            let mut traced = input.clone();
            if self.export == Export::With {
                traced.trace = self.r.pick(&[0, 0, 1, 30]);
            }
            self.refused(&traced, small);
            return None;
        }
        let full = input.run_unchecked(LARGEST);
        self.run_lent(input, &full);
        Some(full)
    }

    /// With as much as the run needs, and with less.
    fn run_lent(&mut self, input: &Input, full: &FrontResult) {
        let need = match full.refused {
            Some(_) => LARGEST,
            None => Lent {
                points: full.points.len(),
                slots: slots_used(input, full),
            },
        };
        let lent = self.enough(need);
        self.hold(input, lent, full);
        if full.refused.is_some() {
            return;
        }
        if input.triangles.len() <= 10 && full.refusals.attempts < 200 && self.r.once_in(16) {
            self.every_capacity(input, need);
        } else if full.refusals.attempts < 2000 && self.r.once_in(4) {
            self.some_capacity(input, need);
        }
        if self.r.once_in(16) {
            self.short_slice(input, lent);
        }
        if self.r.once_in(256) {
            self.over_limit(input, lent);
        }
        if self.export == Export::With && self.r.once_in(2) {
            self.run_traces(input, need);
        }
    }

    /// A trace with room enough, and one without; of every length for some small meshes; and one that ends where points or slots do.
    fn run_traces(&mut self, input: &Input, need: Lent) {
        let mut traced = input.clone();
        traced.trace = usize::MAX;
        let words = traced.run_unchecked(need).trace.len();
        let lent = self.enough(need);
        traced.trace = words + self.r.pick(&[0, 0, 1, 2, 7, 60]);
        self.capacity(&traced, lent);
        if words <= EVERY_ROOM && self.r.once_in(8) {
            for room in 0..words + 2 {
                traced.trace = room;
                self.capacity(&traced, lent);
            }
        } else if words > 0 {
            traced.trace = self.r.from_to(1, words);
            self.capacity(&traced, lent);
        }
        if self.r.once_in(2) {
            let lent = self.scarce(input, need);
            traced.trace = usize::MAX;
            let words = traced.run_unchecked(lent).trace.len();
            let room = words + self.r.below(12);
            traced.trace = room.saturating_sub(self.r.below(3)).max(1);
            self.capacity(&traced, lent);
        }
    }

    /// Just enough, a little more, or rarely all that may be lent.
    fn enough(&mut self, need: Lent) -> Lent {
        if self.r.once_in(128) {
            return LARGEST;
        }
        let more = self.r.pick(&[0, 0, 1, 7, 60]);
        Lent {
            points: (need.points + self.r.below(more + 1)).min(LARGEST.points),
            slots: (need.slots + self.r.below(more + 1)).min(LARGEST.slots),
        }
    }

    /// Slices a little longer than they need to be.
    fn longer(&mut self) -> Tails {
        Tails([(); SLICES].map(|_| self.r.below(5) as isize))
    }

    /// Every capacity and every number of slots of a small mesh, up to what it needs.
    fn every_capacity(&mut self, input: &Input, need: Lent) {
        for points in input.points.len().saturating_sub(1)..need.points {
            self.capacity(input, Lent { points, ..need });
        }
        for slots in input.triangles.len().saturating_sub(1)..need.slots {
            self.capacity(input, Lent { slots, ..need });
        }
    }

    /// One capacity that does not suffice, or just does.
    fn some_capacity(&mut self, input: &Input, need: Lent) {
        let lent = self.scarce(input, need);
        self.capacity(input, lent);
    }

    fn scarce(&mut self, input: &Input, need: Lent) -> Lent {
        let points = self.r.from_to(input.points.len(), need.points);
        let slots = self.r.from_to(input.triangles.len(), need.slots);
        match self.r.below(3) {
            0 => Lent { points, ..need },
            1 => Lent { slots, ..need },
            _ => Lent { points, slots },
        }
    }

    fn capacity(&mut self, input: &Input, lent: Lent) {
        if input.refusal(lent).is_some() {
            return self.refused(input, lent);
        }
        let rust = input.run_unchecked(lent);
        self.hold(input, lent, &rust);
    }

    /// A slice shorter than it needs to be, by one, by a few, by half, is 4; quads come once more, as the widest record.
    fn short_slice(&mut self, input: &Input, lent: Lent) {
        if lent.points == 0 || lent.slots == 0 {
            return;
        }
        let mut tails = self.longer();
        let slice = match self.r.below(self.slices(input) + 1) {
            0 => QUADS,
            n => n - 1,
        };
        let need = memory::needs(input, lent)[slice];
        let few = 1 + self.r.below(9);
        let less = self.r.pick(&[1, 1, few, need.div_ceil(2)]).min(need);
        tails.0[slice] = -(less as isize);
        self.untouched(input, lent, tails, Refusal::TooShort);
    }

    /// The slices that can be too short: without joints theirs can not.
    fn slices(&self, input: &Input) -> usize {
        SLICES - input.joints.is_empty() as usize
    }

    /// A capacity over its limit is 1.
    fn over_limit(&mut self, input: &Input, lent: Lent) {
        let points = LARGEST.points + 1;
        let slots = LARGEST.slots + 1;
        let over = self
            .r
            .pick(&[Lent { points, ..lent }, Lent { slots, ..lent }]);
        self.refused(input, over);
    }

    /// A call that is refused before a run; one whose joints are bad is 4 where their slice is too short.
    fn refused(&mut self, input: &Input, lent: Lent) {
        let Some(number) = input.refusal(lent) else {
            return;
        };
        let mut tails = self.longer();
        if number > 4 && number != 14 && self.r.once_in(4) && !input.joints.is_empty() {
            tails.0[SLICES - 1] = -1;
            return self.untouched(input, lent, tails, Refusal::TooShort);
        }
        if BEFORE_SLICES.contains(&number) && self.r.once_in(2) {
            tails.0[self.r.below(self.slices(input))] = -1;
        }
        self.untouched(input, lent, tails, memory::refusal(number));
    }

    /// The call is refused so, and every slice is as it was.
    fn untouched(&mut self, input: &Input, lent: Lent, tails: Tails, why: Refusal) {
        let before = memory::slices(input, lent, tails, &mut self.r);
        let mut slices = before.clone();
        let got = memory::run_port(input, lent, self.export, &mut slices);
        self.judge(input, lent, (got, slices), (Err(why), before));
    }

    /// The run is the Rust's.
    fn hold(&mut self, input: &Input, lent: Lent, rust: &FrontResult) {
        let tails = self.longer();
        let before = memory::slices(input, lent, tails, &mut self.r);
        let mut slices = before.clone();
        let got = memory::run_port(input, lent, self.export, &mut slices);
        self.judge(
            input,
            lent,
            (got, slices),
            (memory::answer(rust), memory::after_run(&before, rust)),
        );
    }

    fn judge(&mut self, input: &Input, lent: Lent, got: Left, want: Left) {
        let t = &mut *self.tally;
        t.runs += 1;
        let before = matches!(&want.0, Err(why) if !DURING.contains(&why.number()));
        t.traced += (input.trace > 0 && !before) as u64;
        match &got.0 {
            Ok(a) => {
                t.finished += 1;
                t.limited += a.counts.limit as u64;
                t.quads += a.quads as u64;
                t.inserted += a.counts.mismatch_insertions as u64;
                t.trials += a.counts.trials as u64;
                t.words += a.words as u64;
            }
            Err(why) => t.refused[why.number() as usize] += 1,
        }
        let what = if got.0 != want.0 {
            Some(format!("answers\n  port {:?}\n  Rust {:?}", got.0, want.0))
        } else {
            memory::first_difference(&got.1, &want.1)
        };
        if let Some(what) = what {
            t.differ += 1;
            self.partings.push(Parting {
                input: input.clone(),
                lent,
                export: self.export,
                what,
            });
        }
    }
}

/// An answer and the slices after it.
type Left = (Result<sedgepick::lent::Answer, Refusal>, memory::Slices);
