//! Previews on generated meshes: the port against the reference, the answer and every slice, in memory full of garbage. Every front edge of a small mesh and some of a
//! larger one, inner edges, and pairs that are no edge, each in both node orders.

mod call;
mod pairs;

use std::collections::BTreeMap;

use reference::input::{Input, Lent, LARGEST};
use reference::preview::{preview, Shown};
use reference::random::Random;

use crate::asked::asked;
use crate::cases::{self, BEFORE_SLICES, REFUSALS};
use crate::left::{difference, Left};
use crate::memory::{self, Tails, SLICES};
use crate::threads;
use call::{after, place, port, ANSWER};
use pairs::Pair;

/// Partings that are printed whole.
const SHOWN: usize = 3;

/// Of so many meshes four have a set, four have joints, four are in the profile.
const ASKED_OF: usize = 12;

/// Slices that can be too short: those of a run, the given triangles, the answer.
const GIVEN: usize = SLICES;
const ANSWERED: usize = SLICES + 1;

/// What previews of a kind of mesh came to.
#[derive(Clone, Copy, Default)]
struct Tally {
    meshes: u64,
    previews: u64,
    off_front: u64,
    quads: u64,
    /// Refused attempts by the kind's number.
    kinds: [u64; 6],
    /// Refusals by their number.
    refused: [u64; REFUSALS],
    /// Shown attempts with insertions, with flips, and the sums of both.
    inserting: u64,
    flipping: u64,
    insertions: u64,
    flips: u64,
    differ: u64,
}

impl Tally {
    fn add(&mut self, other: &Tally) {
        self.meshes += other.meshes;
        self.previews += other.previews;
        self.off_front += other.off_front;
        self.quads += other.quads;
        let sums = self.kinds.iter_mut().chain(&mut self.refused);
        sums.zip(other.kinds.iter().chain(&other.refused))
            .for_each(|(to, n)| *to += n);
        self.inserting += other.inserting;
        self.flipping += other.flipping;
        self.insertions += other.insertions;
        self.flips += other.flips;
        self.differ += other.differ;
    }

    fn count(&mut self, shown: &Shown) {
        self.previews += 1;
        match shown {
            Shown::OffFront => self.off_front += 1,
            Shown::Quad(..) => self.quads += 1,
            Shown::Refused(kind, _) => self.kinds[place(*kind)] += 1,
            Shown::Refusal(number) => self.refused[*number as usize] += 1,
        }
        if let Shown::Quad(_, cost) | Shown::Refused(_, cost) = shown {
            self.inserting += (cost.insertions > 0) as u64;
            self.flipping += (cost.flips > 0) as u64;
            self.insertions += cost.insertions as u64;
            self.flips += cost.flips as u64;
        }
    }
}

/// A preview on which the two part.
struct Parting {
    case: u64,
    pair: Pair,
    what: String,
    text: Vec<u8>,
}

/// What a thread found.
#[derive(Default)]
struct Found {
    kinds: BTreeMap<&'static str, Tally>,
    partings: Vec<Parting>,
}

/// The previews of one mesh.
struct Turn<'a> {
    case: u64,
    r: Random,
    tally: &'a mut Tally,
    partings: &'a mut Vec<Parting>,
}

impl Turn<'_> {
    /// Both rules, with the standard set, no joints and no profile, then with others.
    fn mesh(&mut self, input: Input) {
        self.tally.meshes += 1;
        for plain in cases::rules(input) {
            self.pairs(&plain);
            if plain.refusal(LARGEST).is_none() {
                let further = asked(plain, ASKED_OF, &mut self.r);
                self.pairs(&further);
            }
        }
    }

    fn pairs(&mut self, input: &Input) {
        let pairs = match input.refusal(LARGEST) {
            Some(_) => pairs::any(input, &mut self.r),
            None => pairs::pairs(input, &mut self.r),
        };
        for pair in pairs {
            self.pair(input, pair);
        }
    }

    /// As much memory as an attempt can use, or less; rarely less than is given, all that may be lent, or more.
    fn lend(&mut self, input: &Input) -> Lent {
        let (given, count) = (input.points.len(), input.triangles.len());
        let ample = Lent {
            points: given + 2 + self.r.below(7),
            slots: count + 5 + self.r.below(7),
        };
        let over = Lent {
            points: LARGEST.points + 1,
            slots: LARGEST.slots + 1,
        };
        let (points, slots) = (given + self.r.below(3), count + self.r.below(6));
        match self.r.below(2048) {
            0 => LARGEST,
            1 => Lent {
                points: over.points,
                ..ample
            },
            2 => Lent {
                slots: over.slots,
                ..ample
            },
            3..=20 => Lent {
                points: given.saturating_sub(1),
                ..ample
            },
            21..=40 => Lent {
                slots: count.saturating_sub(1),
                ..ample
            },
            41..=400 => Lent { points, ..ample },
            401..=800 => Lent { slots, ..ample },
            801..=1000 => Lent { points, slots },
            _ => ample,
        }
    }

    /// How much longer each slice is than it needs to be; rarely one is shorter.
    fn tails(&mut self, input: &Input, lent: Lent) -> [isize; SLICES + 2] {
        let mut tails = [(); SLICES + 2].map(|_| self.r.below(5) as isize);
        if self.r.once_in(32) {
            let slice = self.r.below(SLICES + 2);
            let need = match slice {
                GIVEN => 3 * input.triangles.len(),
                ANSWERED => ANSWER,
                _ => memory::needs(input, lent)[slice],
            };
            if need > 0 {
                let any = self.r.from_to(1, need);
                tails[slice] = -(self.r.pick(&[1, 1, need, any]) as isize);
            }
        }
        tails
    }

    /// Slices for a call.
    fn before(&mut self, input: &Input, lent: Lent, tails: [isize; SLICES + 2]) -> Left {
        let mut of_run = Tails::default();
        of_run.0.copy_from_slice(&tails[..SLICES]);
        let length = |need: usize, tail: isize| need.saturating_add_signed(tail);
        let answer = length(ANSWER, tails[ANSWERED]);
        let mut triangles = input.triangles.as_flattened().to_vec();
        let given = length(triangles.len(), tails[GIVEN]);
        triangles.resize(given, self.r.bits() as u32);
        Left {
            number: 0,
            answer: (0..answer).map(|_| self.r.bits() as usize).collect(),
            triangles,
            slices: memory::slices(input, lent, of_run, &mut self.r),
        }
    }

    /// The pair in both orders.
    fn pair(&mut self, input: &Input, (u, v): Pair) {
        let lent = self.lend(input);
        let tails = self.tails(input, lent);
        let short = tails.iter().any(|&tail| tail < 0);
        let shown = match input.refusal(lent) {
            Some(number) if BEFORE_SLICES.contains(&number) => Shown::Refusal(number),
            _ if short => Shown::Refusal(4),
            _ => preview(input, lent, u, v),
        };
        let before = self.before(input, lent, tails);
        let want = after(&before, &shown);
        for pair in [(u, v), (v, u)] {
            let got = port(input, lent, pair, before.clone());
            self.tally.count(&shown);
            if let Some(what) = difference(&got, &want) {
                self.tally.differ += 1;
                self.partings.push(Parting {
                    case: self.case,
                    pair,
                    what,
                    text: reference::call::write(lent, input),
                });
            }
        }
    }
}

/// Compares the previews of the seed's meshes; true where none differs.
pub fn run(seed: u64, count: u64, threads: u64) -> bool {
    let one = |case: u64, found: &mut Found| {
        let (kind, input, r) = cases::mesh(seed, case);
        let before = found.partings.len();
        Turn {
            case,
            r,
            tally: found.kinds.entry(kind).or_default(),
            partings: &mut found.partings,
        }
        .mesh(input);
        found.partings.len() - before
    };
    let mut all = Found::default();
    for found in threads::run(count, threads, "meshes", one) {
        for (kind, tally) in found.kinds {
            all.kinds.entry(kind).or_default().add(&tally);
        }
        all.partings.extend(found.partings);
    }
    let sums = print(&all.kinds);
    all.partings.sort_by_key(|p| (p.text.len(), p.case));
    for p in all.partings.iter().take(SHOWN) {
        let text = String::from_utf8_lossy(&p.text);
        eprintln!("mesh {}, edge {:?}: {}\n{text}", p.case, p.pair, p.what);
    }
    let agree = sums.previews - sums.differ;
    println!("{agree} of {} previews agree", sums.previews);
    sums.differ == 0
}

/// A line for each kind of mesh, then the sums.
fn print(kinds: &BTreeMap<&'static str, Tally>) -> Tally {
    const NUMBERS: [usize; 10] = [1, 2, 3, 14, 4, 5, 6, 7, 15, 13];
    println!("kind | meshes | previews | off the front | quads | placement | invalid quad | recovery | region | odd region | refused 1 2 3 14 4 5 6 7 15 13 | 8 | 9 | with insertions | with flips | insertions | flips | differ");
    let mut all = Tally::default();
    let line = |name: &str, t: &Tally| {
        let kinds = t.kinds[1..].iter().map(u64::to_string);
        let kinds = kinds.collect::<Vec<_>>().join(" | ");
        let refused = NUMBERS.map(|k| t.refused[k].to_string()).join(" ");
        println!(
            "{name} | {} | {} | {} | {} | {kinds} | {refused} | {} | {} | {} | {} | {} | {} | {}",
            t.meshes,
            t.previews,
            t.off_front,
            t.quads,
            t.refused[8],
            t.refused[9],
            t.inserting,
            t.flipping,
            t.insertions,
            t.flips,
            t.differ
        );
    };
    for (kind, tally) in kinds {
        line(kind, tally);
        all.add(tally);
    }
    line("all", &all);
    all
}
