//! The published module, the patched one but for the second end, and the patched one on generated inputs.

use std::collections::BTreeMap;
use std::path::Path;

use crate::generators::shape::Room;
use crate::generators::{self, joints, on_grid, sets, KINDS, TEXT};
use crate::input::{Input, UNBOUNDED};
use crate::random::Random;
use crate::{account, bare, damage, patched, published, text};
use crate::{without_asked, without_cosine, without_off_front, without_second_end};

/// What two runs are compared by. `limit` is not of the published module.
#[derive(PartialEq, Eq)]
pub struct Ran {
    counts: [usize; 8],
    quads: Vec<[usize; 4]>,
    triangles: Vec<[usize; 3]>,
    points: Vec<[u64; 3]>,
    sizes: Vec<usize>,
}

macro_rules! ran {
    ($module:ident, $result:expr) => {{
        let r: $module::FrontResult = $result;
        let c = r.refusals;
        Ran {
            counts: [
                c.front_empty,
                c.attempts,
                c.placement,
                c.invalid_quad,
                c.recovery,
                c.region,
                c.odd_region,
                c.mismatch_insertions,
            ],
            points: r.points.iter().map(|p| p.map(f64::to_bits)).collect(),
            quads: r.quads,
            triangles: r.triangles,
            sizes: r.region_components,
        }
    }};
}

macro_rules! run {
    ($module:ident, $input:expr $(, $most:expr)*) => {{
        let stop = if $input.even() {
            $module::FrontStop::EvenComponents
        } else {
            $module::FrontStop::Exhaust
        };
        let (tris, nodes) = ($input.tris(), $input.nodes());
        ran!($module, $module::run_front(&tris, &nodes, $input.size(), stop $(, $most)*))
    }};
}

/// Which patch makes two runs part: of the first four, the published one and the one without
/// the second end's patch; of the others, that one and the patched one, by what differs.
#[derive(Clone, Copy, Debug, PartialEq, Eq, PartialOrd, Ord)]
pub enum Parting {
    Cosine,
    OffFront,
    Both,
    Other,
    SecondCounts,
    SecondTriangles,
    SecondQuads,
}

/// Why the run without the second end's patch parts from the published one, if it does.
fn early_parting(input: &Input, before: &Ran) -> Option<Parting> {
    let most = usize::MAX;
    let published_ran = run!(published, input);
    if published_ran == *before {
        return None;
    }
    if run!(bare, input, most, most) != published_ran {
        return Some(Parting::Other);
    }
    if run!(without_cosine, input, most, most) == *before {
        return Some(Parting::OffFront);
    }
    if run!(without_off_front, input, most, most) == *before {
        return Some(Parting::Cosine);
    }
    Some(Parting::Both)
}

/// What the second end's patch changes: the quads; with the same quads the triangles or points
/// that are left; the counts alone.
fn second_parting(before: &Ran, after: &Ran) -> Option<Parting> {
    if before.quads != after.quads {
        Some(Parting::SecondQuads)
    } else if before.triangles != after.triangles || before.points != after.points {
        Some(Parting::SecondTriangles)
    } else if before != after {
        Some(Parting::SecondCounts)
    } else {
        None
    }
}

/// Why the published, the earlier and the patched run part: at most one of each sort.
fn partings(input: &Input, patched_ran: &Ran) -> Vec<Parting> {
    let most = usize::MAX;
    let before = run!(without_second_end, input, most, most);
    let early = early_parting(input, &before);
    early
        .into_iter()
        .chain(second_parting(&before, patched_ran))
        .collect()
}

/// The same from the input alone.
pub fn partings_of(input: &Input) -> Vec<Parting> {
    if input.points.len() > 4096 || input.refusal(crate::input::LARGEST).is_some() {
        return Vec::new();
    }
    partings(input, &ran!(patched, input.run_unchecked(UNBOUNDED)))
}

/// The counts and lengths of the three runs of a text, and why they part.
pub fn parts(bytes: &[u8]) -> Option<String> {
    let input = text::read(bytes)?;
    if input.refusal(crate::input::PROGRAM).is_some() {
        return None;
    }
    let row = |name: &str, r: &Ran| {
        let lengths = [
            r.quads.len(),
            r.triangles.len(),
            r.points.len(),
            r.sizes.len(),
        ];
        let words = |list: &[usize]| {
            list.iter()
                .map(usize::to_string)
                .collect::<Vec<_>>()
                .join(" ")
        };
        format!(
            "{name}: {} / {} / {:?}\n",
            words(&r.counts),
            words(&lengths),
            r.quads
        )
    };
    let most = usize::MAX;
    let published = row("published", &run!(published, input));
    let before = run!(without_second_end, input, most, most);
    let before = row("without second-end", &before);
    let patched = row("patched", &ran!(patched, input.run_unchecked(UNBOUNDED)));
    let why = partings_of(&input);
    Some(format!("{published}{before}{patched}{why:?}\n"))
}

#[derive(Default)]
struct Tally {
    runs: usize,
    refused: usize,
    agree: usize,
    partings: BTreeMap<Parting, usize>,
    by_attempts: usize,
    by_triangles: usize,
    short: usize,
    sets: usize,
    joints: usize,
    grids: usize,
}

#[derive(Default)]
pub struct Comparison {
    kinds: BTreeMap<&'static str, Tally>,
    smallest: BTreeMap<Parting, Input>,
}

/// Larger rooms now and then.
fn room(case: u64) -> Room {
    match case / KINDS.len() as u64 % 256 {
        255 => Room {
            triangles: 600,
            points: 500,
        },
        n if n % 16 == 15 => Room {
            triangles: 200,
            points: 160,
        },
        _ => TEXT,
    }
}

impl Comparison {
    /// One case; panics where a run breaks its account.
    pub fn case(&mut self, seed: u64, case: u64, kind: &'static generators::Kind) {
        let mut r = Random::new(seed, case);
        let input = kind.1(&mut r, &room(case));
        let tally = self.kinds.entry(kind.0).or_default();
        tally.runs += 1;
        check_text(&input, &mut r);
        if input.refusal(crate::input::LARGEST).is_some() {
            tally.refused += 1;
            return;
        }
        let full = input.run_unchecked(UNBOUNDED);
        account::check(&input, &full);
        if full.refusals.limit == 1 {
            if full.refusals.attempts > 200 * input.triangles.len() + 10_000 {
                tally.by_attempts += 1;
            } else {
                tally.by_triangles += 1;
            }
        }
        if input.triangles.len() <= 64 && full.refusals.attempts < 400 && r.once_in(3) {
            tally.short += account::check_lent(&input, &full, &mut r);
        }
        if r.once_in(3) {
            tally.sets += check_set(&input, &mut r);
        }
        if r.once_in(3) {
            tally.joints += check_joints(&input, &mut r);
        }
        if r.once_in(3) {
            tally.grids += check_grid(&input, &mut r);
        }
        let full = ran!(patched, full);
        check_standard(&input, &full);
        let whys = partings(&input, &full);
        if whys.is_empty() {
            tally.agree += 1;
        }
        for why in whys {
            *tally.partings.entry(why).or_default() += 1;
            let small = if input.triangles.len() <= 40 {
                shrink(input.clone(), why)
            } else {
                input.clone()
            };
            let best = self.smallest.entry(why).or_insert_with(|| small.clone());
            if weight(&small) < weight(best) {
                *best = small;
            }
        }
    }

    /// A line a kind, then the sums. True when nothing parts but by the patches.
    pub fn print(&self) -> bool {
        println!("kind runs refused agree cosine off_front both other second_counts second_triangles second_quads by_attempts by_triangles short_of_memory sets joints grids");
        let mut sums = [0; 16];
        for (kind, t) in &self.kinds {
            let of = |why| t.partings.get(&why).copied().unwrap_or(0);
            let row = [
                t.runs,
                t.refused,
                t.agree,
                of(Parting::Cosine),
                of(Parting::OffFront),
                of(Parting::Both),
                of(Parting::Other),
                of(Parting::SecondCounts),
                of(Parting::SecondTriangles),
                of(Parting::SecondQuads),
                t.by_attempts,
                t.by_triangles,
                t.short,
                t.sets,
                t.joints,
                t.grids,
            ];
            println!("{kind} {}", row.map(|n| n.to_string()).join(" "));
            sums.iter_mut().zip(row).for_each(|(sum, n)| *sum += n);
        }
        println!("all {}", sums.map(|n| n.to_string()).join(" "));
        sums[6] == 0
    }

    /// The smallest parting input of each sort.
    pub fn save(&self, folder: &Path) -> std::io::Result<()> {
        std::fs::create_dir_all(folder)?;
        for (why, input) in &self.smallest {
            std::fs::write(folder.join(format!("{why:?}.in")), text::write(input))?;
            let tris = input.triangles.len();
            println!("{why:?}: {tris} triangles, {} points", input.points.len());
        }
        Ok(())
    }
}

/// By triangles, then by the length of the text.
fn weight(input: &Input) -> (usize, usize) {
    (input.triangles.len(), text::write(input).len())
}

/// The text form holds what it is given, and no damage makes a panic.
fn check_text(input: &Input, r: &mut Random) {
    let whole = text::write(input);
    let fits = input.triangles.len() <= 64 && input.points.len() <= 64;
    assert_eq!(
        text::read(&whole).as_ref(),
        fits.then_some(input),
        "the text form"
    );
    let broken = damage::damaged(&whole, r);
    if let Some(other) = text::read(&broken) {
        assert_eq!(text::write(&other), broken, "two texts for one input");
    }
}

/// With the standard set, without joints and without the grid profile the module is the one that knows none of them.
fn check_standard(input: &Input, full: &Ran) {
    let most = usize::MAX;
    assert!(
        run!(without_asked, input, most, most) == *full,
        "the standard set, no joints, no profile"
    );
}

/// A run with another set keeps its account. Says how many runs were made.
fn check_set(input: &Input, r: &mut Random) -> usize {
    let input = Input {
        quality: sets::good(r),
        ..input.clone()
    };
    if input.triangles.len() > 64 {
        return 0;
    }
    account::check(&input, &input.run_unchecked(UNBOUNDED));
    1
}

/// A run with joints, and mostly another set, keeps its account and the joints; their order, the order of their nodes and repeats change nothing. Says how
/// many runs were made.
fn check_joints(input: &Input, r: &mut Random) -> usize {
    if input.triangles.len() > 64 {
        return 0;
    }
    let mut input = Input {
        joints: joints::good(input, r),
        ..input.clone()
    };
    if r.once_in(2) {
        input.quality = sets::good(r);
    }
    let full = input.run_unchecked(UNBOUNDED);
    account::check(&input, &full);
    let first = ran!(patched, full);
    r.shuffle(&mut input.joints);
    let again = input
        .joints
        .iter()
        .map(|j| [j[1], j[0]])
        .collect::<Vec<_>>();
    input.joints.extend(again);
    let second = ran!(patched, input.run_unchecked(UNBOUNDED));
    assert!(first == second, "the order of joints, or a repeat");
    2
}

/// A run in the grid profile, half of them with another set and joints, keeps its account and the exact area, and is the run without the profile. Says how
/// many runs were made.
fn check_grid(input: &Input, r: &mut Random) -> usize {
    if input.triangles.len() > 64 {
        return 0;
    }
    let mut input = on_grid::good(input, r);
    if r.once_in(2) {
        input.quality = sets::good(r);
        input.joints = joints::good(&input, r);
    }
    let full = input.run_unchecked(UNBOUNDED);
    account::check(&input, &full);
    input.grid = 0;
    let free = ran!(patched, input.run_unchecked(UNBOUNDED));
    assert!(ran!(patched, full) == free, "the profile changes a run");
    1
}

/// Triangles, points and digits left out one by one while the runs still part so.
fn shrink(mut input: Input, why: Parting) -> Input {
    let parts = |i: &Input| partings_of(i).contains(&why);
    loop {
        let without = |k: usize| {
            let mut less = input.clone();
            less.triangles.remove(k);
            less
        };
        match (0..input.triangles.len()).map(without).find(parts) {
            Some(less) => input = less,
            None => break,
        }
    }
    let packed = packed(&input);
    if parts(&packed) {
        input = packed;
    }
    for digits in [1.0, 2.0, 4.0, 8.0, 16.0, 64.0, 1024.0] {
        let round = |b: u64| ((f64::from_bits(b) * digits).round() / digits).to_bits();
        let mut rounded = input.clone();
        rounded
            .points
            .iter_mut()
            .for_each(|p| *p = [round(p[0]), round(p[1]), 0]);
        if parts(&rounded) {
            return rounded;
        }
    }
    input
}

/// Without the points that no triangle names.
fn packed(input: &Input) -> Input {
    let named = |v: &usize| input.triangles.iter().flatten().any(|&n| n as usize == *v);
    let kept: Vec<usize> = (0..input.points.len()).filter(named).collect();
    let place = |n: u32| kept.iter().position(|&v| v == n as usize).unwrap_or(0) as u32;
    Input {
        points: kept.iter().map(|&v| input.points[v]).collect(),
        triangles: input.triangles.iter().map(|t| t.map(place)).collect(),
        ..input.clone()
    }
}
