//! The quality sheet, linked from the static library, against the reference's on generated lists: number, answer and rows bit for bit, in memory full of
//! garbage whose tails must stay.

use reference::generators::{of_case, TEXT};
use reference::input::LARGEST;
use reference::random::Random;
use reference::records::{records, WORDS};
use reference::sheet::{Listed, Sheet, BOUNDS, MOST_POINTS, MOST_QUADS, PLACES};
use sedgepick::{put_sheet, SHEET_NUMBERS};

/// Values that the memory to write to is full of.
const GARBAGE: f64 = -77.5;
const UNWRITTEN: usize = 9_999_999;

/// What is handed in.
#[derive(Clone, Debug, Default)]
struct List {
    points: Vec<f64>,
    quads: Vec<u32>,
    given: usize,
    count: usize,
    /// f64 to write and numbers to write.
    out: usize,
    answer: usize,
}

impl List {
    fn point(&mut self, x: f64, y: f64, r: &mut Random) -> u32 {
        self.points.extend([x, y, f64::from_bits(r.bits())]);
        self.given += 1;
        self.given as u32 - 1
    }

    /// A record whose birth is anything.
    fn quad(&mut self, corners: [u32; 4], r: &mut Random) {
        self.quads.extend(corners);
        self.quads
            .extend([0; WORDS - 4].map(|_: u8| r.bits() as u32));
        self.count += 1;
    }

    /// Room for what is written, half of the times with a tail.
    fn lent(mut self, r: &mut Random) -> List {
        let tail = |r: &mut Random| if r.once_in(2) { 0 } else { r.below(7) };
        self.points.extend((0..tail(r)).map(|_| f64::NAN));
        self.quads.extend((0..tail(r)).map(|_| u32::MAX));
        self.out = 2 * self.count + tail(r);
        self.answer = SHEET_NUMBERS + tail(r);
        self
    }

    fn listed(&self) -> Listed<'_> {
        Listed {
            points: &self.points,
            quads: &self.quads,
            out: self.out,
            given: self.given,
            count: self.count,
        }
    }
}

// ---- lists

fn size(r: &mut Random) -> usize {
    match r.below(200) {
        0 => 2000,
        1..=20 => 120,
        _ => 12,
    }
}

/// Any four of some points, also one twice.
fn random(r: &mut Random) -> List {
    let mut l = List::default();
    let most = size(r);
    for _ in 0..r.from_to(1, most) {
        let (x, y) = (8.0 * r.around(), 8.0 * r.around());
        l.point(x, y, r);
    }
    for _ in 0..r.from_to(0, most) {
        let corners = [0; 4].map(|_: u8| r.below(l.given) as u32);
        l.quad(corners, r);
    }
    l
}

/// The cells of a grid whose points were moved, some of them turned over.
fn moved_grid(r: &mut Random) -> List {
    let mut l = List::default();
    let most = size(r).min(100);
    let (wide, high) = (r.from_to(2, most), r.from_to(2, 12));
    let step = r.pick(&[7.0, 1.0, 1e-3, 1e-5]) / wide.max(high) as f64;
    let by = step * r.pick(&[0.0, 0.05, 0.3, 0.6]);
    for i in 0..wide * high {
        let (x, y) = ((i % wide) as f64, (i / wide) as f64);
        let (dx, dy) = (by * r.around(), by * r.around());
        l.point(step * x + dx, step * y + dy, r);
    }
    for i in 0..wide * (high - 1) {
        if i % wide + 1 == wide {
            continue;
        }
        let (a, up) = (i as u32, wide as u32);
        let mut corners = [a, a + 1, a + 1 + up, a + up];
        corners.rotate_left(r.below(4));
        if r.once_in(20) {
            corners.swap(0, 2);
        }
        l.quad(corners, r);
    }
    l
}

/// Quads without area or with a node twice, alone or among good ones.
fn without_area(r: &mut Random) -> List {
    let mut l = List::default();
    let good = r.once_in(2);
    for _ in 0..r.from_to(1, 12) {
        let (x, y, s) = (r.around(), r.around(), r.unit());
        let p = match r.below(5) {
            0 => [[x, y]; 4],
            1 => [0.0, 1.0, 2.0, 3.0].map(|t| [x + s * t, y + s * t]),
            2 => [[x, y], [x + s, y], [x, y], [x, y + s]],
            3 => [[x, y], [x, y + s], [x + s, y + s], [x + s, y]],
            _ if good => [[x, y], [x + s, y], [x + s, y + s], [x, y + s]],
            _ => [[x, y], [x + s, y], [x + s / 4.0, y + s / 4.0], [x, y + s]],
        };
        let mut corners = p.map(|[x, y]| l.point(x, y, r));
        if r.once_in(3) {
            let (i, k) = (r.below(4), r.below(4));
            corners[i] = corners[k];
        }
        l.quad(corners, r);
    }
    l
}

/// Parallelograms whose scaled Jacobian is a bound or one of the doubles beside it, each several times.
fn on_bounds(r: &mut Random) -> List {
    let mut l = List::default();
    for _ in 0..r.from_to(1, 6) {
        let bound = r.pick(&BOUNDS);
        for _ in 0..200 {
            let side = 1.0 + r.unit();
            let (x, y) = (side * (1.0 - bound * bound).sqrt(), side * bound);
            let mut one = List::default();
            let p = [[0.0, 0.0], [1.0, 0.0], [1.0 + x, y], [x, y]];
            let corners = p.map(|[x, y]| one.point(x, y, r));
            one.quad(corners, r);
            let sj = one
                .clone()
                .lent(r)
                .listed()
                .sheet()
                .expect("a good list")
                .rows[0][0];
            if [bound.next_down(), bound, bound.next_up()].contains(&sj) {
                let corners = p.map(|[x, y]| l.point(x, y, r));
                (0..r.from_to(1, 2)).for_each(|_| l.quad(corners, r));
                break;
            }
        }
    }
    l
}

/// What the reference made of a generated mesh, records as they are.
fn our_mesh(case: u64, r: &mut Random) -> List {
    let (_, make) = of_case(None, case / KINDS.len() as u64);
    let input = make(r, &TEXT);
    let mut l = List::default();
    if let Ok(run) = input.run(LARGEST) {
        run.points.iter().for_each(|p| {
            l.point(p[0], p[1], r);
        });
        let words = records(&run);
        l.quads = words.iter().flatten().map(|&w| w as u32).collect();
        l.count = words.len();
    }
    l
}

/// One test fails; now and then two.
fn damaged(l: &mut List, r: &mut Random) {
    for _ in 0..r.from_to(1, 2) {
        match r.below(9) {
            0 => l.given = r.pick(&[MOST_POINTS + 1, usize::MAX]),
            1 => l.count = r.pick(&[MOST_QUADS + 1, usize::MAX]),
            2 => l.points.truncate((3 * l.given.min(99)).saturating_sub(1)),
            3 => l
                .quads
                .truncate((WORDS * l.count.min(99)).saturating_sub(1)),
            4 => l.out = (2 * l.count.min(99)).saturating_sub(1),
            5 => l.answer = r.below(SHEET_NUMBERS),
            6 | 7 if !l.quads.is_empty() => {
                let i = WORDS * r.below(l.quads.len().div_ceil(WORDS)) + r.below(4);
                if let Some(v) = l.quads.get_mut(i) {
                    *v = r.pick(&[l.given as u32, MOST_POINTS as u32, u32::MAX]);
                }
            }
            _ if l.points.len() >= 3 => {
                let i = 3 * r.below(l.points.len() / 3) + r.below(2);
                l.points[i] = r.pick(&[f64::NAN, f64::INFINITY, 8.0f64.next_up(), -9.0]);
            }
            _ => {}
        }
    }
}

const KINDS: [&str; 6] = [
    "random",
    "moved grids",
    "without area",
    "on bounds",
    "our meshes",
    "damaged",
];

fn list(kind: usize, case: u64, r: &mut Random) -> List {
    let mut l = match kind {
        0 => random(r),
        1 => moved_grid(r),
        2 => without_area(r),
        3 => on_bounds(r),
        4 => our_mesh(case, r),
        _ => {
            let make = r.pick(&[random, moved_grid, without_area]);
            make(r)
        }
    }
    .lent(r);
    if kind == 5 {
        damaged(&mut l, r);
    }
    l
}

// ---- the run

/// Lists of a kind.
#[derive(Clone, Copy, Default)]
struct Tally {
    lists: u64,
    quads: u64,
    bare: u64,
    /// Quads on each bound.
    bounds: [u64; BOUNDS.len()],
    absent: u64,
    refused: [u64; 8],
    differ: u64,
}

impl Tally {
    fn note(&mut self, answer: &Result<Sheet, u32>) {
        self.lists += 1;
        match answer {
            Err(k) => self.refused[*k as usize] += 1,
            Ok(s) => {
                self.quads += s.rows.len() as u64;
                self.bare += s.counts[PLACES - 1] as u64;
                for (n, b) in self.bounds.iter_mut().zip(BOUNDS) {
                    *n += s.rows.iter().filter(|v| v[0] == b).count() as u64;
                }
                self.absent += s.jacobian.is_none() as u64;
            }
        }
    }

    fn add(&mut self, other: &Tally) {
        self.lists += other.lists;
        self.quads += other.quads;
        self.bare += other.bare;
        (0..BOUNDS.len()).for_each(|k| self.bounds[k] += other.bounds[k]);
        self.absent += other.absent;
        (0..8).for_each(|k| self.refused[k] += other.refused[k]);
        self.differ += other.differ;
    }
}

/// The reference's answer; a slice for it that is too short is 4, unless 1 comes before.
fn expected(l: &List) -> Result<Sheet, u32> {
    let answer = l.listed().sheet();
    match answer {
        Err(1) => Err(1),
        _ if l.answer < SHEET_NUMBERS => Err(4),
        other => other,
    }
}

/// What parts, where anything does.
fn parting(l: &List, answer: &Result<Sheet, u32>) -> Option<&'static str> {
    let mut out = vec![GARBAGE; l.out];
    let mut numbers = vec![UNWRITTEN; l.answer];
    let given = put_sheet(
        &l.points,
        &l.quads,
        &mut out,
        l.given,
        l.count,
        &mut numbers,
    );
    if given.map_err(|refusal| refusal.number()) != answer.as_ref().map(|_| ()).map_err(|k| *k) {
        return Some("the number");
    }
    let (mut rows, mut said) = (vec![GARBAGE; l.out], vec![UNWRITTEN; l.answer]);
    if let Ok(s) = answer {
        rows[..2 * l.count].copy_from_slice(s.rows.as_flattened());
        said[..PLACES].copy_from_slice(&s.counts);
        for (place, worst) in [s.jacobian, s.cosine].into_iter().enumerate() {
            said[PLACES + place] = worst.map_or(l.count, |w| w.0);
            if worst
                .is_some_and(|(quad, value)| value.to_bits() != rows[2 * quad + place].to_bits())
            {
                return Some("the reference itself");
            }
        }
        if s.counts.iter().sum::<usize>() != l.count {
            return Some("the sum of the reference's counts");
        }
    }
    if said != numbers {
        return Some("the answer");
    }
    let same = out
        .iter()
        .zip(&rows)
        .all(|(a, b)| a.to_bits() == b.to_bits());
    (!same).then_some("the rows")
}

/// Compares the lists of the seed; true where none differs.
pub fn run(seed: u64, count: u64) -> bool {
    let mut tallies = [Tally::default(); KINDS.len()];
    for case in 0..count {
        let mut r = Random::new(seed, case);
        let kind = r.below(KINDS.len());
        let l = list(kind, case, &mut r);
        let answer = expected(&l);
        let tally = &mut tallies[kind];
        tally.note(&answer);
        if let Some(what) = parting(&l, &answer) {
            tally.differ += 1;
            eprintln!("list {case}, {}: {what}", KINDS[kind]);
        }
    }
    print(&tallies)
}

/// A line a kind, then the sums.
fn print(tallies: &[Tally]) -> bool {
    println!("kind | lists | quads | without metrics | on the bounds | no worst | refused 1 4 5 7 | differ");
    let mut all = Tally::default();
    let line = |kind: &str, t: &Tally| {
        let refused = [1, 4, 5, 7].map(|k| t.refused[k].to_string()).join(" ");
        let bounds = t.bounds.map(|n| n.to_string()).join(" ");
        println!(
            "{kind} | {} | {} | {} | {bounds} | {} | {refused} | {}",
            t.lists, t.quads, t.bare, t.absent, t.differ
        );
    };
    for (kind, t) in KINDS.iter().zip(tallies) {
        line(kind, t);
        all.add(t);
    }
    line("all", &all);
    println!("{} of {} lists agree", all.lists - all.differ, all.lists);
    all.differ == 0
}
