//! The port, linked from its static library, against the patched Rust on generated meshes: answers and every lent slice, bit for bit. `filing` compares the
//! filing order with a plain one, `jobs` runs jobs of several meshes, `preview` asks what edges would give, `replay` replays traces, `sheet` compares the quality sheet with the
//! reference's, `accept` the verdicts on whole meshes.

mod accept;
mod asked;
mod cases;
mod filing;
mod jobs;
mod left;
mod memory;
mod preview;
mod replay;
mod sheet;
mod threads;

use std::collections::BTreeMap;

use cases::{Case, Parting, Tally};
use memory::Export;

const USAGE: &str = "usage: compare SEED COUNT [THREADS]
  runs COUNT generated meshes of the seed under both stop rules, with the standard set and half of them with another, half of them with joints, a third in the
  grid profile, half of these once more with a trace, THREADS at a time (1 without it)
compare jobs SEED COUNT [THREADS]
  runs COUNT jobs of 1 to 16 generated meshes, refused ones among them, and states that are refused
compare preview SEED COUNT [THREADS]
  asks on COUNT generated meshes what each front edge would give, on larger ones some of them, and what inner edges and pairs that are no edge, in both node orders
compare replay SEED COUNT [THREADS]
  runs COUNT generated meshes with a trace and replays it, and words that no run wrote: traces damaged in several ways, of other meshes, and any entries
compare filing SEED COUNT
  runs the filing order on COUNT generated pairs of meshes
compare sheet SEED COUNT
  makes the quality sheet of COUNT generated lists of quads
compare accept SEED COUNT [THREADS]
  judges what COUNT cases make, about seven meshes each: finished runs, whole and damaged in one place, cells at the limits, any lists, refused calls
compare accepts FILE
  makes the stored calls of an acceptance";

/// Partings that are printed whole.
const SHOWN: usize = 3;

/// What a thread found.
#[derive(Default)]
struct Found {
    kinds: BTreeMap<&'static str, Tally>,
    partings: Vec<(u64, Parting)>,
}

impl Found {
    /// The runs of a case, and how many of them differ.
    fn case(&mut self, seed: u64, case: u64) -> usize {
        let (kind, input, r) = cases::mesh(seed, case);
        let mut partings = Vec::new();
        Case {
            tally: self.kinds.entry(kind).or_default(),
            partings: &mut partings,
            r,
            export: Export::Plain,
        }
        .run(input);
        let differ = partings.len();
        self.partings
            .extend(partings.into_iter().map(|p| (case, p)));
        differ
    }
}

/// A line a kind, then the sums.
fn print(kinds: &BTreeMap<&'static str, Tally>) -> Tally {
    println!("kind | meshes | runs | sets | changed | joined | changed | standing | saved | grids | finished | by limit | refused 1 2 3 14 4 5 6 7 15 13 | 8 | 9 | 11 | quads | insertions | trials | traced | words | differ");
    let mut all = Tally::default();
    let line = |kind: &str, t: &Tally| {
        let early = [1, 2, 3, 14, 4, 5, 6, 7, 15, 13]
            .map(|k| t.refused[k].to_string())
            .join(" ");
        println!(
            "{kind} | {} | {} | {} | {} | {} | {} | {} | {} | {} | {} | {} | {early} | {} | {} | {} | {} | {} | {} | {} | {} | {}",
            t.meshes,
            t.runs,
            t.sets,
            t.changed,
            t.joined,
            t.rejoined,
            t.standing,
            t.saved,
            t.grids,
            t.finished,
            t.limited,
            t.refused[8],
            t.refused[9],
            t.refused[11],
            t.quads,
            t.inserted,
            t.trials,
            t.traced,
            t.words,
            t.differ
        );
    };
    for (kind, tally) in kinds {
        line(kind, tally);
        all.add(tally);
    }
    line("all", &all);
    all
}

/// The smallest partings, as calls of the library that the reference answers.
fn show(partings: &mut [(u64, Parting)]) {
    partings.sort_by_key(|(case, p)| (p.input.triangles.len(), *case));
    for (case, p) in partings.iter().take(SHOWN) {
        eprintln!("case {case}, {:?}: {}", p.export, p.what);
        eprintln!(
            "{}",
            String::from_utf8_lossy(&reference::call::write(p.lent, &p.input))
        );
    }
}

/// What to run: meshes of a seed, jobs of them, previews on them or replays on so many threads, pairs of them, or lists of quads.
enum Asked {
    Runs(u64, u64, u64),
    Jobs(u64, u64, u64),
    Previews(u64, u64, u64),
    Replays(u64, u64, u64),
    Filing(u64, u64),
    Sheets(u64, u64),
    Accepts(u64, u64, u64),
}

fn asked() -> Option<Asked> {
    let mut words: Vec<String> = std::env::args().skip(1).collect();
    let named = words.first().filter(|w| w.parse::<u64>().is_err()).cloned();
    words.drain(..named.is_some() as usize);
    let numbers: Option<Vec<u64>> = words.iter().map(|w| w.parse().ok()).collect();
    match (named.as_deref(), &numbers?[..]) {
        (Some("filing"), &[seed, count]) => Some(Asked::Filing(seed, count)),
        (Some("sheet"), &[seed, count]) => Some(Asked::Sheets(seed, count)),
        (Some("accept"), &[seed, count]) => Some(Asked::Accepts(seed, count, 1)),
        (Some("accept"), &[seed, count, threads]) => Some(Asked::Accepts(seed, count, threads)),
        (Some("jobs"), &[seed, count]) => Some(Asked::Jobs(seed, count, 1)),
        (Some("jobs"), &[seed, count, threads]) => Some(Asked::Jobs(seed, count, threads)),
        (Some("preview"), &[seed, count]) => Some(Asked::Previews(seed, count, 1)),
        (Some("preview"), &[seed, count, threads]) => Some(Asked::Previews(seed, count, threads)),
        (Some("replay"), &[seed, count]) => Some(Asked::Replays(seed, count, 1)),
        (Some("replay"), &[seed, count, threads]) => Some(Asked::Replays(seed, count, threads)),
        (None, &[seed, count]) => Some(Asked::Runs(seed, count, 1)),
        (None, &[seed, count, threads]) => Some(Asked::Runs(seed, count, threads)),
        _ => None,
    }
}

fn main() {
    let words: Vec<String> = std::env::args().skip(1).collect();
    let good = match asked() {
        Some(Asked::Accepts(seed, count, threads)) => accept::run(seed, count, threads),
        Some(Asked::Filing(seed, count)) => filing::run(seed, count),
        Some(Asked::Jobs(seed, count, threads)) => jobs::run(seed, count, threads),
        Some(Asked::Previews(seed, count, threads)) => preview::run(seed, count, threads),
        Some(Asked::Replays(seed, count, threads)) => replay::run(seed, count, threads),
        Some(Asked::Runs(seed, count, threads)) => runs(seed, count, threads),
        Some(Asked::Sheets(seed, count)) => sheet::run(seed, count),
        None if words.len() == 2 && words[0] == "accepts" => accept::stored(&words[1]),
        None => {
            eprintln!("{USAGE}");
            std::process::exit(2);
        }
    };
    if !good {
        std::process::exit(1);
    }
}

/// Compares the meshes of the seed; true where no run differs.
fn runs(seed: u64, count: u64, threads: u64) -> bool {
    let mut all = Found::default();
    for found in threads::run(count, threads, "meshes", |case, mine: &mut Found| {
        mine.case(seed, case)
    }) {
        for (kind, tally) in found.kinds {
            all.kinds.entry(kind).or_default().add(&tally);
        }
        all.partings.extend(found.partings);
    }
    let sums = print(&all.kinds);
    show(&mut all.partings);
    println!("{} of {} runs agree", sums.runs - sums.differ, sums.runs);
    sums.differ == 0
}
