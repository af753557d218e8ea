//! The acceptance, linked from the static library, against the reference's on generated meshes: the number, the whole answer and every lent slice whole, in memory
//! full of garbage.

mod call;
mod largest;
mod shrink;

use std::collections::BTreeMap;

use reference::accept::stored::{read, Stored};
use reference::accept::verdict::Verdict;
use reference::accept::{Handed, Lent};
use reference::generators::judged::{self, KINDS};

use crate::threads;

/// The clauses in the order of the answer, and the refusals in that of the tests.
const CLAUSES: [&str; 8] = [
    "points",
    "convex",
    "corners",
    "given flat",
    "left flat",
    "thin",
    "sides",
    "joints",
];
const REFUSALS: [u32; 7] = [1, 14, 4, 5, 6, 7, 13];

/// Differences that are printed whole.
const SHOWN: usize = 3;

/// Verdicts of a kind.
#[derive(Clone, Default)]
struct Tally {
    verdicts: u64,
    accepted: u64,
    /// By the first clause offended, and by each that is.
    first: [u64; CLAUSES.len()],
    offended: [u64; CLAUSES.len()],
    refused: [u64; REFUSALS.len()],
    differ: u64,
}

impl Tally {
    fn note(&mut self, verdict: &Result<Verdict, u32>) {
        self.verdicts += 1;
        let v = match verdict {
            Ok(v) => v,
            Err(number) => {
                let place = REFUSALS.iter().position(|k| k == number);
                self.refused[place.expect("one of the refusals")] += 1;
                return;
            }
        };
        match v.offended().iter().position(|&o| o) {
            None => self.accepted += 1,
            Some(k) => self.first[k] += 1,
        }
        for (n, offended) in self.offended.iter_mut().zip(v.offended()) {
            *n += offended as u64;
        }
    }

    fn add(&mut self, other: &Tally) {
        let sum = |to: &mut [u64], from: &[u64]| {
            to.iter_mut().zip(from).for_each(|(to, from)| *to += from);
        };
        self.verdicts += other.verdicts;
        self.accepted += other.accepted;
        sum(&mut self.first, &other.first);
        sum(&mut self.offended, &other.offended);
        sum(&mut self.refused, &other.refused);
        self.differ += other.differ;
    }

    fn line(&self, kind: &str) {
        let list = |n: &[u64]| n.iter().map(u64::to_string).collect::<Vec<_>>().join(" ");
        println!(
            "{kind} | {} | {} | {} | {} | {} | {}",
            self.verdicts,
            self.accepted,
            list(&self.first),
            list(&self.offended),
            list(&self.refused),
            self.differ
        );
    }
}

/// What a thread found.
#[derive(Default)]
struct Found {
    kinds: BTreeMap<&'static str, Tally>,
    /// The words of calls that differ, with what differs.
    differences: Vec<(String, String)>,
}

impl Found {
    /// The verdicts of a case, and how many of them differ.
    fn case(&mut self, seed: u64, case: u64) -> usize {
        let (kind, made, mut r) = judged::of(seed, case, &call::finish);
        let tally = self.kinds.entry(kind).or_default();
        let mut differ = 0;
        for mut handed in made {
            let lent = judged::lend(&mut handed, &mut r);
            let verdict = handed.verdict(&lent);
            tally.note(&verdict);
            if let Some(what) = difference(&handed, &lent, &verdict) {
                differ += 1;
                let (least, room) = shrink::shrunk(&handed, &lent, |h, lent| {
                    difference(h, lent, &h.verdict(lent)).is_some()
                });
                let verdict = least.verdict(&room);
                let what = difference(&least, &room, &verdict).unwrap_or(what);
                let words = Stored::new(least, &room).call();
                self.differences.push((words, what));
            }
        }
        tally.differ += differ as u64;
        differ
    }
}

/// What differs between the library's call and the reference's verdict, where anything does.
fn difference(h: &Handed, before: &Lent, verdict: &Result<Verdict, u32>) -> Option<String> {
    let (mut got, mut want) = (before.clone(), before.clone());
    let number = call::port(h, &mut got);
    let wanted = match verdict {
        Ok(v) => {
            h.write(v, &mut want);
            0
        }
        Err(number) => *number as usize,
    };
    let parts = [
        ("the number", number != wanted),
        ("the answer", got.answer != want.answer),
        ("the components", got.components != want.components),
        ("the work", got.work != want.work),
        ("the parents", got.parents != want.parents),
    ];
    let what = parts.iter().find(|p| p.1)?.0;
    let told = |number: usize, l: &Lent| match number {
        0 => format!("{:?}", l.answer),
        n => format!("refused with {n}"),
    };
    let (port, reading) = (told(number, &got), told(wanted, &want));
    Some(format!("{what}\n  port {port}\n  reading {reading}"))
}

/// Compares the meshes of the seed; true where no verdict differs.
pub fn run(seed: u64, count: u64, threads: u64) -> bool {
    let mut all = Found::default();
    let one = |case, mine: &mut Found| mine.case(seed, case);
    for found in threads::run(count, threads, "cases", one) {
        for (kind, tally) in found.kinds {
            all.kinds.entry(kind).or_default().add(&tally);
        }
        all.differences.extend(found.differences);
    }
    let sums = print(&all.kinds);
    all.differences.sort_by_key(|(words, _)| words.len());
    for (words, what) in all.differences.iter().take(SHOWN) {
        eprintln!("{what}\n{words}");
    }
    let largest = largest::agree();
    println!(
        "{} of {} verdicts agree",
        sums.verdicts - sums.differ,
        sums.verdicts
    );
    sums.differ == 0 && largest
}

/// A line a kind, then the sums, then the kinds of verdict that did not come up.
fn print(kinds: &BTreeMap<&'static str, Tally>) -> Tally {
    println!("clauses: {}", CLAUSES.join(", "));
    let numbers = REFUSALS.map(|k| k.to_string()).join(" ");
    println!("kind | verdicts | accepted | by the first clause offended | by each | refused {numbers} | differ");
    let mut all = Tally::default();
    for (kind, _) in KINDS {
        if let Some(tally) = kinds.get(kind) {
            tally.line(kind);
            all.add(tally);
        }
    }
    all.line("all");
    for (name, n) in CLAUSES.iter().zip(all.first) {
        if n == 0 {
            println!("no verdict offends {name} first");
        }
    }
    for (number, n) in REFUSALS.iter().zip(all.refused) {
        if n == 0 {
            println!("no call is refused with {number}");
        }
    }
    all
}

/// Makes the stored calls of a file of the library; true where it gives every stored answer.
pub fn stored(path: &str) -> bool {
    let text = std::fs::read_to_string(path).expect("a file of stored calls");
    let mut differ = 0;
    for line in text.lines() {
        let (name, stored, answer) = read(line).expect("a stored call");
        assert_eq!(
            stored.answer(),
            answer,
            "{name}: the reference's own answer"
        );
        let lent = stored.lent();
        let verdict = stored.handed.verdict(&lent);
        if let Some(what) = difference(&stored.handed, &lent, &verdict) {
            differ += 1;
            eprintln!("{name}: {what}");
        }
    }
    let lines = text.lines().count();
    println!("{} of {lines} stored calls agree", lines - differ);
    differ == 0 && lines > 0
}
