//! Calls of the acceptance with their answers, in files: a line of numbers each, so that a table of any language can hold them.
//!
//! A line has a name, then the call's words, a bar and the answer's words. Words are decimal, floats are their bits in 16 hexadecimal digits behind `0x`.
//! The call: given, count, point_count, quad_count, left_count, joint_count, cosine, thin, the ten lengths of the slices in the order of the
//! call, then the six handed slices whole. Every word of the lent slices is 77 before the call.
//! The answer: the number returned; where it is 0, the numbers of the answer and the component sizes.

use std::io::Result;
use std::path::Path;

use super::{Handed, Lent, NUMBERS};
use crate::generators::judged::{self, KINDS};

/// What every word of a lent slice is before the call.
pub const BEFORE: u32 = 77;

/// Between the call's words and the answer's.
const BAR: &str = "|";

/// Lists of a stored call are at most so long, so that fixed arrays have room for them.
pub const MOST_LENT: usize = 64;
pub const MOST_WORK: usize = 512;

/// A call with the lengths of the lent slices: components, work, parents, answer.
#[derive(Clone, Debug)]
pub struct Stored {
    pub handed: Handed,
    pub lengths: [usize; 4],
}

impl Stored {
    pub fn new(handed: Handed, lent: &Lent) -> Stored {
        let lengths = [
            lent.components.len(),
            lent.work.len(),
            lent.parents.len(),
            lent.answer.len(),
        ];
        Stored { handed, lengths }
    }

    /// The lent slices before the call.
    pub fn lent(&self) -> Lent {
        let [components, work, parents, answer] = self.lengths;
        Lent {
            components: vec![BEFORE; components],
            work: vec![BEFORE; work],
            parents: vec![BEFORE; parents],
            answer: vec![BEFORE as usize; answer],
        }
    }

    /// Whether fixed arrays have room for it, and it has a mesh.
    fn fits(&self) -> bool {
        let h = &self.handed;
        let [components, work, parents, answer] = self.lengths;
        let short = [
            h.given_points.len(),
            h.triangles.len(),
            h.points.len(),
            h.quads.len(),
            h.left.len(),
            h.joints.len(),
            components,
            parents,
            answer,
        ];
        h.given > 0 && work <= MOST_WORK && short.into_iter().all(|n| n <= MOST_LENT)
    }

    /// The call with its answer.
    pub fn line(&self, name: &str) -> String {
        format!("{name} {} {BAR} {}\n", self.call(), self.answer())
    }

    /// The words of the call.
    pub fn call(&self) -> String {
        let h = &self.handed;
        let [components, work, parents, answer] = self.lengths;
        let stated = [
            h.given,
            h.count,
            h.point_count,
            h.quad_count,
            h.left_count,
            h.joint_count,
        ];
        let lengths = [
            h.given_points.len(),
            h.triangles.len(),
            h.points.len(),
            h.quads.len(),
            h.left.len(),
            h.joints.len(),
            components,
            work,
            parents,
            answer,
        ];
        let mut words: Vec<String> = stated.map(|n| n.to_string()).to_vec();
        words.extend([h.cosine, h.thin].map(bits));
        words.extend(lengths.map(|n| n.to_string()));
        words.extend(h.given_points.iter().copied().map(bits));
        words.extend(h.triangles.iter().map(u32::to_string));
        words.extend(h.points.iter().copied().map(bits));
        for list in [&h.quads, &h.left, &h.joints] {
            words.extend(list.iter().map(u32::to_string));
        }
        words.join(" ")
    }

    /// The words of the reference's answer.
    pub fn answer(&self) -> String {
        let mut lent = self.lent();
        match self.handed.accept(&mut lent) {
            0 => {
                let groups = lent.answer[11];
                let numbers = lent.answer[..NUMBERS].iter().map(usize::to_string);
                let sizes = lent.components[..groups].iter().map(u32::to_string);
                let words: Vec<String> = numbers.chain(sizes).collect();
                format!("0 {}", words.join(" "))
            }
            number => number.to_string(),
        }
    }
}

fn bits(x: f64) -> String {
    format!("0x{:016x}", x.to_bits())
}

/// Takes words from the front; `None` where one is missing or is no number.
struct Words<'a>(std::str::SplitAsciiWhitespace<'a>);

impl Words<'_> {
    fn word(&mut self) -> Option<u64> {
        let word = self.0.next()?;
        match word.strip_prefix("0x") {
            Some(digits) => u64::from_str_radix(digits, 16).ok(),
            None => word.parse().ok(),
        }
    }

    fn size(&mut self) -> Option<usize> {
        self.word().map(|n| n as usize)
    }

    fn floats(&mut self, count: usize) -> Option<Vec<f64>> {
        (0..count)
            .map(|_| self.word().map(f64::from_bits))
            .collect()
    }

    fn nodes(&mut self, count: usize) -> Option<Vec<u32>> {
        (0..count).map(|_| self.word()?.try_into().ok()).collect()
    }
}

/// A line's name and call, with what follows the bar where there is one; `None` where it is not in form.
pub fn read(line: &str) -> Option<(&str, Stored, &str)> {
    let (call, answer) = line.split_once(BAR).unwrap_or((line, ""));
    let (name, call) = call.split_once(' ')?;
    let mut w = Words(call.split_ascii_whitespace());
    let mut handed = Handed {
        given: w.size()?,
        count: w.size()?,
        point_count: w.size()?,
        quad_count: w.size()?,
        left_count: w.size()?,
        joint_count: w.size()?,
        cosine: f64::from_bits(w.word()?),
        thin: f64::from_bits(w.word()?),
        ..Handed::default()
    };
    let mut lengths = [0; 10];
    for n in &mut lengths {
        *n = w.size()?;
    }
    handed.given_points = w.floats(lengths[0])?;
    handed.triangles = w.nodes(lengths[1])?;
    handed.points = w.floats(lengths[2])?;
    handed.quads = w.nodes(lengths[3])?;
    handed.left = w.nodes(lengths[4])?;
    handed.joints = w.nodes(lengths[5])?;
    let [.., components, work, parents, answers] = lengths;
    let stored = Stored {
        handed,
        lengths: [components, work, parents, answers],
    };
    w.0.next()
        .is_none()
        .then_some((name, stored, answer.trim()))
}

/// The lines with the reference's answers; `None` where one is not in form.
pub fn reply(text: &[u8]) -> Option<Vec<u8>> {
    let lines = std::str::from_utf8(text).ok()?.lines();
    let answered: Option<Vec<String>> = lines
        .map(|line| read(line).map(|(name, stored, _)| stored.line(name)))
        .collect();
    Some(answered?.concat().into_bytes())
}

/// A sort of answer: the refusal, the first clause offended, or neither.
fn sort(stored: &Stored) -> (u32, Option<usize>) {
    match stored.handed.verdict(&stored.lent()) {
        Err(number) => (number, None),
        Ok(v) => (0, v.offended().iter().position(|&o| o)),
    }
}

/// So many calls of each kind, no two of a kind with one sort of answer while others come up.
pub fn write(seed: u64, each: usize, folder: &Path) -> Result<()> {
    std::fs::create_dir_all(folder)?;
    let mut text = String::new();
    for (turn, (name, _)) in KINDS.iter().enumerate() {
        let mut picked: Vec<((u32, Option<usize>), Stored)> = Vec::new();
        for case in 0..TRIED {
            let case = turn as u64 + case * KINDS.len() as u64;
            let (_, made, mut r) = judged::of(seed, case, &judged::finish);
            for mut handed in made {
                let lent = judged::lend(&mut handed, &mut r);
                keep(&mut picked, Stored::new(handed, &lent), each);
            }
        }
        for (k, (_, stored)) in picked.iter().enumerate() {
            text += &stored.line(&format!("{name}-{k:02}"));
        }
    }
    std::fs::write(folder.join("calls.accepts"), text)
}

/// Cases of each kind that are gone through.
const TRIED: u64 = 300;

/// Keeps a call whose sort of answer is rarer than that of one which is kept; of one sort the shorter calls.
fn keep(picked: &mut Vec<((u32, Option<usize>), Stored)>, stored: Stored, each: usize) {
    if !stored.fits() {
        return;
    }
    picked.push((sort(&stored), stored));
    if picked.len() <= each {
        return;
    }
    let often = |i: usize| picked.iter().filter(|p| p.0 == picked[i].0).count();
    let place = (0..picked.len()).max_by_key(|&i| (often(i), picked[i].1.call().len(), i));
    picked.remove(place.expect("one at least"));
}

/// The stored calls have every clause as the first that is offended, every refusal, and accepted meshes, some of each.
#[test]
fn stored_calls_of_every_sort() {
    let text = [
        include_str!("../../../answers/accept/calls.accepts"),
        include_str!("../../../answers/accept/edges.accepts"),
    ]
    .concat();
    let (mut first, mut refused, mut accepted) = ([0; 8], std::collections::HashMap::new(), 0);
    for line in text.lines() {
        let (_, stored, _) = read(line).expect("a stored call");
        match stored.handed.verdict(&stored.lent()) {
            Err(number) => *refused.entry(number).or_insert(0) += 1,
            Ok(v) => match v.offended().iter().position(|&o| o) {
                Some(k) => first[k] += 1,
                None => accepted += 1,
            },
        }
    }
    assert!(accepted > 20 && first.iter().all(|&n| n > 1), "{first:?}");
    for number in [1, 14, 4, 5, 6, 7, 13] {
        assert!(refused[&number] > 4, "{number}: {refused:?}");
    }
}
