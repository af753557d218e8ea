//! Stored calls of the acceptance by the linked library: the number, the answer and every lent slice. reference/README.md has their form.

use sedgepick::raw::sedgepick_accept;

/// Every word of a lent slice before a call, and the numbers of an answer.
const BEFORE: u32 = 77;
const NUMBERS: usize = 13;
const GROUPS: usize = 11;

fn word(text: &str) -> u64 {
    match text.strip_prefix("0x") {
        Some(digits) => u64::from_str_radix(digits, 16).unwrap(),
        None => text.parse().unwrap(),
    }
}

/// Takes so many words.
fn take(words: &mut impl Iterator<Item = u64>, count: usize) -> Vec<u64> {
    let taken: Vec<u64> = words.take(count).collect();
    assert_eq!(taken.len(), count, "a line that is too short");
    taken
}

fn nodes(words: Vec<u64>) -> Vec<u32> {
    words.into_iter().map(|w| w as u32).collect()
}

fn floats(words: Vec<u64>) -> Vec<f64> {
    words.into_iter().map(f64::from_bits).collect()
}

/// The lent slices: components, work, parents and the answer.
#[derive(Debug, PartialEq)]
struct Lent([Vec<u32>; 3], Vec<usize>);

/// What the library makes of a call's words: the number, the slices before it and after it.
fn call(line: &str) -> (usize, Lent, Lent) {
    let mut words = line.split_ascii_whitespace().skip(1).map(word);
    let stated = take(&mut words, 6);
    let n = |i: usize| stated[i] as usize;
    let limits = floats(take(&mut words, 2));
    let lengths: Vec<usize> = take(&mut words, 10).iter().map(|&w| w as usize).collect();
    let given = floats(take(&mut words, lengths[0]));
    let triangles = nodes(take(&mut words, lengths[1]));
    let points = floats(take(&mut words, lengths[2]));
    let [quads, left, joints] = [3, 4, 5].map(|i| nodes(take(&mut words, lengths[i])));
    assert_eq!(words.next(), None, "a line that is too long");
    let lend = || {
        let slices = [6, 7, 8].map(|i| vec![BEFORE; lengths[i]]);
        Lent(slices, vec![BEFORE as usize; lengths[9]])
    };
    let (before, mut lent) = (lend(), lend());
    let Lent([components, work, parents], answer) = &mut lent;
    // Each pointer comes with the length of its slice, and no two share memory.
    let number = unsafe {
        sedgepick_accept(
            given.as_ptr(),
            given.len(),
            triangles.as_ptr(),
            triangles.len(),
            points.as_ptr(),
            points.len(),
            quads.as_ptr(),
            quads.len(),
            left.as_ptr(),
            left.len(),
            joints.as_ptr(),
            joints.len(),
            components.as_mut_ptr(),
            components.len(),
            work.as_mut_ptr(),
            work.len(),
            parents.as_mut_ptr(),
            parents.len(),
            n(0),
            n(1),
            n(2),
            n(3),
            n(4),
            n(5),
            limits[0],
            limits[1],
            answer.as_mut_ptr(),
            answer.len(),
        )
    };
    (number, before, lent)
}

/// What the stored answer makes of the slices.
fn wanted(mut lent: Lent, answer: &[usize]) -> Lent {
    let (numbers, sizes) = answer.split_at(NUMBERS);
    assert_eq!(sizes.len(), numbers[GROUPS], "as many sizes as groups");
    let Lent([components, work, parents], told) = &mut lent;
    told[..NUMBERS].copy_from_slice(numbers);
    for (to, &size) in components.iter_mut().zip(sizes) {
        *to = size as u32;
    }
    work.fill(0);
    parents.fill(0);
    lent
}

fn holds(text: &str, least: usize) {
    assert!(text.lines().count() >= least);
    for line in text.lines() {
        let (asked, answer) = line.split_once('|').unwrap();
        let name = asked.split(' ').next().unwrap();
        let words: Vec<usize> = answer
            .split_ascii_whitespace()
            .map(|w| word(w) as usize)
            .collect();
        let (number, before, after) = call(asked);
        assert_eq!(number, words[0], "{name}: the number");
        let left = match number {
            0 => wanted(before, &words[1..]),
            _ => before,
        };
        assert_eq!(after, left, "{name}: the slices");
    }
}

#[test]
fn generated_calls() {
    holds(include_str!("../../../answers/accept/calls.accepts"), 144);
}

#[test]
fn calls_made_by_hand() {
    holds(include_str!("../../../answers/accept/edges.accepts"), 119);
}
