//! Calls of the library in files: the capacities, the quality set where it is not the
//! standard one, the joints where there are such, the grid profile where it is chosen,
//! the words of the trace where one is lent, then the program's text form without its limits.
//! An answer also says what refusals 8, 9 and 11 leave, the trials of a finished run and the
//! entries of the trace.

use std::io::Result;
use std::path::Path;

use crate::generators::{self, joints, on_grid, sets};
use crate::input::{Input, Lent, LARGEST, UNBOUNDED};
use crate::patched::{Quality, STANDARD};
use crate::random::Random;
use crate::{account, text, trace};

const CAPACITIES: &str = "capacity slots";
const QUALITY: &str = "least_jacobian largest_cosine side_low side_high pairs";
const JOINTS: &str = "joints";
const JOINT: &str = "u v";
const PROFILE: &str = "grid";
const TRACE: &str = "trace";
const WORDS: &str = "words";
const TRIALS: &str = "trials";

/// A call's text.
pub fn write(lent: Lent, input: &Input) -> Vec<u8> {
    let mut head = format!("{CAPACITIES}\n{} {}\n", lent.points, lent.slots);
    if input.quality != STANDARD {
        let floats = floats(&input.quality).map(|x| format!("{:016x}", x.to_bits()));
        head += &format!("{QUALITY}\n{} {}\n", floats.join(" "), input.quality.pairs);
    }
    if !input.joints.is_empty() {
        head += &format!("{JOINTS}\n{}\n{JOINT}\n", input.joints.len());
        for [u, v] in &input.joints {
            head += &format!("{u} {v}\n");
        }
    }
    if input.grid != 0 {
        head += &format!("{PROFILE}\n{}\n", input.grid);
    }
    if input.trace != 0 {
        head += &format!("{TRACE}\n{}\n", input.trace);
    }
    [head.into_bytes(), text::write(input)].concat()
}

/// The set's floats in their order.
fn floats(set: &Quality) -> [f64; 4] {
    [
        set.least_jacobian,
        set.largest_cosine,
        set.side_low,
        set.side_high,
    ]
}

/// The values of the first line, and what follows.
pub fn line(bytes: &[u8]) -> Option<(Vec<&str>, &[u8])> {
    let end = bytes.iter().position(|&c| c == b'\n')?;
    let line = std::str::from_utf8(&bytes[..end]).ok()?;
    Some((line.split(' ').collect(), &bytes[end + 1..]))
}

/// The values of the line below this line of names, and what follows.
pub fn below<'a>(bytes: &'a [u8], names: &str) -> Option<(Vec<&'a str>, &'a [u8])> {
    line(bytes.strip_prefix(names.as_bytes())?.strip_prefix(b"\n")?)
}

/// A call of a text.
fn read(bytes: &[u8]) -> Option<(Lent, Input)> {
    let (values, mut rest) = below(bytes, CAPACITIES)?;
    let [points, slots] = values[..] else {
        return None;
    };
    let lent = Lent {
        points: points.parse().ok()?,
        slots: slots.parse().ok()?,
    };
    let mut quality = STANDARD;
    if let Some((values, after)) = below(rest, QUALITY) {
        quality = set(&values)?;
        rest = after;
    }
    let mut joints = Vec::new();
    if let Some((values, after)) = below(rest, JOINTS) {
        let [count] = values[..] else {
            return None;
        };
        let mut lines = after.strip_prefix(JOINT.as_bytes())?.strip_prefix(b"\n")?;
        for _ in 0..count.parse::<usize>().ok()? {
            let (values, after) = line(lines)?;
            let [u, v] = values[..] else {
                return None;
            };
            joints.push([u.parse().ok()?, v.parse().ok()?]);
            lines = after;
        }
        rest = lines;
    }
    let (mut grid, mut trace) = (0, 0);
    if let Some((values, after)) = below(rest, PROFILE) {
        let [number] = values[..] else {
            return None;
        };
        grid = number.parse().ok()?;
        rest = after;
    }
    if let Some((values, after)) = below(rest, TRACE) {
        let [words] = values[..] else {
            return None;
        };
        trace = words.parse().ok()?;
        rest = after;
    }
    let input = Input {
        quality,
        joints,
        grid,
        trace,
        ..text::read_any(rest)?
    };
    Some((lent, input))
}

/// A set of its values: floats by their bits, then the pairs.
fn set(values: &[&str]) -> Option<Quality> {
    let [sj, cosine, low, high, pairs] = *values else {
        return None;
    };
    let float = |word| Some(f64::from_bits(u64::from_str_radix(word, 16).ok()?));
    Some(Quality {
        least_jacobian: float(sj)?,
        largest_cosine: float(cosine)?,
        side_low: float(low)?,
        side_high: float(high)?,
        pairs: pairs.parse().ok()?,
    })
}

/// The answer to a call's text; `None` where it is none.
pub fn reply(bytes: &[u8]) -> Option<Vec<u8>> {
    read(bytes).map(|(lent, input)| answer(&input, lent))
}

/// The program's answer; after 8, 9 and 11 the quads and points that they leave, after a finished run
/// its trials; and the entries of a trace that is lent.
pub fn answer(input: &Input, lent: Lent) -> Vec<u8> {
    let mut out = shown(input, lent);
    if let Ok(result) = input.run(lent) {
        out.extend(format!("{TRIALS}\n{}\n", result.refusals.trials).bytes());
    }
    if input.trace != 0 && input.refusal(lent).is_none() {
        out.extend(entries(&input.run_unchecked(lent).trace).bytes());
    }
    out
}

/// The number of words of a trace, then an entry to a line.
pub fn entries(words: &[u32]) -> String {
    let mut out = format!("{WORDS}\n{}\n", words.len());
    for entry in trace::entries(words) {
        out += &text::line(&entry.words());
    }
    out
}

/// The entries of the whole trace of a call's text; `None` where it is none, or is refused.
pub fn traced(bytes: &[u8]) -> Option<String> {
    let (lent, mut input) = read(bytes)?;
    input.trace = usize::MAX;
    Some(entries(&input.run(lent).ok()?.trace))
}

/// What is made or left.
fn shown(input: &Input, lent: Lent) -> Vec<u8> {
    let mut out = text::answer(input, lent);
    if input.refusal(lent).is_none() {
        let result = input.run_unchecked(lent);
        if result.refused.is_some() {
            out.extend(text::left(input, &result));
        }
    }
    out
}

/// What a call is given beside its mesh, and the refusal that belongs to it.
#[derive(Clone, Copy)]
pub enum Further {
    Set,
    Joints,
    Grid,
    Trace,
}

impl Further {
    fn name(self) -> &'static str {
        match self {
            Further::Set => "set",
            Further::Joints => "joints",
            Further::Grid => "profile",
            Further::Trace => "trace",
        }
    }

    fn refusal(self) -> u32 {
        match self {
            Further::Set => 14,
            Further::Joints => 13,
            Further::Grid => 15,
            Further::Trace => 11,
        }
    }

    /// The input with such, good or doubtful.
    fn given(self, plain: &Input, doubtful: bool, r: &mut Random) -> Input {
        let mut input = plain.clone();
        match (self, doubtful) {
            (Further::Grid, true) => input = on_grid::doubtful(plain, r),
            (Further::Grid, false) => input = on_grid::good(plain, r),
            (Further::Set, true) => input.quality = sets::doubtful(r),
            (Further::Set, false) => input.quality = sets::good(r),
            (Further::Joints, true) => input.joints = joints::doubtful(plain, r),
            (Further::Joints, false) => input.joints = joints::good(plain, r),
            (Further::Trace, scarce) => input.trace = room(plain, scarce, r),
        }
        input
    }
}

/// Words for the trace of a run, as many as it needs or a few more, or not so many.
fn room(plain: &Input, scarce: bool, r: &mut Random) -> usize {
    let free = Input {
        trace: usize::MAX,
        ..plain.clone()
    };
    let need = free.run_unchecked(LARGEST).trace.len();
    match (need, scarce) {
        (0..=1, _) => 1,
        (_, true) => r.from_to(1, need - 1),
        (_, false) => need + r.pick(&[0, 0, 1, 5]),
    }
}

/// Small calls with sets or joints that change the run, in the grid profile with quads or with a trace that has entries, and with such that are refused.
pub fn further_calls(what: Further, seed: u64, count: u64, folder: &Path) -> Result<()> {
    std::fs::create_dir_all(folder)?;
    let (mut case, mut made) = (0, 0);
    while made < count {
        let mut r = Random::new(seed, case);
        let kind = generators::of_case(None, case);
        case += 1;
        let plain = kind.1(&mut r, &generators::SMALL);
        if plain.refusal(LARGEST).is_some() {
            continue;
        }
        let refused = made % 4 == 3;
        let input = what.given(&plain, refused, &mut r);
        let lent = Lent {
            points: input.points.len() + 32,
            slots: input.triangles.len() + 96,
        };
        let said = answer(&input, lent);
        let run = |input: &Input| input.run_unchecked(lent);
        let wanted = match (input.refusal(lent), what) {
            (Some(number), _) => refused && number == what.refusal(),
            (None, Further::Trace) => {
                refused == (run(&input).refused == Some(11)) && run(&input).trace.len() > 6
            }
            (None, Further::Grid) => !refused && !run(&input).quads.is_empty(),
            (None, _) => !refused && shown(&input, lent) != shown(&plain, lent),
        };
        if !wanted {
            continue;
        }
        let path = folder.join(format!("{}-{made:04}.call", what.name()));
        std::fs::write(path.with_extension("out"), said)?;
        std::fs::write(path, write(lent, &input))?;
        made += 1;
    }
    Ok(())
}

/// Small calls with capacities that run out somewhere, or just do not.
pub fn calls(seed: u64, count: u64, folder: &Path) -> Result<()> {
    std::fs::create_dir_all(folder)?;
    let makers = ["insertion", "heap", "graded", "grid", "runaway", "slots"];
    let (mut case, mut made) = (0, 0);
    while made < count {
        let name = makers[(case % makers.len() as u64) as usize];
        let mut r = Random::new(seed, case);
        case += 1;
        let input = generators::kind(name)?.1(&mut r, &generators::SMALL);
        let full = input.run_unchecked(UNBOUNDED);
        let (points, slots) = (full.points.len(), account::slots_used(&input, &full));
        let lent = Lent {
            points: r.from_to(input.points.len(), points),
            slots: r.from_to(input.triangles.len(), slots),
        };
        let lent = match r.below(4) {
            0 => Lent { points, ..lent },
            1 => Lent { slots, ..lent },
            2 => Lent { points, slots },
            _ => lent,
        };
        if lent.points == input.points.len() && lent.slots == input.triangles.len() && made % 4 > 0
        {
            continue;
        }
        let path = folder.join(format!("{name}-{made:04}.call"));
        std::fs::write(path.with_extension("out"), answer(&input, lent))?;
        std::fs::write(path, write(lent, &input))?;
        made += 1;
    }
    Ok(())
}

#[test]
fn a_call_with_all_that_may_be_asked_is_read_as_it_was_written() {
    for case in 0..200 {
        let mut r = Random::new(5, case);
        let lent = Lent {
            points: 40,
            slots: 50,
        };
        let mut input = generators::of_case(None, case).1(&mut r, &generators::SMALL);
        if case % 3 > 0 && input.refusal(LARGEST).is_none() {
            input.joints = joints::doubtful(&input, &mut r);
        }
        input.quality = sets::doubtful(&mut r);
        input.grid = r.pick(&[0, 1, u32::MAX]);
        input.trace = r.pick(&[0, 1, 77, usize::MAX]);
        let text = write(lent, &input);
        let (again, read) = read(&text).unwrap();
        assert_eq!(write(again, &read), text);
        assert_eq!(read.refusal(lent), input.refusal(lent));
    }
}

#[test]
fn a_bad_set_is_refused_straight_after_the_stop_rule() {
    let bad = Quality {
        pairs: 0,
        ..STANDARD
    };
    let lent = |points| Lent { points, slots: 0 };
    let input = |stop, given| Input {
        stop,
        quality: bad,
        points: vec![[0; 3]; given],
        ..Input::default()
    };
    assert_eq!(input(2, 0).refusal(lent(0)), Some(3));
    assert_eq!(input(1, 0).refusal(lent(0)), Some(14));
    assert_eq!(input(1, 1).refusal(lent(0)), Some(14));
    assert_eq!(input(1, 4097).refusal(lent(0)), Some(1));
}

#[test]
fn bad_joints_are_refused_last() {
    let lent = Lent {
        points: 3,
        slots: 0,
    };
    let refusal = |x: f64, joints: &[[u32; 2]]| {
        let input = Input {
            points: vec![[x.to_bits(), 0, 0]; 3],
            joints: joints.to_vec(),
            ..Input::default()
        };
        input.refusal(lent)
    };
    assert_eq!(refusal(0.0, &[]), None);
    assert_eq!(refusal(0.0, &[[0, 1], [2, 1]]), None);
    assert_eq!(refusal(0.0, &[[0, 1]; 256]), None);
    for bad in [&[[1, 1]][..], &[[0, 1], [3, 0]], &[[0, 3]], &[[0, 1]; 257]] {
        assert_eq!(refusal(0.0, bad), Some(13));
        assert_eq!(refusal(9.0, bad), Some(7));
    }
}

#[test]
fn off_the_grid_is_refused_after_7_and_before_13() {
    let lent = Lent {
        points: 3,
        slots: 0,
    };
    let refusal = |size: f64, x: f64, grid: u32, joints: &[[u32; 2]]| {
        let input = Input {
            size: size.to_bits(),
            points: vec![[x.to_bits(), 0, 1]; 3],
            joints: joints.to_vec(),
            grid,
            ..Input::default()
        };
        input.refusal(lent)
    };
    let (step, bad) = (1.0 / 1024.0, &[[0, 0]]);
    for x in [0.0, -0.0, step, -step, 8.0, -8.0, 8.0 - step, 0.5] {
        for size in [0.0, -0.0] {
            assert_eq!(refusal(size, x, 1, &[]), None, "{x}");
            assert_eq!(refusal(size, x, 1, bad), Some(13));
        }
        assert_eq!(refusal(1.0 / 64.0, x, 1, bad), Some(15));
        assert_eq!(refusal(1.0 / 64.0, x, 0, &[]), None);
        assert_eq!(refusal(1.0 / 128.0, x, 1, &[]), Some(2));
    }
    let near = |x: f64, by: i64| f64::from_bits(x.to_bits().wrapping_add_signed(by));
    for x in [
        near(step, 1),
        near(step, -1),
        step / 2.0,
        0.1,
        near(8.0, -1),
        near(0.0, 1),
    ] {
        assert_eq!(refusal(0.0, x, 1, &[]), Some(15), "{x}");
        assert_eq!(refusal(0.0, -x, u32::MAX, bad), Some(15), "{x}");
        assert_eq!(refusal(0.0, x, 0, &[]), None);
    }
    assert_eq!(refusal(0.0, near(8.0, 1), 1, bad), Some(7));
}
