//! Lent memory full of garbage, and what a call must leave in it.

use reference::input::{Input, Lent};
use reference::patched::FrontResult;
use reference::random::Random;
use reference::records::records;
use sedgepick::lent::{self, Answer, Call, Further, Memory, Set};
use sedgepick::Refusal;

/// The slices of a call, the floats too by their bits. Joints are only read.
#[derive(Clone, PartialEq, Eq)]
pub struct Slices {
    pub points: Vec<u64>,
    pub joints: Vec<u32>,
    pub quads: Vec<u32>,
    pub triangles: Vec<u32>,
    pub components: Vec<u32>,
    pub work: Vec<u32>,
    pub float_work: Vec<u64>,
    /// As many words as the input asks for.
    pub trace: Vec<u32>,
}

/// How many numbers a slice has more, or fewer, than it needs.
#[derive(Clone, Copy, Default)]
pub struct Tails(pub [isize; SLICES]);

/// Slices whose length a call needs: points, quads, triangles out, components, work, float work, joints.
pub const SLICES: usize = 7;

/// The place of the quads among them.
pub const QUADS: usize = 1;

/// Numbers without meaning, cheaply.
struct Garbage(u64);

impl Garbage {
    fn bits(&mut self) -> u64 {
        self.0 ^= self.0 << 13;
        self.0 ^= self.0 >> 7;
        self.0 ^= self.0 << 17;
        self.0
    }

    fn words(&mut self, n: usize) -> Vec<u32> {
        (0..n).map(|_| self.bits() as u32).collect()
    }

    fn wide(&mut self, n: usize) -> Vec<u64> {
        (0..n).map(|_| self.bits()).collect()
    }
}

/// The call of an input over so much memory.
pub fn call(input: &Input, lent: Lent) -> Call {
    Call {
        given: input.points.len(),
        capacity: lent.points,
        count: input.triangles.len(),
        slots: lent.slots,
        size: input.size(),
        stop: input.stop,
    }
}

/// The functions of the library: `sedgepick_run_front`, for the standard set, no joints, no profile and no trace, and `sedgepick_run_front_with`.
#[derive(Clone, Copy, Debug, PartialEq, Eq)]
pub enum Export {
    Plain,
    With,
}

/// The quality set of an input.
fn set(input: &Input) -> Set {
    let q = &input.quality;
    Set {
        least_jacobian: q.least_jacobian,
        largest_cosine: q.largest_cosine,
        side_low: q.side_low,
        side_high: q.side_high,
        pairs: q.pairs,
    }
}

/// How many numbers the call needs in each slice.
pub fn needs(input: &Input, lent: Lent) -> [usize; SLICES] {
    let call = call(input, lent);
    [
        3 * lent.points,
        call.quads_len(),
        3 * lent.slots,
        lent.slots,
        call.work_len(),
        call.float_work_len(),
        2 * input.joints.len(),
    ]
}

/// Slices for the call: the given points, then garbage.
pub fn slices(input: &Input, lent: Lent, tails: Tails, r: &mut Random) -> Slices {
    let mut g = Garbage(r.bits() | 1);
    let needs = needs(input, lent);
    let mut lengths = [0; SLICES];
    for (length, (need, tail)) in lengths.iter_mut().zip(needs.iter().zip(tails.0)) {
        *length = need.saturating_add_signed(tail);
    }
    let mut points = g.wide(lengths[0]);
    points
        .iter_mut()
        .zip(input.points.iter().flatten())
        .for_each(|(to, from)| *to = *from);
    let mut joints = g.words(lengths[6]);
    onto(&mut joints, input.joints.iter().flatten().copied());
    Slices {
        points,
        joints,
        quads: g.words(lengths[1]),
        triangles: g.words(lengths[2]),
        components: g.words(lengths[3]),
        work: g.words(lengths[4]),
        float_work: g.wide(lengths[5]),
        trace: g.words(input.trace),
    }
}

pub fn floats(bits: &[u64]) -> Vec<f64> {
    bits.iter().map(|&b| f64::from_bits(b)).collect()
}

pub fn bits(floats: &[f64]) -> Vec<u64> {
    floats.iter().map(|x| x.to_bits()).collect()
}

/// The port's answer to the call; the slices are as it left them.
pub fn run_port(
    input: &Input,
    lent: Lent,
    export: Export,
    slices: &mut Slices,
) -> Result<Answer, Refusal> {
    let (mut points, mut float_work) = (floats(&slices.points), floats(&slices.float_work));
    let memory = Memory {
        points: &mut points,
        quads: &mut slices.quads,
        triangles: &mut slices.triangles,
        components: &mut slices.components,
        work: &mut slices.work,
        float_work: &mut float_work,
        trace: &mut slices.trace,
    };
    let (triangles, call) = (input.triangles.as_flattened(), call(input, lent));
    let answer = match export {
        Export::Plain => lent::run_front(triangles, memory, call),
        Export::With => {
            let further = Further {
                joints: &slices.joints,
                joint_count: input.joints.len(),
                set: set(input),
                grid: input.grid,
            };
            lent::run_front_with(triangles, memory, call, further)
        }
    };
    slices.points = bits(&points);
    slices.float_work = bits(&float_work);
    answer
}

/// A list comes to the front of a slice.
pub fn onto<T>(slice: &mut [T], list: impl Iterator<Item = T>) {
    slice.iter_mut().zip(list).for_each(|(to, from)| *to = from);
}

pub fn words<const N: usize>(lists: &[[usize; N]]) -> impl Iterator<Item = u32> + '_ {
    lists.iter().flatten().map(|&n| n as u32)
}

/// What the slices must hold after a run whose result is the Rust's.
pub fn after_run(before: &Slices, rust: &FrontResult) -> Slices {
    let mut s = before.clone();
    s.work.fill(0);
    s.float_work.fill(0);
    onto(
        &mut s.points,
        rust.points.iter().flatten().map(|x| x.to_bits()),
    );
    onto(&mut s.quads, words(&records(rust)));
    onto(&mut s.trace, rust.trace.iter().copied());
    if rust.refused.is_none() {
        onto(&mut s.triangles, words(&rust.triangles));
        onto(
            &mut s.components,
            rust.region_components.iter().map(|&n| n as u32),
        );
    }
    s
}

/// What the call must answer.
pub fn answer(rust: &FrontResult) -> Result<Answer, Refusal> {
    if let Some(number) = rust.refused {
        return Err(refusal(number));
    }
    let c = &rust.refusals;
    Ok(Answer {
        counts: sedgepick::Counts {
            front_empty: c.front_empty,
            attempts: c.attempts,
            placement: c.placement,
            invalid_quad: c.invalid_quad,
            recovery: c.recovery,
            region: c.region,
            odd_region: c.odd_region,
            mismatch_insertions: c.mismatch_insertions,
            limit: c.limit,
            trials: c.trials,
        },
        quads: rust.quads.len(),
        triangles: rust.triangles.len(),
        points: rust.points.len(),
        components: rust.region_components.len(),
        words: rust.trace.len(),
    })
}

/// The refusal of a number that the Rust gave.
pub fn refusal(number: u32) -> Refusal {
    Refusal::of_number(number as usize).expect("a refusal's number")
}

/// The first slice that differs, and where.
pub fn first_difference(got: &Slices, want: &Slices) -> Option<String> {
    fn place<T: PartialEq>(name: &str, got: &[T], want: &[T]) -> Option<String> {
        let at = got.iter().zip(want).position(|(a, b)| a != b)?;
        Some(format!("{name}, entry {at}"))
    }
    place("points", &got.points, &want.points)
        .or_else(|| place("joints", &got.joints, &want.joints))
        .or_else(|| place("quads", &got.quads, &want.quads))
        .or_else(|| place("triangles", &got.triangles, &want.triangles))
        .or_else(|| place("components", &got.components, &want.components))
        .or_else(|| place("work", &got.work, &want.work))
        .or_else(|| place("float work", &got.float_work, &want.float_work))
        .or_else(|| place("trace", &got.trace, &want.trace))
}
