//! Meshes to judge, beside the mesh that was given: finished runs, whole and damaged in one place, cells at every limit, and any lists at all.

mod corners;
mod damage;
mod lists;
mod refused;
mod tiny;

use crate::accept::{Handed, Lent, NUMBERS};
use crate::generators::{joints, of_case, sets, shape::Room};
use crate::input::{Input, LARGEST};
use crate::random::Random;

/// The given mesh, the mesh that is judged, and the limits.
#[derive(Clone, Debug)]
pub struct Judged {
    pub given: Vec<[f64; 3]>,
    pub triangles: Vec<[u32; 3]>,
    pub points: Vec<[f64; 3]>,
    pub quads: Vec<[u32; 4]>,
    pub left: Vec<[u32; 3]>,
    pub joints: Vec<[u32; 2]>,
    pub cosine: f64,
    pub thin: f64,
}

/// The cosine of the standard set, and nothing asked of leftover triangles.
impl Default for Judged {
    fn default() -> Self {
        Judged {
            given: Vec::new(),
            triangles: Vec::new(),
            points: Vec::new(),
            quads: Vec::new(),
            left: Vec::new(),
            joints: Vec::new(),
            cosine: crate::patched::STANDARD.largest_cosine,
            thin: 1.0,
        }
    }
}

impl Judged {
    /// As a call takes it, every slice as long as it must be.
    pub fn handed(&self) -> Handed {
        Handed {
            given_points: self.given.as_flattened().to_vec(),
            triangles: self.triangles.as_flattened().to_vec(),
            points: self.points.as_flattened().to_vec(),
            quads: self.quads.as_flattened().to_vec(),
            left: self.left.as_flattened().to_vec(),
            joints: self.joints.as_flattened().to_vec(),
            given: self.given.len(),
            count: self.triangles.len(),
            point_count: self.points.len(),
            quad_count: self.quads.len(),
            left_count: self.left.len(),
            joint_count: self.joints.len(),
            cosine: self.cosine,
            thin: self.thin,
        }
    }

    /// A point of both meshes; z is anything.
    fn point(&mut self, [x, y]: [f64; 2], r: &mut Random) -> u32 {
        let any = f64::from_bits(r.bits());
        let z = r.pick(&[0.0, -0.0, 1.5, f64::NAN, any]);
        self.given.push([x, y, z]);
        self.points.push([x, y, z]);
        self.given.len() as u32 - 1
    }

    /// A quad on points of its own, given as the halves on either side of a diagonal.
    fn quad(&mut self, corners: [[f64; 2]; 4], r: &mut Random) {
        let q = corners.map(|p| self.point(p, r));
        let k = r.below(4);
        let n = |i: usize| q[(k + i) % 4];
        self.triangles
            .extend([[n(0), n(1), n(2)], [n(2), n(3), n(0)]]);
        self.quads.push(q);
    }

    /// A triangle on points of its own, given and left over.
    fn triangle(&mut self, corners: [[f64; 2]; 3], r: &mut Random) {
        let t = corners.map(|p| self.point(p, r));
        self.triangles.push(t);
        self.left.push(t);
    }
}

/// What a finished run made.
#[derive(Clone, Debug, Default)]
pub struct Finished {
    pub points: Vec<[f64; 3]>,
    pub quads: Vec<[u32; 4]>,
    pub left: Vec<[u32; 3]>,
}

/// How an input is run; `None` where it is refused.
pub type Finish<'a> = &'a dyn Fn(&Input) -> Option<Finished>;

/// The reference's own run.
pub fn finish(input: &Input) -> Option<Finished> {
    let run = input.run(LARGEST).ok()?;
    let narrow = |v: &usize| *v as u32;
    Some(Finished {
        quads: run.quads.iter().map(|q| q.each_ref().map(narrow)).collect(),
        left: run
            .triangles
            .iter()
            .map(|t| t.each_ref().map(narrow))
            .collect(),
        points: run.points,
    })
}

/// A kind's name and the meshes that a case of it makes.
pub type Kind = (&'static str, fn(u64, &mut Random, Finish) -> Vec<Handed>);

/// The kinds that the cases go through in turn.
pub const KINDS: &[Kind] = &[
    ("finished", |case, r, finish| {
        whole(&run(case, r, finish), r)
    }),
    ("damaged", |case, r, finish| {
        damaged(&run(case, r, finish), r)
    }),
    ("merged", |case, r, _| damaged(&merged(case, r), r)),
    ("turns", |_, r, _| several(r, corners::turns)),
    ("cosines", |_, r, _| several(r, corners::cosines)),
    ("tiny", |_, r, _| several(r, tiny::tiny)),
    ("wound", |_, r, _| damaged(&lists::wound(r), r)),
    ("spread", |case, r, _| {
        let merged = merged(case, r);
        damaged(&lists::spread(&merged, r), r).split_off(FORMS - 2)
    }),
    ("lists", |_, r, _| several(r, lists::any)),
    ("refused", |case, r, _| refused::all(&merged(case, r), r)),
];

/// Meshes that a case makes of one, or of one generator.
const FORMS: usize = 8;

fn several(r: &mut Random, make: fn(&mut Random) -> Judged) -> Vec<Handed> {
    (0..FORMS).map(|_| make(r).handed()).collect()
}

/// The input of a case: small, now and then larger, with both rules, sets and joints.
fn input(case: u64, r: &mut Random) -> Input {
    let room = match case / 7 % 64 {
        63 => (200, 160),
        n if n % 8 == 7 => (64, 64),
        _ => (20, 24),
    };
    let (triangles, points) = room;
    let kind = of_case(None, case / KINDS.len() as u64);
    let mut input = kind.1(r, &Room { triangles, points });
    if input.refusal(LARGEST).is_some() {
        return Input::default();
    }
    input.stop = r.below(2) as u32;
    if r.once_in(3) {
        input.quality = sets::good(r);
    }
    if r.once_in(2) {
        input.joints = joints::good(&input, r);
    }
    input
}

/// A finished run, judged with the cosine that it was asked for.
fn run(case: u64, r: &mut Random, finish: Finish) -> Judged {
    let input = input(case, r);
    let made = finish(&input).unwrap_or_default();
    Judged {
        given: input.nodes(),
        triangles: input.triangles,
        points: made.points,
        quads: made.quads,
        left: made.left,
        joints: input.joints,
        cosine: input.quality.largest_cosine,
        ..Judged::default()
    }
}

/// Pairs of given triangles that share an edge, some of them made a quad whatever its shape.
fn merged(case: u64, r: &mut Random) -> Judged {
    let input = input(case, r);
    let given = input.nodes();
    let mut left = input.triangles.clone();
    let mut quads = Vec::new();
    r.shuffle(&mut left);
    let mut i = 0;
    while i < left.len() {
        let other = (i + 1..left.len()).find_map(|k| Some((k, lists::united(&left[i], &left[k])?)));
        match other {
            Some((k, quad)) if !r.once_in(4) => {
                left.remove(k);
                left.remove(i);
                quads.push(quad);
            }
            _ => i += 1,
        }
    }
    Judged {
        points: given.clone(),
        given,
        triangles: input.triangles,
        quads,
        left,
        joints: input.joints,
        cosine: input.quality.largest_cosine,
        ..Judged::default()
    }
}

/// The mesh itself, with limits of its own, and with its lists in another order.
fn whole(j: &Judged, r: &mut Random) -> Vec<Handed> {
    let mut limited = j.clone();
    damage::limits(&mut limited, r);
    let mut mixed = j.clone();
    damage::mixed(&mut mixed, r);
    vec![j.handed(), limited.handed(), mixed.handed()]
}

/// The mesh damaged in one place, now and then in several, each time anew.
fn damaged(j: &Judged, r: &mut Random) -> Vec<Handed> {
    let one = |r: &mut Random| {
        let mut j = j.clone();
        let places = r.pick(&[1, 1, 1, 1, 2, 4]);
        for _ in 0..places {
            let (_, change) = r.pick(damage::DAMAGES);
            change(&mut j, r);
        }
        j.handed()
    };
    (0..FORMS).map(|_| one(r)).collect()
}

/// The meshes of a case, and the name of their kind.
pub fn of(seed: u64, case: u64, finish: Finish) -> (&'static str, Vec<Handed>, Random) {
    let mut r = Random::new(seed, case);
    let (name, make) = KINDS[(case % KINDS.len() as u64) as usize];
    let made = make(case, &mut r, finish);
    (name, made, r)
}

/// Lent slices full of garbage, half of them longer than they must be; once in a while one is a number short. So are the handed ones.
pub fn lend(h: &mut Handed, r: &mut Random) -> Lent {
    let [components, work, parents] = refused::needs(h);
    let mut words = |n: usize| -> Vec<u32> {
        let n = n + r.below(2) * r.below(7);
        (0..n).map(|_| r.bits() as u32).collect()
    };
    let (components, work, parents) = (words(components), words(work), words(parents));
    let answer = NUMBERS + r.below(2) * r.below(4);
    let mut lent = Lent {
        components,
        work,
        parents,
        answer: (0..answer).map(|_| r.bits() as usize).collect(),
    };
    refused::tails(h, r);
    if r.once_in(16) {
        refused::shorten(h, &mut lent, r);
    }
    lent
}
