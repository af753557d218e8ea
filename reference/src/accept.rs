//! The acceptance of a mesh, by its words alone: every clause in whole numbers, the directed sides in a hash map, the groups by a flood.
//! Nothing is rounded and nothing is fast.

pub mod geometry;
pub mod stored;
#[cfg(test)]
mod tests;
pub mod verdict;
pub mod whole;

use std::cmp::Ordering;
use std::collections::{HashMap, HashSet};

use geometry::{any_above, area, upright, Limit};
use verdict::{sizes, Verdict};

/// The most entries of each list.
pub const MOST: usize = 1_048_576;

/// Numbers of an answer.
pub const NUMBERS: usize = 13;

/// What the two limits may be, the bounds included.
pub const COSINES: [f64; 2] = [0.5, 0.99];
pub const THINS: [f64; 2] = [0.5, 1.0];

/// What x and y may be, the bounds included.
const WITHIN: [f64; 2] = [-8.0, 8.0];

/// What a call hands in: slices, which may be longer or shorter than stated, and the numbers stated.
#[derive(Clone, Debug, Default)]
pub struct Handed {
    pub given_points: Vec<f64>,
    pub triangles: Vec<u32>,
    pub points: Vec<f64>,
    pub quads: Vec<u32>,
    pub left: Vec<u32>,
    pub joints: Vec<u32>,
    pub given: usize,
    pub count: usize,
    pub point_count: usize,
    pub quad_count: usize,
    pub left_count: usize,
    pub joint_count: usize,
    pub cosine: f64,
    pub thin: f64,
}

/// The slices that a call may write to.
#[derive(Clone, Debug, Default, PartialEq, Eq)]
pub struct Lent {
    pub components: Vec<u32>,
    pub work: Vec<u32>,
    pub parents: Vec<u32>,
    pub answer: Vec<usize>,
}

/// The entries of so many numbers each, as far as they are stated.
fn entries<const N: usize, T: Copy>(list: &[T], count: usize) -> Vec<[T; N]> {
    let entry = |i: usize| std::array::from_fn(|k| list[N * i + k]);
    (0..count).map(entry).collect()
}

/// The sides of a cell in its order, from node to next node.
fn sides(cell: &[u32]) -> impl Iterator<Item = (u32, u32)> + '_ {
    (0..cell.len()).map(|i| (cell[i], cell[(i + 1) % cell.len()]))
}

fn has_twice(cell: &[u32]) -> bool {
    (0..cell.len()).any(|i| cell[..i].contains(&cell[i]))
}

fn within(x: f64, [low, high]: [f64; 2]) -> bool {
    low <= x && x <= high
}

fn is_far(p: &[f64; 3]) -> bool {
    !within(p[0], WITHIN) || !within(p[1], WITHIN)
}

impl Handed {
    fn given_nodes(&self) -> Vec<[f64; 3]> {
        entries(&self.given_points, self.given)
    }

    fn given_cells(&self) -> Vec<[u32; 3]> {
        entries(&self.triangles, self.count)
    }

    fn nodes(&self) -> Vec<[f64; 3]> {
        entries(&self.points, self.point_count)
    }

    fn quad_cells(&self) -> Vec<[u32; 4]> {
        entries(&self.quads, self.quad_count)
    }

    fn left_cells(&self) -> Vec<[u32; 3]> {
        entries(&self.left, self.left_count)
    }

    fn pairs(&self) -> Vec<[u32; 2]> {
        entries(&self.joints, self.joint_count)
    }

    /// The least lengths of components, work and parents.
    pub fn needs(&self) -> [usize; 3] {
        let sides = 3 * self.count + 4 * self.quad_count + 3 * self.left_count;
        [self.left_count, 4 * sides, 2 * self.left_count]
    }

    fn is_over(&self) -> bool {
        let lists = [
            self.given,
            self.count,
            self.point_count,
            self.quad_count,
            self.left_count,
            self.joint_count,
        ];
        lists.into_iter().any(|n| n > MOST)
    }

    fn is_short(&self, lent: &Lent) -> bool {
        let [components, work, parents] = self.needs();
        let slices = [
            (self.given_points.len(), 3 * self.given),
            (self.triangles.len(), 3 * self.count),
            (self.points.len(), 3 * self.point_count),
            (self.quads.len(), 4 * self.quad_count),
            (self.left.len(), 3 * self.left_count),
            (self.joints.len(), 2 * self.joint_count),
            (lent.components.len(), components),
            (lent.work.len(), work),
            (lent.parents.len(), parents),
            (lent.answer.len(), NUMBERS),
        ];
        slices.into_iter().any(|(has, needs)| has < needs)
    }

    /// The first refusal that holds, in the order 1, 14, 4, 5, 6, 7, 13.
    pub fn refusal(&self, lent: &Lent) -> Option<u32> {
        if self.is_over() {
            return Some(1);
        }
        if !within(self.cosine, COSINES) || !within(self.thin, THINS) {
            return Some(14);
        }
        if self.is_short(lent) {
            return Some(4);
        }
        let (given, quads, left) = (self.given_cells(), self.quad_cells(), self.left_cells());
        let not_below = |n: usize| move |&v: &u32| v as usize >= n;
        let mut judged = quads.as_flattened().iter().chain(left.as_flattened());
        if given.as_flattened().iter().any(not_below(self.given))
            || judged.any(not_below(self.point_count))
        {
            return Some(5);
        }
        let mut triangles = given.iter().chain(&left);
        if triangles.any(|t| has_twice(t)) || quads.iter().any(|q| has_twice(q)) {
            return Some(6);
        }
        if self.given_nodes().iter().chain(&self.nodes()).any(is_far) {
            return Some(7);
        }
        let bad = |j: &[u32; 2]| j[0] == j[1] || j.iter().any(not_below(self.given));
        self.pairs().iter().any(bad).then_some(13)
    }

    /// The first given point that is not the judged point of its number, bit for bit; every NaN is one value.
    fn moved(&self) -> Option<usize> {
        let bits = |p: &[f64; 3]| {
            p.map(|x| {
                if x.is_nan() {
                    f64::NAN.to_bits()
                } else {
                    x.to_bits()
                }
            })
        };
        let judged = self.nodes();
        let same = |(i, p)| judged.get(i).is_some_and(|q| bits(q) == bits(p));
        self.given_nodes()
            .iter()
            .enumerate()
            .position(|given| !same(given))
    }

    /// The least edge whose directed sides do not balance. The lists of triangles are upright.
    fn uneven(&self, given: &[[u32; 3]], left: &[[u32; 3]]) -> Option<[u32; 2]> {
        let mut surplus: HashMap<(u32, u32), i64> = HashMap::new();
        for side in given.iter().flat_map(|t| sides(t)) {
            *surplus.entry(side).or_default() += 1;
        }
        let quads = self.quad_cells();
        let judged = quads.iter().flat_map(|q| sides(q));
        for side in judged.chain(left.iter().flat_map(|t| sides(t))) {
            *surplus.entry(side).or_default() -= 1;
        }
        let of = |u, v| surplus.get(&(u, v)).copied().unwrap_or(0);
        let apart = surplus.keys().filter(|&&(u, v)| of(u, v) != of(v, u));
        apart.map(|&(u, v)| [u.min(v), u.max(v)]).min()
    }

    /// The first joint that a given triangle has and neither a quad nor a leftover triangle.
    fn lost(&self) -> Option<usize> {
        let key = |(u, v): (u32, u32)| [u.min(v), u.max(v)];
        let (given, quads, left) = (self.given_cells(), self.quad_cells(), self.left_cells());
        let had: HashSet<_> = given.iter().flat_map(|t| sides(t)).map(key).collect();
        let of_quads = quads.iter().flat_map(|q| sides(q));
        let of_left = left.iter().flat_map(|t| sides(t));
        let has: HashSet<_> = of_quads.chain(of_left).map(key).collect();
        self.pairs().iter().position(|&[u, v]| {
            let joint = key((u, v));
            had.contains(&joint) && !has.contains(&joint)
        })
    }

    /// Every clause of lists that are not refused.
    fn judge(&self) -> Verdict {
        let (before, after) = (self.given_nodes(), self.nodes());
        let (given, quads, left) = (self.given_cells(), self.quad_cells(), self.left_cells());
        let upright_given: Vec<_> = given.iter().map(|t| upright(&before, t)).collect();
        let upright_left: Vec<_> = left.iter().map(|t| upright(&after, t)).collect();
        let (limit, thin) = (Limit::new(self.cosine), Limit::new(self.thin));
        let flat = |nodes: &[[f64; 3]], t: &[u32; 3]| area(nodes, t).sign() == Ordering::Equal;
        Verdict {
            moved: self.moved(),
            added: self.point_count.saturating_sub(self.given),
            folded: quads.iter().position(|q| !geometry::is_convex(&after, q)),
            sharp: quads.iter().position(|q| any_above(&after, q, &limit)),
            given_flat: given.iter().position(|t| flat(&before, t)),
            left_flat: left.iter().position(|t| flat(&after, t)),
            thin: left.iter().position(|t| any_above(&after, t, &thin)),
            uneven: self.uneven(&upright_given, &upright_left),
            lost: self.lost(),
            sizes: sizes(&left),
        }
    }

    /// The verdict, or the first refusal.
    pub fn verdict(&self, lent: &Lent) -> Result<Verdict, u32> {
        match self.refusal(lent) {
            Some(number) => Err(number),
            None => Ok(self.judge()),
        }
    }

    /// What the lent slices hold after a verdict.
    pub fn write(&self, verdict: &Verdict, lent: &mut Lent) {
        lent.components[..verdict.sizes.len()].copy_from_slice(&verdict.sizes);
        lent.work.fill(0);
        lent.parents.fill(0);
        lent.answer[..NUMBERS].copy_from_slice(&verdict.numbers(self));
    }

    /// The call: 0, or the refusal's number. A refusal touches no slice.
    pub fn accept(&self, lent: &mut Lent) -> u32 {
        match self.verdict(lent) {
            Err(number) => number,
            Ok(verdict) => {
                self.write(&verdict, lent);
                0
            }
        }
    }
}
