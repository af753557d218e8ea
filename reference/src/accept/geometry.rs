//! Exact geometry of the acceptance: turns, areas and cosines in whole numbers of 2^-1074.

use std::cmp::Ordering;

use super::whole::{Whole, SCALE};

/// What the limit on a cosine is passed by, as one over this.
const SLACK: u64 = 1_000_000_000;

/// A point's x and y.
#[derive(Clone, Debug)]
pub struct Place {
    x: Whole,
    y: Whole,
}

impl Place {
    pub fn of(x: f64, y: f64) -> Place {
        Place {
            x: Whole::units(x),
            y: Whole::units(y),
        }
    }

    /// The vector from here to there.
    fn to(&self, there: &Place) -> Place {
        Place {
            x: there.x.minus(&self.x),
            y: there.y.minus(&self.y),
        }
    }

    fn cross(&self, other: &Place) -> Whole {
        let (left, right) = (self.x.times(&other.y), self.y.times(&other.x));
        left.minus(&right)
    }

    fn dot(&self, other: &Place) -> Whole {
        self.x.times(&other.x).plus(&self.y.times(&other.y))
    }
}

/// Where a node is.
fn at(nodes: &[[f64; 3]], v: u32) -> Place {
    let [x, y, _] = nodes[v as usize];
    Place::of(x, y)
}

/// At each of a cell's nodes the vectors to the next node and to the one before.
fn corners(nodes: &[[f64; 3]], cell: &[u32]) -> Vec<[Place; 2]> {
    let n = cell.len();
    let places: Vec<Place> = cell.iter().map(|&v| at(nodes, v)).collect();
    let way = |i: usize, k: usize| places[i].to(&places[k % n]);
    (0..n).map(|i| [way(i, i + 1), way(i, i + n - 1)]).collect()
}

/// Whether the cell turns left at every node.
pub fn is_convex(nodes: &[[f64; 3]], cell: &[u32]) -> bool {
    corners(nodes, cell)
        .iter()
        .all(|[next, last]| next.cross(last).sign() == Ordering::Greater)
}

/// Twice the area of a triangle: above zero where it runs counterclockwise, below where it runs clockwise.
pub fn area(nodes: &[[f64; 3]], t: &[u32; 3]) -> Whole {
    let [a, b, c] = t.map(|v| at(nodes, v));
    a.to(&b).cross(&a.to(&c))
}

/// The triangle, turned over unless it runs counterclockwise: one without area too.
pub fn upright(nodes: &[[f64; 3]], t: &[u32; 3]) -> [u32; 3] {
    match area(nodes, t).sign() {
        Ordering::Greater => *t,
        _ => [t[0], t[2], t[1]],
    }
}

/// The square of the fraction t + 1e-9, above and below the line.
pub struct Limit {
    above: Whole,
    below: Whole,
}

impl Limit {
    pub fn new(t: f64) -> Limit {
        let one = Whole::from(1).times_two_to(SCALE);
        let above = Whole::units(t).times(&Whole::from(SLACK)).plus(&one);
        let below = one.times(&Whole::from(SLACK));
        Limit {
            above: above.squared(),
            below: below.squared(),
        }
    }
}

/// Whether the cosine between two vectors is above the limit. A vector without length makes no cosine that is.
fn is_above([next, last]: &[Place; 2], limit: &Limit) -> bool {
    let dot = next.dot(last);
    let lengths = next.dot(next).times(&last.dot(last));
    dot.sign() == Ordering::Greater
        && limit.below.times(&dot.squared()) > limit.above.times(&lengths)
}

/// Whether the corner here, between the ways to two other places, has a cosine above the limit.
pub fn is_corner_above(here: &Place, next: &Place, last: &Place, limit: &Limit) -> bool {
    is_above(&[here.to(next), here.to(last)], limit)
}

/// Whether some corner of the cell has a cosine above the limit.
pub fn any_above(nodes: &[[f64; 3]], cell: &[u32], limit: &Limit) -> bool {
    corners(nodes, cell)
        .iter()
        .any(|sides| is_above(sides, limit))
}
