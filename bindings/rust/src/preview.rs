//! What a front edge would give.

use crate::lent::{self, Call};
use crate::{Options, Quad, Refusal, Room};

/// What an attempt adds and what it needs: points, one at each end of the edge at most, and slots, two for each of them and one for the quad.
const POINTS: usize = 2;
const SLOTS: usize = 5;

/// What an attempt is refused under, by the names of [`Counts`](crate::Counts).
#[derive(Clone, Copy, Debug, PartialEq, Eq, Hash)]
pub enum Kind {
    /// No side nodes, an edge without length, or an edge that flips took off the front.
    Placement,
    /// No pair of side nodes with a good quad.
    InvalidQuad,
    /// A side that flips could not bring into the mesh.
    Recovery,
    /// The triangles inside the quad do not fill it, or a joint is inside it.
    Region,
    /// They do, and without them some component would be odd.
    OddRegion,
}

impl Kind {
    /// In the order of their numbers, from 1.
    pub(crate) const ALL: [Kind; 5] = [
        Kind::Placement,
        Kind::InvalidQuad,
        Kind::Recovery,
        Kind::Region,
        Kind::OddRegion,
    ];
}

/// What an attempt costs, whether it places a quad or is refused.
#[derive(Clone, Copy, Debug, Default, PartialEq, Eq, Hash)]
pub struct Cost {
    /// Points added, at most two.
    pub insertions: usize,
    /// Edges flipped.
    pub flips: usize,
}

/// What an edge shows.
#[derive(Clone, Copy, Debug, PartialEq, Eq, Hash)]
pub enum Shown {
    /// It is not on the front of the starting mesh: no edge of exactly one triangle. Nothing is attempted.
    OffFront,
    /// The quad that the attempt places, in round 1. A node of it that is no given point is one that the attempt adds.
    Quad { quad: Quad, cost: Cost },
    /// The attempt is refused.
    Refused { kind: Kind, cost: Cost },
}

impl Shown {
    /// What the attempt costs; nothing where none is made.
    pub fn cost(&self) -> Cost {
        match *self {
            Shown::OffFront => Cost::default(),
            Shown::Quad { cost, .. } | Shown::Refused { cost, .. } => cost,
        }
    }
}

/// What the edge between two nodes would give, in either order: one attempt on the mesh that [`run_front_with`](crate::run_front_with) starts from with these
/// options. Of the edge that a run tries first it is how that attempt ends.
///
/// Any two numbers may be asked for: a pair that is no edge is not on the front. As much memory is lent as an attempt can need, so of the refusals of a run 8
/// and 9 do not come back.
pub fn preview(
    points: &[[f64; 3]],
    triangles: &[[u32; 3]],
    edge: [u32; 2],
    options: &Options<'_>,
) -> Result<Shown, Refusal> {
    let (given, count) = (points.len(), triangles.len());
    let call = Call {
        given,
        capacity: given + POINTS,
        count,
        slots: count + SLOTS,
        size: options.size,
        stop: options.stop as u32,
    };
    let mut room = Room::new(points, call, 0);
    lent::preview(
        edge.map(|node| node as usize),
        triangles.as_flattened(),
        room.memory(),
        call,
        options.further(),
    )
}
