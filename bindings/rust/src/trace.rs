//! The trace of a run, and its replay.

use crate::lent::{self, Call, Told};
use crate::{Quad, Refusal, Room, MOST_CAPACITY, MOST_SLOTS};

/// What happened to a mesh: an entry of a trace.
#[derive(Clone, Debug, PartialEq)]
pub enum Entry {
    /// The triangle of a slot was split at a point, which comes behind the others with z 0. The first third keeps the slot, the other two take the next ones.
    Insertion { slot: u32, x: f64, y: f64 },
    /// The edge between two triangles was flipped, its smaller node first.
    Flip { edge: [u32; 2] },
    /// A quad came in place of the triangles of some slots, into the next slot.
    Quad { quad: Quad, slots: Vec<u32> },
}

const INSERTION: u32 = 1;
const FLIP: u32 = 2;
const QUAD: u32 = 4;

impl Entry {
    /// The entry that the words begin with, and the words behind it; `None` where it is cut short or of another kind.
    pub fn read(words: &[u32]) -> Option<(Entry, &[u32])> {
        match *words {
            [INSERTION, slot, x0, x1, y0, y1, ref rest @ ..] => {
                let (x, y) = (double(x0, x1), double(y0, y1));
                Some((Entry::Insertion { slot, x, y }, rest))
            }
            [FLIP, u, v, ref rest @ ..] => Some((Entry::Flip { edge: [u, v] }, rest)),
            [QUAD, a, b, c, d, u, v, round, replaced, ref rest @ ..] => {
                let slots = rest.get(..replaced as usize)?.to_vec();
                let quad = Quad {
                    nodes: [a, b, c, d],
                    edge: [u, v],
                    round,
                    replaced,
                };
                Some((Entry::Quad { quad, slots }, &rest[replaced as usize..]))
            }
            _ => None,
        }
    }

    /// The words of the entry. A quad's count is that of its slots.
    pub fn words(&self) -> Vec<u32> {
        match self {
            Entry::Insertion { slot, x, y } => {
                let ([x0, x1], [y0, y1]) = (halves(*x), halves(*y));
                vec![INSERTION, *slot, x0, x1, y0, y1]
            }
            Entry::Flip { edge: [u, v] } => vec![FLIP, *u, *v],
            Entry::Quad { quad, slots } => {
                let ([a, b, c, d], [u, v]) = (quad.nodes, quad.edge);
                let head = [QUAD, a, b, c, d, u, v, quad.round, slots.len() as u32];
                [&head[..], slots].concat()
            }
        }
    }
}

/// The double of two words, the low one first.
fn double(low: u32, high: u32) -> f64 {
    f64::from_bits(u64::from(high) << 32 | u64::from(low))
}

fn halves(x: f64) -> [u32; 2] {
    [x.to_bits() as u32, (x.to_bits() >> 32) as u32]
}

/// The entries that some words begin with, in order; it ends at the end of the words or before what is no entry.
pub fn entries(words: &[u32]) -> Entries<'_> {
    Entries { rest: words }
}

/// The entries of some words.
#[derive(Clone, Debug)]
pub struct Entries<'a> {
    rest: &'a [u32],
}

impl<'a> Entries<'a> {
    /// The words that are not read yet.
    pub fn rest(&self) -> &'a [u32] {
        self.rest
    }
}

impl Iterator for Entries<'_> {
    type Item = Entry;

    fn next(&mut self) -> Option<Entry> {
        let (entry, rest) = Entry::read(self.rest)?;
        self.rest = rest;
        Some(entry)
    }
}

/// A mesh after the entries of a trace.
#[derive(Clone, Debug, Default, PartialEq)]
pub struct Replayed {
    /// The given points, then the added ones.
    pub points: Vec<[f64; 3]>,
    pub quads: Vec<Quad>,
    /// The triangles that are left.
    pub triangles: Vec<[u32; 3]>,
    /// The sizes of their components, descending.
    pub components: Vec<u32>,
}

/// Replays the words of a trace on the mesh that its run was given. After all of them the lists are the run's; after the first entries alone they are those of the
/// mesh as it was then, so a mesh can be stepped through as it grew.
///
/// Words that no run wrote are safe: the first entry that cannot be made is refused as [`Refusal::BadTrace`], and 8 and 9 come back where the entries need more points
/// or slots than the limits allow. A trace says nothing of size, stop rule, joints or quality; whether its quads are good is not tested.
pub fn replay(
    points: &[[f64; 3]],
    triangles: &[[u32; 3]],
    trace: &[u32],
) -> Result<Replayed, Refusal> {
    let told = told(points.len(), triangles.len(), trace);
    let call = Call {
        given: told.given,
        capacity: told.capacity,
        count: told.count,
        slots: told.slots,
        size: 0.0,
        stop: 0,
    };
    let mut room = Room::new(points, call, 0);
    let lengths = lent::replay(triangles.as_flattened(), trace, room.memory(), told)?;
    let lists = room.lists(lengths);
    Ok(Replayed {
        points: lists.points,
        quads: lists.quads,
        triangles: lists.triangles,
        components: lists.components,
    })
}

/// As much as the entries need, up to the limits.
fn told(given: usize, count: usize, trace: &[u32]) -> Told {
    let (mut inserted, mut placed) = (0, 0);
    for entry in entries(trace) {
        match entry {
            Entry::Insertion { .. } => inserted += 1,
            Entry::Flip { .. } => {}
            Entry::Quad { .. } => placed += 1,
        }
    }
    Told {
        given,
        capacity: (given + inserted).min(MOST_CAPACITY).max(given),
        count,
        slots: (count + 2 * inserted + placed).min(MOST_SLOTS).max(count),
        words: trace.len(),
    }
}
