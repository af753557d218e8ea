//! The replay of a trace: the given mesh, changed by one entry after the other. Written apart from the patched module and
//! without an index: every edge's owners are looked for among all cells.

use crate::account::components;
use crate::input::{outside, Lent, MOST_GIVEN, MOST_POINTS, MOST_SLOTS};
use crate::mesh::Node;
use crate::records::WORDS;
use crate::trace::Entry;

/// What is handed in: the given mesh, points and slots lent, and the trace's slice with how many of its words are stated. The other slices are as long as `lent`
/// states.
#[derive(Clone, Copy, Debug)]
pub struct Handed<'a> {
    pub points: &'a [[u64; 3]],
    pub triangles: &'a [[u32; 3]],
    pub lent: Lent,
    pub trace: &'a [u32],
    pub words: usize,
}

/// What the entries came to.
#[derive(Clone, Debug, Default)]
pub struct Replayed {
    /// 12, 8 or 9 where an entry was refused. Of the rest only `points` and `quads` then count.
    pub refused: Option<u32>,
    pub points: Vec<Node>,
    /// The quads' records, in order.
    pub quads: Vec<[u32; WORDS]>,
    /// The triangles left, by their slots.
    pub triangles: Vec<[usize; 3]>,
    /// The sizes of their components, descending.
    pub components: Vec<usize>,
}

/// The refusal of an entry that cannot have been made.
pub const UNSOUND: u32 = 12;
const NO_POINT: u32 = 8;
const NO_SLOTS: u32 = 9;

/// A point is strictly inside where all three cross products are beyond this, on one side.
const INSIDE: f64 = 1e-12;

impl Handed<'_> {
    /// The first of the conditions of 1 and 4 to 7 that holds.
    pub fn refusal(&self) -> Option<u32> {
        let (given, count) = (self.points.len(), self.triangles.len());
        let Lent { points, slots } = self.lent;
        if count > MOST_GIVEN || given > MOST_GIVEN || points > MOST_POINTS || slots > MOST_SLOTS {
            return Some(1);
        }
        if points < given || slots < count || self.trace.len() < self.words {
            return Some(4);
        }
        if self
            .triangles
            .iter()
            .flatten()
            .any(|&v| v as usize >= given)
        {
            return Some(5);
        }
        let twice = |t: &[u32; 3]| t[0] == t[1] || t[0] == t[2] || t[1] == t[2];
        if self.triangles.iter().any(twice) {
            return Some(6);
        }
        let far = |p: &[u64; 3]| outside(p[0]) || outside(p[1]);
        self.points.iter().any(far).then_some(7)
    }

    /// The whole replay, or its refusal before the first entry.
    pub fn replay(&self) -> Result<Replayed, u32> {
        if let Some(number) = self.refusal() {
            return Err(number);
        }
        let mut mesh = Mesh::new(self);
        let mut words = &self.trace[..self.words];
        while !words.is_empty() {
            match mesh.entry(words) {
                Ok(rest) => words = rest,
                Err(number) => return Ok(mesh.left(Some(number))),
            }
        }
        Ok(mesh.left(None))
    }
}

/// The nodes of a cell.
#[derive(Clone, Copy, Debug, PartialEq)]
enum Cell {
    Triangle([usize; 3]),
    Quad([usize; 4]),
}

impl Cell {
    fn nodes(&self) -> &[usize] {
        match self {
            Cell::Triangle(nodes) => nodes,
            Cell::Quad(nodes) => nodes,
        }
    }

    /// Two nodes that follow each other are u and v, in either order.
    fn has(&self, u: usize, v: usize) -> bool {
        let n = self.nodes();
        let next = |i: usize| (n[i], n[(i + 1) % n.len()]);
        (0..n.len()).any(|i| next(i) == (u, v) || next(i) == (v, u))
    }

    fn triangle(&self) -> Option<[usize; 3]> {
        match *self {
            Cell::Triangle(nodes) => Some(nodes),
            Cell::Quad(_) => None,
        }
    }
}

/// The mesh between two entries.
pub struct Mesh {
    pub points: Vec<Node>,
    /// The live cells with their slots, in the order in which each was put there last: so an edge's owners come in the order in which they came to it.
    live: Vec<(usize, Cell)>,
    /// Slots given out so far.
    used: usize,
    quads: Vec<[u32; WORDS]>,
    lent: Lent,
}

impl Mesh {
    /// Before the first entry.
    pub fn new(handed: &Handed) -> Mesh {
        let wide = |t: &[u32; 3]| Cell::Triangle(t.map(|v| v as usize));
        let bits = |p: &[u64; 3]| p.map(f64::from_bits);
        Mesh {
            points: handed.points.iter().map(bits).collect(),
            live: handed.triangles.iter().map(wide).enumerate().collect(),
            used: handed.triangles.len(),
            quads: Vec::new(),
            lent: handed.lent,
        }
    }

    /// Makes the first entry of the words; hands back those after it, or the refusal.
    pub fn entry<'w>(&mut self, words: &'w [u32]) -> Result<&'w [u32], u32> {
        let (entry, rest) = Entry::read(words).ok_or(UNSOUND)?;
        match entry {
            Entry::Insertion { slot, x, y } => self.insert(slot as usize, x, y)?,
            Entry::Flip { u, v } => self.flip(u as usize, v as usize)?,
            Entry::Quad {
                nodes,
                edge: [u, v],
                round,
                slots,
            } => {
                self.place(nodes.map(|n| n as usize), &slots)?;
                let [a, b, c, d] = nodes;
                let replaced = slots.len() as u32;
                self.quads.push([a, b, c, d, u, v, round, replaced]);
            }
        }
        Ok(rest)
    }

    /// The live triangles with their slots.
    pub fn triangles(&self) -> Vec<(usize, [usize; 3])> {
        let cells = self.live.iter();
        cells.filter_map(|c| Some((c.0, c.1.triangle()?))).collect()
    }

    /// The triangle in a slot.
    fn triangle(&self, slot: usize) -> Option<[usize; 3]> {
        let cell = self.live.iter().find(|c| c.0 == slot)?;
        cell.1.triangle()
    }

    /// Takes the slot's cell away, where there is one.
    fn remove(&mut self, slot: usize) {
        self.live.retain(|c| c.0 != slot);
    }

    /// Puts a triangle into a slot, in place of what was there.
    fn set(&mut self, slot: usize, nodes: [usize; 3]) {
        self.remove(slot);
        self.live.push((slot, Cell::Triangle(nodes)));
    }

    /// A slot that was never used.
    fn next_slot(&mut self) -> usize {
        self.used += 1;
        self.used - 1
    }

    /// Which side of the line from a to b the point is on: twice the triangle's area, with its sign.
    fn side(&self, a: usize, b: usize, p: Node) -> f64 {
        let (a, b) = (self.points[a], self.points[b]);
        (b[0] - a[0]) * (p[1] - a[1]) - (b[1] - a[1]) * (p[0] - a[0])
    }

    /// The point is strictly inside the triangle, by floats.
    pub fn inside(&self, [a, b, c]: [usize; 3], p: Node) -> bool {
        let sides = [self.side(a, b, p), self.side(b, c, p), self.side(c, a, p)];
        sides.iter().all(|&s| s > INSIDE) || sides.iter().all(|&s| s < -INSIDE)
    }

    fn insert(&mut self, slot: usize, x: f64, y: f64) -> Result<(), u32> {
        let p = [x, y, 0.0];
        let holder = self.triangle(slot).filter(|&t| self.inside(t, p));
        let [a, b, c] = holder.ok_or(UNSOUND)?;
        if self.points.len() == self.lent.points {
            return Err(NO_POINT);
        }
        if self.used + 2 > self.lent.slots {
            return Err(NO_SLOTS);
        }
        let v = self.points.len();
        self.points.push(p);
        self.set(slot, [a, b, v]);
        for corner in [[b, c, v], [c, a, v]] {
            let slot = self.next_slot();
            self.set(slot, corner);
        }
        Ok(())
    }

    fn flip(&mut self, u: usize, v: usize) -> Result<(), u32> {
        if u >= v {
            return Err(UNSOUND);
        }
        let owners: Vec<_> = self.live.iter().filter(|c| c.1.has(u, v)).collect();
        let [&(first, Cell::Triangle(s)), &(second, Cell::Triangle(t))] = owners[..] else {
            return Err(UNSOUND);
        };
        let third = |t: [usize; 3]| t.into_iter().find(|&n| n != u && n != v);
        let (p, q) = (third(s).ok_or(UNSOUND)?, third(t).ok_or(UNSOUND)?);
        if p == q || self.beside(u, v, p, q) || self.beside(p, q, u, v) {
            return Err(UNSOUND);
        }
        // The new triangles turn as the first of the two did.
        let along = (0..3).any(|i| (s[i], s[(i + 1) % 3]) == (u, v));
        let (at_u, at_v) = match along {
            true => ([p, u, q], [q, v, p]),
            false => ([p, q, u], [q, p, v]),
        };
        self.set(first, at_u);
        self.set(second, at_v);
        Ok(())
    }

    /// The product of the sides that p and q are on is not below zero; one that is no number counts as below.
    fn beside(&self, a: usize, b: usize, p: usize, q: usize) -> bool {
        let side = |n: usize| self.side(a, b, self.points[n]);
        side(p) * side(q) >= 0.0
    }

    fn place(&mut self, nodes: [usize; 4], slots: &[u32]) -> Result<(), u32> {
        let known = nodes.iter().all(|&n| n < self.points.len());
        let there = |&slot: &u32| self.triangle(slot as usize).is_some();
        let twice = |i: usize| slots[..i].contains(&slots[i]);
        if !known || !slots.iter().all(there) || (0..slots.len()).any(twice) {
            return Err(UNSOUND);
        }
        if self.used + 1 > self.lent.slots {
            return Err(NO_SLOTS);
        }
        for &slot in slots {
            self.remove(slot as usize);
        }
        let slot = self.next_slot();
        self.live.push((slot, Cell::Quad(nodes)));
        Ok(())
    }

    /// The lists at the end, or where an entry was refused.
    fn left(mut self, refused: Option<u32>) -> Replayed {
        self.live.sort_by_key(|c| c.0);
        let triangles: Vec<_> = self.triangles().into_iter().map(|c| c.1).collect();
        Replayed {
            refused,
            points: self.points,
            quads: self.quads,
            components: components(&triangles),
            triangles,
        }
    }
}
