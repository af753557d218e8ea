//! The words of a trace, entry by entry.

/// What happened to a mesh.
#[derive(Clone, Debug, PartialEq)]
pub enum Entry {
    /// The triangle of a slot was split at a point.
    Insertion { slot: u32, x: f64, y: f64 },
    /// An edge was flipped, its smaller node first.
    Flip { u: u32, v: u32 },
    /// A quad came in place of the triangles of some slots.
    Quad {
        nodes: [u32; 4],
        edge: [u32; 2],
        round: u32,
        slots: Vec<u32>,
    },
}

const INSERTION: u32 = 1;
const FLIP: u32 = 2;
const QUAD: u32 = 4;

/// The double of two words, the low one first.
fn double(low: u32, high: u32) -> f64 {
    f64::from_bits(u64::from(high) << 32 | u64::from(low))
}

fn halves(x: f64) -> [u32; 2] {
    [x.to_bits() as u32, (x.to_bits() >> 32) as u32]
}

impl Entry {
    /// The entry that the words begin with, and the words after it; `None` where it is cut short or of another kind.
    pub fn read(words: &[u32]) -> Option<(Entry, &[u32])> {
        match *words {
            [INSERTION, slot, x0, x1, y0, y1, ref rest @ ..] => {
                let (x, y) = (double(x0, x1), double(y0, y1));
                Some((Entry::Insertion { slot, x, y }, rest))
            }
            [FLIP, u, v, ref rest @ ..] => Some((Entry::Flip { u, v }, rest)),
            [QUAD, a, b, c, d, u, v, round, count, ref rest @ ..] => {
                let slots = rest.get(..count as usize)?.to_vec();
                let quad = Entry::Quad {
                    nodes: [a, b, c, d],
                    edge: [u, v],
                    round,
                    slots,
                };
                Some((quad, &rest[count as usize..]))
            }
            _ => None,
        }
    }

    pub fn words(&self) -> Vec<u32> {
        match self {
            Entry::Insertion { slot, x, y } => {
                let ([x0, x1], [y0, y1]) = (halves(*x), halves(*y));
                vec![INSERTION, *slot, x0, x1, y0, y1]
            }
            Entry::Flip { u, v } => vec![FLIP, *u, *v],
            Entry::Quad {
                nodes: [a, b, c, d],
                edge: [u, v],
                round,
                slots,
            } => {
                let head = [QUAD, *a, *b, *c, *d, *u, *v, *round, slots.len() as u32];
                [&head[..], slots].concat()
            }
        }
    }
}

/// All entries of the words of a run.
pub fn entries(mut words: &[u32]) -> Vec<Entry> {
    let mut all = Vec::new();
    while !words.is_empty() {
        let (entry, rest) = Entry::read(words).expect("whole entries");
        all.push(entry);
        words = rest;
    }
    all
}

/// The words of some entries.
pub fn words(entries: &[Entry]) -> Vec<u32> {
    entries.iter().flat_map(Entry::words).collect()
}
