//! Words for a replay: traces of runs, such traces damaged, and entries as no run makes them.

use crate::input::{Input, LARGEST};
use crate::random::Random;
use crate::replay::{Handed, Mesh};
use crate::trace::{entries, words, Entry};

/// A sort's name and how it makes words of a mesh and the trace of its run.
pub type Sort = (&'static str, fn(&Input, &[u32], &mut Random) -> Vec<u32>);

pub const SORTS: &[Sort] = &[
    ("whole", |_, trace, _| trace.to_vec()),
    ("a word changed", |_, trace, r| changed(trace, r)),
    ("cut short", |_, trace, r| {
        trace[..r.below(trace.len() + 1)].to_vec()
    }),
    ("longer", |_, trace, r| longer(trace, r)),
    ("exchanged", |_, trace, r| exchanged(trace, r)),
    ("repeated", |_, trace, r| repeated(trace, r)),
    ("left out", |_, trace, r| left_out(trace, r)),
    ("another mesh's", |_, _, r| another(r)),
    ("any words", |input, _, r| any(input, r)),
    ("wild", |input, _, r| wild(input, &[], r)),
    ("wild behind a run's", |input, trace, r| {
        let mut kept = entries(trace);
        kept.truncate(r.below(kept.len() + 1));
        wild(input, &words(&kept), r)
    }),
];

/// The trace of a run with all that may be lent; what there is of it where 8 or 9 ends the run.
pub fn whole(input: &Input) -> Vec<u32> {
    let free = Input {
        trace: usize::MAX,
        ..input.clone()
    };
    free.run_unchecked(LARGEST).trace
}

/// A number that some slot, node, kind or count may be, or just not.
fn number(input: &Input, r: &mut Random) -> u32 {
    let small = r.below(6) as u32;
    let near = |n: usize, r: &mut Random| (n + r.below(4)).saturating_sub(2) as u32;
    let (points, slots) = (near(input.points.len(), r), near(input.triangles.len(), r));
    let wide = r.bits() as u32;
    let huge = r.pick(&[u32::MAX, u32::MAX - 1, u32::MAX - 8, 1 << 31, wide]);
    r.pick(&[small, small, small, points, slots, huge])
}

/// One word, or its neighbour by one or a bit, or any.
fn changed(trace: &[u32], r: &mut Random) -> Vec<u32> {
    let mut out = trace.to_vec();
    if out.is_empty() {
        return vec![r.below(6) as u32];
    }
    let place = r.below(out.len());
    let (word, wide) = (out[place], r.bits() as u32);
    let (other, small) = (out[r.below(out.len())], r.below(5) as u32);
    out[place] = r.pick(&[
        word.wrapping_add(1),
        word.wrapping_sub(1),
        word ^ 1 << (wide % 32),
        small,
        other,
        wide,
        u32::MAX,
    ]);
    out
}

/// Some words more, or the beginning once more.
fn longer(trace: &[u32], r: &mut Random) -> Vec<u32> {
    let mut out = trace.to_vec();
    if r.once_in(3) {
        out.extend(&trace[..r.below(trace.len() + 1)]);
    } else {
        out.push(r.pick(&[0, 1, 2, 3, 4, 5, u32::MAX]));
        out.extend((0..r.below(12)).map(|_| r.below(4) as u32));
    }
    out
}

/// Two entries in each other's place, mostly neighbours.
fn exchanged(trace: &[u32], r: &mut Random) -> Vec<u32> {
    let mut list = entries(trace);
    if list.len() > 1 {
        let i = r.below(list.len() - 1);
        let j = if r.once_in(3) {
            r.below(list.len())
        } else {
            i + 1
        };
        list.swap(i, j);
    }
    words(&list)
}

/// An entry once more, behind itself or anywhere; a flip often twice, so that it goes back.
fn repeated(trace: &[u32], r: &mut Random) -> Vec<u32> {
    let mut list = entries(trace);
    if !list.is_empty() {
        let i = r.below(list.len());
        let any = r.below(list.len() + 1);
        let place = r.pick(&[i + 1, any, list.len()]);
        let entry = list[i].clone();
        list.insert(place, entry);
    }
    words(&list)
}

fn left_out(trace: &[u32], r: &mut Random) -> Vec<u32> {
    let mut list = entries(trace);
    if !list.is_empty() {
        list.remove(r.below(list.len()));
    }
    words(&list)
}

fn another(r: &mut Random) -> Vec<u32> {
    for _ in 0..8 {
        let kind = super::of_case(None, r.bits());
        let other = kind.1(r, &super::SMALL);
        let fine = other.size() != 0.0 && other.size() < 0.25;
        if !fine && other.refusal(LARGEST).is_none() {
            return whole(&other);
        }
    }
    Vec::new()
}

/// Entries of the three kinds, and others, with any numbers.
fn any(input: &Input, r: &mut Random) -> Vec<u32> {
    let mut out = Vec::new();
    for _ in 0..r.from_to(1, 6) {
        let kind = r.pick(&[1, 2, 2, 4, 4, 4, 3, 0, 5]);
        let fields = match kind {
            1 => 5,
            2 => 2,
            _ => 7,
        };
        out.push(kind);
        out.extend((0..fields).map(|_| number(input, r)));
        if kind == 4 {
            let count = r.below(4) as u32;
            let said = r.pick(&[count, count, count, count, count + 1, u32::MAX, 1 << 31]);
            out.push(said);
            out.extend((0..count).map(|_| number(input, r)));
        }
    }
    out
}

/// Entries that the replay takes, as far as such are found, one after the other; at the end now and then one that it does not.
fn wild(input: &Input, before: &[u32], r: &mut Random) -> Vec<u32> {
    let mut mesh = Mesh::new(&nothing(input));
    let mut out = before.to_vec();
    let mut rest = before;
    while !rest.is_empty() {
        rest = mesh.entry(rest).expect("the run's own entries");
    }
    let most = r.pick(&[1, 2, 4, 12, 30]);
    for _ in 0..r.from_to(1, most) {
        let entry = wild_entry(&mesh, r).words();
        let taken = mesh.entry(&entry).is_ok();
        if taken || r.once_in(12) {
            out.extend(&entry);
        }
        if !taken && out.ends_with(&entry) {
            break;
        }
    }
    out
}

fn wild_entry(mesh: &Mesh, r: &mut Random) -> Entry {
    let live = mesh.triangles();
    if live.is_empty() {
        return wild_quad(mesh, &live, r);
    }
    match r.below(7) {
        0..=2 => {
            let (slot, nodes) = r.pick(&live);
            let [x, y] = within(mesh, nodes, r);
            let slot = slot as u32;
            Entry::Insertion { slot, x, y }
        }
        3..=5 => {
            let t = r.pick(&live).1;
            let i = r.below(3);
            let (a, b) = (t[i] as u32, t[(i + 1) % 3] as u32);
            let (u, v) = (a.min(b), a.max(b));
            Entry::Flip { u, v }
        }
        _ => wild_quad(mesh, &live, r),
    }
}

/// A point of the triangle, mostly inside; of one without area also points far away that the floats take for such.
fn within(mesh: &Mesh, nodes: [usize; 3], r: &mut Random) -> [f64; 2] {
    let [a, b, c] = nodes.map(|n| mesh.points[n]);
    let area = (b[0] - a[0]) * (c[1] - a[1]) - (b[1] - a[1]) * (c[0] - a[0]);
    for _ in 0..if area.abs() < 1e-13 { TRIES } else { 0 } {
        let [x, y] = beyond(r.pick(&[[a, b], [b, c], [c, a]]), r);
        if mesh.inside(nodes, [x, y, 0.0]) {
            return [x, y];
        }
    }
    let edge = r.pick(&[0.0, 1e-12, 1e-6, 1.0]);
    let [s, t, u] = [r.unit(), r.unit(), r.unit() * edge];
    let sum = s + t + u;
    let mix = |k: usize| (s * a[k] + t * b[k] + u * c[k]) / sum;
    [mix(0), mix(1)]
}

/// Triangles without area on a line, and some beside it: here points far away can be inserted.
pub fn on_a_line(r: &mut Random) -> Input {
    let (from, along) = ([r.around(), r.around()], [r.around(), r.around()]);
    let mut points: Vec<[u64; 3]> = Vec::new();
    for k in 0..r.from_to(3, 6) {
        let (t, off) = (3.0 * r.around(), r.pick(&[0.0, 0.0, 0.0, 1.0]));
        let off = if k < 4 { 0.0 } else { off };
        let at = |i: usize| (from[i] + t * along[i] + off * along[1 - i]).to_bits();
        points.push([at(0), at(1), 0]);
    }
    let given = points.len() as u32;
    let mut triangles = vec![[0, 1, 2]];
    if given > 3 && r.once_in(2) {
        triangles.push([1, 0, 3]);
    }
    for _ in 0..r.below(4) {
        let mut nodes: Vec<u32> = (0..given).collect();
        r.shuffle(&mut nodes);
        triangles.push([nodes[0], nodes[1], nodes[2]]);
    }
    Input {
        size: r.pick(&[0.0f64, 1.0]).to_bits(),
        triangles,
        points,
        ..Input::default()
    }
}

/// Two triangles without area on an edge, each split at a point so far away that the floats of the edge's flip may be no numbers.
pub fn far_flip(r: &mut Random) -> (Input, Vec<u32>) {
    let along = [1.0 + r.unit(), 1.0 + r.unit()];
    let on_line = |t: f64| [t * along[0], t * along[1]];
    let given = |_| {
        let [x, y] = on_line(r.around());
        [x.to_bits(), y.to_bits(), 0]
    };
    let input = Input {
        points: (0..4).map(given).collect(),
        triangles: vec![[0, 1, 2], [1, 0, 3]],
        ..Input::default()
    };
    let mesh = Mesh::new(&nothing(&input));
    let mut list = Vec::new();
    for (slot, nodes) in mesh.triangles() {
        let mut tried = (0..TRIES).map(|_| on_line(r.around() * 1e200));
        let found = tried.find(|p| mesh.inside(nodes, [p[0], p[1], 0.0]));
        let ([x, y], slot) = (found.unwrap_or_default(), slot as u32);
        list.push(Entry::Insertion { slot, x, y });
    }
    list.push(Entry::Flip { u: 0, v: 1 });
    (input, words(&list))
}

/// A replay of no words.
fn nothing(input: &Input) -> Handed<'_> {
    Handed {
        points: &input.points,
        triangles: &input.triangles,
        lent: LARGEST,
        trace: &[],
        words: 0,
    }
}

/// Points far away that are tried: of some hundred the floats take one.
const TRIES: usize = 300;

/// A point far along the line, or a double or two beside it.
fn beyond([from, to]: [[f64; 3]; 2], r: &mut Random) -> [f64; 2] {
    let t = r.around() * 10f64.powi(r.pick(&[5, 6, 9, 16, 60, 150, 200, 300]));
    let [x, y] = [0, 1].map(|k| from[k] + t * (to[k] - from[k]));
    let by = r.below(5) as i64 - 2;
    [x, f64::from_bits(y.to_bits().wrapping_add_signed(by))]
}

/// Any nodes, one twice among them now and then; the triangles of no slot, of some or of all, whatever their nodes.
fn wild_quad(mesh: &Mesh, live: &[(usize, [usize; 3])], r: &mut Random) -> Entry {
    let points = mesh.points.len();
    let far = r.pick(&[0, 0, 0, 0, 0, 1]);
    let mut nodes = [(); 4].map(|_| r.below((points + far).max(1)) as u32);
    if let (true, [_, ..]) = (r.once_in(2), live) {
        let ([a, b, c], [p, q, s]) = (r.pick(live).1, r.pick(live).1);
        let third = r.pick(&[p, q, s]);
        nodes = r
            .pick(&[
                [a, b, c, third],
                [a, b, a, b],
                [a, b, third, c],
                [a, a, b, c],
            ])
            .map(|n| n as u32);
    }
    let mut slots: Vec<u32> = live.iter().map(|c| c.0 as u32).collect();
    r.shuffle(&mut slots);
    let some = r.below(slots.len() + 1);
    let few = slots.len().min(r.below(4));
    slots.truncate(r.pick(&[0, few, few, few, some]));
    if let (true, [slot, ..]) = (r.once_in(16), &slots[..]) {
        let slot = *slot;
        slots.push(slot);
    }
    let wide = r.bits() as u32;
    Entry::Quad {
        nodes,
        edge: r.pick(&[[0, 1], [wide, 0], [u32::MAX, u32::MAX]]),
        round: r.pick(&[0, 1, wide, u32::MAX]),
        slots,
    }
}
