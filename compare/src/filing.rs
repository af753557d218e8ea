//! The filing order, linked from the static library, against a plain comparison on generated pairs of meshes: the answer, and both work slices at exit,
//! in memory full of garbage.

use std::cmp::Ordering;
use std::collections::BTreeMap;

use reference::random::Random;
use sedgepick::lent::{self, Lent, FILING_WORK};
use sedgepick::{Refusal, MOST_GIVEN};

/// Triangles up to which equal meshes are matched triangle by triangle as well.
const MATCHED: usize = 64;

/// What is handed in for a mesh.
#[derive(Clone, Debug)]
struct Mesh {
    points: Vec<f64>,
    triangles: Vec<u32>,
    work: Vec<u32>,
    given: usize,
    count: usize,
}

impl Mesh {
    fn triangle(&self, i: usize) -> [u32; 3] {
        [0, 1, 2].map(|k| self.triangles[3 * i + k])
    }

    fn set_triangle(&mut self, i: usize, nodes: [u32; 3]) {
        self.triangles[3 * i..3 * i + 3].copy_from_slice(&nodes);
    }

    fn list(&self) -> Vec<[u32; 3]> {
        (0..self.count).map(|i| self.triangle(i)).collect()
    }

    fn lend<'a>(&'a self, work: &'a mut [u32]) -> Lent<'a> {
        Lent {
            points: &self.points,
            triangles: &self.triangles,
            work,
            given: self.given,
            count: self.count,
        }
    }
}

// ---- the plain comparison

/// The first test that the mesh fails.
fn refusal(m: &Mesh) -> Option<Refusal> {
    if m.count > MOST_GIVEN || m.given > MOST_GIVEN {
        return Some(Refusal::OverLimit);
    }
    let needs = [3 * m.given, 3 * m.count, FILING_WORK * m.count];
    let has = [m.points.len(), m.triangles.len(), m.work.len()];
    if has.iter().zip(needs).any(|(has, need)| *has < need) {
        return Some(Refusal::TooShort);
    }
    let list = m.list();
    if list.iter().flatten().any(|&n| n as usize >= m.given) {
        return Some(Refusal::UnknownNode);
    }
    if list
        .iter()
        .any(|t| t[0] == t[1] || t[1] == t[2] || t[2] == t[0])
    {
        return Some(Refusal::RepeatedNode);
    }
    let far = |x: f64| !x.is_finite() || x.abs() > 8.0;
    if (0..m.given).any(|i| far(m.points[3 * i]) || far(m.points[3 * i + 1])) {
        return Some(Refusal::FarPoint);
    }
    None
}

/// The triangles as they are filed.
fn filed(m: &Mesh) -> Vec<[u32; 3]> {
    let mut list = m.list();
    for t in &mut list {
        let least = (0..3).min_by_key(|&k| t[k]).expect("three nodes");
        t.rotate_left(least);
    }
    list.sort();
    list
}

fn plain(a: &Mesh, b: &Mesh) -> Result<Ordering, Refusal> {
    if let Some(refusal) = refusal(a).or_else(|| refusal(b)) {
        return Err(refusal);
    }
    let numbers = |m: &Mesh| -> Vec<f64> {
        m.points[..3 * m.given]
            .chunks(3)
            .flat_map(|p| [p[0], p[1]])
            .collect()
    };
    let points = numbers(a).partial_cmp(&numbers(b)).expect("no NaN passes");
    Ok(a.given
        .cmp(&b.given)
        .then(points)
        .then(a.count.cmp(&b.count))
        .then_with(|| filed(a).cmp(&filed(b))))
}

/// Each triangle of one mesh is a rotation of one of the other, and none is taken twice.
fn matched(a: &Mesh, b: &Mesh) -> bool {
    let mut left = b.list();
    a.list().iter().all(|t| {
        let turns = [*t, [t[1], t[2], t[0]], [t[2], t[0], t[1]]];
        let place = left.iter().position(|u| turns.contains(u));
        place.map(|i| left.swap_remove(i)).is_some()
    }) && left.is_empty()
}

// ---- pairs

/// Garbage behind what a slice needs.
fn tail(r: &mut Random) -> usize {
    if r.once_in(2) {
        0
    } else {
        r.below(9)
    }
}

fn coordinate(r: &mut Random) -> f64 {
    match r.below(8) {
        0 => r.pick(&[0.0, -0.0, 8.0, -8.0, f64::MIN_POSITIVE, -f64::from_bits(1)]),
        1..=4 => r.below(3) as f64 - 1.0,
        _ => 8.0 * r.around(),
    }
}

fn triangle(given: usize, r: &mut Random) -> [u32; 3] {
    loop {
        let t = [0; 3].map(|_: usize| r.below(given) as u32);
        if t[0] != t[1] && t[1] != t[2] && t[2] != t[0] {
            return t;
        }
    }
}

/// A mesh that passes its tests.
fn mesh(r: &mut Random) -> Mesh {
    let most = match r.below(400) {
        0 => MOST_GIVEN,
        1..=20 => 300,
        21..=120 => 40,
        _ => 6,
    };
    let given = r.from_to(0, most);
    let count = if given < 3 { 0 } else { r.from_to(0, most) };
    let mut points: Vec<f64> = (0..given)
        .flat_map(|_| [coordinate(r), coordinate(r), f64::from_bits(r.bits())])
        .collect();
    points.extend((0..tail(r)).map(|_| f64::NAN));
    let mut triangles: Vec<u32> = Vec::new();
    for i in 0..count {
        let repeated = i > 0 && r.once_in(5);
        let t = match repeated {
            true => {
                let k = r.below(i);
                [0, 1, 2].map(|c| triangles[3 * k + c])
            }
            false => triangle(given, r),
        };
        triangles.extend(t);
    }
    triangles.extend((0..tail(r)).map(|_| r.bits() as u32));
    Mesh {
        points,
        triangles,
        work: garbage(count, r),
        given,
        count,
    }
}

fn garbage(count: usize, r: &mut Random) -> Vec<u32> {
    (0..FILING_WORK * count + tail(r))
        .map(|_| r.bits() as u32)
        .collect()
}

/// The same mesh: listed in another order, each triangle from any of its nodes on, other z, zeros of any sign.
fn listed_otherwise(m: &Mesh, r: &mut Random) -> Mesh {
    let mut list = m.list();
    r.shuffle(&mut list);
    let mut points = m.points[..3 * m.given].to_vec();
    for (i, x) in points.iter_mut().enumerate() {
        if i % 3 == 2 {
            *x = f64::from_bits(r.bits());
        } else if *x == 0.0 && r.once_in(2) {
            *x = -*x;
        }
    }
    for t in &mut list {
        t.rotate_left(r.below(3));
    }
    let triangles = list.into_iter().flatten().collect();
    Mesh {
        points,
        triangles,
        work: garbage(m.count, r),
        ..*m
    }
}

/// One place of the mesh is another.
fn changed(m: &mut Mesh, r: &mut Random) {
    match r.below(4) {
        0 if m.given > 0 => {
            let i = 3 * r.below(m.given) + r.below(2);
            m.points[i] = coordinate(r);
        }
        1 if m.count > 0 => {
            let i = r.below(m.count);
            let [a, b, c] = m.triangle(i);
            m.set_triangle(i, [a, c, b]);
        }
        2 if m.count > 0 => {
            let (i, k) = (r.below(m.count), r.below(m.count));
            let t = m.triangle(k);
            m.set_triangle(i, t);
        }
        _ if m.count > 0 => {
            let i = r.below(m.count);
            let t = triangle(m.given, r);
            m.set_triangle(i, t);
        }
        _ => {}
    }
}

/// One test of the mesh fails.
fn damaged(m: &mut Mesh, r: &mut Random) {
    match r.below(8) {
        0 => m.given = r.pick(&[MOST_GIVEN + 1, usize::MAX]),
        1 => m.count = r.pick(&[MOST_GIVEN + 1, usize::MAX]),
        2 => m.points.truncate((3 * m.given).saturating_sub(1)),
        3 => m.triangles.truncate((3 * m.count).saturating_sub(1)),
        4 => m.work.truncate((FILING_WORK * m.count).saturating_sub(1)),
        5 if m.count > 0 => {
            let i = r.below(3 * m.count);
            m.triangles[i] = r.pick(&[m.given as u32, 4096, u32::MAX]);
        }
        6 if m.count > 0 => {
            let (i, k) = (r.below(m.count), r.below(3));
            let mut t = m.triangle(i);
            t[k] = t[(k + 1) % 3];
            m.set_triangle(i, t);
        }
        _ if m.given > 0 => {
            let i = 3 * r.below(m.given) + r.below(2);
            m.points[i] = r.pick(&[
                f64::NAN,
                f64::INFINITY,
                f64::NEG_INFINITY,
                8.0f64.next_up(),
                -9.0,
            ]);
        }
        _ => {}
    }
}

const KINDS: [&str; 5] = [
    "listed otherwise",
    "one place changed",
    "another mesh",
    "one damaged",
    "both damaged",
];

fn pair(kind: usize, r: &mut Random) -> (Mesh, Mesh) {
    let mut a = mesh(r);
    let mut b = if kind == 2 {
        mesh(r)
    } else {
        listed_otherwise(&a, r)
    };
    match kind {
        1 => changed(&mut b, r),
        3 if r.once_in(2) => damaged(&mut a, r),
        3 => damaged(&mut b, r),
        4 => {
            damaged(&mut a, r);
            damaged(&mut b, r);
        }
        _ => {}
    }
    (a, b)
}

// ---- the run

/// Pairs of a kind, by answer.
#[derive(Default)]
struct Tally {
    pairs: u64,
    answers: BTreeMap<String, u64>,
    differ: u64,
}

fn name(answer: Result<Ordering, Refusal>) -> String {
    match answer {
        Ok(Ordering::Less) => "before".to_string(),
        Ok(Ordering::Equal) => "same".to_string(),
        Ok(Ordering::Greater) => "after".to_string(),
        Err(refusal) => refusal.number().to_string(),
    }
}

/// What parts, where anything does.
fn parting(a: &Mesh, b: &Mesh, answer: Result<Ordering, Refusal>) -> Option<&'static str> {
    let (mut v, mut w) = (a.work.clone(), b.work.clone());
    let given = lent::filing_order(a.lend(&mut v), b.lend(&mut w));
    if given != answer {
        return Some("the answer");
    }
    let left = match answer {
        Ok(_) => v.iter().chain(&w).all(|&x| x == 0),
        Err(_) => v == a.work && w == b.work,
    };
    if !left {
        return Some("the work");
    }
    if answer.is_ok() && a.count <= MATCHED && a.count == b.count {
        let points = (0..a.given.min(b.given)).all(|i| {
            a.points[3 * i] == b.points[3 * i] && a.points[3 * i + 1] == b.points[3 * i + 1]
        });
        if (answer == Ok(Ordering::Equal)) != (a.given == b.given && points && matched(a, b)) {
            return Some("what is the same");
        }
    }
    None
}

/// Compares the pairs of the seed; true where none differs.
pub fn run(seed: u64, count: u64) -> bool {
    let mut tallies: [Tally; KINDS.len()] = Default::default();
    for case in 0..count {
        let mut r = Random::new(seed, case);
        let kind = r.below(KINDS.len());
        let (a, b) = pair(kind, &mut r);
        let answer = plain(&a, &b);
        let tally = &mut tallies[kind];
        tally.pairs += 1;
        *tally.answers.entry(name(answer)).or_default() += 1;
        if let Some(what) = parting(&a, &b, answer) {
            tally.differ += 1;
            eprintln!("pair {case}, {}: {what} ({})", KINDS[kind], name(answer));
        }
    }
    print(&tallies)
}

/// A line a kind, then the sums.
fn print(tallies: &[Tally]) -> bool {
    const ANSWERS: [&str; 8] = ["before", "same", "after", "1", "4", "5", "6", "7"];
    println!("kind | pairs | {} | differ", ANSWERS.join(" | "));
    let mut all = Tally::default();
    let line = |kind: &str, t: &Tally| {
        let answers = ANSWERS.map(|a| t.answers.get(a).copied().unwrap_or(0).to_string());
        println!(
            "{kind} | {} | {} | {}",
            t.pairs,
            answers.join(" | "),
            t.differ
        );
    };
    for (kind, t) in KINDS.iter().zip(tallies) {
        line(kind, t);
        all.pairs += t.pairs;
        all.differ += t.differ;
        for (answer, n) in &t.answers {
            *all.answers.entry(answer.clone()).or_default() += n;
        }
    }
    line("all", &all);
    println!("{} of {} pairs agree", all.pairs - all.differ, all.pairs);
    all.differ == 0
}
