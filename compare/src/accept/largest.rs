//! Lists as long as they may be, whose answers are known, and lists of one more.

use reference::accept::{Handed, Lent, MOST, NUMBERS};

use super::call;

/// The unit square.
const POINTS: [f64; 12] = [0., 0., 0., 1., 0., 0., 1., 1., 0., 0., 1., 0.];

/// A long list: its name, the call, the answer and the component sizes.
type Long = (&'static str, Handed, [usize; NUMBERS], Vec<u32>);

/// The unit square as two triangles, judged as one quad.
fn square() -> Handed {
    Handed {
        given_points: POINTS.to_vec(),
        triangles: vec![0, 1, 2, 0, 2, 3],
        points: POINTS.to_vec(),
        quads: vec![0, 1, 2, 3],
        given: 4,
        count: 2,
        point_count: 4,
        quad_count: 1,
        cosine: 0.5,
        thin: 0.75,
        ..Handed::default()
    }
}

fn most_points() -> Long {
    let mut h = square();
    h.points.resize(3 * MOST, 0.5);
    h.given_points = h.points.clone();
    (h.given, h.point_count) = (MOST, MOST);
    let answer = [1, MOST, 0, 1, 1, 2, 0, 0, 0, 0, 0, 0, 0];
    ("points", h, answer, vec![])
}

fn most_joints() -> Long {
    let mut h = square();
    h.joints = [1, 0].repeat(MOST);
    h.joint_count = MOST;
    h.joints[2 * MOST - 1] = 2;
    h.joints[2 * MOST - 2] = 0;
    let answer = [0, 4, 0, 1, 1, 2, 0, 0, 0, 0, MOST - 1, 0, 0];
    ("joints, the last of them lost", h, answer, vec![])
}

/// The halves again and again, given and left over.
fn most_triangles() -> Long {
    let mut h = square();
    h.triangles = [0, 1, 2, 0, 2, 3].repeat(MOST / 2);
    h.left = [2, 1, 0, 0, 2, 3].repeat(MOST / 2);
    (h.count, h.left_count, h.quad_count) = (MOST, MOST, 0);
    let answer = [1, 4, 0, 0, 0, MOST, MOST, MOST, 0, 0, 0, 1, 0];
    ("triangles", h, answer, vec![MOST as u32])
}

fn most_quads() -> Long {
    let mut h = square();
    h.quads = [0, 1, 2, 3].repeat(MOST);
    h.quad_count = MOST;
    let answer = [0, 4, 0, MOST, MOST, 2, 0, 0, 0, 1, 0, 0, 0];
    ("quads", h, answer, vec![])
}

/// A grid of half as many squares, one of them turned over.
fn grid() -> Long {
    let (wide, high) = (1024, MOST / 2 / 1024);
    let row = wide + 1;
    let mut h = square();
    let node = |n: usize| [(n % row) as f64 / 512.0, (n / row) as f64 / 512.0, 0.0];
    h.points = (0..row * (high + 1)).flat_map(node).collect();
    h.given_points = h.points.clone();
    (h.triangles, h.quads) = (Vec::new(), Vec::new());
    for s in 0..wide * high {
        let a = (row * (s / wide) + s % wide) as u32;
        let (b, d) = (a + 1, a + row as u32);
        h.triangles.extend([a, b, d + 1, d + 1, d, a]);
        h.quads.extend([a, b, d + 1, d]);
    }
    (h.given, h.point_count) = (row * (high + 1), row * (high + 1));
    (h.count, h.quad_count) = (MOST, MOST / 2);
    let turned = MOST / 2 - 1000;
    h.quads[4 * turned..4 * turned + 4].reverse();
    let a = row * (turned / wide) + turned % wide;
    let answer = [
        0,
        h.given,
        0,
        turned,
        MOST / 2,
        MOST,
        0,
        0,
        a,
        a + 1,
        0,
        0,
        0,
    ];
    ("a grid with a quad turned over", h, answer, vec![])
}

/// Strips of every length up to 1,000, their triangles in an order that goes to and fro.
fn strips() -> Long {
    const LONGEST: u32 = 1000;
    let mut h = square();
    h.points.clear();
    let mut cells: Vec<[u32; 3]> = Vec::new();
    for length in 1..=LONGEST {
        let first = h.points.len() as u32 / 3;
        for k in 0..length + 2 {
            let (x, y) = (k as f64 / 256.0, (k % 2) as f64 / 256.0);
            h.points.extend([x, y + length as f64 / 128.0 - 4.0, 0.0]);
        }
        cells.extend((0..length).map(|k| [0, 1, 2].map(|i| first + k + i)));
    }
    let n = cells.len();
    let mixed: Vec<[u32; 3]> = (0..n).map(|i| cells[i * 7919 % n]).collect();
    h.given_points = h.points.clone();
    h.triangles = cells.as_flattened().to_vec();
    h.left = mixed.as_flattened().to_vec();
    (h.given, h.point_count) = (h.points.len() / 3, h.points.len() / 3);
    (h.count, h.left_count, h.quad_count) = (n, n, 0);
    let longest = LONGEST as usize;
    let answer = [1, h.given, 0, 0, 0, n, n, n, 0, 0, 0, longest, longest / 2];
    ("strips", h, answer, (1..=LONGEST).rev().collect())
}

fn lent(h: &Handed) -> Lent {
    let [components, work, parents] = h.needs();
    Lent {
        components: vec![7; components],
        work: vec![7; work],
        parents: vec![7; parents],
        answer: vec![7; NUMBERS],
    }
}

/// Whether a long list has its answer and leaves what it must.
fn is_answered((name, h, answer, sizes): Long) -> bool {
    let mut l = lent(&h);
    let number = call::port(&h, &mut l);
    let cleared = l.work.iter().chain(&l.parents).all(|&w| w == 0);
    let (first, rest) = l.components.split_at(sizes.len());
    let good = number == 0
        && l.answer == answer
        && cleared
        && first == sizes
        && rest.iter().all(|&w| w == 7);
    if !good {
        eprintln!(
            "longest {name}: {number}, {:?}, cleared {cleared}",
            l.answer
        );
    }
    good
}

/// Whether a list of one more than it may have is refused.
fn is_refused(list: usize) -> bool {
    let mut h = square();
    let numbers = [
        &mut h.given,
        &mut h.count,
        &mut h.point_count,
        &mut h.quad_count,
        &mut h.left_count,
        &mut h.joint_count,
    ];
    *numbers.into_iter().nth(list).expect("a list") = MOST + 1;
    let before = lent(&square());
    let mut after = before.clone();
    let number = call::port(&h, &mut after);
    if number != 1 || after != before {
        eprintln!("list {list} of one more than it may have: {number}");
    }
    number == 1 && after == before
}

/// Whether the longest lists have their answers, and longer ones are refused.
pub fn agree() -> bool {
    let long: [fn() -> Long; 6] = [
        most_points,
        most_joints,
        most_triangles,
        most_quads,
        grid,
        strips,
    ];
    let answered = long.into_iter().filter(|make| is_answered(make())).count();
    let refused = (0..6).filter(|&list| is_refused(list)).count();
    println!("{answered} of 6 longest lists are answered as they must be, {refused} of 6 longer ones refused");
    answered == 6 && refused == 6
}
