//! Answers worked out by hand.

mod refusals;

use super::*;

/// Places of the answer.
const ACCEPTED: usize = 0;
const MOVED: usize = 1;
const ADDED: usize = 2;
const FOLDED: usize = 3;
const SHARP: usize = 4;
const GIVEN_FLAT: usize = 5;
const LEFT_FLAT: usize = 6;
const THIN: usize = 7;
const UNEVEN: [usize; 2] = [8, 9];
const LOST: usize = 10;
const GROUPS: [usize; 2] = [11, 12];

const GARBAGE: u32 = 77;

/// What was handed in, list by list.
fn handed(
    given: &[[f64; 2]],
    triangles: &[[u32; 3]],
    points: &[[f64; 2]],
    quads: &[[u32; 4]],
    left: &[[u32; 3]],
) -> Handed {
    let flat =
        |list: &[[f64; 2]]| -> Vec<f64> { list.iter().flat_map(|p| [p[0], p[1], 0.5]).collect() };
    Handed {
        given_points: flat(given),
        triangles: triangles.as_flattened().to_vec(),
        points: flat(points),
        quads: quads.as_flattened().to_vec(),
        left: left.as_flattened().to_vec(),
        joints: Vec::new(),
        given: given.len(),
        count: triangles.len(),
        point_count: points.len(),
        quad_count: quads.len(),
        left_count: left.len(),
        joint_count: 0,
        cosine: 0.90630778703665,
        thin: 1.0,
    }
}

const UNIT: [[f64; 2]; 4] = [[0., 0.], [1., 0.], [1., 1.], [0., 1.]];
const HALVES: [[u32; 3]; 2] = [[0, 1, 2], [0, 2, 3]];

/// The unit square in two triangles, judged as one quad.
fn square() -> Handed {
    handed(&UNIT, &HALVES, &UNIT, &[[0, 1, 2, 3]], &[])
}

/// Judged as its two triangles.
fn halves() -> Handed {
    handed(&UNIT, &HALVES, &UNIT, &[], &HALVES)
}

fn lent(h: &Handed) -> Lent {
    let [components, work, parents] = h.needs();
    Lent {
        components: vec![GARBAGE; components + 1],
        work: vec![GARBAGE; work + 1],
        parents: vec![GARBAGE; parents + 1],
        answer: vec![GARBAGE as usize; NUMBERS + 1],
    }
}

/// The numbers of an answer and the sizes; the rest of the slices is tested.
fn answered(h: &Handed) -> ([usize; NUMBERS], Vec<u32>) {
    let mut lent = lent(h);
    assert_eq!(h.accept(&mut lent), 0);
    assert!(lent.work.iter().chain(&lent.parents).all(|&w| w == 0));
    assert_eq!(lent.answer[NUMBERS], GARBAGE as usize);
    let numbers: [usize; NUMBERS] = lent.answer[..NUMBERS].try_into().unwrap();
    let (sizes, rest) = lent.components.split_at(numbers[GROUPS[0]]);
    assert!(rest.iter().all(|&w| w == GARBAGE));
    (numbers, sizes.to_vec())
}

fn refused(h: &Handed) -> u32 {
    let before = lent(h);
    let mut after = before.clone();
    let number = h.accept(&mut after);
    assert_eq!(before, after, "a refusal touches nothing");
    number
}

#[test]
fn a_square() {
    let none = [1, 4, 0, 1, 1, 2, 0, 0, 0, 0, 0, 0, 0];
    assert_eq!(answered(&square()), (none, vec![]));
    let own = [1, 4, 0, 0, 0, 2, 2, 2, 0, 0, 0, 1, 0];
    assert_eq!(answered(&halves()), (own, vec![2]));
    let empty = handed(&[], &[], &[], &[], &[]);
    assert_eq!(
        answered(&empty),
        ([1, 0, 0, 0, 0, 0, 0, 0, 0, 0, 0, 0, 0], vec![])
    );
}

#[test]
fn any_node_first_and_triangles_either_way() {
    let mut h = square();
    h.quads = vec![2, 3, 0, 1];
    h.triangles = vec![2, 1, 0, 3, 0, 2];
    assert_eq!(answered(&h).0[ACCEPTED], 1);
    let mut h = halves();
    h.left = vec![2, 1, 0, 3, 2, 0];
    assert_eq!(answered(&h).0[ACCEPTED], 1);
    h.left = vec![0, 1, 3, 1, 2, 3];
    assert_eq!(answered(&h).0[ACCEPTED], 1, "the other diagonal");
}

#[test]
fn points() {
    let mut h = square();
    h.points[5] = 0.25;
    assert_eq!(answered(&h).0[..3], [0, 1, 0], "z of point 1");
    let mut h = square();
    h.points[1] = -0.0;
    assert_eq!(answered(&h).0[..3], [0, 0, 0], "the other zero");
    let mut h = square();
    h.given_points[11] = f64::NAN;
    assert_eq!(answered(&h).0[MOVED], 3);
    h.points[11] = f64::NAN;
    assert_eq!(answered(&h).0[ACCEPTED], 1, "one NaN twice");
    h.points[11] = f64::from_bits(f64::NAN.to_bits() + 1);
    assert_eq!(answered(&h).0[MOVED], 4, "every NaN is one");
    let mut h = square();
    h.points.extend([9.0, 0.0, 0.0]);
    assert_eq!(answered(&h).0[ADDED], 0, "not stated");
    h.point_count = 5;
    assert_eq!(refused(&h), 7);
    h.points[12] = 8.0;
    assert_eq!(answered(&h).0[..3], [1, 4, 1]);
    let mut h = handed(&UNIT, &HALVES, &UNIT[..3], &[], &[[0, 1, 2]]);
    let (numbers, sizes) = answered(&h);
    assert_eq!(numbers, [0, 3, 0, 0, 0, 2, 1, 1, 0, 2, 0, 1, 1]);
    assert_eq!(sizes, [1]);
    h.points[0] = 1e-300;
    assert_eq!(answered(&h).0[MOVED], 0);
}

#[test]
fn folded_quads() {
    let mut h = square();
    h.quads = vec![0, 3, 2, 1];
    let (numbers, _) = answered(&h);
    assert_eq!(numbers, [0, 4, 0, 0, 1, 2, 0, 0, 0, 1, 0, 0, 0]);
    // The last corner is on the line between its neighbours, then a unit inside and outside of it.
    for (y, folded) in [(0.5, 0), (0.5f64.next_down(), 0), (0.5f64.next_up(), 1)] {
        let points = [[0., 0.], [1., 0.], [1., 1.], [0.5, y]];
        let h = handed(&points, &HALVES, &points, &[[0, 1, 2, 3]], &[]);
        let numbers = answered(&h).0;
        assert_eq!(numbers[FOLDED], folded, "{y}");
        assert_eq!(numbers[GIVEN_FLAT], if y == 0.5 { 1 } else { 2 });
        assert_eq!(numbers[UNEVEN[1]], if y <= 0.5 { 2 } else { 0 });
    }
}

/// The subnormals 1, 2 and 3 as coordinates: every float product of their differences is 0.
#[test]
fn the_least_square() {
    let u = |n: u64| f64::from_bits(n);
    let points = [[u(1), u(1)], [u(2), u(1)], [u(2), u(2)], [u(1), u(2)]];
    let mut h = handed(&points, &HALVES, &points, &[[0, 1, 2, 3]], &[]);
    assert_eq!(answered(&h).0[ACCEPTED], 1);
    h.points[6] = u(3);
    assert_eq!(answered(&h).0[..5], [0, 2, 0, 1, 1]);
}

/// Vectors of 3, 4 and 5: cosines of 0.6 and -0.6 in the quad, of 0.6 and 0.8 in the triangle.
#[test]
fn cosines() {
    let points = [[0., 0.], [5., 0.], [8., 4.], [3., 4.]];
    let mut h = handed(&points, &HALVES, &points, &[[0, 1, 2, 3]], &[]);
    let t = 0.6 - 1e-9;
    for (limit, sharp) in [(0.6, 1), (t + 1e-15, 1), (t - 1e-15, 0), (0.5, 0)] {
        h.cosine = limit;
        assert_eq!(answered(&h).0[SHARP], sharp, "{limit}");
    }
    let right = [[0., 0.], [3., 0.], [3., 4.]];
    let mut h = handed(&right, &[[0, 1, 2]], &right, &[], &[[2, 1, 0]]);
    let t = 0.8 - 1e-9;
    for (limit, thin) in [(1.0, 1), (0.8, 1), (t + 1e-15, 1), (t - 1e-15, 0), (0.6, 0)] {
        h.thin = limit;
        let numbers = answered(&h).0;
        assert_eq!((numbers[THIN], numbers[ACCEPTED]), (thin, thin), "{limit}");
    }
}

/// A flat triangle has cosines of 1 and -1, one of equal points none.
#[test]
fn flat_triangles() {
    let points = [[0., 0.], [1., 1.], [3., 3.], [1., 0.], [1., 1.]];
    let mut h = handed(&points, &[[0, 1, 2]], &points, &[], &[[0, 2, 1]]);
    let numbers = answered(&h).0;
    assert_eq!(numbers, [0, 5, 0, 0, 0, 0, 0, 1, 0, 1, 0, 1, 1]);
    h.thin = 0.999_999_999;
    assert_eq!(answered(&h).0[THIN], 1, "1 less 1e-9, and 1e-9");
    h.thin = h.thin.next_down();
    assert_eq!(answered(&h).0[THIN], 0);
    h.thin = 0.5;
    let mut h = handed(
        &points,
        &[[0, 3, 1]],
        &points,
        &[],
        &[[0, 3, 4], [1, 4, 0], [3, 1, 4]],
    );
    h.thin = 0.75;
    let numbers = answered(&h).0;
    assert_eq!(
        (numbers[LEFT_FLAT], numbers[THIN]),
        (1, 1),
        "0 to 1 and 0 to 4 have a cosine of 1"
    );
    h.left = vec![0, 3, 4, 3, 1, 4];
    h.left_count = 2;
    let numbers = answered(&h).0;
    assert_eq!((numbers[LEFT_FLAT], numbers[THIN]), (1, 1));
}

#[test]
fn sides_that_do_not_balance() {
    let mut h = halves();
    h.left = vec![0, 1, 2];
    h.left_count = 1;
    assert_eq!(answered(&h).0[8..10], [0, 2], "half is missing");
    h.left = vec![0, 1, 2, 0, 2, 3, 3, 2, 0];
    h.left_count = 3;
    assert_eq!(answered(&h).0[8..10], [0, 2], "half is there twice");
    h.triangles = vec![3, 0, 2, 0, 1, 2, 2, 3, 0];
    h.count = 3;
    assert_eq!(answered(&h).0[ACCEPTED], 1, "and was given twice");
    let points = [[0., 0.], [1., 0.], [1., 1.], [0., 1.], [1., 0.5]];
    let h = handed(&UNIT, &HALVES, &points, &[[0, 1, 4, 3]], &[[4, 2, 3]]);
    assert_eq!(answered(&h).0[8..10], [1, 2], "a node on the boundary");
}

#[test]
fn joints() {
    let mut h = square();
    h.joints = vec![1, 0, 3, 1, 2, 0];
    for (count, lost) in [(0, 0), (1, 1), (2, 2), (3, 2)] {
        h.joint_count = count;
        assert_eq!(answered(&h).0[LOST], lost, "{count} joints");
    }
    h.quad_count = 0;
    h.left = HALVES.as_flattened().to_vec();
    h.left_count = 2;
    assert_eq!(answered(&h).0[LOST], 3);
}

#[test]
fn groups() {
    let mut points: Vec<[f64; 2]> = (0..12).map(|i| [(i % 4) as f64, (i / 4) as f64]).collect();
    points[5] = [1.25, 1.0];
    let left = [
        [0, 1, 4],
        [1, 5, 4],
        [5, 6, 9],
        [2, 3, 6],
        [3, 7, 6],
        [6, 7, 11],
        [8, 4, 9],
    ];
    let mut h = handed(&points, &left, &points, &[], &left);
    let (numbers, sizes) = answered(&h);
    assert_eq!((numbers[ACCEPTED], numbers[11], numbers[12]), (1, 4, 3));
    assert_eq!(sizes, [3, 2, 1, 1], "one node in common does not join");
    h.left_count = 2;
    assert_eq!(answered(&h).1, [2]);
}
