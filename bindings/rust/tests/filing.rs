//! The filing order over the linked library: which meshes are equal, which stand first, and every refusal.

mod shapes;

use std::cmp::Ordering;

use sedgepick::lent::{self, Lent};
use sedgepick::{filing_order, Filed, Refusal};
use shapes::{HALVES, SQUARE};

fn filed<'a>(points: &'a [[f64; 3]], triangles: &'a [[u32; 3]]) -> Filed<'a> {
    Filed::new(points, triangles).unwrap()
}

#[test]
fn equal_up_to_rotation_list_order_z_and_the_sign_of_zero() {
    let square = filed(&SQUARE, &HALVES);
    assert_eq!(square, filed(&SQUARE, &[[2, 3, 0], [2, 0, 1]]));
    let mut points = SQUARE;
    points[0] = [-0.0, -0.0, f64::NAN];
    points[2][2] = 7.0;
    assert_eq!(square, filed(&points, &HALVES));
    assert_eq!(filed(&[], &[]), filed(&[], &[]));
}

#[test]
fn repeats_and_turned_triangles_differ() {
    assert_ne!(filed(&SQUARE, &[[0, 1, 2]]), filed(&SQUARE, &[[0, 2, 1]]));
    let two = [[0, 1, 2], [0, 1, 2], [0, 2, 3]];
    let other = [[0, 1, 2], [0, 2, 3], [2, 3, 0]];
    assert_ne!(filed(&SQUARE, &two), filed(&SQUARE, &other));
    assert!(filed(&SQUARE, &two) < filed(&SQUARE, &other));
}

#[test]
fn counts_and_points_come_first() {
    let mut high = SQUARE;
    high[3][1] = 2.0;
    let meshes = [
        filed(&SQUARE[..3], &[[0, 1, 2], [0, 1, 2]]),
        filed(&SQUARE, &[[1, 2, 3]]),
        filed(&SQUARE, &HALVES),
        filed(&SQUARE, &[[0, 1, 3], [1, 2, 3]]),
        filed(&high, &[]),
    ];
    let mut sorted = [4, 2, 0, 3, 1].map(|i: usize| meshes[i]);
    sorted.sort();
    assert_eq!(sorted, meshes);
    for (i, a) in meshes.iter().enumerate() {
        for (j, b) in meshes.iter().enumerate() {
            assert_eq!(a.cmp(b), i.cmp(&j));
        }
    }
}

#[test]
fn refused() {
    let refused =
        |points: &[[f64; 3]], triangles: &[[u32; 3]]| Filed::new(points, triangles).unwrap_err();
    assert_eq!(refused(&SQUARE, &vec![[0, 1, 2]; 4097]), Refusal::OverLimit);
    assert_eq!(refused(&vec![SQUARE[0]; 4097], &[]), Refusal::OverLimit);
    assert_eq!(refused(&SQUARE, &[[0, 1, 4]]), Refusal::UnknownNode);
    assert_eq!(refused(&SQUARE, &[[0, 1, 0]]), Refusal::RepeatedNode);
    assert_eq!(refused(&[[0.0, 8.5, 0.0]], &[]), Refusal::FarPoint);
    let (far, twice) = ([[f64::NAN, 0.0, 0.0]], [[0, 1, 1]]);
    assert_eq!(
        filing_order((&far, &[]), (&SQUARE, &twice)),
        Err(Refusal::FarPoint)
    );
    assert_eq!(
        filing_order((&SQUARE, &twice), (&far, &[])),
        Err(Refusal::RepeatedNode)
    );
}

/// The square against itself, each slice so much shorter or longer.
fn lend(lengths: [usize; 3]) -> (Result<Ordering, Refusal>, Vec<u32>, Vec<u32>) {
    let (mut v, mut w) = (vec![7; lengths[2]], vec![9; 11]);
    let points = [0.5; 30];
    let triangles = [0, 1, 2, 0, 2, 3, 9, 9, 9];
    let first = Lent {
        points: &points[..lengths[0]],
        triangles: &triangles[..lengths[1]],
        work: &mut v,
        given: 4,
        count: 2,
    };
    let second = Lent {
        points: &points,
        triangles: &triangles,
        work: &mut w,
        given: 4,
        count: 2,
    };
    (lent::filing_order(first, second), v, w)
}

#[test]
fn lent_memory() {
    assert_eq!(
        lend([12, 6, 8]),
        (Ok(Ordering::Equal), vec![0; 8], vec![0; 11])
    );
    assert_eq!(
        lend([13, 7, 20]),
        (Ok(Ordering::Equal), vec![0; 20], vec![0; 11])
    );
    for short in [[11, 6, 8], [12, 5, 8], [12, 6, 7]] {
        assert_eq!(
            lend(short),
            (Err(Refusal::TooShort), vec![7; short[2]], vec![9; 11])
        );
    }
}
