//! Every small mesh by the linked library.

use sedgepick::{run_front, small_mesh, Refusal, Stop};

type List = Vec<[u32; 3]>;

/// The lists on so many points, up to the end of their order.
fn lists(points: u32) -> Vec<List> {
    (0..)
        .map_while(|place| small_mesh(points, place).unwrap())
        .collect()
}

#[test]
fn as_many_as_the_order_has() {
    assert_eq!([3, 4, 5].map(|points| lists(points).len()), [1, 14, 175]);
    for (points, count) in [(3, 1), (4, 14), (5, 175)] {
        for place in [count, count + 1, usize::MAX] {
            assert_eq!(small_mesh(points, place), Ok(None));
        }
    }
}

#[test]
fn ascending() {
    for points in 3..=5 {
        let lists = lists(points);
        let key = |list: &List| (list.len(), list.clone());
        assert!(lists.windows(2).all(|w| key(&w[0]) < key(&w[1])));
        for list in lists {
            assert!(list.windows(2).all(|w| w[0] < w[1]));
            assert!(list
                .iter()
                .all(|t| t[0] < t[1] && t[1] < t[2] && t[2] < points));
        }
    }
}

#[test]
fn other_numbers_of_points_are_refused_before_the_end() {
    for points in [0, 1, 2, 6, 7, u32::MAX] {
        for place in [0, 174, usize::MAX] {
            assert_eq!(small_mesh(points, place), Err(Refusal::OverLimit));
        }
    }
}

#[test]
fn each_is_accepted_by_the_mesher() {
    let corners = [
        [0., 0., 0.],
        [1., 0., 0.],
        [1., 1., 0.],
        [0., 1., 0.],
        [0.5, 0.25, 0.],
    ];
    for points in 3..=5 {
        for list in lists(points) {
            let mesh = run_front(&corners[..points as usize], &list, 1.0, Stop::Exhaust);
            assert!(mesh.is_ok());
        }
    }
}
