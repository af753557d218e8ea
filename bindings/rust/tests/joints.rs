//! Joints over the linked library: they stand in the finished mesh; lists that are refused.

use sedgepick::lent::{self, Call, Further, Memory};
use sedgepick::{run_front, run_front_with, Mesh, Options, Refusal, Stop, MOST_JOINTS};

/// A grid of so many squares a side, all cut the same way.
fn grid(side: u32) -> (Vec<[f64; 3]>, Vec<[u32; 3]>) {
    let nodes = (0..=side).flat_map(|j| (0..=side).map(move |i| (i, j)));
    let points = nodes.map(|(i, j)| [0.25 * f64::from(i), 0.25 * f64::from(j), 0.0]);
    let square = |k: u32| {
        let a = k / side * (side + 1) + k % side;
        let b = a + side + 1;
        [[a, a + 1, b + 1], [a, b + 1, b]]
    };
    (
        points.collect(),
        (0..side * side).flat_map(square).collect(),
    )
}

fn stands(mesh: &Mesh, joint: [u32; 2]) -> bool {
    let beside = |cell: &[u32]| {
        let next = |i: usize| cell[(i + 1) % cell.len()];
        let is = |a: u32, b: u32| [a, b] == joint || [b, a] == joint;
        (0..cell.len()).any(|i| is(cell[i], next(i)))
    };
    mesh.quads.iter().any(|q| beside(&q.nodes)) || mesh.triangles.iter().any(|t| beside(t))
}

fn with(joints: &[[u32; 2]], stop: Stop) -> Options<'_> {
    Options {
        size: 0.25,
        stop,
        joints,
        ..Options::default()
    }
}

#[test]
fn a_line_of_diagonals_stands() {
    let (points, triangles) = grid(12);
    let joints: Vec<[u32; 2]> = (0..12).map(|i| [14 * i, 14 * (i + 1)]).collect();
    for stop in [Stop::Exhaust, Stop::EvenComponents] {
        let plain = run_front(&points, &triangles, 0.25, stop).unwrap();
        assert!(joints.iter().any(|j| !stands(&plain, *j)));
        let mesh = run_front_with(&points, &triangles, &with(&joints, stop)).unwrap();
        assert!(joints.iter().all(|j| stands(&mesh, *j)));
        assert!(!mesh.quads.is_empty());
    }
}

#[test]
fn order_and_repeats_change_nothing() {
    let (points, triangles) = grid(8);
    let joints: Vec<[u32; 2]> = (0..8).map(|i| [10 * i, 10 * (i + 1)]).collect();
    let mesh = run_front_with(&points, &triangles, &with(&joints, Stop::Exhaust)).unwrap();
    let turned: Vec<[u32; 2]> = joints.iter().rev().map(|j| [j[1], j[0]]).collect();
    let many = turned.iter().cycle().take(MOST_JOINTS).copied();
    let many: Vec<[u32; 2]> = many.collect();
    for other in [&turned, &many] {
        let again = run_front_with(&points, &triangles, &with(other, Stop::Exhaust));
        assert_eq!(again.as_ref(), Ok(&mesh));
    }
    let none = run_front_with(&points, &triangles, &with(&[], Stop::Exhaust));
    assert_eq!(none, run_front(&points, &triangles, 0.25, Stop::Exhaust));
}

#[test]
fn refused_joints() {
    let (points, triangles) = grid(2);
    let refused = |joints: &[[u32; 2]]| {
        run_front_with(&points, &triangles, &with(joints, Stop::Exhaust)).err()
    };
    let bad = Some(Refusal::BadJoint);
    assert_eq!(refused(&[[0, 8], [8, 0]]), None);
    assert_eq!(refused(&[[0, 1]; 256]), None);
    assert_eq!(refused(&[[0, 1]; 257]), bad);
    for pair in [[0, 0], [8, 8], [0, 9], [9, 0], [u32::MAX, 1]] {
        assert_eq!(refused(&[pair]), bad);
        assert_eq!(refused(&[[0, 1], [1, 2], pair]), bad);
    }
}

/// 4 where the joints' slice is shorter than stated, whatever it holds; 7 comes before 13.
#[test]
fn lent_joints() {
    let refused = |x: f64, joints: &[u32], joint_count: usize| {
        let call = Call {
            given: 3,
            capacity: 3,
            count: 1,
            slots: 4,
            size: 1.0,
            stop: 0,
        };
        let memory = Memory {
            points: &mut [x, 0.0, 0.0, 1.0, 0.0, 0.0, 0.0, 1.0, 0.0],
            quads: &mut [7; 32],
            triangles: &mut [7; 12],
            components: &mut [7; 4],
            work: &mut [7; 64 * 4 + 8 * 3],
            float_work: &mut [7.0; 16],
            trace: &mut [],
        };
        let further = Further {
            joints,
            joint_count,
            ..Further::default()
        };
        lent::run_front_with(&[0, 1, 2], memory, call, further).err()
    };
    assert_eq!(refused(0.0, &[0, 1, 5], 1), None);
    assert_eq!(refused(0.0, &[5, 5], 0), None);
    for count in [2, 257, 1 << 32, 1 << 63, (1 << 63) + 1, usize::MAX] {
        assert_eq!(refused(0.0, &[0, 1, 5], count), Some(Refusal::TooShort));
    }
    assert_eq!(refused(0.0, &[0, 0], 1), Some(Refusal::BadJoint));
    assert_eq!(refused(9.0, &[0, 0], 1), Some(Refusal::FarPoint));
}
