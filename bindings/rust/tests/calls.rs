//! Calls over the linked library: the proved table, every refusal, and memory that grows.

mod shapes;

use sedgepick::lent::{self, Call, Memory};
use sedgepick::{run_front, Mesh, Quad, Refusal, Stop, MOST_CAPACITY, MOST_SLOTS};
use shapes::{HALVES, SQUARE};

const CORNER: [[f64; 3]; 3] = [[0.0, 0.0, 0.0], [1.0, 0.0, 0.0], [0.0, 1.0, 0.0]];

#[test]
fn no_triangles() {
    let mesh = run_front(&[], &[], 0.0, Stop::Exhaust).unwrap();
    assert_eq!((mesh.counts.front_empty, mesh.counts.attempts), (1, 0));
}

#[test]
fn the_square_under_both_rules() {
    for stop in [Stop::Exhaust, Stop::EvenComponents] {
        let mesh = run_front(&SQUARE, &HALVES, 1.0, stop).unwrap();
        let quad = Quad {
            nodes: [0, 1, 2, 3],
            edge: [0, 1],
            round: 1,
            replaced: 2,
        };
        assert_eq!(mesh.quads, [quad]);
        assert_eq!(mesh.points, SQUARE);
        assert_eq!(
            (
                mesh.counts.front_empty,
                mesh.counts.attempts,
                mesh.counts.trials,
                mesh.triangles.len()
            ),
            (1, 1, 1, 0)
        );
    }
}

#[test]
fn one_triangle_stays() {
    for (size, invalid, placement) in [(1.0, 3, 0), (0.0, 3, 0), (8.0, 0, 3)] {
        let mesh = run_front(&CORNER, &[[0, 1, 2]], size, Stop::Exhaust).unwrap();
        assert_eq!(
            (mesh.counts.invalid_quad, mesh.counts.placement),
            (invalid, placement)
        );
        assert_eq!(
            (mesh.triangles, mesh.components),
            (vec![[0, 1, 2]], vec![1])
        );
    }
    let twice = run_front(&CORNER, &[[0, 1, 2]; 2], 1.0, Stop::Exhaust).unwrap();
    assert_eq!((twice.counts.front_empty, twice.components), (1, vec![2]));
}

#[test]
fn refused_before_a_run() {
    let refused = |points: &[[f64; 3]], triangles: &[[u32; 3]], size| {
        run_front(points, triangles, size, Stop::Exhaust).unwrap_err()
    };
    assert_eq!(
        refused(&CORNER, &vec![[0, 1, 2]; 4097], 1.0),
        Refusal::OverLimit
    );
    assert_eq!(
        refused(&vec![CORNER[0]; 4097], &[], 1.0),
        Refusal::OverLimit
    );
    assert_eq!(
        refused(&vec![CORNER[0]; 100_000], &[], 1.0),
        Refusal::OverLimit
    );
    for size in [1.0 / 128.0, -1.0, 8.5, f64::NAN, f64::INFINITY] {
        assert_eq!(refused(&CORNER, &[[0, 1, 2]], size), Refusal::BadSize);
    }
    assert_eq!(refused(&CORNER, &[[0, 1, 3]], 1.0), Refusal::UnknownNode);
    assert_eq!(refused(&CORNER, &[[0, 1, 1]], 1.0), Refusal::RepeatedNode);
    for x in [8.5, -9.0, f64::NAN, f64::NEG_INFINITY] {
        assert_eq!(
            refused(&[[x, 0.0, 0.0], CORNER[1], CORNER[2]], &[[0, 1, 2]], 1.0),
            Refusal::FarPoint
        );
    }
    let high = [[0.0, 0.0, f64::NAN], CORNER[1], CORNER[2]];
    assert!(run_front(&high, &[[0, 1, 2]], 1.0, Stop::Exhaust).is_ok());
}

/// The square with lent memory of so many points and slots, every slice so much shorter.
fn lend(capacity: usize, slots: usize, stop: u32, less: usize) -> Result<lent::Answer, Refusal> {
    lend_quads(capacity, slots, stop, less, less)
}

/// The same with another length of the quads' slice.
fn lend_quads(
    capacity: usize,
    slots: usize,
    stop: u32,
    less: usize,
    less_quads: usize,
) -> Result<lent::Answer, Refusal> {
    let call = Call {
        given: 4,
        capacity,
        count: 2,
        slots,
        size: 1.0,
        stop,
    };
    let mut points = vec![f64::NAN; 3 * capacity.max(4)];
    points[..12].copy_from_slice(SQUARE.as_flattened());
    let short = |n: usize| vec![7; n - less];
    let memory = Memory {
        points: &mut points,
        quads: &mut vec![7; call.quads_len() - less_quads],
        triangles: &mut short(3 * slots),
        components: &mut short(slots),
        work: &mut short(call.work_len()),
        float_work: &mut vec![-1.0; call.float_work_len()],
        trace: &mut [],
    };
    lent::run_front(HALVES.as_flattened(), memory, call)
}

#[test]
fn lent_memory() {
    assert_eq!(lend(4, 3, 0, 0).unwrap().quads, 1);
    assert_eq!(lend(4, 2, 0, 0), Err(Refusal::NoSlots));
    assert_eq!(lend(4, 3, 2, 0), Err(Refusal::BadStop));
    assert_eq!(lend(4, 3, 0, 1), Err(Refusal::TooShort));
    assert_eq!(lend_quads(4, 3, 0, 0, 1), Err(Refusal::TooShort));
    assert_eq!(lend_quads(4, 3, 0, 0, 12), Err(Refusal::TooShort));
    assert_eq!(lend(3, 3, 0, 0), Err(Refusal::TooShort));
    assert_eq!(lend(4, 1, 0, 0), Err(Refusal::TooShort));
    assert_eq!(lend(4, MOST_SLOTS + 1, 2, 0), Err(Refusal::OverLimit));
    let huge = Call {
        given: usize::MAX,
        capacity: usize::MAX,
        count: usize::MAX,
        slots: usize::MAX,
        size: 1.0,
        stop: 0,
    };
    let nothing = Memory {
        points: &mut [],
        quads: &mut [],
        triangles: &mut [],
        components: &mut [],
        work: &mut [],
        float_work: &mut [],
        trace: &mut [],
    };
    assert_eq!(lent::run_front(&[], nothing, huge), Err(Refusal::OverLimit));
}

/// Triangles with nodes of their own, over each other, at a small size: the run adds more points and slots than are lent at first.
#[test]
fn memory_grows() {
    let corners = |k: u32| {
        let (x, y) = (0.11 * f64::from(k), 0.07 * f64::from(k % 7));
        [
            [x, y, 0.0],
            [x + 1.6, y + 0.2, 0.0],
            [x + 0.4, y + 1.7, 0.0],
        ]
    };
    let points: Vec<[f64; 3]> = (0..40).flat_map(corners).collect();
    let triangles: Vec<[u32; 3]> = (0..40).map(|k| [3 * k, 3 * k + 1, 3 * k + 2]).collect();
    let mesh = run_front(&points, &triangles, 0.2, Stop::Exhaust).unwrap();
    let call = Call {
        given: 120,
        capacity: MOST_CAPACITY,
        count: 40,
        slots: MOST_SLOTS,
        size: 0.2,
        stop: 0,
    };
    let mut most = vec![0.0; 3 * call.capacity];
    most[..360].copy_from_slice(points.as_flattened());
    let mut records = vec![7; call.quads_len()];
    let memory = Memory {
        points: &mut most,
        quads: &mut records,
        triangles: &mut vec![0; 3 * call.slots],
        components: &mut vec![0; call.slots],
        work: &mut vec![0; call.work_len()],
        float_work: &mut vec![0.0; call.float_work_len()],
        trace: &mut [],
    };
    let answer = lent::run_front(triangles.as_flattened(), memory, call).unwrap();
    assert!(answer.points > 120 + 30 + 32, "{} points", answer.points);
    assert!(
        40 + 2 * answer.counts.mismatch_insertions + answer.quads > 2 * 40 + 64,
        "{answer:?}"
    );
    assert_eq!(
        (answer.counts, answer.quads),
        (mesh.counts, mesh.quads.len())
    );
    assert_eq!(&most[..3 * answer.points], mesh.points.as_flattened());
    let quads: Vec<Quad> = lent::quads(&records, answer.quads).collect();
    assert_eq!(quads, mesh.quads);
    assert!(records[lent::QUAD_WORDS * answer.quads..]
        .iter()
        .all(|&n| n == 7));
    births(&triangles, &mesh);
    trials(8, &mesh);
}

/// With so many pairs at most.
fn trials(pairs: usize, mesh: &Mesh) {
    let c = &mesh.counts;
    let with_pairs = mesh.quads.len() + c.recovery + c.region + c.odd_region;
    assert!(with_pairs <= c.trials && c.trials <= pairs * with_pairs);
    assert!(c.trials <= pairs * c.attempts);
}

/// Edges and rounds of the quads, and how many triangles they replaced.
fn births(triangles: &[[u32; 3]], mesh: &Mesh) {
    for (k, quad) in mesh.quads.iter().enumerate() {
        let [a, b, ..] = quad.nodes;
        assert_eq!(quad.edge, [a.min(b), a.max(b)]);
        assert_eq!(quad.round as usize, k + 1);
        assert!(quad.replaced > 0);
    }
    let replaced: usize = mesh.quads.iter().map(|q| q.replaced as usize).sum();
    assert_eq!(
        mesh.triangles.len() + replaced,
        triangles.len() + 2 * mesh.counts.mismatch_insertions
    );
}

#[test]
fn refusals_have_numbers_and_words() {
    for number in (1..=9).chain(11..=16) {
        let refusal = Refusal::of_number(number).unwrap();
        assert_eq!(refusal.number() as usize, number);
        assert!(refusal
            .to_string()
            .starts_with(&format!("refused with {number}: ")));
    }
    for number in [0, 10, 17, 256 + 1, usize::MAX] {
        assert_eq!(Refusal::of_number(number), None);
    }
}
