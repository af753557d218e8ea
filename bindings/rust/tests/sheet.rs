//! The quality sheet: on quads whose numbers are known, on what a run hands back, and in memory that is lent.

use sedgepick::{
    put_sheet, run_front, run_front_with, sheet, Options, Quality, Refusal, Stop, Worst,
    MOST_CAPACITY, MOST_SLOTS, RECORD, SHEET_NUMBERS, STEPS,
};

/// A square, and a parallelogram of half its height whose corners have the sine 0.5 / 0.5^0.5.
const POINTS: [[f64; 3]; 6] = [
    [0.0, 0.0, 0.0],
    [1.0, 0.0, 0.0],
    [1.0, 1.0, f64::NAN],
    [0.0, 1.0, 0.0],
    [1.5, 0.5, 0.0],
    [0.5, 0.5, 0.0],
];
const SQUARE: [u32; 4] = [0, 1, 2, 3];
const LEANING: [u32; 4] = [0, 1, 4, 5];
const TURNED: [u32; 4] = [3, 2, 1, 0];

#[test]
fn known_quads() {
    let s = sheet(&POINTS, &[SQUARE, TURNED, LEANING, LEANING]).unwrap();
    let numbers: Vec<[f64; 2]> = s.metrics.iter().map(|m| [m.jacobian, m.cosine]).collect();
    let half = 0.5f64.sqrt();
    assert_eq!(numbers[..2], [[1.0, 0.0], [0.0, 0.0]]);
    assert!((numbers[2][0] - half).abs() < 1e-15 && (numbers[2][1] - half).abs() < 1e-15);
    assert_eq!(numbers[2], numbers[3]);
    let mut steps = [0; STEPS];
    (steps[9], steps[7]) = (1, 2);
    assert_eq!((s.steps, s.without_metrics), (steps, 1));
    let worst = |value| Some(Worst { quad: 2, value });
    assert_eq!(s.worst_jacobian, worst(numbers[2][0]));
    assert_eq!(s.worst_cosine, worst(numbers[2][1]));
}

#[test]
fn no_worst_without_metrics() {
    for quads in [&[][..], &[TURNED], &[TURNED, [0, 0, 1, 2]]] {
        let s = sheet(&POINTS, quads).unwrap();
        assert_eq!(s.without_metrics, quads.len());
        assert_eq!((s.worst_jacobian, s.worst_cosine), (None, None));
    }
}

#[test]
fn refused() {
    assert_eq!(sheet(&POINTS, &[[0, 1, 2, 6]]), Err(Refusal::UnknownNode));
    let far = [[0.0, 8.5, 0.0]];
    assert_eq!(sheet(&far, &[]), Err(Refusal::FarPoint));
    assert_eq!(sheet(&far, &[[0, 0, 0, 1]]), Err(Refusal::UnknownNode));
    let many = vec![[0, 1, 2, 6]; MOST_SLOTS + 1];
    assert_eq!(sheet(&POINTS, &many), Err(Refusal::OverLimit));
    assert!(sheet(&POINTS, &vec![SQUARE; MOST_SLOTS]).is_ok());
    assert_eq!(
        sheet(&vec![far[0]; MOST_CAPACITY + 1], &[]),
        Err(Refusal::OverLimit)
    );
}

#[test]
fn what_a_run_hands_back_passes_its_set() {
    let side = 12;
    let place = |i: u32| 0.5 * i as f64 + 0.1 * (7.0 * i as f64).sin();
    let points: Vec<[f64; 3]> = (0..side * side)
        .map(|i| [place(i % side), place(i / side), 0.0])
        .collect();
    let mut triangles = Vec::new();
    for a in (0..side * (side - 1)).filter(|a| a % side + 1 < side) {
        triangles.push([a, a + 1, a + side + 1]);
        triangles.push([a, a + side + 1, a + side]);
    }
    let quality = Quality::builder().least_jacobian(0.8).build().unwrap();
    let strict = Options {
        quality,
        ..Options::default()
    };
    let meshes = [
        (run_front(&points, &triangles, 0.4, Stop::Exhaust), 0.3),
        (run_front_with(&points, &triangles, &strict), 0.8),
    ];
    for (mesh, least) in meshes {
        let mesh = mesh.unwrap();
        let s = mesh.sheet().unwrap();
        assert!(mesh.quads.len() > 20);
        assert_eq!(s.steps.iter().sum::<usize>(), mesh.quads.len());
        assert_eq!(s.without_metrics, 0);
        assert!(s.worst_jacobian.unwrap().value >= least);
        assert!(s.worst_cosine.unwrap().value <= 0.90630778703665);
    }
}

/// The square and the turned one in slices, each shorter by so many; births name no point.
fn lend(less: [usize; 4]) -> (Result<(), Refusal>, Vec<f64>, Vec<usize>) {
    let quads: Vec<u32> = [SQUARE, TURNED]
        .iter()
        .flat_map(|q| q.iter().copied().chain([u32::MAX; RECORD - 4]))
        .collect();
    let points = POINTS.as_flattened();
    let mut out = vec![-1.0; 5 - less[2]];
    let mut answer = vec![77; SHEET_NUMBERS + 1 - less[3]];
    let given = put_sheet(
        &points[..points.len() - less[0]],
        &quads[..quads.len() - less[1]],
        &mut out,
        POINTS.len(),
        2,
        &mut answer,
    );
    (given, out, answer)
}

#[test]
fn lent_memory() {
    let (given, out, answer) = lend([0; 4]);
    assert_eq!(given, Ok(()));
    assert_eq!(out, [1.0, 0.0, 0.0, 0.0, -1.0]);
    assert_eq!(answer, [0, 0, 0, 0, 0, 0, 0, 0, 0, 1, 1, 0, 0, 77]);
    for less in [[1, 0, 0, 0], [0, 1, 0, 0], [0, 0, 2, 0], [0, 0, 0, 2]] {
        let (given, out, answer) = lend(less);
        assert_eq!(given, Err(Refusal::TooShort));
        assert!(out.iter().all(|x| *x == -1.0) && answer.iter().all(|n| *n == 77));
    }
}
