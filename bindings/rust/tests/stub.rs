//! A library that returns numbers which these bindings do not know. `tools/test` links one whose functions all return 17; with the library itself these are passed over.

use sedgepick::{
    accept, filing_order, preview, replay, run_front, sheet, small_mesh, Job, Judged, Options,
    Refusal, Stop,
};

const POINTS: [[f64; 3]; 4] = [
    [0.0, 0.0, 0.0],
    [1.0, 0.0, 0.0],
    [1.0, 1.0, 0.0],
    [0.0, 1.0, 0.0],
];
const TRIANGLES: [[u32; 3]; 2] = [[0, 1, 2], [0, 2, 3]];
const UNKNOWN: Refusal = Refusal::Unknown(17);

#[test]
#[ignore = "needs a stub of the library"]
fn an_unknown_number_is_an_error() {
    let options = Options {
        size: 1.0,
        ..Default::default()
    };
    assert_eq!(
        run_front(&POINTS, &TRIANGLES, 1.0, Stop::Exhaust).unwrap_err(),
        UNKNOWN
    );
    assert_eq!(
        preview(&POINTS, &TRIANGLES, [0, 1], &options).unwrap_err(),
        UNKNOWN
    );
    assert_eq!(replay(&POINTS, &TRIANGLES, &[]).unwrap_err(), UNKNOWN);
    assert_eq!(sheet(&POINTS, &[[0, 1, 2, 3]]).unwrap_err(), UNKNOWN);
    let judged = Judged {
        given_points: &POINTS,
        given_triangles: &TRIANGLES,
        points: &POINTS,
        triangles: &TRIANGLES,
        ..Default::default()
    };
    assert_eq!(accept(&judged).unwrap_err(), UNKNOWN);
    assert_eq!(small_mesh(4, 0).unwrap_err(), UNKNOWN);
    assert_eq!(
        filing_order((&POINTS, &TRIANGLES), (&POINTS, &TRIANGLES)).unwrap_err(),
        UNKNOWN
    );
    assert_eq!(
        Job::new(1, 10)
            .unwrap()
            .run(&POINTS, &TRIANGLES, &options)
            .mesh
            .unwrap_err(),
        UNKNOWN
    );
    assert_eq!(UNKNOWN.number(), 17);
    assert!(UNKNOWN
        .to_string()
        .contains("refused with 17: a number that is not known"));
}
