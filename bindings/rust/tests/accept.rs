//! The verdict on a finished mesh over the linked library: accepted meshes, an offender of each clause, the refusals.

use sedgepick::{
    accept, run_front, run_front_with, Judged, Options, Refusal, Stop, Verdict, MOST_JUDGED,
};

/// Two squares side by side, each cut in two, and a point inside the first.
const POINTS: [[f64; 3]; 7] = [
    [0.0, 0.0, 0.0],
    [1.0, 0.0, 0.0],
    [2.0, 0.0, 0.0],
    [0.0, 1.0, 0.0],
    [1.0, 1.0, 0.0],
    [2.0, 1.0, 0.0],
    [0.5, 0.25, 0.0],
];
const GIVEN: [[u32; 3]; 4] = [[0, 1, 4], [0, 4, 3], [1, 2, 5], [1, 5, 4]];
const LEFT: [[u32; 3]; 2] = [[1, 2, 5], [1, 5, 4]];
const QUADS: [[u32; 4]; 1] = [[0, 1, 4, 3]];

/// One quad and two leftover triangles, which are accepted.
fn judged() -> Judged<'static> {
    Judged {
        given_points: &POINTS,
        given_triangles: &GIVEN,
        points: &POINTS,
        quads: &QUADS,
        triangles: &LEFT,
        joints: &[[4, 1], [2, 1]],
        ..Judged::default()
    }
}

fn found(judged: Judged) -> Verdict {
    accept(&judged).unwrap()
}

#[test]
fn accepted() {
    let verdict = found(judged());
    assert!(verdict.accepted());
    assert_eq!((verdict.added, verdict.odd), (0, 0));
    assert_eq!(verdict.sizes, [2]);
    let offenders = [
        verdict.moved,
        verdict.folded,
        verdict.sharp,
        verdict.given_flat,
        verdict.left_flat,
        verdict.thin,
        verdict.lost,
    ];
    assert_eq!((offenders, verdict.uneven), ([None; 7], None));
    let text = verdict.to_string();
    assert!(text.starts_with("ACCEPTED; 0 points added"), "{text}");
    assert_eq!(
        (text.matches(" holds").count(), text.lines().count()),
        (8, 10)
    );
    assert!(found(Judged::default()).accepted());
}

#[test]
fn triangles_either_way() {
    let turned: Vec<[u32; 3]> = GIVEN.iter().map(|t| [t[0], t[2], t[1]]).collect();
    let verdict = found(Judged {
        given_triangles: &turned,
        triangles: &[[1, 5, 2], [1, 5, 4]],
        ..judged()
    });
    assert!(verdict.accepted(), "{verdict}");
}

#[test]
fn a_run_of_ours() {
    let side = 12;
    let place = |i: u32| 0.5 * i as f64 + 0.1 * (7.0 * i as f64).sin();
    let points: Vec<[f64; 3]> = (0..side * side)
        .map(|i| [place(i % side), place(i / side), 0.0])
        .collect();
    let mut triangles = Vec::new();
    for a in (0..side * (side - 1)).filter(|a| a % side + 1 < side) {
        triangles.push([a, a + 1, a + side + 1]);
        triangles.push([a, a + side + 1, a + side]);
    }
    let joints = [[0, 13], [13, 26]];
    let locked = Options {
        size: 0.4,
        joints: &joints,
        ..Options::default()
    };
    let runs = [
        (run_front(&points, &triangles, 0.4, Stop::Exhaust), &[][..]),
        (run_front_with(&points, &triangles, &locked), &joints[..]),
    ];
    for (mesh, joints) in runs {
        let mut mesh = mesh.unwrap();
        assert!(mesh.quads.len() > 20);
        let verdict = mesh.accept(&points, &triangles, joints).unwrap();
        assert!(verdict.accepted(), "{verdict}");
        assert_eq!(verdict.added, mesh.counts.mismatch_insertions);
        assert_eq!(verdict.sizes, mesh.components);
        let place = mesh.quads.len() - 1;
        mesh.quads[place].nodes.reverse();
        let verdict = mesh.accept(&points, &triangles, joints).unwrap();
        assert_eq!((verdict.accepted(), verdict.folded), (false, Some(place)));
    }
}

#[test]
fn points() {
    for (place, coordinate, value) in [(3, 2, -0.0), (6, 2, 1.0), (0, 0, f64::MIN_POSITIVE)] {
        let mut points = POINTS;
        points[place][coordinate] = value;
        let verdict = found(Judged {
            points: &points,
            ..judged()
        });
        assert_eq!((verdict.accepted(), verdict.moved), (false, Some(place)));
    }
    let fewer = found(Judged {
        points: &POINTS[..6],
        ..judged()
    });
    assert_eq!(
        (fewer.accepted(), fewer.moved, fewer.added),
        (false, Some(6), 0)
    );
    let mut more = POINTS.to_vec();
    more.push([7.0, 7.0, f64::NAN]);
    let verdict = found(Judged {
        points: &more,
        ..judged()
    });
    assert_eq!((verdict.accepted(), verdict.added), (true, 1));
}

#[test]
fn convex_and_corners() {
    let fan = [[0, 1, 6], [1, 4, 6], [0, 6, 4], [0, 4, 3]];
    let given = [fan.as_slice(), &LEFT].concat();
    let verdict = found(Judged {
        given_triangles: &given,
        quads: &[[0, 6, 4, 3], [0, 1, 4, 6]],
        ..judged()
    });
    assert_eq!((verdict.accepted(), verdict.folded), (false, Some(1)));
    assert_eq!(verdict.uneven, None);
    let limit = |cosine| {
        found(Judged {
            cosine,
            quads: &[[0, 6, 4, 3]],
            triangles: &[[0, 1, 6], [1, 4, 6], [1, 2, 5], [1, 5, 4]],
            given_triangles: &given,
            ..judged()
        })
    };
    assert_eq!((limit(0.5).accepted(), limit(0.5).sharp), (false, Some(0)));
    assert!(limit(0.9).accepted(), "{}", limit(0.9));
}

#[test]
fn cover() {
    let gap = found(Judged {
        triangles: &LEFT[..1],
        ..judged()
    });
    assert_eq!(
        (gap.accepted(), gap.uneven, gap.odd),
        (false, Some([1, 4]), 1)
    );
    let twice = found(Judged {
        triangles: &[LEFT[0], LEFT[1], LEFT[0]],
        ..judged()
    });
    assert_eq!((twice.accepted(), twice.uneven), (false, Some([1, 2])));
    let mut flat = POINTS;
    flat[6] = [0.5, 0.5, 0.0];
    let given = [GIVEN.as_slice(), &[[0, 4, 6]]].concat();
    let verdict = found(Judged {
        given_points: &flat,
        points: &flat,
        given_triangles: &given,
        ..judged()
    });
    assert_eq!((verdict.accepted(), verdict.given_flat), (false, Some(4)));
    let verdict = found(Judged {
        given_points: &flat,
        points: &flat,
        triangles: &[LEFT[0], LEFT[1], [0, 4, 6]],
        ..judged()
    });
    assert_eq!((verdict.accepted(), verdict.left_flat), (false, Some(2)));
}

#[test]
fn thin() {
    let limited = |thin| found(Judged { thin, ..judged() });
    assert!(limited(0.71).accepted() && limited(1.0).accepted());
    assert_eq!(
        (limited(0.7).accepted(), limited(0.7).thin),
        (false, Some(0))
    );
}

#[test]
fn joints() {
    let verdict = found(Judged {
        joints: &[[1, 4], [4, 0], [0, 4]],
        ..judged()
    });
    assert_eq!((verdict.accepted(), verdict.lost), (false, Some(1)));
    // what no given triangle has is not asked for
    let verdict = found(Judged {
        joints: &[[0, 5]],
        ..judged()
    });
    assert!(verdict.accepted());
}

#[test]
fn refused() {
    let refusal = |judged: Judged| accept(&judged).unwrap_err();
    let many = vec![[0.0; 3]; MOST_JUDGED + 1];
    let over = Judged {
        points: &many,
        cosine: f64::NAN,
        ..judged()
    };
    assert_eq!(refusal(over), Refusal::OverLimit);
    for cosine in [0.49, 0.995, f64::NAN] {
        assert_eq!(refusal(Judged { cosine, ..judged() }), Refusal::BadQuality);
    }
    for thin in [0.49, 1.5, f64::NAN] {
        assert_eq!(refusal(Judged { thin, ..judged() }), Refusal::BadQuality);
    }
    let unknown = Judged {
        given_points: &POINTS[..5],
        ..judged()
    };
    assert_eq!(refusal(unknown), Refusal::UnknownNode);
    let unknown = Judged {
        triangles: &[[0, 1, 7]],
        ..judged()
    };
    assert_eq!(refusal(unknown), Refusal::UnknownNode);
    let twice = Judged {
        quads: &[[0, 1, 4, 0]],
        ..judged()
    };
    assert_eq!(refusal(twice), Refusal::RepeatedNode);
    let mut far = POINTS;
    far[6][1] = -8.5;
    let beyond = Judged {
        points: &far,
        ..judged()
    };
    assert_eq!(refusal(beyond), Refusal::FarPoint);
    for joint in [[3, 3], [0, 7]] {
        let joints = Judged {
            joints: &[[0, 1], joint],
            ..judged()
        };
        assert_eq!(refusal(joints), Refusal::BadJoint);
    }
}
