//! Quality sets over the linked library: the standard one, others, and those that are refused.

mod shapes;

use sedgepick::lent::{self, Call, Further, Memory, Set};
use sedgepick::{run_front, run_front_with, Options, Quad, Quality, QualityBuilder, Refusal, Stop};
use sedgepick::{COSINES, JACOBIANS, PAIRS, SIDES};
use shapes::grid;

/// Cosine and sine of each corner of the quads.
fn corners(points: &[[f64; 3]], quads: &[Quad]) -> Vec<(f64, f64)> {
    let mut out = Vec::new();
    for quad in quads {
        for k in 0..4 {
            let at = |i: usize| points[quad.nodes[(k + i) % 4] as usize];
            let (here, next, last) = (at(0), at(1), at(3));
            let u = [next[0] - here[0], next[1] - here[1]];
            let v = [last[0] - here[0], last[1] - here[1]];
            let lengths = u[0].hypot(u[1]) * v[0].hypot(v[1]);
            let cosine = (u[0] * v[0] + u[1] * v[1]) / lengths;
            out.push((cosine, (u[0] * v[1] - u[1] * v[0]) / lengths));
        }
    }
    out
}

fn with(quality: Quality) -> Options<'static> {
    Options {
        size: 0.25,
        quality,
        ..Options::default()
    }
}

#[test]
fn the_standard_set_is_the_run_without_one() {
    let (points, triangles) = grid(12);
    for stop in [Stop::Exhaust, Stop::EvenComponents] {
        let plain = run_front(&points, &triangles, 0.25, stop).unwrap();
        let options = Options {
            stop,
            ..with(Quality::default())
        };
        assert_eq!(run_front_with(&points, &triangles, &options), Ok(plain));
    }
}

#[test]
fn a_stricter_set_is_kept_and_gives_another_mesh() {
    let (points, triangles) = grid(16);
    let plain = run_front(&points, &triangles, 0.25, Stop::Exhaust).unwrap();
    let worst = corners(&plain.points, &plain.quads);
    assert!(worst.iter().any(|c| c.0 > 0.5 || c.1 < 0.8));
    let sets = [
        Quality::builder().largest_cosine(0.5),
        Quality::builder().least_jacobian(0.8),
        Quality::builder().least_jacobian(0.6).least_angle(50.0),
        Quality::builder().pairs(1),
        Quality::builder().sides(0.9, 1.2).pairs(64),
    ];
    for quality in sets.map(|b| b.build().unwrap()) {
        let mesh = run_front_with(&points, &triangles, &with(quality)).unwrap();
        assert!(!mesh.quads.is_empty());
        assert_ne!(mesh.quads, plain.quads);
        let c = &mesh.counts;
        let with_pairs = mesh.quads.len() + c.recovery + c.region + c.odd_region;
        let most = quality.set().pairs * with_pairs;
        assert!(with_pairs <= c.trials && c.trials <= most);
        let set = quality.set();
        for (cosine, sine) in corners(&mesh.points, &mesh.quads) {
            assert!(cosine <= set.largest_cosine + 1e-9);
            assert!(sine >= set.least_jacobian - 1e-9);
        }
    }
}

fn up(x: f64) -> f64 {
    f64::from_bits(x.to_bits() + 1)
}

/// The double below a positive one, or the largest below 0.
fn down(x: f64) -> f64 {
    if x > 0.0 {
        f64::from_bits(x.to_bits() - 1)
    } else {
        -f64::from_bits(1)
    }
}

/// What the library says of the set, whatever it is.
fn called(set: Set, stop: u32) -> Option<Refusal> {
    let call = Call {
        given: 0,
        capacity: 0,
        count: 0,
        slots: 0,
        size: 0.0,
        stop,
    };
    let nothing = Memory {
        points: &mut [],
        quads: &mut [],
        triangles: &mut [],
        components: &mut [],
        work: &mut [],
        float_work: &mut [],
        trace: &mut [],
    };
    let further = Further {
        set,
        ..Further::default()
    };
    lent::run_front_with(&[], nothing, call, further).err()
}

/// Each number at the ends of its range, beside them and elsewhere: the builder refuses exactly what the library does.
#[test]
fn the_builder_refuses_what_the_library_refuses() {
    type Change = fn(QualityBuilder, f64) -> QualityBuilder;
    type Put = fn(&mut Set, f64);
    let numbers: [(Change, Put, [f64; 2]); 4] = [
        (
            |b, x| b.least_jacobian(x),
            |s, x| s.least_jacobian = x,
            JACOBIANS,
        ),
        (
            |b, x| b.largest_cosine(x),
            |s, x| s.largest_cosine = x,
            COSINES,
        ),
        (
            |b, x| b.sides(x, 4.0),
            |s, x| (s.side_low, s.side_high) = (x, 4.0),
            SIDES,
        ),
        (
            |b, x| b.sides(0.1, x),
            |s, x| (s.side_low, s.side_high) = (0.1, x),
            SIDES,
        ),
    ];
    for (change, put, [low, high]) in numbers {
        let beside = [low, up(low), down(high), high];
        let beyond = [
            down(low),
            up(high),
            -high,
            f64::NAN,
            f64::INFINITY,
            f64::NEG_INFINITY,
        ];
        for (x, good) in beside
            .map(|x| (x, true))
            .into_iter()
            .chain(beyond.map(|x| (x, false)))
        {
            let mut set = Set::default();
            put(&mut set, x);
            let refused = (!good).then_some(Refusal::BadQuality);
            assert_eq!(
                change(Quality::builder(), x).build().err(),
                refused,
                "{x:e}"
            );
            assert_eq!(called(set, 0), refused, "{x:e}");
            assert_eq!(called(set, 2), Some(Refusal::BadStop), "{x:e}");
        }
    }
    let angle = |degrees| Quality::builder().least_angle(degrees).build();
    assert_eq!(angle(25.0), Ok(Quality::default()));
    assert_eq!(angle(60.0).unwrap().set().largest_cosine, 0.5);
    for degrees in [8.1, 60.01, f64::NAN] {
        assert_eq!(angle(degrees), Err(Refusal::BadQuality));
    }
    assert!(angle(8.11).is_ok());
    let zero = Quality::builder().least_jacobian(-0.0).build().unwrap();
    assert_eq!(called(zero.set(), 0), None);
    for pairs in [
        0,
        PAIRS[0],
        PAIRS[1],
        PAIRS[1] + 1,
        (1 << 32) + 1,
        usize::MAX,
    ] {
        let refused = (!(1..=64).contains(&pairs)).then_some(Refusal::BadQuality);
        let set = Set {
            pairs,
            ..Set::default()
        };
        assert_eq!(Quality::builder().pairs(pairs).build().err(), refused);
        assert_eq!(called(set, 0), refused);
    }
    for (low, high, good) in [(2.2, 2.2, true), (up(2.2), 2.2, false), (4.0, 0.1, false)] {
        let refused = (!good).then_some(Refusal::BadQuality);
        let set = Set {
            side_low: low,
            side_high: high,
            ..Set::default()
        };
        assert_eq!(Quality::builder().sides(low, high).build().err(), refused);
        assert_eq!(called(set, 0), refused);
    }
}

/// 14 comes before 4: a call that lends too little is refused for its set first.
#[test]
fn a_bad_set_comes_before_short_memory() {
    let call = Call {
        given: 3,
        capacity: 3,
        count: 1,
        slots: 4,
        size: 1.0,
        stop: 0,
    };
    let refused = |set: Set| {
        let nothing = Memory {
            points: &mut [],
            quads: &mut [],
            triangles: &mut [],
            components: &mut [],
            work: &mut [],
            float_work: &mut [],
            trace: &mut [],
        };
        let further = Further {
            set,
            ..Further::default()
        };
        lent::run_front_with(&[], nothing, call, further)
    };
    assert_eq!(refused(Set::default()), Err(Refusal::TooShort));
    let bad = Set {
        pairs: 0,
        ..Set::default()
    };
    assert_eq!(refused(bad), Err(Refusal::BadQuality));
}
