//! Previews over the linked library: what edges show, that it is how a run's first attempt ends, what is left of the lent memory, and refusals.

mod shapes;

use std::collections::HashMap;

use sedgepick::lent::{self, Call, Further, Memory};
use sedgepick::{preview, run_front_with, Cost, Job, Kind, Options, Quad, Refusal, Shown, Stop};
use shapes::{grid, FLARED, HALVES, SQUARE};

const FREE: Cost = Cost {
    insertions: 0,
    flips: 0,
};

/// The edges of the triangles, the smaller node first, and how many have each.
fn edges(triangles: &[[u32; 3]]) -> HashMap<[u32; 2], usize> {
    let mut owners = HashMap::new();
    for [a, b, c] in triangles.iter().copied() {
        for (u, v) in [(a, b), (b, c), (c, a)] {
            *owners.entry([u.min(v), u.max(v)]).or_insert(0) += 1;
        }
    }
    owners
}

fn sized(size: f64) -> Options<'static> {
    Options {
        size,
        ..Options::default()
    }
}

#[test]
fn the_square() {
    let options = sized(1.0);
    for (edge, nodes) in [
        ([0, 1], [0, 1, 2, 3]),
        ([1, 2], [1, 2, 3, 0]),
        ([2, 3], [2, 3, 0, 1]),
        ([0, 3], [3, 0, 1, 2]),
    ] {
        let quad = Quad {
            nodes,
            edge,
            round: 1,
            replaced: 2,
        };
        let shown = Ok(Shown::Quad { quad, cost: FREE });
        for asked in [edge, [edge[1], edge[0]]] {
            assert_eq!(preview(&SQUARE, &HALVES, asked, &options), shown);
        }
    }
    let most = u32::MAX;
    for edge in [
        [0, 2],
        [1, 3],
        [0, 0],
        [0, 4],
        [9, 1],
        [most, most],
        [most, 0],
    ] {
        let shown = preview(&SQUARE, &HALVES, edge, &options);
        assert_eq!(shown, Ok(Shown::OffFront));
        assert_eq!(shown.unwrap().cost(), FREE);
    }
    let nothing = preview(&[], &[], [0, 1], &options);
    assert_eq!(nothing, Ok(Shown::OffFront));
}

#[test]
fn kinds() {
    let shows = |points: &[[f64; 3]], triangles: &[[u32; 3]], options: &Options<'_>| {
        preview(points, triangles, [1, 0], options).unwrap()
    };
    let refused = |kind| Shown::Refused { kind, cost: FREE };
    let corner = [SQUARE[0], SQUARE[1], SQUARE[3]];
    let one = [[0, 1, 2]];
    assert_eq!(shows(&corner, &one, &sized(8.0)), refused(Kind::Placement));
    assert_eq!(
        shows(&corner, &one, &sized(1.0)),
        refused(Kind::InvalidQuad)
    );
    let locked = Options {
        joints: &[[2, 0]],
        ..sized(1.0)
    };
    assert_eq!(shows(&SQUARE, &HALVES, &locked), refused(Kind::Region));
    let five = [SQUARE[0], SQUARE[1], SQUARE[2], SQUARE[3], [0.5, 1.5, 0.0]];
    let three = [HALVES[0], HALVES[1], [3, 2, 4]];
    let even = Options {
        stop: Stop::EvenComponents,
        ..sized(1.0)
    };
    let cost = Cost { flips: 2, ..FREE };
    let odd = Shown::Refused {
        kind: Kind::OddRegion,
        cost,
    };
    assert_eq!(shows(&five, &three, &even), odd);
    let placed = shows(&five, &three, &sized(1.0));
    assert!(matches!(placed, Shown::Quad { .. }));
}

/// Exactly the edges of one triangle are attempted; the nodes' order changes nothing.
#[test]
fn every_edge_of_a_grid() {
    let (points, triangles) = grid(6);
    let (mut quads, mut flips) = (0, 0);
    for (edge, owners) in edges(&triangles) {
        let shown = preview(&points, &triangles, edge, &sized(0.25)).unwrap();
        let turned = preview(&points, &triangles, [edge[1], edge[0]], &sized(0.25));
        assert_eq!(turned, Ok(shown));
        assert_eq!(shown == Shown::OffFront, owners != 1);
        flips += shown.cost().flips;
        if let Shown::Quad { quad, .. } = shown {
            let [a, b, ..] = quad.nodes;
            assert_eq!((quad.edge, quad.round), (edge, 1));
            assert_eq!([a.min(b), a.max(b)], edge);
            quads += 1;
        }
    }
    assert!(quads > 0 && flips > 0, "{quads} quads, {flips} flips");
}

/// A run of one attempt: whether it placed a quad, and how many points it added. The edge that it tried shows the same.
fn first_attempt(
    points: &[[f64; 3]],
    triangles: &[[u32; 3]],
    options: &Options<'_>,
) -> (bool, usize) {
    let mut job = Job::new(1, 1).unwrap();
    let mesh = job.run(points, triangles, options).mesh.unwrap();
    let c = mesh.counts;
    let shows = |edge| preview(points, triangles, edge, options).unwrap();
    let kinds = [
        c.placement,
        c.invalid_quad,
        c.recovery,
        c.region,
        c.odd_region,
    ];
    let alike = match mesh.quads[..] {
        [quad] => {
            let shown = shows(quad.edge);
            let cost = shown.cost();
            shown == Shown::Quad { quad, cost } && cost.insertions == c.mismatch_insertions
        }
        _ => edges(triangles).into_keys().any(|edge| match shows(edge) {
            Shown::Refused { kind, cost } => {
                kinds[kind as usize] == 1 && cost.insertions == c.mismatch_insertions
            }
            _ => false,
        }),
    };
    assert!(alike, "{options:?} {mesh:?}");
    (!mesh.quads.is_empty(), c.mismatch_insertions)
}

#[test]
fn it_is_how_the_first_attempt_ends() {
    let mut meshes: Vec<_> = (1..7).map(grid).collect();
    meshes.push((FLARED.to_vec(), HALVES.to_vec()));
    let mut ends = Vec::new();
    for (points, triangles) in &meshes {
        let joints: Vec<[u32; 2]> = triangles.iter().map(|t| [t[2], t[0]]).collect();
        for size in [0.0, 0.05, 0.25, 0.4, 8.0] {
            for stop in [Stop::Exhaust, Stop::EvenComponents] {
                for joints in [&[], &joints[..]] {
                    let options = Options {
                        stop,
                        joints,
                        ..sized(size)
                    };
                    ends.push(first_attempt(points, triangles, &options));
                }
            }
        }
    }
    for (placed, inserts) in [(false, false), (false, true), (true, false), (true, true)] {
        let found = ends.iter().any(|e| (e.0, e.1 > 0) == (placed, inserts));
        assert!(found, "{placed} {inserts}");
    }
}

/// The flared mesh over lent memory of so many points and slots, full of other numbers, that must be there afterwards but for the work.
fn lend(edge: [usize; 2], capacity: usize, slots: usize, size: f64) -> Result<Shown, Refusal> {
    let call = Call {
        given: 4,
        capacity,
        count: 2,
        slots,
        size,
        stop: 0,
    };
    let mut points = vec![7.0; 3 * capacity + 2];
    points[..12].copy_from_slice(FLARED.as_flattened());
    let before = points.clone();
    let (mut quads, mut left) = (vec![7; 8 * slots + 1], vec![7; 3 * slots + 1]);
    let mut components = vec![7; slots + 1];
    let mut work = vec![7; call.work_len() + 3];
    let mut float_work = vec![7.0; call.float_work_len() + 3];
    let memory = Memory {
        points: &mut points,
        quads: &mut quads,
        triangles: &mut left,
        components: &mut components,
        work: &mut work,
        float_work: &mut float_work,
        trace: &mut [],
    };
    let cells = HALVES.as_flattened();
    let shown = lent::preview(edge, cells, memory, call, Further::default());
    assert_eq!(points, before);
    let mut lists = quads.iter().chain(&left).chain(&components);
    assert!(lists.all(|&n| n == 7));
    let attempted = matches!(shown, Ok(_) | Err(Refusal::NoPoint | Refusal::NoSlots));
    let then = if attempted { 0 } else { 7 };
    assert!(work.iter().all(|&n| n == then));
    assert!(float_work.iter().all(|&x| x == f64::from(then)));
    shown
}

#[test]
fn lent_memory() {
    let shown = Shown::Quad {
        quad: Quad {
            nodes: [0, 1, 5, 4],
            edge: [0, 1],
            round: 1,
            replaced: 2,
        },
        cost: Cost {
            insertions: 2,
            flips: 1,
        },
    };
    // Two points and five slots beyond the given ones are enough.
    assert_eq!(lend([1, 0], 6, 7, 0.25), Ok(shown));
    assert_eq!(lend([0, 1], 40, 60, 0.25), Ok(shown));
    for capacity in [4, 5] {
        assert_eq!(lend([0, 1], capacity, 7, 0.25), Err(Refusal::NoPoint));
    }
    for slots in 2..7 {
        assert_eq!(lend([0, 1], 6, slots, 0.25), Err(Refusal::NoSlots));
    }
    for edge in [
        [0, 0],
        [2, 0],
        [0, 4],
        [9, 1],
        [usize::MAX, 0],
        [1 << 32, 1],
    ] {
        assert_eq!(lend(edge, 4, 2, 0.25), Ok(Shown::OffFront));
    }
    assert_eq!(lend([0, 1], 6, 7, 9.0), Err(Refusal::BadSize));
    assert_eq!(lend([0, 1], 6, 1, 0.25), Err(Refusal::TooShort));
}

/// As a run.
#[test]
fn refused_before_the_attempt() {
    let refused = |points: &[[f64; 3]], triangles: &[[u32; 3]], options: Options<'_>| {
        let by = preview(points, triangles, [0, 1], &options).unwrap_err();
        assert_eq!(run_front_with(points, triangles, &options), Err(by));
        by
    };
    let many = vec![SQUARE[0]; 4097];
    assert_eq!(refused(&many, &[], sized(1.0)), Refusal::OverLimit);
    assert_eq!(
        refused(&SQUARE, &vec![[0, 1, 2]; 4097], sized(f64::NAN)),
        Refusal::OverLimit
    );
    assert_eq!(refused(&SQUARE, &HALVES, sized(f64::NAN)), Refusal::BadSize);
    assert_eq!(
        refused(&SQUARE, &[[0, 1, 4]], sized(1.0)),
        Refusal::UnknownNode
    );
    assert_eq!(
        refused(&SQUARE, &[[0, 1, 1]], sized(1.0)),
        Refusal::RepeatedNode
    );
    let mut far = SQUARE;
    far[3][0] = 9.0;
    assert_eq!(refused(&far, &HALVES, sized(1.0)), Refusal::FarPoint);
    let gridded = Options {
        grid: true,
        ..sized(1.0)
    };
    assert_eq!(refused(&SQUARE, &HALVES, gridded), Refusal::OffGrid);
    let joined = Options {
        joints: &[[0, 1], [2, 2]],
        ..sized(1.0)
    };
    assert_eq!(refused(&SQUARE, &HALVES, joined), Refusal::BadJoint);
}
