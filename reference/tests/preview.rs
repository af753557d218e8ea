//! What an edge would give: its tests, by what can be seen of the given mesh and of runs.

mod meshes;

use std::collections::BTreeMap;

use meshes::{meshes, taken};
use reference::generators::{self, joints, of_case, on_grid, sets, SMALL};
use reference::input::{Input, Lent, LARGEST};
use reference::patched::FrontResult;
use reference::preview::{preview, Cost, Kind, Shown};
use reference::random::Random;
use reference::records::records;

const FREE: Cost = Cost {
    insertions: 0,
    flips: 0,
};

/// A mesh of these points and triangles, without a size.
fn mesh(points: &[[f64; 2]], triangles: &[[u32; 3]]) -> Input {
    let point = |p: &[f64; 2]| [p[0].to_bits(), p[1].to_bits(), 0];
    Input {
        points: points.iter().map(point).collect(),
        triangles: triangles.to_vec(),
        ..Input::default()
    }
}

fn square() -> Input {
    let corners = [[0.0, 0.0], [1.0, 0.0], [1.0, 1.0], [0.0, 1.0]];
    mesh(&corners, &[[0, 1, 2], [0, 2, 3]])
}

/// A square below a gable whose top is joined to the foot: its upper side takes two flips.
fn house() -> Input {
    let corners = [[0.0, 0.0], [1.0, 0.0], [0.0, 1.0], [1.0, 1.0], [0.5, 1.8]];
    mesh(&corners, &[[0, 1, 4], [0, 4, 2], [1, 3, 4]])
}

/// The edges of the given triangles with the number of triangles that have each.
fn owners(input: &Input) -> BTreeMap<(usize, usize), usize> {
    let mut owners = BTreeMap::new();
    for t in input.tris() {
        for (u, v) in [(t[0], t[1]), (t[1], t[2]), (t[2], t[0])] {
            *owners.entry((u.min(v), u.max(v))).or_default() += 1;
        }
    }
    owners
}

/// The edges that one triangle has.
fn front(input: &Input) -> Vec<(usize, usize)> {
    let one = owners(input).into_iter().filter(|&(_, n)| n == 1);
    one.map(|(edge, _)| edge).collect()
}

fn shown(input: &Input, (u, v): (usize, usize)) -> Shown {
    preview(input, LARGEST, u, v)
}

#[test]
fn the_square_shows_its_quad_from_each_side() {
    for stop in 0..2 {
        let input = Input { stop, ..square() };
        let quads = [
            [0, 1, 2, 3, 0, 1, 1, 2],
            [1, 2, 3, 0, 1, 2, 1, 2],
            [2, 3, 0, 1, 2, 3, 1, 2],
            [3, 0, 1, 2, 0, 3, 1, 2],
        ];
        for quad in quads {
            let (u, v) = (quad[4], quad[5]);
            assert_eq!(shown(&input, (u, v)), Shown::Quad(quad, FREE));
            assert_eq!(shown(&input, (v, u)), Shown::Quad(quad, FREE));
        }
        for off in [(0, 2), (2, 0), (1, 3), (3, 1)] {
            assert_eq!(shown(&input, off), Shown::OffFront);
        }
    }
}

#[test]
fn one_triangle_shows_what_the_table_says() {
    let corners = [[0.0, 0.0], [1.0, 0.0], [0.0, 1.0]];
    let plain = mesh(&corners, &[[0, 1, 2]]);
    for edge in [(0, 1), (1, 2), (0, 2)] {
        for (size, kind) in [
            (1.0f64, Kind::InvalidQuad),
            (0.0, Kind::InvalidQuad),
            (8.0, Kind::Placement),
        ] {
            let size = size.to_bits();
            let input = Input {
                size,
                ..plain.clone()
            };
            assert_eq!(shown(&input, edge), Shown::Refused(kind, FREE));
        }
    }
}

#[test]
fn flips_are_counted_also_where_a_joint_ends_them() {
    let house = house();
    let quad = Shown::Quad(
        [0, 1, 3, 2, 0, 1, 1, 2],
        Cost {
            insertions: 0,
            flips: 2,
        },
    );
    assert_eq!(shown(&house, (1, 0)), quad);
    // The first of the two edges is locked, or the second, when one pair is permitted.
    for (joint, flips) in [([0, 4], 0), ([4, 1], 1)] {
        let mut input = house.clone();
        input.joints = vec![joint];
        input.quality.pairs = 1;
        let cost = Cost {
            insertions: 0,
            flips,
        };
        assert_eq!(
            shown(&input, (0, 1)),
            Shown::Refused(Kind::Recovery, cost),
            "{joint:?}"
        );
    }
}

#[test]
fn an_edge_is_tried_exactly_where_one_triangle_has_it() {
    for input in meshes(61, 104) {
        let front = front(&input);
        let most = input.points.len() + 2;
        for u in 0..most {
            for v in 0..most {
                let edge = (u.min(v), u.max(v));
                let off = shown(&input, (u, v)) == Shown::OffFront;
                assert_eq!(off, !front.contains(&edge), "{u} {v}");
            }
        }
        let far = [u32::MAX as usize, 1 << 32, usize::MAX - 1, usize::MAX];
        for &(u, v) in front.iter().take(2) {
            for far in far {
                for pair in [(u, far), (far, v), (far, far), (u.wrapping_add(1 << 32), v)] {
                    assert_eq!(shown(&input, pair), Shown::OffFront);
                }
            }
        }
    }
}

#[test]
fn the_order_of_the_nodes_changes_nothing() {
    for input in meshes(62, 260) {
        for (u, v) in front(&input) {
            assert_eq!(shown(&input, (u, v)), shown(&input, (v, u)));
        }
    }
}

/// What an attempt left, its counts but for the number of attempts.
fn left(r: &FrontResult) -> impl PartialEq + std::fmt::Debug {
    let c = &r.refusals;
    let refused = [
        c.placement,
        c.invalid_quad,
        c.recovery,
        c.region,
        c.odd_region,
    ];
    let spent = [c.mismatch_insertions, c.trials, r.flips];
    let points: Vec<_> = r.points.iter().map(|p| p.map(f64::to_bits)).collect();
    let lists = (records(r), r.triangles.clone(), r.region_components.clone());
    (points, lists, refused, spent)
}

#[test]
fn a_run_of_one_attempt_is_the_attempt_on_one_of_its_edges() {
    let (mut placed, mut refused) = (0, 0);
    for input in meshes(63, 1040) {
        let first = input.run_within(LARGEST, Some(1));
        if first.refusals.attempts == 0 {
            continue;
        }
        let on = |edge| left(&input.run_on(LARGEST, None, Some(edge)));
        match first.births.first() {
            Some(birth) => {
                assert_eq!(on(birth.edge), left(&first));
                let cost = Cost {
                    insertions: first.refusals.mismatch_insertions,
                    flips: first.flips,
                };
                let quad = records(&first)[0];
                assert_eq!(shown(&input, birth.edge), Shown::Quad(quad, cost));
                placed += 1;
            }
            None => {
                assert!(front(&input).into_iter().any(|e| on(e) == left(&first)));
                refused += 1;
            }
        }
    }
    assert!(placed > 100 && refused > 100, "{placed} {refused}");
}

#[test]
fn without_a_flip_and_an_insertion_a_refused_attempt_leaves_the_mesh_as_it_was() {
    let (mut still, mut moved) = (0, 0);
    for input in meshes(64, 1040) {
        for edge in front(&input) {
            let Shown::Refused(_, cost) = shown(&input, edge) else {
                continue;
            };
            let after = input.run_on(LARGEST, None, Some(edge));
            let same = after.triangles == input.tris();
            assert_eq!(same, cost == FREE, "{edge:?}");
            assert_eq!(after.points.len(), input.points.len() + cost.insertions);
            still += same as usize;
            moved += !same as usize;
        }
    }
    assert!(still > 100 && moved > 100, "{still} {moved}");
}

/// What scarce memory makes of what ample memory shows: each insertion takes a point, then two slots, and a quad one.
fn with(input: &Input, lent: Lent, ample: Shown) -> Shown {
    let (insertions, quad) = match ample {
        Shown::Quad(_, cost) => (cost.insertions, true),
        Shown::Refused(_, cost) => (cost.insertions, false),
        other => return other,
    };
    let (given, count) = (input.points.len(), input.triangles.len());
    for k in 1..=insertions {
        if given + k > lent.points {
            return Shown::Refusal(8);
        }
        if count + 2 * k > lent.slots {
            return Shown::Refusal(9);
        }
    }
    if quad && count + 2 * insertions + 1 > lent.slots {
        return Shown::Refusal(9);
    }
    ample
}

#[test]
fn points_and_slots_run_out_as_in_a_run() {
    let mut seen = [0; 2];
    let makers = ["insertion", "graded", "grid", "single", "heap"];
    for case in 0..100 {
        let name = makers[case as usize % makers.len()];
        let mut r = Random::new(65, case);
        let input = generators::kind(name).unwrap().1(&mut r, &SMALL);
        if !taken(&input) {
            continue;
        }
        for (u, v) in front(&input) {
            let ample = shown(&input, (u, v));
            for k in 0..4 * 7 {
                let lent = Lent {
                    points: input.points.len() + k / 7,
                    slots: input.triangles.len() + k % 7,
                };
                let scarce = preview(&input, lent, u, v);
                assert_eq!(scarce, with(&input, lent, ample), "{lent:?}");
                assert!(scarce.clears());
                match scarce {
                    Shown::Refusal(8) => seen[0] += 1,
                    Shown::Refusal(9) => seen[1] += 1,
                    _ => {}
                }
            }
        }
    }
    assert!(seen[0] > 100 && seen[1] > 100, "{seen:?}");
}

#[test]
fn a_quad_stands_in_round_1_on_the_edge_that_was_asked_for() {
    for input in meshes(66, 520) {
        for edge in front(&input) {
            let Shown::Quad(q, cost) = shown(&input, edge) else {
                continue;
            };
            assert_eq!((q[4], q[5], q[6]), (edge.0, edge.1, 1));
            assert_eq!((q[0].min(q[1]), q[0].max(q[1])), edge);
            assert!(q[7] > 0 && q[7] <= input.triangles.len() + 2 * cost.insertions);
            assert!(cost.insertions <= 2);
            let most = input.points.len() + cost.insertions;
            assert!(q[..4].iter().all(|&n| n < most));
        }
    }
}

#[test]
fn joints_are_not_flipped_and_the_profile_inserts_nothing() {
    let mut without = 0;
    for mut input in meshes(67, 520) {
        let all: Vec<[u32; 2]> = joints::edges(&input).into_iter().collect();
        for edge in front(&input) {
            if let Shown::Quad(_, cost) | Shown::Refused(_, cost) = shown(&input, edge) {
                assert!(input.grid == 0 || cost.insertions == 0);
                without += cost.flips;
            }
        }
        input.joints = all;
        for edge in front(&input) {
            if let Shown::Quad(_, cost) | Shown::Refused(_, cost) = shown(&input, edge) {
                // An edge of an inserted point is no joint.
                assert!(cost.flips == 0 || cost.insertions > 0);
            }
        }
    }
    assert!(without > 0);
}

#[test]
fn every_kind_of_refusal_is_shown() {
    let mut seen = [0; 5];
    for input in meshes(68, 520) {
        for edge in front(&input) {
            match shown(&input, edge) {
                Shown::Refused(Kind::Placement, _) => seen[0] += 1,
                Shown::Refused(Kind::InvalidQuad, _) => seen[1] += 1,
                Shown::Refused(Kind::Recovery, _) => seen[2] += 1,
                Shown::Refused(Kind::Region, _) => seen[3] += 1,
                Shown::Refused(Kind::OddRegion, _) => {
                    assert_eq!(input.stop, 1);
                    seen[4] += 1;
                }
                _ => {}
            }
        }
    }
    assert!(seen.iter().all(|&n| n > 5), "{seen:?}");
}

#[test]
fn a_refusal_before_the_attempt_is_that_of_a_run_whatever_the_pair() {
    let mut seen = BTreeMap::new();
    for case in 0..2600 {
        let mut r = Random::new(69, case);
        let mut input = of_case(None, case).1(&mut r, &SMALL);
        if input.refusal(LARGEST).is_none() {
            match r.below(3) {
                0 => input = on_grid::doubtful(&input, &mut r),
                1 => input.quality = sets::doubtful(&mut r),
                _ => input.joints = joints::doubtful(&input, &mut r),
            }
        }
        let lent = Lent {
            points: (input.points.len() + r.below(40)).saturating_sub(1),
            slots: input.triangles.len() + 24,
        };
        let Some(number) = input.refusal(lent) else {
            continue;
        };
        for (u, v) in [(0, 1), (0, 0), (usize::MAX, 7), (1, 2)] {
            let refused = preview(&input, lent, u, v);
            assert_eq!(refused, Shown::Refusal(number));
            assert!(!refused.clears());
        }
        *seen.entry(number).or_insert(0) += 1;
    }
    for number in [2, 3, 4, 5, 6, 7, 13, 14, 15] {
        assert!(seen.contains_key(&number), "{number} of {seen:?}");
    }
    let large = Lent {
        points: 8193,
        slots: 2,
    };
    assert_eq!(preview(&square(), large, 0, 1), Shown::Refusal(1));
}
