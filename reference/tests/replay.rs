//! The trace of a run and its replay: small ones by hand, runs with every room, damaged words.

mod meshes;

use std::collections::BTreeMap;

use meshes::{meshes, taken};
use reference::account::slots_used;
use reference::generators::{self, traces, SMALL};
use reference::input::{Input, Lent, LARGEST};
use reference::patched::FrontResult;
use reference::random::Random;
use reference::records::records;
use reference::replay::{Handed, Replayed};
use reference::trace::{entries, words, Entry};

fn point(x: f64, y: f64) -> [u64; 3] {
    [x.to_bits(), y.to_bits(), 0]
}

/// The unit square of two triangles.
fn square() -> Input {
    Input {
        size: 1f64.to_bits(),
        points: vec![
            point(0.0, 0.0),
            point(1.0, 0.0),
            point(1.0, 1.0),
            point(0.0, 1.0),
        ],
        triangles: vec![[0, 1, 2], [0, 2, 3]],
        ..Input::default()
    }
}

const QUAD: [u32; 11] = [4, 0, 1, 2, 3, 0, 1, 1, 2, 0, 1];

fn handed<'a>(input: &'a Input, lent: Lent, trace: &'a [u32], words: usize) -> Handed<'a> {
    Handed {
        points: &input.points,
        triangles: &input.triangles,
        lent,
        trace,
        words,
    }
}

/// A replay of all the words.
fn replay(input: &Input, lent: Lent, trace: &[u32]) -> Result<Replayed, u32> {
    handed(input, lent, trace, trace.len()).replay()
}

fn on_square(trace: &[u32]) -> Replayed {
    let lent = Lent {
        points: 5,
        slots: 5,
    };
    replay(&square(), lent, trace).expect("no refusal before the entries")
}

fn bits(points: &[[f64; 3]]) -> Vec<[u64; 3]> {
    points.iter().map(|p| p.map(f64::to_bits)).collect()
}

/// The refusal, how many points and quads, and the triangles left.
fn short(r: &Replayed) -> (Option<u32>, usize, usize, &[[usize; 3]]) {
    let left = match r.refused {
        Some(_) => &[],
        None => &r.triangles[..],
    };
    (r.refused, r.points.len(), r.quads.len(), left)
}

#[test]
fn the_square_has_one_entry() {
    let run = |trace| {
        let input = Input { trace, ..square() };
        let lent = Lent {
            points: 5,
            slots: 5,
        };
        let r = input.run_unchecked(lent);
        (r.refused, r.quads.len(), r.trace)
    };
    assert_eq!(run(0), (None, 1, vec![]));
    for room in 1..11 {
        assert_eq!(run(room), (Some(11), 0, vec![]), "{room}");
    }
    for room in [11, 12, 13, usize::MAX] {
        assert_eq!(run(room), (None, 1, QUAD.to_vec()));
    }
}

#[test]
fn replays_of_the_square() {
    let given = [[0, 1, 2], [0, 2, 3]];
    let played = on_square(&QUAD);
    assert_eq!(short(&played), (None, 4, 1, &[][..]));
    assert_eq!(played.quads, [[0, 1, 2, 3, 0, 1, 1, 2]]);
    assert!(played.components.is_empty());
    assert_eq!(short(&on_square(&[])), (None, 4, 0, &given[..]));
    assert_eq!(on_square(&[]).components, [2]);
    // One word less cuts it short, one more begins another entry.
    assert_eq!(short(&on_square(&QUAD[..10])), (Some(12), 4, 0, &[][..]));
    for more in [0, 1, 2, 3, 4, 5, 7, u32::MAX] {
        let words = [&QUAD[..], &[more]].concat();
        assert_eq!(short(&on_square(&words)), (Some(12), 4, 1, &[][..]));
    }
    // The diagonal flips, in its own node order only, and back.
    let flipped = [[1, 3, 0], [3, 1, 2]];
    assert_eq!(short(&on_square(&[2, 0, 2])), (None, 4, 0, &flipped[..]));
    let back = [[0, 1, 2], [2, 3, 0]];
    assert_eq!(
        short(&on_square(&[2, 0, 2, 2, 1, 3])),
        (None, 4, 0, &back[..])
    );
    for bad in [
        [2, 2, 0],
        [2, 0, 0],
        [2, 0, 1],
        [2, 1, 3],
        [2, 0, 4],
        [2, 0, u32::MAX],
        [3, 0, 2],
    ] {
        assert_eq!(
            short(&on_square(&bad)),
            (Some(12), 4, 0, &[][..]),
            "{bad:?}"
        );
    }
}

#[test]
fn quads_that_no_run_makes_are_taken() {
    // A node twice, nothing replaced, any edge and round; it owns the diagonal too, which does not flip then.
    let odd = [4, 0, 2, 0, 2, 9, 8, 6, 0];
    let played = on_square(&odd);
    assert_eq!(short(&played), (None, 4, 1, &[[0, 1, 2], [0, 2, 3]][..]));
    assert_eq!(played.quads, [[0, 2, 0, 2, 9, 8, 6, 0]]);
    let then = [&odd[..], &[2, 0, 2]].concat();
    assert_eq!(short(&on_square(&then)), (Some(12), 4, 1, &[][..]));
    // So does one with the same edge once; without it the diagonal flips.
    let other = [4, 3, 3, 1, 0, 0, 0, 0, 0, 2, 0, 2];
    assert_eq!(on_square(&other).refused, None);
    // One point and nothing else.
    let alone = Input {
        points: vec![point(0.0, 0.0)],
        ..Input::default()
    };
    let lent = Lent {
        points: 1,
        slots: 1,
    };
    let played = replay(&alone, lent, &[4, 0, 0, 0, 0, 0, 0, 0, 0]).unwrap();
    assert_eq!(short(&played), (None, 1, 1, &[][..]));
    assert_eq!(played.quads, [[0; 8]]);
}

#[test]
fn bad_quads_are_12() {
    let quad = |nodes: [u32; 4], slots: &[u32]| {
        let [a, b, c, d] = nodes;
        let count = slots.len() as u32;
        let words = [&[4, a, b, c, d, 0, 1, 1, count][..], slots].concat();
        on_square(&words).refused
    };
    assert_eq!(quad([0, 1, 2, 3], &[1, 0]), None);
    for slots in [&[0, 0][..], &[0, 2], &[2], &[u32::MAX], &[1, 0, 1]] {
        assert_eq!(quad([0, 1, 2, 3], slots), Some(12), "{slots:?}");
    }
    for place in 0..4 {
        for far in [4, 5, u32::MAX] {
            let mut nodes = [0, 1, 2, 3];
            nodes[place] = far;
            assert_eq!(quad(nodes, &[0, 1]), Some(12));
        }
    }
    // A slot whose triangle is gone, and one that has a quad.
    for slot in [0, 2] {
        let twice = [&QUAD[..], &[4, 0, 1, 2, 3, 0, 1, 2, 1, slot]].concat();
        assert_eq!(short(&on_square(&twice)), (Some(12), 4, 1, &[][..]));
    }
    // A count that reaches past the words, however far.
    for count in [3, 4, u32::MAX, u32::MAX - 8, 1 << 31] {
        let words = [4, 0, 1, 2, 3, 0, 1, 1, count, 0, 1];
        assert_eq!(short(&on_square(&words)), (Some(12), 4, 0, &[][..]));
    }
}

fn insertion(slot: u32, x: f64, y: f64) -> Vec<u32> {
    Entry::Insertion { slot, x, y }.words()
}

#[test]
fn a_point_must_be_strictly_inside() {
    let played = on_square(&insertion(0, 0.75, 0.5));
    assert_eq!(
        insertion(0, 0.75, 0.5),
        [1, 0, 0, 1072168960, 0, 1071644672]
    );
    let left = [[0, 1, 4], [0, 2, 3], [1, 2, 4], [2, 0, 4]];
    assert_eq!(short(&played), (None, 5, 0, &left[..]));
    assert_eq!(played.points[4].map(f64::to_bits), point(0.75, 0.5));
    assert_eq!(played.components, [4]);
    let (nan, inf) = (f64::NAN, f64::INFINITY);
    for (x, y) in [
        (0.5, 0.5),
        (0.25, 0.5),
        (1.0, 0.5),
        (0.0, 0.0),
        (nan, 0.5),
        (0.75, nan),
        (inf, 0.5),
        (0.75, -inf),
        (-inf, -inf),
        (inf, inf),
    ] {
        assert_eq!(
            short(&on_square(&insertion(0, x, y))),
            (Some(12), 4, 0, &[][..]),
            "{x} {y}"
        );
    }
    for slot in [1, 2, 5, u32::MAX] {
        assert_eq!(on_square(&insertion(slot, 0.75, 0.5)).refused, Some(12));
    }
}

#[test]
fn twelve_comes_before_8_and_8_before_9() {
    let with = |points, slots, trace: &[u32]| {
        let lent = Lent { points, slots };
        replay(&square(), lent, trace).unwrap().refused
    };
    let (good, bad) = (insertion(0, 0.75, 0.5), insertion(0, 0.5, 0.5));
    for (points, slots, number) in [(4, 2, 8), (4, 4, 8), (5, 2, 9), (5, 3, 9)] {
        assert_eq!(with(points, slots, &good), Some(number));
        assert_eq!(with(points, slots, &bad), Some(12));
    }
    assert_eq!(with(5, 4, &good), None);
    assert_eq!(with(4, 2, &QUAD), Some(9));
    assert_eq!(with(4, 2, &[4, 0, 1, 2, 4, 0, 1, 1, 2, 0, 1]), Some(12));
    assert_eq!(with(4, 2, &[4, 0, 1, 2, 3, 0, 1, 1, 2, 0, 2]), Some(12));
    assert_eq!(with(4, 3, &QUAD), None);
    // What stands behind is not looked at.
    assert_eq!(with(4, 2, &[&QUAD[..], &[3]].concat()), Some(9));
}

#[test]
fn a_replay_opens_with_1_and_4_to_7() {
    let refusal = |input: &Input, points, slots, words, trace: &[u32]| {
        let lent = Lent { points, slots };
        handed(input, lent, trace, words).replay().err()
    };
    let good = square();
    assert_eq!(refusal(&good, 4, 3, 11, &QUAD), None);
    assert_eq!(refusal(&good, 4, 3, 3, &QUAD), None);
    for (points, slots) in [(8193, 3), (4, 16385), (usize::MAX, usize::MAX)] {
        assert_eq!(refusal(&good, points, slots, 12, &QUAD), Some(1));
    }
    for (points, slots, words) in [(3, 3, 11), (4, 1, 11), (4, 3, 12), (4, 3, usize::MAX)] {
        assert_eq!(refusal(&good, points, slots, words, &QUAD), Some(4));
    }
    let mut bad = good.clone();
    bad.points[3] = point(8.5, f64::NAN);
    assert_eq!(refusal(&bad, 4, 3, 11, &QUAD), Some(7));
    bad.triangles[1] = [0, 2, 2];
    assert_eq!(refusal(&bad, 4, 3, 11, &QUAD), Some(6));
    bad.triangles[0] = [4, 1, 1];
    assert_eq!(refusal(&bad, 4, 3, 11, &QUAD), Some(5));
    assert_eq!(refusal(&bad, 4, 3, 12, &QUAD), Some(4));
    let mut large = good.clone();
    large.points = vec![point(9.0, 0.0); 4097];
    assert_eq!(refusal(&large, 0, 0, 12, &QUAD), Some(1));
    // No size, rule or set is looked at, and z may be anything.
    let mut odd = good;
    (odd.size, odd.stop, odd.quality.pairs) = (f64::NAN.to_bits(), 7, 0);
    odd.points[0][2] = f64::NAN.to_bits();
    assert_eq!(refusal(&odd, 4, 3, 11, &QUAD), None);
}

fn with_room(input: &Input, room: usize) -> Input {
    Input {
        trace: room,
        ..input.clone()
    }
}

/// The replay has what the run has: where the run was refused, points and quads.
fn same(run: &FrontResult, replayed: &Replayed) {
    assert_eq!(replayed.refused, None);
    assert_eq!(bits(&replayed.points), bits(&run.points));
    let quads: Vec<_> = records(run).iter().map(|q| q.map(|n| n as u32)).collect();
    assert_eq!(replayed.quads, quads);
    if run.refused.is_none() {
        assert_eq!(replayed.triangles, run.triangles);
        assert_eq!(replayed.components, run.region_components);
    }
}

/// As much as a finished run needs.
fn need(input: &Input, run: &FrontResult) -> Lent {
    Lent {
        points: run.points.len(),
        slots: slots_used(input, run),
    }
}

#[test]
fn the_replay_of_a_run_ends_in_its_mesh() {
    let (mut flips, mut insertions) = (0, 0);
    for input in meshes(71, 2600) {
        let plain = input.run_unchecked(LARGEST);
        let run = with_room(&input, usize::MAX).run_unchecked(LARGEST);
        assert_eq!(plain.trace, []);
        assert_eq!(
            (bits(&run.points), records(&run), &run.triangles, run.flips),
            (
                bits(&plain.points),
                records(&plain),
                &plain.triangles,
                plain.flips
            )
        );
        assert_eq!(
            format!("{:?}", run.refusals),
            format!("{:?}", plain.refusals)
        );
        let lent = match run.refused {
            Some(_) => LARGEST,
            None => need(&input, &run),
        };
        same(&run, &replay(&input, lent, &run.trace).unwrap());
        let list = entries(&run.trace);
        assert_eq!(words(&list), run.trace);
        let count = |is: fn(&Entry) -> bool| list.iter().filter(|e| is(e)).count();
        let of_flips = count(|e| matches!(e, Entry::Flip { .. }));
        let of_insertions = count(|e| matches!(e, Entry::Insertion { .. }));
        assert_eq!(of_flips, run.flips);
        assert_eq!(of_insertions, run.refusals.mismatch_insertions);
        assert_eq!(list.len() - of_flips - of_insertions, run.quads.len());
        flips += of_flips;
        insertions += of_insertions;
    }
    assert!(flips > 1000 && insertions > 200, "{flips} {insertions}");
}

#[test]
fn a_room_that_does_not_suffice_keeps_whole_entries_and_is_11() {
    let mut seen = BTreeMap::new();
    for input in meshes(72, 780) {
        let whole = with_room(&input, usize::MAX).run_unchecked(LARGEST);
        let lent = match whole.refused {
            Some(_) => LARGEST,
            None => need(&input, &whole),
        };
        let list = entries(&whole.trace);
        let most = whole.trace.len();
        if most > 400 {
            continue;
        }
        for room in 1..=most + 1 {
            let run = with_room(&input, room).run_unchecked(lent);
            let mut kept = 0;
            while kept < list.len() && words(&list[..kept + 1]).len() <= room {
                kept += 1;
            }
            assert_eq!(run.trace, words(&list[..kept]), "{room}");
            let wanting = kept < list.len();
            assert_eq!(
                run.refused.or(whole.refused),
                if wanting { Some(11) } else { whole.refused }
            );
            same(&run, &replay(&input, lent, &run.trace).unwrap());
            if wanting {
                let kind = list[kept].words()[0];
                *seen.entry(kind).or_insert(0) += 1;
            }
        }
    }
    assert!([1, 2, 4].iter().all(|k| seen[k] > 500), "{seen:?}");
}

#[test]
fn eleven_is_tested_after_8_and_9_of_the_same_step() {
    let mut seen = BTreeMap::new();
    let makers = ["insertion", "graded", "grid", "heap", "slots"];
    for case in 0..400 {
        let name = makers[case as usize % makers.len()];
        let mut r = Random::new(73, case);
        let input = generators::kind(name).unwrap().1(&mut r, &SMALL);
        if !taken(&input) {
            continue;
        }
        let whole = with_room(&input, usize::MAX).run_unchecked(LARGEST);
        if whole.refused.is_some() || whole.trace.len() > 400 {
            continue;
        }
        let full = need(&input, &whole);
        let lent = Lent {
            points: r.from_to(input.points.len(), full.points),
            slots: r.from_to(input.triangles.len(), full.slots),
        };
        let free = with_room(&input, usize::MAX).run_unchecked(lent);
        let Some(number) = free.refused else {
            continue;
        };
        let used = free.trace.len();
        for room in 1..used + 12 {
            let run = with_room(&input, room).run_unchecked(lent);
            // Up to the step that points or slots refuse, the trace must have room; at that step it need not.
            let expected = if room < used { 11 } else { number };
            assert_eq!(run.refused, Some(expected), "{room} of {used}");
            assert!(free.trace.starts_with(&run.trace));
            same(&run, &replay(&input, lent, &run.trace).unwrap());
        }
        *seen.entry(number).or_insert(0) += 1;
    }
    assert!(seen[&8] > 5 && seen[&9] > 10, "{seen:?}");
}

#[test]
fn scarce_memory_ends_a_replay_where_it_ends_the_run() {
    let mut seen = BTreeMap::new();
    for input in meshes(74, 1040) {
        let whole = with_room(&input, usize::MAX).run_unchecked(LARGEST);
        if whole.refused.is_some() {
            continue;
        }
        let full = need(&input, &whole);
        for slots in input.triangles.len()..=full.slots {
            for points in [
                full.points,
                (full.points + input.points.len()) / 2,
                input.points.len(),
            ] {
                let lent = Lent { points, slots };
                let run = with_room(&input, usize::MAX).run_unchecked(lent);
                let played = replay(&input, lent, &whole.trace).unwrap();
                assert_eq!(played.refused, run.refused);
                assert_eq!(bits(&played.points), bits(&run.points));
                assert_eq!(played.quads.len(), run.quads.len());
                *seen.entry(run.refused).or_insert(0) += 1;
            }
        }
    }
    assert!(
        seen[&Some(8)] > 100 && seen[&Some(9)] > 100 && seen[&None] > 100,
        "{seen:?}"
    );
}

#[test]
fn every_sort_of_words_is_answered_and_most_sorts_in_several_ways() {
    let mut seen: BTreeMap<(&str, Option<u32>), usize> = BTreeMap::new();
    let (mut far, mut twice, mut empty) = (0, 0, 0);
    let lines = (0..100).map(|case| traces::on_a_line(&mut Random::new(77, case)));
    for (case, input) in meshes(75, 2600).into_iter().chain(lines).enumerate() {
        let trace = traces::whole(&input);
        let mut r = Random::new(76, case as u64);
        for (name, make) in traces::SORTS {
            let words = make(&input, &trace, &mut r);
            let lent = match r.below(4) {
                0 => Lent {
                    points: input.points.len() + r.below(4),
                    slots: input.triangles.len() + r.below(9),
                },
                _ => LARGEST,
            };
            let played = replay(&input, lent, &words).unwrap();
            *seen.entry((name, played.refused)).or_default() += 1;
            assert!(played.points.len() <= lent.points);
            assert!(played
                .points
                .iter()
                .all(|p| p[0].is_finite() && p[1].is_finite()));
            far += played.points.iter().any(|p| p[0].abs() > 8.0) as usize;
            empty += played.quads.iter().any(|q| q[7] == 0) as usize;
            let repeats = |q: &[u32; 8]| (0..4).any(|i| q[..i].contains(&q[i]));
            twice += played.quads.iter().any(repeats) as usize;
        }
    }
    for number in [None, Some(12), Some(8), Some(9)] {
        let all: usize = seen.iter().filter(|s| s.0 .1 == number).map(|s| s.1).sum();
        assert!(all > 100, "{number:?} {all}");
    }
    assert!(
        far > 20 && twice > 100 && empty > 100,
        "{far} {twice} {empty}"
    );
}

#[test]
fn a_flip_whose_test_is_no_number_is_taken() {
    let side = |a: [f64; 3], b: [f64; 3], p: [f64; 3]| {
        (b[0] - a[0]) * (p[1] - a[1]) - (b[1] - a[1]) * (p[0] - a[0])
    };
    let mut taken = 0;
    for case in 0..400 {
        let (input, words) = traces::far_flip(&mut Random::new(78, case));
        let played = replay(&input, LARGEST, &words).unwrap();
        if played.refused.is_none() {
            let at = |n: usize| played.points[n];
            let tests = [
                side(at(0), at(1), at(4)) * side(at(0), at(1), at(5)),
                side(at(4), at(5), at(0)) * side(at(4), at(5), at(1)),
            ];
            assert!(tests.iter().all(|t| t.is_nan() || *t < 0.0));
            taken += tests.iter().any(|t| t.is_nan()) as usize;
        }
    }
    assert!(taken > 0);
}

#[test]
fn flips_go_back_and_forth_without_end() {
    let mut words = Vec::new();
    for k in 0..2000 {
        words.extend(if k % 2 == 0 { [2, 0, 2] } else { [2, 1, 3] });
    }
    let played = on_square(&words);
    assert_eq!((played.refused, played.triangles.len()), (None, 2));
}
