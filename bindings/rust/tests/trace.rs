//! Traces and replays over the linked library: that a trace changes nothing, that its replay is the run, entry by entry, words that no run wrote, and what is left of the lent memory.

mod shapes;

use sedgepick::lent::{self, Call, Further, Memory, Told};
use sedgepick::{
    entries, replay, run_front, run_front_with, Entry, Job, Mesh, Options, Quad, Refusal, Replayed,
    Stop,
};
use shapes::{grid, FLARED, HALVES, SQUARE};

const QUAD: [u32; 11] = [4, 0, 1, 2, 3, 0, 1, 1, 2, 0, 1];

fn traced(size: f64, stop: Stop) -> Options<'static> {
    Options {
        size,
        stop,
        trace: true,
        ..Options::default()
    }
}

fn lists(mesh: &Mesh) -> Replayed {
    Replayed {
        points: mesh.points.clone(),
        quads: mesh.quads.clone(),
        triangles: mesh.triangles.clone(),
        components: mesh.components.clone(),
    }
}

#[test]
fn a_trace_changes_nothing_and_its_replay_is_the_run() {
    for side in [1, 3, 6, 12] {
        let (points, triangles) = grid(side);
        for (size, stop) in [
            (0.0, Stop::Exhaust),
            (0.15, Stop::EvenComponents),
            (0.5, Stop::Exhaust),
        ] {
            let plain = run_front(&points, &triangles, size, stop).unwrap();
            assert!(plain.trace.is_empty());
            let mesh = run_front_with(&points, &triangles, &traced(size, stop)).unwrap();
            let trace = mesh.trace.clone();
            assert_eq!(Mesh { trace, ..plain }, mesh);
            assert_eq!(
                replay(&points, &triangles, &mesh.trace),
                Ok(lists(&mesh)),
                "{side} {size}"
            );
            steps(&points, &triangles, &mesh);
        }
    }
}

/// The mesh after each entry: what the entry says, and nothing else, came about.
fn steps(points: &[[f64; 3]], triangles: &[[u32; 3]], mesh: &Mesh) {
    let list: Vec<Entry> = entries(&mesh.trace).collect();
    let words: Vec<u32> = list.iter().flat_map(Entry::words).collect();
    assert_eq!(words, mesh.trace);
    let mut before = replay(points, triangles, &[]).unwrap();
    assert_eq!((&before.triangles[..], before.quads.len()), (triangles, 0));
    let mut at = 0;
    for entry in &list {
        at += entry.words().len();
        if list.len() > 60 && at % 7 > 0 && at < mesh.trace.len() {
            continue;
        }
        let after = replay(points, triangles, &mesh.trace[..at]).unwrap();
        if list.len() <= 60 {
            step(entry, &before, &after);
        }
        assert!(mesh.points.starts_with(&after.points));
        assert!(mesh.quads.starts_with(&after.quads));
        before = after;
    }
    assert_eq!(before, lists(mesh));
}

fn step(entry: &Entry, before: &Replayed, after: &Replayed) {
    let sizes = (before.triangles.len(), before.quads.len());
    match entry {
        Entry::Insertion { x, y, .. } => {
            assert_eq!(after.points.last(), Some(&[*x, *y, 0.0]));
            assert_eq!(
                (after.triangles.len(), after.quads.len()),
                (sizes.0 + 2, sizes.1)
            );
        }
        Entry::Flip { edge: [u, v] } => {
            let has = |m: &Replayed| {
                let both = |t: &&[u32; 3]| t.contains(u) && t.contains(v);
                m.triangles.iter().filter(both).count()
            };
            assert!(u < v);
            assert_eq!((has(before), has(after)), (2, 0));
            assert_eq!((after.triangles.len(), after.quads.len()), sizes);
        }
        Entry::Quad { quad, slots } => {
            assert_eq!(after.quads.last(), Some(quad));
            assert_eq!(quad.replaced as usize, slots.len());
            assert_eq!(after.triangles.len(), sizes.0 - slots.len());
        }
    }
}

#[test]
fn all_three_kinds() {
    let mesh = run_front_with(&FLARED, &HALVES, &traced(0.5, Stop::Exhaust)).unwrap();
    let list: Vec<Entry> = entries(&mesh.trace).collect();
    let first = Entry::Insertion {
        slot: 1,
        x: 0.0,
        y: 0.5,
    };
    let quad = Quad {
        nodes: [0, 1, 5, 4],
        edge: [0, 1],
        round: 1,
        replaced: 2,
    };
    assert_eq!(list[0], first);
    assert_eq!(list[2], Entry::Flip { edge: [0, 2] });
    assert!(matches!(&list[3], Entry::Quad { quad: q, .. } if *q == quad));
    let count = |is: fn(&Entry) -> bool| list.iter().filter(|e| is(e)).count();
    assert_eq!(count(|e| matches!(e, Entry::Quad { .. })), mesh.quads.len());
    assert_eq!(
        count(|e| matches!(e, Entry::Insertion { .. })),
        mesh.counts.mismatch_insertions
    );
    steps(&FLARED, &HALVES, &mesh);
}

#[test]
fn words_that_no_run_wrote() {
    let on = |words: &[u32]| replay(&SQUARE, &HALVES, words);
    assert_eq!(on(&QUAD).unwrap().quads.len(), 1);
    for cut in 1..11 {
        assert_eq!(on(&QUAD[..cut]), Err(Refusal::BadTrace));
    }
    for more in [0, 1, 2, 3, 4, u32::MAX] {
        assert_eq!(on(&[&QUAD[..], &[more]].concat()), Err(Refusal::BadTrace));
    }
    for bad in [
        [2, 2, 0],
        [2, 0, 1],
        [2, 0, 0],
        [2, 1, 3],
        [2, 0, u32::MAX],
        [3, 0, 2],
    ] {
        assert_eq!(on(&bad), Err(Refusal::BadTrace));
    }
    let insertion = |slot, x, y| Entry::Insertion { slot, x, y }.words();
    assert_eq!(on(&insertion(0, 0.75, 0.5)).unwrap().triangles.len(), 4);
    for (slot, x, y) in [
        (0, 0.5, 0.5),
        (0, f64::NAN, 0.5),
        (0, 0.75, f64::INFINITY),
        (1, 0.75, 0.5),
        (2, 0.75, 0.5),
        (u32::MAX, 0.75, 0.5),
    ] {
        assert_eq!(on(&insertion(slot, x, y)), Err(Refusal::BadTrace));
    }
    // No condition refuses a node twice in a quad, one in place of nothing, any edge and any round.
    let odd = on(&[4, 0, 2, 0, 2, 9, 8, 6, 0]).unwrap();
    let quad = Quad {
        nodes: [0, 2, 0, 2],
        edge: [9, 8],
        round: 6,
        replaced: 0,
    };
    assert_eq!((odd.quads, odd.triangles), (vec![quad], HALVES.to_vec()));
    let many = [4, 0, 1, 2, 3, 0, 1, 1, 0].repeat(20_000);
    assert_eq!(on(&many), Err(Refusal::NoSlots));
    assert_eq!(
        replay(&SQUARE, &[[0, 1, 4]], &QUAD),
        Err(Refusal::UnknownNode)
    );
    assert_eq!(
        replay(&SQUARE, &[[0, 1, 1]], &QUAD),
        Err(Refusal::RepeatedNode)
    );
    assert_eq!(
        replay(&[[9.0; 3]; 4], &HALVES, &QUAD),
        Err(Refusal::FarPoint)
    );
    assert_eq!(
        replay(&vec![[0.0; 3]; 4097], &[], &[]),
        Err(Refusal::OverLimit)
    );
    assert_eq!(replay(&[], &[], &[]), Ok(Replayed::default()));
}

#[test]
fn entries_end_before_what_is_none() {
    let words = [
        &[2, 0, 2][..],
        &QUAD,
        &[4, 0, 1, 2, 3, 0, 1, 1, u32::MAX, 0],
    ]
    .concat();
    let mut list = entries(&words);
    assert_eq!(list.next(), Some(Entry::Flip { edge: [0, 2] }));
    assert!(matches!(list.next(), Some(Entry::Quad { .. })));
    assert_eq!((list.next(), list.rest().len()), (None, 10));
}

/// The square with so many words of trace; what stands behind the entries stays.
#[test]
fn rooms() {
    for room in 0..14 {
        let call = Call {
            given: 4,
            capacity: 4,
            count: 2,
            slots: 3,
            size: 1.0,
            stop: 0,
        };
        let mut trace = vec![7; room];
        let mut work = vec![7; call.work_len()];
        let memory = Memory {
            points: &mut SQUARE.as_flattened().to_vec(),
            quads: &mut [7; 24],
            triangles: &mut [7; 9],
            components: &mut [7; 3],
            work: &mut work,
            float_work: &mut [7.0; 12],
            trace: &mut trace,
        };
        let cells = HALVES.as_flattened();
        let answer = lent::run_front_with(cells, memory, call, Further::default());
        let used = if room < 11 { 0 } else { 11 };
        match answer {
            Ok(answer) => assert_eq!((answer.words, answer.quads), (used, 1)),
            Err(refusal) => assert_eq!(refusal, Refusal::NoTrace),
        }
        assert_eq!(answer.is_err(), (1..11).contains(&room));
        assert_eq!(trace[..used], QUAD[..used]);
        assert!(trace[used..].iter().all(|&word| word == 7));
        assert!(work.iter().all(|&n| n == 0));
    }
}

/// A replay over lent memory of so many points and slots: what it gives, and what it leaves of points and quads.
fn lend(
    trace: &[u32],
    words: usize,
    capacity: usize,
    slots: usize,
) -> (Result<lent::Lengths, Refusal>, usize, usize) {
    let told = Told {
        given: 4,
        capacity,
        count: 2,
        slots,
        words,
    };
    let mut points = vec![7.5; 3 * 6];
    points[..12].copy_from_slice(SQUARE.as_flattened());
    let (mut quads, mut left, mut components) = (vec![77; 8 * 6], vec![77; 3 * 6], vec![77; 6]);
    let (mut work, mut float_work) = (vec![77; 64 * 6 + 8 * 6], vec![77.0; 4 * 6]);
    let memory = Memory {
        points: &mut points,
        quads: &mut quads,
        triangles: &mut left,
        components: &mut components,
        work: &mut work,
        float_work: &mut float_work,
        trace: &mut [],
    };
    let got = lent::replay(HALVES.as_flattened(), trace, memory, told);
    let early = matches!(got, Err(Refusal::OverLimit | Refusal::TooShort));
    let then = if early { 77 } else { 0 };
    assert!(work.iter().all(|&n| n == then) && float_work.iter().all(|&x| x == f64::from(then)));
    if got.is_err() {
        assert!(left.iter().chain(&components).all(|&n| n == 77));
    }
    let added = points[12..].iter().filter(|&&x| x != 7.5).count() / 3;
    let placed = quads.iter().filter(|&&n| n != 77).count() / 8;
    (got, added, placed)
}

#[test]
fn lent_memory() {
    let refused = |refusal, added, placed| (Err(refusal), added, placed);
    let insertion = Entry::Insertion {
        slot: 0,
        x: 0.75,
        y: 0.5,
    };
    let (good, bad) = (insertion.words(), [1, 0, 0, 1071644672, 0, 1071644672]);
    let lengths = lent::Lengths {
        quads: 1,
        triangles: 0,
        points: 4,
        components: 0,
    };
    assert_eq!(lend(&QUAD, 11, 4, 3), (Ok(lengths), 0, 1));
    assert_eq!(lend(&QUAD, 11, 4, 2), refused(Refusal::NoSlots, 0, 0));
    assert_eq!(lend(&good, 6, 4, 2), refused(Refusal::NoPoint, 0, 0));
    assert_eq!(lend(&good, 6, 5, 3), refused(Refusal::NoSlots, 0, 0));
    assert_eq!(lend(&bad, 6, 4, 2), refused(Refusal::BadTrace, 0, 0));
    let both = [&good[..], &good, &[3]].concat();
    assert_eq!(lend(&both, 12, 5, 6), refused(Refusal::BadTrace, 1, 0));
    let odd = [&good[..], &[4, 0, 1, 2, 3, 0, 1, 1, 0, 9]].concat();
    assert_eq!(lend(&odd, 16, 5, 5), refused(Refusal::BadTrace, 1, 1));
    assert_eq!(lend(&odd, 15, 5, 4), refused(Refusal::NoSlots, 1, 0));
    assert_eq!(lend(&QUAD, 12, 4, 3), refused(Refusal::TooShort, 0, 0));
    assert_eq!(
        lend(&QUAD, usize::MAX, 4, 3),
        refused(Refusal::TooShort, 0, 0)
    );
    assert_eq!(lend(&QUAD, 11, 3, 3), refused(Refusal::TooShort, 0, 0));
    assert_eq!(lend(&QUAD, 12, 8193, 3), refused(Refusal::OverLimit, 0, 0));
}

#[test]
fn a_mesh_of_a_job_has_its_trace_too() {
    let (points, triangles) = grid(6);
    let options = traced(0.2, Stop::Exhaust);
    let alone = run_front_with(&points, &triangles, &options).unwrap();
    let mut job = Job::new(2, 100_000).unwrap();
    job.lend_trace(20);
    let short = job.run(&points, &triangles, &options);
    assert_eq!(short.mesh, Err(Refusal::NoTrace));
    assert!(short.charged > 0 && short.left == 50_000 - short.charged);
    job.lend_trace(alone.trace.len());
    assert_eq!(job.run(&points, &triangles, &options).mesh, Ok(alone));
}
