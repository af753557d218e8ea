//! Jobs over the linked library: shares, what is left, refused meshes, and states that are refused.

mod shapes;

use sedgepick::lent::{self, Call, Further, Memory, State, Step};
use sedgepick::raw::sedgepick_job;
use sedgepick::{run_front_with, Job, Mesh, Options, Refusal, Slab, MOST_ALLOWANCE, MOST_MESHES};
use shapes::grid;

fn sized() -> Options<'static> {
    Options {
        size: 0.25,
        ..Options::default()
    }
}

fn alone() -> Mesh {
    let (points, triangles) = grid(8);
    run_front_with(&points, &triangles, &sized()).unwrap()
}

/// What a slab was given, was charged and left.
fn account(slab: &Slab) -> (usize, usize, usize) {
    (slab.entitled, slab.charged, slab.left)
}

#[test]
fn a_limit_stops_a_mesh_and_what_is_left_goes_on() {
    let (points, triangles) = grid(8);
    let whole = alone();
    let need = whole.counts.attempts;
    assert!(whole.counts.limit == 0 && need > 4);
    let mut job = Job::new(3, 3 * (need - 1) + 2).unwrap();
    assert_eq!((job.share(), job.to_come()), (need - 1, 3));
    let first = job.run(&points, &triangles, &sized());
    assert_eq!(account(&first), (need - 1, need - 1, 0));
    let mesh = first.mesh.unwrap();
    assert_eq!((mesh.counts.limit, mesh.counts.attempts), (1, need));
    assert!(!mesh.quads.is_empty() && whole.quads.starts_with(&mesh.quads));
    let second = job.run(&points, &[[0, 1, 1]], &sized());
    assert_eq!(second.mesh, Err(Refusal::RepeatedNode));
    assert_eq!((second.charged, second.left), (0, need - 1));
    let third = job.run(&points, &triangles, &sized());
    assert_eq!(account(&third), (2 * (need - 1), need, need - 2));
    assert_eq!(third.mesh, Ok(whole));
    assert_eq!((job.charged(), job.to_come()), (2 * need - 1, 0));
    let state = job.state();
    let more = job.run(&points, &triangles, &sized());
    assert_eq!(
        (more.mesh, more.charged, job.state()),
        (Err(Refusal::BadJob), 0, state)
    );
}

#[test]
fn a_mesh_that_runs_out_of_memory_is_run_once_and_charged_what_it_began() {
    let (points, triangles) = grid(8);
    let need = alone().counts.attempts;
    let mut job = Job::new(2, 2 * need).unwrap();
    job.lend(0, triangles.len() + 1);
    let short = job.run(&points, &triangles, &sized());
    assert_eq!(short.mesh, Err(Refusal::NoSlots));
    // The first quad takes the one slot; the attempt that wants another is charged.
    assert!(1 < short.charged && short.charged < need);
    assert_eq!(account(&short), (need, short.charged, need - short.charged));
    let mut before = Job::new(1, short.charged - 1).unwrap();
    before.lend(0, triangles.len() + 1);
    let stopped = before.run(&points, &triangles, &sized()).mesh.unwrap();
    assert_eq!((stopped.quads.len(), stopped.counts.limit), (1, 1));
    job.lend(usize::MAX, usize::MAX);
    assert_eq!(job.run(&points, &triangles, &sized()).mesh, Ok(alone()));
}

#[test]
fn over_meshes_in_turn() {
    let (points, triangles) = grid(8);
    let need = alone().counts.attempts;
    let mut job = Job::new(4, 4 * need).unwrap();
    let asked = |k: usize| {
        let cells = if k == 1 { &[] } else { &triangles[..] };
        (&points[..], cells, sized())
    };
    // Asked for two, it runs two.
    let two: Vec<Slab> = job.over((0..).map(asked)).take(2).collect();
    assert_eq!((two[1].charged, two[1].left, job.to_come()), (0, need, 2));
    let rest: Vec<Slab> = job.over((2..).map(asked)).collect();
    assert_eq!(rest.len(), 2);
    assert!(rest.iter().all(|slab| slab.mesh == Ok(alone())));
    assert_eq!((job.charged(), job.to_come()), (3 * need, 0));
    assert_eq!(job.over((0..).map(asked)).count(), 0);
}

#[test]
fn the_usual_limit_stays_where_it_is_smaller() {
    let mut job = Job::new(1, MOST_ALLOWANCE).unwrap();
    let slab = job.run(&[], &[], &sized());
    assert_eq!((slab.entitled, slab.limit), (MOST_ALLOWANCE, 10_000));
    let mut job = Job::new(16, 15).unwrap();
    let (points, triangles) = grid(1);
    let slab = job.run(&points, &triangles, &sized());
    assert_eq!(account(&slab), (0, 0, 0));
    let counts = slab.mesh.unwrap().counts;
    assert_eq!((counts.attempts, counts.limit), (1, 1));
}

#[test]
fn bad_numbers_are_refused_at_the_start() {
    for (meshes, allowance) in [(0, 9), (17, 9), (1, 0), (1, MOST_ALLOWANCE + 1)] {
        assert_eq!(Job::new(meshes, allowance), Err(Refusal::BadJob));
    }
    assert!(Job::new(MOST_MESHES, MOST_ALLOWANCE).is_ok() && Job::new(1, 1).is_ok());
}

/// No triangles, over lent memory of one slot; the slices after it must be as they were where it is refused.
fn lend(state: State, stop: u32) -> Step {
    let call = Call {
        given: 0,
        capacity: 1,
        count: 0,
        slots: 1,
        size: 0.0,
        stop,
    };
    let (mut work, mut float_work) = (vec![7; call.work_len()], vec![7.0; call.float_work_len()]);
    let memory = Memory {
        points: &mut [7.0; 3],
        quads: &mut [7; 8],
        triangles: &mut [7; 3],
        components: &mut [7],
        work: &mut work,
        float_work: &mut float_work,
        trace: &mut [],
    };
    let step = lent::job(state, &[], memory, call, Further::default());
    let untouched = work.iter().all(|&n| n == 7) && float_work.iter().all(|&x| x == 7.0);
    assert_eq!(untouched, step.answer.is_err());
    step
}

#[test]
fn states_that_no_job_reaches_are_refused_before_all_else() {
    let state = |meshes, allowance, done, left| State {
        meshes,
        allowance,
        done,
        left,
    };
    for bad in [
        state(0, 9, 0, 0),
        state(17, 9, 0, 0),
        state(2, 0, 0, 0),
        state(2, MOST_ALLOWANCE + 1, 0, 0),
        state(2, 9, 2, 0),
        state(2, 9, usize::MAX, 0),
        state(2, 9, 0, 1),
        state(2, 9, 1, 5),
        state(2, 9, 1, usize::MAX),
    ] {
        for stop in [0, 2] {
            let step = lend(bad, stop);
            assert_eq!(
                (step.answer, step.charged, step.next),
                (Err(Refusal::BadJob), 0, bad)
            );
        }
    }
    let fine = state(2, 9, 1, 4);
    let next = state(2, 9, 2, 8);
    assert_eq!(lend(fine, 2).answer, Err(Refusal::BadStop));
    for stop in [0, 2] {
        let step = lend(fine, stop);
        assert_eq!((step.charged, step.next), (0, next));
    }
}

/// The exported call of a mesh without points or triangles, over so many of the job's numbers and of the answer's; what it returns, and what the two hold then.
fn exported(
    state: [usize; 5],
    job_len: usize,
    answer_len: usize,
    stop: u32,
) -> (usize, [usize; 5], [usize; 15]) {
    let (mut job, mut answer) = (state, [7; 15]);
    let words = std::ptr::NonNull::<u32>::dangling().as_ptr();
    let floats = std::ptr::NonNull::<f64>::dangling().as_ptr();
    // Nothing is lent but the two arrays, whose lengths are not passed.
    #[rustfmt::skip]
    let number = unsafe {
        sedgepick_job(
            floats, 0, words, 0, words, 0, words, 0, words, 0, words, 0, words, 0, floats, 0, words, 0,
            0, 0, 0, 0, 0, 0.0, stop, 0.3, 0.9, 0.5, 2.2, 8, 0,
            job.as_mut_ptr(), job_len, answer.as_mut_ptr(), answer_len,
        )
    };
    (number, job, answer)
}

#[test]
fn sixteen_and_slices_without_room_write_nothing() {
    let (good, bad, answer) = ([2, 9, 1, 4, 77], [2, 9, 1, 5, 77], [7; 15]);
    for stop in [0, 2] {
        for length in 0..5 {
            assert_eq!(exported(good, length, 15, stop), (4, good, answer));
            assert_eq!(exported(bad, length, 0, stop), (4, bad, answer));
        }
        for length in [0, 14, 15] {
            assert_eq!(exported(bad, 5, length, stop), (16, bad, answer));
        }
        for length in [0, 14] {
            assert_eq!(exported(good, 5, length, stop), (4, good, answer));
        }
    }
    assert_eq!(exported(good, 5, 15, 2), (3, [2, 9, 2, 8, 0], answer));
    let (number, job, answer) = exported(good, 5, 15, 0);
    assert_eq!(
        (number, job, answer[..2].to_vec()),
        (0, [2, 9, 2, 8, 0], vec![1, 0])
    );
}
