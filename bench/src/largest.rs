//! Times on the largest meshes around one node that a call takes, where a whole run may take hours: of a job's mesh then, with so many attempts as the Rust makes in some seconds.

use reference::generators::hubs::HUBS;
use reference::input::{Input, LARGEST};
use sedgepick::lent::{self, Call, Further, Memory, State, Step};
use sedgepick::MOST_ALLOWANCE;

use crate::{call_for, clock, Lent};

/// The most triangles of a mesh.
const TRIANGLES: usize = 4096;

/// The allowance is doubled until the Rust took so many seconds.
const ENOUGH: f64 = 10.0;

/// Attempts after the first whose mean time is told.
const LATER: usize = 16;

/// What a run of at most so many attempts came to: its seconds, the attempts made, quads, points.
#[derive(Clone, Copy)]
struct Run {
    seconds: f64,
    made: usize,
    quads: usize,
    points: usize,
}

impl Run {
    fn says(&self) -> (usize, usize, usize) {
        (self.made, self.quads, self.points)
    }
}

fn rust(input: &Input, allowance: usize) -> Run {
    let start = clock();
    let result = input.run_within(LARGEST, Some(allowance.min(input.usual_limit())));
    Run {
        seconds: clock() - start,
        made: result.refusals.attempts - result.refusals.limit,
        quads: result.quads.len(),
        points: result.points.len(),
    }
}

fn port(input: &Input, allowance: usize) -> Run {
    let triangles = input.triangles.as_flattened();
    let run = |memory: Memory<'_>, call: Call| -> Step {
        let state = State::new(1, allowance);
        lent::job(state, triangles, memory, call, Further::default())
    };
    let call = call_for(input, |memory, call| run(memory, call).answer.err());
    let mut lent = Lent::new(&call);
    lent.clear(input);
    let start = clock();
    let step = run(lent.memory(), call);
    let seconds = clock() - start;
    let answer = step.answer.expect("a finished run");
    Run {
        seconds,
        made: step.charged,
        quads: answer.quads,
        points: answer.points,
    }
}

/// The largest mesh of a shape that is not refused: some have too many points before they have so many triangles.
fn largest(make: fn(usize) -> Input) -> Input {
    let mut sizes = (1..=TRIANGLES).rev().step_by(4).map(make);
    sizes
        .find(|input| input.refusal(LARGEST).is_none())
        .expect("a small mesh")
}

/// A row for each shape, or for the one that is named.
pub fn run(only: Option<String>) {
    println!("| shape | triangles | rule | attempts | quads | Rust, s | port, s | port / Rust |");
    println!("|---|---|---|---|---|---|---|---|");
    for (name, make) in HUBS {
        if only.as_ref().is_some_and(|o| o != name) {
            continue;
        }
        let input = largest(*make);
        let mut allowance = 1;
        let mut slow = rust(&input, allowance);
        while slow.seconds < ENOUGH && slow.made == allowance {
            allowance = (2 * allowance).min(MOST_ALLOWANCE);
            slow = rust(&input, allowance);
        }
        let fast = port(&input, allowance);
        assert_eq!(slow.says(), fast.says(), "attempts, quads and points");
        let whole = if slow.made < allowance {
            "all "
        } else {
            "the first "
        };
        println!(
            "| {name} | {} | {} | {whole}{} | {} | {:.2} | {:.2} | {:.2} |",
            input.triangles.len(),
            input.stop,
            slow.made,
            slow.quads,
            slow.seconds,
            fast.seconds,
            fast.seconds / slow.seconds
        );
    }
}

/// What attempts of the port take on the largest mesh of each shape, or of the one that is named: a whole call with one, and the mean of some after it.
pub fn attempts(only: Option<String>) {
    println!(
        "| shape | triangles | rule | a call with one attempt, ms | each attempt after it, ms |"
    );
    println!("|---|---|---|---|---|");
    for (name, make) in HUBS {
        if only.as_ref().is_some_and(|o| o != name) {
            continue;
        }
        let input = largest(*make);
        let (one, some) = (port(&input, 1), port(&input, 1 + LATER));
        let later = (some.seconds - one.seconds) / (some.made.max(2) - 1) as f64;
        println!(
            "| {name} | {} | {} | {:.2} | {:.2} |",
            input.triangles.len(),
            input.stop,
            1e3 * one.seconds,
            1e3 * later
        );
    }
}
