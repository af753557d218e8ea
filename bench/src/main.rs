//! Times of the port, linked from its static library, and of the patched Rust on the same meshes, in one run.
//! A word in front asks for something else:
//!
//! - `hubs [SHAPE]`: meshes around one node; `largest [SHAPE]`: the largest of them;
//!   `attempts [SHAPE]`: what an attempt of the port takes on these;
//! - `slabs FILE..`: slabs that Gmsh meshed;
//! - `filing`: the filing order; `joints`: the port with and without joints;
//! - `accept [meshes|hard]`: the acceptance.

mod accept;
mod filing;
mod hubs;
mod joints;
mod largest;
mod slabs;

use reference::generators::large::SHAPES;
use reference::input::{Input, LARGEST};
use reference::random::Random;
use sedgepick::lent::{self, Call, Further, Memory, Set};
use sedgepick::Refusal;

/// Triangles of the meshes: a jittered grid with a hole.
const TRIANGLES: [usize; 3] = [200, 800, 4000];

/// Element sizes, in steps of the grid; 0 is none.
const STEPS: [f64; 3] = [0.0, 1.0, 3.0];

/// All meshes are gone through so often, so that a time when the machine is slow falls on few of them; each time a mesh is run so often, but not longer than this. The best run counts.
const PASSES: usize = 3;
const RUNS: usize = 5;
const MOST_SECONDS: f64 = 1.0;

/// The processor time of this thread, in seconds: other programs on the machine count less than in the time of day.
fn clock() -> f64 {
    #[repr(C)]
    struct Time {
        seconds: i64,
        nanoseconds: i64,
    }
    extern "C" {
        fn clock_gettime(clock: i32, time: *mut Time) -> i32;
    }
    const THREAD: i32 = 3;
    let mut t = Time {
        seconds: 0,
        nanoseconds: 0,
    };
    assert_eq!(
        unsafe { clock_gettime(THREAD, &mut t) },
        0,
        "the thread's clock"
    );
    t.seconds as f64 + 1e-9 * t.nanoseconds as f64
}

/// The slices that the port is lent, cleared before each run.
struct Lent {
    points: Vec<f64>,
    quads: Vec<u32>,
    triangles: Vec<u32>,
    components: Vec<u32>,
    work: Vec<u32>,
    float_work: Vec<f64>,
}

impl Lent {
    fn new(call: &Call) -> Self {
        Lent {
            points: vec![0.0; 3 * call.capacity],
            quads: vec![0; call.quads_len()],
            triangles: vec![0; 3 * call.slots],
            components: vec![0; call.slots],
            work: vec![0; call.work_len()],
            float_work: vec![0.0; call.float_work_len()],
        }
    }

    fn clear(&mut self, input: &Input) {
        self.points.fill(0.0);
        let given = input.points.iter().flatten().map(|&b| f64::from_bits(b));
        self.points
            .iter_mut()
            .zip(given)
            .for_each(|(to, from)| *to = from);
        self.quads.fill(0);
        self.triangles.fill(0);
        self.components.fill(0);
        self.work.fill(0);
        self.float_work.fill(0.0);
    }

    fn memory(&mut self) -> Memory<'_> {
        Memory {
            points: &mut self.points,
            quads: &mut self.quads,
            triangles: &mut self.triangles,
            components: &mut self.components,
            work: &mut self.work,
            float_work: &mut self.float_work,
            trace: &mut [],
        }
    }
}

/// The least time of some runs, in milliseconds, and what the last one gave.
fn best<T>(mut run: impl FnMut() -> (f64, T)) -> (f64, T) {
    let (mut least, mut last) = run();
    let mut sum = least;
    for _ in 1..RUNS {
        if sum > MOST_SECONDS {
            break;
        }
        let (seconds, result) = run();
        sum += seconds;
        least = least.min(seconds);
        last = result;
    }
    (1e3 * least, last)
}

/// A large shape of about so many triangles.
fn shape(name: &str, triangles: usize) -> Input {
    let (_, make) = SHAPES.iter().find(|s| s.0 == name).expect("a shape");
    make(&mut Random::new(7, triangles as u64), triangles)
}

/// A jittered grid with a hole, at so many steps as its size.
fn plate(triangles: usize, steps: f64, stop: u32) -> Input {
    let input = shape("plate", triangles);
    let size = (steps * input.size()).min(8.0);
    Input {
        size: size.to_bits(),
        stop,
        ..input
    }
}

/// A call with the memory that the binding lends at first, or twice as much as often as it takes: both work slices are cleared whole at the end of a call, so more than is needed costs time. `refusal` makes the call and tells how it was refused.
fn call_for(input: &Input, refusal: impl Fn(Memory<'_>, Call) -> Option<Refusal>) -> Call {
    let (given, count) = (input.points.len(), input.triangles.len());
    let mut call = Call {
        given,
        capacity: (given + given / 4 + 32).min(LARGEST.points),
        count,
        slots: (2 * count + 64).min(LARGEST.slots),
        size: input.size(),
        stop: input.stop,
    };
    loop {
        let mut lent = Lent::new(&call);
        lent.clear(input);
        match refusal(lent.memory(), call) {
            Some(Refusal::NoPoint) => call.capacity = (2 * call.capacity).min(LARGEST.points),
            Some(Refusal::NoSlots) => call.slots = (2 * call.slots).min(LARGEST.slots),
            _ => return call,
        }
    }
}

/// So for a whole run.
fn call_of(input: &Input) -> Call {
    let triangles = input.triangles.as_flattened();
    call_for(input, |memory, call| {
        lent::run_front(triangles, memory, call).err()
    })
}

/// The port's time with joints, and counts of quads and points.
fn port_with(input: &Input) -> (f64, (usize, usize)) {
    let call = call_of(input);
    let mut lent = Lent::new(&call);
    let further = Further {
        joints: input.joints.as_flattened(),
        joint_count: input.joints.len(),
        set: Set::default(),
        grid: input.grid,
    };
    best(|| {
        lent.clear(input);
        let start = clock();
        let triangles = input.triangles.as_flattened();
        let answer = lent::run_front_with(triangles, lent.memory(), call, further);
        let seconds = clock() - start;
        let answer = answer.expect("a finished run");
        (seconds, (answer.quads, answer.points))
    })
}

/// The port's time and counts of quads and points.
fn port(input: &Input) -> (f64, (usize, usize)) {
    let call = call_of(input);
    let mut lent = Lent::new(&call);
    best(|| {
        lent.clear(input);
        let start = clock();
        let answer = lent::run_front(input.triangles.as_flattened(), lent.memory(), call);
        let seconds = clock() - start;
        let answer = answer.expect("a finished run");
        (seconds, (answer.quads, answer.points))
    })
}

/// The same of the Rust.
fn rust(input: &Input) -> (f64, (usize, usize)) {
    best(|| {
        let start = clock();
        let result = input.run_unchecked(LARGEST);
        let seconds = clock() - start;
        (seconds, (result.quads.len(), result.points.len()))
    })
}

/// A mesh, what its line says of its size or shape, and the best times so far of the Rust and of the port.
struct Row {
    input: Input,
    size: String,
    rust: f64,
    port: f64,
    made: (usize, usize),
}

impl Row {
    fn new(input: Input, size: String) -> Self {
        Row {
            input,
            size,
            rust: f64::INFINITY,
            port: f64::INFINITY,
            made: (0, 0),
        }
    }

    fn run(&mut self) {
        let (slow, made) = rust(&self.input);
        let (fast, same) = port(&self.input);
        assert_eq!(made, same, "quads and points");
        self.rust = self.rust.min(slow);
        self.port = self.port.min(fast);
        self.made = made;
    }

    fn print(&self) {
        let (quads, points) = self.made;
        println!(
            "| {} | {} | {} | {quads} | {} | {:.2} | {:.2} | {:.2} |",
            self.input.triangles.len(),
            self.size,
            self.input.stop,
            points - self.input.points.len(),
            self.rust,
            self.port,
            self.port / self.rust
        );
    }
}

fn print_head(second: &str) {
    println!("| triangles | {second} | rule | quads | points added | Rust, ms | port, ms | port / Rust |");
    println!("|---|---|---|---|---|---|---|---|");
}

fn main() {
    match std::env::args().nth(1).as_deref() {
        Some("accept") => return accept::run(std::env::args().nth(2)),
        Some("hubs") => return hubs::run(std::env::args().nth(2)),
        Some("largest") => return largest::run(std::env::args().nth(2)),
        Some("attempts") => return largest::attempts(std::env::args().nth(2)),
        Some("filing") => return filing::run(),
        Some("joints") => return joints::run(),
        Some("slabs") => return slabs::run(&std::env::args().skip(2).collect::<Vec<_>>()),
        _ => {}
    }
    let mut rows = Vec::new();
    for steps in STEPS {
        for stop in [0, 1] {
            for n in TRIANGLES {
                rows.push(Row::new(plate(n, steps, stop), format!("{steps}")));
            }
        }
    }
    for _ in 0..PASSES {
        rows.iter_mut().for_each(Row::run);
    }
    print_head("size");
    rows.iter().for_each(Row::print);
    let (from, to) = (TRIANGLES[1], TRIANGLES[2]);
    println!("\n| size | rule | Rust, {from} to {to} triangles | port |");
    println!("|---|---|---|---|");
    for group in rows.chunks(TRIANGLES.len()) {
        let (small, large) = (&group[1], &group[2]);
        println!(
            "| {} | {} | {:.1} times | {:.1} times |",
            small.size,
            small.input.stop,
            large.rust / small.rust,
            large.port / small.port
        );
    }
}
