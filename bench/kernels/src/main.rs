//! Single functions of the port, linked from their static library: their times beside those of the hardware's root and the patched Rust's metrics, in one run; and, by
//! `roots MILLIONS`, the port's root against the hardware's. Where an earlier library is linked as well (`KERNELS_BEFORE`, build.rs), its times stand in a column more.

mod roots;

use reference::random::Random;
use std::hint::black_box;
use std::process::exit;

/// The patched Rust's metrics.
mod rust {
    type Node = [f64; 3];

    #[inline(never)]
    pub fn metrics(points: &[Node]) -> Option<(f64, f64)> {
        quad_metrics(points, &[0, 1, 2, 3])
    }

    include!(concat!(env!("OUT_DIR"), "/metrics.rs"));
}

type Root = unsafe extern "C" fn(f64) -> f64;
type Score = unsafe extern "C" fn(f64, f64, f64, f64, f64, f64, f64, f64) -> f64;

#[rustfmt::skip]
extern "C" {
    fn sedgepick_sqrt(x: f64) -> f64;
    fn sedgepick_quad_score(ax: f64, ay: f64, bx: f64, by: f64, cx: f64, cy: f64, dx: f64, dy: f64) -> f64;
}

#[cfg(before)]
#[rustfmt::skip]
extern "C" {
    fn before_sqrt(x: f64) -> f64;
    fn before_quad_score(ax: f64, ay: f64, bx: f64, by: f64, cx: f64, cy: f64, dx: f64, dy: f64) -> f64;
}

/// What a library has.
#[derive(Clone, Copy)]
struct Kernels {
    name: &'static str,
    root: Root,
    quad_score: Score,
}

impl Kernels {
    fn sqrt(self, x: f64) -> f64 {
        unsafe { (self.root)(x) }
    }

    fn score(self, p: &[[f64; 3]]) -> f64 {
        unsafe {
            (self.quad_score)(
                p[0][0], p[0][1], p[1][0], p[1][1], p[2][0], p[2][1], p[3][0], p[3][1],
            )
        }
    }
}

const PORT: Kernels = Kernels {
    name: "port",
    root: sedgepick_sqrt,
    quad_score: sedgepick_quad_score,
};

const LIBRARIES: &[Kernels] = &[
    PORT,
    #[cfg(before)]
    Kernels {
        name: "before",
        root: before_sqrt,
        quad_score: before_quad_score,
    },
];

/// How many numbers or quads there are, and how often all are gone through; the best time of many such short runs counts, so that other work on the machine falls outside.
const MANY: usize = 1000;
const ROUNDS: usize = 10;
const RUNS: usize = 300;

/// A quad's score by the Rust's metrics, NaN where it has none.
fn rust_score(points: &[[f64; 3]]) -> f64 {
    match rust::metrics(points) {
        Some((sj, k)) => sj.min((1.0 - k * k).sqrt()),
        None => f64::NAN,
    }
}

/// Goes through all numbers or quads once.
type Pass<'a> = Box<dyn FnMut() + 'a>;

/// Each root waits for the last one.
fn chained<'a>(numbers: &'a [f64], root: impl Fn(f64) -> f64 + 'a) -> Pass<'a> {
    Box::new(move || {
        let end = numbers.iter().fold(0.5, |x, n| root(x + n));
        black_box(end);
    })
}

/// Roots that need not wait.
fn apart<'a>(numbers: &'a [f64], root: impl Fn(f64) -> f64 + 'a) -> Pass<'a> {
    Box::new(move || {
        for &n in numbers {
            black_box(root(black_box(n)));
        }
    })
}

fn scores<'a>(quads: &'a [[[f64; 3]; 4]], score: impl Fn(&[[f64; 3]]) -> f64 + 'a) -> Pass<'a> {
    Box::new(move || {
        for q in quads {
            black_box(score(black_box(q)));
        }
    })
}

/// Nanoseconds of one step of a pass.
fn time(pass: &mut Pass) -> f64 {
    let start = std::time::Instant::now();
    (0..ROUNDS).for_each(|_| pass());
    start.elapsed().as_secs_f64() * 1e9 / (MANY * ROUNDS) as f64
}

/// The best times of the Rust and of each library, taken in turn, and how many times the Rust's each is.
fn row<'a>(what: &str, rust: Pass<'a>, port: impl Fn(Kernels) -> Pass<'a>) {
    let mut passes = vec![rust];
    passes.extend(LIBRARIES.iter().map(|&k| port(k)));
    let mut best = vec![f64::INFINITY; passes.len()];
    for _ in 0..RUNS {
        for (b, pass) in best.iter_mut().zip(&mut passes) {
            *b = b.min(time(pass));
        }
    }
    print!("| {what} | {:.1} |", best[0]);
    for b in &best[1..] {
        print!(" {b:.1} | {:.2} |", b / best[0]);
    }
    println!();
}

fn times() {
    let mut random = Random::new(4, 0);
    let numbers: Vec<f64> = (0..MANY).map(|_| 8.0 * random.unit()).collect();
    let square = [[0.0, 0.0], [1.0, 0.0], [1.0, 1.0], [0.0, 1.0]];
    let quads: Vec<[[f64; 3]; 4]> = (0..MANY)
        .map(|_| square.map(|c| [c[0] + 0.3 * random.unit(), c[1] + 0.3 * random.unit(), 0.0]))
        .collect();
    let small: Vec<f64> = (0..MANY)
        .map(|_| f64::from_bits(1 + (random.bits() >> 12)))
        .collect();
    for &n in numbers.iter().chain(&small) {
        assert_eq!(PORT.sqrt(n).to_bits(), n.sqrt().to_bits(), "a root");
    }
    for q in &quads {
        assert_eq!(PORT.score(q).to_bits(), rust_score(q).to_bits(), "a score");
    }
    print!("| what | Rust, ns |");
    LIBRARIES
        .iter()
        .for_each(|k| print!(" {0}, ns | {0} / Rust |", k.name));
    println!("\n|---|---{}|", "|---|---".repeat(LIBRARIES.len()));
    row(
        "root, each after the last",
        chained(&numbers, f64::sqrt),
        |k| chained(&numbers, move |x| k.sqrt(x)),
    );
    row("root, apart", apart(&numbers, f64::sqrt), |k| {
        apart(&numbers, move |x| k.sqrt(x))
    });
    row(
        "root of a subnormal, apart",
        apart(&small, f64::sqrt),
        |k| apart(&small, move |x| k.sqrt(x)),
    );
    row(
        "a quad's metrics and score",
        scores(&quads, rust_score),
        |k| scores(&quads, move |q| k.score(q)),
    );
}

fn main() {
    let words: Vec<String> = std::env::args().skip(1).collect();
    match &words[..] {
        [] => {
            assert!(roots::single(), "special operands");
            times();
        }
        [what, millions] if what == "roots" => {
            let millions = millions.parse().expect("a number of millions");
            exit(i32::from(!roots::compare(millions)));
        }
        _ => {
            eprintln!("kernels, or kernels roots MILLIONS");
            exit(2);
        }
    }
}
