//! What joints cost: the largest mesh without them, with as many as may be that are never edges, so that the run is the same, and with as many of its edges.

use reference::generators::joints::edges;
use reference::input::{Input, MOST_JOINTS};
use reference::random::Random;

use crate::{plate, port, port_with, PASSES, STEPS, TRIANGLES};

/// A mesh, and the best times so far: without joints by both functions of the library, with pairs of nodes far apart, with edges.
struct Row {
    plain: Input,
    apart: Input,
    edges: Input,
    steps: f64,
    times: [f64; 4],
    quads: [usize; 2],
}

/// The mesh with pairs of nodes that share no edge, half the mesh between their numbers.
fn with_pairs_apart(plain: &Input) -> Input {
    let (given, all) = (plain.points.len(), edges(plain));
    let step = given / 2 / MOST_JOINTS;
    let pair = |i: usize| [(step * i) as u32, (step * i + given / 2) as u32];
    let joints: Vec<[u32; 2]> = (0..MOST_JOINTS).map(pair).collect();
    assert!(joints.iter().all(|j| !all.contains(j)), "pairs apart");
    Input {
        joints,
        ..plain.clone()
    }
}

/// The mesh with some of its edges.
fn with_edges(plain: &Input) -> Input {
    let mut joints: Vec<[u32; 2]> = edges(plain).into_iter().collect();
    Random::new(11, 0).shuffle(&mut joints);
    joints.truncate(MOST_JOINTS);
    Input {
        joints,
        ..plain.clone()
    }
}

impl Row {
    fn new(steps: f64, stop: u32) -> Self {
        let plain = plate(TRIANGLES[2], steps, stop);
        Row {
            apart: with_pairs_apart(&plain),
            edges: with_edges(&plain),
            plain,
            steps,
            times: [f64::INFINITY; 4],
            quads: [0; 2],
        }
    }

    fn run(&mut self) {
        let ran = [
            port(&self.plain),
            port_with(&self.plain),
            port_with(&self.apart),
            port_with(&self.edges),
        ];
        assert!(ran[0].1 == ran[1].1, "the two functions");
        self.quads = [ran[0].1 .0, ran[3].1 .0];
        for (least, (time, _)) in self.times.iter_mut().zip(ran) {
            *least = least.min(time);
        }
    }

    fn print(&self) {
        let [plain, with, apart, edges] = self.times;
        println!(
            "| {} | {} | {} | {plain:.2} | {with:.2} | {apart:.2} | {:.2} | {edges:.2} | {:.2} | {} |",
            self.steps,
            self.plain.stop,
            self.quads[0],
            apart / with,
            edges / with,
            self.quads[1]
        );
    }
}

pub fn run() {
    let rules = STEPS.iter().flat_map(|s| [0, 1].map(|stop| (*s, stop)));
    let mut rows: Vec<Row> = rules.map(|(s, stop)| Row::new(s, stop)).collect();
    for _ in 0..PASSES {
        rows.iter_mut().for_each(Row::run);
    }
    let triangles = rows[0].plain.triangles.len();
    println!("{triangles} triangles, {MOST_JOINTS} joints; times of the port in ms");
    println!("| size | rule | quads | plain | without joints | pairs apart | / without | edges | / without | quads with edges |");
    println!("|---|---|---|---|---|---|---|---|---|---|");
    rows.iter().for_each(Row::print);
}
