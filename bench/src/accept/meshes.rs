//! Meshes to time the acceptance on.

use reference::accept::MOST;
use sedgepick::{run_front, Mesh, Stop};

/// The cosine of the standard set.
pub const COSINE: f64 = 0.90630778703665;

/// A mesh and the mesh it was made of, whose points are the first of its own.
#[derive(Clone, Default)]
pub struct Judged {
    pub given: usize,
    pub triangles: Vec<[u32; 3]>,
    pub points: Vec<[f64; 3]>,
    pub quads: Vec<[u32; 4]>,
    pub left: Vec<[u32; 3]>,
    pub joints: Vec<[u32; 2]>,
}

impl Judged {
    pub fn cells(&self) -> usize {
        self.quads.len() + self.left.len()
    }

    /// Directed sides of both meshes.
    pub fn sides(&self) -> usize {
        3 * self.triangles.len() + 4 * self.quads.len() + 3 * self.left.len()
    }

    /// A quad on points of its own, given as the halves that have no flat corner.
    fn quad(&mut self, corners: [[f64; 2]; 4]) {
        let first = self.points.len() as u32;
        self.points.extend(corners.map(|[x, y]| [x, y, 0.0]));
        self.given += 4;
        let [a, m, b, c] = [0, 1, 2, 3].map(|k| first + k);
        self.triangles.extend([[m, b, c], [c, a, m]]);
        self.quads.push([a, m, b, c]);
    }
}

/// Squares on a side of a tile, the length of their sides, and tiles on a side of the plane, where they are so much smaller.
const SIDE: usize = 40;
const STEP: f64 = 0.125;
const ROW: usize = 32;
const SCALE: f64 = 0.0625;

/// A jittered grid with diagonals in turn, the same in every run.
fn tile() -> (Vec<[f64; 3]>, Vec<[u32; 3]>) {
    let moved = |turn: usize| ((turn % 7) as f64 - 3.0) / 64.0;
    let row = SIDE + 1;
    let node = |n: usize| {
        let (i, j) = (n % row, n / row);
        let (x, y) = (
            i as f64 + moved(5 * i + 11 * j),
            j as f64 + moved(3 * i + 7 * j),
        );
        [STEP * x, STEP * y, 0.0]
    };
    let halves = |s: usize| {
        let (i, j) = (s % SIDE, s / SIDE);
        let a = (row * j + i) as u32;
        let (b, d) = (a + 1, a + row as u32);
        let c = d + 1;
        if (i + j) % 2 == 0 {
            [[a, b, c], [a, c, d]]
        } else {
            [[a, b, d], [b, c, d]]
        }
    };
    let points = (0..row * row).map(node).collect();
    (points, (0..SIDE * SIDE).flat_map(halves).collect())
}

/// What the library makes of a tile, so often that the judged cells are about so many, or the lists as long as they may be.
pub fn tiled(cells: usize) -> Judged {
    let (points, triangles) = tile();
    let mesh = run_front(&points, &triangles, STEP, Stop::EvenComponents);
    let mut mesh = mesh.expect("a finished run");
    let mut given = (points, triangles);
    let one = mesh.quads.len() + mesh.triangles.len();
    if cells < one {
        given.1 = Vec::new();
        mesh = small(&mut given, cells);
    }
    let one = mesh.quads.len() + mesh.triangles.len();
    let fits = (MOST / given.1.len()).min(MOST / mesh.points.len());
    repeated(&given, &mesh, cells.div_ceil(one).min(fits))
}

/// A run on some of a tile's rows.
fn small(given: &mut (Vec<[f64; 3]>, Vec<[u32; 3]>), cells: usize) -> Mesh {
    let (_, triangles) = tile();
    given.1 = triangles[..2 * SIDE * (cells / SIDE).clamp(1, SIDE)].to_vec();
    run_front(&given.0, &given.1, STEP, Stop::EvenComponents).expect("a finished run")
}

/// So many copies side by side: the given points of all of them first, then those added.
fn repeated(given: &(Vec<[f64; 3]>, Vec<[u32; 3]>), mesh: &Mesh, copies: usize) -> Judged {
    let (points, triangles) = given;
    let n = points.len();
    let mut j = Judged {
        given: copies * n,
        ..Judged::default()
    };
    let at = |k: usize, p: &[f64; 3]| {
        let (i, l) = ((k % ROW) as f64, (k / ROW) as f64);
        [
            SCALE * p[0] + i * 0.375 - 7.5,
            SCALE * p[1] + l * 0.375 - 7.5,
            p[2],
        ]
    };
    for k in 0..copies {
        j.points.extend(points.iter().map(|p| at(k, p)));
    }
    for k in 0..copies {
        j.points.extend(mesh.points[n..].iter().map(|p| at(k, p)));
    }
    let added = mesh.points.len() - n;
    for k in 0..copies {
        let number = |v: u32| match v as usize {
            v if v < n => (k * n + v) as u32,
            v => (copies * n + k * added + v - n) as u32,
        };
        j.triangles.extend(triangles.iter().map(|t| t.map(number)));
        j.quads
            .extend(mesh.quads.iter().map(|q| q.nodes.map(number)));
        j.left.extend(mesh.triangles.iter().map(|t| t.map(number)));
    }
    j
}

/// So many triangles, left over as they were given.
pub fn left(cells: usize) -> Judged {
    let given = tile();
    let mesh = Mesh {
        points: given.0.clone(),
        triangles: given.1.clone(),
        ..Mesh::default()
    };
    repeated(&given, &mesh, cells / given.1.len())
}

/// Quads with a corner beside the line between its neighbours: so near that every float product of it cancels.
fn beside_line(count: usize, off: impl Fn(usize) -> f64) -> Judged {
    let mut j = Judged::default();
    for k in 0..count {
        let (x, y) = (1.0 + k as f64 / 3e5, 0.3 + k as f64 / 7e5);
        let e = off(k);
        j.quad([[-x, -y], [e, -e], [x, y], [-y, x]]);
    }
    j
}

/// Usual doubles: the corner is about 1e-18 off the line.
pub fn flat(count: usize) -> Judged {
    beside_line(count, |k| 1e-18 * (1.0 + k as f64 / 3e5))
}

/// The longest whole numbers: the corner is off the line by the least doubles.
pub fn longest(count: usize) -> Judged {
    beside_line(count, |k| f64::from_bits(1 + k as u64 % 7))
}

/// A corner whose cosine is some units below the limit, beside the least double.
pub fn at_limit(count: usize) -> Judged {
    let mut j = Judged::default();
    let cosine = (COSINE + 1e-9) * (1.0 - 4e-16);
    let sine = (1.0 - cosine * cosine).sqrt();
    for k in 0..count {
        let (u, v) = (1.0 + k as f64 / 3e5, 1.1 + k as f64 / 4e5);
        let least = f64::from_bits(1 + k as u64 % 7);
        let end = [v * cosine, v * sine * (1.0 + 1e-15)];
        j.quad([
            [-0.0, least],
            [u, least],
            [0.8 * (u + end[0]), 0.8 * end[1]],
            end,
        ]);
    }
    j
}
