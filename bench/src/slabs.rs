//! Times on slabs that Gmsh meshed: `slabs FILE..`, each file a .msh of format 2.2 in text
//! (`gmsh -2 -format msh22 examples/kinds/columns.geo -o columns.msh`).

use std::collections::{BTreeSet, HashMap};

use reference::input::Input;
use reference::patched::Quality;

use crate::{print_head, Row, PASSES};

/// The size that the command takes first, as a share of the mean edge.
const SHARE: f64 = 0.65;

/// The triangles of a slab, scaled by a power of two until its coordinates are within 8, and its mean edge.
fn read(path: &str) -> (Input, f64) {
    let text = std::fs::read_to_string(path).unwrap_or_else(|e| panic!("{path}: {e}"));
    let rows = |from: &str, to: &str| -> Vec<Vec<f64>> {
        let inside = text.split(from).nth(1).and_then(|t| t.split(to).next());
        let inside = inside.unwrap_or_else(|| panic!("{path} has no {from}"));
        let number = |word: &str| word.parse().unwrap_or_else(|_| panic!("{path}: {word}"));
        let lines = inside.trim().lines().skip(1);
        lines
            .map(|line| line.split_whitespace().map(number).collect())
            .collect()
    };
    let mut triangles = Vec::new();
    for row in rows("$Elements", "$EndElements") {
        if row[1] == 2.0 {
            let nodes = &row[3 + row[2] as usize..];
            triangles.push([nodes[0] as u32, nodes[1] as u32, nodes[2] as u32]);
        }
    }
    let used: BTreeSet<u32> = triangles.iter().flatten().copied().collect();
    let place: HashMap<u32, u32> = used.iter().copied().zip(0..).collect();
    let mut points = Vec::new();
    for row in rows("$Nodes", "$EndNodes") {
        if let Some(&i) = place.get(&(row[0] as u32)) {
            points.push((i, [row[1], row[2]]));
        }
    }
    points.sort_by_key(|p| p.0);
    let largest = points
        .iter()
        .flat_map(|p| p.1)
        .fold(0.0, |m: f64, x| m.max(x.abs()));
    let mut scale = 1.0;
    while largest * scale > 8.0 {
        scale /= 2.0;
    }
    let points: Vec<[f64; 2]> = points.iter().map(|p| p.1.map(|x| x * scale)).collect();
    for node in triangles.iter_mut().flatten() {
        *node = place[node];
    }
    let mean = mean_edge(&points, &triangles);
    let bits = |p: &[f64; 2]| [p[0].to_bits(), p[1].to_bits(), 0];
    let input = Input {
        size: 0,
        stop: 0,
        quality: Quality::default(),
        joints: Vec::new(),
        grid: 0,
        trace: 0,
        triangles,
        points: points.iter().map(bits).collect(),
    };
    (input, mean)
}

/// The mean length of the edges.
fn mean_edge(points: &[[f64; 2]], triangles: &[[u32; 3]]) -> f64 {
    let mut edges = BTreeSet::new();
    for t in triangles {
        for (a, b) in [(t[0], t[1]), (t[1], t[2]), (t[2], t[0])] {
            edges.insert((a.min(b), a.max(b)));
        }
    }
    let length = |&(a, b): &(u32, u32)| {
        let ([ax, ay], [bx, by]) = (points[a as usize], points[b as usize]);
        (bx - ax).hypot(by - ay)
    };
    edges.iter().map(length).sum::<f64>() / edges.len() as f64
}

/// A row for each file, at the command's usual size and without one, under both rules.
pub fn run(files: &[String]) {
    assert!(!files.is_empty(), "slabs: name .msh files of format 2.2");
    let mut rows = Vec::new();
    for path in files {
        let (input, mean) = read(path);
        let name = path
            .rsplit('/')
            .next()
            .unwrap_or(path)
            .trim_end_matches(".msh");
        for (share, stop) in [(SHARE, 0), (0.0, 0), (SHARE, 1), (0.0, 1)] {
            let row = Input {
                size: (share * mean).to_bits(),
                stop,
                ..input.clone()
            };
            rows.push(Row::new(row, format!("{name}, {share}")));
        }
    }
    for _ in 0..PASSES {
        rows.iter_mut().for_each(Row::run);
    }
    print_head("slab, size in mean edges");
    rows.iter().for_each(Row::print);
}
