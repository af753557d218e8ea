//! The grid profile over the linked library: the exact area, and what is refused.

use sedgepick::{run_front_with, Mesh, Options, Quality, Refusal, Stop, GRID_LINES};

/// A grid of so many squares a side, its inner points moved, all on the lines of the profile; every third triangle is turned over.
fn mesh(side: u32) -> (Vec<[f64; 3]>, Vec<[u32; 3]>) {
    let mut points = Vec::new();
    for j in 0..=side {
        for i in 0..=side {
            let inner = 0 < i && i < side && 0 < j && j < side;
            let moved = |k: u32| f64::from(if inner { (7 * i + 3 * j) * k % 97 } else { 0 });
            let [x, y] = [
                256.0 * f64::from(i) + moved(5),
                256.0 * f64::from(j) + moved(11),
            ];
            points.push([x / GRID_LINES, y / GRID_LINES, 0.1]);
        }
    }
    let mut triangles = Vec::new();
    for k in 0..side * side {
        let a = k / side * (side + 1) + k % side;
        let b = a + side + 1;
        triangles.push([a, a + 1, b + 1]);
        triangles.push([a, b + 1, b]);
    }
    for t in triangles.iter_mut().step_by(3) {
        t.swap(0, 1);
    }
    (points, triangles)
}

/// Twice the summed areas of the cells without sign, in squares of the grid.
fn areas<const N: usize>(points: &[[f64; 3]], cells: &[[u32; N]]) -> u64 {
    let twice = |cell: &[u32; N]| {
        let at = |k: usize| points[cell[k % N] as usize].map(|x| (GRID_LINES * x) as i64);
        let part = |k: usize| at(k)[0] * at(k + 1)[1] - at(k + 1)[0] * at(k)[1];
        (0..N).map(part).sum::<i64>().unsigned_abs()
    };
    cells.iter().map(twice).sum()
}

fn kept(points: &[[f64; 3]], triangles: &[[u32; 3]], options: &Options<'_>) -> Mesh {
    let mesh = run_front_with(points, triangles, options).unwrap();
    assert_eq!(mesh.points, points);
    let quads: Vec<[u32; 4]> = mesh.quads.iter().map(|q| q.nodes).collect();
    let after = areas(points, &quads) + areas(points, &mesh.triangles);
    assert_eq!(areas(points, triangles), after);
    mesh
}

#[test]
fn the_area_is_kept_exactly_and_the_run_is_the_same() {
    let (points, triangles) = mesh(12);
    let strict = Quality::builder().least_jacobian(0.6).build().unwrap();
    let joints = [[0, 14], [14, 28], [28, 42]];
    for (stop, quality, joints) in [
        (Stop::Exhaust, Quality::default(), &[][..]),
        (Stop::EvenComponents, Quality::default(), &joints),
        (Stop::Exhaust, strict, &joints),
    ] {
        let options = Options {
            size: -0.0,
            stop,
            quality,
            joints,
            grid: true,
            trace: false,
        };
        let mesh = kept(&points, &triangles, &options);
        assert!(!mesh.quads.is_empty());
        let free = Options {
            grid: false,
            ..options
        };
        assert_eq!(run_front_with(&points, &triangles, &free), Ok(mesh));
    }
}

#[test]
fn refused_off_the_grid() {
    let (points, triangles) = mesh(2);
    let refused = |points: &[[f64; 3]], size: f64, joints: &[[u32; 2]]| {
        let options = Options {
            size,
            joints,
            grid: true,
            ..Options::default()
        };
        run_front_with(points, &triangles, &options).err()
    };
    let off = Some(Refusal::OffGrid);
    let bad: &[[u32; 2]] = &[[1, 1]];
    assert_eq!(refused(&points, 0.0, &[]), None);
    assert_eq!(refused(&points, 0.0, bad), Some(Refusal::BadJoint));
    for size in [1.0 / 64.0, 1.0, 8.0] {
        assert_eq!(refused(&points, size, &[]), off);
        assert_eq!(refused(&points, size, bad), off);
    }
    assert_eq!(refused(&points, 1.0 / 128.0, &[]), Some(Refusal::BadSize));
    for (axis, x, refusal) in [
        (0, 0.1, off),
        (1, 1.0 / 2048.0, off),
        (1, -5e-324, off),
        (0, f64::from_bits(8.0f64.to_bits() - 1), off),
        (0, 9.0, Some(Refusal::FarPoint)),
        (0, 8.0, None),
        (1, -0.0, None),
        (2, 0.1, None),
    ] {
        let mut moved = points.clone();
        moved[8][axis] = x;
        assert_eq!(refused(&moved, 0.0, &[]), refusal, "{x}");
        moved.push(moved[8]);
        moved[8] = points[8];
        assert_eq!(refused(&moved, 0.0, &[]), refusal, "an unused point at {x}");
    }
}
