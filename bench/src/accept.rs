//! Times of the acceptance: meshes of the library, tiled up to the longest lists, and quads that floats can tell nothing of; beside them, in the same run, what
//! bench/accept.py times: numpy in floats, meshio reading a file, Gmsh checking one.

mod meshes;

use std::io::Write;
use std::path::Path;
use std::process::Command;

use crate::{best, clock};
use meshes::Judged;
use sedgepick::raw::sedgepick_accept;

/// Judged cells of the meshes.
const CELLS: [usize; 4] = [1_000, 10_000, 100_000, 1_000_000];

/// Quads of those whose every corner needs big numbers.
const HARD: [usize; 3] = [1_000, 10_000, 100_000];

/// Numbers of an answer, and its first places.
const NUMBERS: usize = 13;
const ACCEPTED: usize = 0;

/// The script that times what a user would take instead.
const OTHERS: &str = concat!(env!("CARGO_MANIFEST_DIR"), "/accept.py");

/// The best time of a call, in milliseconds; the mesh must be accepted.
fn accept(j: &Judged) -> f64 {
    let sides = 3 * j.triangles.len() + 4 * j.quads.len() + 3 * j.left.len();
    let mut components = vec![7u32; j.left.len()];
    let mut work = vec![7u32; 4 * sides];
    let mut parents = vec![7u32; 2 * j.left.len()];
    let mut answer = [7usize; NUMBERS];
    let (time, number) = best(|| {
        let start = clock();
        // Each pointer comes with the length of its slice, and no two share memory.
        let number = unsafe {
            sedgepick_accept(
                j.points.as_flattened().as_ptr(),
                3 * j.given,
                j.triangles.as_flattened().as_ptr(),
                3 * j.triangles.len(),
                j.points.as_flattened().as_ptr(),
                3 * j.points.len(),
                j.quads.as_flattened().as_ptr(),
                4 * j.quads.len(),
                j.left.as_flattened().as_ptr(),
                3 * j.left.len(),
                j.joints.as_flattened().as_ptr(),
                2 * j.joints.len(),
                components.as_mut_ptr(),
                components.len(),
                work.as_mut_ptr(),
                work.len(),
                parents.as_mut_ptr(),
                parents.len(),
                j.given,
                j.triangles.len(),
                j.points.len(),
                j.quads.len(),
                j.left.len(),
                j.joints.len(),
                meshes::COSINE,
                1.0,
                answer.as_mut_ptr(),
                NUMBERS,
            )
        };
        (clock() - start, number)
    });
    assert_eq!((number, answer[ACCEPTED]), (0, 1), "accepted: {answer:?}");
    time
}

/// The mesh as files: its lists in binary for numpy, and the judged mesh as Gmsh writes it.
fn write(j: &Judged, folder: &Path) -> std::io::Result<()> {
    let put = |name: &str, bytes: Vec<u8>| std::fs::write(folder.join(name), bytes);
    let nodes = |list: &[u32]| list.iter().flat_map(|v| v.to_le_bytes()).collect();
    let floats = j.points.as_flattened().iter().flat_map(|x| x.to_le_bytes());
    put("points", floats.collect())?;
    put("triangles", nodes(j.triangles.as_flattened()))?;
    put("quads", nodes(j.quads.as_flattened()))?;
    put("left", nodes(j.left.as_flattened()))?;
    put("given", (j.given as u64).to_le_bytes().to_vec())?;
    let mut out = std::io::BufWriter::new(std::fs::File::create(folder.join("judged.msh"))?);
    writeln!(
        out,
        "$MeshFormat\n2.2 0 8\n$EndMeshFormat\n$Nodes\n{}",
        j.points.len()
    )?;
    for (i, [x, y, z]) in j.points.iter().enumerate() {
        writeln!(out, "{} {x} {y} {z}", i + 1)?;
    }
    writeln!(out, "$EndNodes\n$Elements\n{}", j.cells())?;
    for (i, q) in j.quads.iter().enumerate() {
        let [a, b, c, d] = q.map(|v| v + 1);
        writeln!(out, "{} 3 2 1 1 {a} {b} {c} {d}", i + 1)?;
    }
    for (i, t) in j.left.iter().enumerate() {
        let [a, b, c] = t.map(|v| v + 1);
        writeln!(out, "{} 2 2 1 1 {a} {b} {c}", j.quads.len() + i + 1)?;
    }
    writeln!(out, "$EndElements")
}

/// What the script says of the mesh: a column each, a dash where a program is missing.
fn others(j: &Judged) -> String {
    let folder = std::env::temp_dir().join(format!("accept-{}", std::process::id()));
    std::fs::create_dir_all(&folder).expect("a folder");
    write(j, &folder).expect("files");
    let said = Command::new("python3").arg(OTHERS).arg(&folder).output();
    std::fs::remove_dir_all(&folder).expect("a folder of our own");
    match said {
        Ok(said) if said.status.success() => String::from_utf8_lossy(&said.stdout).trim().into(),
        _ => "- | - | -".into(),
    }
}

/// A row for each number of cells, then how the time grows.
fn library() {
    println!("| given triangles | quads | left over | cells | accept, ms | million cells a second | numpy, ms | meshio reads, ms | gmsh -check, ms |");
    println!("|---|---|---|---|---|---|---|---|---|");
    let mut rows = Vec::new();
    for cells in CELLS {
        let meshes = [meshes::tiled(cells), meshes::left(cells)];
        for j in meshes.into_iter().take(1 + (cells == CELLS[3]) as usize) {
            let time = accept(&j);
            println!(
                "| {} | {} | {} | {} | {time:.2} | {:.1} | {} |",
                j.triangles.len(),
                j.quads.len(),
                j.left.len(),
                j.cells(),
                j.cells() as f64 / time / 1e3,
                others(&j)
            );
            rows.push((j.sides(), time));
        }
    }
    println!("\n| sides | ns a side | beside the row before |");
    println!("|---|---|---|");
    growth(&rows[..CELLS.len()]);
}

/// The time of one, and how it compares with that of a smaller mesh.
fn growth(rows: &[(usize, f64)]) {
    let each = |(n, time): (usize, f64)| 1e6 * time / n as f64;
    let mut before = None;
    for &row in rows {
        let beside = before.map_or("-".into(), |b| format!("{:.2}", each(row) / b));
        println!("| {} | {:.1} | {beside} |", row.0, each(row));
        before = Some(each(row));
    }
}

/// Quads with a flat corner as far as floats tell, of usual doubles and of the longest whole numbers.
fn hard() {
    println!("\n| quads that need big numbers | quads | ms | us a corner |");
    println!("|---|---|---|---|");
    type Make = fn(usize) -> Judged;
    let kinds: [(&str, Make); 3] = [
        ("usual doubles", meshes::flat),
        ("longest numbers", meshes::longest),
        ("at the cosine limit", meshes::at_limit),
    ];
    for (name, make) in kinds {
        for n in HARD {
            let j = make(n);
            let time = accept(&j);
            let corner = 1e3 * time / (4 * n) as f64;
            println!("| {name} | {n} | {time:.1} | {corner:.2} |");
        }
    }
}

/// Both tables, or the one that is named.
pub fn run(only: Option<String>) {
    let asked = |name: &str| only.iter().all(|o| o == name);
    if asked("meshes") {
        library();
    }
    if asked("hard") {
        hard();
    }
}
