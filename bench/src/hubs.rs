//! Times on meshes around one node, where a walk around it is long, and how they grow.

use reference::generators::hubs::HUBS;

use crate::{print_head, Row, PASSES};

/// Triangles of a mesh; a larger one is left out where the Rust took longer than this for the one before.
const TRIANGLES: [usize; 5] = [128, 256, 512, 1024, 2048];
const PATIENCE: f64 = 1500.0;

/// The power of the triangles with which a time grows from one mesh to the next.
fn growth(from: &Row, to: &Row, time: fn(&Row) -> f64) -> f64 {
    let more = to.input.triangles.len() as f64 / from.input.triangles.len() as f64;
    (time(to) / time(from)).ln() / more.ln()
}

/// A row for each shape, or for the one that is named, and each number of triangles, then the growth between the two largest of each shape.
pub fn run(only: Option<String>) {
    let mut shapes = Vec::new();
    for (name, make) in HUBS {
        if only.as_ref().is_some_and(|o| o != name) {
            continue;
        }
        let mut rows: Vec<Row> = Vec::new();
        for n in TRIANGLES {
            if rows.last().is_some_and(|r| r.rust > PATIENCE) {
                break;
            }
            let mut row = Row::new(make(n), name.to_string());
            row.run();
            rows.push(row);
        }
        shapes.push(rows);
    }
    for _ in 1..PASSES {
        shapes.iter_mut().flatten().for_each(Row::run);
    }
    print_head("shape");
    shapes.iter().flatten().for_each(Row::print);
    println!("\n| shape | from | to | Rust grows with the power | port |");
    println!("|---|---|---|---|---|");
    for rows in &shapes {
        let [.., from, to] = &rows[..] else { continue };
        println!(
            "| {} | {} | {} | {:.1} | {:.1} |",
            to.size,
            from.input.triangles.len(),
            to.input.triangles.len(),
            growth(from, to, |r| r.rust),
            growth(from, to, |r| r.port)
        );
    }
}
