//! Replays in files: capacities and the trace's words, then the mesh as in a text of the program.

use std::io::Result;
use std::path::Path;

use crate::call::{below, line};
use crate::generators::{self, traces};
use crate::input::{Input, Lent, LARGEST};
use crate::random::Random;
use crate::records::NAMES;
use crate::replay::{Handed, Replayed};
use crate::text;

const STATED: &str = "capacity slots words";
const TRACE: &str = "trace";

/// A replay's text: the mesh is the input's, whose other numbers are not read.
pub fn write(lent: Lent, words: usize, trace: &[u32], input: &Input) -> Vec<u8> {
    let stated = text::line(&[lent.points, lent.slots, words]);
    let head = format!("{STATED}\n{stated}{TRACE}\n{}", text::line(trace));
    let mesh = Input {
        triangles: input.triangles.clone(),
        points: input.points.clone(),
        ..Input::default()
    };
    [head.into_bytes(), text::write(&mesh)].concat()
}

/// The answer to a replay's text; `None` where it is none.
pub fn reply(bytes: &[u8]) -> Option<Vec<u8>> {
    let (values, rest) = below(bytes, STATED)?;
    let [points, slots, words] = values[..] else {
        return None;
    };
    let lent = Lent {
        points: points.parse().ok()?,
        slots: slots.parse().ok()?,
    };
    let rest = rest.strip_prefix(TRACE.as_bytes())?.strip_prefix(b"\n")?;
    let (values, rest) = line(rest)?;
    let values = values.iter().filter(|word| !word.is_empty());
    let trace: Option<Vec<u32>> = values.map(|word| word.parse().ok()).collect();
    let input = text::read_any(rest)?;
    Some(answer(lent, words.parse().ok()?, &trace?, &input))
}

/// The refusal, after 8, 9 and 12 with the quads and points that it leaves; or the lists.
fn answer(lent: Lent, words: usize, trace: &[u32], input: &Input) -> Vec<u8> {
    let handed = Handed {
        points: &input.points,
        triangles: &input.triangles,
        lent,
        trace,
        words,
    };
    let out = match handed.replay() {
        Err(number) => format!("refused\n{number}\n"),
        Ok(r) => shown(&r),
    };
    out.into_bytes()
}

fn shown(r: &Replayed) -> String {
    let (quads, points) = (r.quads.len(), r.points.len());
    let mut out = match r.refused {
        Some(number) => format!("refused\n{number}\nquads points\n{quads} {points}\n"),
        None => {
            let (triangles, components) = (r.triangles.len(), r.components.len());
            format!(
                "quads triangles points components\n{quads} {triangles} {points} {components}\n"
            )
        }
    };
    out += &format!("{NAMES}\n");
    r.quads.iter().for_each(|q| out += &text::line(q));
    if r.refused.is_none() {
        out += "n0 n1 n2\n";
        r.triangles.iter().for_each(|t| out += &text::line(t));
    }
    out += "x y z\n";
    for p in &r.points {
        out += &text::bits_line(&p.map(f64::to_bits));
    }
    if r.refused.is_none() {
        out += "size\n";
        r.components.iter().for_each(|&n| out += &text::line(&[n]));
    }
    out
}

/// Twice in so many cases the mesh has triangles without area.
const ON_A_LINE: u64 = 9;

/// Replays of small meshes, every sort of words in turn, with memory that suffices and with some that may not.
pub fn replays(seed: u64, count: u64, folder: &Path) -> Result<()> {
    std::fs::create_dir_all(folder)?;
    let (mut case, mut made) = (0, 0);
    while made < count {
        let mut r = Random::new(seed, case);
        let kind = generators::of_case(None, case);
        case += 1;
        let (input, trace) = match case % ON_A_LINE {
            0 => traces::far_flip(&mut r),
            n => {
                let input = match n {
                    1 => traces::on_a_line(&mut r),
                    _ => kind.1(&mut r, &generators::SMALL),
                };
                if input.refusal(LARGEST).is_some() {
                    continue;
                }
                let sort = traces::SORTS[(made % traces::SORTS.len() as u64) as usize];
                let trace = sort.1(&input, &traces::whole(&input), &mut r);
                (input, trace)
            }
        };
        if trace.is_empty() || trace.len() > 300 {
            continue;
        }
        let scarce = r.once_in(3) as usize;
        let lent = Lent {
            points: input.points.len() + 12 - scarce * r.from_to(10, 12),
            slots: input.triangles.len() + 36 - scarce * r.from_to(28, 36),
        };
        let path = folder.join(format!("replay-{made:04}.replay"));
        let whole = answer(lent, trace.len(), &trace, &input);
        std::fs::write(path.with_extension("out"), whole)?;
        std::fs::write(path, write(lent, trace.len(), &trace, &input))?;
        made += 1;
    }
    Ok(())
}
