//! Stored calls of the mesher by the linked library: the number, the answer and every lent slice. reference/README.md has their form.

use std::fs;
use std::path::{Path, PathBuf};

use sedgepick::lent::{run_front_with, Answer, Call, Further, Memory, Set};
use sedgepick::Refusal;

/// What lent slices hold before a call.
const WORD: u32 = 0xdead_beef;
const BITS: u64 = 0x7ff8_dead_beef_0001;
const COUNTS: &str = "front_empty attempts placement invalid_quad recovery region odd_region mismatch_insertions limit";
const QUAD: &str = "n0 n1 n2 n3 u v round replaced";

/// The lines of a stored call.
struct Lines<'a>(std::iter::Peekable<std::str::Lines<'a>>);

impl<'a> Lines<'a> {
    /// Passes over a line of names, where it is the next one.
    fn passed(&mut self, names: &str) -> bool {
        self.0.next_if_eq(&names).is_some()
    }

    fn words(&mut self) -> Vec<&'a str> {
        self.0.next().expect("a line more").split(' ').collect()
    }

    fn numbers(&mut self) -> Vec<usize> {
        self.words().iter().map(|w| w.parse().unwrap()).collect()
    }

    /// So many lines of numbers.
    fn rows(&mut self, count: usize) -> Vec<u32> {
        (0..count)
            .flat_map(|_| self.numbers())
            .map(|n| n as u32)
            .collect()
    }
}

fn float(bits: &str) -> f64 {
    f64::from_bits(u64::from_str_radix(bits, 16).unwrap())
}

/// A stored call.
struct Stored {
    call: Call,
    set: Set,
    joints: Vec<u32>,
    grid: u32,
    trace: usize,
    triangles: Vec<u32>,
    points: Vec<f64>,
}

fn read(text: &str) -> Stored {
    let mut lines = Lines(text.lines().peekable());
    assert!(lines.passed("capacity slots"));
    let lent = lines.numbers();
    let mut set = Set::default();
    if lines.passed("least_jacobian largest_cosine side_low side_high pairs") {
        let words = lines.words();
        set = Set {
            least_jacobian: float(words[0]),
            largest_cosine: float(words[1]),
            side_low: float(words[2]),
            side_high: float(words[3]),
            pairs: words[4].parse().unwrap(),
        };
    }
    let mut joints = Vec::new();
    if lines.passed("joints") {
        let count = lines.numbers()[0];
        assert!(lines.passed("u v"));
        joints = lines.rows(count);
    }
    let mut number = |name| {
        if lines.passed(name) {
            lines.numbers()[0]
        } else {
            0
        }
    };
    let (grid, trace) = (number("grid") as u32, number("trace"));
    assert!(lines.passed("triangles points size stop"));
    let head = lines.words();
    let (count, given) = (head[0].parse().unwrap(), head[1].parse().unwrap());
    assert!(lines.passed("n0 n1 n2"));
    let triangles = lines.rows(count);
    assert!(lines.passed("x y z"));
    let points = (0..given).flat_map(|_| lines.words()).map(float).collect();
    let call = Call {
        given,
        capacity: lent[0],
        count,
        slots: lent[1],
        size: float(head[2]),
        stop: head[3].parse().unwrap(),
    };
    Stored {
        call,
        set,
        joints,
        grid,
        trace,
        triangles,
        points,
    }
}

/// The lent slices: points, quads, triangles, components, work, float work, trace; floats by their bits.
#[derive(Clone, Debug, PartialEq)]
struct Slices {
    points: Vec<f64>,
    quads: Vec<u32>,
    triangles: Vec<u32>,
    components: Vec<u32>,
    work: Vec<u32>,
    float_work: Vec<f64>,
    trace: Vec<u32>,
}

/// What is lent to a call: what it needs, or two words where what it states is beyond the limits.
fn lend(stored: &Stored) -> Slices {
    let call = &stored.call;
    let room = |n: usize| if n > 1 << 24 { 2 } else { n };
    let mut points = vec![f64::from_bits(BITS); room(3 * call.capacity).max(stored.points.len())];
    points[..stored.points.len()].copy_from_slice(&stored.points);
    Slices {
        points,
        quads: vec![WORD; room(call.quads_len())],
        triangles: vec![WORD; room(3 * call.slots)],
        components: vec![WORD; room(call.slots)],
        work: vec![WORD; room(call.work_len())],
        float_work: vec![f64::from_bits(BITS); room(call.float_work_len())],
        trace: vec![WORD; stored.trace],
    }
}

fn run(stored: &Stored, slices: &mut Slices) -> Result<Answer, Refusal> {
    let further = Further {
        joints: &stored.joints,
        joint_count: stored.joints.len() / 2,
        set: stored.set,
        grid: stored.grid,
    };
    let memory = Memory {
        points: &mut slices.points,
        quads: &mut slices.quads,
        triangles: &mut slices.triangles,
        components: &mut slices.components,
        work: &mut slices.work,
        float_work: &mut slices.float_work,
        trace: &mut slices.trace,
    };
    run_front_with(&stored.triangles, memory, stored.call, further)
}

fn line(numbers: &[u32]) -> String {
    let words: Vec<String> = numbers.iter().map(u32::to_string).collect();
    words.join(" ") + "\n"
}

/// Lists of so many numbers a line.
fn lines(numbers: &[u32], each: usize) -> String {
    numbers.chunks(each).map(line).collect()
}

fn places(points: &[f64]) -> String {
    let bits = |p: &[f64]| {
        let words: Vec<String> = p.iter().map(|x| format!("{:016x}", x.to_bits())).collect();
        words.join(" ") + "\n"
    };
    points.chunks(3).map(bits).collect()
}

/// The entries at the front of a trace up to the first word that is as it was, and how many words they have.
fn entries(trace: &[u32]) -> (String, usize) {
    let (mut out, mut at) = (String::new(), 0);
    while at < trace.len() && trace[at] != WORD {
        let length = match trace[at] {
            1 => 6,
            2 => 3,
            4 => 9 + trace[at + 8] as usize,
            kind => panic!("an entry of kind {kind}"),
        };
        out += &line(&trace[at..at + length]);
        at += length;
    }
    (out, at)
}

/// The answer as the reference writes it. After 8, 9 and 11 the lengths are not told: a list ends where the slice is as it was.
fn answer(stored: &Stored, told: &Result<Answer, Refusal>, after: &Slices) -> String {
    let mut out = match told {
        Ok(a) => {
            let c = &a.counts;
            let counts = [
                c.front_empty,
                c.attempts,
                c.placement,
                c.invalid_quad,
                c.recovery,
                c.region,
                c.odd_region,
                c.mismatch_insertions,
                c.limit,
            ];
            let lengths = [a.quads, a.triangles, a.points, a.components];
            let row = |n: &[usize]| line(&n.iter().map(|&n| n as u32).collect::<Vec<u32>>());
            format!(
                "{COUNTS}\n{}quads triangles points components\n{}{QUAD}\n",
                row(&counts),
                row(&lengths)
            ) + &lines(&after.quads[..8 * a.quads], 8)
                + "n0 n1 n2\n"
                + &lines(&after.triangles[..3 * a.triangles], 3)
                + "x y z\n"
                + &places(&after.points[..3 * a.points])
                + "size\n"
                + &lines(&after.components[..a.components], 1)
                + &format!("trials\n{}\n", c.trials)
        }
        Err(refusal) => format!("refused\n{}\n", refusal.number()),
    };
    let number = told.as_ref().err().map(|r| r.number());
    if let Some(8 | 9 | 11) = number {
        let quads = after.quads.chunks(8).take_while(|q| q[0] != WORD).count();
        let points = after
            .points
            .chunks(3)
            .take_while(|p| p[0].to_bits() != BITS)
            .count();
        out += &format!("quads points\n{quads} {points}\n{QUAD}\n");
        out += &lines(&after.quads[..8 * quads], 8);
        out += "x y z\n";
        out += &places(&after.points[..3 * points]);
    }
    if stored.trace != 0 && matches!(number, None | Some(8 | 9 | 11)) {
        let (rows, words) = entries(&after.trace);
        out += &format!("words\n{words}\n{rows}");
    }
    out
}

/// Of a slice, what lies past so many entries is as it was.
fn kept<T: Copy>(before: &[T], after: &[T], from: usize, bits: impl Fn(T) -> u64) -> bool {
    before[from..]
        .iter()
        .zip(&after[from..])
        .all(|(&a, &b)| bits(a) == bits(b))
}

/// What the papers let a call touch, and nothing else.
fn untouched(told: &Result<Answer, Refusal>, before: &Slices, after: &Slices) -> bool {
    let number = told.as_ref().err().map(|r| r.number());
    let ran = matches!(number, None | Some(8 | 9 | 11));
    let (triangles, components) = told
        .as_ref()
        .map_or((0, 0), |a| (3 * a.triangles, a.components));
    let quads = match told {
        Ok(a) => 8 * a.quads,
        Err(_) => 8 * after.quads.chunks(8).take_while(|q| q[0] != WORD).count(),
    };
    let points = match told {
        Ok(a) => 3 * a.points,
        Err(_) => {
            3 * after
                .points
                .chunks(3)
                .take_while(|p| p[0].to_bits() != BITS)
                .count()
        }
    };
    let words = entries(&after.trace).1;
    let word = |w: u32| u64::from(w);
    if !ran {
        return kept(&before.points, &after.points, 0, f64::to_bits)
            && (
                &before.quads,
                &before.triangles,
                &before.components,
                &before.work,
                &before.trace,
            ) == (
                &after.quads,
                &after.triangles,
                &after.components,
                &after.work,
                &after.trace,
            )
            && kept(&before.float_work, &after.float_work, 0, f64::to_bits);
    }
    after.work.iter().all(|&w| w == 0)
        && after.float_work.iter().all(|x| x.to_bits() == 0)
        && kept(&before.quads, &after.quads, quads, word)
        && kept(&before.points, &after.points, points, f64::to_bits)
        && kept(&before.triangles, &after.triangles, triangles, word)
        && kept(&before.components, &after.components, components, word)
        && kept(&before.trace, &after.trace, words, word)
}

/// FNV-1a, 64 bits.
fn hash(bytes: &[u8]) -> u64 {
    let step = |h: u64, b: &u8| (h ^ u64::from(*b)).wrapping_mul(0x100_0000_01b3);
    bytes.iter().fold(0xcbf2_9ce4_8422_2325, step)
}

/// Every call of a folder against its stored answer or the hash of it.
fn holds(folder: &str, least: usize) {
    let folder = Path::new(env!("CARGO_MANIFEST_DIR"))
        .join("../../answers")
        .join(folder);
    let mut paths: Vec<PathBuf> = fs::read_dir(folder)
        .unwrap()
        .map(|entry| entry.unwrap().path())
        .filter(|path| path.extension().is_some_and(|e| e == "call"))
        .collect();
    paths.sort();
    assert!(paths.len() >= least);
    for path in paths {
        let name = path.display();
        let stored = read(&fs::read_to_string(&path).unwrap());
        let before = lend(&stored);
        let mut after = before.clone();
        let told = run(&stored, &mut after);
        let said = answer(&stored, &told, &after);
        match fs::read_to_string(path.with_extension("out")) {
            Ok(wanted) => assert!(said == wanted, "{name}:\n{said}"),
            Err(_) => {
                let wanted = fs::read_to_string(path.with_extension("hash")).unwrap();
                assert_eq!(
                    format!("{:016x}", hash(said.as_bytes())),
                    wanted.trim(),
                    "{name}"
                );
            }
        }
        assert!(untouched(&told, &before, &after), "{name}: a slice");
    }
}

#[test]
fn small_calls() {
    holds("calls", 144);
}

#[test]
fn meshes_of_400_triangles() {
    holds("large", 12);
}
