//! The program's text form: the bytes of the input to the bytes of the answer.

use crate::input::{Input, Lent, PROGRAM};
use crate::patched::FrontResult;
use crate::records::{counts, records, NAMES};

pub const MOST_BYTES: usize = 8192;
pub const MOST_LISTED: u64 = 64;

const HEAD: &[u8] = b"triangles points size stop\n";
const TRIANGLES: &[u8] = b"n0 n1 n2\n";
const POINTS: &[u8] = b"x y z\n";

/// Takes values from the front of some bytes; `None` where they are not in form.
struct Reader<'a>(&'a [u8]);

impl Reader<'_> {
    /// The given bytes themselves.
    fn exactly(&mut self, text: &[u8]) -> Option<()> {
        self.0 = self.0.strip_prefix(text)?;
        Some(())
    }

    /// A decimal number up to `most`, without leading zeros.
    fn decimal(&mut self, most: u64) -> Option<u64> {
        let count = self.0.iter().take_while(|c| c.is_ascii_digit()).count();
        let (digits, rest) = self.0.split_at(count);
        if count == 0 || count > 1 && digits[0] == b'0' {
            return None;
        }
        let mut value = 0u64;
        for digit in digits {
            value = 10 * value + u64::from(digit - b'0');
            if value > most {
                return None;
            }
        }
        self.0 = rest;
        Some(value)
    }

    /// Sixteen lowercase hexadecimal digits.
    fn bits(&mut self) -> Option<u64> {
        if self.0.len() < 16 {
            return None;
        }
        let (digits, rest) = self.0.split_at(16);
        let mut value = 0;
        for &digit in digits {
            let nibble = match digit {
                b'0'..=b'9' => digit - b'0',
                b'a'..=b'f' => digit - b'a' + 10,
                _ => return None,
            };
            value = value << 4 | u64::from(nibble);
        }
        self.0 = rest;
        Some(value)
    }

    /// One decimal digit.
    fn digit(&mut self) -> Option<u32> {
        let (&first, rest) = self.0.split_first()?;
        self.0 = rest;
        char::from(first).to_digit(10)
    }

    /// Three values parted by a space, then a newline.
    fn three<T>(&mut self, one: impl Fn(&mut Self) -> Option<T>) -> Option<[T; 3]> {
        let a = one(self)?;
        self.exactly(b" ")?;
        let b = one(self)?;
        self.exactly(b" ")?;
        let c = one(self)?;
        self.exactly(b"\n")?;
        Some([a, b, c])
    }

    /// The whole input, with nothing after it and lists no longer than `most`.
    fn input(&mut self, most: u64) -> Option<Input> {
        self.exactly(HEAD)?;
        let triangles = self.decimal(most)?;
        self.exactly(b" ")?;
        let points = self.decimal(most)?;
        self.exactly(b" ")?;
        let size = self.bits()?;
        self.exactly(b" ")?;
        let stop = self.digit()?;
        self.exactly(b"\n")?;
        let mut input = Input {
            size,
            stop,
            ..Input::default()
        };
        self.exactly(TRIANGLES)?;
        for _ in 0..triangles {
            let node = |r: &mut Self| r.decimal(u64::from(u32::MAX)).map(|v| v as u32);
            input.triangles.push(self.three(node)?);
        }
        self.exactly(POINTS)?;
        for _ in 0..points {
            input.points.push(self.three(Self::bits)?);
        }
        self.0.is_empty().then_some(input)
    }
}

/// The input that a text stands for; `None` is refusal 10.
pub fn read(text: &[u8]) -> Option<Input> {
    if text.len() > MOST_BYTES {
        return None;
    }
    Reader(text).input(MOST_LISTED)
}

/// The same without the program's limits.
pub fn read_any(text: &[u8]) -> Option<Input> {
    Reader(text).input(u64::from(u32::MAX))
}

/// The text of an input.
pub fn write(input: &Input) -> Vec<u8> {
    let mut out = HEAD.to_vec();
    let (triangles, points) = (input.triangles.len(), input.points.len());
    let counts = format!("{triangles} {points} {:016x} {}\n", input.size, input.stop);
    out.extend(counts.bytes());
    out.extend(TRIANGLES);
    for t in &input.triangles {
        out.extend(line(t).bytes());
    }
    out.extend(POINTS);
    for p in &input.points {
        out.extend(bits_line(p).bytes());
    }
    out
}

/// The program's answer to a text.
pub fn reply(text: &[u8]) -> Vec<u8> {
    match read(text) {
        None => refused(10),
        Some(input) => answer(&input, PROGRAM),
    }
}

/// The answer to an input, with so much lent.
pub fn answer(input: &Input, lent: Lent) -> Vec<u8> {
    match input.run(lent) {
        Err(number) => refused(number),
        Ok(result) => finished(input, &result),
    }
}

fn refused(number: u32) -> Vec<u8> {
    format!("refused\n{number}\n").into_bytes()
}

/// A finished run.
fn finished(input: &Input, r: &FrontResult) -> Vec<u8> {
    let numbers = counts(r);
    let mut out = String::from("front_empty attempts placement invalid_quad recovery region odd_region mismatch_insertions limit\n");
    out += &line(&numbers[..9]);
    out += "quads triangles points components\n";
    out += &line(&numbers[9..13]);
    out += &quads(r);
    out += "n0 n1 n2\n";
    r.triangles.iter().for_each(|t| out += &line(t));
    out += &points(input, r);
    out += "size\n";
    r.region_components.iter().for_each(|&n| out += &line(&[n]));
    out.into_bytes()
}

/// What refusals 8, 9 and 11 leave: the quads written and the points, given and added.
pub fn left(input: &Input, r: &FrontResult) -> Vec<u8> {
    let mut out = String::from("quads points\n");
    out += &line(&[r.quads.len(), r.points.len()]);
    out += &quads(r);
    out += &points(input, r);
    out.into_bytes()
}

/// The records of all quads.
fn quads(r: &FrontResult) -> String {
    let mut out = format!("{NAMES}\n");
    records(r).iter().for_each(|q| out += &line(q));
    out
}

/// All points. The given ones are written with the bits that were read.
fn points(input: &Input, r: &FrontResult) -> String {
    let mut out = String::from("x y z\n");
    input.points.iter().for_each(|p| out += &bits_line(p));
    for p in &r.points[input.points.len()..] {
        out += &bits_line(&p.map(f64::to_bits));
    }
    out
}

/// Numbers parted by a space, then a newline.
pub fn line<T: ToString>(values: &[T]) -> String {
    let words: Vec<String> = values.iter().map(T::to_string).collect();
    words.join(" ") + "\n"
}

pub fn bits_line(values: &[u64; 3]) -> String {
    let [x, y, z] = values;
    format!("{x:016x} {y:016x} {z:016x}\n")
}
