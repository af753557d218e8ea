//! The port's root against the hardware's, bit for bit.

use crate::PORT;
use reference::random::Random;

/// The NaN of the scope for an operand that has no root. The hardware keeps a NaN's own digits, and sets the sign for a number below zero.
const NAN: u64 = 0x7ff8_0000_0000_0000;

/// The weight of the exponent in the bits.
const LEAD: u64 = 1 << 52;

/// Operands that a test by chance may miss: zeros, infinities, NaNs (quiet and signalling, of both signs, with digits), ends of the formats' ranges, and numbers below zero.
const SINGLE: [u64; 20] = [
    0,
    0x8000_0000_0000_0000,
    0x7ff0_0000_0000_0000,
    0xfff0_0000_0000_0000,
    NAN,
    0xfff8_0000_0000_0000,
    0x7ff0_0000_0000_0001,
    0xfff0_0000_0000_0001,
    0x7fff_ffff_ffff_ffff,
    0x7ff8_0000_dead_beef,
    1,
    LEAD - 1,
    LEAD,
    0x7fef_ffff_ffff_ffff,
    0x3ff0_0000_0000_0000,
    0x4010_0000_0000_0000,
    0x8000_0000_0000_0001,
    0x8010_0000_0000_0000,
    0xbff0_0000_0000_0000,
    0xffef_ffff_ffff_ffff,
];

/// The bits that the root is to have.
fn wanted(x: f64) -> u64 {
    let root = x.sqrt();
    if root.is_nan() {
        NAN
    } else {
        root.to_bits()
    }
}

/// Whether the port's root of the double with these bits has the bits that are wanted; if not, it is shown.
fn agrees(bits: u64) -> bool {
    let x = f64::from_bits(bits);
    let root = PORT.sqrt(x).to_bits();
    if root != wanted(x) {
        println!("of {bits:016x}: {root:016x}, not {:016x}", wanted(x));
    }
    root == wanted(x)
}

/// A normal number with these digits and any exponent that is odd or even as theirs is.
fn normal(random: &mut Random, bits: u64) -> u64 {
    let odd = bits / LEAD % 2;
    (2 * random.below(1023) as u64 + 2 - odd) * LEAD + bits % LEAD
}

/// The square of a whole number, which is exact.
fn square(random: &mut Random) -> u64 {
    let s = random.from_to(1, 94_906_265) as f64;
    normal(random, (s * s).to_bits())
}

/// The double below the square of a number halfway between two doubles, or one near it.
fn near_tie(random: &mut Random) -> u64 {
    let q = u128::from(LEAD + random.bits() % LEAD);
    let n = q * q + q;
    let drop = 128 - 53 - u64::from(n.leading_zeros());
    let bits = (drop + 1075) * LEAD + (n >> drop) as u64 % LEAD;
    let n = normal(random, bits);
    beside(random, n)
}

/// One of the two doubles below, the double itself or one of the two above.
fn beside(random: &mut Random, bits: u64) -> u64 {
    (bits + random.below(5) as u64).saturating_sub(2)
}

type Kind = (&'static str, fn(&mut Random) -> u64);

const KINDS: [Kind; 7] = [
    ("normal", |r| LEAD + r.bits() % (2046 * LEAD)),
    ("subnormal", |r| {
        let drop = r.below(52);
        1 + ((r.bits() % (LEAD - 1)) >> drop)
    }),
    ("any bits", |r| r.bits()),
    ("squares", square),
    ("neighbours of squares", |r| {
        let s = square(r);
        beside(r, s)
    }),
    ("subnormal squares and neighbours", |r| {
        let s = r.from_to(1, (1 << 26) - 1) as u64;
        beside(r, s * s)
    }),
    ("near a tie", near_tie),
];

/// Whether the single operands agree. Of a NaN's bits nothing is proved, since the language has none: they are tested here, and below among any bits.
pub fn single() -> bool {
    SINGLE.iter().filter(|&&bits| !agrees(bits)).count() == 0
}

/// So many millions of doubles, a seventh of each kind. Whether all agree.
pub fn compare(millions: usize) -> bool {
    println!("| doubles | number | differ |");
    println!("|---|---|---|");
    let each = millions * 1_000_000 / KINDS.len() + 1;
    let mut all = single();
    for (case, (what, make)) in KINDS.iter().enumerate() {
        let mut random = Random::new(22, case as u64);
        let differ = (0..each).filter(|_| !agrees(make(&mut random))).count();
        println!("| {what} | {each} | {differ} |");
        all = all && differ == 0;
    }
    all
}
