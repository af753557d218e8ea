//! A caller's rounding mode, FTZ, DAZ and traps change no mesh, and stay as they were.
#![cfg(target_arch = "x86_64")]

mod shapes;

use sedgepick::{run_front, Refusal, Stop};
use std::arch::asm;

const USUAL: u32 = 0x1F80;

fn set(mode: u32) {
    unsafe { asm!("ldmxcsr [{}]", in(reg) &mode, options(nostack)) }
}

fn get() -> u32 {
    let mut mode = 0u32;
    unsafe { asm!("stmxcsr [{}]", in(reg) &mut mode, options(nostack)) }
    mode
}

/// What a call gives under a mode, and the mode after it.
fn under<T>(mode: u32, call: impl FnOnce() -> T) -> (T, u32) {
    set(mode);
    let found = call();
    let after = get();
    set(USUAL);
    (found, after)
}

#[test]
fn modes() {
    let (points, triangles) = shapes::grid(9);
    let usual = run_front(&points, &triangles, 0.25, Stop::Exhaust).unwrap();
    for rounding in [0x0000, 0x2000, 0x4000, 0x6000] {
        for flushing in [0x0000, 0x8000, 0x0040, 0x8040] {
            let mode = USUAL | rounding | flushing;
            let (found, after) =
                under(mode, || run_front(&points, &triangles, 0.25, Stop::Exhaust));
            assert_eq!((found.unwrap(), after), (usual.clone(), mode));
            let (small, after) = under(mode, || {
                run_front(&points, &triangles, f64::from_bits(1), Stop::Exhaust)
            });
            assert_eq!((small.unwrap_err(), after), (Refusal::BadSize, mode));
        }
    }
}
