//! Runs whose answers the proved table states, and texts that are not in form.

use crate::text::{self, reply};

const ONE: u64 = 0x3ff0000000000000;

/// A text over the points (0,0) (1,0) (0,1), or over those of the unit square.
fn asked(triangles: &[&str], points: usize, size: u64, stop: u32) -> Vec<u8> {
    let corners = match points {
        4 => [(0, 0), (ONE, 0), (ONE, ONE), (0, ONE)],
        _ => [(0, 0), (ONE, 0), (0, ONE), (0, 0)],
    };
    let mut out = format!("triangles points size stop\n{} {points} ", triangles.len());
    out += &format!("{size:016x} {stop}\nn0 n1 n2\n");
    triangles.iter().for_each(|t| out += &format!("{t}\n"));
    out += "x y z\n";
    for (x, y) in &corners[..points] {
        out += &format!("{x:016x} {y:016x} {:016x}\n", 0);
    }
    out.into_bytes()
}

/// The counts and the lengths of an answer.
fn counts(answer: &[u8]) -> Vec<String> {
    let text = String::from_utf8_lossy(answer).into_owned();
    let lines: Vec<&str> = text.lines().collect();
    vec![lines[1].to_string(), lines[3].to_string()]
}

#[test]
fn the_square_is_one_quad_under_both_rules() {
    for stop in 0..2 {
        let answer = reply(&asked(&["0 1 2", "0 2 3"], 4, ONE, stop));
        assert_eq!(counts(&answer), ["1 1 0 0 0 0 0 0 0", "1 0 4 0"]);
        let quad = "\nn0 n1 n2 n3 u v round replaced\n0 1 2 3 0 1 1 2\nn0 n1 n2\n";
        assert!(String::from_utf8_lossy(&answer).contains(quad));
    }
}

#[test]
fn the_table() {
    let t = ["0 1 2"];
    let none = reply(&asked(&[], 0, ONE, 0));
    assert_eq!(counts(&none), ["1 0 0 0 0 0 0 0 0", "0 0 0 0"]);
    for size in [ONE, 0, 1 << 63] {
        let answer = reply(&asked(&t, 3, size, 0));
        assert_eq!(counts(&answer), ["0 3 0 3 0 0 0 0 0", "0 1 3 1"]);
    }
    let eight = reply(&asked(&t, 3, 8.0f64.to_bits(), 0));
    assert_eq!(counts(&eight), ["0 3 3 0 0 0 0 0 0", "0 1 3 1"]);
    let twice = reply(&asked(&["0 1 2", "0 1 2"], 3, ONE, 0));
    assert_eq!(counts(&twice), ["1 0 0 0 0 0 0 0 0", "0 2 3 1"]);
    assert!(twice.ends_with(b"size\n2\n"));
    let small = (1.0f64 / 128.0).to_bits();
    assert_eq!(reply(&asked(&t, 3, small, 0)), b"refused\n2\n");
    assert_eq!(reply(&asked(&t, 3, ONE, 2)), b"refused\n3\n");
    assert_eq!(reply(&asked(&["0 1 3"], 3, ONE, 0)), b"refused\n5\n");
    assert_eq!(reply(&asked(&["0 1 1"], 3, ONE, 0)), b"refused\n6\n");
}

#[test]
fn texts_not_in_form() {
    let good = asked(&["0 1 2"], 3, ONE, 0);
    for cut in 0..good.len() {
        assert_eq!(reply(&good[..cut]), b"refused\n10\n");
    }
    for more in [&b"\n"[..], b" ", b"\0", b"\xff"] {
        assert_eq!(reply(&[&good[..], more].concat()), b"refused\n10\n");
    }
    for node in [
        "00 1 2",
        "0 1 4294967296",
        "0 1",
        "0  1 2",
        "0 1 2 ",
        "-0 1 2",
    ] {
        assert_eq!(reply(&asked(&[node], 3, ONE, 0)), b"refused\n10\n");
    }
    assert_eq!(
        reply(&asked(&["0 1 4294967295"], 3, ONE, 0)),
        b"refused\n5\n"
    );
    assert!(text::read(&[0xff; 100]).is_none());
}
