//! Texts that are mostly not in the program's form.

use crate::random::Random;

/// The text with one to two places changed.
pub fn damaged(text: &[u8], r: &mut Random) -> Vec<u8> {
    let mut out = text.to_vec();
    for _ in 0..r.from_to(1, 2) {
        once(&mut out, r);
    }
    out
}

fn once(text: &mut Vec<u8>, r: &mut Random) {
    let at = r.below(text.len().max(1)).min(text.len());
    match r.below(14) {
        0 if at < text.len() => text[at] = r.bits() as u8,
        1 if at < text.len() => text[at] = r.pick(b"0123456789abcdefABCDEF \n\r\t-+.x"),
        2 if at < text.len() => text[at] ^= 1 << r.below(8),
        3 if at < text.len() => {
            text.remove(at);
        }
        4 => text.insert(at, r.bits() as u8),
        5 => text.insert(at, r.pick(b"0 \n\r\t9f")),
        6 => text.truncate(at),
        7 => text.extend(r.pick(&[&b"\n"[..], b" ", b"0", b"\r\n", b"\0", b"size\n"])),
        8 => lines(text, r, |list, i, _| drop(list.remove(i))),
        9 => lines(text, r, |list, i, _| list.insert(i, list[i].clone())),
        10 => lines(text, r, |list, i, j| list.swap(i, j)),
        11 => counts(text, r),
        12 => long(text, r),
        _ => *text = text.to_ascii_uppercase(),
    }
}

/// A change of whole lines.
fn lines(text: &mut Vec<u8>, r: &mut Random, change: impl Fn(&mut Vec<Vec<u8>>, usize, usize)) {
    let mut list: Vec<Vec<u8>> = text
        .split_inclusive(|&c| c == b'\n')
        .map(<[u8]>::to_vec)
        .collect();
    if !list.is_empty() {
        let (i, j) = (r.below(list.len()), r.below(list.len()));
        change(&mut list, i, j);
    }
    *text = list.concat();
}

/// Another number of triangles or points on the second line.
fn counts(text: &mut Vec<u8>, r: &mut Random) {
    let number = r.pick(&[
        "0",
        "1",
        "00",
        "01",
        "64",
        "65",
        "4096",
        "18446744073709551616",
        "-1",
        "",
    ]);
    let mut list: Vec<Vec<u8>> = text
        .split_inclusive(|&c| c == b'\n')
        .map(<[u8]>::to_vec)
        .collect();
    if let Some(line) = list.get_mut(1) {
        let mut words: Vec<Vec<u8>> = line.split(|&c| c == b' ').map(<[u8]>::to_vec).collect();
        let place = r.below(words.len().min(2));
        words[place] = number.as_bytes().to_vec();
        *line = words.join(&b' ');
    }
    *text = list.concat();
}

/// Longer than the program reads, or exactly as long.
fn long(text: &mut Vec<u8>, r: &mut Random) {
    let most = crate::text::MOST_BYTES;
    let length = r.pick(&[most - 1, most, most + 1, 2 * most]);
    text.resize(length, r.pick(b"\n 0"));
}
