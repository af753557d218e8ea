//! A call that differs, made as small as single entries left out can make it.

use reference::accept::{Handed, Lent, NUMBERS};

/// Lent slices of just the lengths that the call needs.
fn lent(h: &Handed) -> Lent {
    let [components, work, parents] = h.needs();
    Lent {
        components: vec![7; components],
        work: vec![7; work],
        parents: vec![7; parents],
        answer: vec![7; NUMBERS],
    }
}

/// Leaves out one entry of a list, where it is stated and there.
fn without<T>(list: &mut Vec<T>, count: &mut usize, width: usize, i: usize) -> bool {
    let there = i < *count && width * (i + 1) <= list.len();
    if there {
        list.drain(width * i..width * (i + 1));
        *count -= 1;
    }
    there
}

/// The call without one entry of one of its lists of cells and joints.
fn smaller(h: &Handed, list: usize, i: usize) -> Option<Handed> {
    let mut h = h.clone();
    let there = match list {
        0 => without(&mut h.quads, &mut h.quad_count, 4, i),
        1 => without(&mut h.left, &mut h.left_count, 3, i),
        2 => without(&mut h.triangles, &mut h.count, 3, i),
        _ => without(&mut h.joints, &mut h.joint_count, 2, i),
    };
    there.then_some(h)
}

/// The call with as few entries as it can have and still differ; as it was where slices of just the needed lengths do not differ.
pub fn shrunk(
    h: &Handed,
    before: &Lent,
    differs: impl Fn(&Handed, &Lent) -> bool,
) -> (Handed, Lent) {
    let mut least = h.clone();
    if h.refusal(before).is_some() || !differs(h, &lent(h)) {
        return (least, before.clone());
    }
    for list in 0..4 {
        let mut i = 0;
        while let Some(next) = smaller(&least, list, i) {
            if differs(&next, &lent(&next)) {
                least = next;
            } else {
                i += 1;
            }
        }
    }
    let room = lent(&least);
    (least, room)
}
