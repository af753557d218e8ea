//! Refusals, each at its boundary and in their order.

use super::*;

#[test]
fn refusals_in_their_order() {
    let mut h = square();
    h.joints = vec![0, 1, 2, 2, 1, 4];
    h.joint_count = 1;
    assert_eq!(answered(&h).0[ACCEPTED], 1);
    h.joint_count = 2;
    assert_eq!(refused(&h), 13);
    h.joints[2] = 1;
    h.joint_count = 3;
    assert_eq!(refused(&h), 13);
    for bad in [8.0f64.next_up(), -9.0, f64::NAN, f64::INFINITY] {
        h.points[10] = bad;
        assert_eq!(refused(&h), 7, "{bad}");
    }
    h.triangles[1] = 0;
    assert_eq!(refused(&h), 6);
    h.quads[3] = 4;
    assert_eq!(refused(&h), 5);
    h.points.pop();
    assert_eq!(refused(&h), 4);
    h.cosine = 0.99f64.next_up();
    assert_eq!(refused(&h), 14);
    h.joint_count = MOST + 1;
    assert_eq!(refused(&h), 1);
    h.joint_count = MOST;
    assert_eq!(refused(&h), 14);
    h.cosine = 0.99;
    assert_eq!(refused(&h), 4);
}

#[test]
fn limits_of_the_limits() {
    let with = |cosine, thin| Handed {
        cosine,
        thin,
        ..square()
    };
    for (cosine, thin) in [(0.5, 0.5), (0.99, 1.0)] {
        assert_eq!(answered(&with(cosine, thin)).0[ACCEPTED], 1);
    }
    for bad in [0.5f64.next_down(), 1.0f64.next_up(), f64::NAN, -0.75] {
        assert_eq!(refused(&with(0.75, bad)), 14, "{bad}");
        assert_eq!(refused(&with(bad, 0.75)), 14, "{bad}");
    }
}

#[test]
fn one_short() {
    let mut h = halves();
    h.joints = vec![0, 1];
    h.joint_count = 1;
    assert_eq!(answered(&h).0[ACCEPTED], 1);
    let exact = |h: &Handed| {
        let [components, work, parents] = h.needs();
        Lent {
            components: vec![0; components],
            work: vec![0; work],
            parents: vec![0; parents],
            answer: vec![0; NUMBERS],
        }
    };
    assert_eq!(exact(&h).work.len(), 48);
    assert_eq!(h.accept(&mut exact(&h)), 0);
    let shorter: [fn(&mut Lent) -> bool; 4] = [
        |l| l.components.pop().is_some(),
        |l| l.work.pop().is_some(),
        |l| l.parents.pop().is_some(),
        |l| l.answer.pop().is_some(),
    ];
    for shorten in shorter {
        let mut lent = exact(&h);
        assert!(shorten(&mut lent));
        assert_eq!(h.accept(&mut lent), 4);
    }
}
