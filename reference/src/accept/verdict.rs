//! What an acceptance says, and the groups of the leftover triangles.

use std::collections::HashMap;

use super::{sides, Handed, NUMBERS};

/// The first offender of each clause; `None` where there is none.
#[derive(Clone, Debug, Default, PartialEq, Eq)]
pub struct Verdict {
    pub moved: Option<usize>,
    pub added: usize,
    pub folded: Option<usize>,
    pub sharp: Option<usize>,
    pub given_flat: Option<usize>,
    pub left_flat: Option<usize>,
    pub thin: Option<usize>,
    /// The smaller node first.
    pub uneven: Option<[u32; 2]>,
    pub lost: Option<usize>,
    /// Component sizes of the leftover triangles, descending.
    pub sizes: Vec<u32>,
}

impl Verdict {
    /// Whether each clause has an offender, in the order of the answer.
    pub fn offended(&self) -> [bool; 8] {
        [
            self.moved.is_some(),
            self.folded.is_some(),
            self.sharp.is_some(),
            self.given_flat.is_some(),
            self.left_flat.is_some(),
            self.thin.is_some(),
            self.uneven.is_some(),
            self.lost.is_some(),
        ]
    }

    /// The numbers of the answer.
    pub fn numbers(&self, of: &Handed) -> [usize; NUMBERS] {
        let [u, v] = self.uneven.unwrap_or([0, 0]).map(|n| n as usize);
        [
            !self.offended().contains(&true) as usize,
            self.moved.unwrap_or(of.given),
            self.added,
            self.folded.unwrap_or(of.quad_count),
            self.sharp.unwrap_or(of.quad_count),
            self.given_flat.unwrap_or(of.count),
            self.left_flat.unwrap_or(of.left_count),
            self.thin.unwrap_or(of.left_count),
            u,
            v,
            self.lost.unwrap_or(of.joint_count),
            self.sizes.len(),
            self.sizes.iter().filter(|&n| n % 2 == 1).count(),
        ]
    }
}

/// The sizes of the components, descending: triangles with two nodes in common belong together. Each component is flooded from its first triangle.
pub fn sizes(triangles: &[[u32; 3]]) -> Vec<u32> {
    let key = |(u, v): (u32, u32)| [u.min(v), u.max(v)];
    let mut owners: HashMap<[u32; 2], Vec<usize>> = HashMap::new();
    for (i, t) in triangles.iter().enumerate() {
        for side in sides(t) {
            owners.entry(key(side)).or_default().push(i);
        }
    }
    let mut met = vec![false; triangles.len()];
    let mut sizes = Vec::new();
    for seed in 0..triangles.len() {
        let mut open = vec![seed];
        let mut size = 0;
        while let Some(i) = open.pop() {
            if std::mem::replace(&mut met[i], true) {
                continue;
            }
            size += 1;
            open.extend(sides(&triangles[i]).flat_map(|side| owners[&key(side)].iter().copied()));
        }
        sizes.push(size);
    }
    sizes.retain(|&n| n > 0);
    sizes.sort_unstable_by(|a, b| b.cmp(a));
    sizes
}
