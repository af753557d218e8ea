//! The quality set: what a quad is held to, and what is tried for it.

use crate::lent::Set;
use crate::Refusal;

/// What the numbers of a set may be, the bounds included.
pub const JACOBIANS: [f64; 2] = [0.0, 1.0];
pub const COSINES: [f64; 2] = [0.5, 0.99];
pub const SIDES: [f64; 2] = [0.1, 4.0];
pub const PAIRS: [usize; 2] = [1, 64];

/// A quality set that no call refuses. `Default` is the standard one.
///
/// ```
/// use sedgepick::{Quality, Refusal};
///
/// let strict = Quality::builder().least_jacobian(0.5).least_angle(40.0).build()?;
/// assert_eq!(strict.set().pairs, Quality::default().set().pairs);
/// assert_eq!(Quality::builder().pairs(65).build(), Err(Refusal::BadQuality));
/// # Ok::<(), Refusal>(())
/// ```
#[derive(Clone, Copy, Debug, Default, PartialEq)]
pub struct Quality(Set);

impl Quality {
    /// A set to be made of the standard one.
    pub fn builder() -> QualityBuilder {
        QualityBuilder(Set::default())
    }

    /// Its numbers.
    pub fn set(&self) -> Set {
        self.0
    }
}

/// A set in the making; `build` tests it.
#[derive(Clone, Copy, Debug, PartialEq)]
pub struct QualityBuilder(Set);

impl QualityBuilder {
    /// The least scaled Jacobian of a quad, from 0 to 1.
    pub fn least_jacobian(mut self, jacobian: f64) -> Self {
        self.0.least_jacobian = jacobian;
        self
    }

    /// The largest cosine of a quad's corner, from 0.5 to 0.99.
    pub fn largest_cosine(mut self, cosine: f64) -> Self {
        self.0.largest_cosine = cosine;
        self
    }

    /// The same by the least angle, in degrees: from 8.11 to 60. The cosine is rounded to 14 decimals, as that of the standard set, which has 25 degrees.
    pub fn least_angle(self, degrees: f64) -> Self {
        self.largest_cosine((degrees.to_radians().cos() * 1e14).round() / 1e14)
    }

    /// The distances at which side nodes are looked for, in target lengths: from 0.1 to 4, the low one not above the high one.
    pub fn sides(mut self, low: f64, high: f64) -> Self {
        self.0.side_low = low;
        self.0.side_high = high;
        self
    }

    /// How many pairs of side nodes are tried for an edge, from 1 to 64.
    pub fn pairs(mut self, pairs: usize) -> Self {
        self.0.pairs = pairs;
        self
    }

    /// The set; `BadQuality` where a call would refuse it as 14.
    pub fn build(self) -> Result<Quality, Refusal> {
        let set = self.0;
        let within = |x: f64, [low, high]: [f64; 2]| low <= x && x <= high;
        let good = within(set.least_jacobian, JACOBIANS)
            && within(set.largest_cosine, COSINES)
            && within(set.side_low, SIDES)
            && within(set.side_high, SIDES)
            && set.side_low <= set.side_high
            && (PAIRS[0]..=PAIRS[1]).contains(&set.pairs);
        if good {
            Ok(Quality(set))
        } else {
            Err(Refusal::BadQuality)
        }
    }
}
