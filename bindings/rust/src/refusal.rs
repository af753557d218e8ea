//! Why a call is refused.

use std::fmt;

/// The refusals of a call, in the order in which they are tested. Each is returned under its condition and under no other.
#[derive(Clone, Copy, Debug, PartialEq, Eq, Hash)]
pub enum Refusal {
    /// Of a job: it has no mesh, over 16 or none left, its allowance is 0 or over 1,000,000, or more is left than the meshes before could leave.
    BadJob,
    /// Over 4,096 triangles or given points, or over a capacity limit (8,192 points, 16,384 slots). Of a small mesh: points other than 3, 4 or 5.
    /// Of an acceptance: a list over 1,048,576.
    OverLimit,
    /// The size is neither zero nor from 1/64 to 8.
    BadSize,
    /// The stop rule is neither 0 nor 1.
    BadStop,
    /// A number of the quality set is out of its range or is a NaN, or the low side factor is above the high one.
    /// Of an acceptance: a limit out of its range.
    BadQuality,
    /// A lent slice is shorter than stated, the capacity is below the given points, or the slots are below the triangles.
    TooShort,
    /// A node number is not below the given points. Of an acceptance: a node of a cell of the finished mesh is none of its points.
    UnknownNode,
    /// A triangle has a node twice, or in an acceptance a quad.
    RepeatedNode,
    /// An x or y is not finite or is beyond 8 in magnitude.
    FarPoint,
    /// In the grid profile: an x or y of a given point is no multiple of 1/1024, or the size is not zero.
    OffGrid,
    /// A joint is one node twice, a node of it is not below the given points, or there are over 256 joints.
    /// An acceptance takes as many joints as any list of it has entries.
    BadJoint,
    /// An insertion, with the point capacity used up.
    NoPoint,
    /// A split with fewer than two slots free, or a quad with none.
    NoSlots,
    /// An insertion, a flip or a quad whose entry does not fit the lent trace.
    NoTrace,
    /// Of a replay, tested before 8 and 9 of its entry: an entry is cut short or of another kind, or it names a slot without a triangle, a slot twice, a node that is
    /// not there, a point not strictly inside its triangle, or an edge that is not in its node order or does not flip.
    BadTrace,
    /// A number that is neither 0 nor one of these: the library that is linked is not the one that this crate was written for. Nothing of its answer is taken.
    Unknown(u32),
}

impl Refusal {
    const ALL: [Refusal; 15] = [
        Refusal::BadJob,
        Refusal::OverLimit,
        Refusal::BadSize,
        Refusal::BadStop,
        Refusal::BadQuality,
        Refusal::TooShort,
        Refusal::UnknownNode,
        Refusal::RepeatedNode,
        Refusal::FarPoint,
        Refusal::OffGrid,
        Refusal::BadJoint,
        Refusal::NoPoint,
        Refusal::NoSlots,
        Refusal::NoTrace,
        Refusal::BadTrace,
    ];

    /// The refusal's number: 1 to 9, and 11 to 16; of an unknown one the number that came back.
    pub fn number(self) -> u32 {
        match self {
            Refusal::BadJob => 16,
            Refusal::OverLimit => 1,
            Refusal::BadSize => 2,
            Refusal::BadStop => 3,
            Refusal::BadQuality => 14,
            Refusal::TooShort => 4,
            Refusal::UnknownNode => 5,
            Refusal::RepeatedNode => 6,
            Refusal::FarPoint => 7,
            Refusal::OffGrid => 15,
            Refusal::BadJoint => 13,
            Refusal::NoPoint => 8,
            Refusal::NoSlots => 9,
            Refusal::NoTrace => 11,
            Refusal::BadTrace => 12,
            Refusal::Unknown(number) => number,
        }
    }

    /// The refusal of a number; `None` for every other number, also for the 0 of a finished run.
    pub fn of_number(number: usize) -> Option<Refusal> {
        Self::ALL
            .into_iter()
            .find(|r| r.number() as usize == number)
    }

    /// What a call that returned this number came to: 0 is an answer, and everything else an error.
    ///
    /// ```
    /// # use sedgepick::Refusal;
    /// assert_eq!(Refusal::check(0), Ok(()));
    /// assert_eq!(Refusal::check(5), Err(Refusal::UnknownNode));
    /// assert_eq!(Refusal::check(17), Err(Refusal::Unknown(17)));
    /// ```
    pub fn check(number: usize) -> Result<(), Refusal> {
        match (number, Self::of_number(number)) {
            (0, _) => Ok(()),
            (_, Some(refusal)) => Err(refusal),
            _ => Err(Refusal::Unknown(u32::try_from(number).unwrap_or(u32::MAX))),
        }
    }

    /// The condition in words.
    pub fn words(self) -> &'static str {
        match self {
            Refusal::BadJob => "the job has no mesh, over 16 or none left, its allowance is 0 or over 1,000,000, or more is left than the meshes before could leave",
            Refusal::OverLimit => "over 4,096 triangles or given points, or over a capacity limit",
            Refusal::BadSize => "the size is neither zero nor from 1/64 to 8",
            Refusal::BadStop => "the stop rule is neither 0 nor 1",
            Refusal::BadQuality => "a quality number is out of its range or is a NaN, or the low side factor is above the high one",
            Refusal::TooShort => "a lent slice is shorter than stated, the capacity is below the given points, or the slots are below the triangles",
            Refusal::UnknownNode => "a node number is not below the given points",
            Refusal::RepeatedNode => "a triangle has a node twice",
            Refusal::FarPoint => "an x or y is not finite or is beyond 8 in magnitude",
            Refusal::OffGrid => "in the grid profile, an x or y is no multiple of 1/1024, or the size is not zero",
            Refusal::BadJoint => "a joint is one node twice, a node of it is not below the given points, or there are over 256 joints",
            Refusal::NoPoint => "an insertion, with the point capacity used up",
            Refusal::NoSlots => "a split with fewer than two slots free, or a quad with none",
            Refusal::NoTrace => "an insertion, a flip or a quad whose entry does not fit the lent trace",
            Refusal::BadTrace => "an entry of the trace is cut short or of another kind, or names what is not there, a point not strictly inside or an edge that does not flip",
            Refusal::Unknown(_) => "a number that is not known: the library that is linked is another than this crate was written for",
        }
    }
}

impl fmt::Display for Refusal {
    fn fmt(&self, f: &mut fmt::Formatter<'_>) -> fmt::Result {
        write!(f, "refused with {}: {}", self.number(), self.words())
    }
}

impl std::error::Error for Refusal {}
