//! Numbers that must not be taken for one another.

/// A clock reading in seconds, below 2^40.
#[derive(Clone, Copy, Debug, Default, PartialEq, Eq, PartialOrd, Ord, Hash)]
pub struct Seconds(pub u64);

impl Seconds {
    /// The step of a time token at this clock reading: whole periods, each of so many seconds. This is the only way from seconds to
    /// steps.
    ///
    /// # Panics
    ///
    /// If the period is 0.
    ///
    /// ```
    /// # use dykeladder::{Seconds, Step};
    /// assert_eq!(Seconds(119).step(60), Step(1));
    /// ```
    pub const fn step(self, period: u8) -> Step {
        Step(self.0 / period as u64)
    }
}

/// A step of a token: periods of a time token, presses of an event token.
#[derive(Clone, Copy, Debug, Default, PartialEq, Eq, PartialOrd, Ord, Hash)]
pub struct Step(pub u64);

/// How far the clock of a time token is ahead of the desk's, in steps from -600 to 600; 0 for an event token.
#[derive(Clone, Copy, Debug, Default, PartialEq, Eq, PartialOrd, Ord, Hash)]
pub struct Offset(pub i16);

/// The number by which a token is known. Every value is allowed.
#[derive(Clone, Copy, Debug, Default, PartialEq, Eq, PartialOrd, Ord, Hash)]
pub struct Serial(pub u64);
