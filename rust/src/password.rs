//! The one-time password of GM/T 0021-2012, clause 6.
use crate::{ffi, BadArgument, Step};
use std::fmt;

/// The algorithm that makes a token's passwords.
#[derive(Clone, Copy, Debug, PartialEq, Eq, Hash)]
#[repr(u8)]
pub enum Algorithm {
    /// The hash SM3.
    Sm3 = 3,
    /// The cipher SM4, under the first 16 bytes of the key.
    Sm4 = 4,
}

/// What changes from password to password: the time step T, the count C, or both.
#[derive(Clone, Copy, Debug, PartialEq, Eq, Hash)]
pub enum Factor {
    /// Of a time token.
    Time(Step),
    /// Of an event token.
    Count(u32),
    /// As in the standard's examples.
    TimeAndCount(Step, u32),
}

impl Factor {
    fn parts(self) -> (Option<u64>, Option<u32>) {
        match self {
            Factor::Time(step) => (Some(step.0), None),
            Factor::Count(count) => (None, Some(count)),
            Factor::TimeAndCount(step, count) => (Some(step.0), Some(count)),
        }
    }
}

/// A password: 6 to 10 decimal digits, leading zeros included.
#[derive(Clone, Copy, PartialEq, Eq, Hash)]
pub struct Password {
    digits: [u8; 10],
    count: usize,
}

impl Password {
    /// The digits as text.
    pub fn as_str(&self) -> &str {
        std::str::from_utf8(self.as_ref()).expect("digits are ASCII")
    }
}

impl AsRef<[u8]> for Password {
    fn as_ref(&self) -> &[u8] {
        &self.digits[..self.count]
    }
}

impl fmt::Display for Password {
    fn fmt(&self, f: &mut fmt::Formatter<'_>) -> fmt::Result {
        f.pad(self.as_str())
    }
}

impl fmt::Debug for Password {
    fn fmt(&self, f: &mut fmt::Formatter<'_>) -> fmt::Result {
        f.debug_tuple("Password").field(&self.as_str()).finish()
    }
}

/// The password of a key of 16 to 32 bytes, in 6 to 10 digits.
///
/// A challenge has 4 to 32 bytes, each from `!` to `~`; an empty one is none.
///
/// ```
/// # use dykeladder::{password, Algorithm, Factor, Step};
/// let key = [0x12, 0x34, 0x56, 0x78, 0x90, 0xab, 0xcd, 0xef, 0x12, 0x34, 0x56, 0x78, 0x90, 0xab, 0xcd, 0xef];
/// let factor = Factor::TimeAndCount(Step(1_340_783_053), 1234);
/// let made = password(Algorithm::Sm4, &key, factor, Some(b"5678"), 6)?;
/// assert_eq!(made.as_str(), "446720");
/// # Ok::<(), dykeladder::BadArgument>(())
/// ```
pub fn password(
    algorithm: Algorithm,
    key: &[u8],
    factor: Factor,
    challenge: Option<&[u8]>,
    digits: u8,
) -> Result<Password, BadArgument> {
    let mut made = Password { digits: [0; 10], count: usize::from(digits) };
    let (time, count) = factor.parts();
    let challenge = challenge.unwrap_or_default();
    let code = ffi::password(algorithm as u8, key, time, count, challenge, digits, &mut made.digits);
    BadArgument::unless_done(code).map(|()| made)
}
