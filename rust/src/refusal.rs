//! What a call that is turned down says.
use std::error::Error;
use std::fmt;

/// The success of the functions that are not calls of the desk.
pub(crate) const DONE: u16 = 0x0000;

/// The refusal of the functions that know no other: a length or a value is out of range.
#[derive(Clone, Copy, Debug, PartialEq, Eq)]
pub struct BadArgument;

impl BadArgument {
    /// Of a code of the library that is either [`DONE`] or the refusal 9005.
    pub(crate) fn unless_done(code: u16) -> Result<(), BadArgument> {
        match code {
            DONE => Ok(()),
            _ => Err(BadArgument),
        }
    }
}

impl From<BadArgument> for Refusal {
    fn from(_: BadArgument) -> Refusal {
        Refusal::BadArgument
    }
}

impl fmt::Display for BadArgument {
    fn fmt(&self, f: &mut fmt::Formatter<'_>) -> fmt::Result {
        Refusal::from(*self).fmt(f)
    }
}

impl Error for BadArgument {}

/// A refusal of the desk, in the order in which they are tested. Later versions may have more.
///
/// Those up to [`DamagedRow`](Refusal::DamagedRow) leave the table as it was, those up to
/// [`ManagementNextWanted`](Refusal::ManagementNextWanted) but for a wait that has run out. The others add 1 to the token's errors,
/// which end at 255; only a double press, a case of [`Used`](Refusal::Used), adds none.
///
/// ```
/// # use dykeladder::Refusal;
/// assert_eq!(Refusal::TokenLocked.code(), 0x8404);
/// assert_eq!(Refusal::TokenLocked.to_string(), "the token is locked (8404)");
/// ```
#[derive(Clone, Copy, Debug, PartialEq, Eq, Hash)]
#[non_exhaustive]
#[repr(u16)]
pub enum Refusal {
    /// The message is not made as one is; [`Desk::serve`](crate::Desk::serve): as a request is.
    BadMessage = 0x9001,
    /// The MAC is not that of the message.
    BadMac = 0x9002,
    /// [`Desk::serve`](crate::Desk::serve): the service has no call.
    NoService = 0x9004,
    /// A length or a value is out of range.
    BadArgument = 0x9005,
    /// Load: a row that is not empty has the serial.
    SerialTaken = 0x8411,
    /// Load: no row is empty.
    TableFull = 0x8410,
    /// No row that is not empty has the serial.
    NoToken = 0x8402,
    /// The token's row is not well formed.
    DamagedRow = 0x8403,
    /// The call needs another state: the token is ready.
    TokenReady = 0x8409,
    /// The same: it is locked, by errors or by hand.
    TokenLocked = 0x8404,
    /// The same: it is suspended.
    TokenSuspended = 0x8405,
    /// The same: it is not activated.
    TokenNotActivated = 0x8406,
    /// The same: it is void.
    TokenVoid = 0x8407,
    /// A checked call at or after the token's expiry.
    TokenExpired = 0x8408,
    /// Login, challenge login: two or more unused steps have the password, which does not tell them apart, and none is accepted. The
    /// following password is asked for (GM/T 0021-2012, Table D.7): the captain types the one that the token shows next, or both go
    /// to [`Desk::sync`](crate::Desk::sync), which takes neither a challenge nor a suspended token.
    ///
    /// ```
    /// # use dykeladder::{Algorithm, Kind, Offset, Refusal, Seconds, Step, Track, Window};
    /// let key = 3403_u128.to_be_bytes();
    /// let track = Track { kind: Kind::Event, algorithm: Algorithm::Sm3, digits: 6, key: &key, next: Step(0), offset: Offset(0) };
    /// let check = |shown, following| track.check(Seconds(0), Window::Medium, None, shown, following).answer;
    /// assert_eq!(check("547160", None), Err(Refusal::NextWanted)); // steps 3 and 6 have it
    /// assert_eq!(check("547160", Some(b"629325")), Ok(Step(7)));
    /// ```
    NextWanted = 0x8001,
    /// As [`NextWanted`](Refusal::NextWanted), of unlock and resume.
    ManagementNextWanted = 0x8101,
    /// Login, challenge login: only steps before the first unused one have the password.
    ///
    /// If the step just before it, the last one accepted, has the password and is in the window, this is a double press: no error is
    /// added and the token is not locked, whatever its errors are. An older step is an error.
    Used = 0x8004,
    /// Login, challenge login: no step of the window has the password.
    Wrong = 0x8002,
    /// As [`Used`](Refusal::Used), of the other checked calls.
    ManagementUsed = 0x8104,
    /// As [`Wrong`](Refusal::Wrong), of activate, unlock and resume.
    ManagementWrong = 0x8102,
    /// As [`Wrong`](Refusal::Wrong), of sync.
    SyncWrong = 0x8105,
}

impl Refusal {
    /// All refusals, in the order in which they are tested.
    pub const ALL: &'static [Refusal] = &[
        Refusal::BadMessage,
        Refusal::BadMac,
        Refusal::NoService,
        Refusal::BadArgument,
        Refusal::SerialTaken,
        Refusal::TableFull,
        Refusal::NoToken,
        Refusal::DamagedRow,
        Refusal::TokenReady,
        Refusal::TokenLocked,
        Refusal::TokenSuspended,
        Refusal::TokenNotActivated,
        Refusal::TokenVoid,
        Refusal::TokenExpired,
        Refusal::NextWanted,
        Refusal::ManagementNextWanted,
        Refusal::Used,
        Refusal::Wrong,
        Refusal::ManagementUsed,
        Refusal::ManagementWrong,
        Refusal::SyncWrong,
    ];

    /// The code, as the desk's paper and the C header have it.
    pub const fn code(self) -> u16 {
        self as u16
    }

    /// The refusal with this code, if there is one.
    pub fn from_code(code: u16) -> Option<Refusal> {
        Refusal::ALL.iter().copied().find(|refusal| refusal.code() == code)
    }

    /// The refusal of a code of the library, unless it is this success. By the library's contract there is no third.
    pub(crate) fn unless(code: u16, success: u16) -> Result<(), Refusal> {
        if code == success {
            return Ok(());
        }
        Err(Refusal::of(code))
    }

    /// The refusal of a code of the library that is no success of the call.
    pub(crate) fn of(code: u16) -> Refusal {
        Refusal::from_code(code).unwrap_or_else(|| panic!("{code:04x} is no code of this call"))
    }

    /// The refusal in a few words.
    pub const fn text(self) -> &'static str {
        match self {
            Refusal::BadMessage => "bad message",
            Refusal::BadMac => "the message's MAC is wrong",
            Refusal::NoService => "no such service",
            Refusal::BadArgument => "bad argument",
            Refusal::SerialTaken => "the serial is taken",
            Refusal::TableFull => "the table is full",
            Refusal::NoToken => "no token has the serial",
            Refusal::DamagedRow => "the token's row is damaged",
            Refusal::TokenReady => "the token is ready",
            Refusal::TokenLocked => "the token is locked",
            Refusal::TokenSuspended => "the token is suspended",
            Refusal::TokenNotActivated => "the token is not activated",
            Refusal::TokenVoid => "the token is void",
            Refusal::TokenExpired => "the token has expired",
            Refusal::NextWanted => "the next password is wanted",
            Refusal::ManagementNextWanted => "the next password is wanted for a management call",
            Refusal::Used => "used password",
            Refusal::Wrong => "wrong password",
            Refusal::ManagementUsed => "used password for a management call",
            Refusal::ManagementWrong => "wrong password for a management call",
            Refusal::SyncWrong => "wrong passwords for a sync",
        }
    }
}

impl fmt::Display for Refusal {
    fn fmt(&self, f: &mut fmt::Formatter<'_>) -> fmt::Result {
        write!(f, "{} ({:04x})", self.text(), self.code())
    }
}

impl Error for Refusal {}

#[cfg(test)]
mod tests {
    use super::*;

    #[test]
    fn a_code_is_the_success_or_a_refusal() {
        assert_eq!(Refusal::unless(0x0101, 0x0101), Ok(()));
        assert_eq!(Refusal::unless(0x8404, 0x0101), Err(Refusal::TokenLocked));
        assert_eq!(BadArgument::unless_done(DONE), Ok(()));
        assert_eq!(BadArgument::unless_done(0x9005), Err(BadArgument));
    }

    #[test]
    #[should_panic(expected = "0102 is no code of this call")]
    fn the_success_of_another_call_is_neither() {
        let _ = Refusal::unless(0x0102, 0x0101);
    }
}
