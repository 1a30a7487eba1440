//! Answers of the desk: a success with its own content, or a refusal with its code.
use crate::ffi::Values;
use crate::{Offset, Refusal, Seconds, Step};

/// An answer: what the success of the call carries, or the refusal.
pub type Answer<Content> = Result<Content, Refusal>;

/// The desk's calls, each with the code of its success.
///
/// ```
/// # use dykeladder::{Call, Desk, Refusal, Seconds, Serial, ROW_BYTES};
/// assert_eq!(Call::Login.success(), 0x0001);
///
/// // For a log: the code of any answer.
/// let answer = Desk::new(&mut [0; ROW_BYTES]).lock(Serial(7), Seconds(0));
/// assert_eq!(Call::Lock.code_of(&answer), Refusal::NoToken.code());
/// ```
#[derive(Clone, Copy, Debug, PartialEq, Eq, Hash)]
#[repr(u16)]
pub enum Call {
    /// [`Desk::login`](crate::Desk::login)
    Login = 0x0001,
    /// [`Desk::challenge_login`](crate::Desk::challenge_login)
    ChallengeLogin = 0x0002,
    /// [`Desk::activate`](crate::Desk::activate)
    Activate = 0x0101,
    /// [`Desk::lock`](crate::Desk::lock)
    Lock = 0x0102,
    /// [`Desk::unlock`](crate::Desk::unlock)
    Unlock = 0x0103,
    /// [`Desk::suspend`](crate::Desk::suspend)
    Suspend = 0x0104,
    /// [`Desk::resume`](crate::Desk::resume)
    Resume = 0x0105,
    /// [`Desk::sync`](crate::Desk::sync)
    Sync = 0x0108,
    /// [`Desk::void`](crate::Desk::void)
    Void = 0x010a,
    /// [`Desk::query`](crate::Desk::query)
    Query = 0x010b,
    /// [`Desk::load`](crate::Desk::load)
    Load = 0x0140,
}

impl Call {
    /// All calls, by the codes of their successes.
    pub const ALL: &'static [Call] = &[
        Call::Login,
        Call::ChallengeLogin,
        Call::Activate,
        Call::Lock,
        Call::Unlock,
        Call::Suspend,
        Call::Resume,
        Call::Sync,
        Call::Void,
        Call::Query,
        Call::Load,
    ];

    /// The code of this call's success.
    pub const fn success(self) -> u16 {
        self as u16
    }

    /// The code of an answer to this call.
    pub fn code_of<Content>(self, answer: &Answer<Content>) -> u16 {
        match answer {
            Ok(_) => self.success(),
            Err(refusal) => refusal.code(),
        }
    }

    /// The answer to this call that a code of the library stands for.
    pub(crate) fn answer(self, code: u16) -> Answer<()> {
        Refusal::unless(code, self.success())
    }
}

/// What an accepted password says of its token.
#[derive(Clone, Copy, Debug, PartialEq, Eq, Hash)]
pub struct Accepted {
    /// The step of the password, or of the second one of two.
    pub step: Step,
    /// The token's offset from now on.
    pub offset: Offset,
}

impl Accepted {
    // The library's numbers are in these types' ranges.
    pub(crate) fn of([step, offset, _]: Values) -> Accepted {
        Accepted { step: Step(step as u64), offset: Offset(offset as i16) }
    }
}

/// A token's state.
#[derive(Clone, Copy, Debug, PartialEq, Eq, Hash)]
#[repr(u8)]
pub enum State {
    /// Loaded, and not yet shown to be in anybody's hand.
    NotActivated = 1,
    /// Passwords are accepted.
    Ready = 2,
    /// Too many errors; it opens when the wait has run out, or by unlock.
    LockedByErrors = 3,
    /// Locked by [`Desk::lock`](crate::Desk::lock); only unlock opens it.
    LockedByHand = 4,
    /// Laid aside until it is resumed.
    Suspended = 5,
    /// Out of use for good.
    Void = 6,
}

impl State {
    /// The number, as the table and the C header have it.
    pub const fn number(self) -> u8 {
        self as u8
    }

    fn of(number: i64) -> State {
        match number {
            1 => State::NotActivated,
            2 => State::Ready,
            3 => State::LockedByErrors,
            4 => State::LockedByHand,
            5 => State::Suspended,
            6 => State::Void,
            _ => panic!("{number} is no state of a token"),
        }
    }
}

/// What a query reports of a token.
#[derive(Clone, Copy, Debug, PartialEq, Eq, Hash)]
pub struct Status {
    /// The state, once a wait has run out.
    pub state: State,
    /// Errors since the last accepted password.
    pub errors: u8,
    /// The clock at the last accepted password; 0 if there was none.
    pub last_use: Seconds,
}

impl Status {
    pub(crate) fn of([state, errors, last_use]: Values) -> Status {
        Status { state: State::of(state), errors: errors as u8, last_use: Seconds(last_use as u64) }
    }
}

/// The success of a message, whichever call it asked for.
#[derive(Clone, Copy, Debug, PartialEq, Eq, Hash)]
pub enum Served {
    /// Of a checked call: which one, and what the accepted password says.
    Checked(Call, Accepted),
    /// Of a query: what it reports.
    Queried(Status),
    /// Of lock, suspend or void: which one.
    Plain(Call),
}

impl Served {
    /// The call that the message asked for.
    pub const fn call(&self) -> Call {
        match *self {
            Served::Checked(call, _) | Served::Plain(call) => call,
            Served::Queried(_) => Call::Query,
        }
    }

    /// The answer that a code of the library stands for, with its values. There is no message for a load.
    pub(crate) fn answer(code: u16, values: Values) -> Answer<Served> {
        match Call::ALL.iter().copied().find(|call| call.success() == code) {
            Some(call @ (Call::Lock | Call::Suspend | Call::Void)) => Ok(Served::Plain(call)),
            Some(Call::Query) => Ok(Served::Queried(Status::of(values))),
            Some(Call::Load) | None => Err(Refusal::of(code)),
            Some(call) => Ok(Served::Checked(call, Accepted::of(values))),
        }
    }
}

#[cfg(test)]
mod tests {
    use super::*;

    #[test]
    fn values_keep_their_signs() {
        let farthest = Accepted { step: Step(1 << 40), offset: Offset(-600) };
        assert_eq!(Accepted::of([1 << 40, -600, 0]), farthest);
    }

    #[test]
    fn states_have_their_numbers() {
        let states =
            [State::NotActivated, State::Ready, State::LockedByErrors, State::LockedByHand, State::Suspended, State::Void];
        for (number, state) in (1..).zip(states) {
            let told = Status { state, errors: 255, last_use: Seconds((1 << 40) - 1) };
            assert_eq!(Status::of([number, 255, (1 << 40) - 1]), told);
            assert_eq!(i64::from(state.number()), number);
        }
    }

    #[test]
    fn messages_have_the_contents_of_their_calls() {
        let accepted = Accepted { step: Step(35), offset: Offset(-1) };
        let status = Status { state: State::Ready, errors: 4, last_use: Seconds(1060) };
        for &call in Call::ALL {
            let (values, served) = match call {
                Call::Load => continue,
                Call::Lock | Call::Suspend | Call::Void => ([0; 3], Served::Plain(call)),
                Call::Query => ([2, 4, 1060], Served::Queried(status)),
                _ => ([35, -1, 0], Served::Checked(call, accepted)),
            };
            assert_eq!(Served::answer(call.success(), values), Ok(served));
            assert_eq!(served.call(), call);
        }
        assert_eq!(Served::answer(0x9002, [0; 3]), Err(Refusal::BadMac));
    }

    #[test]
    #[should_panic(expected = "0140 is no code")]
    fn no_message_loads() {
        let _ = Served::answer(Call::Load.success(), [0; 3]);
    }

    #[test]
    #[should_panic(expected = "7 is no state")]
    fn there_is_no_other_state() {
        State::of(7);
    }
}
