//! The desk: eleven calls over a lent table of tokens, ten of which a message may ask for.
use crate::ffi::{self, Values};
use crate::{Accepted, Algorithm, Answer, Call, Seconds, Serial, Served, Status};

/// The bytes of a token's row.
pub const ROW_BYTES: usize = 96;

/// The rows of the largest table.
pub const MOST_ROWS: usize = 256;

/// What makes a token's passwords change.
#[derive(Clone, Copy, Debug, PartialEq, Eq, Hash)]
pub enum Kind {
    /// The clock; a password lives for a period of 1 to 60 seconds.
    Time {
        /// In seconds.
        period: u8,
    },
    /// The presses of its button.
    Event,
}

impl Kind {
    // The kind and the period, as the library has them.
    pub(crate) fn numbers(self) -> (u8, u8) {
        match self {
            Kind::Time { period } => (0, period),
            Kind::Event => (1, 0),
        }
    }
}

/// What a load tells the desk of a token.
#[derive(Clone, Copy)]
pub struct Particulars<'a> {
    /// The number by which the calls name the token.
    pub serial: Serial,
    /// A time token or an event token.
    pub kind: Kind,
    /// What makes its passwords.
    pub algorithm: Algorithm,
    /// Of its passwords, 6 to 10.
    pub digits: u8,
    /// The errors at which a login locks it, 1 to 10.
    pub limit: u8,
    /// Its secret, 16 to 32 bytes.
    pub key: &'a [u8],
    /// The seconds after which a lock by errors opens, 60 to 86,400.
    pub wait: u32,
    /// The clock from which on checked calls are refused, at most 2^40.
    pub expiry: Seconds,
}

/// The window of a sync: how far a token's clock or count may have gone astray.
#[derive(Clone, Copy, Debug, PartialEq, Eq, Hash)]
#[repr(u8)]
pub enum SyncWindow {
    /// 5 steps either way for a time token, 20 ahead for an event token.
    Medium = 1,
    /// 10 steps either way, 50 ahead.
    Large = 2,
}

/// The desk over a table that it borrows; it owns nothing.
///
/// A table has 1 to 256 rows of 96 bytes. A new one is all zeros; it may be stored and read back as it is, and it is as secret as the
/// tokens' keys. A table of another length is answered [`BadArgument`](crate::Refusal::BadArgument) by every call.
///
/// Each call but [`load`](Desk::load) names a token by its serial, at a clock below 2^40 that may go back. It is refused for a serial
/// that no row has, a row that is not well formed, and a state that the call does not serve. A checked call, one with a password, is
/// refused for a token that has expired, for one password that two or more unused steps have, and for a password that is used or wrong.
/// A password is any text of 6 to 10 digits.
///
/// A token locked by errors becomes ready when its wait has run out, at the next call that names it.
///
/// ```
/// # use dykeladder::{Desk, Refusal, Seconds, Serial, ROW_BYTES};
/// let mut table = [0; 2 * ROW_BYTES];
/// let mut desk = Desk::new(&mut table);
/// assert_eq!(desk.login(Serial(7), Seconds(1060), "123456"), Err(Refusal::NoToken));
/// ```
pub struct Desk<'a> {
    table: &'a mut [u8],
}

impl<'a> Desk<'a> {
    /// The desk over this table.
    pub fn new(table: &'a mut [u8]) -> Desk<'a> {
        Desk { table }
    }

    /// Puts a new token into the first empty row. It is not activated, and no step of it is used.
    ///
    /// ```
    /// # use dykeladder::{Algorithm, Desk, Kind, Particulars, Refusal, Seconds, Serial, State, ROW_BYTES};
    /// let token = Particulars {
    ///     serial: Serial(7),
    ///     kind: Kind::Event,
    ///     algorithm: Algorithm::Sm4,
    ///     digits: 8,
    ///     limit: 5,
    ///     key: b"sixteen letters.",
    ///     wait: 60,
    ///     expiry: Seconds(1 << 40),
    /// };
    /// let mut table = [0; ROW_BYTES];
    /// let mut desk = Desk::new(&mut table);
    /// assert_eq!(desk.load(&token), Ok(()));
    /// assert_eq!(desk.query(token.serial, Seconds(0))?.state, State::NotActivated);
    /// assert_eq!(desk.load(&token), Err(Refusal::SerialTaken));
    /// # Ok::<(), Refusal>(())
    /// ```
    pub fn load(&mut self, token: &Particulars<'_>) -> Answer<()> {
        Call::Load.answer(ffi::load(self.table, token))
    }

    /// Checks a password against the small window of a ready token. The token is locked if its errors reach the limit. A double
    /// press, with the password of the last accepted step, is refused as [`Used`](crate::Refusal::Used) and is no error.
    pub fn login(&mut self, serial: Serial, now: Seconds, password: impl AsRef<[u8]>) -> Answer<Accepted> {
        self.single(Call::Login, ffi::LOGIN, serial, now, password.as_ref())
    }

    /// As [`login`](Desk::login), with a password made for a challenge of 4 to 32 bytes, each from `!` to `~`.
    pub fn challenge_login(
        &mut self,
        serial: Serial,
        now: Seconds,
        challenge: impl AsRef<[u8]>,
        password: impl AsRef<[u8]>,
    ) -> Answer<Accepted> {
        let texts = [challenge.as_ref(), password.as_ref()];
        self.double(Call::ChallengeLogin, ffi::CHALLENGE_LOGIN, serial, now, texts)
    }

    /// Makes a token that is not activated ready, if two passwords in a row belong to its large window.
    pub fn activate(
        &mut self,
        serial: Serial,
        now: Seconds,
        password: impl AsRef<[u8]>,
        following: impl AsRef<[u8]>,
    ) -> Answer<Accepted> {
        let passwords = [password.as_ref(), following.as_ref()];
        self.double(Call::Activate, ffi::ACTIVATE, serial, now, passwords)
    }

    /// Locks a ready token by hand; no wait opens this lock.
    pub fn lock(&mut self, serial: Serial, now: Seconds) -> Answer<()> {
        self.plain(Call::Lock, ffi::LOCK, serial, now)
    }

    /// Makes a locked token ready, if the password belongs to its small window.
    pub fn unlock(&mut self, serial: Serial, now: Seconds, password: impl AsRef<[u8]>) -> Answer<Accepted> {
        self.single(Call::Unlock, ffi::UNLOCK, serial, now, password.as_ref())
    }

    /// Suspends a token that is ready or locked.
    pub fn suspend(&mut self, serial: Serial, now: Seconds) -> Answer<()> {
        self.plain(Call::Suspend, ffi::SUSPEND, serial, now)
    }

    /// Makes a suspended token ready, if the password belongs to its small window.
    pub fn resume(&mut self, serial: Serial, now: Seconds, password: impl AsRef<[u8]>) -> Answer<Accepted> {
        self.single(Call::Resume, ffi::RESUME, serial, now, password.as_ref())
    }

    /// Takes over the offset of a token that is ready or locked, if two passwords in a row belong to the window. The state is kept.
    pub fn sync(
        &mut self,
        serial: Serial,
        now: Seconds,
        window: SyncWindow,
        password: impl AsRef<[u8]>,
        following: impl AsRef<[u8]>,
    ) -> Answer<Accepted> {
        let passwords = [password.as_ref(), following.as_ref()];
        checked(Call::Sync, |values| ffi::sync(self.table, serial.0, now.0, window as u8, passwords, values))
    }

    /// Makes a token void for good and wipes its key from the row, which stays taken.
    pub fn void(&mut self, serial: Serial, now: Seconds) -> Answer<()> {
        self.plain(Call::Void, ffi::VOID, serial, now)
    }

    /// Reports a token in any state, as it is once a wait has run out. It writes nothing.
    pub fn query(&self, serial: Serial, now: Seconds) -> Answer<Status> {
        let mut values = Values::default();
        let code = ffi::query(self.table, serial.0, now.0, &mut values);
        Call::Query.answer(code).map(|()| Status::of(values))
    }

    /// Serves a request that comes as a message of GM/T 0021-2012, Annex D: makes the call that it asks for, with that call's answer
    /// and table. The C header has the message's form, and the items of each service. The clock is that of whoever runs the reader,
    /// since no message carries one.
    ///
    /// Before everything that the call may refuse, a message not made as a request is refused as
    /// [`BadMessage`](crate::Refusal::BadMessage), one whose MAC differs as [`BadMac`](crate::Refusal::BadMac), and one for a service
    /// without a call as [`NoService`](crate::Refusal::NoService). None of the three changes a byte.
    ///
    /// The MAC has no key: it shows damage and not who sent the message. Anybody can make one, and can send again what he has seen.
    ///
    /// ```
    /// # use dykeladder::{Accepted, Algorithm, Call, Desk, Kind, Offset, Particulars, Refusal, Seconds, Serial, Served, Step, ROW_BYTES};
    /// # let key = 103_142_u128.to_be_bytes();
    /// # let token = Particulars {
    /// #     serial: Serial(7),
    /// #     kind: Kind::Time { period: 30 },
    /// #     algorithm: Algorithm::Sm3,
    /// #     digits: 6,
    /// #     limit: 5,
    /// #     key: &key,
    /// #     wait: 60,
    /// #     expiry: Seconds(1 << 40),
    /// # };
    /// # let mut table = [0; ROW_BYTES];
    /// # let mut desk = Desk::new(&mut table);
    /// # desk.load(&token)?;
    /// # desk.activate(token.serial, Seconds(1020), "850816", "292064")?;
    /// // A login of the token 7 with the password 123456: the header, the body, and its two items.
    /// let message = [
    ///     &b"\x15\x00\x01\0\0\0\0\0\0\0\x0012345678\x00\x1b"[..],
    ///     b"\x00\x01\x00\x00\x02",
    ///     b"\x00\x00\x02\x08\0\0\0\0\0\0\0\x07",
    ///     b"\x00\x00\x03\x06123456",
    /// ]
    /// .concat();
    /// let accepted = Accepted { step: Step(35), offset: Offset(0) };
    /// assert_eq!(desk.serve(&message, Seconds(1060)), Ok(Served::Checked(Call::Login, accepted)));
    /// assert_eq!(desk.serve(&message, Seconds(1060)), Err(Refusal::Used));
    /// assert_eq!(desk.serve(&message[1..], Seconds(1060)), Err(Refusal::BadMessage));
    /// # Ok::<(), Refusal>(())
    /// ```
    pub fn serve(&mut self, message: &[u8], now: Seconds) -> Answer<Served> {
        let mut values = Values::default();
        let code = ffi::serve_message(self.table, message, now.0, &mut values);
        Served::answer(code, values)
    }

    fn plain(&mut self, call: Call, function: ffi::Plain, serial: Serial, now: Seconds) -> Answer<()> {
        call.answer(function.call(self.table, serial.0, now.0))
    }

    fn single(&mut self, call: Call, function: ffi::Single, serial: Serial, now: Seconds, password: &[u8]) -> Answer<Accepted> {
        checked(call, |values| function.call(self.table, serial.0, now.0, password, values))
    }

    fn double(&mut self, call: Call, function: ffi::Double, serial: Serial, now: Seconds, texts: [&[u8]; 2]) -> Answer<Accepted> {
        checked(call, |values| function.call(self.table, serial.0, now.0, texts, values))
    }
}

// The answer of a checked call, which gives its code and fills in the values.
fn checked(call: Call, run: impl FnOnce(&mut Values) -> u16) -> Answer<Accepted> {
    let mut values = Values::default();
    call.answer(run(&mut values)).map(|()| Accepted::of(values))
}
