//! The check of a token whose numbers the caller keeps himself, without a table.
use crate::refusal::DONE;
use crate::{ffi, Algorithm, Answer, Kind, Offset, Refusal, Seconds, Step};

/// How far from its expected step a password is looked for.
#[derive(Clone, Copy, Debug, PartialEq, Eq, Hash)]
#[repr(u8)]
pub enum Window {
    /// 2 steps either way for a time token, 10 ahead for an event token.
    Small = 1,
    /// 5 steps either way, 20 ahead.
    Medium = 2,
    /// 10 steps either way, 50 ahead.
    Large = 3,
}

/// What a check needs to know of a token.
#[derive(Clone, Copy)]
pub struct Track<'a> {
    /// A time token or an event token.
    pub kind: Kind,
    /// What makes its passwords.
    pub algorithm: Algorithm,
    /// Of its passwords, 6 to 10.
    pub digits: u8,
    /// Its secret, 16 to 32 bytes.
    pub key: &'a [u8],
    /// The first unused step, at most 2^40 + 600; of an event token at most 2^32.
    pub next: Step,
    /// How far its clock is ahead, -600 to 600; of an event token 0.
    pub offset: Offset,
}

/// What a check gives: the accepted step or the refusal, and what the search cost.
#[derive(Clone, Copy, Debug, PartialEq, Eq, Hash)]
pub struct Checked {
    /// The accepted step, or why there is none.
    pub answer: Answer<Step>,
    /// How many passwords were computed: those of all the window's steps or, for two passwords that are accepted, of those up to the
    /// accepted one. 0 if a password has another number of digits than the token's, and if the check is refused as
    /// [`BadArgument`](Refusal::BadArgument).
    pub computed: u64,
    /// How many unused steps have the password; for two passwords 1 if they are accepted, else 0. 0 also where `computed` is.
    pub fresh: u64,
}

impl Track<'_> {
    /// The accepted step of a password or, with `following`, the second step of two passwords in a row; how many passwords were
    /// computed, and how many unused steps have the password. The search goes up the steps of the window once, for one password to
    /// the last step, for two to the accepted one.
    ///
    /// It changes nothing: the caller sets `next` to that step plus 1 and, for a time token, `offset` to that step minus the clock's.
    /// A challenge has 4 to 32 printable ASCII bytes and no space, and two passwords have none. Empty texts are none, but a password
    /// is needed.
    ///
    /// It is refused as [`BadArgument`](Refusal::BadArgument) if a number of the token, the clock or the challenge is out of range or
    /// a password is not 6 to 10 ASCII digits, as [`NextWanted`](Refusal::NextWanted) if two or more unused steps have the one
    /// password, as [`Used`](Refusal::Used) if only used steps have it, and as [`Wrong`](Refusal::Wrong) if no step of the window has
    /// it, which also goes for another number of digits than the token's.
    ///
    /// ```
    /// # use dykeladder::{password, Algorithm, Factor, Kind, Offset, Refusal, Seconds, Step, Track, Window};
    /// let mut track = Track {
    ///     kind: Kind::Event,
    ///     algorithm: Algorithm::Sm4,
    ///     digits: 8,
    ///     key: b"sixteen letters.",
    ///     next: Step(5),
    ///     offset: Offset(0),
    /// };
    /// let shown = password(track.algorithm, track.key, Factor::Count(6), None, track.digits)?;
    /// let checked = track.check(Seconds(0), Window::Small, None, shown, None);
    /// let step = checked.answer?;
    /// assert_eq!(step, Step(6));
    /// assert_eq!(checked.computed, 11); // the window begins with the last used step: 4 to 14
    /// assert_eq!(checked.fresh, 1);
    ///
    /// track.next = Step(step.0 + 1);
    /// let again = track.check(Seconds(0), Window::Small, None, shown, None);
    /// assert_eq!(again.answer, Err(Refusal::Used));
    /// assert_eq!(again.fresh, 0);
    /// # Ok::<(), Refusal>(())
    /// ```
    pub fn check(
        &self,
        now: Seconds,
        window: Window,
        challenge: Option<&[u8]>,
        password: impl AsRef<[u8]>,
        following: Option<&[u8]>,
    ) -> Checked {
        // one that has no place in 16 bits is out of range, as the largest number there is
        let offset = u16::try_from(i32::from(self.offset.0) + 600).unwrap_or(u16::MAX);
        let texts = [challenge.unwrap_or_default(), password.as_ref(), following.unwrap_or_default()];
        let mut found = ffi::Found::default();
        let code = ffi::check(self, offset, now.0, window as u8, texts, &mut found);
        let answer = Refusal::unless(code, DONE).map(|()| Step(found.step));
        Checked { answer, computed: found.computed, fresh: found.fresh }
    }
}
