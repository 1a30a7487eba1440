//! Double presses (document 02, request 4): the request's table by both algorithms, every byte of the row compared; a thousand presses; and one
//! that is missed when it is struck.
use dykeladder::{
    password, Accepted, Algorithm, Answer, Call, Desk, Factor, Kind, Offset, Particulars, Password, Refusal, Seconds, Serial,
    State, Step, SyncWindow, ROW_BYTES,
};

const SERIAL: Serial = Serial(7);
const TIME: Kind = Kind::Time { period: 30 };
const CHALLENGE: &str = "quay";

#[derive(Clone, Copy)]
struct Token {
    kind: Kind,
    algorithm: Algorithm,
}

impl Token {
    fn particulars(&self, limit: u8, expiry: u64) -> Particulars<'static> {
        let Token { kind, algorithm } = *self;
        let key = b"a key of 20 letters.";
        Particulars { serial: SERIAL, kind, algorithm, digits: 6, limit, key, wait: 60, expiry: Seconds(expiry) }
    }

    fn shown(&self, challenge: Option<&str>, step: u64) -> Password {
        let factor = if self.kind == TIME { Factor::Time(Step(step)) } else { Factor::Count(step as u32) };
        let token = self.particulars(1, 0);
        password(token.algorithm, token.key, factor, challenge.map(str::as_bytes), token.digits).expect("all in range")
    }

    // With the password of the step and, where the call has two, of the one after it.
    fn answer(&self, desk: &mut Desk<'_>, call: Call, now: u64, step: u64) -> Answer<Accepted> {
        let (now, first, second) = (Seconds(now), self.shown(None, step), self.shown(None, step + 1));
        match call {
            Call::Login => desk.login(SERIAL, now, first),
            Call::ChallengeLogin => desk.challenge_login(SERIAL, now, CHALLENGE, self.shown(Some(CHALLENGE), step)),
            Call::Unlock => desk.unlock(SERIAL, now, first),
            Call::Resume => desk.resume(SERIAL, now, first),
            Call::Sync => desk.sync(SERIAL, now, SyncWindow::Medium, first, second),
            Call::Activate => desk.activate(SERIAL, now, first, second),
            _ => panic!("{call:?} has no password"),
        }
    }
}

// By both algorithms.
fn tokens(kind: Kind) -> [Token; 2] {
    [Algorithm::Sm3, Algorithm::Sm4].map(|algorithm| Token { kind, algorithm })
}

// ---- the request's table

// What the table tells of a row; the wait is 60.
#[derive(Clone, Copy)]
struct Row {
    state: u8,
    limit: u8,
    errors: u8,
    next: u64,
    locked_at: u64,
    expiry: u64,
}

const READY: Row = Row { state: 2, limit: 5, errors: 0, next: 101, locked_at: 0, expiry: 1 << 40 };
const STRICT: Row = Row { limit: 1, ..READY };
const ABOVE: Row = Row { limit: 3, errors: 9, ..READY };
const FULL: Row = Row { errors: 255, ..READY };
const FAR: Row = Row { next: 200, ..READY };
const BY_HAND: Row = Row { state: 4, ..READY };
const SUSPENDED: Row = Row { state: 5, ..READY };
const LOADED: Row = Row { state: 1, ..READY };
const EXPIRED: Row = Row { expiry: 3000, ..READY };
const FIFTH: Row = Row { next: 5, ..READY };

const fn locked(at: u64) -> Row {
    Row { state: 3, errors: 5, locked_at: at, ..READY }
}

const fn locked_by(row: Row, errors: u8) -> Row {
    Row { state: 3, errors, locked_at: 3000, ..row }
}

const fn with_error(row: Row) -> Row {
    Row { errors: row.errors + 1, ..row }
}

impl Row {
    fn bytes(&self, token: &Token) -> [u8; ROW_BYTES] {
        let mut row = [0; ROW_BYTES];
        Desk::new(&mut row).load(&token.particulars(self.limit, self.expiry)).expect("the row is empty");
        row[0] = self.state;
        row[6] = self.errors;
        row[48..56].copy_from_slice(&self.next.to_be_bytes());
        row[72..80].copy_from_slice(&self.locked_at.to_be_bytes());
        row
    }
}

// The row before, the call, its clock and step, the refusal, and the row after it.
type Case = (Row, Call, u64, u64, Refusal, Row);

// At clock 3000 the step is 100.
const OF_TIME: &[Case] = &[
    (STRICT, Call::Login, 3000, 100, Refusal::Used, STRICT),
    (STRICT, Call::Login, 3000, 99, Refusal::Used, locked_by(STRICT, 1)),
    (STRICT, Call::ChallengeLogin, 3000, 99, Refusal::Used, locked_by(STRICT, 1)),
    (ABOVE, Call::Login, 3000, 99, Refusal::Used, locked_by(ABOVE, 10)),
    (FULL, Call::Login, 3000, 99, Refusal::Used, locked_by(FULL, 255)),
    (READY, Call::Login, 3089, 100, Refusal::Used, READY),
    (READY, Call::Login, 3090, 100, Refusal::Wrong, with_error(READY)),
    (READY, Call::Login, 2940, 100, Refusal::Used, READY),
    (READY, Call::Login, 2939, 100, Refusal::Wrong, with_error(READY)),
    (FAR, Call::Login, 3000, 100, Refusal::Used, with_error(FAR)),
];

const OF_EVENTS: &[Case] = &[
    (FIFTH, Call::Login, 3000, 4, Refusal::Used, FIFTH),
    (FIFTH, Call::Login, 3000, 3, Refusal::Wrong, with_error(FIFTH)),
    (STRICT, Call::Login, 3000, 99, Refusal::Wrong, locked_by(STRICT, 1)),
];

const OF_BOTH: &[Case] = &[
    (STRICT, Call::Login, 3000, 100, Refusal::Used, STRICT),
    (STRICT, Call::ChallengeLogin, 3000, 100, Refusal::Used, STRICT),
    (ABOVE, Call::Login, 3000, 100, Refusal::Used, ABOVE),
    (ABOVE, Call::ChallengeLogin, 3000, 100, Refusal::Used, ABOVE),
    (FULL, Call::Login, 3000, 100, Refusal::Used, FULL),
    (FULL, Call::ChallengeLogin, 3000, 100, Refusal::Used, FULL),
    (locked(2990), Call::Login, 3000, 100, Refusal::TokenLocked, locked(2990)),
    (locked(2941), Call::Login, 3000, 100, Refusal::TokenLocked, locked(2941)),
    (locked(2940), Call::Login, 3000, 100, Refusal::Used, READY),
    (locked(2900), Call::Login, 3000, 100, Refusal::Used, READY),
    (locked(2900), Call::ChallengeLogin, 3000, 100, Refusal::Used, READY),
    (BY_HAND, Call::Unlock, 3000, 100, Refusal::ManagementUsed, with_error(BY_HAND)),
    (locked(2990), Call::Unlock, 3000, 100, Refusal::ManagementUsed, with_error(locked(2990))),
    (SUSPENDED, Call::Resume, 3000, 100, Refusal::ManagementUsed, with_error(SUSPENDED)),
    (READY, Call::Sync, 3000, 100, Refusal::ManagementUsed, with_error(READY)),
    (LOADED, Call::Activate, 3000, 100, Refusal::ManagementUsed, with_error(LOADED)),
    (EXPIRED, Call::Login, 3000, 100, Refusal::TokenExpired, EXPIRED),
    (EXPIRED, Call::ChallengeLogin, 3000, 100, Refusal::TokenExpired, EXPIRED),
    (EXPIRED, Call::Login, 2999, 100, Refusal::Used, EXPIRED),
];

fn assert_cases(kind: Kind, cases: &[Case]) {
    for token in tokens(kind) {
        for (number, &(before, call, now, step, refusal, after)) in cases.iter().enumerate() {
            let mut row = before.bytes(&token);
            let answer = token.answer(&mut Desk::new(&mut row), call, now, step);
            assert_eq!(answer, Err(refusal), "{kind:?}, case {number}");
            assert_eq!(row, after.bytes(&token), "{kind:?}, case {number}");
        }
    }
}

#[test]
fn of_a_time_token() {
    assert_cases(TIME, OF_TIME);
    assert_cases(TIME, OF_BOTH);
}

#[test]
fn of_an_event_token() {
    assert_cases(Kind::Event, OF_EVENTS);
    assert_cases(Kind::Event, OF_BOTH);
}

// A challenge login compares with the password of its challenge.
#[test]
fn without_the_challenge() {
    for token in [tokens(TIME), tokens(Kind::Event)].concat() {
        let mut row = READY.bytes(&token);
        let answer = Desk::new(&mut row).challenge_login(SERIAL, Seconds(3000), CHALLENGE, token.shown(None, 100));
        assert_eq!(answer, Err(Refusal::Wrong));
        assert_eq!(row, with_error(READY).bytes(&token));
    }
}

// ---- lists of calls on a token of limit 1

// Activated at 3000 with these two steps; a time token's clock is then one step ahead.
fn activated(token: &Token) -> ([u8; ROW_BYTES], u64) {
    let (last, ahead) = if token.kind == TIME { (101, 1) } else { (41, 0) };
    let mut row = [0; ROW_BYTES];
    let mut desk = Desk::new(&mut row);
    desk.load(&token.particulars(1, 1 << 40)).expect("the row is empty");
    let accepted = Accepted { step: Step(last), offset: Offset(ahead) };
    assert_eq!(token.answer(&mut desk, Call::Activate, 3000, last - 1), Ok(accepted));
    (row, last)
}

// An older step locks, of a time token as used, of an event token as no candidate.
fn assert_locks(token: &Token, row: &mut [u8], login: Call, last: u64) {
    let refusal = if token.kind == TIME { Refusal::Used } else { Refusal::Wrong };
    let mut desk = Desk::new(row);
    assert_eq!(token.answer(&mut desk, login, 3000, last - 1), Err(refusal));
    assert_eq!(desk.query(SERIAL, Seconds(3000)).map(|status| (status.state, status.errors)), Ok((State::LockedByErrors, 1)));
}

#[test]
fn a_thousand() {
    for token in [tokens(TIME), tokens(Kind::Event)].concat() {
        for login in [Call::Login, Call::ChallengeLogin] {
            let (before, last) = activated(&token);
            let mut row = before;
            for press in 0..1000 {
                assert_eq!(token.answer(&mut Desk::new(&mut row), login, 2940 + press % 150, last), Err(Refusal::Used));
                assert_eq!(row, before, "press {press}");
            }
            assert_locks(&token, &mut row, login, last);
        }
    }
}

// What a token locked at 3000 answers at 3030, after `between` at 3060, and the row then.
fn later(token: &Token, between: impl FnOnce(&mut Desk<'_>, u64)) -> (Answer<Accepted>, [u8; ROW_BYTES]) {
    let (mut row, last) = activated(token);
    assert_locks(token, &mut row, Call::Login, last);
    let mut desk = Desk::new(&mut row);
    between(&mut desk, last);
    (token.answer(&mut desk, Call::Login, 3030, last + 1), row)
}

// A press lets the wait run out, and then the clock goes back: without the press the token is still locked. An activate in its place, which a
// ready token refuses, does the same.
#[test]
fn one_that_is_missed() {
    for token in [tokens(TIME), tokens(Kind::Event)].concat() {
        let pressed = later(&token, |desk, last| {
            assert_eq!(token.answer(desk, Call::Login, 3060, last), Err(Refusal::Used));
        });
        let struck = later(&token, |_, _| ());
        let idled = later(&token, |desk, _| {
            assert_eq!(desk.activate(SERIAL, Seconds(3060), "000000", "000000"), Err(Refusal::TokenReady));
        });
        assert!(pressed.0.is_ok());
        assert_eq!(struck.0, Err(Refusal::TokenLocked));
        assert_eq!(idled, pressed);
    }
}
