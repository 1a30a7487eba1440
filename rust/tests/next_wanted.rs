//! One password at two steps (document 02, request 5): the four tokens of the request's table, each with the first unused step and the clock.
use dykeladder::{
    Accepted, Algorithm, Answer, Checked, Desk, Kind, Offset, Particulars, Refusal, Seconds, Serial, State, Step, SyncWindow,
    Track, Window, ROW_BYTES,
};

const SERIAL: Serial = Serial(7);
const PERIOD: u8 = 30;
const TIME: Kind = Kind::Time { period: PERIOD };

// The key is a number of 16 bytes; the password is that of two steps.
struct Token {
    kind: Kind,
    algorithm: Algorithm,
    key: u128,
    password: &'static str,
}

// At the steps 99 and 102, 98 and 102, 3 and 6, 7 and 9.
const TIME_SM3: Token = Token { kind: TIME, algorithm: Algorithm::Sm3, key: 15656, password: "462498" };
const TIME_SM4: Token = Token { kind: TIME, algorithm: Algorithm::Sm4, key: 31032, password: "134483" };
const EVENT_SM3: Token = Token { kind: Kind::Event, algorithm: Algorithm::Sm3, key: 3403, password: "547160" };
const EVENT_SM4: Token = Token { kind: Kind::Event, algorithm: Algorithm::Sm4, key: 18225, password: "140930" };

// What a check answers, after so many candidates, with so many fresh ones that match.
struct Case {
    token: &'static Token,
    next: u64,
    now: u64,
    answer: Answer<u64>,
    computed: u64,
    fresh: u64,
}

#[rustfmt::skip]
const CASES: &[Case] = &[
    Case { token: &TIME_SM3, next: 0, now: 3000, answer: Err(Refusal::NextWanted), computed: 5, fresh: 2 },
    Case { token: &TIME_SM3, next: 99, now: 3000, answer: Err(Refusal::NextWanted), computed: 5, fresh: 2 },
    Case { token: &TIME_SM3, next: 100, now: 3000, answer: Ok(102), computed: 5, fresh: 1 },
    Case { token: &TIME_SM3, next: 103, now: 3000, answer: Err(Refusal::Used), computed: 5, fresh: 0 },
    Case { token: &TIME_SM3, next: 0, now: 3150, answer: Err(Refusal::Wrong), computed: 5, fresh: 0 },
    Case { token: &TIME_SM4, next: 98, now: 3000, answer: Err(Refusal::NextWanted), computed: 5, fresh: 2 },
    Case { token: &TIME_SM4, next: 0, now: 2999, answer: Ok(98), computed: 5, fresh: 1 },
    Case { token: &TIME_SM4, next: 99, now: 3000, answer: Ok(102), computed: 5, fresh: 1 },
    Case { token: &TIME_SM4, next: 103, now: 3000, answer: Err(Refusal::Used), computed: 5, fresh: 0 },
    Case { token: &EVENT_SM3, next: 0, now: 1060, answer: Err(Refusal::NextWanted), computed: 10, fresh: 2 },
    Case { token: &EVENT_SM3, next: 3, now: 1060, answer: Err(Refusal::NextWanted), computed: 11, fresh: 2 },
    Case { token: &EVENT_SM3, next: 4, now: 1060, answer: Ok(6), computed: 11, fresh: 1 },
    Case { token: &EVENT_SM3, next: 6, now: 1060, answer: Ok(6), computed: 11, fresh: 1 },
    Case { token: &EVENT_SM3, next: 7, now: 1060, answer: Err(Refusal::Used), computed: 11, fresh: 0 },
    Case { token: &EVENT_SM3, next: 8, now: 1060, answer: Err(Refusal::Wrong), computed: 11, fresh: 0 },
    Case { token: &EVENT_SM4, next: 0, now: 1060, answer: Err(Refusal::NextWanted), computed: 10, fresh: 2 },
    Case { token: &EVENT_SM4, next: 7, now: 1060, answer: Err(Refusal::NextWanted), computed: 11, fresh: 2 },
    Case { token: &EVENT_SM4, next: 8, now: 1060, answer: Ok(9), computed: 11, fresh: 1 },
    Case { token: &EVENT_SM4, next: 10, now: 1060, answer: Err(Refusal::Used), computed: 11, fresh: 0 },
];

#[test]
fn by_the_check() {
    for case in CASES {
        let Token { kind, algorithm, key, password } = *case.token;
        let track = Track { kind, algorithm, digits: 6, key: &key.to_be_bytes(), next: Step(case.next), offset: Offset(0) };
        let checked = track.check(Seconds(case.now), Window::Small, None, password, None);
        let expected = Checked { answer: case.answer.map(Step), computed: case.computed, fresh: case.fresh };
        assert_eq!(checked, expected, "{password}, next {}", case.next);
    }
}

// A row of limit 3 with two errors, in this state.
fn row(token: &Token, state: u8, next: u64) -> [u8; ROW_BYTES] {
    let Token { kind, algorithm, key, .. } = *token;
    let key = key.to_be_bytes();
    let token =
        Particulars { serial: SERIAL, kind, algorithm, digits: 6, limit: 3, key: &key, wait: 60, expiry: Seconds(1 << 40) };
    let mut row = [0; ROW_BYTES];
    Desk::new(&mut row).load(&token).expect("the row is empty");
    row[0] = state;
    row[6] = 2;
    row[48..56].copy_from_slice(&next.to_be_bytes());
    row
}

fn accepted(case: &Case, step: u64) -> Accepted {
    let offset = if case.token.kind == TIME { step as i16 - (case.now / u64::from(PERIOD)) as i16 } else { 0 };
    Accepted { step: Step(step), offset: Offset(offset) }
}

// Asked for the next password, the desk leaves every byte; a used or wrong one is the third error.
fn assert_left(case: &Case, before: [u8; ROW_BYTES], mut after: [u8; ROW_BYTES], refused_state: State) {
    let status = Desk::new(&mut after).query(SERIAL, Seconds(case.now)).expect("the row is well formed");
    match case.answer {
        Ok(_) => assert_eq!((status.state, status.errors, status.last_use), (State::Ready, 0, Seconds(case.now))),
        Err(Refusal::NextWanted) => assert_eq!(after, before),
        Err(_) => assert_eq!((status.state, status.errors), (refused_state, 3)),
    }
}

// The used passwords of these cases are those of the step before `next`, so that each is a login's double press (request 4).
fn assert_left_by_login(case: &Case, before: [u8; ROW_BYTES], after: [u8; ROW_BYTES]) {
    match case.answer {
        Err(Refusal::Used) => assert_eq!(after, before),
        _ => assert_left(case, before, after, State::LockedByErrors),
    }
}

#[test]
fn by_login() {
    for case in CASES {
        let before = row(case.token, 2, case.next);
        let mut after = before;
        let answer = Desk::new(&mut after).login(SERIAL, Seconds(case.now), case.token.password);
        assert_eq!(answer, case.answer.map(|step| accepted(case, step)));
        assert_left_by_login(case, before, after);
    }
}

fn of_management(refusal: Refusal) -> Refusal {
    match refusal {
        Refusal::NextWanted => Refusal::ManagementNextWanted,
        Refusal::Used => Refusal::ManagementUsed,
        _ => Refusal::ManagementWrong,
    }
}

#[test]
fn by_unlock_and_resume() {
    for case in CASES {
        let expected = case.answer.map(|step| accepted(case, step)).map_err(of_management);
        for (number, state) in [(4, State::LockedByHand), (5, State::Suspended)] {
            let before = row(case.token, number, case.next);
            let mut after = before;
            let mut desk = Desk::new(&mut after);
            let (now, password) = (Seconds(case.now), case.token.password);
            let answer =
                if state == State::Suspended { desk.resume(SERIAL, now, password) } else { desk.unlock(SERIAL, now, password) };
            assert_eq!(answer, expected);
            assert_left(case, before, after, state);
        }
    }
}

// Locked at 1000 for 60 seconds: what the wait sets stays, and no more is set.
#[test]
fn after_a_wait() {
    let mut open = row(&EVENT_SM3, 2, 0);
    open[6] = 0;
    let mut locked = row(&EVENT_SM3, 3, 0);
    locked[72..80].copy_from_slice(&1000_u64.to_be_bytes());
    let mut by_login = locked;
    assert_eq!(Desk::new(&mut by_login).login(SERIAL, Seconds(1060), EVENT_SM3.password), Err(Refusal::NextWanted));
    assert_eq!(by_login, open);
    let mut by_unlock = locked;
    assert_eq!(Desk::new(&mut by_unlock).unlock(SERIAL, Seconds(1060), EVENT_SM3.password), Err(Refusal::TokenReady));
    assert_eq!(by_unlock, open);
    let mut by_early_unlock = locked;
    let early = Desk::new(&mut by_early_unlock).unlock(SERIAL, Seconds(1059), EVENT_SM3.password);
    assert_eq!(early, Err(Refusal::ManagementNextWanted));
    assert_eq!(by_early_unlock, locked);
}

// The password that the token shows next is accepted; or both are, in a row.
#[test]
fn what_the_captain_does_then() {
    let (now, next_shown) = (Seconds(1060), "629325");
    let seventh = Ok(Accepted { step: Step(7), offset: Offset(0) });
    let mut table = row(&EVENT_SM3, 2, 2);
    assert_eq!(Desk::new(&mut table).login(SERIAL, now, next_shown), seventh);
    let mut table = row(&EVENT_SM3, 2, 2);
    assert_eq!(Desk::new(&mut table).sync(SERIAL, now, SyncWindow::Medium, EVENT_SM3.password, next_shown), seventh);
}
