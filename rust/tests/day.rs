//! A short day at the desk, every answer written out: two rows, two tokens of period 30, limit 2, wait 60 and expiry 5000. At clock
//! 1060 the step is 35.
use dykeladder::{Accepted, Answer, Desk, Offset, Refusal, Seconds, Serial, State, Status, Step, SyncWindow, ROW_BYTES};

mod common;
use common::{shown, shown_for, token};

const FIRST: Serial = Serial(7);
const SECOND: Serial = Serial(8);
const NOW: Seconds = Seconds(1060);

fn accepted(step: u64, offset: i16) -> Answer<Accepted> {
    Ok(Accepted { step: Step(step), offset: Offset(offset) })
}

fn status(state: State, errors: u8, last_use: u64) -> Answer<Status> {
    Ok(Status { state, errors, last_use: Seconds(last_use) })
}

fn loads(desk: &mut Desk<'_>) {
    assert_eq!(desk.query(FIRST, NOW), Err(Refusal::NoToken));
    assert_eq!(desk.load(&token(FIRST)), Ok(()));
    assert_eq!(desk.load(&token(FIRST)), Err(Refusal::SerialTaken));
    assert_eq!(desk.load(&token(SECOND)), Ok(()));
    assert_eq!(desk.load(&token(Serial(9))), Err(Refusal::TableFull));
    assert_eq!(desk.query(FIRST, NOW), status(State::NotActivated, 0, 0));
}

fn activates(desk: &mut Desk<'_>) {
    assert_eq!(desk.login(FIRST, NOW, shown(35)), Err(Refusal::TokenNotActivated));
    assert_eq!(desk.activate(FIRST, NOW, shown(36), shown(35)), Err(Refusal::ManagementWrong));
    assert_eq!(desk.activate(FIRST, NOW, shown(35), shown(36)), accepted(36, 1));
    assert_eq!(desk.activate(FIRST, NOW, shown(36), shown(37)), Err(Refusal::TokenReady));
}

fn signs(desk: &mut Desk<'_>) {
    assert_eq!(desk.login(FIRST, NOW, shown(36)), Err(Refusal::Used));
    assert_eq!(desk.login(FIRST, NOW, shown(37)), accepted(37, 2));
    assert_eq!(desk.login(FIRST, NOW, shown(37)), Err(Refusal::Used));
    assert_eq!(desk.query(FIRST, NOW), status(State::Ready, 0, 1060), "a double press is no error");
    assert_eq!(desk.login(FIRST, NOW, shown(36)), Err(Refusal::Used), "an older step is one");
    assert_eq!(desk.activate(SECOND, NOW, shown(36), shown(37)), accepted(37, 2), "used by the other token only");
    assert_eq!(desk.query(FIRST, NOW), status(State::Ready, 1, 1060));
}

fn is_locked_by_errors(desk: &mut Desk<'_>) {
    assert_eq!(desk.login(FIRST, Seconds(1000), shown(38)), Err(Refusal::Wrong), "the clock went back");
    assert_eq!(desk.login(FIRST, Seconds(1059), shown(38)), Err(Refusal::TokenLocked));
    assert_eq!(desk.query(FIRST, Seconds(1059)), status(State::LockedByErrors, 2, 1060));
    assert_eq!(desk.query(FIRST, NOW), status(State::Ready, 0, 1060), "the wait is over");
}

fn syncs(desk: &mut Desk<'_>) {
    let now = Seconds(1059);
    assert_eq!(desk.sync(FIRST, now, SyncWindow::Medium, shown(37), shown(38)), Err(Refusal::ManagementUsed));
    assert_eq!(desk.sync(FIRST, now, SyncWindow::Medium, shown(42), shown(43)), Err(Refusal::SyncWrong));
    assert_eq!(desk.sync(FIRST, now, SyncWindow::Large, shown(42), shown(43)), accepted(43, 8));
    assert_eq!(desk.query(FIRST, now), status(State::LockedByErrors, 0, 1059));
    assert_eq!(desk.login(FIRST, NOW, shown(44)), accepted(44, 9));
}

fn is_locked_by_hand(desk: &mut Desk<'_>) {
    assert_eq!(desk.lock(FIRST, NOW), Ok(()));
    assert_eq!(desk.query(FIRST, NOW), status(State::LockedByHand, 0, 1060));
    assert_eq!(desk.login(FIRST, Seconds(4000), shown(45)), Err(Refusal::TokenLocked), "no wait opens it");
    assert_eq!(desk.unlock(FIRST, Seconds(1090), shown(45)), accepted(45, 9));
}

fn is_suspended(desk: &mut Desk<'_>) {
    assert_eq!(desk.suspend(FIRST, Seconds(1090)), Ok(()));
    assert_eq!(desk.query(FIRST, Seconds(1090)), status(State::Suspended, 0, 1090));
    assert_eq!(desk.login(FIRST, Seconds(1120), shown(46)), Err(Refusal::TokenSuspended));
    assert_eq!(desk.resume(FIRST, Seconds(1120), shown(46)), accepted(46, 9));
}

fn signs_by_challenge(desk: &mut Desk<'_>) {
    let (now, challenge) = (Seconds(1150), "quay");
    let answered = |step| shown_for(Some(challenge.as_bytes()), step);
    assert_eq!(desk.challenge_login(FIRST, now, challenge, answered(45)), Err(Refusal::Used));
    assert_eq!(desk.challenge_login(FIRST, now, challenge, answered(47)), accepted(47, 9));
}

fn ends(desk: &mut Desk<'_>) {
    assert_eq!(desk.login(FIRST, Seconds(5000), shown(176)), Err(Refusal::TokenExpired));
    assert_eq!(desk.void(FIRST, Seconds(5000)), Ok(()));
    assert_eq!(desk.login(FIRST, Seconds(1180), shown(48)), Err(Refusal::TokenVoid));
    assert_eq!(desk.query(FIRST, Seconds(1180)), status(State::Void, 0, 1150));
}

// Its clock loses steps.
fn other_token_goes_on(desk: &mut Desk<'_>) {
    assert_eq!(desk.login(SECOND, Seconds(1150), shown(38)), accepted(38, 0));
    assert_eq!(desk.login(SECOND, Seconds(1210), shown(39)), accepted(39, -1));
}

#[test]
fn a_short_day() {
    let mut table = [0; 2 * ROW_BYTES];
    let mut desk = Desk::new(&mut table);
    loads(&mut desk);
    activates(&mut desk);
    signs(&mut desk);
    is_locked_by_errors(&mut desk);
    syncs(&mut desk);
    is_locked_by_hand(&mut desk);
    is_suspended(&mut desk);
    signs_by_challenge(&mut desk);
    ends(&mut desk);
    other_token_goes_on(&mut desk);
}
