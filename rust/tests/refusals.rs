//! Every refusal of the desk, each from a call that is answered so.
use dykeladder::{Algorithm, Answer, Call, Desk, Kind, Particulars, Refusal, Seconds, Serial, SyncWindow, ROW_BYTES};

mod common;
use common::{shown, token};

const SERIAL: Serial = Serial(7);
const NOW: Seconds = Seconds(1060);

// Of a call on a table of one row, after other calls have prepared it.
fn answer_on_one_row(run: impl FnOnce(&mut Desk<'_>) -> Answer<()>) -> Answer<()> {
    run(&mut Desk::new(&mut [0; ROW_BYTES]))
}

fn after_load(run: impl FnOnce(&mut Desk<'_>) -> Answer<()>) -> Answer<()> {
    answer_on_one_row(|desk| {
        desk.load(&token(SERIAL))?;
        run(desk)
    })
}

// Steps up to 36 are used.
fn after_activation(run: impl FnOnce(&mut Desk<'_>) -> Answer<()>) -> Answer<()> {
    after_load(|desk| {
        desk.activate(SERIAL, NOW, shown(35), shown(36))?;
        run(desk)
    })
}

fn login(desk: &mut Desk<'_>, now: Seconds, step: u64) -> Answer<()> {
    desk.login(SERIAL, now, shown(step)).map(drop)
}

fn sync(desk: &mut Desk<'_>, step: u64) -> Answer<()> {
    desk.sync(SERIAL, NOW, SyncWindow::Medium, shown(step), shown(step + 1)).map(drop)
}

// Of a service that there is not.
fn of_messages() -> [Answer<()>; 3] {
    let plain = *b"\x15\x00\x01\0\0\0\0\0\0\0\x0012345678\x00\x05\x99\x99\x00\x00\x00";
    let marked = *b"\x19\x80\x01\0\0\0\0\0\0\0\x0012345678\x00\x05no!!\x99\x99\x00\x00\x00";
    [
        after_activation(|desk| desk.serve(&plain[1..], NOW).map(drop)),
        after_activation(|desk| desk.serve(&marked, NOW).map(drop)),
        after_activation(|desk| desk.serve(&plain, NOW).map(drop)),
    ]
}

fn of_rows() -> [Answer<()>; 5] {
    [
        after_activation(|desk| desk.login(SERIAL, NOW, "12345x").map(drop)),
        after_load(|desk| desk.load(&token(SERIAL))),
        after_load(|desk| desk.load(&token(Serial(8)))),
        after_load(|desk| desk.lock(Serial(8), NOW)),
        Desk::new(&mut [7; ROW_BYTES]).query(Serial(0x0707070707070707), NOW).map(drop),
    ]
}

fn of_states() -> [Answer<()>; 6] {
    [
        after_activation(|desk| desk.unlock(SERIAL, NOW, shown(37)).map(drop)),
        after_activation(|desk| desk.lock(SERIAL, NOW).and_then(|()| login(desk, NOW, 37))),
        after_activation(|desk| desk.suspend(SERIAL, NOW).and_then(|()| login(desk, NOW, 37))),
        after_load(|desk| login(desk, NOW, 35)),
        after_load(|desk| desk.void(SERIAL, NOW).and_then(|()| desk.void(SERIAL, NOW))),
        after_activation(|desk| login(desk, Seconds(5000), 166)),
    ]
}

// A token that shows 547160 at the counts 3 and 6. Its counts up to 1 are used.
fn with_equal_counts(run: impl FnOnce(&mut Desk<'_>) -> Answer<()>) -> Answer<()> {
    let key = 3403_u128.to_be_bytes();
    let equal = Particulars { kind: Kind::Event, algorithm: Algorithm::Sm3, key: &key, ..token(SERIAL) };
    answer_on_one_row(|desk| {
        desk.load(&equal)?;
        desk.activate(SERIAL, NOW, "768081", "286562")?;
        run(desk)
    })
}

fn of_equal_steps() -> [Answer<()>; 2] {
    [
        with_equal_counts(|desk| desk.login(SERIAL, NOW, "547160").map(drop)),
        with_equal_counts(|desk| desk.lock(SERIAL, NOW).and_then(|()| desk.unlock(SERIAL, NOW, "547160").map(drop))),
    ]
}

fn of_passwords() -> [Answer<()>; 5] {
    [
        after_activation(|desk| login(desk, NOW, 36)),
        after_activation(|desk| login(desk, NOW, 99)),
        after_activation(|desk| sync(desk, 35)),
        after_activation(|desk| desk.lock(SERIAL, NOW).and_then(|()| desk.unlock(SERIAL, NOW, shown(99)).map(drop))),
        after_activation(|desk| sync(desk, 99)),
    ]
}

// In the order of Refusal::ALL.
#[test]
fn each_comes_up() {
    let of_tables = of_rows().into_iter().chain(of_states()).chain(of_equal_steps()).chain(of_passwords());
    let answers: Vec<_> = of_messages().into_iter().chain(of_tables).collect();
    assert_eq!(answers, Refusal::ALL.iter().copied().map(Err).collect::<Vec<_>>());
}

// Document 02, request 13.
#[test]
fn none_is_8106() {
    assert_eq!(Refusal::from_code(0x8106), None);
}

#[test]
fn bad_arguments_leave_the_table() {
    let mut table = [0; ROW_BYTES];
    Desk::new(&mut table).load(&token(SERIAL)).expect("there is an empty row");
    let before = table;
    let mut desk = Desk::new(&mut table);
    assert_eq!(desk.activate(SERIAL, Seconds(1 << 40), shown(35), shown(36)), Err(Refusal::BadArgument));
    assert_eq!(desk.activate(SERIAL, NOW, shown(35), "36"), Err(Refusal::BadArgument));
    assert_eq!(desk.challenge_login(SERIAL, NOW, "", shown(35)), Err(Refusal::BadArgument));
    assert_eq!(table, before);
}

#[test]
fn tables_of_other_lengths() {
    let mut room = [0; 257 * ROW_BYTES];
    for length in [0, ROW_BYTES - 1, ROW_BYTES + 1, room.len()] {
        assert_eq!(Desk::new(&mut room[..length]).load(&token(SERIAL)), Err(Refusal::BadArgument), "{length} bytes");
    }
    assert_eq!(Desk::new(&mut room[..256 * ROW_BYTES]).load(&token(SERIAL)), Ok(()));
}

#[test]
fn codes_for_a_log() {
    assert_eq!(Call::Void.code_of(&after_load(|desk| desk.void(SERIAL, NOW))), 0x010a);
    assert_eq!(Call::Login.code_of(&after_load(|desk| login(desk, NOW, 35))), 0x8406);
}
