//! Requests as messages (GM/T 0021-2012, Annex D; document 02, request 1): an example plain and with its MAC, one for each service,
//! and one for each refusal of a message, every byte of the table compared.
use dykeladder::{
    Accepted, Algorithm, Answer, Call, Desk, Kind, Offset, Particulars, Refusal, Seconds, Serial, Served, State, Status, Step,
    ROW_BYTES,
};

mod hex;
use hex::{bytes, message};

const NOW: Seconds = Seconds(1060);
// A login, serial 7 and password 123456.
const EXAMPLE: &str = "15000100000000000000003132333435363738001b000100000200000208000000000000000700000306313233343536";
const EXAMPLE_WITH_MAC: &str =
    "19800100000000000000003132333435363738001b9a719e86000100000200000208000000000000000700000306313233343536";

// What the header has before the length of the body, without a MAC and with one.
const PLAIN: &str = "15 00 01 0000000000000000 3132333435363738";
const MARKED: &str = "19 80 01 0000000000000000 3132333435363738";

// Items. Step 35 has the password 123456, step 36 180130, and step 35 for the challenge "quay" 619245.
const SERIAL: &str = "00 0002 08 0000000000000007";
const PASSWORD: &str = "00 0003 06 313233343536";
const FOLLOWING: &str = "00 0004 06 313830313330";
const CHALLENGE: &str = "00 0006 04 71756179";
const RESPONSE: &str = "00 0007 06 363139323435";

// The token 7 in a state, by the state's number; locked at no time.
fn row(state: u8) -> [u8; ROW_BYTES] {
    let key = 103_142_u128.to_be_bytes();
    let (serial, kind, algorithm) = (Serial(7), Kind::Time { period: 30 }, Algorithm::Sm3);
    let token = Particulars { serial, kind, algorithm, digits: 6, limit: 5, key: &key, wait: 60, expiry: Seconds(1 << 40) };
    let mut row = [0; ROW_BYTES];
    Desk::new(&mut row).load(&token).expect("the row is empty");
    row[0] = state;
    row
}

// The row with its first unused step, its offset and its last use as an accepted step sets them.
fn with_accepted(mut row: [u8; ROW_BYTES], Accepted { step, offset }: Accepted) -> [u8; ROW_BYTES] {
    row[48..56].copy_from_slice(&(step.0 + 1).to_be_bytes());
    row[56..58].copy_from_slice(&(600 + offset.0).to_be_bytes());
    row[80..88].copy_from_slice(&NOW.0.to_be_bytes());
    row
}

fn assert_served(message: &[u8], before: [u8; ROW_BYTES], answer: Answer<Served>, after: [u8; ROW_BYTES]) {
    let mut table = before;
    assert_eq!(Desk::new(&mut table).serve(message, NOW), answer);
    assert_eq!(table, after);
}

const FIRST: Accepted = Accepted { step: Step(35), offset: Offset(0) };
const SECOND: Accepted = Accepted { step: Step(36), offset: Offset(1) };

#[test]
fn the_example() {
    for example in [EXAMPLE, EXAMPLE_WITH_MAC] {
        let served = Served::Checked(Call::Login, FIRST);
        assert_served(&bytes(example), row(2), Ok(served), with_accepted(row(2), FIRST));
        assert_served(&bytes(example), row(1), Err(Refusal::TokenNotActivated), row(1));
        assert_served(&bytes(example), [0; ROW_BYTES], Err(Refusal::NoToken), [0; ROW_BYTES]);
    }
}

// Each with the state that it finds and the one that it leaves.
#[test]
fn of_checked_calls() {
    #[rustfmt::skip]
    let cases = [
        (Call::Login, message(&[PLAIN, "001b 0001 0000 02", PASSWORD, SERIAL]), 2, FIRST, 2),
        (Call::ChallengeLogin, message(&[MARKED, "0023 198a9375 0002 0000 03", SERIAL, CHALLENGE, RESPONSE]), 2, FIRST, 2),
        (Call::Activate, message(&[PLAIN, "0025 0101 0000 03", FOLLOWING, SERIAL, PASSWORD]), 1, SECOND, 2),
        (Call::Unlock, message(&[MARKED, "001b 4ec1754e 0103 0000 02", SERIAL, PASSWORD]), 4, FIRST, 2),
        (Call::Resume, message(&[PLAIN, "001b 0105 0000 02", SERIAL, PASSWORD]), 5, FIRST, 2),
        (Call::Sync, message(&[MARKED, "0025 71e7aed4 0108 0001 03", SERIAL, PASSWORD, FOLLOWING]), 4, SECOND, 4),
        (Call::Sync, message(&[PLAIN, "0025 0108 0002 03", SERIAL, PASSWORD, FOLLOWING]), 2, SECOND, 2),
    ];
    for (call, message, state, accepted, becomes) in cases {
        assert_served(&message, row(state), Ok(Served::Checked(call, accepted)), with_accepted(row(becomes), accepted));
    }
}

#[test]
fn of_plain_calls() {
    let mut voided = row(6);
    voided[16..48].fill(0);
    let lock = message(&[MARKED, "0011 5ce3a45f 0102 0000 01", SERIAL]);
    assert_served(&lock, row(2), Ok(Served::Plain(Call::Lock)), row(4));
    let suspend = message(&[PLAIN, "0011 0104 0000 01", SERIAL]);
    assert_served(&suspend, row(4), Ok(Served::Plain(Call::Suspend)), row(5));
    let void = message(&[MARKED, "0011 31d8889f 010a 0000 01", SERIAL]);
    assert_served(&void, row(5), Ok(Served::Plain(Call::Void)), voided);
}

#[test]
fn of_a_query() {
    let query = message(&[PLAIN, "0011 010b 0000 01", SERIAL]);
    let status = Status { state: State::Suspended, errors: 0, last_use: Seconds(0) };
    assert_served(&query, row(5), Ok(Served::Queried(status)), row(5));
}

// In their order: each has the faults of all that come after it, too, at a clock that is out of range.
#[test]
fn that_are_refused() {
    let cases = [
        (message(&[MARKED, "0011 00000000 9999 0000 01", "01 0002 08 0000000000000007"]), Refusal::BadMessage),
        (message(&[MARKED, "0011 00000000 9999 0000 01", SERIAL]), Refusal::BadMac),
        (message(&[PLAIN, "0011 9999 0000 01", SERIAL]), Refusal::NoService),
        (message(&[PLAIN, "0011 010b 0000 01", SERIAL]), Refusal::BadArgument),
    ];
    for (message, refusal) in cases {
        let mut table = row(2);
        assert_eq!(Desk::new(&mut table).serve(&message, Seconds(1 << 40)), Err(refusal));
        assert_eq!(table, row(2));
    }
}

#[test]
fn with_any_one_bit_wrong() {
    let example = bytes(EXAMPLE_WITH_MAC);
    for bit in 0..8 * example.len() {
        let mut wrong = example.clone();
        wrong[bit / 8] ^= 1 << (bit % 8);
        let mut table = row(2);
        let answer = Desk::new(&mut table).serve(&wrong, NOW);
        assert!(matches!(answer, Err(Refusal::BadMessage | Refusal::BadMac)), "bit {bit}: {answer:?}");
        assert_eq!(table, row(2), "bit {bit}");
    }
}

#[test]
fn of_any_length() {
    let example = bytes(EXAMPLE);
    let zeros = vec![0; 65_600];
    for length in (0..example.len()).chain([example.len() + 1, zeros.len()]) {
        let message: Vec<_> = example.iter().chain(&zeros).copied().take(length).collect();
        assert_served(&message, row(2), Err(Refusal::BadMessage), row(2));
    }
}
