//! The row that a load writes, byte by byte (document 01, Part 4).
use dykeladder::{Algorithm, Desk, Kind, Particulars, Seconds, Serial, ROW_BYTES};

const KEY: &[u8; 18] = b"a key of 18 bytes.";

fn loaded(kind: Kind, algorithm: Algorithm) -> [u8; ROW_BYTES] {
    let serial = Serial(0x0102030405060708);
    let token =
        Particulars { serial, kind, algorithm, digits: 8, limit: 3, key: KEY, wait: 0x10203, expiry: Seconds(0xa0b0c0d0) };
    let mut row = [0xff; ROW_BYTES];
    row[0] = 0;
    Desk::new(&mut row).load(&token).expect("the row is empty");
    row
}

fn row(kind: u8, algorithm: u8, period: u8) -> Vec<u8> {
    let offset = 600_u16.to_be_bytes();
    let parts: [&[u8]; 9] = [
        &[1, kind, algorithm, 8, period, 3, 0, 18],
        &[1, 2, 3, 4, 5, 6, 7, 8],
        KEY,
        &[0; 32 - 18 + 8],
        &offset,
        &[0, 0],
        &[0, 1, 2, 3],
        &[0, 0, 0, 0, 0xa0, 0xb0, 0xc0, 0xd0],
        &[0; 24],
    ];
    parts.concat()
}

#[test]
fn time_token() {
    assert_eq!(loaded(Kind::Time { period: 45 }, Algorithm::Sm3)[..], row(0, 3, 45));
}

#[test]
fn event_token() {
    assert_eq!(loaded(Kind::Event, Algorithm::Sm4)[..], row(1, 4, 0));
}
