//! The tokens of the tests. All have the same key, so that a password of one is also the others'.
use dykeladder::{password, Algorithm, Factor, Kind, Particulars, Password, Seconds, Serial, Step};

pub fn token(serial: Serial) -> Particulars<'static> {
    Particulars {
        serial,
        kind: Kind::Time { period: 30 },
        algorithm: Algorithm::Sm3,
        digits: 6,
        limit: 2,
        key: b"the key of both tokens",
        wait: 60,
        expiry: Seconds(5000),
    }
}

/// The password on the token's display at a step.
pub fn shown(step: u64) -> Password {
    shown_for(None, step)
}

/// The same for a challenge.
pub fn shown_for(challenge: Option<&[u8]>, step: u64) -> Password {
    let token = token(Serial(7));
    password(token.algorithm, token.key, Factor::Time(Step(step)), challenge, token.digits).expect("all in range")
}
