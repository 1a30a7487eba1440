//! The hash, the cipher, the password and the check: the standards' examples, and what is out of range.
use dykeladder::{
    password, sm3, sm4, Algorithm, BadArgument, Checked, Factor, Kind, Offset, Password, Refusal, Seconds, Sm4Keys, Step, Track,
    Window,
};

const KEY: &[u8] = b"a key of 20 letters.";

fn words(bytes: &[u8]) -> Vec<u32> {
    bytes.chunks(4).map(|word| word.iter().fold(0, |sum, &byte| sum << 8 | u32::from(byte))).collect()
}

// GB/T 32905-2016, Annex A.
#[test]
fn hash_of_the_standards_messages() {
    let of_abc = [0x66c7f0f4, 0x62eeedd9, 0xd1f2d46b, 0xdc10e4e2, 0x4167c487, 0x5cf2f7a2, 0x297da02b, 0x8f4ba8e0];
    let of_64_bytes = [0xdebe9ff9, 0x2275b8a1, 0x38604889, 0xc18e5a4d, 0x6fdb70e5, 0x387e5765, 0x293dcba3, 0x9c0c5732];
    assert_eq!(words(&sm3(b"abc").unwrap()), of_abc);
    assert_eq!(words(&sm3(&b"abcd".repeat(16)).unwrap()), of_64_bytes);
}

// GB/T 32907-2016, Annex A.
#[test]
fn cipher_of_the_standards_block() {
    let key = 0x0123456789abcdeffedcba9876543210_u128.to_be_bytes();
    let encrypted = 0x681edf34d206965e86b3e94f536e4246_u128.to_be_bytes();
    assert_eq!(sm4(&key, &key), encrypted);
    assert_eq!(Sm4Keys::new(&key).encrypt(&key), encrypted);
}

#[test]
fn password_shows_its_digits() {
    let made = password(Algorithm::Sm4, KEY, Factor::Count(7), None, 10).unwrap();
    assert_eq!(made.as_str().len(), 10);
    assert_eq!(made.to_string(), made.as_str());
    assert_eq!(made.as_ref(), made.as_str().as_bytes());
    assert_eq!(format!("{made:?}"), format!("Password(\"{made}\")"));
}

#[test]
fn password_depends_on_every_argument() {
    let of = |algorithm, factor, challenge| password(algorithm, KEY, factor, challenge, 10).unwrap();
    let (time, count, both) = (Factor::Time(Step(7)), Factor::Count(7), Factor::TimeAndCount(Step(7), 7));
    let all = [
        of(Algorithm::Sm3, time, None),
        of(Algorithm::Sm3, count, None),
        of(Algorithm::Sm3, both, None),
        of(Algorithm::Sm4, both, None),
        of(Algorithm::Sm3, both, Some(b"quay")),
    ];
    for (at, made) in all.iter().enumerate() {
        assert!(!all[..at].contains(made), "{made} comes twice");
    }
    assert_eq!(of(Algorithm::Sm3, both, Some(b"")), all[2], "an empty challenge is none");
}

#[test]
fn password_out_of_range() {
    let of = |key, challenge, digits| password(Algorithm::Sm3, key, Factor::Count(0), challenge, digits);
    assert_eq!(of(&[1; 15], None, 6), Err(BadArgument));
    assert_eq!(of(&[1; 33], None, 6), Err(BadArgument));
    assert_eq!(of(KEY, Some(b"qua"), 6), Err(BadArgument));
    assert_eq!(of(KEY, Some(b"the quay"), 6), Err(BadArgument));
    assert_eq!(of(KEY, None, 5), Err(BadArgument));
    assert_eq!(of(KEY, None, 11), Err(BadArgument));
    assert_eq!(Refusal::from(BadArgument), Refusal::BadArgument);
    assert_eq!(BadArgument.to_string(), "bad argument (9005)");
}

// At clock 1060 the step is 35, and with offset 2 the small window has 35 to 39. The step before 36 is used.
const CLOCK: Seconds = Seconds(1060);
const AHEAD: Track<'_> =
    Track { kind: Kind::Time { period: 30 }, algorithm: Algorithm::Sm3, digits: 6, key: KEY, next: Step(36), offset: Offset(2) };

fn shown(step: u64) -> Password {
    password(AHEAD.algorithm, AHEAD.key, Factor::Time(Step(step)), None, AHEAD.digits).unwrap()
}

fn accepted(step: u64, computed: u64) -> Checked {
    Checked { answer: Ok(Step(step)), computed, fresh: 1 }
}

fn refused(refusal: Refusal, computed: u64) -> Checked {
    Checked { answer: Err(refusal), computed, fresh: 0 }
}

#[test]
fn check_of_a_time_token() {
    let check = |window, step| AHEAD.check(CLOCK, window, None, shown(step), None);
    assert_eq!(check(Window::Small, 34), refused(Refusal::Wrong, 5));
    assert_eq!(check(Window::Small, 35), refused(Refusal::Used, 5));
    assert_eq!(check(Window::Small, 36), accepted(36, 5));
    assert_eq!(check(Window::Small, 39), accepted(39, 5));
    assert_eq!(check(Window::Small, 40), refused(Refusal::Wrong, 5));
    assert_eq!(check(Window::Medium, 42), accepted(42, 11));
    assert_eq!(check(Window::Large, 47), accepted(47, 21));
    assert_eq!(check(Window::Large, 48), refused(Refusal::Wrong, 21));
}

#[test]
fn check_of_a_pair() {
    let check = |window, step, following| AHEAD.check(CLOCK, window, None, shown(step), Some(shown(following).as_ref()));
    assert_eq!(check(Window::Small, 35, 36), refused(Refusal::Used, 5));
    assert_eq!(check(Window::Small, 36, 37), accepted(37, 3));
    assert_eq!(check(Window::Small, 38, 39), accepted(39, 5));
    assert_eq!(check(Window::Small, 39, 40), refused(Refusal::Wrong, 5));
    assert_eq!(check(Window::Medium, 38, 39), accepted(39, 8));
    assert_eq!(check(Window::Large, 38, 40), refused(Refusal::Wrong, 21));
}

#[test]
fn check_of_other_numbers_of_digits_is_no_search() {
    let check = |password: &str, following: &str| AHEAD.check(CLOCK, Window::Small, None, password, Some(following.as_bytes()));
    assert_eq!(check("1234567", ""), refused(Refusal::Wrong, 0));
    assert_eq!(check("1234567", "123456"), refused(Refusal::Wrong, 0));
    assert_eq!(check("123456", "1234567"), refused(Refusal::Wrong, 0));
    assert_eq!(check("123456", "123456"), refused(Refusal::Wrong, 5));
}

// Those below 0 are none.
#[test]
fn check_without_a_candidate() {
    let track = Track { offset: Offset(-600), ..AHEAD };
    assert_eq!(track.check(CLOCK, Window::Large, None, "123456", None), refused(Refusal::Wrong, 0));
}

const EVENT: Track<'_> =
    Track { kind: Kind::Event, algorithm: Algorithm::Sm4, digits: 6, key: KEY, next: Step(0), offset: Offset(0) };
const TIME: Track<'_> = Track { kind: Kind::Time { period: 30 }, ..EVENT };

fn check_all(tracks: &[Track<'_>], refusal: Refusal) {
    for (i, track) in tracks.iter().enumerate() {
        let checked = track.check(Seconds(0), Window::Small, None, "123456", None);
        assert_eq!(checked.answer, Err(refusal), "track {i}");
        assert_eq!(checked.fresh, 0, "track {i}");
        if refusal == Refusal::BadArgument {
            assert_eq!(checked.computed, 0, "track {i}");
        }
    }
}

#[test]
fn check_of_an_event_token_out_of_range() {
    check_all(&[EVENT, Track { next: Step(1 << 32), ..EVENT }], Refusal::Wrong);
    check_all(
        &[
            Track { next: Step((1 << 32) + 1), ..EVENT },
            Track { offset: Offset(-1), ..EVENT },
            Track { offset: Offset(1), ..EVENT },
            Track { key: &KEY[..15], ..EVENT },
            Track { key: &[1; 33], ..EVENT },
            Track { digits: 5, ..EVENT },
            Track { digits: 11, ..EVENT },
        ],
        Refusal::BadArgument,
    );
}

#[test]
fn check_of_a_time_token_out_of_range() {
    let period = |period| Track { kind: Kind::Time { period }, ..TIME };
    let next = |next| Track { next: Step(next), ..TIME };
    let offset = |offset| Track { offset: Offset(offset), ..TIME };
    check_all(&[period(1), period(60), next((1 << 40) + 600), offset(-600), offset(600)], Refusal::Wrong);
    check_all(
        &[period(0), period(61), next((1 << 40) + 601), offset(-601), offset(601), offset(i16::MAX), offset(i16::MIN)],
        Refusal::BadArgument,
    );
    let late = TIME.check(Seconds(1 << 40), Window::Small, None, "123456", None);
    assert_eq!(late, refused(Refusal::BadArgument, 0));
}

// A password has 6 to 10 ASCII digits, and two passwords have no challenge.
#[test]
fn check_of_passwords_out_of_range() {
    let check = |challenge: Option<&str>, password: &str, following: Option<&str>| {
        EVENT.check(Seconds(0), Window::Large, challenge.map(str::as_bytes), password, following.map(str::as_bytes))
    };
    let bad_argument = refused(Refusal::BadArgument, 0);
    assert_eq!(check(None, "", None), bad_argument);
    for password in ["12345", "12345678901", "12345a", "/23456", ":23456"] {
        assert_eq!(check(None, password, None), bad_argument);
        assert_eq!(check(None, password, Some("123456")), bad_argument);
        assert_eq!(check(None, "123456", Some(password)), bad_argument);
    }
    assert_eq!(check(None, "123456", Some("")), refused(Refusal::Wrong, 50));
    assert_eq!(check(None, "1234567890", Some("1234567")), refused(Refusal::Wrong, 0));
    assert_eq!(check(Some("quay"), "123456", None), refused(Refusal::Wrong, 50));
    assert_eq!(check(Some("quay"), "123456", Some("123456")), bad_argument);
    assert_eq!(check(Some("qua"), "123456", None), bad_argument);
}
