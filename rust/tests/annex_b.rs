//! The rows of GM/T 0021-2012, Annex B, whose keys have 32 hexadecimal digits: seven of each table.
use dykeladder::Algorithm::{self, Sm3, Sm4};
use dykeladder::{password, Factor, Step};

// Algorithm, key, time, count, challenge, password.
type Row = (Algorithm, &'static str, u64, u32, &'static str, &'static str);

const ROWS: [Row; 14] = [
    (Sm3, "1234567890abcdef1234567890abcdef", 1313998979, 1234, "5678", "814095"),
    (Sm3, "1234567890abcdefabcdef1234567890", 1313998995, 5621, "3698", "959691"),
    (Sm3, "1234567890abcdef0987654321abcdef", 1313999014, 5621, "3698", "063014"),
    (Sm3, "1234567890abcdefabcdef0987654321", 1313999047, 2053, "6984", "302593"),
    (Sm3, "58ade3698fe280cb6925010dd236caef", 1313999155, 2547, "2058", "479821"),
    (Sm3, "58ade365201d80cbdd236caef6925010", 1313999174, 6031, "2058", "893826"),
    (Sm3, "65201d80cb58ade3dd236caef6925010", 1313999189, 6580, "1047", "607614"),
    (Sm4, "1234567890abcdef1234567890abcdef", 1340783053, 1234, "5678", "446720"),
    (Sm4, "1234567890abcdefabcdef1234567890", 1340783416, 5621, "3698", "049845"),
    (Sm4, "1234567890abcdef0987654321abcdef", 1340783476, 2584, "2105", "717777"),
    (Sm4, "1234567890abcdefabcdef0987654321", 1340783624, 2056, "2018", "692843"),
    (Sm4, "58ade3698fe280cb6925010dd236caef", 1340783729, 2547, "2058", "499811"),
    (Sm4, "58ade365201d80cbdd236caef6925010", 1340783771, 6031, "2058", "565180"),
    (Sm4, "65201d80cb58ade3dd236caef6925010", 1340783815, 6580, "1047", "724654"),
];

fn key_of(hexadecimal: &str) -> [u8; 16] {
    u128::from_str_radix(hexadecimal, 16).expect("hexadecimal digits").to_be_bytes()
}

#[test]
fn passwords_are_the_annexs() {
    for (algorithm, key, time, count, challenge, expected) in ROWS {
        let factor = Factor::TimeAndCount(Step(time), count);
        let made = password(algorithm, &key_of(key), factor, Some(challenge.as_bytes()), 6).expect("all in range");
        assert_eq!(made.as_str(), expected, "{algorithm:?} at {time}");
    }
}
