//! The crate beside the C header: the same version, codes, texts, numbers and functions.
use dykeladder::{Call, MessageType, Refusal, State};

const HEADER: &str = include_str!("../../include/dykeladder.h");
const DECLARATIONS: &str = include_str!("../src/ffi.rs");

// What follows `before` on each line of the header that begins so, as its first word and the rest.
fn lines(before: &str) -> impl Iterator<Item = (&'static str, &'static str)> + '_ {
    HEADER.lines().filter_map(move |line| line.trim_start().strip_prefix(before)?.split_once(' '))
}

/// The codes of the header with their texts.
fn codes() -> Vec<(u16, &'static str)> {
    let text_of = |name: &str| {
        let (_, text) = lines("case ").find(|(case, _)| case.strip_suffix(':') == Some(name)).expect("every code has a text");
        text.strip_prefix("return \"").and_then(|text| text.strip_suffix("\";")).expect("a text")
    };
    lines("#define DL_")
        .filter_map(|(name, rest)| Some((name, rest.trim_start().split(' ').next()?.strip_prefix("0x")?)))
        .filter(|(_, number)| number.len() == 4)
        .map(|(name, number)| (u16::from_str_radix(number, 16).expect("a number"), text_of(&format!("DL_{name}"))))
        .collect()
}

#[test]
fn refusals_are_the_headers() {
    let in_header: Vec<_> = codes().into_iter().filter(|&(code, _)| code >= 0x8000).collect();
    let here: Vec<_> = Refusal::ALL.iter().map(|refusal| (refusal.code(), refusal.text())).collect();
    assert_eq!(here, in_header);
    for &refusal in Refusal::ALL {
        assert_eq!(Refusal::from_code(refusal.code()), Some(refusal));
    }
    assert_eq!(Refusal::from_code(Call::Login.success()), None);
}

#[test]
fn successes_are_the_headers() {
    let in_header: Vec<_> = codes().into_iter().map(|(code, _)| code).filter(|&code| 0 < code && code < 0x8000).collect();
    let here: Vec<_> = Call::ALL.iter().map(|call| call.success()).collect();
    assert_eq!(here, in_header);
}

#[test]
fn version_is_the_headers() {
    let (_, version) = lines("#define DL_").find(|&(name, _)| name == "VERSION").expect("a version");
    assert_eq!(version.trim(), format!("{:?}", env!("CARGO_PKG_VERSION")));
}

// The number that the header gives a name, in either notation.
fn number(name: &str) -> u32 {
    let (_, rest) = lines("#define DL_").find(|&(defined, _)| defined == name).expect("every name is defined");
    let digits = rest.trim_start().split(' ').next().expect("a number");
    match digits.strip_prefix("0x") {
        Some(digits) => u32::from_str_radix(digits, 16).expect("a hexadecimal number"),
        None => digits.parse().expect("a decimal number"),
    }
}

#[test]
fn types_of_messages_are_the_headers() {
    let here = [
        ("REQUEST", MessageType::REQUEST),
        ("REPLY", MessageType::REPLY),
        ("REQUEST_WITH_MAC", MessageType::REQUEST_WITH_MAC),
        ("REPLY_WITH_MAC", MessageType::REPLY_WITH_MAC),
    ];
    for (name, message_type) in here {
        assert_eq!(message_type, MessageType(number(name)), "{name}");
    }
}

#[test]
fn states_are_the_headers() {
    let here = [
        ("NOT_ACTIVATED", State::NotActivated),
        ("READY", State::Ready),
        ("LOCKED_BY_ERRORS", State::LockedByErrors),
        ("LOCKED_BY_HAND", State::LockedByHand),
        ("SUSPENDED", State::Suspended),
        ("VOID", State::Void),
    ];
    for (name, state) in here {
        assert_eq!(u32::from(state.number()), number(&format!("STATE_{name}")), "{name}");
    }
}

fn rust_type(c_type: &str) -> &'static str {
    match c_type {
        "uint8_t" => "u8",
        "uint16_t" => "u16",
        "uint32_t" => "u32",
        "uint64_t" => "u64",
        "int64_t" => "i64",
        "size_t" => "usize",
        _ => panic!("{c_type} has no type in Rust"),
    }
}

// `const uint8_t *key` as `key: *const u8`. One name is a word of Rust's own.
fn rust_parameter(parameter: &str) -> String {
    let (kind, name) = parameter.trim().rsplit_once(' ').expect("a type and a name");
    match (kind.strip_prefix("const "), name.strip_prefix('*')) {
        (Some(kind), Some(name)) => format!("{name}: *const {}", rust_type(kind)),
        (None, Some(name)) => format!("{name}: *mut {}", rust_type(kind)),
        _ if name == "type" => format!("r#type: {}", rust_type(kind)),
        _ => format!("{name}: {}", rust_type(kind)),
    }
}

#[test]
fn functions_are_the_headers() {
    let here = DECLARATIONS.split_whitespace().collect::<Vec<_>>().join(" ");
    let mut functions = 0;
    for function in HEADER.split("\nuint16_t ").skip(1) {
        let (name, rest) = function.split_once('(').expect("a function");
        let parameters: Vec<_> = rest.split(')').next().expect("parameters").split(',').map(rust_parameter).collect();
        let declaration = format!("fn {name}({}) -> u16;", parameters.join(", "));
        assert!(here.contains(&declaration), "no {declaration}");
        functions += 1;
    }
    assert_eq!(here.matches("fn dl_").count(), functions);
    assert!(functions > 0);
}
