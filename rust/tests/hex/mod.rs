//! Messages as hexadecimal digits.

/// The bytes of these digits; spaces are not looked at.
pub fn bytes(hex: &str) -> Vec<u8> {
    let digits: Vec<_> = hex.chars().filter(|digit| *digit != ' ').collect();
    digits.chunks(2).map(|pair| u8::from_str_radix(&pair.iter().collect::<String>(), 16).expect("a byte")).collect()
}

/// A message of these parts.
pub fn message(parts: &[&str]) -> Vec<u8> {
    bytes(&parts.concat())
}
