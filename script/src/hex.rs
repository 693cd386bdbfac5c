//! Bytes as hex digits, two each.

/// The bytes of some digits, or none where they are no whole bytes in hex.
pub fn bytes(digits: &str) -> Option<Vec<u8>> {
    if digits.len() % 2 != 0 || !digits.bytes().all(|digit| digit.is_ascii_hexdigit()) {
        return None;
    }
    (0..digits.len() / 2).map(|k| u8::from_str_radix(&digits[2 * k..2 * k + 2], 16).ok()).collect()
}

/// Bytes in lower-case digits, as the programs print them.
pub fn digits(bytes: &[u8]) -> String {
    bytes.iter().map(|byte| format!("{:02x}", byte)).collect()
}
