//! Bytes as text.

use std::fmt::Write;

/// Lower-case hex without spaces.
pub fn hex(bytes: &[u8]) -> String {
    let mut text = String::with_capacity(2 * bytes.len());
    for byte in bytes {
        write!(text, "{byte:02x}").expect("a string takes all that is written");
    }
    text
}

/// The bytes of such a text, if it is one.
pub fn bytes(text: &[u8]) -> Option<Vec<u8>> {
    let digit = |digit: u8| char::from(digit).to_digit(16);
    let byte = |pair: &[u8]| match pair {
        &[high, low] => Some((16 * digit(high)? + digit(low)?) as u8),
        _ => None,
    };
    text.chunks(2).map(byte).collect()
}
