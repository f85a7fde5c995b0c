//! The decimals of the settings text, and their wider form in a journal.

/// A value of the settings text: "an optional minus and 1 to 7 digits, no leading zero except the
/// number 0 itself, no minus zero".
pub fn setting(bytes: &[u8]) -> Option<i32> {
    i32::try_from(signed_digits(bytes, 7)?).ok()
}

/// A signed number of a journal: "the settings' decimal form but up to 10 digits, within 32 bits".
pub fn signed(bytes: &[u8]) -> Option<i32> {
    i32::try_from(signed_digits(bytes, 10)?).ok()
}

/// An unsigned number of a journal: the same form without a minus, within 32 bits.
pub fn unsigned(bytes: &[u8]) -> Option<u32> {
    u32::try_from(digits(bytes, 10)?).ok()
}

/// An optional minus, then digits; "no minus zero".
fn signed_digits(bytes: &[u8], most: usize) -> Option<i64> {
    match bytes.strip_prefix(b"-") {
        None => digits(bytes, most),
        Some(rest) => match digits(rest, most)? {
            0 => None,
            amount => Some(-amount),
        },
    }
}

/// One digit to `most` of them, at most 18; "no leading zero except the number 0 itself".
fn digits(bytes: &[u8], most: usize) -> Option<i64> {
    let counted = !bytes.is_empty() && bytes.len() <= most;
    let leading_zero = bytes.len() > 1 && bytes[0] == b'0';
    if !counted || leading_zero || !bytes.iter().all(u8::is_ascii_digit) {
        return None;
    }
    let add = |number, byte: &u8| 10 * number + i64::from(byte - b'0');
    Some(bytes.iter().fold(0, add))
}
