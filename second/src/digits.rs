//! Numbers as ASCII digits with leading zeros.

/// The most digits that a number has. Ten digits fit easily in a `u64`.
pub const WIDEST: usize = 10;

/// The number of `width` digits that begins at `place`. Nothing if the text ends too early or if
/// one of these bytes is not a digit. Signs and blanks are not allowed, because every field is
/// filled.
pub fn read(text: &[u8], place: usize, width: usize) -> Option<u64> {
    let end = place.checked_add(width)?;
    let field = text.get(place..end)?;
    if !field.iter().all(u8::is_ascii_digit) {
        return None;
    }
    let value = field
        .iter()
        .fold(0, |value, digit| value * 10 + u64::from(digit - b'0'));
    Some(value)
}

/// `value` as exactly `width` digits. The caller makes sure that it has no more digits.
pub fn write(value: u64, width: usize) -> Vec<u8> {
    let text = format!("{value:0width$}").into_bytes();
    debug_assert_eq!(text.len(), width, "{value} has more than {width} digits");
    text
}

#[cfg(test)]
mod tests {
    use super::*;

    #[test]
    fn reads_leading_zeros_at_any_place() {
        assert_eq!(read(b"007", 0, 3), Some(7));
        assert_eq!(read(b"x00041y", 1, 5), Some(41));
        assert_eq!(read(b"9999999999", 0, 10), Some(9_999_999_999));
    }

    #[test]
    fn turns_away_all_but_digits() {
        for wrong in [b'/', b':', b' ', b'+', b'-', 0xb0] {
            assert_eq!(read(&[b'1', wrong, b'1'], 0, 3), None);
        }
    }

    #[test]
    fn turns_away_text_that_is_too_short() {
        assert_eq!(read(b"12", 0, 3), None);
        assert_eq!(read(b"12", 1, 2), None);
        assert_eq!(read(b"12", 3, 1), None);
        assert_eq!(read(b"12", usize::MAX, 1), None);
    }

    #[test]
    fn writes_leading_zeros() {
        assert_eq!(write(7, 3), b"007");
        assert_eq!(write(4_294_967_295, 10), b"4294967295");
    }
}
