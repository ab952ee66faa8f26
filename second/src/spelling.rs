//! How `docs/CASES.md` spells bytes and numbers.

/// The most bytes a BYTES argument has.
pub const MOST_BYTES: usize = 100;

/// The most bytes in a case of the finder.
pub const MOST_BYTES_OF_CAPTURE: usize = 400;

/// How an empty BYTES is spelled.
const NO_BYTES: &str = "-";

/// The arguments called TICKS, VALUE and BITS are below this in absolute value.
const WIDE_LIMIT: u128 = 1 << 63;

/// Every other number is below this.
const NARROW_LIMIT: u128 = 1 << 32;

/// Why a line is not a case.
#[derive(Clone, Copy, Debug, PartialEq, Eq)]
pub struct NotACase(pub &'static str);

/// BYTES: two lower-case hex digits each, or `-` for none.
pub fn bytes_text(bytes: &[u8]) -> String {
    if bytes.is_empty() {
        return NO_BYTES.to_string();
    }
    bytes.iter().map(|byte| format!("{byte:02x}")).collect()
}

pub fn parse_bytes(word: &str) -> Result<Vec<u8>, NotACase> {
    parse_bytes_up_to(MOST_BYTES, word)
}

/// BYTES in a case of the finder.
pub fn parse_capture(word: &str) -> Result<Vec<u8>, NotACase> {
    parse_bytes_up_to(MOST_BYTES_OF_CAPTURE, word)
}

fn parse_bytes_up_to(most: usize, word: &str) -> Result<Vec<u8>, NotACase> {
    const WRONG: NotACase = NotACase("BYTES are pairs of lower-case hex digits, or - for none");
    if word == NO_BYTES {
        return Ok(Vec::new());
    }
    if word.is_empty() || !word.len().is_multiple_of(2) {
        return Err(WRONG);
    }
    if word.len() > 2 * most {
        return Err(NotACase("more bytes than the case may have"));
    }
    word.as_bytes()
        .chunks_exact(2)
        .map(|pair| Some(16 * hex_digit(pair[0])? + hex_digit(pair[1])?))
        .collect::<Option<Vec<u8>>>()
        .ok_or(WRONG)
}

fn hex_digit(code: u8) -> Option<u8> {
    match code {
        b'0'..=b'9' => Some(code - b'0'),
        b'a'..=b'f' => Some(code - b'a' + 10),
        _ => None,
    }
}

/// A plain argument: unsigned, below 2^32.
pub fn parse_number(word: &str) -> Result<u32, NotACase> {
    let value = parse_below(word, NARROW_LIMIT)?;
    u32::try_from(value).map_err(|_| NotACase("a number is too large"))
}

/// TICKS: unsigned, below 2^63.
pub fn parse_ticks(word: &str) -> Result<i128, NotACase> {
    let value = parse_below(word, WIDE_LIMIT)?;
    i128::try_from(value).map_err(|_| NotACase("a number is too large"))
}

/// BITS: unsigned, below 2^63.
pub fn parse_bits(word: &str) -> Result<u64, NotACase> {
    let value = parse_below(word, WIDE_LIMIT)?;
    u64::try_from(value).map_err(|_| NotACase("a number is too large"))
}

/// PLACE: a plain argument that is a place among bytes, cells or marks.
pub fn parse_place(word: &str) -> Result<usize, NotACase> {
    usize::try_from(parse_number(word)?).map_err(|_| NotACase("a place is too large"))
}

/// VALUE: like TICKS, with or without a minus in front.
pub fn parse_value(word: &str) -> Result<i128, NotACase> {
    match word.strip_prefix('-') {
        Some(size) => Ok(-parse_ticks(size)?),
        None => parse_ticks(word),
    }
}

fn parse_below(word: &str, limit: u128) -> Result<u128, NotACase> {
    if word.is_empty() || !word.bytes().all(|code| code.is_ascii_digit()) {
        return Err(NotACase("a number is decimal digits alone"));
    }
    if word.len() > 1 && word.starts_with('0') {
        return Err(NotACase("a number has leading zeros"));
    }
    word.parse()
        .ok()
        .filter(|&value| value < limit)
        .ok_or(NotACase("a number is too large"))
}

#[cfg(test)]
mod tests {
    use super::*;

    #[test]
    fn bytes_there_and_back() {
        assert_eq!(bytes_text(&[]), "-");
        assert_eq!(bytes_text(&[0x11, 0xee]), "11ee");
        assert_eq!(parse_bytes("-"), Ok(Vec::new()));
        assert_eq!(parse_bytes("11ee"), Ok(vec![0x11, 0xee]));
        assert!(parse_bytes(&"00".repeat(100)).is_ok());
    }

    #[test]
    fn bytes_spelled_wrong() {
        for word in ["", "1", "1E", "g0", "--", "11 ", "é"] {
            assert!(parse_bytes(word).is_err(), "{word}");
        }
        assert!(parse_bytes(&"00".repeat(101)).is_err());
    }

    #[test]
    fn captures_may_be_longer() {
        assert_eq!(parse_capture("-"), Ok(Vec::new()));
        assert_eq!(parse_capture(&"12".repeat(400)), Ok(vec![0x12; 400]));
        assert!(parse_capture(&"12".repeat(401)).is_err());
        assert!(parse_capture("1").is_err());
    }

    #[test]
    fn numbers() {
        assert_eq!(parse_number("0"), Ok(0));
        assert_eq!(parse_number("4294967295"), Ok(u32::MAX));
        for word in ["", "00", "01", "-1", "+1", "1x", "4294967296"] {
            assert!(parse_number(word).is_err(), "{word}");
        }
    }

    #[test]
    fn wide_numbers() {
        let most = 9_223_372_036_854_775_807;
        assert_eq!(parse_ticks("9223372036854775807"), Ok(most));
        assert_eq!(parse_value("-9223372036854775807"), Ok(-most));
        assert_eq!(parse_bits("9223372036854775807"), Ok(u64::MAX >> 1));
        assert!(parse_bits("9223372036854775808").is_err());
        assert!(parse_ticks("-1").is_err());
        assert!(parse_value("--1").is_err());
        assert!(parse_value("-").is_err());
        assert!(parse_value("9223372036854775808").is_err());
        assert!(parse_value("-9223372036854775808").is_err());
        assert!(parse_value(&"9".repeat(60)).is_err());
    }
}
