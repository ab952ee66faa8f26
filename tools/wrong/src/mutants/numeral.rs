//! Numbers as they are written in code, and the same numbers with another value.

/// A number: its base, its value, how many digits there are in a group between two `_` (0 if there is no `_`), whether it
/// has upper-case digits, and its type if it names one.
#[derive(Clone, Debug, PartialEq, Eq)]
pub struct Numeral {
    base: u32,
    pub value: u128,
    group: usize,
    upper: bool,
    pub suffix: String,
}

/// The types that a number can name as its suffix.
const TYPES: [&str; 12] = ["u8", "u16", "u32", "u64", "u128", "usize", "i8", "i16", "i32", "i64", "i128", "isize"];

impl Numeral {
    pub fn parse(text: &str) -> Option<Numeral> {
        let (base, rest) = match text.get(..2) {
            Some("0x") => (16, &text[2..]),
            Some("0o") => (8, &text[2..]),
            Some("0b") => (2, &text[2..]),
            _ => (10, text),
        };
        let suffix = TYPES.iter().find(|name| rest.ends_with(**name)).copied().unwrap_or("");
        let digits = rest[..rest.len() - suffix.len()].trim_end_matches('_');
        let plain: String = digits.chars().filter(|c| *c != '_').collect();
        let value = u128::from_str_radix(&plain, base).ok().filter(|value| *value < u128::MAX)?;
        let group = digits.rsplit_once('_').map_or(0, |(_, last)| last.len());
        let upper = plain.chars().any(|c| c.is_ascii_uppercase());
        Some(Numeral { base, value, group, upper, suffix: suffix.to_string() })
    }

    pub fn is_decimal(&self) -> bool {
        self.base == 10
    }

    /// The number with another value, written in the same way.
    pub fn with(&self, value: u128) -> String {
        let (prefix, digits) = match self.base {
            16 if self.upper => ("0x", format!("{value:X}")),
            16 => ("0x", format!("{value:x}")),
            8 => ("0o", format!("{value:o}")),
            2 => ("0b", format!("{value:b}")),
            _ => ("", value.to_string()),
        };
        format!("{prefix}{}{}", grouped(&digits, self.group), self.suffix)
    }
}

/// Digits with a `_` between groups, which are counted from the right.
fn grouped(digits: &str, group: usize) -> String {
    let mut out = String::new();
    for (i, c) in digits.chars().enumerate() {
        let left = digits.len() - i;
        if i > 0 && left.is_multiple_of(group) {
            out.push('_');
        }
        out.push(c);
    }
    out
}

/// The largest value of a type of numbers.
pub fn most(name: &str) -> Option<u128> {
    match name {
        "u8" => Some(u128::from(u8::MAX)),
        "u16" => Some(u128::from(u16::MAX)),
        "u32" => Some(u128::from(u32::MAX)),
        "u64" | "usize" => Some(u128::from(u64::MAX)),
        "i8" => Some(127),
        "i16" => Some(32_767),
        "i32" => Some(2_147_483_647),
        "i64" | "isize" => Some(9_223_372_036_854_775_807),
        _ => None,
    }
}

/// Is this value one more than the largest value of some type?
pub fn leaves_a_type(value: u128) -> bool {
    TYPES.iter().filter_map(|name| most(name)).any(|most| value == most + 1)
}

#[cfg(test)]
mod tests {
    use super::*;

    fn with(text: &str, value: u128) -> String {
        Numeral::parse(text).expect("a number").with(value)
    }

    #[test]
    fn a_number_keeps_its_form() {
        assert_eq!(with("10_000", 9_999), "9_999");
        assert_eq!(with("863_999_999", 864_000_000), "864_000_000");
        assert_eq!(with("1u64", 2), "2u64");
        assert_eq!(with("0x3ff_0000_0000_0000", 0x3ff_0000_0000_0001), "0x3ff_0000_0000_0001");
        assert_eq!(with("0xAB", 0xAC), "0xAC");
        assert_eq!(with("59999", 60_000), "60000");
    }

    #[test]
    fn types_end() {
        assert_eq!(most("u8"), Some(255));
        assert!(leaves_a_type(256) && leaves_a_type(1 << 32) && !leaves_a_type(257));
        assert_eq!(Numeral::parse("7_u8").map(|n| (n.value, n.suffix)), Some((7, "u8".to_string())));
    }
}
