//! Cases of numbers as digits: `number` and `digits`.

use super::{replaced, Cases};
use crate::digits::WIDEST;
use crate::random::Random;
use crate::spelling::bytes_text;

/// What is before and after a number in the middle of a text. They are digits, so a reader that
/// begins or ends at the wrong place returns a wrong answer.
const BEFORE: &[u8] = b"98765";
const AFTER: &[u8] = b"4321";

/// The bytes next to the digits, blanks, signs, bytes that differ from a digit in one bit, and two
/// others.
const NO_DIGITS: [u8; 9] = [0x2f, 0x3a, b' ', b'+', b'-', 0x00, 0x10, 0xb0, 0xff];

pub fn add_all(cases: &mut Cases, seed: u64) {
    for width in 1..=WIDEST {
        add_values(cases, width);
        add_faults(cases, width);
        add_short_texts(cases, width);
    }
    add_random_numbers(cases, &mut Random::new(seed, "number"));
    add_digits(cases, &mut Random::new(seed, "digits"));
}

fn add_number(cases: &mut Cases, place: usize, width: usize, text: &[u8]) {
    cases.add(format!("number {place} {width} {}", bytes_text(text)));
}

/// The same digits at the beginning of a text and in its middle.
fn add_at_both_places(cases: &mut Cases, digits: &[u8]) {
    add_number(cases, 0, digits.len(), digits);
    let text = [BEFORE, digits, AFTER].concat();
    add_number(cases, BEFORE.len(), digits.len(), &text);
}

fn add_values(cases: &mut Cases, width: usize) {
    let zeros = vec![b'0'; width];
    let nines = vec![b'9'; width];
    add_at_both_places(cases, &zeros);
    add_at_both_places(cases, &nines);
    add_at_both_places(cases, &replaced(&zeros, width - 1, b"1"));
    add_at_both_places(cases, &replaced(&zeros, 0, b"1"));
    add_at_both_places(cases, &b"1234567890"[..width]);
}

fn add_faults(cases: &mut Cases, width: usize) {
    let good = &b"5040302010"[..width];
    for wrong in NO_DIGITS {
        add_at_both_places(cases, &replaced(good, 0, &[wrong]));
        add_at_both_places(cases, &replaced(good, width - 1, &[wrong]));
    }
    add_at_both_places(cases, &vec![b' '; width]);
}

/// Texts that end before the number does, and places at the end, after it and far after it.
fn add_short_texts(cases: &mut Cases, width: usize) {
    let digits = &b"1234567890"[..width];
    let text = [BEFORE, digits].concat();
    add_number(cases, 0, width, &digits[..width - 1]);
    add_number(cases, 1, width, digits);
    add_number(cases, BEFORE.len(), width, &text);
    add_number(cases, BEFORE.len() + 1, width, &text);
    add_number(cases, text.len() - 1, width, &text);
    add_number(cases, text.len(), width, &text);
    add_number(cases, text.len() + 1, width, &text);
    add_number(cases, u32::MAX as usize, width, &text);
    add_number(cases, u32::MAX as usize - width + 1, width, &text);
    add_number(cases, 0, width, &[]);
}

fn add_random_numbers(cases: &mut Cases, random: &mut Random) {
    for _ in 0..120 {
        let width = 1 + random.place(WIDEST);
        let length = random.place(20);
        let mut text: Vec<u8> = (0..length).map(|_| b'0' + random.below(10) as u8).collect();
        if !text.is_empty() && random.once_in(4) {
            let place = random.place(text.len());
            text[place] = random.byte();
        }
        let place = random.place(length + 2).saturating_sub(random.place(width));
        add_number(cases, place, width, &text);
    }
}

fn add_digits(cases: &mut Cases, random: &mut Random) {
    for width in 1..=WIDEST {
        let limit = 10_u64.pow(width as u32).min(1 << 32);
        let tenth = 10_u64.pow(width as u32 - 1);
        for value in [0, 1, 9, tenth - 1, tenth, limit - 2, limit - 1] {
            cases.add(format!("digits {width} {value}"));
        }
        for _ in 0..8 {
            let digits = 1 + random.place(width);
            let limit = 10_u64.pow(digits as u32).min(1 << 32);
            cases.add(format!("digits {width} {}", random.below(limit)));
        }
    }
}
