//! Checks that all sides answer the same. If they do not, the program stops and prints the call and the side.

use crate::abi::{Side, PLAIN, PROVED, TUNED};
use crate::rows::{About, Row};
use crate::witness::Seen;
use std::fmt::Debug;

/// The sides that are compared with the proved one.
static OTHERS: [(&str, &Side); 2] = [("plain", &PLAIN), ("tuned", &TUNED)];

/// Compares the outcome of a call on all sides: its answer and all memory that was lent.
pub fn same<T: PartialEq + Debug>(asked: &dyn Debug, call: impl Fn(&Side) -> T) {
    let proved = call(&PROVED);
    for (name, side) in OTHERS {
        let other = call(side);
        assert!(proved == other, "proved and {name} differ on {asked:?}\nproved: {proved:?}\n{name}: {other:?}");
    }
}

/// Compares all calls of the rows, and returns how many there were.
pub fn rows(rows: &mut [Row]) -> usize {
    rows.iter_mut().map(one_row).sum()
}

fn one_row(row: &mut Row) -> usize {
    let proved = row.pass.kept(&PROVED);
    for (name, side) in OTHERS {
        same_row(&row.about, &proved, name, &row.pass.kept(side));
    }
    row.about.calls
}

fn same_row(about: &About, proved: &[Seen], name: &str, other: &[Seen]) {
    let calls = [proved.len(), other.len()];
    assert!(calls == [about.calls; 2], "{} {}: calls, proved and {name}: {calls:?}", about.call, about.case);
    for (a, b) in proved.iter().zip(other) {
        let what = format!("{} {}: on {}", about.call, about.case, a.asked);
        assert!(a.answer == b.answer, "{what}\nproved: {}\n{name}: {}", a.answer, b.answer);
        assert!(a == b, "{what}\nmemory, proved: {}\nmemory, {name}: {}", a.memory, b.memory);
        assert!(a.refusal == about.refusal, "{what}\nanswered {}, not with {}", a.answer, about.refusal);
    }
}
