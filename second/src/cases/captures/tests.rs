use super::*;
use crate::finder::{self, is_lead, Ending};
use crate::listing::{self, MOST_BYTES};
use std::collections::BTreeSet;

const MOST_CAPTURES: usize = 140;
const MOST_BYTES_OF_ALL: usize = 520_000;

/// The list of a capture that is not too long, line by line.
fn lines(capture: &[u8]) -> Vec<String> {
    let list = String::from_utf8(listing::list(capture)).expect("text");
    list.lines().map(str::to_string).collect()
}

/// The four counts of the last line.
fn end(capture: &[u8]) -> [usize; 4] {
    let lines = lines(capture);
    let last = lines.last().expect("a heading at least");
    let counts = last.strip_prefix("end\t").expect("the line of counts");
    let counts: Vec<usize> = counts
        .split('\t')
        .map(|count| count.parse().expect("a count"))
        .collect();
    counts.try_into().expect("four counts")
}

/// Checks that these captures end with these counts, one entry for each capture.
pub fn check_ends(captures: &[Capture], expected: &[[usize; 4]]) {
    let ends: Vec<[usize; 4]> = captures.iter().map(|capture| end(capture)).collect();
    assert_eq!(ends, expected);
}

/// The seat that each row begins with.
pub fn seats_of_rows(capture: &[u8]) -> Vec<usize> {
    let lines = lines(capture);
    let rows = &lines[1..lines.len() - 1];
    rows.iter()
        .map(|row| {
            let (seat, _) = row.split_once('\t').expect("fields");
            seat.parse().expect("a seat")
        })
        .collect()
}

/// How many frames of these captures are taken, and how many refused.
pub fn taken_and_refused(captures: &[Capture]) -> (usize, usize) {
    let ends = captures.iter().map(|capture| end(capture));
    ends.fold((0, 0), |(taken, all_refused), counts| {
        let [opened, collected, dynamic, refused] = counts;
        (taken + opened + collected + dynamic, all_refused + refused)
    })
}

/// The numbers of all refusals that whole frames of these captures get.
pub fn refusals(captures: &[Capture]) -> BTreeSet<u8> {
    captures
        .iter()
        .flat_map(|capture| refusals_of_one(capture))
        .collect()
}

fn refusals_of_one(capture: &[u8]) -> Vec<u8> {
    let mut desk = listing::empty_desk();
    finder::frames(capture)
        .filter(|found| found.ending == Ending::Whole)
        .filter_map(|found| listing::serve(&mut desk, &capture[found.start..found.end]).err())
        .map(|refusal| refusal.number())
        .collect()
}

#[test]
fn captures_keep_their_limits() {
    for seed in [0, 1, 2, u64::MAX] {
        let captures = all(seed);
        assert!(captures.len() <= MOST_CAPTURES, "{}", captures.len());
        let bytes: usize = captures.iter().map(Vec::len).sum();
        assert!(bytes < MOST_BYTES_OF_ALL, "{bytes} bytes");
    }
}

#[test]
fn a_seed_gives_the_same_captures() {
    assert_eq!(all(1), all(1));
    assert_ne!(all(1), all(2));
}

#[test]
fn no_capture_comes_twice() {
    let captures = all(1);
    let different: BTreeSet<&Capture> = captures.iter().collect();
    assert_eq!(different.len(), captures.len());
}

/// The four counts add up to the number of lead bytes, whatever else is in the capture.
fn check_sum(capture: &[u8]) {
    if capture.len() <= MOST_BYTES {
        let leads = capture.iter().filter(|&&code| is_lead(code)).count();
        assert_eq!(end(capture).iter().sum::<usize>(), leads);
    }
}

#[test]
fn counts_add_up_to_the_lead_bytes() {
    for capture in of_every_seed() {
        check_sum(&capture);
    }
    for seed in [0, 1, 2, 3, u64::MAX] {
        for capture in random::captures(&mut Random::new(seed, "captures")) {
            check_sum(&capture);
        }
    }
}

/// Every refusal that can occur here. A whole frame is given to the call of its lead byte, so KIND
/// and END cannot occur. The desk is always good, so DESK cannot occur. RECORD, ROOM and TIME
/// belong to other calls.
#[test]
fn every_refusal_comes() {
    let expected = BTreeSet::from([2, 4, 5, 10, 11, 12, 13, 14, 15, 16]);
    let captures = [refused::captures(), seats::captures(), full::captures()];
    assert_eq!(refusals(&captures.concat()), expected);
}
