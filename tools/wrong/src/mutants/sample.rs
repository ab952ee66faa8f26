//! Takes a sample from a pool of mutants. A seed decides which ones.

use super::Mutant;
use std::collections::BTreeMap;

/// How often each line was changed.
type Turns = BTreeMap<(String, usize), usize>;

/// Takes `n` mutants of the pool, or the whole pool if it has no more. The same pool, `n` and seed give the same mutants in
/// the same order.
///
/// The sample is spread over the lines: of mutants of one line, none changes a line again before each line has been changed
/// once. A mutant of two lines is taken when it is the turn of both lines, and otherwise when it is the turn of one.
pub fn sample(pool: Vec<Mutant>, n: usize, seed: u64) -> Vec<Mutant> {
    let mut rest = shuffled(pool, seed);
    let mut taken: Vec<Mutant> = Vec::new();
    let mut turns = Turns::new();
    let mut turn = 0;
    while taken.len() < n && !rest.is_empty() {
        for lines_due in [all_due, some_due] {
            let mut left = Vec::new();
            for mutant in rest {
                if lines_due(&mutant, &turns, turn) {
                    places(&mutant).for_each(|place| *turns.entry(place).or_default() += 1);
                    taken.push(mutant);
                } else {
                    left.push(mutant);
                }
            }
            rest = left;
        }
        turn += 1;
    }
    taken.truncate(n);
    taken
}

/// The lines that a mutant changes.
fn places(mutant: &Mutant) -> impl Iterator<Item = (String, usize)> + '_ {
    mutant.changes.iter().map(|change| (format!("{}/{}", mutant.krate, change.file), change.line))
}

fn turns_of(turns: &Turns, place: &(String, usize)) -> usize {
    turns.get(place).copied().unwrap_or(0)
}

fn all_due(mutant: &Mutant, turns: &Turns, turn: usize) -> bool {
    places(mutant).all(|place| turns_of(turns, &place) <= turn)
}

fn some_due(mutant: &Mutant, turns: &Turns, turn: usize) -> bool {
    places(mutant).any(|place| turns_of(turns, &place) <= turn)
}

/// The pool in an order that depends only on the seed.
fn shuffled(mut pool: Vec<Mutant>, seed: u64) -> Vec<Mutant> {
    let mut state = seed;
    for i in (1..pool.len()).rev() {
        let j = random(&mut state) % (i as u64 + 1);
        pool.swap(i, j as usize);
    }
    pool
}

/// The next pseudo-random number.
fn random(state: &mut u64) -> u64 {
    *state = state.wrapping_add(0x9e37_79b9_7f4a_7c15);
    let a = (*state ^ (*state >> 30)).wrapping_mul(0xbf58_476d_1ce4_e5b9);
    let b = (a ^ (a >> 27)).wrapping_mul(0x94d0_49bb_1331_11eb);
    b ^ (b >> 31)
}

/// Shares `n` out among pools in proportion to their sizes. No pool's share is larger than the pool.
pub fn shares(sizes: &[usize], n: usize) -> Vec<usize> {
    let all: usize = sizes.iter().sum();
    if all <= n {
        return sizes.to_vec();
    }
    let mut given: Vec<usize> = sizes.iter().map(|size| size * n / all).collect();
    // what is left over by rounding goes to the pools that lost most by it
    let mut order: Vec<usize> = (0..sizes.len()).collect();
    order.sort_by_key(|&i| std::cmp::Reverse(sizes[i] * n % all));
    let left = n - given.iter().sum::<usize>();
    order.iter().take(left).for_each(|&i| given[i] += 1);
    given
}
