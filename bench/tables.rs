//! The joins of tables.rattle by hand in Rust: merges by indices, and the join of two of std's hashed maps into one, with its default
//! hasher. Rust's std has nothing to hold beside IndexMap, so both joins of maps stand beside the same loop.

use std::cmp::Ordering;
use std::collections::HashMap;
use std::time::Instant;

type Table = Vec<(u64, u64)>;

enum EitherOrBoth<L, R> {
    Left(L),
    Both(L, R),
    Right(R),
}

use EitherOrBoth::{Both, Left, Right};

fn tables(count: u64, repeat: u64) -> (Table, Table) {
    let (mut left, mut right) = (Vec::new(), Vec::new());
    let (mut state, mut key) = (1u64, 0u64);
    for _ in 0..count * 3 / 2 {
        state = state.wrapping_mul(6364136223846793005).wrapping_add(1442695040888963407);
        let turn = (state >> 40) % 3;
        if (state >> 20) % repeat.max(1) == 0 {
            key += 1;
        }
        if turn != 1 {
            left.push((key, state >> 32));
        }
        if turn != 2 {
            right.push((key, state >> 33));
        }
    }
    (left, right)
}

fn sum_of(values: Vec<u64>) -> u64 {
    values.into_iter().fold(0, |sum: u64, value| sum.wrapping_mul(31).wrapping_add(value))
}

fn add(sum: u64, key: u64, value: EitherOrBoth<u64, u64>) -> u64 {
    match value {
        Left(l) => sum.wrapping_add(key).wrapping_add(l),
        Both(l, r) => sum.wrapping_add(key ^ l).wrapping_add(r),
        Right(r) => sum.wrapping_add(key).wrapping_sub(r),
    }
}

// The values under the key from an index on, which is moved past them.
#[inline(always)]
fn group(table: &Table, from: &mut usize, key: u64) -> Vec<u64> {
    let mut values = Vec::new();
    while *from < table.len() && table[*from].0 == key {
        values.push(table[*from].1);
        *from += 1;
    }
    values
}

#[inline(never)]
fn groups(left: &Table, right: &Table) -> (u64, u64) {
    let (left, right) = (left.clone(), right.clone());
    let start = Instant::now();
    let mut joined = Vec::new();
    let (mut i, mut j) = (0, 0);
    loop {
        let key = match (left.get(i), right.get(j)) {
            (Some(l), Some(r)) => l.0.min(r.0),
            (Some(l), None) => l.0,
            (None, Some(r)) => r.0,
            (None, None) => break,
        };
        let lefts = group(&left, &mut i, key);
        let rights = group(&right, &mut j, key);
        joined.push(match (lefts.is_empty(), rights.is_empty()) {
            (_, true) => (key, Left(lefts)),
            (true, _) => (key, Right(rights)),
            _ => (key, Both(lefts, rights)),
        });
    }
    drop((left, right));
    let taken = start.elapsed().as_nanos() as u64;
    let sum = joined.into_iter().fold(0u64, |sum, (key, value)| match value {
        Left(l) => sum.wrapping_add(key).wrapping_add(sum_of(l)),
        Both(l, r) => sum.wrapping_add(key ^ sum_of(l)).wrapping_add(sum_of(r)),
        Right(r) => sum.wrapping_add(key).wrapping_sub(sum_of(r)),
    });
    (taken, sum)
}

fn map_of(table: &Table) -> HashMap<u64, u64> {
    table.iter().map(|(key, value)| (key.wrapping_mul(0x9E3779B97F4A7C15), *value)).collect()
}

#[inline(never)]
fn maps(left: &Table, right: &Table) -> (u64, u64) {
    let (left, right) = (map_of(left), map_of(right));
    let start = Instant::now();
    let mut joined = HashMap::with_capacity(left.len());
    for (key, l) in left {
        joined.insert(key, Left(l));
    }
    for (key, r) in right {
        match joined.get_mut(&key) {
            Some(value) => {
                if let Left(l) = value {
                    *value = Both(*l, r);
                }
            }
            None => {
                joined.insert(key, Right(r));
            }
        }
    }
    let taken = start.elapsed().as_nanos() as u64;
    (taken, joined.into_iter().fold(0, |sum, (key, value)| add(sum, key, value)))
}

#[inline(never)]
fn inner(left: &Table, right: &Table) -> (u64, u64) {
    let (left, right) = (left.clone(), right.clone());
    let start = Instant::now();
    let mut joined = Vec::new();
    let (mut i, mut j) = (0, 0);
    while i < left.len() && j < right.len() {
        match left[i].0.cmp(&right[j].0) {
            Ordering::Less => i += 1,
            Ordering::Equal => {
                joined.push((left[i].0, (left[i].1, right[j].1)));
                i += 1;
                j += 1;
            }
            Ordering::Greater => j += 1,
        }
    }
    drop((left, right));
    let taken = start.elapsed().as_nanos() as u64;
    (taken, joined.into_iter().fold(0u64, |sum, (key, (l, r))| sum.wrapping_add(key ^ l).wrapping_add(r)))
}

fn time(name: &str, rounds: u64, work: impl Fn() -> (u64, u64)) {
    let (mut best, mut sum) = (u64::MAX, 0);
    for _ in 0..rounds {
        let (taken, given) = work();
        best = best.min(taken);
        sum = given;
    }
    println!("{name} {best} {sum}");
}

fn main() {
    let mut numbers = std::env::args().skip(1).map(|arg| arg.parse::<u64>().unwrap());
    let count = numbers.next().unwrap_or(1000000);
    let repeat = numbers.next().unwrap_or(4);
    let rounds = numbers.next().unwrap_or(5);
    let (left, right) = tables(count, repeat);
    let (lefts, rights) = tables(count, 1);
    time("hand_groups", rounds, || groups(&left, &right));
    time("hand_index_maps", rounds, || maps(&left, &right));
    time("hand_hash_maps", rounds, || maps(&left, &right));
    time("hand_inner", rounds, || inner(&lefts, &rights));
}
