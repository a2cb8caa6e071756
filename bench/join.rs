//! The joins of join.rattle in Rust: a merge by indices into a vector, the same merge that sums as it goes, and `merge_join_by` of the
//! crate `itertools`, pushed and summed, where it is installed.

use std::cmp::Ordering;
use std::time::Instant;

type Table = Vec<(u64, u64)>;

enum Either2 {
    Left(u64),
    Both(u64, u64),
    Right(u64),
}

fn tables(count: u64, is_random: bool) -> (Table, Table) {
    let (mut left, mut right) = (Vec::new(), Vec::new());
    let mut state = 1u64;
    for key in 0..count * 3 / 2 {
        state = state.wrapping_mul(6364136223846793005).wrapping_add(1442695040888963407);
        let turn = if is_random { (state >> 40) % 3 } else { key % 3 };
        if turn != 1 {
            left.push((key, state >> 32));
        }
        if turn != 2 {
            right.push((key, state >> 33));
        }
    }
    (left, right)
}

fn add(sum: u64, key: u64, value: &Either2) -> u64 {
    match *value {
        Either2::Left(l) => sum.wrapping_add(key).wrapping_add(l),
        Either2::Both(l, r) => sum.wrapping_add(key ^ l).wrapping_add(r),
        Either2::Right(r) => sum.wrapping_add(key).wrapping_sub(r),
    }
}

// The merge by indices, each pair handed on.
#[inline(always)]
fn merge(left: &Table, right: &Table, mut give: impl FnMut(u64, Either2)) {
    let (mut i, mut j) = (0, 0);
    while i < left.len() && j < right.len() {
        match left[i].0.cmp(&right[j].0) {
            Ordering::Less => {
                give(left[i].0, Either2::Left(left[i].1));
                i += 1;
            }
            Ordering::Equal => {
                give(left[i].0, Either2::Both(left[i].1, right[j].1));
                i += 1;
                j += 1;
            }
            Ordering::Greater => {
                give(right[j].0, Either2::Right(right[j].1));
                j += 1;
            }
        }
    }
    for pair in &left[i..] {
        give(pair.0, Either2::Left(pair.1));
    }
    for pair in &right[j..] {
        give(pair.0, Either2::Right(pair.1));
    }
}

#[inline(never)]
fn at_once(left: &Table, right: &Table) -> (u64, u64) {
    let (left, right) = (left.clone(), right.clone());
    let start = Instant::now();
    let mut joined = Vec::new();
    merge(&left, &right, |key, value| joined.push((key, value)));
    drop((left, right));
    let taken = start.elapsed().as_nanos() as u64;
    (taken, joined.iter().fold(0, |sum, (key, value)| add(sum, *key, value)))
}

#[inline(never)]
fn lazily(left: &Table, right: &Table) -> (u64, u64) {
    let (left, right) = (left.clone(), right.clone());
    let start = Instant::now();
    let mut sum = 0;
    merge(&left, &right, |key, value| sum = add(sum, key, &value));
    drop((left, right));
    (start.elapsed().as_nanos() as u64, sum)
}

#[cfg(with_itertools)]
mod with_itertools {
    use super::{Either2, Instant, Table, add};
    use itertools::{EitherOrBoth, Itertools};

    fn read(item: EitherOrBoth<(u64, u64), (u64, u64)>) -> (u64, Either2) {
        match item {
            EitherOrBoth::Left(l) => (l.0, Either2::Left(l.1)),
            EitherOrBoth::Both(l, r) => (l.0, Either2::Both(l.1, r.1)),
            EitherOrBoth::Right(r) => (r.0, Either2::Right(r.1)),
        }
    }

    #[inline(never)]
    pub fn at_once(left: &Table, right: &Table) -> (u64, u64) {
        let (left, right) = (left.clone(), right.clone());
        let start = Instant::now();
        let mut joined = Vec::new();
        for item in left.into_iter().merge_join_by(right, |l, r| l.0.cmp(&r.0)) {
            joined.push(read(item));
        }
        let taken = start.elapsed().as_nanos() as u64;
        (taken, joined.iter().fold(0, |sum, (key, value)| add(sum, *key, value)))
    }

    #[inline(never)]
    pub fn lazily(left: &Table, right: &Table) -> (u64, u64) {
        let (left, right) = (left.clone(), right.clone());
        let start = Instant::now();
        let mut sum = 0;
        for item in left.into_iter().merge_join_by(right, |l, r| l.0.cmp(&r.0)) {
            let (key, value) = read(item);
            sum = add(sum, key, &value);
        }
        (start.elapsed().as_nanos() as u64, sum)
    }
}

fn time(name: &str, rounds: u64, work: impl Fn() -> (u64, u64)) {
    let (mut best, mut sum) = (u64::MAX, 0);
    for _ in 0..rounds {
        let (taken, given) = work();
        best = best.min(taken);
        sum = given;
    }
    println!("{name} {best} {sum}");
}

fn main() {
    let mut numbers = std::env::args().skip(1).map(|arg| arg.parse::<u64>().unwrap());
    let count = numbers.next().unwrap_or(1000000);
    let is_random = numbers.next().unwrap_or(0) == 1;
    let rounds = numbers.next().unwrap_or(5);
    let (left, right) = tables(count, is_random);
    time("hand_at_once", rounds, || at_once(&left, &right));
    time("hand_lazily", rounds, || lazily(&left, &right));
    #[cfg(with_itertools)]
    {
        time("itertools_at_once", rounds, || with_itertools::at_once(&left, &right));
        time("itertools_lazily", rounds, || with_itertools::lazily(&left, &right));
    }
}
