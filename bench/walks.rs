//! The works of walks.rattle in Rust: by hand loops over two iterators and a match, by std's chain, and by the crate `itertools` where
//! `bench/walks` found it.
//!
//! Called with a number of rounds and the names of works, it writes a line for each: the name, the least nanoseconds of all rounds, and
//! the sum that the work gave.

use std::cmp::Ordering;
use std::env;
use std::time::Instant;

#[derive(Clone)]
enum EitherOrBoth {
    Left(u64),
    Both(u64, u64),
    Right(u64),
}

use EitherOrBoth::{Both, Left, Right};

// What an item adds to a sum.
macro_rules! add {
    ($sum:expr, $l:expr, $r:expr) => {
        $sum.wrapping_add($l).wrapping_add($r)
    };
    (left $sum:expr, $l:expr) => {
        $sum.wrapping_add($l)
    };
    (right $sum:expr, $r:expr) => {
        $sum.wrapping_add($r)
    };
}

// What it adds to a sum that tells which values stood side by side.
macro_rules! mix {
    ($sum:expr, $l:expr, $r:expr) => {
        $sum.wrapping_add($l ^ ($r >> 1))
    };
    (left $sum:expr, $l:expr) => {
        $sum.wrapping_add($l)
    };
    (right $sum:expr, $r:expr) => {
        $sum.wrapping_add($r >> 1)
    };
}

// Both lists from the front.
macro_rules! swap_loop {
    ($add:ident, $lefts:expr, $rights:expr, $($star:tt)?) => {{
        let (mut lefts, mut rights) = ($lefts.into_iter(), $rights.into_iter());
        let mut sum = 0u64;
        loop {
            match (lefts.next(), rights.next()) {
                (Some(l), Some(r)) => sum = $add!(sum, $($star)? l, $($star)? r),
                (Some(l), None) => sum = $add!(left sum, $($star)? l),
                (None, Some(r)) => sum = $add!(right sum, $($star)? r),
                (None, None) => return sum,
            }
        }
    }};
}

// The loops over a pair of lists, for lists of one type: `*` where their items are not numbers but point to them.
macro_rules! hand_loops {
    ($name:ident, $list:ty, $($star:tt)?) => {
        #[allow(dead_code)]
        mod $name {
            use super::*;

            #[inline(never)]
            pub fn swap(lefts: $list, rights: $list) -> u64 {
                swap_loop!(add, lefts, rights, $($star)?)
            }

            #[inline(never)]
            pub fn mixed(lefts: $list, rights: $list) -> u64 {
                swap_loop!(mix, lefts, rights, $($star)?)
            }

            #[inline(never)]
            pub fn rev(lefts: $list, rights: $list) -> u64 {
                let (mut lefts, mut rights) = (lefts.into_iter(), rights.into_iter());
                let mut sum = 0u64;
                loop {
                    match lefts.len().cmp(&rights.len()) {
                        Ordering::Less => match rights.next_back() {
                            Some(r) => sum = add!(right sum, $($star)? r),
                            None => return sum,
                        },
                        Ordering::Greater => match lefts.next_back() {
                            Some(l) => sum = add!(left sum, $($star)? l),
                            None => return sum,
                        },
                        Ordering::Equal => match (lefts.next_back(), rights.next_back()) {
                            (Some(l), Some(r)) => sum = add!(sum, $($star)? l, $($star)? r),
                            _ => return sum,
                        },
                    }
                }
            }

            #[inline(never)]
            pub fn ends(lefts: $list, rights: $list) -> u64 {
                let (mut lefts, mut rights) = (lefts.into_iter(), rights.into_iter());
                let mut sum = 0u64;
                loop {
                    match (lefts.next(), rights.next()) {
                        (Some(l), Some(r)) => sum = add!(sum, $($star)? l, $($star)? r),
                        (Some(l), None) => sum = add!(left sum, $($star)? l),
                        (None, Some(r)) => sum = add!(right sum, $($star)? r),
                        (None, None) => return sum,
                    }
                    match lefts.len().cmp(&rights.len()) {
                        Ordering::Less => {
                            if let Some(r) = rights.next_back() {
                                sum = add!(right sum, $($star)? r);
                            }
                        }
                        Ordering::Greater => {
                            if let Some(l) = lefts.next_back() {
                                sum = add!(left sum, $($star)? l);
                            }
                        }
                        Ordering::Equal => {
                            if let (Some(l), Some(r)) = (lefts.next_back(), rights.next_back()) {
                                sum = add!(sum, $($star)? l, $($star)? r);
                            }
                        }
                    }
                }
            }

            #[inline(never)]
            pub fn chain(lefts: $list, rights: $list) -> u64 {
                let mut sum = 0u64;
                for l in lefts {
                    sum = add!(left sum, $($star)? l);
                }
                for r in rights {
                    sum = add!(left sum, $($star)? r);
                }
                sum
            }

            #[inline(never)]
            pub fn std_chain(lefts: $list, rights: $list) -> u64 {
                let mut sum = 0u64;
                for item in lefts.into_iter().chain(rights) {
                    sum = add!(left sum, $($star)? item);
                }
                sum
            }
        }
    };
}

hand_loops!(values, Vec<u64>,);
hand_loops!(references, &Vec<u64>, *);
hand_loops!(boxed, Vec<Box<u64>>, *);

// The left values and the right values of a list lined up again, pushed one by one as the Rattle program does.
#[inline(never)]
fn regroup(list: Vec<EitherOrBoth>) -> Vec<EitherOrBoth> {
    let (mut lefts, mut rights) = (Vec::new(), Vec::new());
    for value in list {
        match value {
            Left(l) => lefts.push(l),
            Both(l, r) => {
                lefts.push(l);
                rights.push(r);
            }
            Right(r) => rights.push(r),
        }
    }
    let (mut lefts, mut rights) = (lefts.into_iter(), rights.into_iter());
    let mut lined_up = Vec::new();
    loop {
        lined_up.push(match (lefts.next(), rights.next()) {
            (Some(l), Some(r)) => Both(l, r),
            (Some(l), None) => Left(l),
            (None, Some(r)) => Right(r),
            (None, None) => return lined_up,
        });
    }
}

#[cfg(with_itertools)]
mod by_itertools {
    use itertools::{EitherOrBoth, Itertools};
    use std::borrow::Borrow;

    fn add<T: Borrow<u64>>(sum: u64, item: EitherOrBoth<T, T>) -> u64 {
        match item {
            EitherOrBoth::Left(l) => add!(left sum, *l.borrow()),
            EitherOrBoth::Both(l, r) => add!(sum, *l.borrow(), *r.borrow()),
            EitherOrBoth::Right(r) => add!(right sum, *r.borrow()),
        }
    }

    #[inline(never)]
    pub fn swap<T: Borrow<u64>>(
        lefts: impl IntoIterator<Item = T>,
        rights: impl IntoIterator<Item = T>,
    ) -> u64 {
        let mut sum = 0u64;
        for item in lefts.into_iter().zip_longest(rights) {
            sum = add(sum, item);
        }
        sum
    }

    #[inline(never)]
    pub fn mixed<T: Borrow<u64>>(
        lefts: impl IntoIterator<Item = T>,
        rights: impl IntoIterator<Item = T>,
    ) -> u64 {
        let mut sum = 0u64;
        for item in lefts.into_iter().zip_longest(rights) {
            sum = match item {
                EitherOrBoth::Left(l) => mix!(left sum, *l.borrow()),
                EitherOrBoth::Both(l, r) => mix!(sum, *l.borrow(), *r.borrow()),
                EitherOrBoth::Right(r) => mix!(right sum, *r.borrow()),
            };
        }
        sum
    }

    #[inline(never)]
    pub fn rev<T: Borrow<u64>, L, R>(
        lefts: impl IntoIterator<Item = T, IntoIter = L>,
        rights: impl IntoIterator<Item = T, IntoIter = R>,
    ) -> u64
    where
        L: DoubleEndedIterator<Item = T> + ExactSizeIterator,
        R: DoubleEndedIterator<Item = T> + ExactSizeIterator,
    {
        let mut sum = 0u64;
        for item in lefts.into_iter().zip_longest(rights).rev() {
            sum = add(sum, item);
        }
        sum
    }

    #[inline(never)]
    pub fn ends<T: Borrow<u64>, L, R>(
        lefts: impl IntoIterator<Item = T, IntoIter = L>,
        rights: impl IntoIterator<Item = T, IntoIter = R>,
    ) -> u64
    where
        L: DoubleEndedIterator<Item = T> + ExactSizeIterator,
        R: DoubleEndedIterator<Item = T> + ExactSizeIterator,
    {
        let mut sum = 0u64;
        let mut walk = lefts.into_iter().zip_longest(rights);
        while let Some(front) = walk.next() {
            sum = add(sum, front);
            if let Some(back) = walk.next_back() {
                sum = add(sum, back);
            }
        }
        sum
    }
}

struct Inputs {
    lefts: Vec<u64>,
    rights: Vec<u64>,
    list: Vec<EitherOrBoth>,
}

fn numbers(count: usize, seed: u64) -> Vec<u64> {
    let mut state = seed;
    let mut made = Vec::new();
    for _ in 0..count {
        state = state
            .wrapping_mul(6364136223846793005)
            .wrapping_add(1442695040888963407);
        made.push(state >> 8);
    }
    made
}

fn boxes(numbers: &[u64]) -> Vec<Box<u64>> {
    let mut made = Vec::new();
    for number in numbers {
        made.push(Box::new(*number));
    }
    made
}

// Of four values two are left ones alone, one is a right one alone, and one is both.
fn list(numbers: &[u64]) -> Vec<EitherOrBoth> {
    let mut made = Vec::new();
    for (place, number) in numbers.iter().enumerate() {
        made.push(match place % 4 {
            0 => Both(*number, *number >> 3),
            1 => Right(*number),
            _ => Left(*number),
        });
    }
    made
}

fn timed<I, O>(input: I, work: impl FnOnce(I) -> O) -> (O, u128) {
    let start = Instant::now();
    let output = work(input);
    let time = start.elapsed();
    (output, time.as_nanos())
}

fn of_values(inputs: &Inputs, work: fn(Vec<u64>, Vec<u64>) -> u64) -> (u64, u128) {
    let pair = (inputs.lefts.clone(), inputs.rights.clone());
    timed(pair, |(lefts, rights)| work(lefts, rights))
}

fn of_references(inputs: &Inputs, work: fn(&Vec<u64>, &Vec<u64>) -> u64) -> (u64, u128) {
    let pair = (&inputs.lefts, &inputs.rights);
    timed(pair, |(lefts, rights)| work(lefts, rights))
}

fn of_boxes(inputs: &Inputs, work: fn(Vec<Box<u64>>, Vec<Box<u64>>) -> u64) -> (u64, u128) {
    let pair = (boxes(&inputs.lefts), boxes(&inputs.rights));
    timed(pair, |(lefts, rights)| work(lefts, rights))
}

fn regrouped(inputs: &Inputs) -> (u64, u128) {
    let (made, time) = timed(inputs.list.clone(), regroup);
    let mut sum = 0u64;
    for item in made {
        sum = match item {
            Left(l) => mix!(left sum, l),
            Both(l, r) => mix!(sum, l, r),
            Right(r) => mix!(right sum, r),
        };
    }
    (sum, time)
}

fn once(inputs: &Inputs, work: &str) -> (u64, u128) {
    match work {
        "hand_swap_value" => of_values(inputs, values::swap),
        "hand_swap_reference" => of_references(inputs, references::swap),
        "hand_swap_boxes" => of_boxes(inputs, boxed::swap),
        "hand_mixed_value" => of_values(inputs, values::mixed),
        "hand_mixed_reference" => of_references(inputs, references::mixed),
        "hand_ends_value" => of_values(inputs, values::ends),
        "hand_ends_reference" => of_references(inputs, references::ends),
        "hand_rev_value" => of_values(inputs, values::rev),
        "hand_rev_reference" => of_references(inputs, references::rev),
        "hand_chain_value" => of_values(inputs, values::chain),
        "hand_chain_reference" => of_references(inputs, references::chain),
        "rust_chain_value" => of_values(inputs, values::std_chain),
        "rust_chain_reference" => of_references(inputs, references::std_chain),
        "hand_regroup" => regrouped(inputs),
        #[cfg(with_itertools)]
        "itertools_swap_value" => of_values(inputs, |a, b| by_itertools::swap(a, b)),
        #[cfg(with_itertools)]
        "itertools_swap_reference" => of_references(inputs, |a, b| by_itertools::swap(a, b)),
        #[cfg(with_itertools)]
        "itertools_swap_boxes" => of_boxes(inputs, |a, b| by_itertools::swap(a, b)),
        #[cfg(with_itertools)]
        "itertools_mixed_value" => of_values(inputs, |a, b| by_itertools::mixed(a, b)),
        #[cfg(with_itertools)]
        "itertools_mixed_reference" => of_references(inputs, |a, b| by_itertools::mixed(a, b)),
        #[cfg(with_itertools)]
        "itertools_ends_value" => of_values(inputs, |a, b| by_itertools::ends(a, b)),
        #[cfg(with_itertools)]
        "itertools_ends_reference" => of_references(inputs, |a, b| by_itertools::ends(a, b)),
        #[cfg(with_itertools)]
        "itertools_rev_value" => of_values(inputs, |a, b| by_itertools::rev(a, b)),
        #[cfg(with_itertools)]
        "itertools_rev_reference" => of_references(inputs, |a, b| by_itertools::rev(a, b)),
        _ => panic!("no work {work}"),
    }
}

fn main() {
    let lefts = numbers(1_000_000, 1);
    let rights = numbers(500_000, 2);
    let list = list(&lefts);
    let inputs = Inputs {
        lefts,
        rights,
        list,
    };
    let mut works = env::args().skip(1);
    let rounds: u64 = works.next().and_then(|text| text.parse().ok()).unwrap_or(1);
    for work in works {
        let mut least = u128::MAX;
        let mut sum = 0u64;
        for _ in 0..rounds {
            let (given, time) = once(&inputs, &work);
            least = least.min(time);
            sum = given;
        }
        println!("{work} {least} {sum}");
    }
}
