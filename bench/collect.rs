// Collects pairs of std's containers by matching and inserting, as a Rust programmer would, and prints the lines that collect.rattle prints.
// Hashed containers are timed with std's default hasher and with SipHash without a random seed.

use std::collections::hash_map::DefaultHasher;
use std::collections::{BTreeMap, BTreeSet, HashMap, HashSet, VecDeque};
use std::hash::BuildHasherDefault;
use std::hint::black_box;
use std::time::Instant;

#[derive(Clone, Copy)]
enum EitherOrBoth<L, R = L> {
    Left(L),
    Both(L, R),
    Right(R),
}
use EitherOrBoth::{Both, Left, Right};

type Sip = BuildHasherDefault<DefaultHasher>;

fn entries(count: u64, keys: u64) -> Vec<EitherOrBoth<(u64, u64)>> {
    let mut state = 1u64;
    (0..count)
        .map(|i| {
            state = state.wrapping_mul(6364136223846793005).wrapping_add(1442695040888963407);
            let key = if keys == 0 { state } else { (state >> 20) % keys };
            match i % 3 {
                0 => Left((key, i)),
                1 => Both((key, i), (key ^ 1, i)),
                _ => Right((key, i)),
            }
        })
        .collect()
}

// One push or insert a value.
#[inline(always)]
fn collected<T, C>(items: Vec<EitherOrBoth<T>>, mut left: C, mut right: C, put: impl Fn(&mut C, T)) -> (C, C) {
    for item in items {
        match item {
            Left(l) => put(&mut left, l),
            Both(l, r) => {
                put(&mut left, l);
                put(&mut right, r);
            }
            Right(r) => put(&mut right, r),
        }
    }
    (left, right)
}

fn time<T: Clone, C>(
    name: &str,
    rounds: u64,
    items: &[EitherOrBoth<T>],
    new: impl Fn() -> C,
    put: impl Fn(&mut C, T) + Copy,
    len: impl Fn(&C) -> usize,
) where
    EitherOrBoth<T>: Clone,
{
    let mut best = u128::MAX;
    let mut sum = 0;
    for _ in 0..rounds {
        let copy = items.to_vec();
        let start = Instant::now();
        let (left, right) = black_box(collected(copy, new(), new(), put));
        best = best.min(start.elapsed().as_nanos());
        sum = len(&left) as u64 * 3 + len(&right) as u64;
    }
    println!("{name} rust {best} {sum}");
}

fn main() {
    let mut args = std::env::args().skip(1).map(|text| text.parse().unwrap());
    let count = args.next().unwrap_or(1000000);
    let keys = args.next().unwrap_or(200000);
    let rounds = args.next().unwrap_or(5);
    let entries = entries(count, keys);
    let values: Vec<EitherOrBoth<u64>> = entries
        .iter()
        .map(|entry| match *entry {
            Left((l, _)) => Left(l),
            Both((l, _), (r, _)) => Both(l, r),
            Right((r, _)) => Right(r),
        })
        .collect();
    time("Vec", rounds, &entries, Vec::new, |c, e| c.push(e), |c| c.len());
    time("VecDeque", rounds, &entries, VecDeque::new, |c, e| c.push_back(e), |c| c.len());
    time("HashMap", rounds, &entries, HashMap::new, |c, (k, v)| { c.insert(k, v); }, |c| c.len());
    time("HashMap-sip", rounds, &entries, HashMap::<_, _, Sip>::default, |c, (k, v)| { c.insert(k, v); }, |c| c.len());
    time("BTreeMap", rounds, &entries, BTreeMap::new, |c, (k, v)| { c.insert(k, v); }, |c| c.len());
    time("HashSet", rounds, &values, HashSet::new, |c, k| { c.insert(k); }, |c| c.len());
    time("HashSet-sip", rounds, &values, HashSet::<_, Sip>::default, |c, k| { c.insert(k); }, |c| c.len());
    time("BTreeSet", rounds, &values, BTreeSet::new, |c, k| { c.insert(k); }, |c| c.len());
}
