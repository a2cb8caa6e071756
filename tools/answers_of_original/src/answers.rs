//! What the original crate answers at a line, `value.call(args)`.

use crate::functions::{double, take_calls, Function};
use crate::read::{read_values, Both, Held, One, Value};
use crate::walks;
use either_or_both::{Either, EitherOrBoth, TryFromOptionsError};
use indexmap::{IndexMap, IndexSet};
use serde::{de::DeserializeOwned, Serialize};
use std::collections::hash_map::DefaultHasher;
use std::collections::{BTreeMap, BTreeSet, HashMap, HashSet, VecDeque};
use std::fmt::{Debug, Display};
use std::hash::{Hash, Hasher};
use std::ops::{Deref, DerefMut};
use std::panic::{catch_unwind, AssertUnwindSafe};

/// An answer, and what the original gives where the rule wants another answer.
pub struct Reply {
    pub answer: String,
    pub original: Option<String>,
}

/// A line taken apart.
pub struct Ask<'a> {
    pub value: &'a str,
    pub call: &'a str,
    pub args: &'a str,
}

impl<'a> Ask<'a> {
    fn read(line: &'a str) -> Option<Ask<'a>> {
        let (value, rest) = line.split_once('.')?;
        let (call, args) = rest.strip_suffix(')')?.split_once('(')?;
        Some(Ask { value, call, args })
    }

    fn words(&self) -> (&'a str, &'a str) {
        self.args.split_once(", ").unwrap_or((self.args, self.args))
    }

    fn functions(&self) -> (Function<'a>, Function<'a>) {
        let (first, last) = self.words();
        (Function(if is_value(first) { last } else { first }), Function(last))
    }

    fn makers(&self) -> (Function<'a>, Function<'a>) {
        let (first, last) = self.words();
        (Function(first), Function(if is_value(last) { last } else { first }))
    }

    fn first<T: Held>(&self) -> T {
        T::read(self.words().0).expect("a first argument")
    }

    fn last<T: Held>(&self) -> T {
        T::read(self.words().1).expect("a last argument")
    }

    fn other<T: Held>(&self) -> T {
        T::read(self.args).expect("another value")
    }
}

fn is_value(word: &str) -> bool {
    word.parse::<i32>().is_ok() || word.ends_with("u8") || word.starts_with('\'')
}

type Said = Option<String>;

fn show(answer: impl Debug) -> Said {
    Some(format!("{answer:?}"))
}

fn show_left(answer: impl Debug, left: impl Debug) -> Said {
    Some(format!("{answer:?} leaves {left:?}"))
}

/// The answer, or `panics`.
fn guarded<T: Debug>(call: impl FnOnce() -> T) -> Said {
    Some(catch_unwind(AssertUnwindSafe(call)).map_or("panics".into(), |answer| format!("{answer:?}")))
}

/// The answer to a line, with the functions that were called.
pub fn reply(line: &str) -> Option<Reply> {
    let ask = Ask::read(line)?;
    if let Some(reply) = walks::reply(&ask) {
        return Some(reply);
    }
    let answer = answer(&ask)?;
    let calls = take_calls();
    let answer = if calls.is_empty() { answer } else { format!("{answer} calls {calls}") };
    Some(Reply { answer, original: None })
}

fn answer(ask: &Ask) -> Said {
    match ask.call {
        "transpose" | "transpose_left" | "transpose_right" | "transpose_err" | "transpose_ok" => {
            transposed::<i32, i32>(ask).or_else(|| transposed::<u8, char>(ask))
        }
        "into" | "try_into" | "question" | "message" => {
            converted::<i32, i32>(ask).or_else(|| converted::<u8, char>(ask))
        }
        "collect" => collected::<i32, i32>(ask).or_else(|| collected::<u8, char>(ask)),
        "read_json" => match ask.args {
            "EitherOrBoth" => read_json::<Both<i32>>(ask),
            "EitherOrBoth<u8, char>" => read_json::<EitherOrBoth<u8, char>>(ask),
            "Either" => read_json::<One<i32>>(ask),
            "Either<u8, char>" => read_json::<Either<u8, char>>(ask),
            _ => None,
        },
        "extend" => {
            let mut value = One::<Vec<i32>>::read(ask.value)?;
            value.extend(ask.other::<Vec<i32>>());
            show_left((), value)
        }
        _ => of_value(ask),
    }
}

fn of_value(ask: &Ask) -> Said {
    if let Some(value) = Both::<i32>::read(ask.value) {
        return of_numbers(ask, value).or_else(|| of_both(ask, value));
    }
    if let Some(value) = One::<i32>::read(ask.value) {
        return of_one_number(ask, value).or_else(|| of_either(ask, value));
    }
    match EitherOrBoth::<u8, char>::read(ask.value) {
        Some(value) => of_both(ask, value),
        None => of_either(ask, Either::<u8, char>::read(ask.value)?),
    }
}

/// The calls on values of any types that both enums have.
macro_rules! shared {
    ($ask:ident, $value:ident) => {{
        let (f, g) = $ask.functions();
        let (make, other) = $ask.makers();
        let mut v = $value;
        match $ask.call {
            "is_left" => show(v.is_left()),
            "is_left_and" => show(v.is_left_and(|l| f.test(l))),
            "is_left_or" => show(v.is_left_or(|r| g.test(r))),
            "is_right" => show(v.is_right()),
            "is_right_and" => show(v.is_right_and(|r| g.test(r))),
            "is_right_or" => show(v.is_right_or(|l| f.test(l))),
            "as_ref" => show(v.as_ref()),
            "as_mut" => {
                v.as_mut().biapply(|l| *l = f.of(*l), |r| *r = g.of(*r));
                show_left((), v)
            }
            "left_mut" => {
                let held = v.as_mut().left().map(|l| std::mem::replace(l, $ask.first()));
                show_left(held, v)
            }
            "right_mut" => {
                let held = v.as_mut().right().map(|r| std::mem::replace(r, $ask.last()));
                show_left(held, v)
            }
            "as_deref" => show(v.bimap(Box::new, Box::new).as_deref()),
            "as_deref_mut" => {
                let mut boxes = v.bimap(Box::new, Box::new);
                boxes.as_deref_mut().biapply(|l| *l = f.of(*l), |r| *r = g.of(*r));
                show_left((), boxes)
            }
            "clone" => show(v.clone()),
            "cloned" => show(v.as_ref().cloned()),
            "cloned_mut" => show(v.as_mut().cloned()),
            "copied" => show(v.as_ref().copied()),
            "copied_mut" => show(v.as_mut().copied()),
            "expect_left" => guarded(|| $value.expect_left("left")),
            "unwrap_left" => guarded(|| $value.unwrap_left()),
            "unwrap_left_unchecked" if v.left().is_some() => show(unsafe { v.unwrap_left_unchecked() }),
            "expect_right" => guarded(|| $value.expect_right("right")),
            "unwrap_right" => guarded(|| $value.unwrap_right()),
            "unwrap_right_unchecked" if v.right().is_some() => show(unsafe { v.unwrap_right_unchecked() }),
            "left" => show(v.left()),
            "right" => show(v.right()),
            "flip" => show(v.flip()),
            "bimap" => show(v.bimap(|l| f.of::<L, L>(l), |r| g.of::<R, R>(r))),
            "map_left" => show(v.map_left(|l| f.of::<L, L>(l))),
            "map_left_or" => show(v.map_left_or($ask.first(), |l| f.of::<L, L>(l))),
            "map_left_or_default" => show(v.map_left_or_default(|l| f.of::<L, L>(l))),
            "map_left_or_else" => show(v.map_left_or_else(|| make.make(), |l| f.of::<L, L>(l))),
            "map_right" => show(v.map_right(|r| g.of::<R, R>(r))),
            "map_right_or" => show(v.map_right_or($ask.first(), |r| g.of::<R, R>(r))),
            "map_right_or_default" => show(v.map_right_or_default(|r| g.of::<R, R>(r))),
            "map_right_or_else" => show(v.map_right_or_else(|| make.make(), |r| g.of::<R, R>(r))),
            "reduce_left" => show(v.reduce_left(|r| g.of(r))),
            "reduce_right" => show(v.reduce_right(|l| f.of(l))),
            "ok" => show(v.ok()),
            "ok_or" => show(v.ok_or($ask.first::<L>())),
            "ok_or_else" => show(v.ok_or_else(|| make.make::<L>())),
            "or" => show(v.or($ask.first(), $ask.last())),
            "or_default" => show(v.or_default()),
            "or_else" => show(v.or_else(|| make.make(), || other.make())),
            "into_left" => show(v.into_left(|r| g.of(r))),
            "into_right" => show(v.into_right(|l| f.of(l))),
            "biinspect" => show(v.biinspect(|l| f.see(l), |r| g.see(r))),
            "inspect_left" => show(v.inspect_left(|l| f.see(l))),
            "inspect_right" => show(v.inspect_right(|r| g.see(r))),
            "biapply" => show(v.biapply(|l| f.see(&l), |r| g.see(&r))),
            "apply_left" => show(v.apply_left(|l| f.see(&l))),
            "apply_right" => show(v.apply_right(|r| g.see(&r))),
            "biapply_with" => {
                let mut acc = 1;
                v.biapply_with(
                    &mut acc,
                    |acc: &mut i32, l| *acc = f.fold(*acc, l),
                    |acc: &mut i32, r| *acc = g.fold(*acc, r),
                );
                show(acc)
            }
            "replace_left" => {
                let held = v.replace_left($ask.first());
                show_left(held, v)
            }
            "replace_right" => {
                let held = v.replace_right($ask.first());
                show_left(held, v)
            }
            "cmp" => compared(v, $ask.other()),
            "print" => printed($ask, v),
            _ => None,
        }
    }};
}

fn of_both<L: Value, R: Value>(ask: &Ask, value: EitherOrBoth<L, R>) -> Said {
    let (f, g) = ask.functions();
    let mut v = value;
    match ask.call {
        "has_left" => show(v.has_left()),
        "has_left_and" => show(v.has_left_and(|l| f.test(l))),
        "has_left_or" => show(v.has_left_or(|r| g.test(r))),
        "has_right" => show(v.has_right()),
        "has_right_and" => show(v.has_right_and(|r| g.test(r))),
        "has_right_or" => show(v.has_right_or(|l| f.test(l))),
        "is_both" => show(v.is_both()),
        "is_both_and" => show(v.is_both_and(|l, r| f.test_two(l, r))),
        "is_both_or" => show(v.is_both_or(|l| f.test(l), |r| g.test(r))),
        "expect_both" => guarded(|| value.expect_both("both")),
        "unwrap_both" => guarded(|| value.unwrap_both()),
        "unwrap_both_unchecked" if v.is_both() => show(unsafe { v.unwrap_both_unchecked() }),
        "expect_only_left" => guarded(|| value.expect_only_left("left")),
        "unwrap_only_left" => guarded(|| value.unwrap_only_left()),
        "unwrap_only_left_unchecked" if v.is_left() => show(unsafe { v.unwrap_only_left_unchecked() }),
        "expect_only_right" => guarded(|| value.expect_only_right("right")),
        "unwrap_only_right" => guarded(|| value.unwrap_only_right()),
        "unwrap_only_right_unchecked" if v.is_right() => show(unsafe { v.unwrap_only_right_unchecked() }),
        "both" => show(v.both()),
        "both_and" => show(v.both_and(ask.other())),
        "both_and_then" => show(v.both_and_then(|l, r| f.place_two(l, r))),
        "left_and" => show(v.left_and(ask.other::<EitherOrBoth<L, R>>())),
        "left_and_then" => show(v.left_and_then(|l| f.place::<L, L, R>(l))),
        "right_and" => show(v.right_and(ask.other::<EitherOrBoth<L, R>>())),
        "right_and_then" => show(v.right_and_then(|r| f.place::<R, L, R>(r))),
        "only_left" => show(v.only_left()),
        "only_right" => show(v.only_right()),
        "unzip" => show(v.unzip()),
        "reduce_map_left" => show(v.reduce_map_left(|l| f.of::<L, L>(l), |r| g.of::<R, L>(r))),
        "reduce_map_right" => show(v.reduce_map_right(|l| f.of::<L, R>(l), |r| g.of::<R, R>(r))),
        "replace_any" => {
            let held = v.replace_any(ask.first(), ask.last());
            show_left(held, v)
        }
        _ => inserted(ask, value).or_else(|| shared!(ask, value)),
    }
}

fn inserted<L: Value, R: Value>(ask: &Ask, mut v: EitherOrBoth<L, R>) -> Said {
    let (make, _) = ask.makers();
    if ask.call.contains("left") {
        let held = double(match ask.call {
            "insert_left" => v.insert_left(ask.first()),
            "left_or_insert" => v.left_or_insert(ask.first()),
            "left_or_insert_default" => v.left_or_insert_default(),
            "left_or_insert_with" => v.left_or_insert_with(|| make.make()),
            _ => return None,
        });
        return show_left(held, v);
    }
    let held = double(match ask.call {
        "insert_right" => v.insert_right(ask.first()),
        "right_or_insert" => v.right_or_insert(ask.first()),
        "right_or_insert_default" => v.right_or_insert_default(),
        "right_or_insert_with" => v.right_or_insert_with(|| make.make()),
        _ => return None,
    });
    show_left(held, v)
}

fn of_numbers(ask: &Ask, v: Both<i32>) -> Said {
    let (f, _) = ask.functions();
    match ask.call {
        "map" => show(v.map(|x| f.of::<i32, i32>(x))),
        "reduce" => show(v.reduce(|x, y| f.of_two(x, y))),
        "inspect" => show(v.inspect(|x| f.see(x))),
        "apply" => show(v.apply(|x| f.see(&x))),
        _ => None,
    }
}

fn of_either<L: Value, R: Value>(ask: &Ask, value: Either<L, R>) -> Said {
    let (f, g) = ask.functions();
    let mut v = value;
    match ask.call {
        "from_ref" => show(Either::from(&v)),
        "from_mut" => {
            let places: Either<&mut L, &mut R> = Either::from(&mut v);
            places.biapply(|l| *l = f.of(*l), |r| *r = g.of(*r));
            show_left((), v)
        }
        "left_and" => show(v.left_and(ask.other::<Either<L, R>>())),
        "left_and_then" => show(v.left_and_then(|l| f.side::<L, L, R>(l))),
        "right_and" => show(v.right_and(ask.other::<Either<L, R>>())),
        "right_and_then" => show(v.right_and_then(|r| f.side::<R, L, R>(r))),
        "bireduce" => show(v.bireduce(|l| f.of::<L, L>(l), |r| g.of::<R, L>(r))),
        "inject_left" => show(v.inject_left(ask.first())),
        "inject_right" => show(v.inject_right(ask.first())),
        _ => shared!(ask, value),
    }
}

fn of_one_number(ask: &Ask, v: One<i32>) -> Said {
    let (f, _) = ask.functions();
    match ask.call {
        "map" => show(v.map(|x| f.of::<i32, i32>(x))),
        "reduce" => show(v.reduce()),
        "reduce_map" => show(v.reduce_map(|x| f.of::<i32, i32>(x))),
        "inspect" => show(v.inspect(|x| f.see(x))),
        "apply" => show(v.apply(|x| f.see(&x))),
        "deref" => show(*v.map(Box::new).deref()),
        "deref_mut" => {
            let mut pointer = v.map(Box::new);
            let held = double(pointer.deref_mut());
            show_left(held, pointer)
        }
        _ => None,
    }
}

fn hash_of(value: &impl Hash) -> u64 {
    let mut hasher = DefaultHasher::new();
    value.hash(&mut hasher);
    hasher.finish()
}

fn compared<T: Ord + Hash>(a: T, b: T) -> Said {
    show((a.cmp(&b), a.partial_cmp(&b), a < b, a == b, hash_of(&a) == hash_of(&b)))
}

fn printed<T: Debug + Display>(ask: &Ask, value: T) -> Said {
    show(match ask.args {
        "" => format!("{value}"),
        ":>5" => format!("{value:>5}"),
        ":*^5" => format!("{value:*^5}"),
        ":+" => format!("{value:+}"),
        ":05" => format!("{value:05}"),
        ":?" => format!("{value:?}"),
        ":#?" => format!("{value:#?}"),
        _ => return None,
    })
}

fn read_json<T: DeserializeOwned + Serialize + Debug>(ask: &Ask) -> Said {
    let read: Option<T> = serde_json::from_str(ask.value).ok();
    show(read.map(|value| {
        let written = serde_json::to_string(&value).expect("text");
        (value, written)
    }))
}

fn transposed<A: Value, B: Value>(ask: &Ask) -> Said {
    let (f, _) = ask.functions();
    if let Some(v) = Both::<(A, B)>::read(ask.value) {
        return match ask.call {
            "transpose" => show(v.transpose()),
            "transpose_left" => show(v.transpose_left(|x, y| f.of_two(x, y))),
            "transpose_right" => show(v.transpose_right(|x, y| f.of_two(x, y))),
            _ => None,
        };
    }
    if let Some(v) = EitherOrBoth::<Option<A>, Option<B>>::read(ask.value) {
        return show(v.transpose());
    }
    if let Some(v) = Both::<Result<A, B>>::read(ask.value) {
        return match ask.call {
            "transpose" => show(v.transpose()),
            "transpose_err" => show(v.transpose_err(|x, y| f.of_two(x, y))),
            "transpose_ok" => show(v.transpose_ok(|x, y| f.of_two(x, y))),
            _ => None,
        };
    }
    if let Some(v) = One::<(A, B)>::read(ask.value) {
        return match ask.call {
            "transpose" => show(v.transpose()),
            "transpose_left" => show(v.transpose_left()),
            "transpose_right" => show(v.transpose_right()),
            _ => None,
        };
    }
    if let Some(v) = Either::<Option<A>, Option<B>>::read(ask.value) {
        return show(v.transpose());
    }
    let v = One::<Result<A, B>>::read(ask.value)?;
    match ask.call {
        "transpose" => show(v.transpose()),
        "transpose_err" => show(v.transpose_err()),
        "transpose_ok" => show(v.transpose_ok()),
        _ => None,
    }
}

fn converted<L: Value, R: Value>(ask: &Ask) -> Said {
    if let Some(v) = Either::<L, R>::read(ask.value) {
        return match ask.call {
            "question" => show(raise(v)),
            _ => show(EitherOrBoth::<L, R>::from(v)),
        };
    }
    if let Some(v) = Result::<R, L>::read(ask.value) {
        return show(Either::<L, R>::from(v));
    }
    if ask.call == "into" {
        if let Some(v) = <(L, R)>::read(ask.value) {
            return show(EitherOrBoth::<L, R>::from(v));
        }
        return match <(Option<L>, R)>::read(ask.value) {
            Some(v) => show(EitherOrBoth::<L, R>::from(v)),
            None => show(EitherOrBoth::<L, R>::from(<(L, Option<R>)>::read(ask.value)?)),
        };
    }
    let v = <(Option<L>, Option<R>)>::read(ask.value)?;
    match (ask.call, places(v)) {
        ("message", Err(refused)) => show(refused.to_string()),
        ("message", Ok(value)) => show(value),
        ("question", converted) => show(converted),
        _ => show(EitherOrBoth::<L, R>::try_from(v)),
    }
}

fn places<L, R>(options: (Option<L>, Option<R>)) -> Result<EitherOrBoth<L, R>, TryFromOptionsError> {
    let value = EitherOrBoth::try_from(options)?;
    Ok(value)
}

fn raise<L, R>(error: Either<L, R>) -> Result<(), EitherOrBoth<L, R>> {
    Err(error)?;
    Ok(())
}

fn rising_set<T: Ord>(set: HashSet<T>) -> BTreeSet<T> {
    set.into_iter().collect()
}

fn rising_map<K: Ord, V>(map: HashMap<K, V>) -> BTreeMap<K, V> {
    map.into_iter().collect()
}

/// The calls on a list of values of either enum. The original has no queues and no ordered containers: theirs are those of the vectors and
/// of the hashed ones.
macro_rules! shapes {
    ($ask:ident, $values:expr, $entries:expr) => {
        match $ask.args {
            "Vec" => show($values.collect::<EitherOrBoth<Vec<L>, Vec<R>>>()),
            "VecDeque" => {
                let pair: EitherOrBoth<Vec<L>, Vec<R>> = $values.collect();
                show(pair.bimap(VecDeque::from, VecDeque::from))
            }
            "IndexSet" => show($values.collect::<EitherOrBoth<IndexSet<L>, IndexSet<R>>>()),
            "HashSet" | "BTreeSet" => {
                let pair: EitherOrBoth<HashSet<L>, HashSet<R>> = $values.collect();
                show(pair.bimap(rising_set, rising_set))
            }
            "IndexMap" => show($entries.collect::<Both<IndexMap<L, R>>>()),
            "HashMap" | "BTreeMap" => {
                let pair: Both<HashMap<L, R>> = $entries.collect();
                show(pair.map(rising_map))
            }
            _ => None,
        }
    };
}

fn collected<L: Value, R: Value>(ask: &Ask) -> Said {
    match ask.value.strip_prefix("Either") {
        Some(list) => shapes!(ask, read_either::<L, R>(list)?, read_either::<(L, R), (L, R)>(list)?),
        None => shapes!(
            ask,
            read_values::<EitherOrBoth<L, R>>(ask.value)?.into_iter(),
            read_values::<Both<(L, R)>>(ask.value)?.into_iter()
        ),
    }
}

fn read_either<L: Held, R: Held>(text: &str) -> Option<std::vec::IntoIter<Either<L, R>>> {
    let values: Option<Vec<Either<L, R>>> = read_values::<EitherOrBoth<L, R>>(text)?
        .into_iter()
        .map(|value| match value {
            EitherOrBoth::Left(l) => Some(Either::Left(l)),
            EitherOrBoth::Right(r) => Some(Either::Right(r)),
            EitherOrBoth::Both(..) => None,
        })
        .collect();
    Some(values?.into_iter())
}
