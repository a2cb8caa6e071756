//! What the iterators of the original crate answer, where their ends are called in the order that a line says.

use crate::answers::{Ask, Reply};
use crate::functions::double;
use crate::read::{Both, Held, One, Value};
use either_or_both::{Either, EitherOrBoth};
use std::collections::VecDeque;
use std::fmt::Debug;

/// The answer to a line, if its call makes an iterator.
pub fn reply(ask: &Ask) -> Option<Reply> {
    if ask.call.contains("swap") {
        return paired::<i32, i32>(ask).or_else(|| paired::<u8, char>(ask));
    }
    let answer = match ask.call {
        "into_iter_chain" | "iter_chain" | "iter_chain_mut" => chained(ask, Both::<Vec<i32>>::read(ask.value)?),
        "into_iter_inner" | "iter_inner" | "iter_inner_mut" => inner(ask, One::<Vec<i32>>::read(ask.value)?),
        "into_iter" | "iter" | "iter_mut" => match Both::<i32>::read(ask.value) {
            Some(value) => of_both(ask, value),
            None => of_either(ask, One::<i32>::read(ask.value)?),
        },
        _ => return None,
    };
    Some(Reply { answer, original: None })
}

fn ends<'a>(ask: &Ask<'a>) -> impl Iterator<Item = &'a str> {
    ask.args.split(' ').filter(|end| !end.is_empty())
}

fn drive<I: DoubleEndedIterator>(ask: &Ask, it: &mut I) -> Vec<Option<I::Item>> {
    ends(ask).map(|end| if end == "back" { it.next_back() } else { it.next() }).collect()
}

fn show<I: DoubleEndedIterator + Clone>(ask: &Ask, mut it: I) -> String
where
    I::Item: Debug,
{
    let answers = drive(ask, &mut it);
    let rest: Vec<I::Item> = it.clone().collect();
    format!("{:?}", (answers, it.size_hint(), rest))
}

fn show_exact<I: DoubleEndedIterator + ExactSizeIterator + Clone>(ask: &Ask, mut it: I) -> String
where
    I::Item: Debug,
{
    let answers = drive(ask, &mut it);
    let rest: Vec<I::Item> = it.clone().collect();
    format!("{:?}", (answers, it.len(), it.size_hint(), rest))
}

fn write<I: DoubleEndedIterator, H>(ask: &Ask, mut it: I, held: impl Fn(I::Item) -> H) -> Vec<Option<H>> {
    drive(ask, &mut it).into_iter().map(|item| item.map(&held)).collect()
}

fn of_both(ask: &Ask, mut value: Both<i32>) -> String {
    match ask.call {
        "into_iter" => show_exact(ask, value.into_iter()),
        "iter" => show_exact(ask, value.iter()),
        _ => {
            let written = write(ask, value.iter_mut(), double);
            format!("{written:?} leaves {value:?}")
        }
    }
}

fn of_either(ask: &Ask, mut value: One<i32>) -> String {
    match ask.call {
        "into_iter" => show_exact(ask, value.into_iter()),
        "iter" => show_exact(ask, value.iter()),
        _ => {
            let written = write(ask, value.iter_mut(), double);
            format!("{written:?} leaves {value:?}")
        }
    }
}

fn chained(ask: &Ask, mut lists: Both<Vec<i32>>) -> String {
    match ask.call {
        "into_iter_chain" => show(ask, lists.into_iter_chain()),
        "iter_chain" => show(ask, lists.iter_chain()),
        _ => {
            let written = write(ask, lists.iter_chain_mut(), double);
            format!("{written:?} leaves {lists:?}")
        }
    }
}

fn inner(ask: &Ask, mut list: One<Vec<i32>>) -> String {
    match ask.call {
        "into_iter_inner" => show_exact(ask, list.into_iter_inner()),
        "iter_inner" => show_exact(ask, list.iter_inner()),
        _ => {
            let written = write(ask, list.iter_inner_mut(), double);
            format!("{written:?} leaves {list:?}")
        }
    }
}

fn paired<L: Value, R: Value>(ask: &Ask) -> Option<Reply> {
    let Some(lists) = EitherOrBoth::<Vec<L>, Vec<R>>::read(ask.value) else {
        let answer = held(ask, Either::<Vec<L>, Vec<R>>::read(ask.value)?);
        return Some(Reply { answer, original: None });
    };
    let answer = by_the_rule(ask, lists.clone());
    let came = side_by_side(ask, lists);
    let original = (came != answer).then_some(came);
    Some(Reply { answer, original })
}

fn held<L: Value, R: Value>(ask: &Ask, mut list: Either<Vec<L>, Vec<R>>) -> String {
    match ask.call {
        "into_iter_swap" => show_exact(ask, list.into_iter_swap()),
        "iter_swap" => show_exact(ask, list.iter_swap()),
        _ => {
            let written = write(ask, list.iter_swap_mut(), |item| item.bimap(double, double));
            format!("{written:?} leaves {list:?}")
        }
    }
}

fn side_by_side<L: Value, R: Value>(ask: &Ask, mut lists: EitherOrBoth<Vec<L>, Vec<R>>) -> String {
    match ask.call {
        "into_iter_swap" => show_exact(ask, lists.into_iter_swap()),
        "iter_swap" => show_exact(ask, lists.iter_swap()),
        _ => {
            let written = write(ask, lists.iter_swap_mut(), |item| item.bimap(double, double));
            format!("{written:?} leaves {lists:?}")
        }
    }
}

/// The rule of the paired iterator: both ends work on the one list of what is at each place of either side.
fn by_the_rule<L: Value, R: Value>(ask: &Ask, mut lists: EitherOrBoth<Vec<L>, Vec<R>>) -> String {
    let (l, r) = lists.clone().or_default();
    let item = |at: usize| EitherOrBoth::try_from((l.get(at).copied(), r.get(at).copied())).expect("an item");
    let mut rest: VecDeque<usize> = (0..l.len().max(r.len())).collect();
    let places: Vec<Option<usize>> =
        ends(ask).map(|end| if end == "back" { rest.pop_back() } else { rest.pop_front() }).collect();
    let answers: Vec<Option<EitherOrBoth<L, R>>> = places.iter().map(|at| at.map(item)).collect();
    if ask.call != "iter_swap_mut" {
        let count = rest.len();
        let rest: Vec<EitherOrBoth<L, R>> = rest.into_iter().map(item).collect();
        return format!("{:?}", (answers, count, (count, Some(count)), rest));
    }
    for at in places.into_iter().flatten() {
        lists.as_mut().biapply(
            |l| l.get_mut(at).into_iter().for_each(|l| { double(l); }),
            |r| r.get_mut(at).into_iter().for_each(|r| { double(r); }),
        );
    }
    format!("{answers:?} leaves {lists:?}")
}
