//! The functions that a line can name, each of which records its calls.

use crate::read::Value;
use either_or_both::{Either, EitherOrBoth};
use std::cell::RefCell;
use std::fmt::Debug;

thread_local! { static CALLS: RefCell<Vec<String>> = const { RefCell::new(Vec::new()) }; }

/// The calls so far, as the text `next(3) negate(4)`, which are forgotten.
pub fn take_calls() -> String {
    CALLS.with(|calls| calls.take().join(" "))
}

/// A function by its name, or a number, which is a function of nothing.
#[derive(Clone, Copy)]
pub struct Function<'a>(pub &'a str);

impl Function<'_> {
    fn note(self, values: &[&dyn Debug]) {
        let values: Vec<String> = values.iter().map(|value| format!("{value:?}")).collect();
        let call = format!("{}({})", self.0, values.join(", "));
        CALLS.with(|calls| calls.borrow_mut().push(call));
    }

    pub fn make<T: Value>(self) -> T {
        self.note(&[]);
        T::read(self.0).expect("a value")
    }

    pub fn see<T: Value>(self, x: &T) {
        self.note(&[x]);
    }

    pub fn of<A: Value, B: Value>(self, x: A) -> B {
        self.note(&[&x]);
        B::of_code(self.step(x.code()))
    }

    fn step(self, code: i32) -> i32 {
        match self.0 {
            "next" => code.wrapping_add(1),
            "double" => code.wrapping_mul(2),
            "negate" => code.wrapping_neg(),
            "same" => code,
            name => panic!("{name}"),
        }
    }

    pub fn of_two<T: Value>(self, x: T, y: T) -> T {
        self.note(&[&x, &y]);
        T::of_code(match self.0 {
            "sum" => x.code().wrapping_add(y.code()),
            "difference" => x.code().wrapping_sub(y.code()),
            "max" => x.code().max(y.code()),
            "first" => x.code(),
            name => panic!("{name}"),
        })
    }

    pub fn fold<T: Value>(self, acc: i32, x: T) -> i32 {
        self.note(&[&acc, &x]);
        acc.wrapping_mul(10).wrapping_add(self.step(x.code()))
    }

    pub fn test<T: Value>(self, x: T) -> bool {
        self.note(&[&x]);
        match self.0 {
            "even" => x.code() % 2 == 0,
            "positive" => x.code() > 0,
            "always" => true,
            "never" => false,
            name => panic!("{name}"),
        }
    }

    pub fn test_two<L: Value, R: Value>(self, x: L, y: R) -> bool {
        self.note(&[&x, &y]);
        match self.0 {
            "equal" => x.code() == y.code(),
            "less" => x.code() < y.code(),
            "never" => false,
            name => panic!("{name}"),
        }
    }

    pub fn place<T: Value, L: Value, R: Value>(self, x: T) -> EitherOrBoth<L, R> {
        self.note(&[&x]);
        self.placed(x.code(), x.code().wrapping_add(1))
    }

    pub fn place_two<L: Value, R: Value>(self, x: L, y: R) -> EitherOrBoth<L, R> {
        self.note(&[&x, &y]);
        self.placed(x.code(), y.code())
    }

    fn placed<L: Value, R: Value>(self, left: i32, right: i32) -> EitherOrBoth<L, R> {
        match self.0 {
            "left" => EitherOrBoth::Left(L::of_code(left)),
            "both" => EitherOrBoth::Both(L::of_code(left), R::of_code(right)),
            "right" => EitherOrBoth::Right(R::of_code(right)),
            name => panic!("{name}"),
        }
    }

    pub fn side<T: Value, L: Value, R: Value>(self, x: T) -> Either<L, R> {
        self.note(&[&x]);
        match self.0 {
            "left" => Either::Left(L::of_code(x.code())),
            "right" => Either::Right(R::of_code(x.code())),
            name => panic!("{name}"),
        }
    }
}

/// What a place holds, which then holds twice that.
pub fn double<T: Value>(place: &mut T) -> T {
    let held = *place;
    *place = T::of_code(held.code().wrapping_mul(2));
    held
}

