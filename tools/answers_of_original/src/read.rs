//! Values of both enums, read from text as `Both(1, 2)`, `Left(1u8)` and `Either::Right('c')`.

use either_or_both::{Either, EitherOrBoth};
use std::fmt::{Debug, Display};
use std::hash::Hash;

pub type Both<T> = EitherOrBoth<T, T>;
pub type One<T> = Either<T, T>;

/// What is read from text: a value, an option, a result, a pair or a list of such.
pub trait Held: Sized {
    /// None where the text is another thing.
    fn read(text: &str) -> Option<Self>;
}

/// What a place holds in most lines: a number or a letter.
pub trait Value: Held + Copy + Default + Ord + Hash + Debug + Display {
    /// The number that it is, or the place of the letter in the alphabet.
    fn code(self) -> i32;
    /// The value with this code, modulo how many there are.
    fn of_code(code: i32) -> Self;
}

impl Held for i32 {
    fn read(text: &str) -> Option<Self> {
        text.parse().ok()
    }
}

impl Value for i32 {
    fn code(self) -> i32 {
        self
    }
    fn of_code(code: i32) -> Self {
        code
    }
}

impl Held for u8 {
    fn read(text: &str) -> Option<Self> {
        text.strip_suffix("u8")?.parse().ok()
    }
}

impl Value for u8 {
    fn code(self) -> i32 {
        self.into()
    }
    fn of_code(code: i32) -> Self {
        code.rem_euclid(256) as u8
    }
}

impl Held for char {
    fn read(text: &str) -> Option<Self> {
        between(text, "'", "'")?.parse().ok()
    }
}

impl Value for char {
    fn code(self) -> i32 {
        self as i32 - 'a' as i32
    }
    fn of_code(code: i32) -> Self {
        (b'a' + code.rem_euclid(26) as u8) as char
    }
}

impl<T: Held> Held for Option<T> {
    fn read(text: &str) -> Option<Self> {
        if text == "None" {
            return Some(None);
        }
        Some(Some(T::read(between(text, "Some(", ")")?)?))
    }
}

impl<T: Held, E: Held> Held for Result<T, E> {
    fn read(text: &str) -> Option<Self> {
        match between(text, "Ok(", ")") {
            Some(inner) => Some(Ok(T::read(inner)?)),
            None => Some(Err(E::read(between(text, "Err(", ")")?)?)),
        }
    }
}

impl<A: Held, B: Held> Held for (A, B) {
    fn read(text: &str) -> Option<Self> {
        let (a, b) = between(text, "(", ")")?.split_once(',')?;
        Some((A::read(a)?, B::read(b)?))
    }
}

impl<T: Held> Held for Vec<T> {
    fn read(text: &str) -> Option<Self> {
        read_list(between(text, "[", "]")?, ",")
    }
}

impl<L: Held, R: Held> Held for EitherOrBoth<L, R> {
    fn read(text: &str) -> Option<Self> {
        if let Some(inner) = between(text, "Left(", ")") {
            return Some(EitherOrBoth::Left(L::read(inner)?));
        }
        if let Some(inner) = between(text, "Right(", ")") {
            return Some(EitherOrBoth::Right(R::read(inner)?));
        }
        let (l, r) = between(text, "Both(", ")")?.split_once(", ")?;
        Some(EitherOrBoth::Both(L::read(l)?, R::read(r)?))
    }
}

impl<L: Held, R: Held> Held for Either<L, R> {
    fn read(text: &str) -> Option<Self> {
        match between(text, "Either::Left(", ")") {
            Some(inner) => Some(Either::Left(L::read(inner)?)),
            None => Some(Either::Right(R::read(between(text, "Either::Right(", ")")?)?)),
        }
    }
}

fn between<'a>(text: &'a str, before: &str, after: &str) -> Option<&'a str> {
    text.strip_prefix(before)?.strip_suffix(after)
}

fn read_list<T: Held>(text: &str, between: &str) -> Option<Vec<T>> {
    if text.is_empty() {
        return Some(Vec::new());
    }
    text.split(between).map(T::read).collect()
}

/// A list of values, as `[Left(1); Both(2, 3)]`.
pub fn read_values<T: Held>(text: &str) -> Option<Vec<T>> {
    read_list(between(text, "[", "]")?, "; ")
}
