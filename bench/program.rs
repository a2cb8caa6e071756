//! What `eob_walk` does, as a plain Rust program over std: the same commands, the same buffer, the same writes, the same status.

use std::cmp::Ordering;
use std::io::{self, Read, Write};
use std::process::ExitCode;

enum Item<'a> {
    Left(&'a [u8]),
    Both(&'a [u8], &'a [u8]),
    Right(&'a [u8]),
}

use Item::{Both, Left, Right};

// The left values and the right values of items, in order.
#[derive(Default)]
struct Sides<'a> {
    lefts: Vec<&'a [u8]>,
    rights: Vec<&'a [u8]>,
}

type Entry<'a> = (&'a [u8], &'a [u8]);

fn is_name(bytes: &[u8]) -> bool {
    !bytes.is_empty()
        && bytes
            .iter()
            .all(|byte| byte.is_ascii_lowercase() || byte.is_ascii_digit())
}

fn parse_item(word: &[u8]) -> Option<Item<'_>> {
    match word {
        [b'l', b':', left @ ..] if is_name(left) => Some(Left(left)),
        [b'r', b':', right @ ..] if is_name(right) => Some(Right(right)),
        [b'b', b':', rest @ ..] => {
            let (left, right) = parse_pair(rest, b':')?;
            Some(Both(left, right))
        }
        _ => None,
    }
}

// Two names, parted by a byte.
fn parse_pair(word: &[u8], parting: u8) -> Option<Entry<'_>> {
    let end = word.iter().position(|byte| *byte == parting)?;
    let (first, second) = (&word[..end], &word[end + 1..]);
    (is_name(first) && is_name(second)).then_some((first, second))
}

fn collect<'a>(words: impl Iterator<Item = &'a [u8]>) -> Option<Sides<'a>> {
    let mut sides = Sides::default();
    for word in words {
        match parse_item(word)? {
            Left(left) => sides.lefts.push(left),
            Both(left, right) => {
                sides.lefts.push(left);
                sides.rights.push(right);
            }
            Right(right) => sides.rights.push(right),
        }
    }
    Some(sides)
}

fn is_normal(items: &[Item]) -> bool {
    let boths = items.iter().take_while(|item| matches!(item, Both(..)));
    let rest = &items[boths.count()..];
    rest.iter().all(|item| matches!(item, Left(_)))
        || rest.iter().all(|item| matches!(item, Right(_)))
}

// The entries of a list whose keys rise, up to its last word or to `/`.
fn parse_entries<'a>(words: &mut impl Iterator<Item = &'a [u8]>) -> Option<(Vec<Entry<'a>>, bool)> {
    let mut entries: Vec<Entry> = Vec::new();
    for word in words {
        if word == b"/" {
            return Some((entries, true));
        }
        let entry = parse_pair(word, b'=')?;
        if entries.last().is_some_and(|last| last.0 >= entry.0) {
            return None;
        }
        entries.push(entry);
    }
    Some((entries, false))
}

fn append_words(output: &mut Vec<u8>, words: &[&[u8]]) {
    output.push(b'[');
    for (place, word) in words.iter().enumerate() {
        if place > 0 {
            output.push(b' ');
        }
        output.extend_from_slice(word);
    }
    output.push(b']');
}

fn append_sides(output: &mut Vec<u8>, sides: &Sides) {
    match (sides.lefts.is_empty(), sides.rights.is_empty()) {
        (false, true) => {
            output.extend_from_slice(b"Left ");
            append_words(output, &sides.lefts);
        }
        (true, false) => {
            output.extend_from_slice(b"Right ");
            append_words(output, &sides.rights);
        }
        _ => {
            output.extend_from_slice(b"Both ");
            append_words(output, &sides.lefts);
            output.push(b' ');
            append_words(output, &sides.rights);
        }
    }
}

fn append_item(output: &mut Vec<u8>, item: Item) {
    match item {
        Left(left) => {
            output.extend_from_slice(b"l:");
            output.extend_from_slice(left);
        }
        Both(left, right) => {
            output.extend_from_slice(b"b:");
            output.extend_from_slice(left);
            output.push(b':');
            output.extend_from_slice(right);
        }
        Right(right) => {
            output.extend_from_slice(b"r:");
            output.extend_from_slice(right);
        }
    }
}

// One item of both sides from the front.
fn next<'a>(
    lefts: &mut impl Iterator<Item = &'a [u8]>,
    rights: &mut impl Iterator<Item = &'a [u8]>,
) -> Option<Item<'a>> {
    match (lefts.next(), rights.next()) {
        (Some(left), Some(right)) => Some(Both(left, right)),
        (Some(left), None) => Some(Left(left)),
        (None, Some(right)) => Some(Right(right)),
        (None, None) => None,
    }
}

// One item of both sides from the back.
fn next_back<'a>(
    lefts: &mut (impl DoubleEndedIterator<Item = &'a [u8]> + ExactSizeIterator),
    rights: &mut (impl DoubleEndedIterator<Item = &'a [u8]> + ExactSizeIterator),
) -> Option<Item<'a>> {
    match lefts.len().cmp(&rights.len()) {
        Ordering::Less => rights.next_back().map(Right),
        Ordering::Greater => lefts.next_back().map(Left),
        Ordering::Equal => match (lefts.next_back(), rights.next_back()) {
            (Some(left), Some(right)) => Some(Both(left, right)),
            _ => None,
        },
    }
}

fn append_walk(output: &mut Vec<u8>, sides: Sides) {
    let (mut lefts, mut rights) = (sides.lefts.into_iter(), sides.rights.into_iter());
    let mut any = false;
    while let Some(item) = next(&mut lefts, &mut rights) {
        if any {
            output.push(b' ');
        }
        any = true;
        append_item(output, item);
    }
    if !any {
        output.push(b'-');
    }
}

fn append_ends(output: &mut Vec<u8>, ends: &[u8], sides: Sides) {
    let (mut lefts, mut rights) = (sides.lefts.into_iter(), sides.rights.into_iter());
    for end in ends {
        let answer = match end {
            b'f' => next(&mut lefts, &mut rights),
            _ => next_back(&mut lefts, &mut rights),
        };
        match answer {
            Some(item) => append_item(output, item),
            None => output.push(b'.'),
        }
        output.push(b' ');
    }
    let _ = write!(output, "left {}", lefts.len().max(rights.len()));
}

fn append_join(output: &mut Vec<u8>, lefts: &[Entry], rights: &[Entry]) {
    let (mut lefts, mut rights) = (lefts.iter().peekable(), rights.iter().peekable());
    let mut any = false;
    loop {
        let order = match (lefts.peek(), rights.peek()) {
            (Some(left), Some(right)) => left.0.cmp(right.0),
            (Some(_), None) => Ordering::Less,
            (None, Some(_)) => Ordering::Greater,
            (None, None) => break,
        };
        let left = if order.is_le() { lefts.next() } else { None };
        let right = if order.is_ge() { rights.next() } else { None };
        let (key, item) = match (left, right) {
            (Some(left), Some(right)) => (left.0, Both(left.1, right.1)),
            (Some(left), None) => (left.0, Left(left.1)),
            (None, Some(right)) => (right.0, Right(right.1)),
            (None, None) => break,
        };
        if any {
            output.push(b' ');
        }
        any = true;
        output.extend_from_slice(key);
        output.push(b'=');
        append_item(output, item);
    }
    if !any {
        output.push(b'-');
    }
}

// Appends the answer to a line, or answers None where the line is bad.
fn answer(output: &mut Vec<u8>, line: &[u8]) -> Option<()> {
    let mut words = line
        .split(|byte| *byte == b' ')
        .filter(|word| !word.is_empty());
    match words.next()? {
        b"collect" => append_sides(output, &collect(words)?),
        b"walk" => append_walk(output, collect(words)?),
        b"normal" => {
            let items: Vec<Item> = words.map(parse_item).collect::<Option<_>>()?;
            output.extend_from_slice(if is_normal(&items) { b"yes" } else { b"no" });
        }
        b"ends" => {
            let ends = words.next()?;
            if !ends.iter().all(|end| matches!(end, b'f' | b'b')) {
                return None;
            }
            append_ends(output, ends, collect(words)?);
        }
        b"join" => {
            let (lefts, parted) = parse_entries(&mut words)?;
            let (rights, parted_again) = parse_entries(&mut words)?;
            if !parted || parted_again {
                return None;
            }
            append_join(output, &lefts, &rights);
        }
        _ => return None,
    }
    Some(())
}

#[derive(Default)]
struct Answers {
    unwritten: Vec<u8>,
    lines: u64,
    any_bad: bool,
}

impl Answers {
    fn add(&mut self, line: &[u8]) {
        self.lines = self.lines.saturating_add(1);
        if answer(&mut self.unwritten, line).is_none() {
            self.any_bad = true;
            let _ = write!(self.unwritten, "line {}: bad", self.lines);
        }
        self.unwritten.push(b'\n');
    }
}

fn run(reader: &mut impl Read, writer: &mut impl Write) -> io::Result<bool> {
    let mut buffer = vec![0; 65536];
    let mut unfinished = Vec::new();
    let mut answers = Answers::default();
    loop {
        let count = reader.read(&mut buffer)?;
        if count == 0 {
            break;
        }
        let bytes = &buffer[..count];
        let Some(last_end) = bytes.iter().rposition(|byte| *byte == b'\n') else {
            unfinished.extend_from_slice(bytes);
            continue;
        };
        for line in bytes[..last_end].split(|byte| *byte == b'\n') {
            if unfinished.is_empty() {
                answers.add(line);
            } else {
                unfinished.extend_from_slice(line);
                answers.add(&unfinished);
                unfinished.clear();
            }
        }
        unfinished.extend_from_slice(&bytes[last_end + 1..]);
        writer.write_all(&answers.unwritten)?;
        answers.unwritten.clear();
    }
    if !unfinished.is_empty() {
        answers.add(&unfinished);
    }
    writer.write_all(&answers.unwritten)?;
    writer.flush()?;
    Ok(answers.any_bad)
}

fn main() -> ExitCode {
    match run(&mut io::stdin().lock(), &mut io::stdout().lock()) {
        Ok(false) => ExitCode::SUCCESS,
        Ok(true) => ExitCode::from(2),
        Err(_) => ExitCode::from(4),
    }
}
