//! What `keyed` does, by hand in plain Rust over the crate `csv`: rows are held in a `HashMap` under the cell of their first column, the
//! last table passes by, and rows come out as they pass. The columns of all tables are the same.

use csv::{ByteRecord, Reader, ReaderBuilder, Writer, WriterBuilder};
use std::collections::HashMap;
use std::error::Error;
use std::fs::File;
use std::io::{self, StdoutLock};
use std::iter;
use std::process::ExitCode;

type Outcome<T> = Result<T, Box<dyn Error>>;
type Table = HashMap<Vec<u8>, ByteRecord>;
type Output = Writer<StdoutLock<'static>>;

fn open(path: &str) -> Outcome<Reader<File>> {
    Ok(ReaderBuilder::new().from_path(path)?)
}

// The rows of a table by key, and its header.
fn read(path: &str) -> Outcome<(ByteRecord, Table)> {
    let mut reader = open(path)?;
    let header = reader.byte_headers()?.clone();
    let mut table = Table::new();
    for row in reader.into_byte_records() {
        let row = row?;
        if table.insert(row[0].to_vec(), row).is_some() {
            return Err("a key stands twice".into());
        }
    }
    Ok((header, table))
}

// Calls `each` for each row of a table.
fn pass(path: &str, mut each: impl FnMut(&ByteRecord) -> Outcome<()>) -> Outcome<()> {
    let mut reader = open(path)?;
    let mut row = ByteRecord::new();
    while reader.read_byte_record(&mut row)? {
        each(&row)?;
    }
    Ok(())
}

fn put_signed(output: &mut Output, sign: &[u8], row: &ByteRecord) -> csv::Result<()> {
    output.write_record(iter::once(sign).chain(row))
}

fn diff(output: &mut Output, old: &str, new: &str) -> Outcome<()> {
    let (header, mut old) = read(old)?;
    put_signed(output, b"change", &header)?;
    pass(new, |row| {
        let before = old.remove(&row[0]);
        if before.as_ref() != Some(row) {
            if let Some(before) = &before {
                put_signed(output, b"-", before)?;
            }
            put_signed(output, b"+", row)?;
        }
        Ok(())
    })?;
    for row in old.values() {
        put_signed(output, b"-", row)?;
    }
    Ok(())
}

fn put_joined(
    output: &mut Output,
    side: Option<&[u8]>,
    key: &[u8],
    left: Option<&ByteRecord>,
    right: Option<&ByteRecord>,
    width: usize,
) -> csv::Result<()> {
    if let Some(side) = side {
        output.write_field(side)?;
    }
    output.write_field(key)?;
    for row in [left, right] {
        for at in 1..width {
            output.write_field(row.map_or(&b""[..], |row| &row[at]))?;
        }
    }
    output.write_record(None::<&[u8]>)
}

// The header of a join of two tables whose columns are the same.
fn put_heading(output: &mut Output, side: Option<&[u8]>, header: &ByteRecord) -> csv::Result<()> {
    if let Some(side) = side {
        output.write_field(side)?;
    }
    output.write_field(&header[0])?;
    for word in [&b"left."[..], b"right."] {
        for name in header.iter().skip(1) {
            output.write_field([word, name].concat())?;
        }
    }
    output.write_record(None::<&[u8]>)
}

fn outer(output: &mut Output, left: &str, right: &str) -> Outcome<()> {
    let (header, mut left) = read(left)?;
    let width = header.len();
    put_heading(output, Some(b"side"), &header)?;
    pass(right, |row| {
        let other = left.remove(&row[0]);
        let side: &[u8] = if other.is_some() { b"both" } else { b"right" };
        Ok(put_joined(output, Some(side), &row[0], other.as_ref(), Some(row), width)?)
    })?;
    for row in left.values() {
        put_joined(output, Some(b"left"), &row[0], Some(row), None, width)?;
    }
    Ok(())
}

fn inner(output: &mut Output, left: &str, right: &str) -> Outcome<()> {
    let (header, left) = read(left)?;
    put_heading(output, None, &header)?;
    pass(right, |row| {
        if let Some(other) = left.get(&row[0]) {
            put_joined(output, None, &row[0], Some(other), Some(row), header.len())?;
        }
        Ok(())
    })
}

// Each row of a table in its order, with the row of another that has its key: the other one is held.
fn lookup(output: &mut Output, left: &str, right: &str) -> Outcome<()> {
    let (header, right) = read(right)?;
    let none = ByteRecord::from(vec![""; header.len()]);
    let mut reader = open(left)?;
    output.write_record(reader.byte_headers()?.iter().chain(header.iter().skip(1)))?;
    let mut row = ByteRecord::new();
    while reader.read_byte_record(&mut row)? {
        let found = right.get(&row[0]).unwrap_or(&none);
        output.write_record(row.iter().chain(found.iter().skip(1)))?;
    }
    Ok(())
}

// The changes as `diff` writes them, made to a table.
fn apply(output: &mut Output, old: &str, changes: &str) -> Outcome<()> {
    let (header, mut table) = read(old)?;
    pass(changes, |row| {
        let cells: ByteRecord = row.iter().skip(1).collect();
        if &row[0] == b"+" {
            table.insert(cells[0].to_vec(), cells);
        } else if table.remove(&cells[0]).as_ref() != Some(&cells) {
            return Err("a change does not fit".into());
        }
        Ok(())
    })?;
    output.write_byte_record(&header)?;
    for row in table.values() {
        output.write_byte_record(row)?;
    }
    Ok(())
}

// A row as the side has it that alone changed it.
fn merge_row<'a>(
    base: Option<&ByteRecord>,
    ours: Option<&'a ByteRecord>,
    theirs: Option<&'a ByteRecord>,
) -> Outcome<Option<&'a ByteRecord>> {
    if ours == theirs || base == theirs {
        Ok(ours)
    } else if base == ours {
        Ok(theirs)
    } else {
        Err("both sides changed a row".into())
    }
}

fn merge(output: &mut Output, base: &str, ours: &str, theirs: &str) -> Outcome<()> {
    let (header, base) = read(base)?;
    let (_, mut ours) = read(ours)?;
    output.write_byte_record(&header)?;
    pass(theirs, |row| {
        let other = ours.remove(&row[0]);
        if let Some(row) = merge_row(base.get(&row[0]), other.as_ref(), Some(row))? {
            output.write_byte_record(row)?;
        }
        Ok(())
    })?;
    for (key, row) in &ours {
        if let Some(row) = merge_row(base.get(key), Some(row), None)? {
            output.write_byte_record(row)?;
        }
    }
    Ok(())
}

fn run(words: &[&str]) -> Outcome<()> {
    let mut output = WriterBuilder::new().from_writer(io::stdout().lock());
    match *words {
        ["diff", old, new] => diff(&mut output, old, new)?,
        ["outer", left, right] => outer(&mut output, left, right)?,
        ["inner", left, right] => inner(&mut output, left, right)?,
        ["lookup", left, right] => lookup(&mut output, left, right)?,
        ["apply", old, changes] => apply(&mut output, old, changes)?,
        ["merge", base, ours, theirs] => merge(&mut output, base, ours, theirs)?,
        _ => return Err("by_hand diff|outer|inner|lookup|apply|merge FILE..".into()),
    }
    output.flush()?;
    Ok(())
}

fn main() -> ExitCode {
    let words: Vec<String> = std::env::args().skip(1).collect();
    let words: Vec<&str> = words.iter().map(String::as_str).collect();
    match run(&words) {
        Ok(()) => ExitCode::SUCCESS,
        Err(error) => {
            eprintln!("{error}");
            ExitCode::from(2)
        }
    }
}
