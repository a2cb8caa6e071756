//! Lines of calls, and what the original crate answers at them.
//!
//!     answers_of_original lines SEED COUNT    prints random lines, by families
//!     answers_of_original answers             answers the lines of the standard input

mod answers;
mod functions;
mod lines;
mod read;
mod walks;

use std::io::{self, BufRead, BufWriter, Write};

/// The heading of the lines at which the rule wants another answer than the original gives.
const APART: &str = "Calls of the back over two lists of unequal lengths: the answer of the rule, where the original gives another";

fn main() -> io::Result<()> {
    std::panic::set_hook(Box::new(|_| {}));
    let words: Vec<String> = std::env::args().skip(1).collect();
    match words.iter().map(String::as_str).collect::<Vec<_>>()[..] {
        ["lines", seed, count] => match (seed.parse(), count.parse()) {
            (Ok(seed), Ok(count)) => print_lines(seed, count),
            _ => Err(io::Error::other("a seed and a count are numbers")),
        },
        ["answers"] => print_answers(),
        _ => Err(io::Error::other("lines SEED COUNT, or answers")),
    }
}

fn print_lines(seed: u64, count: usize) -> io::Result<()> {
    let mut output = BufWriter::new(io::stdout().lock());
    writeln!(output, "# {count} calls from seed {seed}: tools/answers --write {seed} {count}")?;
    let mut apart = Vec::new();
    for (heading, lines) in lines::families(seed, count) {
        writeln!(output, "\n# {heading}")?;
        for line in lines {
            match answers::reply(&line).and_then(|reply| reply.original) {
                Some(_) => apart.push(line),
                None => writeln!(output, "{line}")?,
            }
        }
    }
    writeln!(output, "\n# {APART}")?;
    for line in apart {
        writeln!(output, "{line}")?;
    }
    output.flush()
}

fn print_answers() -> io::Result<()> {
    let mut output = BufWriter::new(io::stdout().lock());
    for line in io::stdin().lock().lines() {
        let line = line?;
        if line.is_empty() || line.starts_with('#') {
            writeln!(output, "{line}")?;
            continue;
        }
        let answer = answers::reply(&line).map_or("?".into(), |reply| reply.answer);
        writeln!(output, "{line} = {answer}")?;
    }
    output.flush()
}
