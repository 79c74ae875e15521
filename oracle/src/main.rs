//! The oracle: answers to cases, and cases to answer.

mod answers;
mod cases;
mod dates;
mod expressions;
mod gs;
mod index;
mod lines;
mod numbers;
mod random;
mod reader;
mod refusal;
mod tokens;
mod variables;

use cases::{operation, Operation, OPERATIONS};
use lines::Case;
use std::io::{self, BufRead, BufWriter, Write};
use std::process::ExitCode;

const USAGE: &str = "usage: oracle answer < CASES
       oracle cases SEED COUNT [OP ..]
       oracle calendar
OP is one of: conv read table look trans eval date index ilook flook itrans (none named: all)
itrans gives translations through an index
calendar gives the cases of every day that a time falls on";

fn main() -> ExitCode {
    let arguments: Vec<String> = std::env::args().skip(1).collect();
    let arguments: Vec<&str> = arguments.iter().map(String::as_str).collect();
    let done = match arguments[..] {
        ["answer"] => answer_all(),
        ["cases", seed, count, ref names @ ..] => {
            match numbers_and_operations(seed, count, names) {
                Some((seed, count, operations)) => {
                    write_cases(cases::cases(seed, count, &operations))
                }
                None => return wrong_usage(),
            }
        }
        ["calendar"] => write_cases(cases::calendar()),
        _ => return wrong_usage(),
    };
    match done {
        Ok(()) => ExitCode::SUCCESS,
        Err(error) => {
            eprintln!("oracle: {error}");
            ExitCode::FAILURE
        }
    }
}

fn wrong_usage() -> ExitCode {
    eprintln!("{USAGE}");
    ExitCode::from(2)
}

fn numbers_and_operations(
    seed: &str,
    count: &str,
    names: &[&str],
) -> Option<(u64, usize, Vec<Operation>)> {
    let named: Option<Vec<Operation>> = names.iter().map(|name| operation(name)).collect();
    let operations = match named? {
        none if none.is_empty() => OPERATIONS.to_vec(),
        some => some,
    };
    Some((seed.parse().ok()?, count.parse().ok()?, operations))
}

fn write_cases(cases: impl Iterator<Item = Case>) -> io::Result<()> {
    let mut out = BufWriter::new(io::stdout().lock());
    for case in cases {
        writeln!(out, "{case}")?;
    }
    out.flush()
}

/// Answers the cases of the standard input line by line, up to the first malformed one.
fn answer_all() -> io::Result<()> {
    let mut out = BufWriter::new(io::stdout().lock());
    for (index, line) in io::stdin().lock().split(b'\n').enumerate() {
        let malformed = |error| io::Error::other(format!("line {}: {error}", index + 1));
        let answer = answer_line(&line?).map_err(malformed)?;
        writeln!(out, "{answer}")?;
    }
    out.flush()
}

fn answer_line(line: &[u8]) -> Result<String, String> {
    let line = std::str::from_utf8(line).map_err(|error| error.to_string())?;
    Ok(answers::answer(&lines::parse(line)?))
}
