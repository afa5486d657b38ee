//! Commands of the program `h5`.
use super::outcome::Outcome;
use super::parsing::{PAGE, PAGE_HTML};
use super::tally::Tally;
use std::alloc::{AllocError, Global};
use std::io;

/// The words of a command, its input, and what it prints.
#[derive(Clone, Copy)]
struct Row {
    words: &'static [&'static str],
    input: &'static str,
    output: &'static str,
}

const ROWS: [Row; 3] = [
    Row {
        words: &["tokens"],
        input: "D html\nS html\nS head\nE head\nS body\nE body\nE html\nZ\n",
        output: "<!DOCTYPE html>\n<html>\n  <head>\n  <body>\nquirks: NoQuirks\n",
    },
    Row {
        words: &["html"],
        input: PAGE,
        output: PAGE_HTML,
    },
    Row {
        words: &["tree", "tr"],
        input: "<td>1",
        output: "<html>\n  <td>\n    \"1\"\nquirks: NoQuirks\n",
    },
];

fn words_of(alloc: Global, words: &[&str]) -> Result<Vec<String>, AllocError> {
    let mut list = Vec::new(alloc);
    for word in words {
        list.push(String::from_str(alloc, word)?)?;
    }
    Ok(list)
}

// The outcome of a command that ended with this status, and printed this on standard output and standard error.
fn outcome_of(status: u8, out: &[u8], faults: &[u8], output: &str) -> Outcome {
    let memory = "h5: out of memory\n";
    if status == 1 {
        return Outcome::Refused.where_holds(out.is_empty() && faults == memory.as_bytes());
    }
    Outcome::Whole.where_holds(status == 0 && out == output.as_bytes() && faults.is_empty())
}

// Runs a command. There is room for what it prints.
fn run(alloc: Global, row: &Row) -> Result<Outcome, AllocError> {
    let words = words_of(alloc, row.words)?;
    let mut out: Vec<u8> = Vec::with_capacity(alloc, 1_000)?;
    let mut faults: Vec<u8> = Vec::with_capacity(alloc, 100)?;
    let input = row.input.as_bytes();
    let status = h5_commands::run(alloc, words.as_slice(), input, &mut out, &mut faults);
    Ok(outcome_of(status, out.as_slice(), faults.as_slice(), row.output))
}

/// Runs each command.
pub fn run_all(rt: &HostRuntime, tally: &mut Tally) -> io::Result<()> {
    for row in &ROWS {
        tally.note(rt, row.input, run(rt.alloc(), row))?;
    }
    Ok(())
}
