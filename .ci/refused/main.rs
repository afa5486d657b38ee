//! Lists of tokens, texts, calls of a serializer and commands, each run once, where one request for memory may be refused by what
//! runs this program. Standard input says for how many requests it asks first, which nothing is done with: so the refused one is
//! any of the runs'.
//!
//! Each run has to end as where nothing is refused, or in `Memory`, and then `Failed` from each later call. A request for what a run
//! is made of, for a new value, or for what the outcome is compared by, may be refused, too: that run ends there. How many runs
//! ended in which way is printed. The status is 1 where one ended otherwise, 3 where one ended before it was done, and else 0.
#![tactic(auto)]

mod building;
mod calls;
mod commands;
mod outcome;
mod parsing;
mod reading;
mod root;
mod tally;

use std::alloc::{AllocError, Global};
use std::io;
use std::process::ExitCode;
use tally::Tally;

// Asks for memory so many times, and gives it back.
fn ask(alloc: Global, count: usize) -> Result<(), AllocError> {
    for _ in 0..count {
        let text = String::from_str(alloc, "x")?;
        drop(text);
    }
    Ok(())
}

// For how many requests standard input asks.
fn count_of(rt: &HostRuntime) -> anyhow::Result<usize> {
    let text = io::read_to_string(rt.alloc(), rt.reader())?;
    let count = text.as_str().trim_ascii().parse()?;
    Ok(count)
}

// Makes all runs, after so many requests.
fn run_all(rt: &HostRuntime, tally: &mut Tally) -> anyhow::Result<()> {
    let count = count_of(rt)?;
    let input = building::Input::new(rt.alloc())?;
    ask(rt.alloc(), count)?;
    building::run_all(rt, tally, input)?;
    parsing::run_all(rt, tally)?;
    reading::run_all(rt, tally)?;
    calls::run_all(rt, tally)?;
    commands::run_all(rt, tally)?;
    root::run_all(rt, tally)?;
    Ok(())
}

fn main(rt: HostRuntime) -> ExitCode {
    let mut tally = Tally::new();
    if run_all(&rt, &mut tally).is_err() || tally.print(&rt).is_err() {
        return ExitCode::from(tally::UNDONE);
    }
    ExitCode::from(tally.status())
}
