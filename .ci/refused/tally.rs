//! How many runs ended in which way.
use super::outcome::Outcome;
use std::alloc::AllocError;
use std::io;

/// The status where a run ended before it was done.
pub const UNDONE: u8 = 3;

/// How many runs ended in which way.
#[derive(Drop)]
pub struct Tally {
    whole: u64,
    error_lost: u64,
    refused: u64,
    undone: u64,
    wrong: u64,
}

impl Tally {
    /// No run yet.
    pub fn new() -> Tally {
        Tally {
            whole: 0,
            error_lost: 0,
            refused: 0,
            undone: 0,
            wrong: 0,
        }
    }

    /// Notes how a run ended, or that it found no memory for what it is made of. A wrong end is said on standard error.
    pub fn note(
        &mut self,
        rt: &HostRuntime,
        run: &str,
        outcome: Result<Outcome, AllocError>,
    ) -> io::Result<()> {
        self.count(outcome);
        if matches!(outcome, Ok(Outcome::Wrong)) {
            eprintln!(rt; "wrong: {run}")?;
        }
        Ok(())
    }

    // Counts a run.
    fn count(&mut self, outcome: Result<Outcome, AllocError>) {
        match outcome {
            Ok(Outcome::Whole) => self.whole = self.whole.saturating_add(1),
            Ok(Outcome::ErrorLost) => self.error_lost = self.error_lost.saturating_add(1),
            Ok(Outcome::Refused) => self.refused = self.refused.saturating_add(1),
            Ok(Outcome::Wrong) => self.wrong = self.wrong.saturating_add(1),
            Err(_) => self.undone = self.undone.saturating_add(1),
        }
    }

    /// Prints how many there were of each.
    pub fn print(&self, rt: &HostRuntime) -> io::Result<()> {
        let Tally {
            whole,
            error_lost,
            refused,
            undone,
            wrong,
        } = self;
        println!(rt;
            "{whole} whole, {error_lost} without an error's text, {refused} refused, {undone} undone, {wrong} wrong"
        )
    }

    /// The status that the program ends with.
    pub fn status(&self) -> u8 {
        if self.wrong > 0 {
            return 1;
        }
        if self.undone > 0 { UNDONE } else { 0 }
    }
}
