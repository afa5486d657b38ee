//! A reader over a builder.
use super::building::{Builder, ends_once, new_builder, outcome_of};
use super::outcome::{Outcome, bare};
use super::parsing::{PAGE, PAGE_HTML};
use super::tally::Tally;
use h5_tests_sinks::is_forest;
use h5_plain_tokenizer::{BufferQueue, Tokenizer, TokenizerOpts};
use std::alloc::{AllocError, Global};
use std::io;

// A queue that holds a text.
fn queue_of(alloc: Global, text: &str) -> Result<BufferQueue, AllocError> {
    let mut queue = BufferQueue::new(alloc);
    queue.push_back(String::from_str(alloc, text)?)?;
    Ok(queue)
}

// Feeds the reader what waits, once more when nothing does, and ends it.
fn feed_and_end(tokenizer: &mut Tokenizer<Builder>, queue: &mut BufferQueue) -> Outcome {
    let outcome = Outcome::Whole.after(bare(tokenizer.feed(queue)));
    let outcome = outcome.after(bare(tokenizer.feed(queue)));
    let outcome = outcome.after(tokenizer.end());
    outcome.where_holds(is_forest(tokenizer.sink.sink.below()))
}

fn read(alloc: Global, text: &str, html: &str) -> Result<Outcome, AllocError> {
    let mut queue = queue_of(alloc, text)?;
    let builder = new_builder(alloc)?;
    let mut tokenizer = Tokenizer::new(alloc, builder, TokenizerOpts::default());
    let outcome = feed_and_end(&mut tokenizer, &mut queue);
    let mut builder = tokenizer.sink;
    let ends_once = ends_once(&mut builder);
    if !ends_once || outcome != Outcome::Whole {
        return Ok(outcome.where_holds(ends_once));
    }
    outcome_of(alloc, builder.sink.below(), html, 0)
}

/// Reads a page.
pub fn run_all(rt: &HostRuntime, tally: &mut Tally) -> io::Result<()> {
    tally.note(rt, PAGE, read(rt.alloc(), PAGE, PAGE_HTML))
}
