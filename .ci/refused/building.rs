//! Builders that take tokens, one by one and as a list.
use super::outcome::{Outcome, bare};
use super::tally::Tally;
use h5_arena::{Arena, NodeId};
use h5_print::{Item, parse};
use h5_serialize::{SerializeOpts, serialize};
use h5_tables::TreeBuilderOpts;
use h5_tests_sinks::{Starved, is_forest};
use h5_token::{BuildFault, Token};
use h5_tree_builder::TreeBuilder;
use std::alloc::{AllocError, Global};
use std::io;

/// An arena of which the calls of `pop` are counted.
pub type Counted = Starved<Arena>;

pub type Builder = TreeBuilder<NodeId, Counted>;

/// Lines of tokens, the HTML of the tree that they make, and how many templates there are, in the tree or not.
#[derive(Clone, Copy)]
struct Row {
    lines: &'static str,
    html: &'static str,
    templates: usize,
}

const ROWS: [Row; 7] = [
    Row {
        lines: "D html\nS html\nS head\nE head\nS body\nE body\nE html\nZ\n",
        html: "<!DOCTYPE html><html><head></head><body></body></html>",
        templates: 0,
    },
    Row {
        lines: "S p\nT 1\nS b\nT 2\nS i\nT 3\nE b\nT 4\nE i\nT 5\nE p\n",
        html: "<html><head></head><body><p>1<b>2<i>3</i></b><i>4</i>5</p></body></html>",
        templates: 0,
    },
    Row {
        lines: "S a\nS b\nS i\nS u\nS s\nS p\nT x\nE a\n",
        html: "<html><head></head><body><a><b><i><u><s></s></u></i></b></a><i><u><s><p><a>x</a></p></s></u></i></body></html>",
        templates: 0,
    },
    Row {
        lines: "S table\nT  \nT a\nE table\n",
        html: "<html><head></head><body> a<table></table></body></html>",
        templates: 0,
    },
    Row {
        lines: "S table\nT  \nD x\nT a\nE table\n",
        html: "<html><head></head><body> a<table></table></body></html>",
        templates: 0,
    },
    Row {
        lines: "S table\nT  \nE table\n",
        html: "<html><head></head><body><table> </table></body></html>",
        templates: 0,
    },
    Row {
        lines: "S div\nS template\nA shadowrootmode open\n",
        html: "<html><head></head><body><div><template shadowrootmode=\"open\"></template></div></body></html>",
        templates: 2,
    },
];

// How many rows are taken as a list, too.
const LISTED: usize = 2;

/// An arena of which the calls of `pop` are counted.
pub fn new_counted(alloc: Global) -> Result<Counted, AllocError> {
    Ok(Starved::new(Arena::new(alloc)?, usize::MAX))
}

/// A builder of a document, over such an arena.
pub fn new_builder(alloc: Global) -> Result<Builder, AllocError> {
    let sink = new_counted(alloc)?;
    Ok(TreeBuilder::new(alloc, sink, TreeBuilderOpts::default()))
}

// How many nodes of an arena have contents.
fn count_templates(arena: &Arena) -> usize {
    let mut count: usize = 0;
    for place in 0..arena.len() {
        if let Some(node) = arena.id(place) {
            if arena.contents(node).is_some() {
                count = count.saturating_add(1);
            }
        }
    }
    count
}

/// The outcome of a run that made this arena, and should have made a tree of this HTML, with so many templates.
pub fn outcome_of(
    alloc: Global,
    arena: &Arena,
    html: &str,
    templates: usize,
) -> Result<Outcome, AllocError> {
    let document = arena.at(arena.document());
    let writer = Vec::with_capacity(alloc, 1_000)?;
    let Ok(written) = serialize(alloc, writer, &document, SerializeOpts::default()) else {
        return Err(AllocError);
    };
    let is_made = written.as_slice() == html.as_bytes() && count_templates(arena) == templates;
    let outcome = if arena.errors_lost() {
        Outcome::ErrorLost
    } else {
        Outcome::Whole
    };
    Ok(outcome.where_holds(is_made && is_forest(arena)))
}

/// Tokens, each with its line.
type Tokens = Vec<(Token, u64)>;

// The tokens of lines. The lines are good.
fn tokens_of(alloc: Global, lines: &str) -> Result<Tokens, AllocError> {
    let Ok(items) = parse(alloc, lines) else {
        return Err(AllocError);
    };
    let mut tokens = Vec::new(alloc);
    for item in items {
        if let Item::Token(token, line) = item {
            tokens.push((token, line))?;
        }
    }
    Ok(tokens)
}

// The tokens of each of the first rows.
fn tokens_of_rows(alloc: Global, count: usize) -> Result<Vec<Tokens>, AllocError> {
    let mut lists = Vec::new(alloc);
    for row in ROWS.iter().take(count) {
        lists.push(tokens_of(alloc, row.lines)?)?;
    }
    Ok(lists)
}

/// What builders take: the tokens of each row, and those of the rows that are taken as a list, too.
#[derive(Drop)]
pub struct Input {
    each: Vec<Tokens>,
    listed: Vec<Tokens>,
}

impl Input {
    /// It takes all the memory that tokens take.
    pub fn new(alloc: Global) -> Result<Input, AllocError> {
        Ok(Input {
            each: tokens_of_rows(alloc, ROWS.len())?,
            listed: tokens_of_rows(alloc, LISTED)?,
        })
    }
}

// Takes tokens one by one.
fn take_each(builder: &mut Builder, tokens: Tokens) -> Outcome {
    let mut outcome = Outcome::Whole;
    for (token, line) in tokens {
        let answer = bare(builder.process_token(token, line));
        outcome = outcome
            .after(answer)
            .where_holds(is_forest(builder.sink.below()));
    }
    outcome
}

// Takes tokens as a list.
fn take_all(builder: &mut Builder, tokens: Tokens) -> Outcome {
    let answer = bare(builder.process_all(tokens));
    Outcome::Whole
        .after(answer)
        .where_holds(is_forest(builder.sink.below()))
}

// Whether both calls that take tokens answer `Failed`.
fn has_failed(alloc: Global, builder: &mut Builder) -> bool {
    let one = bare(builder.process_token(Token::EOFToken, 1));
    let list = bare(builder.process_all(Vec::new(alloc)));
    one == Err(BuildFault::Failed) && list == Err(BuildFault::Failed)
}

/// Whether the end tells the sink of open elements, if the document has a child, and a second end tells nothing.
pub fn ends_once(builder: &mut Builder) -> bool {
    let before = builder.sink.pops();
    builder.end();
    let pops = builder.sink.pops();
    builder.end();
    let arena = builder.sink.below();
    builder.sink.pops() == pops && before <= pops && is_forest(arena)
}

// Ends a builder that took tokens: the outcome of its run.
fn ended(
    alloc: Global,
    builder: Builder,
    outcome: Outcome,
    row: &Row,
) -> Result<Outcome, AllocError> {
    let mut builder = builder;
    let is_lawful = outcome != Outcome::Refused || has_failed(alloc, &mut builder);
    let is_lawful = ends_once(&mut builder) && is_lawful;
    if !is_lawful || outcome != Outcome::Whole {
        return Ok(outcome.where_holds(is_lawful));
    }
    outcome_of(alloc, builder.sink.below(), row.html, row.templates)
}

fn by_token(alloc: Global, row: &Row, tokens: Tokens) -> Result<Outcome, AllocError> {
    let mut builder = new_builder(alloc)?;
    let outcome = take_each(&mut builder, tokens);
    ended(alloc, builder, outcome, row)
}

fn as_list(alloc: Global, row: &Row, tokens: Tokens) -> Result<Outcome, AllocError> {
    let mut builder = new_builder(alloc)?;
    let outcome = take_all(&mut builder, tokens);
    ended(alloc, builder, outcome, row)
}

// Takes the tokens of each row, one by one.
fn run_each(rt: &HostRuntime, tally: &mut Tally, lists: Vec<Tokens>) -> io::Result<()> {
    for (row, tokens) in ROWS.iter().zip(lists) {
        tally.note(rt, row.lines, by_token(rt.alloc(), row, tokens))?;
    }
    Ok(())
}

// Takes the tokens of the first rows, as a list each.
fn run_listed(rt: &HostRuntime, tally: &mut Tally, lists: Vec<Tokens>) -> io::Result<()> {
    for (row, tokens) in ROWS.iter().zip(lists) {
        tally.note(rt, row.lines, as_list(rt.alloc(), row, tokens))?;
    }
    Ok(())
}

/// Takes the tokens of each row.
pub fn run_all(rt: &HostRuntime, tally: &mut Tally, input: Input) -> io::Result<()> {
    let Input { each, listed } = input;
    run_each(rt, tally, each)?;
    run_listed(rt, tally, listed)
}
