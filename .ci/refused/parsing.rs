//! Parsers of documents and of fragments, whose texts come whole and in single characters.
use super::building::{Counted, new_counted, outcome_of};
use super::outcome::Outcome;
use super::tally::Tally;
use h5_arena::Arena;
use h5_driver::{ParseOpts, Parser, parse_document, parse_fragment};
use h5_names::{LocalName, Namespace, QualName};
use h5_tests_sinks::is_forest;
use h5_token::BuildFault;
use std::alloc::{AllocError, Global};
use std::io;

/// A text, the name of the context that it is parsed in, or nothing for a document, and the HTML of what it makes.
#[derive(Clone, Copy)]
struct Row {
    context: &'static str,
    text: &'static str,
    html: &'static str,
}

pub const PAGE: &str = "<!DOCTYPE html><p class=a>x &amp; y";

pub const PAGE_HTML: &str =
    "<!DOCTYPE html><html><head></head><body><p class=\"a\">x &amp; y</p></body></html>";

const ROWS: [Row; 4] = [
    Row {
        context: "",
        text: PAGE,
        html: PAGE_HTML,
    },
    Row {
        context: "tr",
        text: "<td>1",
        html: "<html><td>1</td></html>",
    },
    Row {
        context: "td",
        text: "<tr>",
        html: "<html></html>",
    },
    Row {
        context: "textarea",
        text: "<b>&lt;",
        html: "<html>&lt;b&gt;&lt;</html>",
    },
];

// A parser in this context.
fn new_parser(alloc: Global, context: &str) -> Result<Parser<Counted>, BuildFault> {
    let sink = new_counted(alloc)?;
    let opts = ParseOpts::default();
    if context.is_empty() {
        return Ok(parse_document(alloc, sink, opts));
    }
    let name = QualName::new(None, Namespace::html(), LocalName::new(alloc, context)?);
    parse_fragment(alloc, sink, opts, name, Vec::new(alloc), true)
}

// The outcome of a run that has come so far, and whose last call gives a tree.
fn given(
    alloc: Global,
    outcome: Outcome,
    tree: Result<Arena, BuildFault>,
    row: &Row,
) -> Result<Outcome, AllocError> {
    match tree {
        Ok(arena) => match outcome {
            Outcome::Whole => outcome_of(alloc, &arena, row.html, 0),
            _ => Ok(Outcome::Wrong),
        },
        Err(fault) => Ok(outcome.after(Err(fault))),
    }
}

// What comes of a parser that couldn't be made.
fn unmade(fault: BuildFault) -> Result<Outcome, AllocError> {
    match fault {
        BuildFault::Memory => Err(AllocError),
        _ => Ok(Outcome::Wrong),
    }
}

// Takes a text in single characters, to its end.
fn process_characters(parser: &mut Parser<Counted>, text: &str) -> Outcome {
    let mut outcome = Outcome::Whole;
    let mut buffer = [0; 4];
    for character in text.chars() {
        let answer = parser.process(character.encode_utf8(&mut buffer));
        let arena = parser.tokenizer.sink.sink.below();
        outcome = outcome.after(answer).where_holds(is_forest(arena));
    }
    outcome
}

fn in_characters(alloc: Global, row: &Row) -> Result<Outcome, AllocError> {
    match new_parser(alloc, row.context) {
        Ok(parser) => {
            let mut parser = parser;
            let outcome = process_characters(&mut parser, row.text);
            given(alloc, outcome, parser.finish(), row)
        }
        Err(fault) => unmade(fault),
    }
}

fn whole(alloc: Global, row: &Row) -> Result<Outcome, AllocError> {
    match new_parser(alloc, row.context) {
        Ok(parser) => given(alloc, Outcome::Whole, parser.one(row.text), row),
        Err(fault) => unmade(fault),
    }
}

/// Parses the text of each row whole, and of the first and the last in single characters.
pub fn run_all(rt: &HostRuntime, tally: &mut Tally) -> io::Result<()> {
    for row in &ROWS {
        tally.note(rt, row.text, whole(rt.alloc(), row))?;
    }
    for row in [&ROWS[0], &ROWS[3]] {
        tally.note(rt, row.text, in_characters(rt.alloc(), row))?;
    }
    Ok(())
}
