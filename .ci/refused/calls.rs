//! Calls of a serializer, and the walk of an arena.
use super::outcome::Outcome;
use super::tally::Tally;
use h5_names::{Attribute, LocalName, Namespace, QualName};
use h5_serialize::{HtmlSerializer, SerializeFault, SerializeOpts, Serializer, TraversalScope};
use h5_tests_sinks::all_calls_fail;
use std::alloc::{AllocError, Global};
use std::io;

/// A call, with its texts.
#[derive(Clone, Copy)]
enum Call {
    Start(&'static str),
    End(&'static str),
    Text(&'static str),
}

use Call::{End, Start, Text};

/// Calls, how the last one is answered where each before it is `Ok`, and what they write.
#[derive(Clone, Copy)]
struct Row {
    makes_parents: bool,
    calls: &'static [Call],
    last: Result<(), SerializeFault>,
    text: &'static str,
}

const ROWS: [Row; 4] = [
    Row {
        makes_parents: false,
        calls: &[Start("br"), Text("x"), Start("b"), End("b"), End("br")],
        last: Ok(()),
        text: "<br>x",
    },
    Row {
        makes_parents: false,
        calls: &[End("p"), End("p")],
        last: Err(SerializeFault::NoParent),
        text: "</p>",
    },
    Row {
        makes_parents: true,
        calls: &[End("p"), End("p")],
        last: Ok(()),
        text: "</p></p>",
    },
    Row {
        makes_parents: false,
        calls: &[
            Start("div"),
            Start("p"),
            Start("b"),
            Start("i"),
            Start("u"),
            Start("s"),
            Start("em"),
            Start("code"),
            Start("tt"),
            Text("a<\u{a0}"),
        ],
        last: Ok(()),
        text: "<div><p><b><i><u><s><em><code><tt>a&lt;&nbsp;",
    },
];

// The name of an element of HTML.
fn name_of(alloc: Global, local: &str) -> Result<QualName, AllocError> {
    let local = LocalName::new(alloc, local)?;
    Ok(QualName::new(None, Namespace::html(), local))
}

// Makes a call.
fn make<S: Serializer>(
    alloc: Global,
    serializer: &mut S,
    call: Call,
) -> Result<Result<(), SerializeFault>, AllocError> {
    let attrs: Vec<Attribute> = Vec::new(alloc);
    Ok(match call {
        Start(local) => serializer.start_elem(name_of(alloc, local)?, attrs.iter()),
        End(local) => serializer.end_elem(name_of(alloc, local)?),
        Text(text) => serializer.write_text(text),
    })
}

// Makes a call, which is answered like this where nothing is refused. Where it is refused, nothing is written.
fn take(
    alloc: Global,
    serializer: &mut HtmlSerializer<Vec<u8>>,
    call: Call,
    expected: Result<(), SerializeFault>,
    outcome: Outcome,
) -> Result<Outcome, AllocError> {
    let length = serializer.writer.len();
    let answer = make(alloc, serializer, call)?;
    let is_still = serializer.writer.len() == length;
    Ok(
        outcome
            .after_call(answer, expected)
            .where_holds(answer.is_ok() || is_still),
    )
}

// Makes all calls.
fn take_all(
    alloc: Global,
    serializer: &mut HtmlSerializer<Vec<u8>>,
    row: &Row,
) -> Result<Outcome, AllocError> {
    let mut outcome = Outcome::Whole;
    let Some((last, front)) = row.calls.split_last() else {
        return Ok(outcome);
    };
    for call in front {
        outcome = take(alloc, serializer, *call, Ok(()), outcome)?;
    }
    take(alloc, serializer, *last, row.last, outcome)
}

// A serializer whose writer has room for all that is written.
fn new_serializer(
    alloc: Global,
    create_missing_parent: bool,
) -> Result<HtmlSerializer<Vec<u8>>, AllocError> {
    let opts = SerializeOpts {
        scripting_enabled: true,
        traversal_scope: TraversalScope::ChildrenOnly(None),
        create_missing_parent,
    };
    let writer = Vec::with_capacity(alloc, 1_000)?;
    match HtmlSerializer::new(alloc, writer, opts) {
        Ok(serializer) => Ok(serializer),
        Err(_fault) => Err(AllocError),
    }
}

fn run(alloc: Global, row: &Row) -> Result<Outcome, AllocError> {
    let mut serializer = new_serializer(alloc, row.makes_parents)?;
    let outcome = take_all(alloc, &mut serializer, row)?;
    let length = serializer.writer.len();
    if outcome == Outcome::Refused {
        let has_failed = all_calls_fail(alloc, &mut serializer)?;
        return Ok(outcome.where_holds(has_failed && serializer.writer.len() == length));
    }
    Ok(outcome.where_holds(serializer.writer.as_slice() == row.text.as_bytes()))
}

/// Makes the calls of each row.
pub fn run_all(rt: &HostRuntime, tally: &mut Tally) -> io::Result<()> {
    for row in &ROWS {
        tally.note(rt, row.text, run(rt.alloc(), row))?;
    }
    Ok(())
}
