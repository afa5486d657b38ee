//! html5ever's tree builder and serializer as a judge: prints what `h5` should.
//!
//! Each line of standard input is a request: a kind, a tab, a context, a tab, and an input with the escapes of `h5 tree`. Each line of
//! standard output is the result, with the same escapes.
//!
//! - `tokens`: lines of tokens, and what `h5 tokens` prints for them;
//! - `tree`: a text, and what `h5 tree` prints for it, in the context unless that is empty;
//! - `html`: a text, and what `h5 html` prints for it;
//! - `calls`: calls of the serializer, one per line, and the text that they write.
#![allow(dead_code, unused_imports, unused_parens)]

extern crate markup5ever as log;
extern crate markup5ever as memchr;

mod calls;
mod encoding;
mod lines;
mod serialize;
mod texts;
mod tokenizer;
mod tree;
mod tree_builder;

pub use markup5ever::{interface, tendril, ExpandedName, LocalName, Namespace, QualName};

mod util {
    pub mod str {
        pub fn to_escaped_string<T: std::fmt::Debug>(value: &T) -> String {
            format!("{value:?}")
        }
    }
}

use std::io::{BufRead, Write};
use std::panic::{catch_unwind, AssertUnwindSafe};

fn html_of(tree: &tree::Tree) -> String {
    let mut out = vec![];
    serialize::serialize(&mut out, tree, serialize::SerializeOpts::default()).expect("a vector takes all that is written");
    String::from_utf8(out).expect("the text is UTF-8")
}

fn result_of(line: &str) -> String {
    let mut parts = line.splitn(3, '\t').map(|it| it.to_owned());
    let mut part = || parts.next().expect("a request has three parts");
    let (kind, context, input) = (part(), part(), part());
    let input = lines::unescaped(&input).expect("a request has the escapes of h5");
    let run = AssertUnwindSafe(|| match kind.as_str() {
        "tokens" => lines::printed(&input),
        "tree" => texts::read(&input, &context).tree().printed(),
        "html" => html_of(texts::read(&input, &context).tree()),
        "calls" => calls::written(&input),
        _ => panic!("unknown kind of request"),
    });
    catch_unwind(run).unwrap_or_else(|cause| {
        let text = cause.downcast_ref::<String>().map(String::as_str).or_else(|| cause.downcast_ref::<&str>().copied());
        format!("html5ever panicked: {}\n", text.unwrap_or("no message"))
    })
}

fn main() {
    std::panic::set_hook(Box::new(|_| ()));
    let mut out = std::io::BufWriter::new(std::io::stdout().lock());
    for line in std::io::stdin().lock().lines() {
        let result = result_of(&line.expect("the requests are UTF-8"));
        writeln!(out, "{}", tree::escaped(&result)).expect("standard output can be written");
    }
}
