//! Calls of the library's root. A call whose allocation failed is made again, and must then return what it should.
use super::outcome::Outcome;
use super::tally::Tally;
use h5_tree_block::{View, arena_of, columns_of_document, html_of};
use h5_page::{links_of_page, text_of_page};
use html_tree_builder::bytes::BytesParser;
use html_tree_builder::clean::{DefaultPolicy, clean};
use html_tree_builder::encodings::{Decoder, Encoding, EncodingOpts, sniff};
use html_tree_builder::select::{Selector, SelectorError};
use html_tree_builder::token::BuildFault;
use html_tree_builder::{Arena, ParseOpts, Parser, parse_document, parse_fragment};
use html_tree_builder::{LocalName, Namespace, QualName};
use std::alloc::{AllocError, Global};
use std::io;

/// A call, with all that it needs.
#[derive(Clone, Copy, Debug)]
enum Call {
    Parse,
    ParseInCharacters,
    ParseFragment,
    ParseBytes,
    Decode,
    Select,
    Clean,
    Text,
    Links,
    Block,
}

const CALLS: [Call; 10] = [
    Call::Parse,
    Call::ParseInCharacters,
    Call::ParseFragment,
    Call::ParseBytes,
    Call::Decode,
    Call::Select,
    Call::Clean,
    Call::Text,
    Call::Links,
    Call::Block,
];

const PAGE: &str = "<!DOCTYPE html><title>t</title><p class=a>x &amp; <a href=u>y</a><table><tr><td>1<b>2";

const HTML: &str = "<!DOCTYPE html><html><head><title>t</title></head><body><p class=\"a\">x &amp; <a href=\"u\">y</a></p><table><tbody><tr><td>1<b>2</b></td></tr></tbody></table></body></html>";

// The only error of a parser that hasn't failed is a failed allocation. False for any other error.
fn refused(fault: BuildFault) -> Result<bool, AllocError> {
    match fault {
        BuildFault::Memory => Err(AllocError),
        _ => Ok(false),
    }
}

fn is_page(arena: &Arena) -> Result<bool, AllocError> {
    let html = arena.outer_html(arena.document(), true)?;
    Ok(html.as_str() == HTML)
}

fn new_parser(alloc: Global) -> Result<Parser<Arena>, AllocError> {
    Ok(parse_document(alloc, Arena::without_errors(alloc)?, ParseOpts::default()))
}

fn parse(alloc: Global) -> Result<bool, AllocError> {
    match new_parser(alloc)?.one(PAGE) {
        Ok(arena) => is_page(&arena),
        Err(fault) => refused(fault),
    }
}

// After a call that returned `Memory` each later one returns `Failed`.
fn parse_in_characters(alloc: Global) -> Result<bool, AllocError> {
    let mut parser = new_parser(alloc)?;
    let mut outcome = Outcome::Whole;
    let mut buffer = [0; 4];
    for character in PAGE.chars() {
        outcome = outcome.after(parser.process(character.encode_utf8(&mut buffer)));
    }
    match (outcome, parser.finish()) {
        (Outcome::Whole, Ok(arena)) => is_page(&arena),
        (Outcome::Whole, Err(BuildFault::Memory)) => Err(AllocError),
        (Outcome::Refused, Err(BuildFault::Failed)) => Err(AllocError),
        _ => Ok(false),
    }
}

fn parse_a_fragment(alloc: Global) -> Result<bool, AllocError> {
    let name = QualName::new(None, Namespace::html(), LocalName::new(alloc, "td")?);
    let arena = Arena::without_errors(alloc)?;
    let opts = ParseOpts::default();
    let parser = match parse_fragment(alloc, arena, opts, name, Vec::new(alloc), true) {
        Ok(parser) => parser,
        Err(fault) => return refused(fault),
    };
    match parser.one("<i>1<tr>2") {
        Ok(arena) => {
            let html = arena.outer_html(arena.document(), true)?;
            Ok(html.as_str() == "<html><i>12</i></html>")
        }
        Err(fault) => refused(fault),
    }
}

fn parse_bytes(alloc: Global) -> Result<bool, AllocError> {
    let opts = EncodingOpts {
        transport: Some(Encoding::Gbk),
        ..EncodingOpts::default()
    };
    let mut parser = BytesParser::new(alloc, new_parser(alloc)?, opts);
    for byte in PAGE.as_bytes() {
        if let Err(fault) = parser.process(&[*byte]) {
            return refused(fault);
        }
    }
    match parser.finish() {
        Ok(arena) => is_page(&arena),
        Err(fault) => refused(fault),
    }
}

// A decoder is unchanged if an allocation fails: the same bytes are decoded again.
fn decode(alloc: Global) -> Result<bool, AllocError> {
    let bytes = b"<meta charset=shift_jis>\x83\x65\x83\x58";
    let (encoding, _source) = sniff(alloc, EncodingOpts::default(), bytes)?;
    let mut decoder = Decoder::new(alloc, encoding);
    let text = match decoder.decode(bytes) {
        Ok(text) => text,
        Err(_) => {
            let again = decoder.decode(bytes)?;
            return if again.as_str().ends_with("テス") { Err(AllocError) } else { Ok(false) };
        }
    };
    Ok(text.as_str().ends_with("テス"))
}

fn select(alloc: Global) -> Result<bool, AllocError> {
    let arena = match new_parser(alloc)?.one(PAGE) {
        Ok(arena) => arena,
        Err(fault) => return refused(fault),
    };
    let selector = match Selector::parse(alloc, "p.a > a[href^=u i], tr:has(> td:not(:empty)):nth-child(2n+1)") {
        Ok(selector) => selector,
        Err(SelectorError::Memory) => return Err(AllocError),
        Err(_) => return Ok(false),
    };
    let found = selector.select(&arena, arena.document())?;
    Ok(found.len() == 2 && selector.select_first(&arena, arena.document())?.is_some())
}

fn cleaned(alloc: Global) -> Result<bool, AllocError> {
    let out = clean(alloc, "<p onclick=x>a<script>b</script><a href=javascript:c>d<li>e", &DefaultPolicy)?;
    Ok(out.as_str().starts_with("<p>a<a") && !out.as_str().contains("script"))
}

fn text(alloc: Global) -> Result<bool, AllocError> {
    let text = text_of_page(alloc, PAGE.to_string(alloc)?)?;
    Ok(text.as_str() == "t\n\nx & y\n\n12\n")
}

fn links(alloc: Global) -> Result<bool, AllocError> {
    let links = links_of_page(alloc, PAGE.to_string(alloc)?)?;
    Ok(links.len() == 1 && links[0].text.as_str() == "y")
}

fn block(alloc: Global) -> Result<bool, AllocError> {
    let arena = match new_parser(alloc)?.one(PAGE) {
        Ok(arena) => arena,
        Err(fault) => return refused(fault),
    };
    let bytes = columns_of_document(alloc, &arena, true)?.pack(alloc)?;
    let Some(view) = View::of(bytes.as_slice()) else {
        return Ok(false);
    };
    let html = html_of(alloc, &view, 0, true)?;
    let Some(tree) = arena_of(alloc, &view)? else {
        return Ok(false);
    };
    Ok(html.as_slice() == HTML.as_bytes() && is_page(&tree.arena)?)
}

// Returns true if a call returns what it should.
fn made(alloc: Global, call: Call) -> Result<bool, AllocError> {
    match call {
        Call::Parse => parse(alloc),
        Call::ParseInCharacters => parse_in_characters(alloc),
        Call::ParseFragment => parse_a_fragment(alloc),
        Call::ParseBytes => parse_bytes(alloc),
        Call::Decode => decode(alloc),
        Call::Select => select(alloc),
        Call::Clean => cleaned(alloc),
        Call::Text => text(alloc),
        Call::Links => links(alloc),
        Call::Block => block(alloc),
    }
}

// The outcome of a call, which is made again if an allocation failed.
fn outcome_of(alloc: Global, call: Call) -> Outcome {
    match made(alloc, call) {
        Ok(holds) => Outcome::Whole.where_holds(holds),
        Err(_) => Outcome::Refused.where_holds(matches!(made(alloc, call), Ok(true))),
    }
}

/// Makes each call.
pub fn run_all(rt: &HostRuntime, tally: &mut Tally) -> io::Result<()> {
    for call in CALLS {
        let name = format!(in rt.alloc(); "{call:?}");
        let outcome = outcome_of(rt.alloc(), call);
        match name {
            Ok(name) => tally.note(rt, name.as_str(), Ok(outcome))?,
            Err(_) => tally.note(rt, "a call", Err(AllocError))?,
        }
    }
    Ok(())
}
