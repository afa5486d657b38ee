//! Calls of html5ever's serializer, one per line, as `.ci/tree_blocks.py` describes them.
use crate::lines::unescaped;
use crate::serialize::{HtmlSerializer, SerializeOpts, Serializer, TraversalScope};
use markup5ever::{ns, LocalName, Namespace, QualName};

fn namespace(number: &str) -> Namespace {
    let all = [ns!(), ns!(html), ns!(mathml), ns!(svg), ns!(xlink), ns!(xml), ns!(xmlns)];
    all[number.parse::<usize>().expect("a namespace is a number")].clone()
}

/// The two words of a name, and what follows it.
fn named(words: &str) -> (QualName, &str) {
    let (number, others) = words.split_once(' ').expect("a name has two words");
    let (local, others) = others.split_once(' ').unwrap_or((others, ""));
    (QualName::new(None, namespace(number), LocalName::from(local)), others)
}

fn text_of(words: &str) -> String {
    unescaped(words).expect("a text has the escapes of h5")
}

/// The text that the calls write. The calls of the element itself are left out if the first line is `within`.
pub fn written(input: &str) -> String {
    let mut lines: Vec<(&str, &str)> = input.lines().map(|line| line.split_once(' ').unwrap_or((line, ""))).collect();
    let mut opts = SerializeOpts::default();
    if lines.first().map_or(false, |(kind, _)| *kind == "within") {
        opts.traversal_scope = TraversalScope::ChildrenOnly(Some(named(lines[1].1).0));
        let attributes = lines[2..].iter().take_while(|(kind, _)| *kind == "attribute").count();
        lines.drain(..2 + attributes);
        lines.pop();
    }
    let mut serializer = HtmlSerializer::new(vec![], opts);
    let mut at = 0;
    while let Some((kind, words)) = lines.get(at) {
        at += 1;
        let result = match *kind {
            "start" => {
                let attributes: Vec<(QualName, String)> = lines[at..]
                    .iter()
                    .take_while(|(kind, _)| *kind == "attribute")
                    .map(|(_, words)| named(words))
                    .map(|(name, value)| (name, text_of(value)))
                    .collect();
                at += attributes.len();
                serializer.start_elem(named(words).0, attributes.iter().map(|(name, value)| (name, value.as_str())))
            }
            "end" => serializer.end_elem(named(words).0),
            "text" => serializer.write_text(&text_of(words)),
            "comment" => serializer.write_comment(&text_of(words)),
            "doctype" => serializer.write_doctype(&text_of(words)),
            "instruction" => {
                let (target, data) = words.split_once(' ').expect("an instruction has a target and data");
                serializer.write_processing_instruction(&text_of(target), &text_of(data))
            }
            _ => panic!("unknown call"),
        };
        result.expect("a vector takes all that is written");
    }
    String::from_utf8(serializer.writer).expect("the text is UTF-8")
}
