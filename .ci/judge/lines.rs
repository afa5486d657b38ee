//! Token lines of `h5 tokens`, and what html5ever's tree builder makes of them.
use crate::tendril::StrTendril;
use crate::tokenizer::{states::RawKind, Doctype, Tag, TagKind, Token, TokenSink, TokenSinkResult};
use crate::tree::Tree;
use crate::tree_builder::{TreeBuilder, TreeBuilderOpts};
use markup5ever::interface::Attribute;
use markup5ever::{ns, LocalName, QualName};

/// A line of the input, read: a token, or a call of `end`.
pub enum Item {
    Token(Token),
    End,
}

/// A text without the escapes of `h5 tokens`, or nothing if it has another one.
pub fn unescaped(text: &str) -> Option<String> {
    let mut out = String::with_capacity(text.len());
    let mut characters = text.chars();
    while let Some(character) = characters.next() {
        out.push(match character {
            '\\' => match characters.next()? {
                'n' => '\n',
                't' => '\t',
                'f' => '\x0c',
                'r' => '\r',
                '0' => '\0',
                '\\' => '\\',
                _ => return None,
            },
            other => other,
        });
    }
    Some(out)
}

fn text_of(text: &str) -> Option<StrTendril> {
    Some(StrTendril::from(unescaped(text)?.as_str()))
}

fn is_name(text: &str) -> bool {
    !text.is_empty() && !text.contains(' ')
}

/// A line that begins a token, by its word and the text after it; `None` in place of a text if no space follows the word.
fn begun(word: &str, text: Option<&str>) -> Option<Item> {
    let tag = |kind| text.filter(|it| is_name(it)).map(|name| Token::TagToken(Tag::new(kind, name)));
    Some(Item::Token(match word {
        "X" if text.is_none() => return Some(Item::End),
        "Z" if text.is_none() => Token::EOFToken,
        "N" if text.is_none() => Token::NullCharacterToken,
        "D" => match text {
            None => Token::DoctypeToken(Doctype::default()),
            Some(name) if is_name(name) => Token::DoctypeToken(Doctype { name: Some(name.into()), ..Doctype::default() }),
            Some(_) => return None,
        },
        "S" => tag(TagKind::StartTag)?,
        "E" => tag(TagKind::EndTag)?,
        "T" => Token::CharacterTokens(text_of(text.unwrap_or(""))?),
        "C" => Token::CommentToken(text_of(text.unwrap_or(""))?),
        "P" => Token::ParseError(unescaped(text.unwrap_or(""))?.into()),
        _ => return None,
    }))
}

/// A line that adds something to the token above it.
fn added(token: &mut Token, word: &str, text: Option<&str>) -> Option<()> {
    match (token, word, text) {
        (Token::DoctypeToken(doctype), "Dq", None) => doctype.force_quirks = true,
        (Token::DoctypeToken(doctype), "Dp", _) if doctype.public_id.is_none() => doctype.public_id = Some(text_of(text.unwrap_or(""))?),
        (Token::DoctypeToken(doctype), "Ds", _) if doctype.system_id.is_none() => doctype.system_id = Some(text_of(text.unwrap_or(""))?),
        (Token::TagToken(tag), "/", None) => tag.self_closing = true,
        (Token::TagToken(tag), "A", Some(text)) => {
            let (name, value) = text.split_once(' ').unwrap_or((text, ""));
            let name = QualName::new(None, ns!(), LocalName::from(name));
            if name.local.is_empty() || tag.attrs.iter().any(|it| it.name == name) {
                return None;
            }
            tag.attrs.push(Attribute { name, value: text_of(value)? });
        }
        _ => return None,
    }
    Some(())
}

/// The items of a list of lines, each with the number of its line; or the number of the first bad line.
pub fn items_of(input: &str) -> Result<Vec<(Item, u64)>, u64> {
    let mut items: Vec<(Item, u64)> = vec![];
    for (line, number) in input.split('\n').zip(1..) {
        let (word, text) = match line.split_once(' ') {
            Some((word, text)) => (word, Some(text)),
            None => (line, None),
        };
        match word {
            "" if line.is_empty() => (),
            "Dp" | "Ds" | "Dq" | "A" | "/" => match items.last_mut() {
                Some((Item::Token(token), _)) => added(token, word, text).ok_or(number)?,
                _ => return Err(number),
            },
            _ => items.push((begun(word, text).ok_or(number)?, number)),
        }
    }
    Ok(items)
}

/// The builder, and what html5ever leaves to its caller: after `end` no token follows, and in a text no start tag, comment or NUL.
pub struct Builder {
    pub builder: TreeBuilder<usize, Tree>,
    has_ended: bool,
    in_text: bool,
}

pub enum Answer {
    Reply(TokenSinkResult<usize>),
    AfterEnd,
    NotInText,
}

impl Builder {
    pub fn of_document() -> Builder {
        Builder { builder: TreeBuilder::new(Tree::new(), TreeBuilderOpts::default()), has_ended: false, in_text: false }
    }

    pub fn of_fragment(context: &str) -> Builder {
        let tree = Tree::new();
        let name = QualName::new(None, ns!(html), LocalName::from(context));
        let context = markup5ever::interface::create_element(&tree, name, vec![]);
        let builder = TreeBuilder::new_for_fragment(tree, context, None, TreeBuilderOpts::default());
        Builder { builder, has_ended: false, in_text: false }
    }

    pub fn process(&mut self, token: Token, line: u64) -> Answer {
        let is_start = matches!(&token, Token::TagToken(tag) if tag.kind == TagKind::StartTag);
        let is_end = matches!(&token, Token::TagToken(tag) if tag.kind == TagKind::EndTag);
        if self.has_ended {
            return Answer::AfterEnd;
        }
        if self.in_text && (is_start || matches!(token, Token::CommentToken(_) | Token::NullCharacterToken)) {
            return Answer::NotInText;
        }
        self.in_text &= !is_end && !matches!(token, Token::EOFToken);
        let reply = self.builder.process_token(token, line);
        self.in_text |= matches!(reply, TokenSinkResult::RawData(_));
        Answer::Reply(reply)
    }

    pub fn end(&mut self) {
        if !self.has_ended {
            self.builder.end();
        }
        self.has_ended = true;
    }

    pub fn tree(&self) -> &Tree {
        &self.builder.sink
    }
}

fn reply_line(answer: &Answer) -> Option<String> {
    Some(match answer {
        Answer::AfterEnd => "AfterEnd".to_owned(),
        Answer::NotInText => "NotInText".to_owned(),
        Answer::Reply(TokenSinkResult::Continue) => return None,
        Answer::Reply(TokenSinkResult::Script(_)) => "Script".to_owned(),
        Answer::Reply(TokenSinkResult::Plaintext) => "Plaintext".to_owned(),
        Answer::Reply(TokenSinkResult::RawData(RawKind::Rcdata)) => "RawData(Rcdata)".to_owned(),
        Answer::Reply(TokenSinkResult::RawData(RawKind::Rawtext)) => "RawData(Rawtext)".to_owned(),
        Answer::Reply(TokenSinkResult::RawData(RawKind::ScriptData)) => "RawData(ScriptData)".to_owned(),
        Answer::Reply(TokenSinkResult::EncodingIndicator(text)) => format!("EncodingIndicator \"{}\"", crate::tree::escaped(text)),
    })
}

/// What `h5 tokens` prints for these lines.
pub fn printed(input: &str) -> String {
    let items = match items_of(input) {
        Ok(items) => items,
        Err(number) => return format!("h5: bad line {number}\n"),
    };
    let mut builder = Builder::of_document();
    let mut replies = String::new();
    let mut number = 0;
    for (item, line) in items {
        match item {
            Item::End => builder.end(),
            Item::Token(token) => {
                number += 1;
                if let Some(reply) = reply_line(&builder.process(token, line)) {
                    replies += &format!("{number} {reply}\n");
                }
            }
        }
    }
    builder.end();
    builder.tree().printed() + &replies
}
