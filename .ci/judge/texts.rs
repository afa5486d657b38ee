//! The plain tokenizer of `h5`, as `docs/DIFFERENCES.md` and the definitions of `h5_markup` and `h5_plain_tokenizer` have it, before html5ever's
//! tree builder. html5ever's own tokenizer reads more of HTML than that.
use crate::lines::{Answer, Builder};
use crate::tendril::StrTendril;
use crate::tokenizer::states::{RawKind, State};
use crate::tokenizer::{Doctype, Tag, TagKind, Token, TokenSink, TokenSinkResult};
use markup5ever::interface::Attribute;
use markup5ever::{ns, LocalName, QualName};

const REFERENCES: [(&str, &str); 5] = [("&amp;", "&"), ("&lt;", "<"), ("&gt;", ">"), ("&quot;", "\""), ("&nbsp;", "\u{a0}")];

fn is_space(character: char) -> bool {
    character.is_ascii_whitespace()
}

fn ends_name(character: char) -> bool {
    is_space(character) || character == '/' || character == '>'
}

/// Splits at the first character that stops, or at the end.
fn split(text: &str, stops: impl Fn(char) -> bool) -> (&str, &str) {
    text.split_at(text.find(stops).unwrap_or(text.len()))
}

fn past_spaces(text: &str) -> &str {
    text.trim_start_matches(is_space)
}

/// What follows a word in any case of letters, if the text begins with it.
fn after_word<'a>(text: &'a str, word: &str) -> Option<&'a str> {
    text.get(..word.len()).filter(|it| it.eq_ignore_ascii_case(word)).map(|_| &text[word.len()..])
}

/// The meaning of a text: without NULs, and without references if they are read. Newlines are those of the input already.
fn meaning(text: &str, reads_references: bool) -> String {
    let mut out = String::new();
    let mut others = text;
    while let Some(first) = others.chars().next() {
        let found = REFERENCES.iter().find(|(reference, _)| reads_references && others.starts_with(reference));
        if let Some((reference, character)) = found {
            out.push_str(character);
            others = &others[reference.len()..];
        } else {
            out.push(if first == '\0' { '\u{fffd}' } else { first });
            others = &others[first.len_utf8()..];
        }
    }
    out
}

fn name_of(text: &str) -> String {
    meaning(text, false).to_ascii_lowercase()
}

fn characters(text: &str, reads_references: bool) -> Token {
    Token::CharacterTokens(StrTendril::from(meaning(text, reads_references).as_str()))
}

/// Where in a tag a character is.
enum Inside {
    Name,
    Between,
    AttributeName,
    AfterAttributeName,
    BeforeValue,
    Quoted(char),
    Unquoted,
}

/// The text of a tag up to its `>`, and what follows that; nothing if it has no end. Says whether a `/` outside of values ends it.
fn tag_text(text: &str) -> Option<(&str, bool, &str)> {
    let mut place = Inside::Name;
    for (at, character) in text.char_indices() {
        if character == '>' && !matches!(place, Inside::Quoted(_)) {
            let closes = text[..at].ends_with('/') && matches!(place, Inside::Between);
            return Some((&text[..at], closes, &text[at + 1..]));
        }
        place = match place {
            Inside::Quoted(quote) if character == quote => Inside::Between,
            Inside::Quoted(quote) => Inside::Quoted(quote),
            Inside::Unquoted if is_space(character) => Inside::Between,
            Inside::Unquoted => Inside::Unquoted,
            Inside::BeforeValue if is_space(character) => Inside::BeforeValue,
            Inside::BeforeValue if character == '"' || character == '\'' => Inside::Quoted(character),
            Inside::BeforeValue => Inside::Unquoted,
            Inside::Name if !ends_name(character) => Inside::Name,
            Inside::Name => Inside::Between,
            Inside::Between if ends_name(character) => Inside::Between,
            Inside::Between => Inside::AttributeName,
            _ if character == '=' => Inside::BeforeValue,
            _ if character == '/' => Inside::Between,
            _ if is_space(character) => Inside::AfterAttributeName,
            _ => Inside::AttributeName,
        };
    }
    None
}

/// The first attribute of a text that begins with one, and what follows it.
fn attribute_of(text: &str) -> (String, String, &str) {
    let first = text.chars().next().map_or(0, char::len_utf8);
    let length = first + split(&text[first..], |it| ends_name(it) || it == '=').0.len();
    let (name, others) = text.split_at(length);
    let others = past_spaces(others);
    let Some(value) = others.strip_prefix('=').map(past_spaces) else {
        return (name_of(name), String::new(), others);
    };
    let (value, others) = match value.chars().next() {
        Some(quote @ ('"' | '\'')) => {
            let (value, others) = split(&value[1..], |it| it == quote);
            (value, others.get(1..).unwrap_or(""))
        }
        _ => split(value, |it| is_space(it) || it == '>'),
    };
    (name_of(name), meaning(value, true), others)
}

fn tag_of(kind: TagKind, text: &str, closes: bool) -> Tag {
    let (name, mut others) = split(text, ends_name);
    let mut tag = Tag::new(kind, &name_of(name));
    if kind == TagKind::EndTag {
        return tag;
    }
    tag.self_closing = closes;
    loop {
        others = others.trim_start_matches(|it| is_space(it) || it == '/');
        if others.is_empty() {
            return tag;
        }
        let (name, value, following) = attribute_of(others);
        others = following;
        let name = QualName::new(None, ns!(), LocalName::from(name.as_str()));
        if tag.attrs.iter().any(|it| it.name == name) {
            tag.had_duplicate_attributes = true;
        } else {
            tag.attrs.push(Attribute { name, value: StrTendril::from(value.as_str()) });
        }
    }
}

/// A quoted identifier, and what follows it and whitespace.
fn quoted(text: &str) -> Option<(&str, &str)> {
    let quote = text.chars().next().filter(|it| matches!(it, '"' | '\''))?;
    let (identifier, others) = text[1..].split_once(quote)?;
    Some((identifier, past_spaces(others)))
}

/// The public and the system identifier in what follows the name of a doctype; nothing if they are invalid.
fn identifiers(text: &str) -> Option<(Option<&str>, Option<&str>)> {
    let last = |text| quoted(text).filter(|(_, others)| others.is_empty()).map(|(identifier, _)| identifier);
    if text.is_empty() {
        return Some((None, None));
    }
    if let Some(others) = after_word(text, "PUBLIC") {
        let (public, others) = quoted(past_spaces(others))?;
        return Some((Some(public), if others.is_empty() { None } else { Some(last(others)?) }));
    }
    let system = last(past_spaces(after_word(text, "SYSTEM")?))?;
    Some((None, Some(system)))
}

fn doctype_of(text: &str) -> Doctype {
    let (name, others) = split(past_spaces(text), is_space);
    if name.is_empty() {
        return Doctype { force_quirks: true, ..Doctype::default() };
    }
    let name = Some(StrTendril::from(name_of(name).as_str()));
    let read = |text: &str| StrTendril::from(meaning(text, false).as_str());
    match identifiers(past_spaces(others)) {
        None => Doctype { name, force_quirks: true, ..Doctype::default() },
        Some((public, system)) => Doctype { name, public_id: public.map(read), system_id: system.map(read), force_quirks: false },
    }
}

fn begins_name(text: &str) -> bool {
    text.starts_with(|it: char| it.is_ascii_alphabetic())
}

fn may_begin_construct(text: &str) -> bool {
    text.starts_with('\0')
        || text.starts_with("<!--")
        || after_word(text, "<!DOCTYPE").is_some()
        || text.starts_with("<![CDATA[")
        || text.strip_prefix("</").map_or(false, begins_name)
        || text.strip_prefix('<').map_or(false, begins_name)
}

struct Reader {
    builder: Builder,
    state: State,
    last_start_tag: Option<String>,
}

impl Reader {
    fn pass(&mut self, token: Token) {
        if let Token::TagToken(tag) = &token {
            match tag.kind {
                TagKind::StartTag => self.last_start_tag = Some(tag.name.to_string()),
                TagKind::EndTag => self.state = State::Data,
            }
        }
        match self.builder.process(token, 1) {
            Answer::Reply(TokenSinkResult::RawData(kind)) => self.state = State::RawData(kind),
            Answer::Reply(TokenSinkResult::Plaintext) => self.state = State::Plaintext,
            Answer::Reply(_) => (),
            Answer::AfterEnd | Answer::NotInText => panic!("the builder refused a token of the plain tokenizer"),
        }
    }

    fn pass_text(&mut self, text: &str, reads_references: bool) {
        if !text.is_empty() {
            self.pass(characters(text, reads_references));
        }
    }

    /// Passes the tag after `<` or `</`, and returns what follows it. An unfinished one is dropped.
    fn tag<'a>(&mut self, kind: TagKind, text: &'a str) -> &'a str {
        match tag_text(text) {
            None => "",
            Some((tag, closes, others)) => {
                self.pass(Token::TagToken(tag_of(kind, tag, closes)));
                others
            }
        }
    }

    fn comment<'a>(&mut self, text: &'a str) -> &'a str {
        let (comment, others) = text.split_once("-->").unwrap_or((text, ""));
        self.pass(Token::CommentToken(StrTendril::from(meaning(comment, false).as_str())));
        others
    }

    fn doctype<'a>(&mut self, text: &'a str) -> &'a str {
        let Some((doctype, others)) = text.split_once('>') else { return "" };
        self.pass(Token::DoctypeToken(doctype_of(doctype)));
        others
    }

    /// What follows the construct that the text begins with, which is passed; nothing if it begins with plain text.
    fn construct<'a>(&mut self, text: &'a str) -> Option<&'a str> {
        if let Some(others) = text.strip_prefix('\0') {
            self.pass(Token::NullCharacterToken);
            Some(others)
        } else if let Some(others) = text.strip_prefix("<!--") {
            Some(self.comment(others))
        } else if let Some(others) = after_word(text, "<!DOCTYPE") {
            Some(self.doctype(others))
        } else if let Some(others) = text.strip_prefix("<![CDATA[").filter(|_| self.is_foreign()) {
            let (section, others) = others.split_once("]]>").unwrap_or((others, ""));
            self.pass_text(section, false);
            Some(others)
        } else if let Some(others) = text.strip_prefix("</").filter(|it| begins_name(it)) {
            Some(self.tag(TagKind::EndTag, others))
        } else {
            let others = text.strip_prefix('<').filter(|it| begins_name(it))?;
            Some(self.tag(TagKind::StartTag, others))
        }
    }

    fn is_foreign(&self) -> bool {
        self.builder.builder.adjusted_current_node_present_but_not_in_html_namespace()
    }

    /// Reads text up to what may begin a construct, and that. The text comes first, since a CDATA section depends on what it makes.
    fn data<'a>(&mut self, text: &'a str) -> &'a str {
        let at = text.match_indices(['<', '\0']).map(|(at, _)| at).find(|at| may_begin_construct(&text[*at..])).unwrap_or(text.len());
        let (before, others) = text.split_at(at);
        self.pass_text(before, true);
        if others.is_empty() {
            return others;
        }
        self.construct(others).unwrap_or_else(|| {
            self.pass_text("<", false);
            &others[1..]
        })
    }

    /// Reads raw text up to the end tag of its element, and the end tag.
    fn raw<'a>(&mut self, kind: RawKind, text: &'a str) -> &'a str {
        let name = self.last_start_tag.clone();
        let is_end = |at: &usize| {
            let named = name.as_deref().and_then(|name| after_word(&text[at + 2..], name));
            named.map_or(false, |others| others.starts_with(ends_name))
        };
        let at = text.match_indices("</").map(|(at, _)| at).find(is_end).unwrap_or(text.len());
        self.pass_text(&text[..at], kind == RawKind::Rcdata);
        match &text[at..] {
            "" => "",
            others => self.tag(TagKind::EndTag, &others[2..]),
        }
    }
}

/// The tree of a text: a document, or a fragment in a context.
pub fn read(input: &str, context: &str) -> Builder {
    let input = input.replace("\r\n", "\n").replace('\r', "\n");
    let mut others = input.strip_prefix('\u{feff}').unwrap_or(&input);
    let (builder, state) = match context {
        "" => (Builder::of_document(), State::Data),
        context => {
            let builder = Builder::of_fragment(context);
            let state = builder.builder.tokenizer_state_for_context_elem(true);
            (builder, state)
        }
    };
    let mut reader = Reader { builder, state, last_start_tag: None };
    while !others.is_empty() {
        others = match reader.state {
            State::Data => reader.data(others),
            State::RawData(kind) => reader.raw(kind, others),
            State::Plaintext => {
                reader.pass_text(others, false);
                ""
            }
        };
    }
    reader.pass(Token::EOFToken);
    reader.builder.end();
    reader.builder
}
