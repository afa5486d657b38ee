//! Tokens and the trait of token sinks, in the place of html5ever's module of this name, which also has its tokenizer.
use crate::tendril::StrTendril;
use markup5ever::interface::Attribute;
use markup5ever::LocalName;
use std::borrow::Cow;

pub use TagKind::{EndTag, StartTag};
pub use Token::{CharacterTokens, CommentToken, DoctypeToken, EOFToken, NullCharacterToken, ParseError, TagToken};

#[derive(Clone, PartialEq, Eq, Debug, Default)]
pub struct Doctype {
    pub name: Option<StrTendril>,
    pub public_id: Option<StrTendril>,
    pub system_id: Option<StrTendril>,
    pub force_quirks: bool,
}

#[derive(Clone, Copy, PartialEq, Eq, Debug)]
pub enum TagKind {
    StartTag,
    EndTag,
}

#[derive(Clone, PartialEq, Eq, Debug)]
pub struct Tag {
    pub kind: TagKind,
    pub name: LocalName,
    pub self_closing: bool,
    pub attrs: Vec<Attribute>,
    pub had_duplicate_attributes: bool,
}

impl Tag {
    pub fn new(kind: TagKind, name: &str) -> Tag {
        Tag { kind, name: LocalName::from(name), self_closing: false, attrs: vec![], had_duplicate_attributes: false }
    }

    pub fn get_attribute(&self, name: &LocalName) -> Option<StrTendril> {
        self.attrs.iter().find(|it| it.name.local == *name).map(|it| it.value.clone())
    }

    pub fn equiv_modulo_attr_order(&self, other: &Tag) -> bool {
        let sorted = |tag: &Tag| {
            let mut attrs = tag.attrs.clone();
            attrs.sort();
            attrs
        };
        self.kind == other.kind && self.name == other.name && sorted(self) == sorted(other)
    }
}

#[derive(Clone, Debug)]
pub enum Token {
    DoctypeToken(Doctype),
    TagToken(Tag),
    CommentToken(StrTendril),
    CharacterTokens(StrTendril),
    NullCharacterToken,
    EOFToken,
    ParseError(Cow<'static, str>),
}

pub enum TokenSinkResult<Handle> {
    Continue,
    Script(Handle),
    Plaintext,
    RawData(states::RawKind),
    EncodingIndicator(StrTendril),
}

pub trait TokenSink {
    type Handle;
    fn process_token(&self, token: Token, line: u64) -> TokenSinkResult<Self::Handle>;
    fn end(&self);
    fn adjusted_current_node_present_but_not_in_html_namespace(&self) -> bool;
}

pub mod states {
    pub use RawKind::{Rawtext, Rcdata, ScriptData};
    pub use State::{Data, Plaintext, RawData};

    #[derive(Clone, Copy, PartialEq, Eq, Debug)]
    pub enum RawKind {
        Rcdata,
        Rawtext,
        ScriptData,
    }

    #[derive(Clone, Copy, PartialEq, Eq, Debug)]
    pub enum State {
        Data,
        Plaintext,
        RawData(RawKind),
    }
}
