//! What html5ever's tree builder and serializer need of other crates, in the place of `markup5ever`, `tendril`, `log` and `memchr`: names,
//! texts, the traits of sinks, and nothing else. `.ci/html5ever` writes `names.rs`, which has the names that html5ever's files mention.
use std::cell::RefCell;
use std::collections::HashMap;
use std::fmt;
use std::ops::Deref;

#[path = "names.rs"]
mod names;

struct Interned {
    numbers: HashMap<&'static str, u32>,
    texts: Vec<&'static str>,
}

thread_local! {
    static INTERNED: RefCell<Interned> = RefCell::new(Interned {
        numbers: names::NAMES.iter().zip(0..).map(|(text, number)| (*text, number)).collect(),
        texts: names::NAMES.to_vec(),
    });
}

/// A local name, by its number; the names of `names.rs` come first, so that `local_name!` is a constant.
#[derive(Clone, Copy, PartialEq, Eq, PartialOrd, Ord, Hash)]
pub struct LocalName(pub u32);

impl From<&str> for LocalName {
    fn from(text: &str) -> LocalName {
        INTERNED.with(|interned| {
            let interned = &mut *interned.borrow_mut();
            if let Some(number) = interned.numbers.get(text) {
                return LocalName(*number);
            }
            let text: &'static str = Box::leak(text.to_owned().into_boxed_str());
            let number = interned.texts.len() as u32;
            interned.numbers.insert(text, number);
            interned.texts.push(text);
            LocalName(number)
        })
    }
}

impl Deref for LocalName {
    type Target = str;
    fn deref(&self) -> &str {
        INTERNED.with(|interned| interned.borrow().texts[self.0 as usize])
    }
}

impl fmt::Display for LocalName {
    fn fmt(&self, to: &mut fmt::Formatter<'_>) -> fmt::Result {
        to.write_str(self)
    }
}

impl fmt::Debug for LocalName {
    fn fmt(&self, to: &mut fmt::Formatter<'_>) -> fmt::Result {
        write!(to, "{:?}", &**self)
    }
}

/// A namespace, by its number: those of `ns!`, and none.
#[derive(Clone, PartialEq, Eq, PartialOrd, Ord, Hash, Debug)]
pub struct Namespace(pub u8);

#[derive(Clone, PartialEq, Eq, PartialOrd, Ord, Hash, Debug)]
pub struct Prefix(pub &'static str);

#[derive(Clone, PartialEq, Eq, PartialOrd, Ord, Debug)]
pub struct QualName {
    pub prefix: Option<Prefix>,
    pub ns: Namespace,
    pub local: LocalName,
}

impl QualName {
    pub fn new(prefix: Option<Prefix>, ns: Namespace, local: LocalName) -> QualName {
        QualName { prefix, ns, local }
    }

    pub fn expanded(&self) -> ExpandedName<'_> {
        ExpandedName { ns: &self.ns, local: &self.local }
    }
}

#[derive(Clone, Copy, PartialEq, Eq, Debug)]
pub struct ExpandedName<'a> {
    pub ns: &'a Namespace,
    pub local: &'a LocalName,
}

#[macro_export]
macro_rules! ns {
    () => {
        $crate::Namespace(0)
    };
    (html) => {
        $crate::Namespace(1)
    };
    (svg) => {
        $crate::Namespace(2)
    };
    (mathml) => {
        $crate::Namespace(3)
    };
    (xlink) => {
        $crate::Namespace(4)
    };
    (xml) => {
        $crate::Namespace(5)
    };
    (xmlns) => {
        $crate::Namespace(6)
    };
}

#[macro_export]
macro_rules! namespace_prefix {
    ($text:tt) => {
        $crate::Prefix($text)
    };
}

#[macro_export]
macro_rules! expanded_name {
    ("", $local:tt) => {
        $crate::ExpandedName { ns: &$crate::ns!(), local: &$crate::local_name!($local) }
    };
    ($ns:ident $local:tt) => {
        $crate::ExpandedName { ns: &$crate::ns!($ns), local: &$crate::local_name!($local) }
    };
}

/// The crate `log`: nothing is written.
pub enum Level {
    Debug,
}

#[macro_export]
macro_rules! log_enabled {
    ($level:expr) => {{
        let _ = $level;
        false
    }};
}

#[macro_export]
macro_rules! debug {
    ($($part:tt)*) => { { let _ = format_args!($($part)*); } };
}

#[macro_export]
macro_rules! warn {
    ($($part:tt)*) => { { let _ = format_args!($($part)*); } };
}

/// The crate `memchr`.
pub fn memchr2(one: u8, two: u8, bytes: &[u8]) -> Option<usize> {
    bytes.iter().position(|byte| [one, two].contains(byte))
}

pub fn memchr3(one: u8, two: u8, three: u8, bytes: &[u8]) -> Option<usize> {
    bytes.iter().position(|byte| [one, two, three].contains(byte))
}

pub mod tendril {
    use std::fmt;
    use std::ops::Deref;

    /// A text. html5ever's shares its bytes; this one owns them.
    #[derive(Clone, Default, PartialEq, Eq, PartialOrd, Ord)]
    pub struct StrTendril(String);

    impl StrTendril {
        pub fn new() -> StrTendril {
            StrTendril::default()
        }

        pub fn len32(&self) -> u32 {
            self.0.len() as u32
        }

        pub fn pop_front(&mut self, count: u32) {
            self.0.drain(..count as usize);
        }

        pub fn subtendril(&self, start: u32, length: u32) -> StrTendril {
            StrTendril(self.0[start as usize..(start + length) as usize].to_owned())
        }

        /// Removes the characters at the start that are all of one kind; returns them and their kind, or nothing for an empty text.
        pub fn pop_front_char_run<K: PartialEq>(&mut self, kind_of: impl Fn(char) -> K) -> Option<(StrTendril, K)> {
            let kind = kind_of(self.0.chars().next()?);
            let end = self.0.find(|character| kind_of(character) != kind).unwrap_or(self.0.len());
            let others = self.0.split_off(end);
            Some((StrTendril(std::mem::replace(&mut self.0, others)), kind))
        }
    }

    impl From<&str> for StrTendril {
        fn from(text: &str) -> StrTendril {
            StrTendril(text.to_owned())
        }
    }

    impl Deref for StrTendril {
        type Target = str;
        fn deref(&self) -> &str {
            &self.0
        }
    }

    impl AsRef<str> for StrTendril {
        fn as_ref(&self) -> &str {
            &self.0
        }
    }

    impl fmt::Debug for StrTendril {
        fn fmt(&self, to: &mut fmt::Formatter<'_>) -> fmt::Result {
            write!(to, "{:?}", self.0)
        }
    }

    pub trait SliceExt {
        fn to_tendril(&self) -> StrTendril;
    }

    impl SliceExt for str {
        fn to_tendril(&self) -> StrTendril {
            StrTendril::from(self)
        }
    }
}

pub mod interface {
    use crate::tendril::StrTendril;
    pub use crate::{ExpandedName, LocalName, Namespace, Prefix, QualName};
    pub use tree_builder::NodeOrText::{AppendNode, AppendText};
    pub use tree_builder::QuirksMode::{LimitedQuirks, NoQuirks, Quirks};
    pub use tree_builder::{create_element, ElemName, ElementFlags, NodeOrText, QuirksMode, Tracer, TreeSink};

    #[derive(Clone, PartialEq, Eq, PartialOrd, Ord, Debug)]
    pub struct Attribute {
        pub name: QualName,
        pub value: StrTendril,
    }

    pub mod tree_builder {
        use super::Attribute;
        use crate::tendril::StrTendril;
        use crate::{expanded_name, ExpandedName, LocalName, Namespace, QualName};
        use std::borrow::Cow;
        use std::fmt::Debug;

        pub enum NodeOrText<Handle> {
            AppendNode(Handle),
            AppendText(StrTendril),
        }

        #[derive(Clone, Copy, PartialEq, Eq, Debug)]
        pub enum QuirksMode {
            Quirks,
            LimitedQuirks,
            NoQuirks,
        }

        pub struct ElementFlags {
            pub template: bool,
            pub mathml_annotation_xml_integration_point: bool,
        }

        pub trait ElemName: Debug {
            fn ns(&self) -> &Namespace;
            fn local_name(&self) -> &LocalName;

            fn expanded(&self) -> ExpandedName<'_> {
                ExpandedName { ns: self.ns(), local: self.local_name() }
            }
        }

        pub trait Tracer {
            type Handle;
            fn trace_handle(&self, node: &Self::Handle);
        }

        pub trait TreeSink {
            type Handle: Clone;
            type ElemName<'a>: ElemName
            where
                Self: 'a;

            fn parse_error(&self, message: Cow<'static, str>);
            fn get_document(&self) -> Self::Handle;
            fn elem_name<'a>(&'a self, node: &'a Self::Handle) -> Self::ElemName<'a>;
            fn create_element(&self, name: QualName, attrs: Vec<Attribute>, flags: ElementFlags) -> Self::Handle;
            fn create_comment(&self, text: StrTendril) -> Self::Handle;
            fn append(&self, parent: &Self::Handle, child: NodeOrText<Self::Handle>);
            fn append_before_sibling(&self, sibling: &Self::Handle, child: NodeOrText<Self::Handle>);
            fn append_based_on_parent_node(&self, element: &Self::Handle, previous: &Self::Handle, child: NodeOrText<Self::Handle>);
            fn append_doctype_to_document(&self, name: StrTendril, public_id: StrTendril, system_id: StrTendril);
            fn add_attrs_if_missing(&self, node: &Self::Handle, attrs: Vec<Attribute>);
            fn get_template_contents(&self, node: &Self::Handle) -> Self::Handle;
            fn same_node(&self, one: &Self::Handle, other: &Self::Handle) -> bool;
            fn set_quirks_mode(&self, mode: QuirksMode);
            fn remove_from_parent(&self, node: &Self::Handle);
            fn reparent_children(&self, node: &Self::Handle, parent: &Self::Handle);
            fn is_mathml_annotation_xml_integration_point(&self, node: &Self::Handle) -> bool;

            // What a sink that only builds a tree leaves out.
            fn mark_script_already_started(&self, _node: &Self::Handle) {}
            fn pop(&self, _node: &Self::Handle) {}
            fn set_current_line(&self, _line: u64) {}
            fn associate_with_form(&self, _node: &Self::Handle, _form: &Self::Handle, _places: (&Self::Handle, Option<&Self::Handle>)) {}
            fn maybe_clone_an_option_into_selectedcontent(&self, _option: &Self::Handle) {}

            fn allow_declarative_shadow_roots(&self, _parent: &Self::Handle) -> bool {
                true
            }

            fn attach_declarative_shadow(&self, _host: &Self::Handle, _template: &Self::Handle, _attrs: &[Attribute]) -> bool {
                false
            }
        }

        pub fn create_element<Sink: TreeSink>(sink: &Sink, name: QualName, attrs: Vec<Attribute>) -> Sink::Handle {
            create_element_with_flags(sink, name, attrs, false)
        }

        /// Makes an element, and says of a `template` and of an `annotation-xml` that holds HTML that it is one.
        pub fn create_element_with_flags<Sink: TreeSink>(
            sink: &Sink,
            name: QualName,
            attrs: Vec<Attribute>,
            _duplicates: bool,
        ) -> Sink::Handle {
            let holds_html = |attribute: &Attribute| {
                let types = ["text/html", "application/xhtml+xml"];
                attribute.name.expanded() == expanded_name!("", "encoding")
                    && types.iter().any(|it| attribute.value.eq_ignore_ascii_case(it))
            };
            let is_annotation = name.expanded() == expanded_name!(mathml "annotation-xml");
            let flags = ElementFlags {
                template: name.expanded() == expanded_name!(html "template"),
                mathml_annotation_xml_integration_point: is_annotation && attrs.iter().any(holds_html),
            };
            sink.create_element(name, attrs, flags)
        }
    }
}

pub mod serialize {
    use crate::QualName;
    use std::io;

    pub type AttrRef<'a> = (&'a QualName, &'a str);

    #[derive(Clone)]
    pub enum TraversalScope {
        IncludeNode,
        ChildrenOnly(Option<QualName>),
    }

    pub trait Serialize {
        fn serialize<S: Serializer>(&self, serializer: &mut S, scope: TraversalScope) -> io::Result<()>;
    }

    pub trait Serializer {
        fn start_elem<'a, Attrs: Iterator<Item = AttrRef<'a>>>(&mut self, name: QualName, attrs: Attrs) -> io::Result<()>;
        fn end_elem(&mut self, name: QualName) -> io::Result<()>;
        fn write_text(&mut self, text: &str) -> io::Result<()>;
        fn write_comment(&mut self, text: &str) -> io::Result<()>;
        fn write_doctype(&mut self, name: &str) -> io::Result<()>;
        fn write_processing_instruction(&mut self, target: &str, data: &str) -> io::Result<()>;
    }
}
