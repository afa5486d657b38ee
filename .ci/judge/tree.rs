//! A tree that html5ever builds, as `h5 tree` prints it, and as its serializer writes it.
use crate::serialize::{AttrRef, Serialize, Serializer, TraversalScope};
use crate::tendril::StrTendril;
use markup5ever::interface::tree_builder::{ElemName, ElementFlags, NodeOrText, QuirksMode, TreeSink};
use markup5ever::interface::Attribute;
use markup5ever::{ns, LocalName, Namespace, QualName};
use std::borrow::Cow;
use std::cell::{Cell, Ref, RefCell};
use std::io;

pub type Id = usize;

pub enum Data {
    /// A document, or the contents of a template.
    Root,
    Doctype {
        name: StrTendril,
        public_id: StrTendril,
        system_id: StrTendril,
    },
    Comment(StrTendril),
    Text(String),
    Element {
        name: QualName,
        attrs: Vec<Attribute>,
        contents: Option<Id>,
        holds_html: bool,
    },
}

pub struct Node {
    data: Data,
    parent: Option<Id>,
    children: Vec<Id>,
}

/// The nodes, by number; the document is the first.
pub struct Tree {
    nodes: RefCell<Vec<Node>>,
    quirks: Cell<QuirksMode>,
}

#[derive(Debug)]
pub struct Name<'a>(Ref<'a, QualName>);

impl ElemName for Name<'_> {
    fn ns(&self) -> &Namespace {
        &self.0.ns
    }

    fn local_name(&self) -> &LocalName {
        &self.0.local
    }
}

/// A text with the escapes of `h5 tree`.
pub fn escaped(text: &str) -> String {
    let mut out = String::with_capacity(text.len());
    for character in text.chars() {
        match character {
            '\n' => out.push_str("\\n"),
            '\t' => out.push_str("\\t"),
            '\x0c' => out.push_str("\\f"),
            '\r' => out.push_str("\\r"),
            '\0' => out.push_str("\\0"),
            '\\' => out.push_str("\\\\"),
            other => out.push(other),
        }
    }
    out
}

/// The words before a name: those of its namespace.
fn word_of(ns: &Namespace) -> &'static str {
    match *ns {
        ns!(svg) => "svg ",
        ns!(mathml) => "math ",
        ns!(xlink) => "xlink ",
        ns!(xml) => "xml ",
        ns!(xmlns) => "xmlns ",
        _ => "",
    }
}

fn doctype_line(name: &str, public_id: &str, system_id: &str) -> String {
    let identifiers = match (public_id, system_id) {
        ("", "") => String::new(),
        _ => format!(" \"{}\" \"{}\"", escaped(public_id), escaped(system_id)),
    };
    format!("<!DOCTYPE {}{identifiers}>", escaped(name))
}

impl Tree {
    pub fn new() -> Tree {
        let tree = Tree { nodes: RefCell::new(vec![]), quirks: Cell::new(QuirksMode::NoQuirks) };
        tree.add(Data::Root);
        tree
    }

    fn add(&self, data: Data) -> Id {
        let mut nodes = self.nodes.borrow_mut();
        nodes.push(Node { data, parent: None, children: vec![] });
        nodes.len() - 1
    }

    fn parent_of(&self, id: Id) -> Option<Id> {
        self.nodes.borrow()[id].parent
    }

    fn place_in(&self, parent: Id, id: Id) -> usize {
        self.nodes.borrow()[parent].children.iter().position(|it| *it == id).expect("a child is among its parent's children")
    }

    fn detach(&self, id: Id) {
        if let Some(parent) = self.parent_of(id) {
            let at = self.place_in(parent, id);
            let mut nodes = self.nodes.borrow_mut();
            nodes[parent].children.remove(at);
            nodes[id].parent = None;
        }
    }

    /// Inserts before the child with this index, or at the end. A text is joined with a text before it.
    fn insert(&self, parent: Id, at: usize, child: NodeOrText<Id>) {
        let id = match child {
            NodeOrText::AppendNode(id) => id,
            NodeOrText::AppendText(text) => {
                let before = at.checked_sub(1).map(|at| self.nodes.borrow()[parent].children[at]);
                if let Some(before) = before {
                    if let Data::Text(old) = &mut self.nodes.borrow_mut()[before].data {
                        old.push_str(&text);
                        return;
                    }
                }
                self.add(Data::Text(text.to_string()))
            }
        };
        let mut nodes = self.nodes.borrow_mut();
        assert!(nodes[id].parent.is_none(), "a node that is inserted has no parent");
        nodes[id].parent = Some(parent);
        nodes[parent].children.insert(at, id);
    }

    /// What `h5 tree` prints: the nodes below the document, and the quirks mode.
    pub fn printed(&self) -> String {
        let nodes = self.nodes.borrow();
        let mut out = String::new();
        let mut waiting: Vec<(Id, usize)> = nodes[0].children.iter().rev().map(|id| (*id, 0)).collect();
        while let Some((id, level)) = waiting.pop() {
            let mut line = |level: usize, text: String| out.push_str(&format!("{}{text}\n", "  ".repeat(level)));
            match &nodes[id].data {
                Data::Root => line(level, "content".to_owned()),
                Data::Doctype { name, public_id, system_id } => line(level, doctype_line(name, public_id, system_id)),
                Data::Comment(text) => line(level, format!("<!-- {} -->", escaped(text))),
                Data::Text(text) => line(level, format!("\"{}\"", escaped(text))),
                Data::Element { name, attrs, .. } => {
                    line(level, format!("<{}{}>", word_of(&name.ns), name.local));
                    for it in attrs {
                        line(level + 1, format!("{}{}=\"{}\"", word_of(&it.name.ns), it.name.local, escaped(&it.value)));
                    }
                }
            }
            waiting.extend(nodes[id].children.iter().rev().map(|id| (*id, level + 1)));
            if let Data::Element { contents: Some(contents), .. } = &nodes[id].data {
                waiting.push((*contents, level + 1));
            }
        }
        out + &format!("quirks: {:?}\n", self.quirks.get())
    }
}

impl Serialize for Tree {
    fn serialize<S: Serializer>(&self, serializer: &mut S, _scope: TraversalScope) -> io::Result<()> {
        let nodes = self.nodes.borrow();
        let below = |id: Id| match nodes[id].data {
            Data::Element { contents: Some(contents), .. } => nodes[contents].children.iter(),
            _ => nodes[id].children.iter(),
        };
        let mut waiting: Vec<(Id, bool)> = below(0).rev().map(|id| (*id, true)).collect();
        while let Some((id, opens)) = waiting.pop() {
            match &nodes[id].data {
                Data::Root => (),
                Data::Doctype { name, .. } => serializer.write_doctype(name)?,
                Data::Comment(text) => serializer.write_comment(text)?,
                Data::Text(text) => serializer.write_text(text)?,
                Data::Element { name, .. } if !opens => serializer.end_elem(name.clone())?,
                Data::Element { name, attrs, .. } => {
                    serializer.start_elem(name.clone(), attrs.iter().map(|it| -> AttrRef<'_> { (&it.name, &it.value) }))?;
                    waiting.push((id, false));
                    waiting.extend(below(id).rev().map(|id| (*id, true)));
                }
            }
        }
        Ok(())
    }
}

impl TreeSink for Tree {
    type Handle = Id;
    type ElemName<'a> = Name<'a>;

    fn parse_error(&self, _message: Cow<'static, str>) {}

    fn get_document(&self) -> Id {
        0
    }

    fn elem_name<'a>(&'a self, id: &'a Id) -> Name<'a> {
        Name(Ref::map(self.nodes.borrow(), |nodes| match &nodes[*id].data {
            Data::Element { name, .. } => name,
            _ => panic!("the name of a node that isn't an element"),
        }))
    }

    fn create_element(&self, name: QualName, attrs: Vec<Attribute>, flags: ElementFlags) -> Id {
        let contents = flags.template.then(|| self.add(Data::Root));
        self.add(Data::Element { name, attrs, contents, holds_html: flags.mathml_annotation_xml_integration_point })
    }

    fn create_comment(&self, text: StrTendril) -> Id {
        self.add(Data::Comment(text))
    }

    fn append(&self, parent: &Id, child: NodeOrText<Id>) {
        let end = self.nodes.borrow()[*parent].children.len();
        self.insert(*parent, end, child);
    }

    fn append_before_sibling(&self, sibling: &Id, child: NodeOrText<Id>) {
        if let NodeOrText::AppendNode(id) = child {
            self.detach(id);
        }
        let parent = self.parent_of(*sibling).expect("a sibling has a parent");
        self.insert(parent, self.place_in(parent, *sibling), child);
    }

    fn append_based_on_parent_node(&self, element: &Id, previous: &Id, child: NodeOrText<Id>) {
        match self.parent_of(*element) {
            Some(_) => self.append_before_sibling(element, child),
            None => self.append(previous, child),
        }
    }

    fn append_doctype_to_document(&self, name: StrTendril, public_id: StrTendril, system_id: StrTendril) {
        let id = self.add(Data::Doctype { name, public_id, system_id });
        self.append(&0, NodeOrText::AppendNode(id));
    }

    fn add_attrs_if_missing(&self, id: &Id, more: Vec<Attribute>) {
        if let Data::Element { attrs, .. } = &mut self.nodes.borrow_mut()[*id].data {
            for it in more {
                if !attrs.iter().any(|old| old.name == it.name) {
                    attrs.push(it);
                }
            }
        }
    }

    fn get_template_contents(&self, id: &Id) -> Id {
        match self.nodes.borrow()[*id].data {
            Data::Element { contents: Some(contents), .. } => contents,
            _ => panic!("the contents of a node that isn't a template"),
        }
    }

    fn same_node(&self, one: &Id, other: &Id) -> bool {
        one == other
    }

    fn set_quirks_mode(&self, mode: QuirksMode) {
        self.quirks.set(mode);
    }

    fn remove_from_parent(&self, id: &Id) {
        self.detach(*id);
    }

    fn reparent_children(&self, id: &Id, parent: &Id) {
        let moved = std::mem::take(&mut self.nodes.borrow_mut()[*id].children);
        let mut nodes = self.nodes.borrow_mut();
        for child in &moved {
            nodes[*child].parent = Some(*parent);
        }
        nodes[*parent].children.extend(moved);
    }

    fn is_mathml_annotation_xml_integration_point(&self, id: &Id) -> bool {
        matches!(self.nodes.borrow()[*id].data, Data::Element { holds_html: true, .. })
    }
}
