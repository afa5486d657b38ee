"""Makes trees of lxml, ElementTree and BeautifulSoup from a Document or a Node.

>>> import hengaruto
>>> from hengaruto.trees import to_etree
>>> root = to_etree(hengaruto.parse("<title>A page</title><p class=x>One <b>bold</b> word"))
>>> root.find("body/p").attrib, root.findtext("head/title")
({'class': 'x'}, 'A page')

The content of a template is below it. The trees of lxml and ElementTree have neither the doctype nor the comments before and after the root
element: they begin with the root element.
"""
from __future__ import annotations

import re
from typing import Any, Callable, Dict, Iterator, List, Optional, Tuple, Union

from ._encoding import decoded
from ._tree import COMMENT, DOCTYPE, ELEMENT, FRAGMENT, NAMESPACES, TEXT, Document, Node, parse

_HTML = NAMESPACES[1]
# Namespaces of attributes.
_MARKED = (NAMESPACES[4], NAMESPACES[5], NAMESPACES[6])
_NO_XML = re.compile("[\x00-\x08\x0b\x0c\x0e-\x1f\ufffe\uffff\ud800-\udfff]")
_NAME = re.compile(r"[^\W\d][\w.-]*\Z")


def to_etree(tree: Union[Document, Node], *, namespaces: bool = False) -> Any:
    """Returns the root element, or the element of a Node, as an element of `xml.etree.ElementTree`; None if there is no element.

    The names of HTML elements have no namespace, unless `namespaces` is true. The names of SVG and MathML elements always have theirs.

    >>> [child.tag for child in to_etree(parse("<svg><a/></svg>")).find("body").iter()]
    ['body', '{http://www.w3.org/2000/svg}svg', '{http://www.w3.org/2000/svg}a']
    """
    import xml.etree.ElementTree as etree

    def comment(parent: Any, text: str) -> Any:
        node = etree.Comment(text)
        parent.append(node)
        return node

    return _built(tree, etree.Element, etree.SubElement, comment, namespaces, str, str)


def to_lxml(tree: Union[Document, Node], *, namespaces: bool = False) -> Any:
    """Returns the root element, or the element of a Node, as an element of `lxml.html`; None if there is no element.

    lxml accepts only what XML allows. Other characters become U+FFFD, and names are changed as html5lib changes them: `a<b` becomes
    `aU0003Cb`. In a comment, a space separates two dashes and follows a dash at the end.
    """
    import lxml.etree
    import lxml.html

    def comment(parent: Any, text: str) -> Any:
        node = lxml.etree.Comment(re.sub("-(?=-|$)", "- ", text))
        parent.append(node)
        return node

    return _built(tree, lxml.html.html_parser.makeelement, lxml.etree.SubElement, comment, namespaces, _as_xml, _xml_name)


def register_soup() -> type:
    """Registers a tree builder, and returns its class: after this, `bs4.BeautifulSoup(page, "hengaruto")` parses with this library.

    Bytes are decoded as by `hengaruto.decode`, with `from_encoding` in place of the HTTP header.
    """
    import bs4  # noqa: F401
    from bs4.builder import HTML, HTML_5, PERMISSIVE, HTMLTreeBuilder, builder_registry

    class HengarutoTreeBuilder(HTMLTreeBuilder):  # type: ignore[misc]
        NAME = "hengaruto"
        ALTERNATE_NAMES: List[str] = []
        features = [NAME, HTML, HTML_5, PERMISSIVE]

        def prepare_markup(
            self,
            markup: Union[str, bytes],
            user_specified_encoding: Optional[str] = None,
            document_declared_encoding: Optional[str] = None,
            exclude_encodings: Any = None,
        ) -> Iterator[Tuple[str, Optional[str], Optional[str], bool]]:
            encoding = None
            if isinstance(markup, bytes):
                markup, encoding = decoded(markup, user_specified_encoding)
            yield markup, encoding, document_declared_encoding, False

        def feed(self, markup: str) -> None:
            _feed(self.soup, parse(markup))

        def test_fragment_to_document(self, fragment: str) -> str:
            return f"<html><head></head><body>{fragment}</body></html>"

    builder_registry.register(HengarutoTreeBuilder)
    return HengarutoTreeBuilder


def _feed(soup: Any, document: Document) -> None:
    """Passes a tree to a soup."""
    from bs4.element import Comment, Doctype

    ends: List[Tuple[int, str]] = []
    for node in document.node.descendants():
        while ends and ends[-1][0] <= node.index:
            soup.handle_endtag(ends.pop()[1])
        kind = node.kind
        if kind == ELEMENT:
            name = node.name or ""
            soup.handle_starttag(name, node.namespace, None, node.attrs)
            ends.append((node._end(), name))
        elif kind == TEXT:
            soup.handle_data(node.text())
        elif kind == COMMENT:
            soup.endData()
            soup.handle_data(node.data)
            soup.endData(Comment)
        elif kind == DOCTYPE:
            soup.endData()
            soup.object_was_parsed(Doctype.for_name_and_ids(node.name, node.public_id or None, node.system_id or None))
    while ends:
        soup.handle_endtag(ends.pop()[1])


def _as_xml(text: str) -> str:
    """Returns the text, with U+FFFD for each character that XML doesn't allow."""
    return _NO_XML.sub("\ufffd", text)


def _xml_name(local: str) -> str:
    """Returns the name, or one that XML allows: with U0003C for `<`, as html5lib writes it."""
    if _NAME.match(local):
        return local
    head, tail = local[:1], local[1:]
    escaped = ["U%05X" % ord(char) for char in head if not (char.isalpha() or char == "_")] or [head]
    escaped += [char if char.isalnum() or char in "_.-" else "U%05X" % ord(char) for char in tail]
    return "".join(escaped)


def _built(
    tree: Union[Document, Node],
    make: Callable[..., Any],
    make_below: Callable[..., Any],
    comment: Callable[[Any, str], Any],
    namespaces: bool,
    allowed: Callable[[str], str],
    named: Callable[[str], str],
) -> Any:
    """Makes elements of an element and of all below it. `allowed` and `named` change texts and names that aren't allowed."""
    top = tree.root if isinstance(tree, Document) else tree
    if top is None or top.kind != ELEMENT:
        return None
    document = top.document
    kinds, parents, rows, row_names = document._kinds, document._parents, document._rows, document._row_names
    value, text_of = document._value, document._text
    spaces = [NAMESPACES[space] for space in document._spaces]
    plain = (None,) if namespaces else (None, _HTML)
    tags = [
        named(local) if space in plain else f"{{{space}}}{named(local)}"
        for space, local in zip(spaces, document._locals)
    ]
    keys = [
        f"{{{space}}}{named(local)}" if space in _MARKED else named(key)
        for space, local, key in zip(spaces, document._locals, document._keys)
    ]
    made: Dict[int, Any] = {}
    last: Dict[int, Any] = {}
    for index in range(top.index, top._end()):
        word = kinds[index]
        kind, above = word & 255, parents[index]
        if kind == ELEMENT:
            attrs = {keys[row_names[row]]: allowed(value(row)) for row in range(rows[index], rows[index + 1])}
            if index == top.index:
                made[index] = make(tags[word >> 8], attrs)
            else:
                made[index] = last[above] = make_below(made[above], tags[word >> 8], attrs)
        elif kind == TEXT:
            _append_text(made[above], last.get(above), allowed(text_of(index, index + 1)))
        elif kind == COMMENT:
            last[above] = comment(made[above], allowed(document[index].data or ""))
        elif kind == FRAGMENT:
            made[index] = made[above]
    return made[top.index]


def _append_text(parent: Any, before: Any, text: str) -> None:
    if before is None:
        parent.text = (parent.text or "") + text
    else:
        before.tail = (before.tail or "") + text
