"""A tree: a block of bytes, and lightweight objects that refer to it."""
from __future__ import annotations

import operator
import struct
from bisect import bisect_left, bisect_right
from enum import IntEnum
from itertools import islice
from typing import Any, Dict, Iterable, Iterator, List, Mapping, Optional, Sequence, Set, Tuple, TypeVar, Union, cast, overload

from . import _library
from ._encoding import declared
from ._forms import fields_of
from ._input import Input, Source, as_text, content, octets, utf8
from ._search import NameTest, Test, Wanted
from ._selectors import Selector, SelectorText, octets_of
from ._tables import rows_of



class NodeKind(IntEnum):
    """The kind of a node. The numbers are those of the DOM's nodeType."""

    ELEMENT = 1
    TEXT = 3
    PROCESSING_INSTRUCTION = 7
    COMMENT = 8
    DOCUMENT = 9
    DOCTYPE = 10
    FRAGMENT = 11


class Quirks(IntEnum):
    """The quirks mode of a document (DOM standard, section 4.5)."""

    NO_QUIRKS = 0
    LIMITED_QUIRKS = 1
    QUIRKS = 2


# They are shown and pickled with the names that callers know.
NodeKind.__module__ = Quirks.__module__ = "hengaruto"
ELEMENT, TEXT, PROCESSING_INSTRUCTION = NodeKind.ELEMENT, NodeKind.TEXT, NodeKind.PROCESSING_INSTRUCTION
COMMENT, DOCUMENT, DOCTYPE, FRAGMENT = NodeKind.COMMENT, NodeKind.DOCUMENT, NodeKind.DOCTYPE, NodeKind.FRAGMENT
NONE = 0xFFFFFFFF

NAMESPACES: Tuple[Optional[str], ...] = (
    None,
    "http://www.w3.org/1999/xhtml",
    "http://www.w3.org/1998/Math/MathML",
    "http://www.w3.org/2000/svg",
    "http://www.w3.org/1999/xlink",
    "http://www.w3.org/XML/1998/namespace",
    "http://www.w3.org/2000/xmlns/",
)
_PREFIXES = ("", "xlink:", "xml:", "xmlns:")
_KINDS = {
    TEXT: "text",
    PROCESSING_INSTRUCTION: "instruction",
    COMMENT: "comment",
    DOCUMENT: "document",
    DOCTYPE: "doctype",
    FRAGMENT: "fragment",
}
_CONTEXTS = {"": 1, "math": 2, "svg": 3}
# The words before the columns: the mark "HGT1", the length, the mode, and six counts.
_HEAD = struct.Struct("=4s8I")
_MARK = b"HGT1"
_KIND_OF = {int(kind): kind for kind in NodeKind}
# What a document reads from its block at the first use of any of them.
_COLUMNS = frozenset((
    "_kinds", "_parents", "_ends", "_texts", "_rows", "_row_names", "_row_ends", "_spaces", "_locals", "_keys", "_values_at", "_texts_at",
))
# The number of selectors whose elements a document keeps, at most.
_MOST_SELECTORS = 64
_K = TypeVar("_K")
_T = TypeVar("_T")
_D = TypeVar("_D")


def parse(page: Input, *, encoding: Optional[str] = None, scripting: bool = False, iframe_srcdoc: bool = False) -> Document:
    """Parses a page into the tree that browsers build. The page is a text or bytes, the path of a file (a `pathlib.Path`), or an open file.

    Bytes are decoded as the program decodes them: from the encoding of their byte order mark; or else from `encoding`, which is that of the
    HTTP header; or else from the one that the first 1,024 bytes declare; or else from UTF-8. `Document.encoding` has its name. An unknown
    `encoding` raises an `Error`, and one for a text a `TypeError`.

    Scripting is off by default, as in html5lib and lxml: the content of `noscript` is parsed into elements. With `scripting=True` it is
    text, as in a browser that runs scripts. With `iframe_srcdoc=True` the page is the srcdoc of an iframe.

    >>> parse("<title>A page</title><p>One <b>bold</b> word").to_html()
    '<html><head><title>A page</title></head><body><p>One <b>bold</b> word</p></body></html>'
    >>> parse("<noscript><p>x</p></noscript>").find("p").text()
    'x'
    >>> parse("<noscript><p>x</p></noscript>", scripting=True).find("p") is None
    True
    >>> doc = parse(b"<meta charset=latin1><p>caf\\xe9")
    >>> doc.find("p").text(), doc.encoding
    ('café', 'windows-1252')
    """
    source, options = content(page), _options(scripting, iframe_srcdoc)
    name = declared(source, encoding)
    if isinstance(source, str):
        source = utf8(source)
        return Document(_library.given("parse", source, len(source), options))
    label = (encoding or "").encode("utf-8")
    return Document(_library.given("parse_bytes", source, len(source), label, len(label), options), name)


def parse_fragment(page: Source, context: str = "div", *, scripting: bool = False) -> Document:
    """Parses a fragment, as innerHTML of an element does. `context` is the name of the element. For an element of SVG or MathML, `svg` or
    `math` and a space precede the name. Scripting is off by default, as in `parse`. An invalid context raises an `Error`.

    >>> parse_fragment("<td>1", "tr").to_html()
    '<td>1</td>'
    >>> parse_fragment("<td>1").to_html()
    '1'
    >>> parse_fragment("<circle r=1>", "svg svg").find("circle").namespace
    'http://www.w3.org/2000/svg'
    """
    page = utf8(page)
    space, _, name = as_text(context, "a context").rpartition(" ")
    if space not in _CONTEXTS:
        raise _library.Error(f"invalid context: {context!r}")
    local = utf8(name)
    return Document(
        _library.given("parse_fragment", page, len(page), local, len(local), _CONTEXTS[space], _options(scripting, False))
    )


def load(block: Union[bytes, bytearray, memoryview]) -> Document:
    """Returns the tree of a block: the bytes of `Document.block`, from a file or from another process.

    Any bytes may be passed. The library checks all of them once, and bytes that don't have the structure of a block raise an `Error`, which
    is a `ValueError`.

    >>> load(parse("<p>x").block).find("p").text()
    'x'
    >>> load(b"a page")
    Traceback (most recent call last):
    ...
    hengaruto.Error: not a tree: invalid block
    """
    block = octets(block, "a block")
    if not _library.is_tree(block):
        raise _library.Error("not a tree: invalid block")
    return Document(block)


def _restored(block: bytes, encoding: Optional[str]) -> Document:
    """Returns a document that was pickled."""
    document = load(block)
    document.encoding = encoding
    return document


def _options(scripting: bool, iframe_srcdoc: bool) -> int:
    return (1 if scripting else 0) | (2 if iframe_srcdoc else 0)


class Document:
    """A tree that `parse`, `parse_fragment` or `load` returned. It never changes, any number of threads may read it, and it can be pickled.

    >>> doc = parse("<!DOCTYPE html><title> A  page </title><p class=x>One<p>Two")
    >>> doc
    <hengaruto.Document of 11 nodes>
    >>> doc.title, doc.quirks.name, len(doc)
    ('A page', 'NO_QUIRKS', 11)
    >>> [node.name for node in doc.iter()]
    ['html', 'head', 'title', 'body', 'p', 'p']
    """

    __slots__ = (
        "block", "quirks", "scripting", "encoding", "_count", "_kinds", "_parents", "_ends", "_texts", "_rows", "_row_names", "_row_ends",
        "_spaces", "_locals", "_keys", "_values_at", "_texts_at", "_words", "_asked", "_known",
    )

    block: bytes
    """The tree as bytes. `load` makes a Document of them again."""
    quirks: Quirks
    """The quirks mode of the page."""
    scripting: bool
    """True if the page was parsed with `scripting=True`. The HTML of a `noscript` depends on it."""
    encoding: Optional[str]
    """The name of the encoding from which `parse` decoded the page, as the Encoding Standard writes it. None if the page was a text, or if
    the document is a fragment or comes from `load`."""

    def __init__(self, block: bytes, encoding: Optional[str] = None) -> None:
        if len(block) < _HEAD.size or block[:4] != _MARK:
            raise _library.Error("not a tree: invalid block")
        _, length, mode, nodes, rows, names, *pools = _HEAD.unpack_from(block)
        if length != len(block) or _HEAD.size + 4 * (5 * nodes + 2 + 2 * rows + 2 * names) + sum(pools) != length:
            raise _library.Error("not a tree: invalid block")
        self.block, self.scripting, self.encoding = block, mode // 4 % 2 == 1, encoding
        self._count: int = nodes
        self.quirks = Quirks(mode % 4 % 3)
        self._words: Optional[Dict[str, List[int]]] = None
        self._asked: Set[bytes] = set()
        self._known: Dict[bytes, Optional[memoryview]] = {}

    def __getattr__(self, name: str) -> Any:
        # Many pages are parsed and only written again, or only selected in, so the columns are read when one is first used.
        if name not in _COLUMNS:
            raise AttributeError(f"{type(self).__name__!r} object has no attribute {name!r}")
        self._read_columns()
        return getattr(self, name)

    def _read_columns(self) -> None:
        view = memoryview(self.block)
        words = view[: len(view) // 4 * 4].cast("I")
        nodes, rows, names = words[3], words[4], words[5]
        parts, at = [], _HEAD.size // 4
        for count in (nodes, nodes, nodes, nodes + 1, nodes + 1, rows, rows, names, names):
            parts.append(words[at : at + count])
            at += count
        self._kinds, self._parents, self._ends, self._texts, self._rows, self._row_names, self._row_ends, spaces, name_ends = parts
        pools = 4 * at
        self._values_at = pools + words[6]
        self._texts_at = self._values_at + words[7]
        starts = [pools, *(pools + end for end in name_ends)]
        self._spaces = [space & 255 for space in spaces]
        self._locals = [str(view[starts[i] : starts[i + 1]], "utf-8", "replace") for i in range(names)]
        self._keys = [_item(_PREFIXES, space >> 8, "") + local for space, local in zip(spaces, self._locals)]

    def __reduce__(self) -> Tuple[Any, ...]:
        return _restored, (self.block, self.encoding)

    def _matching(self, text: bytes) -> Optional[memoryview]:
        """The numbers of all elements of the document that a selector matches, from its second use on. None at its first use, or if the
        elements below a node aren't those of the whole document that are below it.

        Each call of the library reads the whole block once. So a loop over the rows of a table, each with the same selector, would take a
        time that is quadratic in the number of rows.
        """
        asked, known = self._asked, self._known
        if text in known:
            return known[text]
        if text not in asked:
            if len(asked) < _MOST_SELECTORS:
                asked.add(text)
            else:
                self._asked, self._known = {text}, {}
            return None
        # `:scope` may also be written with an escape; the content of a template isn't below the document.
        has_scope = b":scope" in text.lower() or b"\\" in text
        if has_scope or any(kind & 255 == FRAGMENT for kind in self._kinds[1:]):
            known[text] = None
        else:
            known[text] = memoryview(self.node._selected("select", text)).cast("I")
        return known[text]

    def __len__(self) -> int:
        return self._count

    def __repr__(self) -> str:
        return f"<hengaruto.Document of {self._count} nodes>"

    def __getitem__(self, index: int) -> Node:
        """The node with this number. Numbers are in tree order, from 0, which is the document itself."""
        number = operator.index(index)
        if not 0 <= number < self._count:
            raise IndexError(f"no node {number}")
        return Node(self, number)

    def __iter__(self) -> Iterator[Node]:
        """All nodes, of all kinds, in tree order."""
        return (Node(self, number) for number in range(self._count))

    @property
    def node(self) -> Node:
        """The document node; for a fragment, the fragment node."""
        return Node(self, 0)

    @property
    def root(self) -> Optional[Node]:
        """The html element; for a fragment, its first top-level element, or None.

        >>> parse("").root.name, parse_fragment("x").root
        ('html', None)
        """
        return next((child for child in self.node.children() if child.kind == ELEMENT), None)

    @property
    def title(self) -> Optional[str]:
        """The text of the first HTML title, with each run of whitespace as one space and none at the ends, or None."""
        html = NAMESPACES[1]
        found = next((node for node in self.iter("title") if node.namespace == html), None)
        return None if found is None else " ".join(found.text().split())

    def iter(self, name: Optional[str] = None) -> Iterator[Node]:
        """All elements in tree order, or only those with this local name."""
        return self.node.iter(name)

    def find(
        self, name: NameTest = None, attrs: Union[None, Test, Mapping[str, Test]] = None, *, recursive: bool = True, string: Test = None,
        **attributes: Test,
    ) -> Optional[Node]:
        """The first node that `find_all` returns, or None."""
        return self.node.find(name, attrs, recursive=recursive, string=string, **attributes)

    def find_all(
        self, name: NameTest = None, attrs: Union[None, Test, Mapping[str, Test]] = None, *, recursive: bool = True, string: Test = None,
        limit: Optional[int] = None, **attributes: Test,
    ) -> List[Node]:
        """The elements with this name and these attributes, as `Node.find_all` returns them."""
        return self.node.find_all(name, attrs, recursive=recursive, string=string, limit=limit, **attributes)

    def select(self, selector: SelectorText) -> List[Node]:
        """The elements that a CSS selector matches, each once, in tree order. An invalid selector raises a `SelectorError`, and a block
        that `load` rejects an `Error`.

        >>> doc = parse("<ul><li>1<li class=x>2<li>3</ul>")
        >>> [node.text() for node in doc.select("li.x, li:first-child")]
        ['1', '2']
        """
        return self.node.select(selector)

    @overload
    def select_all(self, selectors: Mapping[_K, SelectorText]) -> Dict[_K, List[Node]]: ...

    @overload
    def select_all(self, selectors: Iterable[SelectorText]) -> List[List[Node]]: ...

    def select_all(self, selectors: Any) -> Any:
        """The elements that each of several CSS selectors matches, as `Node.select_all` returns them.

        >>> found = parse("<h1>Teas</h1><ul><li>Black<li>Green</ul>").select_all({"title": "h1", "teas": "li"})
        >>> {key: [node.text() for node in nodes] for key, nodes in found.items()}
        {'title': ['Teas'], 'teas': ['Black', 'Green']}
        """
        return self.node.select_all(selectors)

    def select_first(self, selector: SelectorText) -> Optional[Node]:
        """The first element that a CSS selector matches, or None."""
        return self.node.select_first(selector)

    css = select
    select_one = css_first = select_first

    @property
    def strings(self) -> Iterator[str]:
        """The texts, in tree order."""
        return self.node.strings

    @property
    def stripped_strings(self) -> Iterator[str]:
        """The texts without the whitespace at their ends, and without those that are only whitespace."""
        return self.node.stripped_strings

    def get_text(self, separator: str = "", strip: bool = False) -> str:
        """The texts, with a separator between them; with `strip`, the stripped ones."""
        return self.node.get_text(separator, strip)

    def comments(self) -> List[str]:
        """The comments, in tree order."""
        return self.node.comments()

    def base(self, url: str = "") -> str:
        """The URL against which links are resolved: that of the first `base` with an href, resolved against the URL of the page.

        >>> parse("<base href=/docs/>").base("https://example.org/a")
        'https://example.org/docs/'
        """
        html = NAMESPACES[1]
        for node in self.iter("base"):
            href = node.get("href")
            if href is not None and node.namespace == html:
                return _joined(url, href)
        return url

    def absolute_links(self, url: str = "") -> List[Tuple[str, str]]:
        """The links of a page with this URL: pairs of an absolute URL and the text, with each run of whitespace as one space.

        >>> parse("<a href=' x '>a\\n link</a>").absolute_links("https://example.org/y/z")
        [('https://example.org/y/x', 'a link')]
        """
        base = self.base(url)
        return [(_joined(base, href), " ".join(text.split())) for href, text in self.links()]

    def text(self) -> str:
        """All texts, joined and unchanged. `hengaruto.text` lays a page out as a browser shows it.

        >>> parse("<p>One <b>bold</b><p>word").text()
        'One boldword'
        """
        return self.node.text()

    def to_html(self) -> str:
        """The tree as HTML."""
        return self.node.inner_html()

    def links(self) -> Iterator[Tuple[str, str]]:
        """The links, which are the HTML elements `a` with an href: pairs of href and text, unchanged.

        >>> list(parse("<p><a href='x?a&amp;b'>a <b>link</b></a>").links())
        [('x?a&b', 'a link')]
        """
        html = NAMESPACES[1]
        for node in self.iter("a"):
            href = node.get("href")
            if href is not None and node.namespace == html:
                yield href, node.text()

    def _words_of(self, name: str) -> List[int]:
        """The kind words of the elements with this local name."""
        if self._words is None:
            words: Dict[str, List[int]] = {}
            for number, local in enumerate(self._locals):
                words.setdefault(local, []).append(ELEMENT + 256 * number)
            self._words = words
        return self._words.get(name, [])

    def _text(self, node: int, end: int) -> str:
        start, stop = self._texts[node], self._texts[min(end, self._count)]
        return str(memoryview(self.block)[self._texts_at + start : self._texts_at + stop], "utf-8", "replace")

    def _value(self, row: int) -> str:
        start, stop = self._row_ends[row - 1] if row else 0, self._row_ends[row]
        return str(memoryview(self.block)[self._values_at + start : self._values_at + stop], "utf-8", "replace")


class Node:
    """A node of a document: a number in its block. Nodes are equal if they are the same node of the same document.

    >>> p = parse("<p class=a id=b>One <b>bold</b> word").find("p")
    >>> p
    <hengaruto.Node p 4>
    >>> p["class"], p.get("title"), "id" in p, p.attrs
    ('a', None, True, {'class': 'a', 'id': 'b'})
    >>> [child.kind == TEXT for child in p]
    [True, False, True]
    >>> p.find("b").parent == p
    True
    """

    __slots__ = ("document", "index")

    document: Document
    index: int

    def __init__(self, document: Document, index: int) -> None:
        self.document, self.index = document, index

    def __eq__(self, other: object) -> bool:
        return isinstance(other, Node) and other.index == self.index and other.document is self.document

    def __hash__(self) -> int:
        return hash((id(self.document), self.index))

    def __repr__(self) -> str:
        kind = self.kind
        name = self.name if kind == ELEMENT else "#" + _KINDS.get(kind, str(kind))
        return f"<hengaruto.Node {name} {self.index}>"

    @property
    def kind(self) -> NodeKind:
        """The kind, which is a number, too: `node.kind == hengaruto.TEXT` is the same as `node.kind == 3`."""
        number = self.document._kinds[self.index] & 255
        return cast(NodeKind, _KIND_OF.get(number, number))

    @property
    def name(self) -> Optional[str]:
        """The local name of an element, in lower case for HTML; the name of a doctype; for other nodes None."""
        word = self.document._kinds[self.index]
        if word & 255 == ELEMENT:
            return _item(self.document._locals, word >> 8, "")
        return self._row(0) if word & 255 == DOCTYPE else None

    @property
    def namespace(self) -> Optional[str]:
        """The URL of an element's namespace; for other nodes None.

        >>> parse("<svg>").find("svg").namespace
        'http://www.w3.org/2000/svg'
        """
        word = self.document._kinds[self.index]
        if word & 255 != ELEMENT:
            return None
        return _item(NAMESPACES, _item(self.document._spaces, word >> 8, 0), None)

    @property
    def attrs(self) -> Dict[str, str]:
        """The attributes as a new dict, in their order. The name of one in a namespace has its prefix, such as `xlink:href`."""
        document = self.document
        if self.kind != ELEMENT:
            return {}
        keys, names = document._keys, document._row_names
        return {_item(keys, names[row], ""): document._value(row) for row in self._row_range()}

    @overload
    def get(self, name: str, default: str) -> str: ...

    @overload
    def get(self, name: str, default: Optional[str] = None) -> Optional[str]: ...

    def get(self, name: str, default: Optional[str] = None) -> Optional[str]:
        """The value of an attribute, or `default` if the node doesn't have it."""
        document = self.document
        if self.kind == ELEMENT:
            keys, names = document._keys, document._row_names
            for row in self._row_range():
                if _item(keys, names[row], None) == name:
                    return document._value(row)
        return default

    def __getitem__(self, name: str) -> str:
        value = self.get(name)
        if value is None:
            raise KeyError(name)
        return value

    def __contains__(self, name: object) -> bool:
        return isinstance(name, str) and self.get(name) is not None

    @property
    def data(self) -> Optional[str]:
        """The text of a text, a comment or a processing instruction; for other nodes None.

        >>> parse("<!--c-->").node.children().__next__().data
        'c'
        """
        kind = self.kind
        if kind == TEXT:
            return self.text()
        return self._row(0) if kind == COMMENT else self._row(1) if kind == PROCESSING_INSTRUCTION else None

    @property
    def public_id(self) -> Optional[str]:
        """The public identifier of a doctype, empty if it has none; for other nodes None."""
        return self._row(1) if self.kind == DOCTYPE else None

    @property
    def system_id(self) -> Optional[str]:
        """The system identifier of a doctype, empty if it has none; for other nodes None."""
        return self._row(2) if self.kind == DOCTYPE else None

    @property
    def parent(self) -> Optional[Node]:
        """The parent, or None."""
        above = self.document._parents[self.index]
        return Node(self.document, above) if above < self.index else None

    @property
    def next(self) -> Optional[Node]:
        """The next sibling, or None."""
        document, end = self.document, self._end()
        if end < document._count and document._parents[end] == document._parents[self.index]:
            return Node(document, end)
        return None

    @property
    def previous(self) -> Optional[Node]:
        """The previous sibling, or None."""
        before, above = None, self.parent
        for node in above.children() if above is not None else ():
            if node.index == self.index:
                return before
            before = node
        return None

    @property
    def next_element(self) -> Optional[Node]:
        """The next sibling that is an element, or None.

        >>> parse("<b></b>x<!--c--><i></i>").find("b").next_element.name
        'i'
        """
        node = self.next
        while node is not None and node.kind != ELEMENT:
            node = node.next
        return node

    @property
    def previous_element(self) -> Optional[Node]:
        """The previous sibling that is an element, or None."""
        before, above = None, self.parent
        for node in above.elements if above is not None else ():
            if node.index >= self.index:
                break
            before = node
        return before

    @property
    def elements(self) -> List[Node]:
        """The children that are elements, in order."""
        return [child for child in self.children() if child.kind == ELEMENT]

    def children(self) -> Iterator[Node]:
        """The children, in order. A template's only child is a FRAGMENT, its contents."""
        document, at, end = self.document, self.index + 1, self._end()
        while at < end:
            child = Node(document, at)
            yield child
            at = child._end()

    __iter__ = children

    def ancestors(self) -> Iterator[Node]:
        """The ancestors, the nearest first.

        >>> [node.name for node in parse("<p><b>x").find("b").ancestors()]
        ['p', 'body', 'html', None]
        """
        above = self.parent
        while above is not None:
            yield above
            above = above.parent

    def descendants(self) -> Iterator[Node]:
        """All nodes below this one, of all kinds, in tree order."""
        document = self.document
        return (Node(document, index) for index in range(self.index + 1, self._end()))

    def iter(self, name: Optional[str] = None) -> Iterator[Node]:
        """All elements below this node in tree order, or only those with this local name."""
        document, start = self.document, self.index + 1
        kinds = document._kinds[start : self._end()]
        if name is None:
            return (Node(document, index) for index, word in enumerate(kinds, start) if word & 255 == ELEMENT)
        words = document._words_of(name)
        if len(words) == 1:
            wanted = words[0]
            return (Node(document, index) for index, word in enumerate(kinds, start) if word == wanted)
        return (Node(document, index) for index, word in enumerate(kinds, start) if word in words)

    def find(
        self, name: NameTest = None, attrs: Union[None, Test, Mapping[str, Test]] = None, *, recursive: bool = True, string: Test = None,
        **attributes: Test,
    ) -> Optional[Node]:
        """The first node that `find_all` returns, or None."""
        if isinstance(name, str) and attrs is None and string is None and recursive and not attributes:
            return next(self.iter(name), None)
        return next(self._wanted(Wanted(name, attrs, string, attributes), recursive), None)

    def find_all(
        self, name: NameTest = None, attrs: Union[None, Test, Mapping[str, Test]] = None, *, recursive: bool = True, string: Test = None,
        limit: Optional[int] = None, **attributes: Test,
    ) -> List[Node]:
        """The elements below this node with this name and these attributes, in tree order.

        A test of the name or of an attribute is a str, a compiled pattern, a list of these, a bool, None or a function; see `Test`. Tests
        of attributes are a dict, or further arguments; `class_`, or a test in place of the dict, is a test of the class. With `string`, the
        element's `string` fits it, too; if there are no other tests, the texts that fit it are returned. With `recursive=False` only
        children are searched, and no more than `limit` nodes are returned. What is none of these raises a TypeError.

        >>> doc = parse("<p class='a b'>One<p id=x>Two<a href=/y>there</a>")
        >>> [node.name for node in doc.find_all(["p", "a"], limit=2)]
        ['p', 'p']
        >>> doc.find_all("p", class_="b"), doc.find_all("p", "b") == doc.find_all("p", {"class": "b"})
        ([<hengaruto.Node p 4>], True)
        >>> doc.find(href=True)["href"], doc.find(id="x").text(), doc.find("p", string="One")["class"]
        ('/y', 'Twothere', 'a b')
        >>> doc.find_all(7)
        Traceback (most recent call last):
        ...
        TypeError: name must be a str, a compiled pattern, a list of these, a bool or a function, not int
        """
        if limit is not None and (isinstance(limit, bool) or not isinstance(limit, int)):
            raise TypeError(f"limit must be an int, not {type(limit).__name__}")
        found = self._wanted(Wanted(name, attrs, string, attributes), recursive)
        return list(islice(found, limit) if limit else found)

    def _wanted(self, wanted: Wanted, recursive: bool) -> Iterator[Node]:
        below = self.descendants() if recursive else self.children()
        if wanted.is_text():
            return (node for node in below if node.kind == TEXT and wanted.fits_text(node))
        if recursive and isinstance(wanted.name, str):
            below = self.iter(wanted.name)
        return (node for node in below if node.kind == ELEMENT and wanted.fits(node))

    def select(self, selector: SelectorText) -> List[Node]:
        """The elements below this node that a CSS selector matches, each once, in tree order. An invalid selector raises a
        `SelectorError`, and a block that `load` rejects an `Error`.

        >>> [node["href"] for node in parse("<nav><a href=x></a></nav><a href=y></a>").find("nav").select("a[href]")]
        ['x']
        """
        text = octets_of(selector)
        matching = self._matching(text)
        if matching is None:
            return self._nodes(memoryview(self._selected("select", text)).cast("I"))
        return self._nodes(matching[bisect_right(matching, self.index) : bisect_left(matching, self._end())])

    @overload
    def select_all(self, selectors: Mapping[_K, SelectorText]) -> Dict[_K, List[Node]]: ...

    @overload
    def select_all(self, selectors: Iterable[SelectorText]) -> List[List[Node]]: ...

    def select_all(self, selectors: Any) -> Any:
        """The elements below this node that each of several CSS selectors matches: a list of what `select` returns for each, or, for a
        dict of selectors, a dict with the same keys. This is faster than many calls of `select`. If a selector is invalid, the message of
        the `SelectorError` begins with which one it is.

        >>> doc = parse("<p>One <b>bold</b> word<p>Two")
        >>> [len(nodes) for nodes in doc.node.select_all(["p", "b", "i"])]
        [2, 1, 0]
        >>> doc.node.select_all(["p", "b >"])
        Traceback (most recent call last):
        ...
        hengaruto.SelectorError: selector 2: at offset 3: expected a selector
        """
        if isinstance(selectors, Mapping):
            return dict(zip(selectors, self.select_all(list(selectors.values()))))
        if isinstance(selectors, (str, bytes, Selector)):
            raise TypeError(f"selectors must be a list or a dict of selectors, not {type(selectors).__name__}")
        # A NUL means U+FFFD in a selector, and separates selectors here.
        texts = [octets_of(it).replace(b"\0", b"\xef\xbf\xbd") for it in selectors]
        if not texts:
            return []
        words = memoryview(self._selected("select_all", b"\0".join(texts))).cast("I")
        found, at = [], 0
        for _ in texts:
            end = at + 1 + words[at]
            found.append(self._nodes(words[at + 1 : end]))
            at = end
        return found

    def select_first(self, selector: SelectorText) -> Optional[Node]:
        """The first element below this node that a CSS selector matches, or None.

        >>> parse("<p>x<p>y").select_first("p + p").text()
        'y'
        """
        text = octets_of(selector)
        matching = self._matching(text)
        if matching is None:
            return self._found("select_first", text)
        first = matching[bisect_right(matching, self.index) : bisect_left(matching, self._end())][:1]
        return Node(self.document, first[0]) if first else None

    css = select
    select_one = css_first = select_first

    def matches(self, selector: SelectorText) -> bool:
        """Returns true if a CSS selector matches this element in its document. `:scope` is the element itself.

        >>> parse("<p>x<p>y").select_first("p + p").matches("p:last-child")
        True
        """
        text = octets_of(selector)
        matching = self._matching(text)
        if matching is None:
            return _library.number("matches", self.document.block, self.index, text) == 1
        return len(matching[bisect_left(matching, self.index) : bisect_right(matching, self.index)]) == 1

    def closest(self, selector: SelectorText) -> Optional[Node]:
        """The nearest of this node and its ancestors that a CSS selector matches, or None.

        >>> parse("<div id=a><p><b>x").find("b").closest("[id]").name
        'div'
        """
        return self._found("closest", octets_of(selector))

    def text(self) -> str:
        """The text of a text node; for other nodes, all texts below them, joined."""
        return self.document._text(self.index, self._end())

    @property
    def string(self) -> Optional[str]:
        """The text of a text or a comment, and that of a node whose only child has one; for other nodes None.

        >>> parse("<p><b>x</b></p>").find("p").string, parse("<p>x<b>y</b></p>").find("p").string
        ('x', None)
        """
        node, end = self, self._end()
        while node.kind not in (TEXT, COMMENT):
            first = node.index + 1
            if first >= end or self.document[first]._end() < end:
                return None
            node = self.document[first]
        return node.data

    @property
    def strings(self) -> Iterator[str]:
        """The texts below this node, in tree order; of a text node its own."""
        if self.kind == TEXT:
            return iter((self.text(),))
        return (node.text() for node in self.descendants() if node.kind == TEXT)

    @property
    def stripped_strings(self) -> Iterator[str]:
        """The same without the whitespace at their ends, and without those that are only whitespace.

        >>> list(parse("<ul> <li>Tea <li> 4.00</ul>").find("ul").stripped_strings)
        ['Tea', '4.00']
        """
        return (text for text in map(str.strip, self.strings) if text)

    def get_text(self, separator: str = "", strip: bool = False) -> str:
        """The texts, with a separator between them; with `strip`, the stripped ones.

        >>> parse("<tr><td>Tea<td>4.00").get_text(), parse("<table><tr><td>Tea<td>4.00").get_text(" ", strip=True)
        ('Tea4.00', 'Tea 4.00')
        """
        return as_text(separator, "a separator").join(self.stripped_strings if strip else self.strings)

    def comments(self) -> List[str]:
        """The comments below this node, in tree order.

        >>> parse("<p>x<!--c-->").find("p").comments()
        ['c']
        """
        return [node.data or "" for node in self.descendants() if node.kind == COMMENT]

    def rows(self) -> List[List[str]]:
        """The rows of a table, each with the texts of its cells, words separated by one space. A cell that spans rows or columns stands in
        each of them. Raises TypeError if this isn't a table.

        >>> parse("<table><tr><th rowspan=2>Tea<td>4.00<tr><td>5.00").find("table").rows()
        [['Tea', '4.00'], ['Tea', '5.00']]
        """
        return rows_of(self._named("table", "rows"))

    def fields(self) -> List[Tuple[str, str]]:
        """What a form sends if no button is pressed: the names and values of its controls, in tree order. Files aren't sent. Raises
        TypeError if this isn't a form.

        >>> parse("<form><input name=q value=tea><input type=checkbox name=all checked><button name=b></form>").find("form").fields()
        [('q', 'tea'), ('all', 'on')]
        """
        return fields_of(self._named("form", "fields"))

    def _named(self, name: str, call: str) -> Node:
        """This node. Raises TypeError if it isn't an element with this name."""
        if self.kind != ELEMENT or self.name != name:
            raise TypeError(f"{call}() is a call of a {name}, not of {self!r}")
        return self

    def to_html(self) -> str:
        """The HTML of this node and all below it, as outerHTML.

        >>> parse("<p>1 &lt; 2<br>").find("p").to_html()
        '<p>1 &lt; 2<br></p>'
        """
        return self._html(1)

    def inner_html(self) -> str:
        """The HTML of the nodes below this one, as innerHTML."""
        return self._html(0)

    def _html(self, outer: int) -> str:
        block = self.document.block
        return str(_library.given("html", block, len(block), self.index, outer), "utf-8", "replace")

    def _selected(self, name: str, text: bytes) -> bytes:
        block = self.document.block
        return _library.given(name, block, len(block), self.index, text, len(text))

    def _matching(self, text: bytes) -> Optional[memoryview]:
        """As `Document._matching`. The document itself is asked by calls of the library: there is no smaller part of it to read."""
        return self.document._matching(text) if self.index else None

    def _found(self, name: str, text: bytes) -> Optional[Node]:
        """The node whose number a call returns."""
        number = _library.number(name, self.document.block, self.index, text)
        return None if number == NONE else Node(self.document, number)

    def _nodes(self, numbers: Iterable[int]) -> List[Node]:
        document = self.document
        return [Node(document, number) for number in numbers]

    def _end(self) -> int:
        """The number of the first node after the subtree."""
        return max(self.document._ends[self.index], self.index + 1)

    def _row_range(self) -> range:
        rows = self.document._rows
        return range(rows[self.index], min(rows[self.index + 1], len(self.document._row_names)))

    def _row(self, index: int) -> Optional[str]:
        rows = self._row_range()
        return self.document._value(rows[index]) if index < len(rows) else None


def _joined(base: str, href: str) -> str:
    """The absolute URL of a link; the link unchanged if it can't be resolved."""
    # This module takes a sixth of the time in which the package would be imported.
    from urllib.parse import urljoin

    href = href.strip(" \t\n\f\r")
    try:
        return urljoin(base, href)
    except ValueError:
        return href


def _item(items: Sequence[_T], index: int, default: _D) -> Union[_T, _D]:
    """An item, or the default if there is no such item: a changed block may refer to one."""
    return items[index] if index < len(items) else default
