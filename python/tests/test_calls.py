"""Each call of the package."""
from __future__ import annotations

import pickle
from typing import Any, Callable, Tuple

import pytest
from optional import the

import hengaruto
from hengaruto import COMMENT, DOCTYPE, DOCUMENT, ELEMENT, FRAGMENT, TEXT, Document, Source

PAGE = (
    '<!DOCTYPE html PUBLIC "p" "s"><title> A  page </title><p class=a id=b>One <b>bold</b> word<p>two <a href="x?a&amp;b">link</a><!--c-->'
    "<template><i>in</i></template><svg xlink:href=y><a/></svg>"
)


@pytest.fixture
def doc() -> Document:
    return hengaruto.parse(PAGE)


def test_document(doc: Document) -> None:
    assert doc.title == "A page" and doc.quirks == 0 and len(doc) > 10
    assert doc.node.kind == DOCUMENT and the(doc.root).name == "html" and doc[0] == doc.node
    assert repr(doc) == f"<hengaruto.Document of {len(doc)} nodes>"
    with pytest.raises(IndexError):
        doc[len(doc)]
    with pytest.raises(IndexError):
        doc[-1]
    assert hengaruto.parse("").title is None and hengaruto.parse("").quirks == 2
    assert repr(hengaruto.parse("").quirks) == "<Quirks.QUIRKS: 2>" and doc.node.kind.name == "DOCUMENT"
    assert pickle.loads(pickle.dumps(doc.node.kind)) is hengaruto.NodeKind.DOCUMENT


def test_attributes(doc: Document) -> None:
    p = the(doc.find("p"))
    assert p.attrs == {"class": "a", "id": "b"} and p["id"] == "b" and "id" in p and "none" not in p and 1 not in p
    assert p.get("none") is None and p.get("none", "x") == "x"
    with pytest.raises(KeyError):
        p["none"]
    assert the(doc.find("svg")).attrs == {"xlink:href": "y"} and the(doc.find("svg"))["xlink:href"] == "y"
    assert doc.node.attrs == {} and doc.node.get("id") is None


def test_texts(doc: Document) -> None:
    p = the(doc.find("p"))
    assert p.text() == "One bold word" and the(p.find("b")).text() == "bold" and next(p.children()).text() == "One "
    assert doc.text().startswith(" A  page One bold wordtwo link")
    assert the(hengaruto.parse("<p>日本語 😀 é").find("p")).text() == "日本語 😀 é"


def test_places(doc: Document) -> None:
    p = the(doc.find("p"))
    assert [child.kind for child in p.children()] == [TEXT, ELEMENT, TEXT] == [child.kind for child in p]
    assert the(p.next).name == "p" and the(p.next).next is None and the(p.parent).name == "body"
    assert [node.name for node in the(doc.find("b")).ancestors()] == ["p", "body", "html", None]
    assert [node.index for node in p.descendants()] == list(range(p.index + 1, the(p.next).index))
    assert len({p, doc.find("p"), doc.find("b")}) == 2 and p != hengaruto.parse(PAGE).find("p") and p != 5


def test_kinds(doc: Document) -> None:
    doctype = next(doc.node.children())
    assert (doctype.kind, doctype.name, doctype.public_id, doctype.system_id) == (DOCTYPE, "html", "p", "s")
    assert the(doc.find("p")).public_id is None and the(doc.find("p")).system_id is None
    comment = next(node for node in doc.node.descendants() if node.kind == COMMENT)
    assert comment.data == "c" and comment.text() == "" and comment.name is None and comment.namespace is None
    assert next(the(doc.find("b")).children()).data == "bold" and the(doc.find("b")).data is None
    contents = next(the(doc.find("template")).children())
    assert contents.kind == FRAGMENT and [node.name for node in contents] == ["i"]
    assert "#comment" in repr(comment) and " p " in repr(doc.find("p"))
    assert the(the(doc.find("svg")).namespace).endswith("svg") and the(the(doc.find("p")).namespace).endswith("xhtml")


def test_names(doc: Document) -> None:
    assert [node.name for node in doc.iter()] == ["html", "head", "title", "body", "p", "b", "p", "a", "template", "i", "svg", "a"]
    assert [the(node.namespace)[-4:] for node in doc.iter("a")] == ["html", "/svg"]
    assert doc.find_all("none") == [] and doc.find("none") is None
    assert [node.name for node in the(doc.find("svg")).iter()] == ["a"] and the(doc.find("svg")).find_all("p") == []


def test_links(doc: Document) -> None:
    assert list(doc.links()) == [("x?a&b", "link")]
    assert hengaruto.links(PAGE) == [("x?a&b", "link")] and hengaruto.links("") == []


def test_html(doc: Document) -> None:
    assert the(doc.find("b")).to_html() == "<b>bold</b>" and the(doc.find("p")).inner_html() == "One <b>bold</b> word"
    assert hengaruto.parse(doc.to_html()).to_html() == doc.to_html()
    for _ in range(1000):
        assert the(hengaruto.parse("<br>").find("br")).inner_html() == ""


def test_select(doc: Document) -> None:
    assert [node.name for node in doc.select("p, b")] == ["p", "b", "p"] and doc.select("table") == []
    assert the(doc.select_first("p > b")).text() == "bold" and doc.select_first("p > table") is None
    p = the(doc.find("p"))
    assert p.select("b") == [doc.find("b")] and p.select("a") == [] and the(the(p.next).select_first("a"))["href"] == "x?a&b"
    # The selector matches elements of both namespaces, and the content of a template isn't below the document.
    assert len(doc.select("a")) == 2 and doc.select("i") == []


@pytest.mark.parametrize("selector", ["", "p >", "p::", "[a=", "a,,b", ":nope", "p:nth-child(", "\ud800", "\ufffd >"])
def test_wrong_selectors(doc: Document, selector: str) -> None:
    root = the(doc.root)
    calls: Tuple[Callable[[str], object], ...] = (doc.select, doc.select_first, root.select, root.select_first)
    for call in calls:
        with pytest.raises(hengaruto.SelectorError) as caught:
            call(selector)
        assert isinstance(caught.value, ValueError) and isinstance(caught.value, hengaruto.Error)
        # The message has the offset.
        assert any(map(str.isdigit, str(caught.value)))


def test_scripting() -> None:
    page = "<body><noscript><p>x</p></noscript>"
    assert the(hengaruto.parse(page).find("p")).text() == "x" and hengaruto.parse(page, scripting=True).find("p") is None
    assert hengaruto.parse_fragment("<noscript><p>x", scripting=True).find("p") is None
    assert hengaruto.parse("<p>x", iframe_srcdoc=True).quirks == 0
    # A text in a noscript that was parsed without scripting is escaped again.
    text = "<body><noscript>&lt;img src=x onerror=alert(1)&gt;</noscript>"
    for scripting in (False, True):
        doc = hengaruto.parse(text, scripting=scripting)
        assert doc.scripting is scripting and hengaruto.load(doc.block).scripting is scripting
        assert the(doc.find("noscript")).to_html() == "<noscript>&lt;img src=x onerror=alert(1)&gt;</noscript>"
        assert hengaruto.parse(doc.to_html(), scripting=scripting).to_html() == doc.to_html()


def test_fragments() -> None:
    assert hengaruto.parse_fragment("<td>1", "tr").to_html() == "<td>1</td>" and hengaruto.parse_fragment("<td>1").to_html() == "1"
    assert hengaruto.parse_fragment("").node.kind == FRAGMENT
    assert the(the(hengaruto.parse_fragment("<g>", "svg svg").root).namespace).endswith("svg")
    assert the(the(hengaruto.parse_fragment("<mi>", "math math").root).namespace).endswith("MathML")
    for context in ("html p", "svg  g", "xlink a"):
        with pytest.raises(hengaruto.Error):
            hengaruto.parse_fragment("x", context)


def test_page_texts() -> None:
    assert hengaruto.text("<p>a<p>b<script>x</script>") == "a\n\nb\n" and hengaruto.text("") == ""
    assert hengaruto.text("<p>one two three", width=8) == "one two\nthree\n"
    for width in (0, -1):
        with pytest.raises(ValueError):
            hengaruto.text("x", width=width)


def test_clean() -> None:
    assert hengaruto.clean("<p onclick=x>a<script>b</script>") == "<p>a</p>" and hengaruto.clean("") == ""
    once = hengaruto.clean('<a href="javascript:x">y</a><table><td>z<svg><style><img src=x onerror=y>')
    assert hengaruto.clean(once) == once and "javascript" not in once and "onerror" not in once


@pytest.mark.parametrize("make", [str, str.encode, lambda page: bytearray(page.encode()), lambda page: memoryview(page.encode())])
def test_what_a_page_may_be(make: Callable[[str], Source]) -> None:
    assert hengaruto.parse(make(PAGE)).block == hengaruto.parse(PAGE).block
    assert hengaruto.clean(make("<p>x")) == "<p>x</p>" and hengaruto.text(make("<p>x")) == "x\n" and hengaruto.links(make("x")) == []


@pytest.mark.parametrize("page", [None, 5, ["x"], object()])
def test_what_no_page_is(page: object) -> None:
    calls: Tuple[Callable[[Any], object], ...] = (
        hengaruto.parse, hengaruto.parse_fragment, hengaruto.text, hengaruto.links, hengaruto.clean, hengaruto.Parser().feed,
    )
    for call in calls:
        with pytest.raises(TypeError):
            call(page)


def test_no_utf8() -> None:
    assert the(hengaruto.parse(b"<p>\xff").find("p")).text() == "\ufffd"
    assert the(hengaruto.parse("<p>\ud800x").find("p")).text() == "\ufffdx"
    assert the(hengaruto.parse(b"\xef\xbb\xbf<p>x").find("p")).text() == "x"


def test_pieces() -> None:
    parser = hengaruto.Parser()
    for byte in PAGE.encode():
        parser.feed(bytes([byte]))
    assert parser.close().block == hengaruto.parse(PAGE).block
    with pytest.raises(ValueError):
        parser.feed("x")
    with pytest.raises(ValueError):
        parser.close()
    assert hengaruto.Parser().close().block == hengaruto.parse("").block
    scripting = hengaruto.Parser(scripting=True)
    piece = bytearray(b"<body><noscript><p>")
    scripting.feed(piece)
    piece[:] = b"x" * len(piece)
    assert scripting.close().find("p") is None


def test_deep_and_wide() -> None:
    deep = hengaruto.parse("<div>" * 20000 + "x")
    assert sum(1 for _ in deep.iter("div")) == 20000 and deep.text() == "x"
    assert sum(1 for _ in next(reversed(deep.find_all("div"))).ancestors()) == 20002
    wide = hengaruto.parse("<p>x" * 20000)
    assert len(wide.find_all("p")) == 20000 == len(wide.select("p"))


def test_version() -> None:
    import re

    assert re.fullmatch(r"\d+\.\d+\.\d+", hengaruto.__version__)
    assert all(hasattr(hengaruto, name) for name in hengaruto.__all__)
