"""Trees of other libraries, and a comparison with the trees that html5lib builds."""
from __future__ import annotations

import glob
import os
import random
from typing import Any, List, Tuple

import pytest
from optional import the

import hengaruto
from hengaruto import Document
from hengaruto.trees import register_soup, to_etree, to_lxml

ROOT = os.path.dirname(os.path.dirname(os.path.dirname(os.path.abspath(__file__))))
PAGE = (
    "<!DOCTYPE html><!--front--><title>A</title><p class=a>One <b>bold</b> word<!--c-->tail<svg xlink:href=x><a/></svg>"
    "<template><i>in</i></template>"
)
FOLDERS = [f"{ROOT}/examples", "/usr/share/doc"]
# Parts of random pages, for rules that html5lib 1.1 implements as the standard has them. No part is whitespace, which html5lib treats
# differently in cells.
WORDS = [
    "<p>", "</p>", "<div>", "</div>", "<b>", "</b>", "<i>", "</i>", "<a href=x>", "</a>", "<ul>", "<li>", "</ul>", "<table><tr><td>",
    "</td></tr></table>", "<h1>", "</h1>", "<br>", "<img src=x>", "<!--c-->", "x", "y z", "&amp;", "&eacute;", "é", "<dl>", "<dt>", "<dd>",
    "</dl>", "<span title='a b'>", "</span>", "<form>", "</form>", "<section>", "</section>", "<hr>", "<code>", "</code>",
]


@pytest.fixture
def doc() -> Document:
    return hengaruto.parse(PAGE)


def same_in_both(root: Any) -> None:
    assert root.tag == "html" and [child.tag for child in root] == ["head", "body"]
    p = root.find("body/p")
    assert p.attrib == {"class": "a"} and p.text == "One " and p.find("b").tail == " word"
    assert p.find("{http://www.w3.org/2000/svg}svg").attrib == {"{http://www.w3.org/1999/xlink}href": "x"}
    assert [child.tail for child in p][1] == "tail" and p.find("template/i").text == "in"


def test_etree(doc: Document) -> None:
    same_in_both(to_etree(doc))
    assert to_etree(doc, namespaces=True).tag == "{http://www.w3.org/1999/xhtml}html"
    assert to_etree(the(doc.find("b"))).text == "bold" and to_etree(the(doc.find("b"))).tail is None
    assert to_etree(next(the(doc.find("b")).children())) is None and to_etree(hengaruto.parse_fragment("x")) is None
    assert to_etree(hengaruto.parse_fragment("<p>x<b>y")).findtext("b") == "y"


def test_lxml(doc: Document) -> None:
    html = pytest.importorskip("lxml.html")
    root = to_lxml(doc)
    same_in_both(root)
    assert isinstance(root, html.HtmlElement) and [link[2] for link in root.iterlinks()] == []
    assert root.xpath("string(//p/b)") == "bold" and root.find(".//p").classes == {"a"}
    assert to_lxml(doc, namespaces=True).tag == "{http://www.w3.org/1999/xhtml}html"
    assert to_lxml(hengaruto.parse_fragment("x")) is None


def test_lxml_takes_what_xml_does_not() -> None:
    pytest.importorskip("lxml.html")
    root = to_lxml(hengaruto.parse('<a<b 1x=\x01 :=y a"=z>\x0c\x0b<!--a--b---><!-----><svg><:g/></svg>'))
    assert root.find("body")[0].tag == "aU0003Cb" and set(root.find("body")[0].attrib) == {"U00031x", "U0003A", "aU00022"}
    assert "\ufffd" in root.find("body")[0].attrib.values()


def test_etree_takes_names_as_they_stand() -> None:
    root = to_etree(hengaruto.parse("<html xml:lang=en><a<b 1x=y>"))
    assert root.attrib == {"xml:lang": "en"} and root.find("body")[0].tag == "a<b" and root.find("body")[0].attrib == {"1x": "y"}


def test_cssselect(doc: Document) -> None:
    pytest.importorskip("lxml.html")
    pytest.importorskip("cssselect")
    assert [node.tag for node in to_lxml(doc).cssselect("p > b")] == ["b"]


def test_soup() -> None:
    bs4 = pytest.importorskip("bs4")
    register_soup()
    soup = bs4.BeautifulSoup(PAGE, "hengaruto")
    assert soup.title.string == "A" and soup.p["class"] == ["a"] and soup.b.text == "bold" and soup.find("svg").name == "svg"
    assert str(soup).startswith("<!DOCTYPE html>") and "<!--front-->" in str(soup) and soup.template.i.string == "in"
    soup = bs4.BeautifulSoup("<p>é".encode("latin-1"), "hengaruto", from_encoding="latin1")
    assert soup.p.text == "é" and soup.original_encoding == "windows-1252"


def shape_of(root: Any) -> List[Tuple[str, List[Tuple[str, str]], str, str]]:
    """The names, attributes and texts of a tree, without attributes `xmlns`, which html5lib keeps."""
    shape = []
    for node in root.iter():
        is_element = isinstance(node.tag, str)
        attrs = sorted((key.split("}")[-1], value) for key, value in node.attrib.items()) if is_element else []
        attrs = [pair for pair in attrs if not pair[0].startswith("xmlns")]
        shape.append((node.tag.split("}")[-1] if is_element else "#comment", attrs, node.text or "", node.tail or ""))
    return shape


def same_as_html5lib(page: str) -> None:
    import html5lib

    ours = shape_of(to_etree(hengaruto.parse(page)))
    theirs = shape_of(html5lib.parse(page, treebuilder="etree", namespaceHTMLElements=False))
    # In both, comments after the body are below the html or the document, and not in the body.
    assert ours == theirs, next(pair for pair in zip(ours, theirs) if pair[0] != pair[1])


def test_pages_beside_html5lib() -> None:
    pytest.importorskip("html5lib")
    paths = [path for folder in FOLDERS for path in sorted(glob.glob(f"{folder}/**/*.htm*", recursive=True))]
    paths = [path for path in paths if path.endswith((".html", ".htm")) and os.path.isfile(path) and os.path.getsize(path) < 100_000]
    random.Random(1).shuffle(paths)
    for path in paths[:40]:
        with open(path, "rb") as file:
            page = hengaruto.decode(file.read())
        if "<template" not in page and "<search" not in page:
            same_as_html5lib(page)


def test_random_pages_beside_html5lib() -> None:
    pytest.importorskip("html5lib")
    rand = random.Random(1)
    for _ in range(500):
        same_as_html5lib("<!DOCTYPE html><body>" + "".join(rand.choices(WORDS, k=rand.randint(1, 30))))


REPEATED = (
    "<table><tr><td>1<td><a href=x>2</a><tr><td>3</table>",
    "<div id=a><p>x<b>y</b></p><template><p>z<b>w</b></p></template></div><p><b>v</b>",
    "<p>One<p class=x>Two <i>three</i>",
)


@pytest.mark.parametrize("page", REPEATED)
@pytest.mark.parametrize("selector", ("td", "p > b", ":scope > *", "\\:scope, b", "tr:first-child td", "p.x, i", "*"))
def test_a_selector_that_is_used_again_finds_the_same(page: str, selector: str) -> None:
    doc = hengaruto.parse(page)
    for node in (*doc, *doc):
        alone = hengaruto.load(doc.block)[node.index]
        assert [found.index for found in node.select(selector)] == [found.index for found in alone.select(selector)]
        first = alone.select_first(selector)
        assert node.select_first(selector) == (None if first is None else doc[first.index])
        assert node.matches(selector) == alone.matches(selector)
