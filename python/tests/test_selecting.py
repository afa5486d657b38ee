"""Selecting: each call by what `select` returns, several selectors at once, and selectors that were checked."""
from __future__ import annotations

import pickle
import threading
from itertools import cycle
from typing import Any, Callable, Dict, List, Sequence, Tuple, Union, cast

import pytest
from optional import the
from test_html5lib import cases

import hengaruto
from hengaruto import FRAGMENT, Document, Node, Selector, SelectorError, SelectorText

PAGE = "<title>t</title><div class=x id=d><p>1 <b>2</b><p class=x>3 <b>4</b><i>5</i></div><table><tr><td>6<td>7</table><template><b>8</b></template>"
SELECTORS = [
    "*", "p", "b, i, td", "p > b", "div p ~ p", ".x", "[id]", ":not(p)", "td:nth-child(2n)", ":has(b)", "p:last-child > :first-child", "a[href], nobr",
    "html > body > *", ":is(table, select) *", "svg *, math *", ":empty", "p + p, :root",
]
WRONG = ["", "p >", "p::", "[a=", "a,,b", ":nope", "\ufffd >"]


@pytest.fixture
def doc() -> Document:
    return hengaruto.parse(PAGE)


def outside_templates(doc: Document) -> List[Node]:
    """The nodes of a document that aren't in the contents of a template, which `select` of the document leaves out."""
    return [node for node in [doc.node, *doc.node.descendants()] if all(it.kind != FRAGMENT for it in (node, *node.ancestors()))]


def check_calls(doc: Document, selector: str) -> None:
    found = doc.select(selector)
    for node in outside_templates(doc):
        below = node.select(selector)
        assert below == [it for it in found if node in it.ancestors()]
        assert node.select_first(selector) == next(iter(below), None)
        assert node.matches(selector) == (node in found)
        assert node.closest(selector) == next((it for it in (node, *node.ancestors()) if it in found), None)


@pytest.mark.parametrize("selector", SELECTORS)
def test_each_call_is_what_select_says(doc: Document, selector: str) -> None:
    check_calls(doc, selector)


def test_each_call_on_the_pages_of_html5lib() -> None:
    for case, selector in zip(cases(), cycle(SELECTORS)):
        sections = cast(Dict[str, List[str]], case.values[0])
        if "document-fragment" not in sections:
            check_calls(hengaruto.parse("\n".join(sections["data"])), selector)


def test_scope_is_the_node(doc: Document) -> None:
    p = the(doc.find("p"))
    assert p.matches(":scope") and p.closest(":scope") == p and p.select(":scope > b") == [doc.find("b")] and p.select_first(":scope") is None
    assert doc.select(":scope > body") == [doc.find("body")]
    inside = next(the(doc.find("template")).children()).elements[0]
    assert inside.matches("b") and inside not in doc.select("b")


@pytest.mark.parametrize(
    "selectors",
    [[], ["p"], ["p", "p"], SELECTORS, tuple(SELECTORS), {}, {"a": "p", 7: "td", None: "h1"}, {it: it for it in SELECTORS}, {1: Selector("p"), 2: "b"}],
    ids=str,
)
def test_several_selectors(doc: Document, selectors: Union[Sequence[SelectorText], Dict[object, SelectorText]]) -> None:
    nodes: Tuple[Union[Document, Node], ...] = (doc, the(doc.find("div")), next(the(doc.find("b")).children()))
    for node in nodes:
        if isinstance(selectors, dict):
            assert node.select_all(selectors) == {key: node.select(it) for key, it in selectors.items()}
            assert list(node.select_all(selectors)) == list(selectors)
        else:
            assert node.select_all(selectors) == [node.select(it) for it in selectors] == node.select_all(it for it in selectors)


@pytest.mark.parametrize("selectors", [None, 5, "p", b"p", Selector("p"), ["p", 5], ["p", None], {"a": b"p"}], ids=str)
def test_what_no_selectors_are(doc: Document, selectors: Any) -> None:
    with pytest.raises(TypeError):
        doc.select_all(selectors)


@pytest.mark.parametrize("wrong", WRONG)
def test_wrong_selectors(doc: Document, wrong: str) -> None:
    with pytest.raises(SelectorError) as caught:
        doc.select(wrong)
    p = the(doc.find("p"))
    calls: Tuple[Callable[[str], object], ...] = (doc.select_first, p.select_first, p.matches, p.closest, Selector)
    for call in calls:
        with pytest.raises(SelectorError) as same:
            call(wrong)
        assert str(same.value) == str(caught.value)
    several: Tuple[Union[List[str], Dict[str, str]], ...] = (["p", wrong], {"a": "p", "b": wrong}, ["p", wrong, "b >"])
    for selectors in several:
        with pytest.raises(SelectorError) as same:
            doc.select_all(selectors)
        assert str(same.value) == f"selector 2: {caught.value}"


# A NUL in a selector is read as U+FFFD (CSS Syntax Module Level 3, section 3.3), and doesn't split it.
@pytest.mark.parametrize("selector", ["\0", "p\0, b", "[title='\0']", "[title=\0]", "#\0", "b \0 i", "\0 >", "p >\0>", "\\\0"])
def test_a_nul_in_a_selector(selector: str) -> None:
    doc = hengaruto.parse("<p title='&#xFFFD;' id='\ufffd'>1<b>2</b>")
    try:
        found = doc.select(selector)
    except SelectorError as error:
        with pytest.raises(SelectorError) as caught:
            doc.select_all(["b", selector])
        assert str(caught.value) == f"selector 2: {error}"
    else:
        assert doc.select_all(["b", selector, "p"]) == [doc.select("b"), found, doc.select("p")]
        assert doc.select(Selector(selector)) == found


def test_checked_selectors(doc: Document) -> None:
    selector = Selector(" p > b")
    assert str(selector) == " p > b" and repr(selector) == "hengaruto.Selector(' p > b')"
    assert selector == Selector(" p > b") == Selector(selector) and selector != Selector("p > b") and selector != " p > b"
    assert len({selector, Selector(" p > b"), Selector("b")}) == 2
    for protocol in range(pickle.HIGHEST_PROTOCOL + 1):
        assert pickle.loads(pickle.dumps(selector, protocol)) == selector
    b, p = the(doc.find("b")), the(doc.find("p"))
    assert doc.select(selector) == doc.css(selector) == doc.select("p > b") and doc.select_first(selector) == b == p.select_first(selector)
    assert b.matches(selector) and b.closest(selector) == b and doc.select_all([selector, "i"]) == [doc.select("p > b"), [doc.find("i")]]
    for wrong in (5, None, b"p"):
        with pytest.raises(TypeError, match="a selector must be str"):
            Selector(wrong)  # type: ignore[arg-type]
    with pytest.raises(SelectorError):
        Selector("\ud800")


def test_a_selector_in_many_threads() -> None:
    selector = Selector("p > b")
    came: List[List[int]] = []

    def work() -> None:
        came.append([len(hengaruto.parse(PAGE * count).select(selector)) for count in range(1, 20)])

    threads = [threading.Thread(target=work) for _ in range(8)]
    for thread in threads:
        thread.start()
    for thread in threads:
        thread.join()
    assert came == [[2 * count for count in range(1, 20)]] * 8
