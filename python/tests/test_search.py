"""Searching, texts, siblings, tables and forms, and a comparison with BeautifulSoup's answers."""
from __future__ import annotations

import re
from typing import Any, Dict, List, Tuple

import pytest
from optional import the

import hengaruto
import hengaruto.trees
from hengaruto import Document

PAGE = """<!DOCTYPE html><title>Shop</title><h1 id=top class="big red">Tea</h1><!-- one --><ul class=list><li class="item big" data-n=1>Green
<b>tea</b></li><li class=item data-n=2><a href=/black title="Black tea">Black</a></li><li><a>None</a></li></ul><p>4.00<br>5.00</p>
<p class="">empty</p><svg><a href=s><title>pic</title></a></svg><template><p>hidden</p></template>"""
# The arguments of a call of `find_all`, and those of BeautifulSoup's if they are others.
CALLS: List[Tuple[Tuple[Any, ...], Dict[str, Any]]] = [
    (("li",), {}),
    ((), {}),
    ((True,), {}),
    ((["h1", "b"],), {}),
    ((re.compile("^[ab]$"),), {}),
    (("li", {"class": "item"}), {}),
    (("li", "big"), {}),
    ((), {"class_": "big"}),
    ((), {"class_": "big red"}),
    ((), {"class_": re.compile("^re")}),
    ((), {"class_": True}),
    (("p",), {"class_": None}),
    ((), {"id": "top"}),
    ((), {"id": ["top", "none"]}),
    ((), {"href": True}),
    (("a",), {"href": False}),
    (("a",), {"href": re.compile("bl")}),
    ((), {"attrs": {"data-n": "2"}}),
    ((), {"attrs": {"data-n": lambda value: value is not None and int(value) > 1}}),
    ((), {"title": lambda value: value and "tea" in value}),
    (("li",), {"limit": 2}),
    (("a",), {"string": "Black"}),
    (("a",), {"string": re.compile("N")}),
    (("li",), {"string": True}),
    ((lambda tag: tag.name == "a" and tag.parent.name == "li",), {}),
]


@pytest.fixture
def doc() -> Document:
    return hengaruto.parse(PAGE)


@pytest.mark.parametrize("call", CALLS, ids=str)
def test_the_same_elements_as_beautifulsoup(call: Tuple[Tuple[Any, ...], Dict[str, Any]]) -> None:
    bs4 = pytest.importorskip("bs4")
    # Without the title in SVG and the template, whose contents are on a level of their own here.
    page = PAGE[: PAGE.index("<svg>")]
    hengaruto.trees.register_soup()
    names, tests = call
    found = hengaruto.parse(page).find_all(*names, **tests)
    assert [(it.name, it.text()) for it in found] == [(it.name, it.get_text()) for it in bs4.BeautifulSoup(page, "hengaruto").find_all(*names, **tests)]


def test_texts_are_found(doc: Document) -> None:
    assert [node.data for node in doc.find_all(string=re.compile("ack"))] == ["Black"]
    assert the(the(doc.find(string="tea")).parent).name == "b"
    assert the(doc.find("ul")).find_all("li", recursive=False) == doc.select("ul > li")
    assert the(doc.find("ul")).find_all("a", recursive=False) == []


@pytest.mark.parametrize(
    "names, tests, said",
    [
        ((7,), {}, "name must be a str"),
        (([7],), {}, "name must be a str"),
        (("a",), {"limit": "2"}, "limit must be an int"),
        (("a",), {"limit": True}, "limit must be an int"),
        (("a",), {"text": "x"}, "is called string"),
        (("a",), {"string": 7}, "string must be a str"),
        (("a",), {"attrs": {"href": 7}}, "the test of 'href' must be a str"),
        (("a",), {"href": 7}, "the test of 'href' must be a str"),
        (("a", 7), {}, "the test of 'class' must be a str"),
    ],
)
def test_what_is_no_test_is_refused(doc: Document, names: Tuple[Any, ...], tests: Dict[str, Any], said: str) -> None:
    with pytest.raises(TypeError, match=re.escape(said)):
        doc.find_all(*names, **tests)


def test_selectors_by_their_other_names(doc: Document) -> None:
    assert doc.select_one("li") == doc.css_first("li") == doc.select_first("li") and doc.css("li") == doc.select("li")
    item = the(doc.find("b"))
    assert item.matches("li > b") and not item.matches("p > b")
    assert the(item.closest("li")).get("data-n") == "1" and item.closest("b") == item and item.closest("table") is None


def test_siblings(doc: Document) -> None:
    first, last = doc.find_all("p")[:2]
    assert first.next_element == last and last.previous_element == first and the(last.previous).kind == hengaruto.TEXT
    assert [child.name for child in first.elements] == ["br"] and the(doc.find("h1")).previous is None
    assert doc.node.previous is None and doc.node.previous_element is None and doc.node.next_element is None


def test_texts(doc: Document) -> None:
    assert the(doc.find("p")).get_text(" ") == "4.00 5.00" and list(the(doc.find("p")).strings) == ["4.00", "5.00"]
    assert list(the(doc.find("li")).stripped_strings) == ["Green", "tea"] and the(doc.find("li")).get_text("|", strip=True) == "Green|tea"
    assert doc.comments() == [" one "] and doc.get_text(strip=True).startswith("Shop") and next(doc.stripped_strings) == "Shop"
    assert the(doc.find("li")).string is None and the(doc.find("b")).string == "tea" and next(doc.strings) == "Shop"
    text = the(doc.find("b")).children().__next__()
    assert list(text.strings) == ["tea"] and text.string == "tea"


@pytest.mark.parametrize(
    "table, rows",
    [
        ("", []),
        ("<tr><td> a \n b <td>", [["a b", ""]]),
        ("<tr><td>4<b>.00</b><br>x<td><p>a</p>b", [["4.00 x", "a b"]]),
        ("<tr><td colspan=2>a<td>b<tr><td>c", [["a", "a", "b"], ["c"]]),
        ("<tr><td rowspan=2>a<td>b<tr><td>c<tr><td>d", [["a", "b"], ["a", "c"], ["d"]]),
        ("<tr><td>a<td rowspan=2>b<tr><td>c", [["a", "b"], ["c", "b"]]),
        ("<tr><td rowspan=0>a<tr><td>b<tbody><tr><td>c", [["a"], ["a", "b"], ["c"]]),
        ("<tr><td rowspan=9>a<tbody><tr><td>b", [["a"], ["b"]]),
        ("<tr><td rowspan=2 colspan=2>a<tr><td>b", [["a", "a"], ["a", "a", "b"]]),
        ("<tr><td>a<td>b<td rowspan=2>c<tr><td>d", [["a", "b", "c"], ["d", "", "c"]]),
        ("<tr><td colspan=x>a<td colspan=-1>b<td colspan=0>c", [["a", "b", "c"]]),
        ("<thead><tr><th>h<tbody><tr><td><table><tr><td>in</table>", [["h"], ["in"]]),
    ],
)
def test_rows(table: str, rows: List[List[str]]) -> None:
    assert the(hengaruto.parse(f"<table>{table}</table>").find("table")).rows() == rows


@pytest.mark.parametrize(
    "form, fields",
    [
        ("<input name=a value=1><input name=a value=2>", [("a", "1"), ("a", "2")]),
        ("<input value=1><input name='' value=2><input name=b>", [("b", "")]),
        ("<input type=checkbox name=a><input type=checkbox name=b checked><input type=radio name=c value=d checked>", [("b", "on"), ("c", "d")]),
        ("<input type=submit name=a><button name=b>x</button><input type=image name=c><input type=FILE name=d>", []),
        ("<textarea name=a>\n x\ny</textarea>", [("a", " x\ny")]),
        ("<select name=a><option>x y<option value=1>z</select>", [("a", "x y")]),
        ("<select name=a><option disabled>x<option>y</select>", [("a", "y")]),
        ("<select name=a><option selected>x<option selected>y</select>", [("a", "y")]),
        ("<select name=a multiple><option selected>x<option selected>y<option>z</select>", [("a", "x"), ("a", "y")]),
        ("<select name=a size=4><option>x</select><select name=b multiple><option>x</select>", []),
        ("<select name=a><optgroup disabled><option>x</optgroup><option>y</select>", [("a", "y")]),
        ("<fieldset disabled><legend><input name=a></legend><input name=b><legend><input name=c></legend></fieldset>", [("a", "")]),
        ("<input name=a disabled><datalist><input name=b></datalist></form><input name=c form=f>", [("c", "")]),
    ],
)
def test_fields(form: str, fields: List[Tuple[str, str]]) -> None:
    assert the(hengaruto.parse(f"<form id=f>{form}").find("form")).fields() == fields


def test_calls_of_other_elements(doc: Document) -> None:
    for call in (the(doc.find("p")).rows, the(doc.find("p")).fields, doc.node.rows):
        with pytest.raises(TypeError, match="is a call of a"):
            call()


def test_absolute_links() -> None:
    doc = hengaruto.parse("<base href='../b/'><a href=' x?q '>a\n b</a><a>no</a><a href='//[h'>c</a>")
    assert doc.base("https://e.org/a/p") == "https://e.org/b/"
    assert doc.absolute_links("https://e.org/a/p") == [("https://e.org/b/x?q", "a b"), ("//[h", "c")]
    assert hengaruto.parse("<a href=x>a").absolute_links() == [("x", "a")]
