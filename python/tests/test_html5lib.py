"""Runs html5lib's cases for tree construction, from Debian's package golang-golang-x-net-dev or from the folder that HTML5LIB_TESTS names.

Some cases are older than two rules of the standard, for `select` and for HTML tags in a fragment with a foreign context: see
docs/DIFFERENCES.md. They are expected to fail, and counted.
"""
from __future__ import annotations

import glob
import os
import re
from typing import TYPE_CHECKING, Counter, Dict, Iterator, List, Optional

import pytest

import hengaruto
from hengaruto import COMMENT, DOCTYPE, ELEMENT, FRAGMENT, TEXT, Node

if TYPE_CHECKING:
    from _pytest.mark import ParameterSet

DEBIAN = "/usr/share/gocode/src/golang.org/x/net/html/testdata/webkit"
FOLDER = os.environ.get("HTML5LIB_TESTS", DEBIAN)
SECTION = re.compile(r"#(data|errors|new-errors|document-fragment|document|script-off|script-on)")
BREAK_OUT = {"<nobr>X", "<font color></font>X", "<div></div>", "<div><h1>X</h1></div>"}
SPACES = {"http://www.w3.org/2000/svg": "svg ", "http://www.w3.org/1998/Math/MathML": "math "}
# The numbers for the cases of Debian's version 0.7.0.
CASES, BY_SELECT, BY_FOREIGN = 1708, 18, 6

seen: Counter[str] = Counter()


def cases_in(path: str) -> Iterator[Dict[str, List[str]]]:
    """The cases of a file, each as a dict of its sections."""
    with open(path, encoding="utf-8", newline="") as file:
        text = file.read()
    for part in re.split(r"(?:^|\n)(?=#data\n)", text):
        sections: Dict[str, List[str]] = {}
        name: Optional[str] = None
        for line in part.split("\n"):
            found = SECTION.fullmatch(line)
            if found:
                name = found[1]
                sections[name] = []
            elif name:
                sections[name].append(line)
        if "document" in sections:
            yield sections


def cases() -> Iterator[ParameterSet]:
    for path in sorted(glob.glob(f"{FOLDER}/*.dat")):
        for number, case in enumerate(cases_in(path), 1):
            yield pytest.param(case, id=f"{os.path.basename(path)}:{number}")


def key_of(node: Node, key: str) -> str:
    """The name of an attribute, as the cases write it."""
    prefix, colon, local = key.partition(":")
    is_foreign = node.namespace in SPACES
    return f"{prefix} {local}" if colon and is_foreign and prefix in ("xlink", "xml", "xmlns") else key


def lines_of(node: Node, indent: str = "") -> Iterator[str]:
    """The lines of a tree, as the cases write it."""
    for child in node.children():
        if child.kind == ELEMENT:
            yield f"| {indent}<{SPACES.get(child.namespace or '', '')}{child.name}>"
            for key, value in sorted((key_of(child, key), value) for key, value in child.attrs.items()):
                yield f'| {indent}  {key}="{value}"'
            yield from lines_of(child, indent + "  ")
        elif child.kind == TEXT:
            yield f'| {indent}"{child.data}"'
        elif child.kind == COMMENT:
            yield f"| {indent}<!-- {child.data} -->"
        elif child.kind == FRAGMENT:
            yield f"| {indent}content"
            yield from lines_of(child, indent + "  ")
        elif child.kind == DOCTYPE:
            has_ids = child.public_id or child.system_id
            yield f"| {indent}<!DOCTYPE {child.name}" + (f' "{child.public_id}" "{child.system_id}"' if has_ids else "") + ">"


@pytest.mark.parametrize("case", cases())
def test_tree(case: Dict[str, List[str]]) -> None:
    text, scripting = "\n".join(case["data"]), "script-off" not in case
    context = case["document-fragment"][0] if "document-fragment" in case else None
    if context is None:
        doc = hengaruto.parse(text, scripting=scripting)
    else:
        doc = hengaruto.parse_fragment(text, context, scripting=scripting)
    seen["cases"] += 1
    came, wanted = "\n".join(lines_of(doc.node)), "\n".join(case["document"]).rstrip("\n")
    if came.rstrip("\n") != wanted and ("select" in text or context == "select"):
        seen["select"] += 1
        pytest.xfail("the case is older than the rules of select")
    if came.rstrip("\n") != wanted and context and " " in context and text in BREAK_OUT:
        seen["foreign"] += 1
        pytest.xfail("the case is older than the rules of HTML tags in foreign contexts")
    assert came.rstrip("\n") == wanted
    assert hengaruto.load(doc.block).to_html() == doc.to_html()


def test_differences_are_those_that_are_known() -> None:
    if FOLDER != DEBIAN or seen["cases"] != CASES:
        pytest.skip("these aren't all cases of Debian's version 0.7.0")
    assert (seen["select"], seen["foreign"]) == (BY_SELECT, BY_FOREIGN)
