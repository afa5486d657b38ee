"""What the program lists of a page: parse errors, metadata and headings."""
from __future__ import annotations

import io
import pickle
from typing import Callable, List, Optional, Tuple, Union

import pytest

import hengaruto
from hengaruto import Heading, PageError


@pytest.mark.parametrize(
    "page, errors",
    [
        ("<!DOCTYPE html><title>x</title><p>y", []),
        ("", [(1, None, None, "expected-doctype-but-got-eof", "end of input in insertion mode Initial")]),
        (
            "<!DOCTYPE html>\n<p>\u00e9&nosuch;\n</section>\n<b =x>",
            [
                (2, 12, 28, "unknown-named-character-reference", ""),
                (3, None, None, "unexpected-end-tag", "</section> in insertion mode InBody"),
                (4, 4, 44, "unexpected-equals-sign-before-attribute-name", ""),
                (4, None, None, "open-element-at-end-of-body", "unexpected open tag at the end of the body"),
            ],
        ),
    ],
)
def test_errors(page: str, errors: List[Tuple[int, Optional[int], Optional[int], str, str]]) -> None:
    found = hengaruto.errors(page)
    assert found == errors and all(isinstance(error, PageError) for error in found)
    assert hengaruto.errors(page.encode()) == found == hengaruto.errors(io.StringIO(page)) and pickle.loads(pickle.dumps(found)) == found


def test_many_errors() -> None:
    found = hengaruto.errors("<!DOCTYPE html>" + "&x;\n" * 3000)
    assert len(found) == 3000 and found[-1].line == 3000


@pytest.mark.parametrize(
    "page, meta",
    [
        ("", []),
        ("<html lang=en><title> A\n page</title>", [("lang", "en"), ("title", "A page")]),
        ("<meta name=a content=b><meta property=og:c content=d><meta name=e>", [("a", "b"), ("og:c", "d")]),
        ("<meta charset=koi8-r><link rel=canonical href=x>", [("charset", "koi8-r"), ("canonical", "x")]),
        (b"<meta charset=koi8-r><title>\xf7", [("charset", "koi8-r"), ("title", "\u0412"), ("encoding", "KOI8-R")]),
    ],
)
def test_meta(page: Union[str, bytes], meta: List[Tuple[str, str]]) -> None:
    assert hengaruto.meta(page) == meta


@pytest.mark.parametrize(
    "page, outline",
    [
        ("", []),
        ("<h1>a <b>b</b>\n c</h1><p>d<h6>e</h6>", [(1, "a b c"), (6, "e")]),
        ("<h2></h2>", [(2, "")]),
        (b"<meta charset=koi8-r><h3>\xf7", [(3, "\u0412")]),
    ],
)
def test_outline(page: Union[str, bytes], outline: List[Tuple[int, str]]) -> None:
    assert hengaruto.outline(page) == outline and all(isinstance(heading, Heading) for heading in hengaruto.outline(page))


@pytest.mark.parametrize("call", [hengaruto.errors, hengaruto.meta, hengaruto.outline])
def test_wrong_arguments(call: Callable[..., object]) -> None:
    for page in (None, 5, ["x"]):
        with pytest.raises(TypeError, match="a page must be"):
            call(page)
    with pytest.raises(TypeError, match="a str has no encoding"):
        call("x", encoding="utf-8")
    with pytest.raises(hengaruto.Error, match="unknown encoding"):
        call(b"x", encoding="no-such")
