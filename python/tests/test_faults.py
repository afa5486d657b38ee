"""What once went wrong, each in a test whose name says it."""
from __future__ import annotations

from typing import Any, Callable, Tuple

import pytest
from optional import the

import hengaruto

DOC = hengaruto.parse("<p title=a class=x>one<p>two")


@pytest.mark.parametrize("selector", [None, 5, b"p", ["p"]])
def test_a_selector_that_is_no_str_raised_an_attribute_error(selector: object) -> None:
    root = the(DOC.root)
    calls: Tuple[Callable[[Any], object], ...] = (DOC.select, DOC.select_first, root.select, root.select_first)
    for call in calls:
        with pytest.raises(TypeError, match="a selector must be str"):
            call(selector)


@pytest.mark.parametrize("context", [None, 5, b"div"])
def test_a_context_that_is_no_str_raised_an_attribute_error(context: Any) -> None:
    with pytest.raises(TypeError, match="a context must be str"):
        hengaruto.parse_fragment("<p>", context)


def test_an_encoding_that_is_no_str_raised_an_attribute_error() -> None:
    with pytest.raises(TypeError, match="an encoding must be str"):
        hengaruto.decode(b"<p>", 5)  # type: ignore[arg-type]


def test_a_number_was_decoded_as_that_many_nuls() -> None:
    with pytest.raises(TypeError, match="must be bytes"):
        hengaruto.decode(3)  # type: ignore[arg-type]
    with pytest.raises(TypeError, match="must be bytes"):
        hengaruto.load(3)  # type: ignore[arg-type]


def test_a_fraction_was_a_number_of_a_node_whose_calls_failed() -> None:
    for index in (1.5, "1", None):
        with pytest.raises(TypeError):
            DOC[index]  # type: ignore[index]
    assert DOC[True] == DOC[1]


def test_a_width_that_is_no_whole_number_raised_an_argument_error() -> None:
    for width in (1.5, "2"):
        with pytest.raises(TypeError):
            hengaruto.text("<p>x", width=width)  # type: ignore[arg-type]


@pytest.mark.parametrize("separator", [5, None, ()])
def test_a_separator_that_is_no_str_raised_an_attribute_error(separator: Any) -> None:
    with pytest.raises(TypeError, match="a separator must be str"):
        DOC.get_text(separator)


# Without scripting the content of a noscript is elements, so its texts are escaped (HTML standard, section 13.3).
def test_a_text_in_noscript_came_back_as_an_element() -> None:
    page = "<body><noscript>&lt;img src=x onerror=alert(1)&gt;</noscript>"
    again = hengaruto.parse(hengaruto.parse(page).to_html())
    assert again.find("img") is None and the(again.find("noscript")).text() == "<img src=x onerror=alert(1)>"


# The end of the text closes what is open (CSS Syntax Module Level 3, sections 5.4.8, 5.4.9 and 4.3.5).
@pytest.mark.parametrize("selector", ["p:not(.y", "[title", 'p[title="a', ":is(p"])
def test_a_selector_that_ends_inside_brackets_or_a_string_was_refused(selector: str) -> None:
    assert the(DOC.select_first(selector)).text() == "one"


# An invalid selector in them is left out (Selectors Level 4, section 18.1, "<forgiving-selector-list>").
def test_an_invalid_selector_in_is_or_where_made_the_whole_one_invalid() -> None:
    assert [node.text() for node in DOC.select(":is(p, ::nosuch)")] == ["one", "two"] and DOC.select(":where(::nosuch)") == []


def test_a_selector_nested_500_levels_deep_overflowed_the_stack() -> None:
    with pytest.raises(hengaruto.SelectorError, match="nested"):
        DOC.select(":not(" * 499 + "p" + ")" * 499)
