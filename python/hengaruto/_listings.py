"""What the program lists of a page: its parse errors, its metadata and its headings."""
from __future__ import annotations

from typing import List, NamedTuple, Optional, Tuple

from ._encoding import declared, page_in_utf8
from ._input import Input, content
from ._library import given


class PageError(NamedTuple):
    """A parse error of a page.

    One of tokenization or of the input stream has a place and no message. One of tree construction belongs to a token, and has its line,
    and a message that says what was found, unless the name says all.
    """

    line: int
    """The line, from 1; that on which the token begins, for an error of tree construction."""
    column: Optional[int]
    """The column in characters, from 1."""
    offset: Optional[int]
    """The offset in bytes of the page's text in UTF-8."""
    name: str
    """The standard's name for the error, or that of html5lib or of this library if the standard has none."""
    message: str
    """What was found, or an empty text."""


class Heading(NamedTuple):
    """A heading of a page."""

    level: int
    """From 1 for an `h1` to 6 for an `h6`."""
    text: str
    """Its text, words separated by one space."""


def errors(page: Input, *, encoding: Optional[str] = None) -> List[PageError]:
    """Returns the parse errors of a page, ordered by line. The page and `encoding` are as for `parse`, and scripting is off.

    >>> [(error.line, error.column, error.name) for error in errors("<!DOCTYPE html>\\n<p>&nosuch;</section>")]
    [(2, 11, 'unknown-named-character-reference'), (2, None, 'unexpected-end-tag')]
    >>> errors("<!DOCTYPE html></section>")[0].message
    '</section> in insertion mode BeforeHtml'
    """
    values = _values("errors", page, encoding)
    found = zip(values[0::5], values[1::5], values[2::5], values[3::5], values[4::5])
    return [PageError(int(line), _number(column), _number(offset), name, message) for line, column, offset, name, message in found]


def meta(page: Input, *, encoding: Optional[str] = None) -> List[Tuple[str, str]]:
    """Returns the metadata of a page in tree order: pairs of a name and a value. The names are `lang`, `title`, `charset`, `canonical`, and
    those of `meta` elements with a `name` or a `property`; a page that is bytes has a last pair with the name `encoding`. The page and
    `encoding` are as for `parse`, and scripting is off.

    >>> meta("<html lang=en><title>A  page</title><meta name=author content=me>")
    [('lang', 'en'), ('title', 'A page'), ('author', 'me')]
    """
    source = content(page)
    values = _values("page_meta", source, encoding)
    pairs = list(zip(values[0::2], values[1::2]))
    name = declared(source, encoding)
    return pairs if name is None else [*pairs, ("encoding", name)]


def outline(page: Input, *, encoding: Optional[str] = None) -> List[Heading]:
    """Returns the headings of a page in tree order. A heading in a heading ends the text of the outer one. The page and `encoding` are as
    for `parse`, and scripting is off.

    >>> outline("<h1>A  page</h1><h3>Its <b>end</b></h3>")
    [Heading(level=1, text='A page'), Heading(level=3, text='Its end')]
    """
    values = _values("page_outline", page, encoding)
    return [Heading(int(level), text) for level, text in zip(values[0::2], values[1::2])]


def _values(call: str, page: Input, encoding: Optional[str]) -> List[str]:
    """Returns the values that a call returns, each of which a NUL follows."""
    source = page_in_utf8(page, encoding)
    return str(given(call, source, len(source)), "utf-8", "replace").split("\0")[:-1]


def _number(text: str) -> Optional[int]:
    return int(text) if text else None
