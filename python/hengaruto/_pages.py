"""Whole pages at once, and pages in chunks."""
from __future__ import annotations

import operator
from typing import List, Optional, Tuple

from . import _library
from ._encoding import page_in_utf8
from ._input import Input, Source, utf8
from ._tree import Document, parse


def text(page: Input, *, width: Optional[int] = None, encoding: Optional[str] = None) -> str:
    """Returns the text of a page, laid out as a browser shows it without a style sheet: blocks on separate lines, list items with their
    markers, no scripts. The page and `encoding` are as for `parse`.

    Lines are wrapped at `width` columns, or not at all if no width is given. A width below 1 raises a `ValueError`. The program and the
    library for C differ: for the width 0 the program prints one word per line, and the library doesn't wrap.

    >>> print(text("<h1>A page</h1><p>One <b>bold</b> word<ul><li>x<li>y</ul><script>z</script>"), end="")
    A page
    <BLANKLINE>
    One bold word
    <BLANKLINE>
    - x
    - y
    >>> text("<p>one two three", width=8)
    'one two\\nthree\\n'
    """
    columns = 0 if width is None else operator.index(width)
    if width is not None and columns < 1:
        raise ValueError("width must be at least 1")
    source = page_in_utf8(page, encoding)
    return str(_library.given("page_text", source, len(source), columns), "utf-8", "replace")


def links(page: Input, *, encoding: Optional[str] = None) -> List[Tuple[str, str]]:
    """Returns the links of a page, which are its elements `a`, of HTML or SVG, with an href: pairs of href and text, unchanged. The page
    and `encoding` are as for `parse`.

    >>> links("<a href='/x'>a <b>link</b></a>")
    [('/x', 'a link')]
    """
    source = page_in_utf8(page, encoding)
    parts = str(_library.given("page_links", source, len(source)), "utf-8", "replace").split("\0")
    return list(zip(parts[0::2], parts[1::2]))


class Parser:
    """A page that arrives in chunks of bytes or text. How it is split makes no difference.

    The chunks are kept, and `close` parses them. If all are bytes, they are decoded as by `parse`, with this `encoding`; if one is a text,
    all are UTF-8.

    >>> parser = Parser()
    >>> for chunk in (b"<p>caf", b"\\xc3", b"\\xa9"):
    ...     parser.feed(chunk)
    >>> parser.close().find("p").text()
    'café'
    """

    def __init__(self, *, encoding: Optional[str] = None, scripting: bool = False, iframe_srcdoc: bool = False) -> None:
        self._pieces: Optional[List[bytes]] = []
        self._encoding, self._scripting, self._iframe_srcdoc = encoding, scripting, iframe_srcdoc

    def feed(self, piece: Source) -> None:
        """Adds the next chunk."""
        if self._pieces is None:
            raise ValueError("the parser is closed")
        # A copy, since the caller may change a bytearray before the end.
        self._pieces.append(utf8(piece))
        if isinstance(piece, str):
            self._encoding = "utf-8"

    def close(self) -> Document:
        """Returns the tree of all chunks. After this the parser accepts no more."""
        if self._pieces is None:
            raise ValueError("the parser is closed")
        page, self._pieces = b"".join(self._pieces), None
        return parse(page, encoding=self._encoding, scripting=self._scripting, iframe_srcdoc=self._iframe_srcdoc)
