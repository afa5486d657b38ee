"""CSS selectors: their texts, and texts that were checked."""
from __future__ import annotations

from typing import Tuple, Union

from . import _library
from ._input import as_text


class Selector:
    """A CSS selector whose text was checked. Each call that takes the text of a selector takes a `Selector`, too.

    An invalid selector raises a `SelectorError`. A `Selector` never changes: any number of threads may use it, on any number of documents.
    Two of them are equal if their texts are.

    >>> link = Selector("p > a")
    >>> link, str(link), link == Selector("p > a")
    (hengaruto.Selector('p > a'), 'p > a', True)
    >>> Selector("p >")
    Traceback (most recent call last):
    ...
    hengaruto.SelectorError: at offset 3: expected a selector
    """

    __slots__ = ("_text", "_octets")

    def __init__(self, text: SelectorText) -> None:
        self._text: str = str(text) if isinstance(text, Selector) else as_text(text, "a selector")
        self._octets: bytes = octets_of(text)
        _library.check_selector(self._octets)

    def __str__(self) -> str:
        return self._text

    def __repr__(self) -> str:
        return f"hengaruto.Selector({self._text!r})"

    def __eq__(self, other: object) -> bool:
        return isinstance(other, Selector) and other._text == self._text

    def __hash__(self) -> int:
        return hash((Selector, self._text))

    def __reduce__(self) -> Tuple[type, Tuple[str]]:
        return Selector, (self._text,)


SelectorText = Union[str, Selector]
"""The text of a selector, or a `Selector`."""


def octets_of(selector: SelectorText) -> bytes:
    """Returns the text of a selector in UTF-8. A surrogate in it raises a `SelectorError`."""
    if isinstance(selector, Selector):
        return selector._octets
    try:
        return as_text(selector, "a selector").encode("utf-8")
    except UnicodeEncodeError as error:
        raise _library.SelectorError(f"at offset {error.start}: a surrogate can't be encoded in UTF-8") from None
