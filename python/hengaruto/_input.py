"""The types of arguments, and the bytes of a page."""
from __future__ import annotations

import os
import re
from typing import Protocol, Union, cast

Source = Union[str, bytes, bytearray, memoryview]
"""HTML, as a text or as bytes."""


class _File(Protocol):
    """An open file. Not each one is an `IO`: a `gzip.GzipFile` isn't."""

    def read(self) -> Source: ...


Input = Union[Source, os.PathLike, _File]
"""HTML, or the path of a file with it, or an open file. A str is always HTML."""

_SURROGATE = re.compile("[\ud800-\udfff]")


def octets(given: Union[bytes, bytearray, memoryview], what: str) -> bytes:
    """Returns an argument as bytes. It may be anything that has a buffer; `bytes` alone would also take a number."""
    try:
        return bytes(memoryview(given))
    except TypeError:
        raise TypeError(f"{what} must be bytes, not {type(given).__name__}") from None


def as_text(given: str, what: str) -> str:
    """Returns an argument that must be a str."""
    if not isinstance(given, str):
        raise TypeError(f"{what} must be str, not {type(given).__name__}")
    return given


def content(page: Input) -> Union[str, bytes]:
    """Returns a page as a str or as bytes. A file is read: one with a path in binary, an open one as it was opened."""
    if isinstance(page, (str, bytes)):
        return page
    if isinstance(page, os.PathLike):
        with open(page, "rb") as file:
            return file.read()
    if hasattr(page, "read"):
        page = cast(_File, page).read()
    if isinstance(page, (bytearray, memoryview)):
        return bytes(page)
    if not isinstance(page, (str, bytes)):
        raise TypeError(f"a page must be str, bytes, a path or a file, not {type(page).__name__}")
    return page


def utf8(page: Source) -> bytes:
    """Returns a page in UTF-8. A surrogate in a str, which UTF-8 can't encode, becomes U+FFFD."""
    if isinstance(page, bytes):
        return page
    if isinstance(page, (bytearray, memoryview)):
        return bytes(page)
    if not isinstance(page, str):
        raise TypeError(f"a page must be str or bytes, not {type(page).__name__}")
    try:
        return page.encode("utf-8")
    except UnicodeEncodeError:
        return _SURROGATE.sub("\ufffd", page).encode("utf-8")
