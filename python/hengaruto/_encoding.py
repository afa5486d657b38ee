"""Detects the encoding of a page, as the HTML standard defines it, and decodes the page."""
from __future__ import annotations

from typing import Optional, Tuple, Union

from ._input import Input, as_text, content, octets, utf8
from ._library import Error, given

# A byte order mark in one of these isn't part of the text.
_MARKED = ("UTF-8", "UTF-16LE", "UTF-16BE")


def decode(page: bytes, encoding: Optional[str] = None) -> str:
    """Decodes a page. Its encoding is that of its byte order mark; or else `encoding`, which is that of the HTTP header; or else the one
    that its first 1,024 bytes declare. A page without any of these is UTF-8 if it is valid UTF-8, and windows-1252 if it isn't.

    An unknown `encoding` is ignored. Each decoding error becomes U+FFFD.

    >>> decode("é".encode("utf-8")), decode("é".encode("latin-1")), decode(b"\\xe9", "windows-1251")
    ('é', 'é', 'й')
    >>> decode(b'<meta charset="koi8-r">\\xf7')
    '<meta charset="koi8-r">В'
    """
    return decoded(page, encoding)[0]


def decoded(page: bytes, encoding: Optional[str] = None) -> Tuple[str, str]:
    """Returns the text of a page, and the name of its encoding as the Encoding Standard writes it."""
    page = octets(page, "a page to be decoded")
    name = said(page, encoding)
    if not name:
        try:
            return page.decode("utf-8"), "UTF-8"
        except UnicodeDecodeError:
            name = "windows-1252"
    text = given("decode", page, len(page), name.encode("ascii"), len(name)).decode("utf-8")
    return (text[1:] if text[:1] == "\ufeff" and name in _MARKED else text), name


def said(page: bytes, encoding: Optional[str] = None) -> str:
    """Returns the name of a page's encoding, which a byte order mark, `encoding` or the page itself declares (HTML standard, section
    13.2.3.2). `encoding` is ignored if it isn't a known label. If nothing declares the encoding, the name is empty.

    >>> said(b"<meta charset=latin1>"), said(b"<meta charset=latin1>", "euc-kr"), said(b"<p>")
    ('windows-1252', 'EUC-KR', '')
    """
    label = b"" if encoding is None else as_text(encoding, "an encoding").encode("utf-8", "replace")
    return given("encoding", page, len(page), label, len(label)).decode("ascii")


def declared(page: Union[str, bytes], encoding: Optional[str]) -> Optional[str]:
    """Returns the name of the encoding in which a page is parsed: as `said`, or UTF-8 if nothing declares it. None for a str, which has no
    encoding. An unknown `encoding` raises an `Error`.

    >>> declared(b"<meta charset=latin1>", None), declared(b"<p>", None), declared("<p>", None)
    ('windows-1252', 'UTF-8', None)
    """
    if isinstance(page, str):
        if encoding is not None:
            raise TypeError("a str has no encoding: pass the bytes of the page, or no encoding")
        return None
    if encoding and not said(b"", encoding):
        raise Error(f"unknown encoding: {encoding!r}")
    return said(page, encoding) or "UTF-8"


def page_in_utf8(page: Input, encoding: Optional[str] = None) -> bytes:
    """Returns the text of a page in UTF-8. Bytes are decoded from the encoding that `declared` returns; those in UTF-8 stay unchanged."""
    source = content(page)
    name = declared(source, encoding)
    if isinstance(source, str) or name == "UTF-8" or name is None:
        return utf8(source)
    return given("decode", source, len(source), name.encode("ascii"), len(name))
