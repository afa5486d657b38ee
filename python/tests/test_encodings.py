"""The encodings of pages."""
from __future__ import annotations

import io
import pickle
from pathlib import Path
from typing import Callable, List, Optional, Tuple

import pytest
from optional import the

import hengaruto
from hengaruto import Input, Source, decode
from hengaruto._encoding import decoded, said
from hengaruto._library import given


@pytest.mark.parametrize(
    "page, encoding, text",
    [
        (b"", None, ""),
        ("é".encode("utf-8"), None, "é"),
        (b"\xe9\x80", None, "é€"),
        (b"\x81\x8d", None, "\x81\x8d"),
        (b"\xef\xbb\xbf\xc3\xa9", "windows-1252", "é"),
        (b"\xff\xfea\0", "utf-8", "a"),
        (b"\xfe\xff\0a", None, "a"),
        (b"\xff", "utf-8", "\ufffd"),
        (b"\xcf\xf0", "windows-1251", "Пр"),
        (b"\xcf\xf0", " Windows-1251 ", "Пр"),
        (b"\x80", "iso-8859-1", "€"),
        (b"\x93\xfa", "shift_jis", "日"),
        (b"\xc4\xe3", "gb2312", "你"),
        (b"\x81\x30\x81\x35", "gb18030", "\x85"),
        (b"\x80", "gbk", "€"),
        (b"\xa4\xd2", "euc-jp", "ひ"),
        (b"\x1b$B$R\x1b(B<", "iso-2022-jp", "ひ<"),
        (b"\xb1\xe2", "euc-kr", "기"),
        (b"\xa4\xa4", "big5", "中"),
        (b"\x82<p>", "shift_jis", "\ufffd<p>"),
        (b"\xe9", "no-such-encoding", "é"),
        (b"\xe9", "ü\ud800", "é"),
    ],
)
def test_decode(page: bytes, encoding: Optional[str], text: str) -> None:
    assert decode(page, encoding) == text


@pytest.mark.parametrize(
    "head, name",
    [
        (b"<meta charset=koi8-r>", "KOI8-R"),
        (b"<META CHARSET = 'KOI8-R' >", "KOI8-R"),
        (b'<meta name=a content=b><meta x charset="koi8-r"/>', "KOI8-R"),
        (b'<meta http-equiv=Content-Type content="text/html; charset=koi8-r">', "KOI8-R"),
        (b'<meta content="text/html;charset=\'koi8-r\'" http-equiv=content-type>', "KOI8-R"),
        (b'<meta content="text/html; charset=koi8-r">', ""),
        (b'<meta http-equiv=refresh content="0; charset=koi8-r">', ""),
        (b"<!-- <meta charset=koi8-r> --><p>", ""),
        (b"<!--><meta charset=koi8-r>", "KOI8-R"),
        (b"<!-- <meta charset=koi8-r>", ""),
        (b"<p title='<meta charset=koi8-r>'>", ""),
        (b"<!doctype html><html lang=en><head><title>x</title><meta charset=koi8-r>", "KOI8-R"),
        (b"<?xml version='1.0' encoding='koi8-r'?><p>", "KOI8-R"),
        (b"</p a='>'><meta charset=koi8-r>", "KOI8-R"),
        (b"<meta charset=utf-16>", "UTF-8"),
        (b"<meta charset=no-such-encoding>", ""),
        (b"<meta charset=no-such-encoding><meta charset=koi8-r>", "KOI8-R"),
        (b"<metacharset=koi8-r>", ""),
        (b"<meta charset=x-user-defined>", "windows-1252"),
        (b" " * 1010 + b"<meta charset=koi8-r>", ""),
        (b"<meta charset", ""),
        (b"<", ""),
        (b"<meta charset='koi8-r", ""),
        (b"<meta charset=koi8-r", ""),
    ],
)
def test_prescan(head: bytes, name: str) -> None:
    assert said(head) == name
    assert decoded(head)[1] == (name or "UTF-8")


def test_labels() -> None:
    assert said(b"<meta charset=koi8-r>", "\nUTF8 ") == "UTF-8"
    assert said(b"<meta charset=koi8-r>", "x") == "KOI8-R"
    assert said(b"", "gb_2312-80") == "GBK"
    assert decoded(b"\xe9")[1] == "windows-1252"


@pytest.mark.parametrize(
    "page, encoding, name, text",
    [
        (b"<p>\xc3\xa9", None, "UTF-8", "é"),
        (b"<p>\xe9", None, "UTF-8", "\ufffd"),
        (b"<p>\xe9", "latin1", "windows-1252", "é"),
        (b"<p>\xc3\xa9", "", "UTF-8", "é"),
        (b"<meta charset=koi8-r><p>\xf7", None, "KOI8-R", "В"),
        (b"<meta charset=koi8-r><p>\xe9", " Latin1 ", "windows-1252", "é"),
        (b"\xef\xbb\xbf<meta charset=koi8-r><p>\xc3\xa9", "latin1", "UTF-8", "é"),
        ("\ufeff<p>é".encode("utf-16-le"), "utf-8", "UTF-16LE", "é"),
        ("\ufeff<p>é".encode("utf-16-be"), None, "UTF-16BE", "é"),
        (b"<p>\x82", "shift_jis", "Shift_JIS", "\ufffd"),
        (b"", None, "UTF-8", ""),
    ],
)
def test_pages_of_bytes(page: bytes, encoding: Optional[str], name: str, text: str) -> None:
    doc = hengaruto.parse(page, encoding=encoding)
    assert (doc.encoding, doc.text()) == (name, text)
    for other in (bytearray(page), memoryview(page)):
        assert hengaruto.parse(other, encoding=encoding).block == doc.block
    assert hengaruto.text(page, encoding=encoding) == (text + "\n" if text else "")
    if b"<p>" in page:
        assert hengaruto.links(page.replace(b"<p>", b"<a href=x>"), encoding=encoding) == [("x", text)]
    parser = hengaruto.Parser(encoding=encoding)
    for byte in page:
        parser.feed(bytes([byte]))
    assert parser.close().block == doc.block


def test_a_page_is_as_its_decoded_text() -> None:
    for page in (b"<meta charset=gbk><p>\xc4\xe3", b"<p>\xc4\xe3", b"\xff\xfea\0b"):
        name = the(hengaruto.parse(page).encoding)
        text = given("decode", page, len(page), name.encode(), len(name)).decode()
        assert hengaruto.parse(page).block == hengaruto.parse(text).block


@pytest.mark.parametrize("call", [hengaruto.parse, hengaruto.text, hengaruto.links])
def test_wrong_encodings(call: Callable[..., object]) -> None:
    for encoding in ("no-such", " ", "ü\ud800"):
        with pytest.raises(hengaruto.Error, match="unknown encoding"):
            call(b"<p>", encoding=encoding)
    with pytest.raises(TypeError, match="a str has no encoding"):
        call("<p>", encoding="utf-8")
    with pytest.raises(TypeError, match="an encoding must be str"):
        call(b"<p>", encoding=5)


def test_encoding_of_a_document() -> None:
    doc = hengaruto.parse(b"<meta charset=koi8-r>")
    assert pickle.loads(pickle.dumps(doc)).encoding == "KOI8-R" and hengaruto.load(doc.block).encoding is None
    assert hengaruto.parse("<meta charset=koi8-r>").encoding is None and hengaruto.parse_fragment(b"<p>").encoding is None


@pytest.mark.parametrize("call", [lambda page: hengaruto.parse(page).text(), hengaruto.text, hengaruto.links])
def test_files(call: Callable[[Input], object], tmp_path: Path) -> None:
    page = b"<meta charset=koi8-r><a href=y>\xf7</a>"
    path = tmp_path / "page.html"
    path.write_bytes(page)
    assert call(path) == call(page) == call(io.BytesIO(page)) == call(io.StringIO(page.decode("koi8-r")))
    with open(path, "rb") as file:
        assert call(file) == call(page)
    with open(path, encoding="koi8-r") as file:
        assert call(file) == call(page)
    with pytest.raises(FileNotFoundError):
        call(tmp_path / "none.html")


def test_chunks_of_text_are_utf8() -> None:
    declared = "<meta charset=koi8-r><p>"
    pages: Tuple[List[Source], ...] = ([declared, "\u00e9"], [declared.encode(), "\u00e9"], [declared, b"\xc3\xa9"])
    for chunks in pages:
        parser = hengaruto.Parser()
        for chunk in chunks:
            parser.feed(chunk)
        assert parser.close().text() == "\u00e9"
