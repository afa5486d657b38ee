"""The shared library, called with ctypes: this needs no compiler, and other threads run during a call."""
from __future__ import annotations

import ctypes
import os
from typing import Any

OK, MEMORY, NO_NODE, NO_TREE, BAD_ARGUMENT, BAD_SELECTOR, BAD_POLICY = range(7)

_U32, _SIZE, _BYTES = ctypes.c_uint32, ctypes.c_size_t, ctypes.c_char_p
_OUT, _LENGTH, _NUMBER = ctypes.POINTER(ctypes.c_void_p), ctypes.POINTER(ctypes.c_size_t), ctypes.POINTER(ctypes.c_uint32)
_SIGNATURES = {
    "parse": [_BYTES, _SIZE, _U32, _OUT, _LENGTH],
    "parse_bytes": [_BYTES, _SIZE, _BYTES, _SIZE, _U32, _OUT, _LENGTH],
    "parse_fragment": [_BYTES, _SIZE, _BYTES, _SIZE, _U32, _U32, _OUT, _LENGTH],
    "encoding": [_BYTES, _SIZE, _BYTES, _SIZE, _OUT, _LENGTH],
    "decode": [_BYTES, _SIZE, _BYTES, _SIZE, _OUT, _LENGTH],
    "html": [_BYTES, _SIZE, _U32, _U32, _OUT, _LENGTH],
    "select": [_BYTES, _SIZE, _U32, _BYTES, _SIZE, _OUT, _LENGTH],
    "select_all": [_BYTES, _SIZE, _U32, _BYTES, _SIZE, _OUT, _LENGTH],
    "select_first": [_BYTES, _SIZE, _U32, _BYTES, _SIZE, _NUMBER],
    "matches": [_BYTES, _SIZE, _U32, _BYTES, _SIZE, _NUMBER],
    "closest": [_BYTES, _SIZE, _U32, _BYTES, _SIZE, _NUMBER],
    "check_selector": [_BYTES, _SIZE, _OUT, _LENGTH],
    "page_text": [_BYTES, _SIZE, _SIZE, _OUT, _LENGTH],
    "page_links": [_BYTES, _SIZE, _OUT, _LENGTH],
    "page_meta": [_BYTES, _SIZE, _OUT, _LENGTH],
    "page_outline": [_BYTES, _SIZE, _OUT, _LENGTH],
    "errors": [_BYTES, _SIZE, _OUT, _LENGTH],
    "clean": [_BYTES, _SIZE, _OUT, _LENGTH],
    "clean_by": [_BYTES, _SIZE, _BYTES, _SIZE, _OUT, _LENGTH],
    "check": [_BYTES, _SIZE],
}


class Error(ValueError):
    """An invalid argument, or bytes that aren't a tree."""


class SelectorError(Error):
    """An invalid selector. The message says what is wrong, and at which character offset."""


class PolicyError(Error):
    """An invalid policy. The message says what is wrong, and on which line of a policy's text if that is known."""


# They are shown and pickled with the names that callers know.
Error.__module__ = SelectorError.__module__ = PolicyError.__module__ = "hengaruto"

# The statuses that return a message.
_WITH_MESSAGE = {BAD_SELECTOR: SelectorError, BAD_POLICY: PolicyError}

_MESSAGES = {
    NO_NODE: "no such node",
    NO_TREE: "not a tree: invalid block",
    BAD_ARGUMENT: "invalid argument: a name that isn't UTF-8, a namespace other than HTML, MathML and SVG, or an unknown encoding label",
}


def _loaded() -> Any:
    path = os.environ.get("HENGARUTO_LIBRARY") or os.path.join(os.path.dirname(os.path.abspath(__file__)), "libhengaruto.so")
    try:
        library = ctypes.CDLL(path)
    except OSError as error:
        raise ImportError(f"{error}. The wheel contains the library; HENGARUTO_LIBRARY overrides its path.") from None
    for name, arguments in _SIGNATURES.items():
        function = getattr(library, "hengaruto_" + name)
        function.argtypes, function.restype = arguments, _U32
    return library


_library = _loaded()
_free = ctypes.CDLL(None).free
_free.argtypes, _free.restype = [ctypes.c_void_p], None


def given(name: str, *arguments: Any) -> bytes:
    """Returns the result of a call, and frees the memory of the library."""
    out, length = ctypes.c_void_p(), ctypes.c_size_t()
    status = getattr(_library, "hengaruto_" + name)(*arguments, ctypes.byref(out), ctypes.byref(length))
    _raise_if_refused(status, out, length)
    return _taken(out, length)


def number(name: str, block: bytes, node: int, selector: bytes) -> int:
    """Returns the number that a call with a selector returns."""
    found = ctypes.c_uint32()
    status = getattr(_library, "hengaruto_" + name)(block, len(block), node, selector, len(selector), ctypes.byref(found))
    if status == BAD_SELECTOR:
        # This call returns no message.
        check_selector(selector)
    if status != OK:
        raise _error_of(status)
    return found.value


def check_selector(selector: bytes) -> None:
    """Raises a `SelectorError` if a text in UTF-8 isn't a selector."""
    out, length = ctypes.c_void_p(), ctypes.c_size_t()
    status = _library.hengaruto_check_selector(selector, len(selector), ctypes.byref(out), ctypes.byref(length))
    _raise_if_refused(status, out, length)


def _raise_if_refused(status: int, out: ctypes.c_void_p, length: ctypes.c_size_t) -> None:
    """Raises the error of a status, with its message if the call returned one."""
    if status in _WITH_MESSAGE:
        raise _WITH_MESSAGE[status](_taken(out, length).decode("utf-8", "replace"))
    if status != OK:
        raise _error_of(status)


def _taken(out: ctypes.c_void_p, length: ctypes.c_size_t) -> bytes:
    """Returns a copy of a result, and frees it."""
    try:
        return ctypes.string_at(out, length.value)
    finally:
        _free(out)


def _error_of(status: int) -> Exception:
    if status == MEMORY:
        return MemoryError("hengaruto: out of memory, or the tree is 4 GiB or larger")
    return Error(_MESSAGES.get(status, f"status {status}"))


def is_tree(block: bytes) -> bool:
    """Returns true if a block has the structure of one that `parse` makes. Reads all of it."""
    return bool(_library.hengaruto_check(block, len(block)) == OK)
