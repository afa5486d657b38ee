"""Random trees as calls of a serializer, and the HTML that the library for C writes for them, from a block that holds the tree. The
library is the one in dist/, unless HENGARUTO_LIBRARY names another.

A tree is a list of lines: `start NAMESPACE NAME`, after it `attribute NAMESPACE NAME VALUE`, `end NAMESPACE NAME`, `text TEXT`,
`comment TEXT`, `doctype NAME` and `instruction TARGET DATA`. After a first line `within`, only the content of the element that follows is
written. NAMESPACE is a number: none, HTML, MathML, SVG, XLink, XML, XMLNS, from 0. Texts have the escapes of `h5 tree`. Block.antt and
Packed.antt in crates/h5_tree_block/specs describe a block.
"""
import ctypes
import functools
import os
import struct

import cases

ROOT = os.path.dirname(os.path.dirname(os.path.abspath(__file__)))
ELEMENT, TEXT, INSTRUCTION, COMMENT, DOCUMENT, DOCTYPE = 1, 3, 7, 8, 9, 10
NOTHING = 0xFFFFFFFF
TEXTS = ["a", "<", "&<>\"'", "\u00a0", "\u00a2\u00a0\u00c2", "", "x\\ny", "\u20ac\u00a0&amp;", "\U0001f600&", "\\0\\t"]
# Void elements, raw texts, and two that aren't.
OWN = (
    "area base basefont bgsound br col embed frame hr img input keygen link meta param source track wbr style script xmp iframe noembed"
    " noframes plaintext noscript title textarea"
).split()
ATTRIBUTES = ["href", "xmlns", "xlink", "lang", "x"]


LIBRARY = os.environ.get("HENGARUTO_LIBRARY", f"{ROOT}/dist/lib/libhengaruto.so")


@functools.lru_cache(maxsize=None)
def library():
    loaded = ctypes.CDLL(LIBRARY)
    loaded.hengaruto_html.argtypes = [ctypes.c_char_p, ctypes.c_size_t, ctypes.c_uint32, ctypes.c_uint32, ctypes.c_void_p, ctypes.c_void_p]
    return loaded


class Block:
    """The columns of a block, filled by calls in tree order."""

    def __init__(self):
        self.nodes, self.rows, self.names = [], [], {}
        self.values, self.text, self.open = b"", b"", []
        self.add(DOCUMENT)
        self.open.append(0)

    def name(self, space, local):
        return self.names.setdefault((int(space), local), len(self.names))

    def add(self, kind, name=0, values=()):
        """Adds a node, with a row without a name for each value."""
        parent = self.open[-1] if self.open else NOTHING
        place = {"parent": parent, "end": len(self.nodes) + 1, "text": len(self.text), "row": len(self.rows)}
        self.nodes.append({"kind": kind + 256 * name, **place})
        for value in values:
            self.row(NOTHING, value)

    def row(self, name, value):
        self.values += cases.unescaped(value).encode()
        self.rows.append((name, len(self.values)))

    def call(self, line):
        kind, _, words = line.partition(" ")
        if kind == "start":
            self.add(ELEMENT, self.name(*words.split(" ")))
            self.open.append(len(self.nodes) - 1)
        elif kind == "attribute":
            space, local, value = words.split(" ", 2)
            self.row(self.name(space, local), value)
        elif kind == "end":
            self.nodes[self.open.pop()]["end"] = len(self.nodes)
        elif kind == "text":
            self.add(TEXT)
            self.text += cases.unescaped(words).encode()
        elif kind == "instruction":
            self.add(INSTRUCTION, values=words.split(" ", 1))
        elif kind == "comment":
            self.add(COMMENT, values=[words])
        elif kind == "doctype":
            self.add(DOCTYPE, values=[words, "", ""])

    def packed(self):
        self.nodes[0]["end"] = len(self.nodes)
        name_bytes, name_ends = b"", []
        for _, local in self.names:
            name_bytes += local.encode()
            name_ends.append(len(name_bytes))
        column = {which: [node[which] for node in self.nodes] for which in self.nodes[0]}
        words = [*column["kind"], *column["parent"], *column["end"], *column["text"], len(self.text), *column["row"], len(self.rows)]
        words += [name for name, _ in self.rows] + [end for _, end in self.rows] + [space for space, _ in self.names] + name_ends
        length = 4 * (9 + len(words)) + len(name_bytes) + len(self.values) + len(self.text)
        counts = [len(self.nodes), len(self.rows), len(self.names), len(name_bytes), len(self.values), len(self.text)]
        # No quirks, and parsed with scripting, as html5ever's serializer assumes.
        head = [0x31544748, length, 4, *counts]
        return struct.pack(f"<{9 + len(words)}I", *head, *words) + name_bytes + self.values + self.text


def html_of(calls):
    """What the library writes for a tree, or what is wrong with its block."""
    block = Block()
    lines = calls.splitlines()
    for line in lines:
        block.call(line)
    packed = block.packed()
    if library().hengaruto_check(packed, ctypes.c_size_t(len(packed))):
        return "not a block\n"
    out, length = ctypes.c_void_p(), ctypes.c_size_t()
    is_within = lines[:1] == ["within"]
    status = library().hengaruto_html(packed, len(packed), 1 if is_within else 0, 0, ctypes.byref(out), ctypes.byref(length))
    if status:
        return f"status {status}\n"
    text = ctypes.string_at(out, length.value).decode()
    free = ctypes.CDLL(None).free
    free.argtypes = [ctypes.c_void_p]
    free(out)
    return text


def element(chance, tags, depth):
    space, local = chance.choice("11112330"), chance.choice(tags)
    yield f"start {space} {local}"
    for name in chance.sample(ATTRIBUTES, chance.choice([0, 0, 0, 1, 2])):
        yield f"attribute {chance.choice('0000456123')} {name} {chance.choice(TEXTS)}"
    yield from content(chance, tags, depth)
    yield f"end {space} {local}"


def content(chance, tags, depth):
    for _ in range(chance.choice([0, 1, 2, 3, 4]) if depth else 0):
        kind = chance.random()
        if kind < 0.5:
            yield from element(chance, tags, depth - 1)
        elif kind < 0.85:
            yield f"text {chance.choice(TEXTS)}"
        else:
            yield chance.choice(["comment a<b--", "comment ", "doctype html", "doctype ", "instruction xml a=\"b\"", "instruction x y>"])


def random_calls(chance, tags):
    """The calls of a tree. Half of its elements are those that a serializer treats in its own way."""
    tags = [*OWN, *chance.sample(tags, min(len(OWN), len(tags)))]
    within = chance.random() < 0.4
    lines = ["within", *element(chance, tags, 3)] if within else content(chance, tags, 4)
    return "".join(f"{line}\n" for line in lines)
