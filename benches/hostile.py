#!/usr/bin/env python3
"""Writes texts of a pattern of hostile.txt, each as large as possible within a number of bytes: hostile.py NAME FOLDER BYTES..

Each text is a file in the folder, named by this number. Without arguments the names of all patterns are printed.
hostile.txt explains how a pattern is read.
"""
import os
import sys


def patterns():
    with open(os.path.join(os.path.dirname(__file__), "hostile.txt")) as lines:
        return dict(line.rstrip("\n").split(None, 1) for line in lines if line.strip() and line[0] != "#")


def parsed(text, at=0):
    """Returns the parts of a text up to the brace that ends it, which are texts and lists of parts, and where they end."""
    parts = [""]
    while at < len(text) and text[at] != "}":
        if text[at] == "{":
            repeated, at = parsed(text, at + 1)
            if text[at : at + 1] != "}":
                sys.exit("hostile.txt: no brace ends " + text)
            parts += [repeated, ""]
        else:
            parts[-1] += text[at]
        at += 1
    return parts, at


def size(parts, n, copies=1, digits=1):
    """The bytes of `copies` copies of these parts, in which the numbers for one # have `digits` digits together."""
    bytes = 0
    for part in parts:
        if isinstance(part, list):
            bytes += copies * size(part, n, n, sum(n - 10**power + 1 for power in range(len(str(n)))))
        else:
            bytes += copies * len(part) + part.count("#") * (digits - copies)
    return bytes


def written(parts, n, number="#"):
    """These parts as a text, with this number for each #."""
    return "".join(
        "".join(written(part, n, str(i)) for i in range(1, n + 1))
        if isinstance(part, list)
        else part.replace("#", number)
        for part in parts
    )


def made(parts, bytes):
    """The text for the largest n for which it has at most this many bytes."""
    n, most = 1, bytes
    while n < most:
        half = (n + most + 1) // 2
        if size(parts, half) <= bytes:
            n = half
        else:
            most = half - 1
    return written(parts, n)


def main():
    known = patterns()
    if len(sys.argv) == 1:
        print("\n".join(known))
        return
    name, folder = sys.argv[1:3]
    if name not in known:
        sys.exit("hostile.txt has no pattern " + name)
    text = known[name].replace("\\0", "\0")
    parts, end = parsed(text)
    if end < len(text) or len(parts) == 1:
        sys.exit("hostile.txt: no brace begins a part of " + text)
    for bytes in sys.argv[3:]:
        with open(os.path.join(folder, bytes), "w") as file:
            file.write(made(parts, int(bytes)))


main()
