#!/usr/bin/env python3
"""Compares the time of selecting with that of lxml, parsel, BeautifulSoup and cascadia.

    selecting.py [ROUNDS]    by default 15 rounds

First ten selectors on pages of 2 kB, 20 kB and 1.5 MB: each by a call, and all by one call of `select_all`. Then the loop
`for row in doc.select("tr"): row.select("td")` over tables of 400, 800 and 1,600 rows. Pages are parsed and selectors are compiled before:
lxml's by `CSSSelector`, soupsieve's for BeautifulSoup by `compile`; parsel keeps those that it saw. Each figure is the median of all rounds,
in microseconds of processor time; a round that takes more than ten seconds is the last. A * follows it if the library finds another number
of elements: lxml and parsel use libxml2, whose trees differ. The libraries are Debian's packages python3-lxml, python3-cssselect,
python3-parsel, python3-bs4, golang-go and golang-github-andybalholm-cascadia-dev; those that are missing are left out.
"""
import os
import statistics
import subprocess
import sys
import tempfile
import time

from beside_lxml import made

import hengaruto

SELECTORS = [
    "p", "a[href]", "section > p", ".lead b", "#s3 td", "tr:nth-child(2n) td", "li:not(:first-child) > a", "h2, code, i", "table td.n",
    "p:has(b) + p",
]
SIZES = [2_000, 20_000, 1_500_000]
ROWS = [400, 800, 1_600]


class Hengaruto:
    """The package itself. Each library has these calls: a tree, a selector, and the elements below a node of a tree."""

    name = "hengaruto"
    parse = staticmethod(hengaruto.parse)
    compile = staticmethod(hengaruto.Selector)

    @staticmethod
    def select(node, selector):
        return node.select(selector)


class Lxml:
    name = "lxml"

    def __init__(self):
        import lxml.cssselect
        import lxml.html

        self.parser = lxml.html.HTMLParser(encoding="utf-8", huge_tree=True)
        self.parse = lambda page: lxml.html.document_fromstring(page, parser=self.parser)
        self.compile = lambda selector: lxml.cssselect.CSSSelector(selector, translator="html")
        self.select = lambda node, selector: selector(node)


class Parsel:
    name = "parsel"

    def __init__(self):
        import parsel

        self.parse = lambda page: parsel.Selector(text=page.decode("utf-8"))
        self.compile = str
        self.select = lambda node, selector: node.css(selector)


class Soup:
    name = "bs4"

    def __init__(self):
        import bs4
        import soupsieve

        self.parse = lambda page: bs4.BeautifulSoup(page, "lxml")
        self.compile = soupsieve.compile
        self.select = lambda node, selector: selector.select(node)


def libraries():
    for made_by in (Hengaruto, Lxml, Parsel, Soup):
        try:
            yield made_by()
        except ImportError as error:
            print(f"{made_by.name} is left out: {error}")


def cascadia(room):
    """A program that measures Go's cascadia, built in a folder; None if it can't be built."""
    program = f"{room}/cascadia"
    source = f"{os.path.dirname(os.path.abspath(__file__))}/cascadia.go"
    environment = {**os.environ, "GO111MODULE": "off", "GOPATH": "/usr/share/gocode", "GOCACHE": f"{room}/cache"}
    try:
        subprocess.run(["go", "build", "-o", program, source], env=environment, check=True)
    except (OSError, subprocess.CalledProcessError) as error:
        print(f"cascadia is left out: {error}")
        return None
    return program


def cells_of(program, page, *words):
    """What that program prints of a page: pairs of a time and a count."""
    if program is None:
        return []
    printed = subprocess.run([program, *words], input=page, stdout=subprocess.PIPE, check=True).stdout.decode()
    return [(float(us), int(count)) for us, count in map(str.split, printed.splitlines())]


def median_of(call, rounds):
    """The median time of a call in microseconds, and its result."""
    times, begun = [], time.monotonic()
    for _ in range(rounds):
        start = time.process_time_ns()
        result = call()
        times.append((time.process_time_ns() - start) / 1000)
        if time.monotonic() - begun > 10:
            break
    return statistics.median(times), result


def line(what, cells):
    """A line of a table: of each library its time, and a star if its count isn't that of the first one."""
    first = cells[0][1]
    print(f"{what:28}" + "".join(f"{'' if us is None else f'{us:,.0f}':>12}{' ' if count in (first, None) else '*'}" for us, count in cells))


def head(what, used, program):
    names = [library.name for library in used] + ["cascadia"] * (program is not None)
    print(f"\n{what:28}" + "".join(f"{name:>12} " for name in names))


def cell(call, rounds):
    """The time of a call and its result; nothing if the library doesn't know the selector."""
    try:
        return median_of(call, rounds)
    except Exception:  # each library has its own
        return None, None


def count_of(library, tree, selector):
    return lambda: len(library.select(tree, selector))


def page_table(used, program, size, rounds):
    page = made(size)
    trees = [library.parse(page) for library in used]
    head(f"a page of {len(page):,} bytes", used, program)
    others = cells_of(program, page, str(rounds), *SELECTORS)
    sums = [0.0] * (len(used) + (program is not None))
    for number, selector in enumerate(SELECTORS):
        cells = [cell(count_of(library, tree, library.compile(selector)), rounds) for library, tree in zip(used, trees)]
        cells += others[number : number + 1]
        sums = [total + (us or 0) for total, (us, _) in zip(sums, cells)]
        line(selector, cells)
    line("all ten", [(total, None) for total in sums])
    line("all ten, by select_all", [median_of(lambda: len(trees[0].select_all(SELECTORS)), rounds)])


def rows_of(library, tree, row, data):
    return lambda: sum(len(library.select(it, data)) for it in library.select(tree, row))


def loop_table(used, program, rounds):
    head("the loop", used, program)
    for count in ROWS:
        page = ("<table>" + "".join(f"<tr><td>{i}<td>two<td>three<td>four" for i in range(count)) + "</table>").encode()
        cells = [cell(rows_of(it, it.parse(page), it.compile("tr"), it.compile("td")), rounds) for it in used]
        line(f"{count:,} rows", cells + cells_of(program, page, "--loop", str(rounds)))


def main(words):
    rounds = int(words[0]) if words else 15
    used = list(libraries())
    with tempfile.TemporaryDirectory() as room:
        program = cascadia(room)
        for size in SIZES:
            page_table(used, program, size, rounds)
        loop_table(used, program, rounds)


if __name__ == "__main__":
    main(sys.argv[1:])
