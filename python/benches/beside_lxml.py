#!/usr/bin/env python3
"""Compares the processor time of the package with that of lxml.html, on one page.

    beside_lxml.py [PAGE [ROUNDS]]    a file in UTF-8; by default a page of 1 MB that is made here, and 5 rounds

In each round each library does each thing once, one library after the other. The output is the least time of all rounds, in milliseconds of
processor time, and the peak memory of a process that only parses. lxml.html is Debian's package python3-lxml. It uses libxml2, which
doesn't follow the rules of the standard, so the two trees may differ.
"""
import os
import subprocess
import sys
import time

import hengaruto

PARSE_ALONE = """
import sys
page = open(sys.argv[2], "rb").read()
def most():
    return next(int(line.split()[1]) // 1024 for line in open("/proc/self/status") if line.startswith("VmHWM"))
if sys.argv[1] == "hengaruto":
    import hengaruto
    before = most()
    tree = hengaruto.parse(page)
else:
    import lxml.html
    before = most()
    tree = lxml.html.document_fromstring(page, parser=lxml.html.HTMLParser(encoding="utf-8", huge_tree=True))
print(most(), before)
"""


def made(size):
    """A page of at least this size in bytes: headings, paragraphs with links and phrases, lists, tables, references."""
    parts, count, number = ["<!DOCTYPE html><html lang=en><head><meta charset=utf-8><title>A page</title></head><body>\n"], 0, 0
    while count < size:
        number += 1
        rows = "".join(f"<tr><td>{number}.{i}</td><td class='n'>{i * 37 % 101}</td></tr>" for i in range(6))
        items = "".join(f"<li><a href='/item/{number}/{i}'>item {i}</a> &ndash; some words</li>" for i in range(5))
        words = "Plain words of a paragraph, one behind the other. " * 4
        parts.append(
            f"<section id=s{number}><h2>Section {number}</h2>\n<p class='lead text'>Some <b>bold</b> and <i>leaning</i> words &amp; a "
            f"<a href='https://example.org/{number}?a=1&amp;b=2' title='a title'>link</a>, <code>x &lt; y</code>, a caf\u00e9.</p>\n"
            f"<p>{words}</p><ul>{items}</ul><table>{rows}</table><!-- {number} --></section>\n"
        )
        count += len(parts[-1].encode("utf-8"))
    return "".join(parts + ["</body></html>\n"]).encode("utf-8")


def things_of_ours():
    return {
        "parse": hengaruto.parse,
        "links": lambda doc: sum(1 for _ in doc.links()),
        "text": lambda doc: len(doc.text()),
        "p by name": lambda doc: sum(1 for _ in doc.iter("p")),
        "select": lambda doc: len(doc.select("section > p a[href]")),
        "HTML": lambda doc: len(doc.to_html()),
    }


def things_of_lxml():
    import lxml.html

    def parse(page):
        return lxml.html.document_fromstring(page, parser=lxml.html.HTMLParser(encoding="utf-8", huge_tree=True))

    things = {
        "parse": parse,
        "links": lambda root: sum(1 for a in root.iter("a") if a.get("href") is not None and a.text_content() is not None),
        "text": lambda root: len(root.text_content()),
        "p by name": lambda root: sum(1 for _ in root.iter("p")),
        "HTML": lambda root: len(lxml.html.tostring(root, encoding="unicode")),
    }
    try:
        import cssselect  # noqa: F401

        things["select"] = lambda root: len(root.cssselect("section > p a[href]"))
    except ImportError:
        pass
    return things


def round_of(things, page, least):
    """Does each thing once, keeps the least time of each in `least`, and returns what it counted."""
    begun = time.process_time()
    tree = things["parse"](page)
    least["parse"] = min(least.get("parse", 1e9), time.process_time() - begun)
    counts = {}
    for name, thing in things.items():
        if name != "parse":
            begun = time.process_time()
            counts[name] = thing(tree)
            least[name] = min(least.get(name, 1e9), time.process_time() - begun)
    return counts


def memory_of(name, path):
    done = subprocess.run([sys.executable, "-c", PARSE_ALONE, name, path], stdout=subprocess.PIPE, check=True)
    return done.stdout.decode().split()


def main(words):
    if words:
        with open(words[0], "rb") as file:
            page, path = file.read(), words[0]
    else:
        import tempfile

        page = made(1_000_000)
        made_file = tempfile.NamedTemporaryFile(suffix=".html")
        made_file.write(page)
        made_file.flush()
        path = made_file.name
    libraries = {"hengaruto": things_of_ours()}
    try:
        libraries["lxml.html"] = things_of_lxml()
    except ImportError:
        print("lxml is missing: install Debian's package python3-lxml")
    least, counts = {name: {} for name in libraries}, {}
    for _ in range(int(words[1]) if len(words) > 1 else 5):
        for name, things in libraries.items():
            counts[name] = round_of(things, page, least[name])
    print(f"{len(page)} bytes, {len(hengaruto.parse(page))} nodes; load {os.getloadavg()[0]:.1f}")
    print(f"{'':10}" + "".join(f"{name:>22}" for name in libraries))
    for thing in libraries["hengaruto"]:
        cells = []
        for name in libraries:
            seconds, count = least[name].get(thing), counts[name].get(thing, "")
            cells.append(f"{'' if seconds is None else f'{seconds * 1000:.1f} ms':>11}{str(count):>11}")
        print(f"{thing:10}" + "".join(cells))
    for name in libraries:
        peak, before = memory_of(name, path)
        print(f"{name}: {peak} MB at most, {before} MB before the parse")


if __name__ == "__main__":
    main(sys.argv[1:])
