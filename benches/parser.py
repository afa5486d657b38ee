#!/usr/bin/env python3
"""Measures how fast `h5 html` parses documents and writes their trees.

    benches/parser.py          MB of text per second of processor time, the best of five runs, for a flat document
                               of 10 MB, a nest of 10,000 elements, misnested formatting elements, a table of
                               100,000 rows, foster-parented content, tables in tables, elements with attributes,
                               and one long text
    benches/parser.py count    instructions per byte of text, at a tenth of these sizes; needs valgrind
    benches/parser.py memory   peak memory in bytes per byte of text; needs GNU time
    benches/parser.py beside NAME=COMMAND.. [-- PAGE..]
                               runs `h5 html` and other commands that read HTML from standard input and write it,
                               one after the other, on these texts and on the files after --: milliseconds of
                               processor time, the best and the median of five runs, and peak memory in MB; needs
                               GNU time. For example, with programs that use other libraries:

    benches/parser.py beside html5ever=./html5ever gumbo=./gumbo go=./xnet 'lxml=python3 lxml_write.py' -- page.html

    benches/parser.py pieces [LENGTH [KIND..]]
                               instructions of `hengaruto html` per byte of a text of this length, for each of
                               these kinds, if the text comes in chunks of 1 and of 16 bytes, and as a file, which
                               the program reads in chunks of 65,536; needs valgrind. The figures of a linear
                               tokenizer are the same at twice the length

The columns of `count` are from one run. "build" is from text to tree, and "read" is "build" without all that the tree
builder does with tokens. "html" is the whole program, and "serialize" is "html" without "build" and without the check
for UTF-8: from tree to text, and the reading and writing of bytes. A dash means that the compiler inlined a function
that the column is counted by. No column includes the drop of the tree, which the program leaves to its end.

With PROGRAM='WORD..' this command is run in place of `h5 html` or `hengaruto html`.
"""
import os
import re
import shlex
import socket
import statistics
import subprocess
import sys
import tempfile
import threading

from texts import KINDS, text_of

ROOT = os.path.dirname(os.path.dirname(os.path.abspath(__file__)))
SIZES = {"flat": 10_000_000, "nest": 10_000, "misnested": 5_000_000, "rows": 1_000_000}
SIZES |= {"fostered": 5_000_000, "tables": 10_000, "attributed": 10_000_000, "text": 10_000_000}
RUNS = 5
PIECES = [1, 16]
IN_PIECES = ["flat", "attributed", "text", "page", "comment", "value", "raw", "name", "doctype", "ampersands"]
IN_PIECES += ["letters", "number", "scripts"]
# The functions whose costs, with all that they call, make the columns of `count`.
PARSE = "h5_driver::parser::Parser::one"
TAKE_TOKEN = "h5_tree_builder::builder::TreeBuilder::process_token"
CHECK_BYTES = "core::str::utf8::from_utf8"


def program(name):
    """The command that runs `NAME html`. Builds the program first, unless PROGRAM is set."""
    if "PROGRAM" in os.environ:
        return shlex.split(os.environ["PROGRAM"])
    crate = f"{ROOT}/crates/{name}"
    built = subprocess.run(["rt", "run", "--", "html"], cwd=crate, stdin=subprocess.DEVNULL, stdout=subprocess.PIPE, stderr=subprocess.STDOUT, check=False)
    if built.returncode:
        sys.exit(built.stdout.decode(errors="replace"))
    return [f"{crate}/out/{name}", "html"]


def seconds(words, room):
    """The processor time of one run of a command over the text, or None if the command fails."""
    with open(f"{room}/text", "rb") as text, open(f"{room}/out", "wb") as out:
        run = subprocess.Popen(words, stdin=text, stdout=out, stderr=subprocess.DEVNULL)
        _, run.returncode, usage = os.wait4(run.pid, 0)
    return None if run.returncode else usage.ru_utime + usage.ru_stime


def most_memory(words, room):
    """The peak memory of one run of a command, in bytes. GNU time starts it, since a child of this process begins with its memory."""
    with open(f"{room}/text", "rb") as text, open(f"{room}/out", "wb") as out:
        words = ["/usr/bin/time", "-o", f"{room}/most", "-f", "%M", *words]
        subprocess.run(words, stdin=text, stdout=out, stderr=subprocess.DEVNULL, check=False)
    with open(f"{room}/most", encoding="ascii") as most:
        return int(most.read().split()[-1]) * 1024


def profile(words, room, source):
    """The instructions of each function and all that it calls, by its name, in one run of a command."""
    counted = ["valgrind", "--tool=callgrind", f"--callgrind-out-file={room}/profile", *words]
    subprocess.run(counted, stdin=source, stdout=subprocess.DEVNULL, stderr=subprocess.DEVNULL, check=True)
    report = ["callgrind_annotate", "--inclusive=yes", "--threshold=100", f"{room}/profile"]
    costs = {}
    for line in subprocess.run(report, capture_output=True, text=True, check=True).stdout.splitlines():
        found = re.match(r"\s*([\d,]+) \([\d. ]+%\)\s+\S+?:([^\s:].*?)(?:::<#\w+>)?(?: \[.*\])?$", line)
        if found:
            costs[found[2]] = costs.get(found[2], 0) + int(found[1].replace(",", ""))
    return costs


def parts_of(costs):
    """The columns of `count`, with None for a part whose function isn't there."""
    build, take, check, html = map(costs.get, (PARSE, TAKE_TOKEN, CHECK_BYTES, "main"))
    read = None if None in (build, take) else build - take
    serialize = None if None in (build, check, html) else html - build - check
    return {"read": read, "build": build, "serialize": serialize, "html": html}


def put_text(room, text):
    with open(f"{room}/text", "wb") as file:
        file.write(text.encode())


def row(name, values):
    print(f"{name:<24}", *(f"{'-' if it is None else it:>12}" for it in values), flush=True)


def tenths(value):
    return None if value is None else f"{value:.1f}"


def speed(words, room):
    row("", ["MB/s"])
    for kind, size in SIZES.items():
        put_text(room, text_of(kind, size))
        times = [seconds(words, room) for _ in range(RUNS)]
        megabytes = os.path.getsize(f"{room}/text") / 1_000_000
        row(f"{kind} {size}", [None if None in times else tenths(megabytes / min(times))])


def count(words, room):
    row("", parts_of({}))
    for kind, size in SIZES.items():
        put_text(room, text_of(kind, size // 10))
        with open(f"{room}/text", "rb") as text:
            parts = parts_of(profile(words, room, text))
        length = os.path.getsize(f"{room}/text")
        row(f"{kind} {size // 10}", [cost and tenths(cost / length) for cost in parts.values()])


def memory(words, room):
    row("", ["bytes/byte"])
    for kind, size in SIZES.items():
        put_text(room, text_of(kind, size))
        row(f"{kind} {size}", [tenths(most_memory(words, room) / os.path.getsize(f"{room}/text"))])


def beside_rows(name, commands, room):
    """Prints the rows of the current text: one for each command."""
    times = {command: [] for command in commands}
    for _ in range(RUNS):
        for command, words in commands.items():
            times[command].append(seconds(words, room))
    for command, words in commands.items():
        if None in times[command]:
            row(name, [command, "fails"])
        else:
            taken = [1000 * it(times[command]) for it in (min, statistics.median)]
            row(name, [command, *map(tenths, [*taken, most_memory(words, room) / 1_000_000])])
        name = ""


def beside(words, room, commands, pages):
    commands = {"h5": words, **{name: ["sh", "-c", command] for name, command in commands.items()}}
    row("", ["", "best, ms", "median, ms", "memory, MB"])
    for kind, size in SIZES.items():
        put_text(room, text_of(kind, size))
        beside_rows(f"{kind} {size}", commands, room)
    for page in pages:
        with open(page, "rb") as file, open(f"{room}/text", "wb") as text:
            text.write(file.read())
        beside_rows(os.path.basename(page), commands, room)


def send(end, text, size):
    """Sends a text in chunks, and then its end. The program may have ended before."""
    with end:
        try:
            for at in range(0, len(text), size):
                end.send(text[at : at + size])
        except BrokenPipeError:
            pass


def in_pieces(words, room, text, size):
    """The instructions of a command that gets the text in chunks of `size` bytes. Each read of this kind of socket returns one chunk."""
    source, end = socket.socketpair(socket.AF_UNIX, socket.SOCK_SEQPACKET)
    sender = threading.Thread(target=send, args=(end, text, size))
    sender.start()
    with source:
        cost = profile(words, room, source)["main"]
    sender.join()
    return cost


def pieces(words, room, length, kinds):
    row("", [*PIECES, "a file"])
    for kind in kinds:
        text = text_of(kind, length)
        put_text(room, text)
        costs = [in_pieces(words, room, text.encode(), size) for size in PIECES]
        with open(f"{room}/text", "rb") as source:
            costs.append(profile(words, room, source)["main"])
        row(kind, [tenths(cost / len(text)) for cost in costs])


def usage():
    print(__doc__, file=sys.stderr)
    sys.exit(2)


def main(words):
    way, rest = words[0] if words else "speed", words[1:]
    with tempfile.TemporaryDirectory(prefix="parser-") as room:
        if way in ("speed", "count", "memory") and not rest:
            {"speed": speed, "count": count, "memory": memory}[way](program("h5"), room)
        elif way == "beside":
            end = rest.index("--") if "--" in rest else len(rest)
            commands, pages = [it.partition("=") for it in rest[:end]], rest[end + 1 :]
            if not commands or not all(name and command for name, _, command in commands) or not all(map(os.path.isfile, pages)):
                usage()
            beside(program("h5"), room, {name: command for name, _, command in commands}, pages)
        elif way == "pieces":
            kinds = rest[1:] or IN_PIECES
            if not (rest[:1] or ["1"])[0].isdecimal() or not {*kinds} <= {*KINDS}:
                usage()
            pieces(program("hengaruto"), room, int(rest[0]) if rest else 100_000, kinds)
        else:
            usage()


main(sys.argv[1:])
