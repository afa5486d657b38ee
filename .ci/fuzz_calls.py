"""Makes the calls of the Python package that standard input lists, for .ci/fuzz: each line is 1, if a value in it has a wrong type or size, or
0, a space and an expression. A dot is printed after each. What is documented may be raised: a ValueError, KeyError, IndexError or
MemoryError, and a TypeError or OverflowError for values of a wrong type or size. Any other exception ends the program.
"""
import itertools
import os
import pickle  # noqa: F401
import re  # noqa: F401
import signal
import sys
import threading

import hengaruto
import hengaruto.trees

DOCUMENTED = (ValueError, KeyError, IndexError, MemoryError)
OF_WRONG_VALUES = (*DOCUMENTED, TypeError, OverflowError)
SECONDS = 10
STACK = 256 * 1024


def fed(pages):
    """The document that a parser makes of pages in chunks."""
    parser = hengaruto.Parser()
    for page in pages:
        parser.feed(page)
    return parser.close()


def changed(block, changes):
    """A block with other bytes at some places."""
    out = bytearray(block)
    for at, byte in changes:
        out[at % len(out)] = byte
    return bytes(out)


def look_at(value):
    """Reads a result: the first items of what can be iterated, and the text of a node."""
    if isinstance(value, hengaruto.Document):
        value = value.node.descendants()
    if isinstance(value, hengaruto.Node):
        return repr(value), value.text(), value.to_html()
    if isinstance(value, (bytes, str)) or not hasattr(value, "__iter__"):
        return repr(value)[:100]
    return [(repr(it), it.attrs, it.data, it.text()) if isinstance(it, hengaruto.Node) else repr(it) for it in itertools.islice(value, 50)]


def make_call(code, is_odd, failures):
    try:
        look_at(eval(code))
    except OF_WRONG_VALUES if is_odd else DOCUMENTED:
        pass
    except Exception as error:
        failures.append(f"{type(error).__name__}: {error}")


def main():
    for line in sys.stdin:
        is_odd, _, text = line.rstrip("\n").partition(" ")
        failures = []
        signal.alarm(SECONDS)
        thread = threading.Thread(target=make_call, args=(compile(text, "call", "eval"), is_odd == "1", failures))
        thread.start()
        thread.join()
        signal.alarm(0)
        if failures:
            print(failures[0], file=sys.stderr, flush=True)
            os._exit(1)
        sys.stdout.write(".")
        sys.stdout.flush()


threading.stack_size(STACK)
# A thread in the library keeps Python from handling a signal, so the default action ends the program.
signal.signal(signal.SIGALRM, signal.SIG_DFL)
main()
