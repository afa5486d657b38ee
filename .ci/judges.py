"""What `./check --all` runs besides its own tests: the gate's scripts that need no toolchain, and the judges, if this machine has them."""
import collections
import glob
import os
import re
import shlex
import shutil
import subprocess

import html5lib_cases

ROOT = os.path.dirname(os.path.dirname(os.path.abspath(__file__)))
TOOLS = [
    [".ci/scripts.sh"],
    [".ci/runs.py"],
    [".ci/language"],
    [".ci/ages"],
    [".ci/wrong-bodies", "--look"],
    [".ci/snippets"],
    [".ci/costs", "--check"],
    [".ci/trusted", "--check"],
    [".ci/tables"],
    ["crates/h5_names/write_known_names.py", "--check"],
    ["crates/h5_tokenizer_states/write_table.py", "--check"],
    ["crates/h5_encodings/write_tables.py", "--check"],
    ["crates/h5_vectors/write_page.py", "--check"],
]
# The number of lines that are shown of a judge that finds a difference.
SHOWN = 40
# A judge: its words, the program it judges with that one's words, and a function that says what it needs and this machine doesn't have.
Judge = collections.namedtuple("Judge", "words program missing")


def without_cases():
    return "" if glob.glob(f"{html5lib_cases.DEBIAN}/*.dat") else "Debian's package golang-golang-x-net-dev"


def html5ever_folder():
    """The folder that HTML5EVER names, or an unpacked crate of cargo or of Debian; nothing if there is none."""
    unpacked = [f"{os.path.expanduser('~')}/.cargo/registry/src/*/html5ever-0.40.1", "/usr/share/cargo/registry/html5ever-0.40.1"]
    return os.environ.get("HTML5EVER") or next((path for it in unpacked for path in glob.glob(it)), "")


def without_html5ever():
    if not html5ever_folder():
        return "html5ever 0.40.1's sources; HTML5EVER names their folder"
    return "" if shutil.which(os.environ.get("RUSTC", "rustc")) else "rustc"


def without_parse5():
    path = os.environ.get("NODE_PATH", "/usr/share/nodejs")
    if not shutil.which("node"):
        return "node, Debian's package nodejs"
    return "" if os.path.isdir(f"{path}/parse5") else "Debian's package node-parse5"


def without_soupsieve():
    words = ["/usr/bin/python3", "-c", "import bs4, html5lib, soupsieve"]
    is_there = os.path.exists(words[0]) and not subprocess.run(words, stderr=subprocess.DEVNULL, check=False).returncode
    return "" if is_there else "Debian's packages python3-soupsieve, python3-bs4 and python3-html5lib"


JUDGES = {
    "html5lib": Judge([".ci/html5lib"], ["hengaruto"], without_cases),
    "html5ever": Judge([".ci/html5ever", html5ever_folder(), "5000"], ["h5"], without_html5ever),
    "errors": Judge([".ci/errors", "3000", "1"], ["hengaruto", "errors", "--scripting"], without_parse5),
    "tree-errors": Judge([".ci/tree-errors"], ["hengaruto"], lambda: without_cases() or without_parse5()),
    "selectors": Judge([".ci/selectors", "2000", "1"], ["hengaruto", "select"], without_soupsieve),
    "sanitizer": Judge([".ci/sanitizer", "3000", "1"], ["hengaruto", "clean"], without_parse5),
}


def judged(name, programs, library):
    """How many comparisons of a judge agree, its last lines about those that don't, and what was skipped since it is missing."""
    judge = JUDGES[name]
    missing = judge.missing()
    if missing:
        return 0, [], [f"{name}: this machine doesn't have {missing}"]
    program, *words = judge.program
    environment = {**os.environ, "PROGRAM": shlex.join([programs[program], *words]), "HENGARUTO_LIBRARY": library}
    how = {"cwd": ROOT, "env": environment, "stdout": subprocess.PIPE, "stderr": subprocess.STDOUT, "text": True, "check": False}
    done = subprocess.run(judge.words, **how)
    # Status 2 says that something is missing or too old.
    if done.returncode == 2:
        return 0, [], [f"{name}: {done.stdout.strip()}"]
    said = "\n    ".join(["the last lines of what it says:", *done.stdout.strip().split("\n")[-SHOWN:]])
    return passed_in(done.stdout), [said] if done.returncode else [], []


def passed_in(printed):
    """The number of comparisons that agree, by the last line of a judge."""
    last = printed.strip().rpartition("\n")[2]
    agreed = re.match(r"(\d+) agree(?:, (\d+) differ as listed)?", last)
    if agreed:
        return sum(int(it) for it in agreed.groups() if it)
    compared = re.match(r"(\d+) compared, (\d+) differ", last)
    return int(compared[1]) - int(compared[2]) if compared else 0
