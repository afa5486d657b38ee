#!/usr/bin/env python3
"""Reads the files .ci/runs*, makes the runs of the programs that they list, and finds options and messages that no run has.

    .ci/runs.py    prints each subcommand and option of the help texts in runs.help, and each message in the code, that no run has; the
                   status is 1 if there are any
"""
import contextlib
import difflib
import glob
import os
import re
import shlex
import shutil
import subprocess
import sys

ROOT = os.path.dirname(os.path.dirname(os.path.abspath(__file__)))
FILES = [f"{ROOT}/.ci/{name}" for name in ("runs", "runs.help", "runs.options", "runs.messages", "runs.faults")]
MARKS = {">": "out", "!": "err", "|": "given"}
# Before the file that is the input, if a signal interrupts its reads.
INTERRUPTED = "<~"
# The crates whose messages the programs print.
SPEAKING = ("hengaruto", "h5_commands", "h5_policy", "h5_selectors")
# Messages that no run can bring about.
UNREACHED = {
    "hengaruto: {name}: out of memory": "an allocation fails; .ci/refused-memory",
    "hengaruto: out of memory": "an allocation fails",
    "out of memory": "an allocation fails",
    "h5: out of memory\\n": "an allocation fails; .ci/refused-memory",
    "\\rhengaruto: {megabytes} MB read": "a terminal, and 100 MB",
}


def repeated(line):
    """A line with each `{N times TEXT}` written out."""
    return re.sub(r"\{(\d+) times ([^{}]*)\}", lambda found: int(found[1]) * found[2], line)


def runs_in(path):
    """The runs of a file: the command line, the lines of its input, if there are any, of both outputs, and the status of each."""
    runs = []
    with open(path, encoding="utf-8", newline="\n") as file:
        lines = file.read().split("\n")
    for number, line in enumerate(lines, 1):
        mark, _, rest = repeated(line).partition(" ")
        if mark == "$":
            runs.append({"line": rest, "given": [], "out": [], "err": [], "status": 0})
        elif runs and mark in MARKS:
            runs[-1][MARKS[mark]].append(rest)
        elif runs and mark == "=" and rest.isdecimal():
            runs[-1]["status"] = int(rest)
        elif mark not in ("", "#"):
            raise ValueError(f"{path}:{number}: not a line of a run: {line}")
    return runs


def all_runs():
    return [run for path in FILES for run in runs_in(path)]


def words_of(line):
    """The words of a command line, the file that is its input, and the one that is its output."""
    words, files = shlex.split(line), {}
    while len(words) > 2 and words[-2] in ("<", INTERRUPTED, ">"):
        files[words[-2]] = words[-1]
        words = words[:-2]
    return words, files.get("<", files.get(INTERRUPTED)), files.get(">")


def interrupting(line):
    """The words before those of a program whose reads of its input are interrupted, each second one from the first on."""
    if f" {INTERRUPTED} " not in line:
        return []
    return ["strace", "-o", os.devnull, "-P", f"{ROOT}/{words_of(line)[1]}", "-e", "trace=read", "-e", "inject=read:error=EINTR:when=1+2"]


def missing(run):
    """What a run needs and this machine doesn't have, or nothing."""
    return "strace" if interrupting(run["line"]) and not shutil.which("strace") else ""


def lines_of(output):
    lines = output.decode("utf-8", errors="backslashreplace").split("\n")
    return lines[:-1] if not lines[-1] else lines


def argument(word):
    """A word as bytes: in it \\xHH is the byte with these digits."""
    return re.sub(rb"\\x([0-9A-F]{2})", lambda found: bytes([int(found[1], 16)]), os.fsencode(word))


@contextlib.contextmanager
def output_to(name):
    """A file that is open for writing; `closed` is a pipe without a reader, and no name is one that is read."""
    if name == "closed":
        reading, writing = os.pipe()
        os.close(reading)
        yield writing
        os.close(writing)
    elif name:
        with open(name, "wb") as file:
            yield file
    else:
        yield subprocess.PIPE


def ran(run, programs):
    """The lines of both outputs of a run, and its status."""
    words, given, out = words_of(run["line"])
    program, arguments = [*interrupting(run["line"]), programs[words[0]]], [argument(it) for it in words[1:]]
    how = {"cwd": ROOT, "stderr": subprocess.PIPE, "timeout": 60, "check": False}
    with output_to(out) as output:
        if run["given"]:
            text = "".join(f"{line}\n" for line in run["given"]).encode()
            done = subprocess.run([*program, *arguments], input=text, stdout=output, **how)
        else:
            # A folder can be given, too.
            file = os.open(os.path.join(ROOT, given) if given else os.devnull, os.O_RDONLY)
            done = subprocess.run([*program, *arguments], stdin=file, stdout=output, **how)
            os.close(file)
    return {**run, "out": lines_of(done.stdout or b""), "err": lines_of(done.stderr), "status": done.returncode}


def difference(wanted, found):
    """The lines that show how a run differs from what is wanted; none if it doesn't."""
    lines = []
    for what in ("out", "err"):
        lines += difflib.unified_diff(wanted[what], found[what], f"{what}: expected", f"{what}: found", lineterm="")
    if wanted["status"] != found["status"]:
        lines.append(f"status {found['status']}, expected {wanted['status']}")
    return lines


def options_in(text):
    """The options of a help text: for each its forms."""
    block = "\n".join(text).partition("Options:\n")[2].partition("\n\n")[0]
    return [re.findall(r"(?<![\w-])--?\w[\w-]*", line[:28]) for line in block.split("\n") if line.lstrip().startswith("-")]


def commands_in(text):
    block = "\n".join(text).partition("Commands:\n")[2].partition("\n\n")[0]
    return [line.split()[0] for line in block.split("\n") if line.strip()]


def has_option(words, forms):
    return any(word == form or word.startswith(f"{form}=") for word in words for form in forms)


def helps_in(runs):
    """The help texts of `hengaruto`, by the subcommand."""
    said = [(words_of(run["line"])[0], run["out"]) for run in runs]
    return {tuple(words[1:-1]): out for words, out in said if words[0] == "hengaruto" and words[-1] == "--help"}


def without_run(runs):
    """The subcommands and options of `hengaruto`, by the runs of its help texts, that no run has."""
    said, helps = [words_of(run["line"])[0] for run in runs], helps_in(runs)
    for before in [(), ("records",)]:
        for name in commands_in(helps.get(before, [])):
            if name != "help" and not any(words[0] == "hengaruto" and all(it in words for it in [*before, name]) for words in said):
                yield f"no run of hengaruto {' '.join([*before, name])}"
            if name != "help" and not before and (name,) not in helps:
                yield f"no run of hengaruto {name} --help"
    for names, text in helps.items():
        for forms in options_in(text):
            tried = (words for words in said if words[0] == "hengaruto" and all(it in words for it in names))
            if not any(has_option(words, forms) for words in tried):
                yield f"no run of hengaruto {' '.join(names)} has {' or '.join(forms)}"


def messages_in(path):
    """The texts in a file of code that are messages: those with a space between two words."""
    with open(path, encoding="utf-8") as file:
        code = "\n".join(line for line in file.read().split("\n") if not line.lstrip().startswith("//"))
    return [text for text in re.findall(r'"((?:[^"\\\n]|\\.)*)"', code) if re.search(r'[\w}:`,"] [\w{`\\]', text)]


def without_message(runs):
    """The messages in the code that no run prints."""
    printed = "\n".join(line for run in runs for line in [*run["err"], *run["out"]])
    for path in sorted(it for name in SPEAKING for it in glob.glob(f"{ROOT}/crates/{name}/src/*.rt")):
        for text in messages_in(path):
            parts = [re.escape(part.replace('\\"', '"').replace("\\n", "")) for part in re.split(r"\{[^{}]*\}", text)]
            if text not in UNREACHED and not re.search("[^\n]*".join(parts), printed):
                yield f"no run prints the message of {os.path.relpath(path, ROOT)}: {text}"


def main():
    runs = all_runs()
    missing = [*without_run(runs), *without_message(runs)]
    print(*missing, sep="\n", end="\n" if missing else "")
    return 1 if missing else 0


if __name__ == "__main__":
    sys.exit(main())
