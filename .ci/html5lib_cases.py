"""Reads the cases of html5lib-tests: of tree construction (*.dat), of tokenizers (*.test) and of serializers (*.test)."""
import collections
import glob
import json
import os
import re

DEBIAN = "/usr/share/gocode/src/golang.org/x/net/html/testdata/webkit"
SECTION = re.compile(r"#(data|errors|new-errors|document-fragment|document|script-off|script-on)")

Case = collections.namedtuple("Case", "file number text context scripting document errors")
TokenCase = collections.namedtuple("TokenCase", "file number text state last_start_tag output")
SerializerCase = collections.namedtuple("SerializerCase", "file number calls options expected")


def sections_in(path):
    """The sections of each case of a file, with their lines."""
    with open(path, encoding="utf-8", newline="") as file:
        text = file.read()
    for part in re.split(r"(?:^|\n)(?=#data\n)", text):
        sections, name = {}, None
        for line in part.split("\n"):
            found = SECTION.fullmatch(line)
            if found:
                name = found[1]
                sections[name] = []
            elif name:
                sections[name].append(line)
        if "document" in sections:
            yield sections


def cases_in(path):
    """The cases of a file *.dat, with their numbers in it, from 1. `scripting` is True or False, or None if the case is of both."""
    for number, sections in enumerate(sections_in(path), 1):
        scripting = False if "script-off" in sections else True if "script-on" in sections else None
        context = sections["document-fragment"][0] if "document-fragment" in sections else None
        document = "\n".join(sections["document"]).rstrip("\n")
        errors = [line for line in sections.get("errors", []) if line]
        yield Case(os.path.basename(path), number, "\n".join(sections["data"]), context, scripting, document, errors)


def files_in(folder, kind, ending):
    """The files of a kind: those in its folder of a checkout of html5lib-tests, or all in the folder."""
    named = f"{folder}/{kind}"
    return sorted(glob.glob(f"{named if os.path.isdir(named) else folder}/*.{ending}"))


def all_cases(folder):
    return [case for path in files_in(folder, "tree-construction", "dat") for case in cases_in(path)]


def doubly_unescaped(value):
    """A value of a case whose strings have escapes of JSON in them once more."""
    if isinstance(value, str):
        return re.sub(r"\\u([0-9A-Fa-f]{4})", lambda found: chr(int(found[1], 16)), value)
    if isinstance(value, list):
        return [doubly_unescaped(it) for it in value]
    if isinstance(value, dict):
        return {doubly_unescaped(name): doubly_unescaped(it) for name, it in value.items()}
    return value


def loaded(path):
    with open(path, encoding="utf-8") as file:
        return json.load(file)


def token_cases_in(path):
    """The cases of a file of tokenizer tests, one for each initial state. Its number is that of the test."""
    for number, test in enumerate(loaded(path).get("tests", []), 1):
        read = doubly_unescaped if test.get("doubleEscaped") else lambda value: value
        for state in test.get("initialStates", ["Data state"]):
            yield TokenCase(os.path.basename(path), number, read(test["input"]), state, test.get("lastStartTag"), read(test["output"]))


def serializer_cases_in(path):
    for number, test in enumerate(loaded(path).get("tests", []), 1):
        yield SerializerCase(os.path.basename(path), number, test["input"], test.get("options", {}), test["expected"])
