"""Lists of exact exceptions: the cases of a comparison that differ, each with its reason and its result.

Each line has a reason, the file of the case, the sum of the case, the sum of the result, and the start of the case's text.
"""
import collections
import hashlib
import os

import cases

ESCAPED = {character: f"\\{letter}" for letter, character in cases.ESCAPES.items()}

Result = collections.namedtuple("Result", "wanted found is_met")
# A case: its file, its sum, its text as a list shows it, and its result.
Entry = collections.namedtuple("Entry", "file sum text result")


def sum_of(*texts):
    return hashlib.sha256("\0".join(texts).encode("utf-8", "backslashreplace")).hexdigest()[:10]


def escaped(text):
    return "".join(ESCAPED.get(it, it) for it in text)


def read(path):
    """The reason and the result of each exception, by its file and case; none if there is no list."""
    if not os.path.exists(path):
        return {}
    with open(path, encoding="utf-8", newline="\n") as file:
        rows = [line.rstrip("\n").split("\t") for line in file if line.strip() and not line.startswith("#")]
    return {(name, case): (reason, result) for reason, name, case, result, _ in rows}


def head_of(path):
    with open(path, encoding="utf-8") as file:
        return [line for line in file if line.startswith("#")]


def write(path, entries, known, head):
    """Writes the lines of the cases that differ, below the comments at the head of this or another list."""
    lines = []
    for it in entries:
        if not it.result.is_met:
            reason = known.get((it.file, it.sum), ("new", ""))[0]
            lines.append("\t".join([reason, it.file, it.sum, sum_of(it.result.found), escaped(it.text)[:80]]) + "\n")
    head = head_of(path if os.path.exists(path) else head)
    with open(path, "w", encoding="utf-8", newline="\n") as file:
        file.writelines([*head, *dict.fromkeys(lines)])
    print(f"{len(set(lines))} exceptions, {sum(line.startswith('new' + chr(9)) for line in set(lines))} without a reason")


def complaint(result, reason):
    if result.is_met:
        return "no longer differs, and is listed"
    if not reason:
        return "differs"
    return "is listed without a reason" if reason == "new" else "has another result than the one that is listed"


def judge(entries, known):
    """Prints what fails; returns the number of failures, and the number of differences that are as listed, by their reasons."""
    failed, listed, met = 0, collections.Counter(), set()
    for it in entries:
        reason, sum_known = known.get((it.file, it.sum), (None, None))
        if it.result.is_met and not reason:
            continue
        met.add((it.file, it.sum))
        if not it.result.is_met and reason and reason != "new" and sum_of(it.result.found) == sum_known:
            listed[reason] += 1
            continue
        failed += 1
        print(f"{it.file}: {it.text!r} {complaint(it.result, reason)}")
        print("wanted:", it.result.wanted, "found:", it.result.found, sep="\n")
    for file, case in sorted(set(known) - met):
        failed += 1
        print(f"{file}: the case {case} is listed, but there is no such case")
    return failed, listed


def last_line(entries, failed, listed):
    """The counts, as the last line of a judge has them."""
    as_listed = f"{sum(listed.values())} differ as listed ({', '.join(f'{count} {reason}' for reason, count in listed.items())})"
    agreed = sum(it.result.is_met for it in entries)
    return f"{agreed} agree, {as_listed if listed else '0 differ as listed'}, {failed} failed"
