"""Runs the examples in the docstrings and in README.md."""
from __future__ import annotations

import doctest
import importlib
import os
import re
from typing import Any, Dict

import pytest

README = os.path.join(os.path.dirname(os.path.dirname(os.path.abspath(__file__))), "README.md")


@pytest.mark.parametrize(
    "name",
    [
        "hengaruto", "hengaruto._tree", "hengaruto._search", "hengaruto._selectors", "hengaruto._clean", "hengaruto._listings",
        "hengaruto._pages", "hengaruto._encoding", "hengaruto._library", "hengaruto.trees",
    ],
)
def test_docstrings(name: str) -> None:
    assert doctest.testmod(importlib.import_module(name)).failed == 0


def test_readme() -> None:
    """The value after a # at the end of a line of README is the value of the line."""
    with open(README, encoding="utf-8") as file:
        blocks = re.findall(r"```python\n(.*?)```", file.read(), re.S)
    names: Dict[str, Any] = {}
    shown, statement = 0, ""
    for line in "".join(blocks).splitlines(keepends=True):
        statement += line
        if statement.count('"""') % 2:
            continue
        code, _, wanted = statement.rpartition("  #")
        if wanted.strip().startswith(("'", "[")):
            assert eval(code.strip(), names) == eval(wanted), statement
            shown += 1
        else:
            exec(statement, names)
        statement = ""
    assert shown == 23
