"""Public functions and methods have type hints and docstrings."""
from __future__ import annotations

import inspect
import os
import typing

import pytest

import hengaruto
import hengaruto.trees


def public_functions() -> typing.Iterator[typing.Tuple[str, typing.Callable[..., object]]]:
    for module in (hengaruto, hengaruto.trees):
        for name in getattr(module, "__all__", None) or [it for it in vars(module) if it.startswith(("to_", "register_"))]:
            thing = getattr(module, name)
            if inspect.isfunction(thing):
                yield f"{name}", thing
            elif inspect.isclass(thing) and not issubclass(thing, Exception):
                for member, value in vars(thing).items():
                    function = value.fget if isinstance(value, property) else value
                    if inspect.isfunction(function) and not member.startswith("_"):
                        yield f"{name}.{member}", function


@pytest.mark.parametrize("function", [pytest.param(function, id=name) for name, function in public_functions()])
def test_hints(function: typing.Callable[..., object]) -> None:
    hints = typing.get_type_hints(function)
    assert "return" in hints and set(inspect.signature(function).parameters) - {"self"} <= set(hints)
    assert function.__doc__


def test_the_package_says_that_it_is_typed() -> None:
    assert os.path.isfile(os.path.join(os.path.dirname(hengaruto.__file__), "py.typed"))
