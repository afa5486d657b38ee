"""What `find` and `find_all` look for: tests of names, attributes and texts, as BeautifulSoup has them."""
from __future__ import annotations

from typing import TYPE_CHECKING, Any, Callable, Dict, Iterable, List, Mapping, Optional, Pattern, Tuple, Union

if TYPE_CHECKING:
    from ._tree import Node

_One = Union[None, bool, str, Pattern[str]]
_OneTest = Union[_One, Callable[[Optional[str]], object]]
Test = Union[_OneTest, Iterable[_OneTest]]
"""A test of a value: a str that it is; a compiled pattern that is found in it; a list of tests, one of which it fits; a function that returns
something true for it; True if there is a value, and False or None if there is none."""
NameTest = Union[_One, Iterable[_One], Callable[["Node"], object]]
"""A test of an element by its name, like `Test`, but a function gets the Node. None and True are all elements."""


def checked(test: Any, what: str) -> Any:
    """Returns the test; a list of tests as a tuple. Raises TypeError if it isn't a test."""
    if test is None or isinstance(test, (bool, str)) or hasattr(test, "search") or callable(test):
        return test
    if isinstance(test, (list, tuple, set, frozenset)):
        return tuple(checked(one, what) for one in test)
    raise TypeError(f"{what} must be a str, a compiled pattern, a list of these, a bool or a function, not {type(test).__name__}")


def fits(test: Any, value: Optional[str]) -> bool:
    """Returns true if a value, or None for no value, fits a checked test."""
    if test is None or isinstance(test, bool):
        return (value is not None) == (test is True)
    if isinstance(test, str):
        return value == test
    if isinstance(test, tuple):
        return any(fits(one, value) for one in test)
    if hasattr(test, "search"):
        return value is not None and test.search(value) is not None
    return bool(test(value))


def _fits_class(test: Any, value: Optional[str]) -> bool:
    """The same for the value of `class`: the whole value fits, or one of the classes in it."""
    return fits(test, value) or (value is not None and any(fits(test, one) for one in value.split()))


class Wanted:
    """What elements are wanted: a test of their name, tests of attributes, and one of their text."""

    __slots__ = ("name", "attributes", "string")

    def __init__(self, name: Any, attrs: Any, string: Any, attributes: Mapping[str, Any]) -> None:
        self.name = checked(name, "name")
        self.string = checked(string, "string")
        tests: Dict[str, Any] = dict(attrs) if isinstance(attrs, Mapping) else {} if attrs is None else {"class": attrs}
        for key, test in attributes.items():
            if key == "text":
                raise TypeError("the test of a text is called string")
            tests["class" if key == "class_" else key] = test
        self.attributes: List[Tuple[str, Any]] = [(key, checked(test, f"the test of {key!r}")) for key, test in tests.items()]

    def is_text(self) -> bool:
        """Returns true if only a text is wanted, and no element."""
        return self.name is None and not self.attributes and self.string is not None

    def fits_text(self, node: Node) -> bool:
        return fits(self.string, node.data)

    def fits(self, node: Node) -> bool:
        """Returns true if an element is wanted."""
        return self._is_named(node) and self._has_attributes(node) and (self.string is None or fits(self.string, node.string))

    def _is_named(self, node: Node) -> bool:
        if self.name is None or self.name is True:
            return True
        is_function = callable(self.name) and not hasattr(self.name, "search")
        return bool(self.name(node)) if is_function else fits(self.name, node.name)

    def _has_attributes(self, node: Node) -> bool:
        for key, test in self.attributes:
            if not (_fits_class if key == "class" else fits)(test, node.get(key)):
                return False
        return True
