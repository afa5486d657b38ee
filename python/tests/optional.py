"""The results of calls that may find nothing."""
from __future__ import annotations

from typing import Optional, TypeVar

T = TypeVar("T")


def the(found: Optional[T]) -> T:
    """Returns what a call found. Fails if that is None."""
    assert found is not None
    return found
