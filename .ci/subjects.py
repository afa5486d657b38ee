"""What scripts test: the programs, the wheel and the C library of dist/, or those that were proved here."""
import contextlib
import os

import sources

ROOT = sources.ROOT
DIST = f"{ROOT}/dist"
PROGRAMS = ("hengaruto", "h5")


class Subject:
    """What is tested: programs, wheel and C library."""

    def __init__(self, is_proved):
        self.is_proved = is_proved
        self.wheels = f"{ROOT}/python/dist" if is_proved else DIST
        self.library = f"{ROOT}/c/out" if is_proved else f"{DIST}/lib"
        self.header = f"{ROOT}/c/include" if is_proved else f"{DIST}/include"

    def program(self, name):
        return f"{ROOT}/crates/{name}/out/{name}" if self.is_proved else f"{DIST}/bin/{name}"

    def programs(self):
        return {name: self.program(name) for name in PROGRAMS}

    def missing(self):
        """The first program that isn't there, or None. One that was proved here also counts as missing if a source is newer."""
        for name, path in self.programs().items():
            if not os.access(path, os.X_OK) or (self.is_proved and not sources.is_current(path, name)):
                return name
        return None


def subject_of_dist(parts):
    """What is tested by default: dist/ if it was made from today's sources, otherwise what was proved here, or nothing."""
    changed = sources.changed()
    if not changed:
        # A branch that was left and taken again has files that are newer, and yet the same.
        with contextlib.suppress(OSError):
            os.utime(sources.SOURCES)
        return Subject(is_proved=False)
    print(f"dist/ was made from other sources of these crates: {' '.join(changed)}")
    proved = Subject(is_proved=True)
    if not proved.missing():
        return proved
    print(f"    skipped: {', '.join(parts)}: no programs of today's sources were proved here; ./prove does that", flush=True)
    return None
