"""The program that a judge runs: the one that was proved here, never silently another one."""
import os
import shlex
import sys

sys.dont_write_bytecode = True
sys.path.insert(0, os.path.dirname(os.path.abspath(__file__)))
import sources  # noqa: E402

PROVED = "crates/hengaruto/out/hengaruto"


def program(*arguments):
    """The words that run `hengaruto` with these arguments, or those of the variable PROGRAM instead of all of them.

    Prints on standard error which program it is. Exits with status 2 if nothing was proved here.
    """
    given = shlex.split(os.environ.get("PROGRAM", ""))
    path = f"{sources.ROOT}/{PROVED}"
    if not given and not os.access(path, os.X_OK):
        print(f"{PROVED} does not exist: './prove hengaruto' proves and builds it", file=sys.stderr)
        sys.exit(2)
    age = "" if given or sources.is_current(path, "hengaruto") else ", which is OLDER THAN ITS SOURCES"
    print(f"judging {' '.join(given or [PROVED, *arguments])}{age}", file=sys.stderr, flush=True)
    return given or [path, *arguments]
