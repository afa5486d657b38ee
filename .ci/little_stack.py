"""Runs a program with little stack."""
import resource
import subprocess

# In kB: of most runs, and of those in which selectors or JSON are nested up to their limits.
STACK, DEEP_STACK = 96, 192


def ended(words, given=None, stack=STACK, seconds=60):
    """The status of a run with this much stack, and the end of its messages; what it prints is dropped."""

    def limit():
        resource.setrlimit(resource.RLIMIT_STACK, (stack * 1024, stack * 1024))

    try:
        given = given or b""
        ran = subprocess.run(words, input=given, stdout=subprocess.DEVNULL, stderr=subprocess.PIPE, preexec_fn=limit, timeout=seconds, check=False)
        return ran.returncode, ran.stderr.decode(errors="replace").strip()[-200:]
    except subprocess.TimeoutExpired:
        return None, f"no end within {seconds} seconds"
