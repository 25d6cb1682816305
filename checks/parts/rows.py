"""Rows of a test: each is a function, prints one line, and is counted."""
import time
import traceback


class Differs(Exception):
    """Something is not as it has to be."""


class Skipped(Exception):
    """A row cannot be tried here, for the reason that this says."""


def same(got, wanted, what):
    """Tells what differs where it does."""
    if got != wanted:
        raise Differs(f"{what}: got {got!r}, wanted {wanted!r}")


def holds(fact, what):
    if not fact:
        raise Differs(what)


def tried(name, row, given):
    """Tries a row, prints how it went, and returns that as one word."""
    try:
        row(given)
    except Skipped as reason:
        print(f"{name}: skipped: {reason}", flush=True)
        return "skipped"
    except Differs as reason:
        print(f"{name}: FAILED: {reason}", flush=True)
        return "failed"
    except Exception:
        print(f"{name}: FAILED", flush=True)
        print(traceback.format_exc(), end="", flush=True)
        return "failed"
    print(f"{name}: passed", flush=True)
    return "passed"


def try_rows(test, rows, given):
    """Tries rows by their names, prints a line for all, and returns the status: 0 where none failed."""
    began = time.monotonic()
    results = [tried(name, row, given) for name, row in rows.items()]
    counts = ", ".join(f"{results.count(word)} {word}" for word in ("passed", "failed", "skipped"))
    print(f"{test}: {counts}, in {time.monotonic() - began:.1f} s")
    return 1 if "failed" in results else 0
