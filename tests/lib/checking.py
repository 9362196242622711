"""How a script of the gate compares and ends: what differs is told at once, the script goes on, and its last line says
how much passed and how much failed."""

import os
import sys
import threading
import traceback

NAME = os.path.splitext(os.path.basename(sys.argv[0]))[0]
MOST = 20  # after so many failures a script goes no further
LONGEST = 2_000  # so many characters are told of a value

counts = {"passed": 0, "failed": 0}
lock = threading.Lock()


class Enough(BaseException):
    """So much failed that the script goes no further."""


class NoFurther(Exception):
    """What comes next wants a value that isn't there, which was told."""


def count(passed, failed=0):
    """Counts so many comparisons more."""
    with lock:
        counts["passed"] += passed
        counts["failed"] += failed
    if counts["failed"] >= MOST:
        raise Enough


def fails(what):
    """Counts a failure, and tells it."""
    sys.stdout.flush()
    print(f"{NAME}: {what}", file=sys.stderr, flush=True)
    count(0, 1)


def short(value):
    text = repr(value)
    return text if len(text) <= LONGEST else f"{text[:LONGEST]}.. ({len(text)} characters)"


def check(what, found, wanted):
    """Counts a comparison, and tells it where it fails. Gives whether it passed."""
    if found == wanted:
        count(1)
        return True
    fails(f"{what}\n  found  {short(found)}\n  wanted {short(wanted)}")
    return False


def need(what, found, wanted):
    """The same, where nothing that comes next could be: a part in which it fails ends there."""
    if not check(what, found, wanted):
        raise NoFurther


def none(what, found):
    """One comparison: there is nothing of this. Each thing that there is fails."""
    found = list(found)
    for it in found:
        fails(f"{what}: {it}")
    count(not found)


def part(work, *given):
    """What a part of a script gives. One that ends by an error gives nothing and counts as a failure, and the other
    parts go on."""
    try:
        return work(*given)
    except NoFurther:
        return None
    except Exception:
        fails(f"{work.__name__} came to no end\n{traceback.format_exc()}")
        return None


def apart(work, *given):
    """What a part gives that is run in another process, and how much passed and failed in it: `count` takes these in
    where the script is."""
    before = dict(counts)
    try:
        made = part(work, *given)
    except Enough:
        made = None
    return made, [counts[name] - before[name] for name in ("passed", "failed")]


def ended():
    """Tells on the last line how much passed and failed, and gives the status of the script."""
    print(f"{NAME}: {counts['passed']} passed, {counts['failed']} failed", flush=True)
    return 0 if counts["passed"] and not counts["failed"] else 1


def run_script(main, *given):
    """Runs a script and ends it, also one that comes to no end, or that says why it goes no further."""
    try:
        try:
            part(main, *given)
        except SystemExit as end:
            fails(end.code)
    except Enough:
        print(f"{NAME}: {MOST} failures, so it goes no further", file=sys.stderr, flush=True)
    sys.exit(ended())
