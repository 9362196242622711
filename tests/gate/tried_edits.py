#!/usr/bin/env python3
"""Tries what tries the must-fail edits: on a crate of three functions, which wrong bodies and which harmless ones
`tests/tools/edits` tells.

    tests/gate/tried_edits.py

A body that is wrong has to be told as refused, whether or not what it calls is wrong too. One that means the same as
before has to be told as not refused, also beside one that makes it follow; and so has one that isn't well typed, or
whose text isn't there. Beside a gate that is at work the edits of a crate are tried once it is proved, and none is
where the gate fails.
"""

import os
import re
import shutil
import subprocess
import tempfile

from room import TOP
from lib.checking import check, run_script

SOURCE = """//! Numbers after a number.
#![tactic(auto)]

ghost use Rattle.std.specs.Prelude.{◌+◌, ◌≡◌, ◌≤◌};

/// How far the next number is.
const STEP: u8 = 1;

/// The next number.
pub fn next(n: u8) -> u8
    requires { n ≤ 100 }
    ensures { result ≡ n + 1 }
{
    n + STEP
}

/// The number after the next.
pub fn after_next(n: u8) -> u8
    requires { n ≤ 90 }
    ensures { result ≡ n + 2 }
{
    let first = next(n);
    next(first)
}

/// The third number from here on.
pub fn third(n: u8) -> u8
    requires { n ≤ 80 }
    ensures { result ≡ n + 3 }
{
    let second = after_next(n);
    next(second)
}
"""

# The edits of a run: the function that each names, what it changes, and what is told of it.
WRONG = {
    "third_is_the_second": ("third", "    next(second)", "    second", "refused"),
    "next_but_one": ("next", "n + STEP", "n + STEP + 1", "refused"),
    "only_the_next": ("after_next", "    next(first)", "    first", "refused"),
    "step_of_two": (None, "STEP: u8 = 1", "STEP: u8 = 2", "refused"),
}
HARMLESS = {
    "sum_turned_round": ("next", "n + STEP", "STEP + n", "NOT REFUSED"),
    "next_by_a_step": ("after_next", "    next(first)", "    first + STEP", "NOT REFUSED"),
}
UNREAD = {
    "word_added": ("third", "    next(second)", '    next("second")', "BAD EDIT"),
    "text_not_there": ("third", "    next(third)", "    next(second)", "BAD EDIT"),
}


# What a gate may have said when edits are tried beside it: what the crate's edits come to.
BESIDE = {
    "10:00:00 command: rt ci\n10:01:00 rt: numbers proved\n": ("1 passed, 0 failed", 0),
    "10:00:00 command: rt ci\n10:01:00 rt: numbers is kept: an earlier run proved it\n": ("1 passed, 0 failed", 0),
    "10:00:00 command: rt ci\n10:01:00 whole: 60.0 s, 60.0 processor s, 4 processors, status 0, begun at 0\n": ("1 passed, 0 failed", 0),
    "10:00:00 command: rt ci\n10:01:00 rt: numbers proved\n10:02:00 whole: 120.0 s, 60.0 processor s, 4 processors, status 1, begun at 0\n": ("edits: the gate failed", 1),
}


def told_of(edits, beside=None):
    """What `tests/tools/edits` says of these edits, by name, with its last line and its status, and whether it left
    what its checks kept; beside a gate that has said this, if it is given."""
    with tempfile.TemporaryDirectory(prefix="tried-edits-") as room:
        for folder in ("lib", "tools"):
            shutil.copytree(f"{TOP}/tests/{folder}", f"{room}/tests/{folder}")
        os.makedirs(f"{room}/crates/numbers/src")
        os.makedirs(f"{room}/crates/numbers/must-fail")
        write(f"{room}/crates.txt", "numbers:\n")
        write(f"{room}/crates/numbers/src/lib.rt", SOURCE)
        for name, (function, old, new, _) in edits.items():
            named = f"fn: {function}\n" if function else ""
            write(f"{room}/crates/numbers/must-fail/{name}.edit", f"{named}file: src/lib.rt\nold: {old}\nnew: {new}\n")
        how = {"stdout": subprocess.PIPE, "stderr": subprocess.STDOUT, "encoding": "utf-8"}
        if beside:
            write(f"{room}/gate.log", beside)
        options = ["--keep", *(["--beside", f"{room}/gate.log"] if beside else [])]
        ran = subprocess.run([f"{room}/tests/tools/edits", *options, room], check=False, **how)
        is_kept = os.path.isdir(f"{room}/crates/numbers/out/incremental")
    found = {}
    for name, said in re.findall(r"^edits: must-fail numbers/(\w+): (.*)$", ran.stdout, re.M):
        found.setdefault(name, said)
    return found, ran.stdout.rstrip("\n").split("\n")[-1], ran.returncode, is_kept


def write(path, text):
    with open(path, "w", encoding="utf-8") as it:
        it.write(text)


def main():
    for edits in ({"step_of_two": WRONG["step_of_two"]}, {**WRONG, **HARMLESS, **UNREAD}):
        found, last, status, is_kept = told_of(edits)
        bad = sum(wanted != "refused" for *_, wanted in edits.values())
        checks = {name: found.get(name, "nothing").startswith(wanted) for name, (*_, wanted) in edits.items()}
        checks["the last line"] = last == f"{len(edits) - bad} passed, {bad} failed"
        checks["the status"] = status == (1 if bad else 0)
        checks["what is kept"] = is_kept
        for name, is_so in checks.items():
            check(f"{name}: {found.get(name, last)}, status {status}", is_so, True)
    for said, wanted in BESIDE.items():
        _, last, status, _ = told_of({"third_is_the_second": WRONG["third_is_the_second"]}, said)
        check(f"beside a gate whose last line is {said.splitlines()[-1]}", (last, status), wanted)


if __name__ == "__main__":
    run_script(main)
