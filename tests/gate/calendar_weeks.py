#!/usr/bin/env python3
"""Compares the counts of open days by weeks with counts day by day: ten thousand random calendars and pairs of days.

    tests/gate/calendar_weeks.py              has the program `calendar_tests` answer
    tests/gate/calendar_weeks.py --sample     prints the answers to lines of input whose looks are known to the last one

The program's looks at single closed days are compared too: a search among n days, by halves, takes at least the whole
part of log2(n + 1) of them and at most one more, and what comes after the search is known exactly.
"""

import itertools
import os
import random
import subprocess
import sys

from room import TOP
from lib.checking import check, fails, need, run_script
from reference.calendar_weeks import FIRST, LAST, least_open, line_of, looks, open_days_after

CRATE = os.path.join(TOP, "crates", "calendar_tests")
PROGRAM = os.path.join(CRATE, "out", "calendar_tests")
CASES = 10_000
MOST = 400
MOST_LOOKS = (418, 409)


def random_case(rng):
    """A mask, single days and two days: of any number, on their own or in runs, near one another or far."""
    mask = rng.choice([it for it in map("".join, itertools.product("oc", repeat=7)) if "o" in it])
    many = rng.choice([0, 1, 2, 3, 7, rng.randint(0, 30), rng.randint(0, MOST), MOST - 1, MOST])
    due = rng.randint(FIRST, LAST)
    day = rng.choice([rng.randint(FIRST, LAST), min(LAST, due + rng.randint(0, 60)), max(FIRST, due - rng.randint(0, 9))])
    singles = set()
    while len(singles) < many:
        begin = rng.choice([rng.randint(FIRST, LAST), due + rng.randint(-9, 9), day + rng.randint(-9, 9), LAST - rng.randint(0, 9)])
        step = rng.choice([1, 1, 7])
        run = range(begin, begin + step * rng.choice([1, rng.randint(1, 40), many]), step)
        singles.update(itertools.islice((it for it in run if FIRST <= it <= LAST and it not in singles), many - len(singles)))
    listed = [*singles]
    rng.shuffle(listed)
    return mask, listed, due, day


def answers(lines):
    """What the program writes of these lines. It is built, and so proved, where it isn't there."""
    if not os.path.isfile(PROGRAM):
        subprocess.run(["rt", "run"], cwd=CRATE, stdin=subprocess.DEVNULL, stdout=subprocess.DEVNULL, check=False)
    text = "".join(f"{it}\n" for it in lines)
    run = subprocess.run([PROGRAM], input=text, capture_output=True, text=True, timeout=120, check=True)
    return [it.split() for it in run.stdout.splitlines()]


def compare():
    """The answers of the program are those counted day by day."""
    rng = random.Random(9)
    asked = [random_case(rng) for _ in range(CASES)]
    told = answers(line_of(*it) for it in asked)
    need("an answer to each line", len(told), CASES)
    for (mask, listed, due, day), (count, least, *looked) in zip(asked, told):
        singles = set(listed)
        wanted = open_days_after(mask, singles, due, day), least_open(mask, singles, day)
        check(line_of(mask, listed, due, day), (count, least), (str(wanted[0]), "none" if wanted[1] is None else str(wanted[1])))
        low, high = (len(singles) + 1).bit_length() - 1, len(singles).bit_length()
        for found, rest, searches, most in zip(map(int, looked), looks(singles, due, day, wanted[1]), (2, 1), MOST_LOOKS):
            if not searches * low + rest <= found <= min(searches * high + rest, most):
                fails(f"{line_of(mask, listed, due, day)}: {found} looks, {rest} without searches")


# Lines with one less single days than a power of two, among which a search by halves always takes the same looks.
SAMPLE = [
    ("ooooooc", [], 20521, 80718),
    ("oooooco", [], FIRST, LAST),
    ("ooooooc", [20521], 20520, 20527),
    ("ooooooc", [20527], 20521, 20527),
    ("coooooc", [20523, 20528, 20522], 20521, 20522),
    ("ooooooo", [84003, 84005, 84004], 84000, 84003),
    ("occcccc", [20521 + 7 * it for it in range(255)], 20513, 20520),
    ("occcccc", [20521 + 7 * it for it in range(255)], 20513, LAST),
    ("ocococc", [20521 + 3 * it for it in range(127)], 20600, 20521),
]


def sample():
    for mask, listed, due, day in SAMPLE:
        singles = set(listed)
        least = least_open(mask, singles, day)
        search = len(singles).bit_length()
        first, second = looks(singles, due, day, least)
        told = open_days_after(mask, singles, due, day), "none" if least is None else least, 2 * search + first, search + second
        print(*told)


if __name__ == "__main__":
    if sys.argv[1:] == ["--sample"]:
        sample()
    else:
        run_script(compare)
