#!/usr/bin/env python3
"""What a desk does in its days, on real files: closed days, payments, grace days, copies that move, the days that the
documents show, and every pair of requests.

    tests/gate/lending.py

Expected lines and rows are those of the desk's rules, worked out by hand or by the rules in plain Python. The tables
are read back with stock SQLite.
"""

import copy
import itertools
import os
import re
import shlex
import shutil
import subprocess
import tempfile

from room import TOP
from lib.checking import check, part, run_script
from lib.questions import every_question
from lib.runs import CIRC, GROUND, answers, rows, say, status_of, the_rows_are, type_page
from reference.desk_rules import Library
from reference.outer_forms import WORDS


def single_closed_days(folder):
    """A day is closed and opened again, and a due day that was set stays."""
    path = os.path.join(folder, "days.db")
    say(path, GROUND)
    say(path, [
        ("c1", ["close-day", "1", "2026-03-09"], "ok"),
        ("c1", ["close-day", "1", "2026-03-09"], "ok"),
        ("c2", ["close-day", "1", "2026-03-09"], "refused 24"),
        ("c3", ["close-day", "2", "2026-03-10"], "ok"),
        ("k1", ["check-out", "1", "10", "1"], "loan 1 due 2026-03-10"),
    ])
    check("closed days", rows(path, "SELECT * FROM closed_days"), [(1, 20521), (2, 20522)])
    say(path, [
        ("o1", ["open-day", "1", "2026-03-09"], "ok"),
        ("o2", ["open-day", "1", "2026-03-09"], "refused 25"),
        ("k2", ["check-out", "2", "11", "1"], "loan 2 due 2026-03-09"),
    ])
    check("one is left", rows(path, "SELECT * FROM closed_days"), [(2, 20522)])
    check("due days", rows(path, "SELECT loan, due FROM loans3"), [(1, 20522), (2, 20521)])


def payments(folder):
    """A copy that is lost is charged for, and what is owed is paid and waived in parts, each once."""
    path = os.path.join(folder, "money.db")
    say(path, GROUND)
    say(path, [
        ("a1", ["check-out", "1", "10", "1"], "loan 1 due 2026-03-09"),
        ("a2", ["begin-day", "2026-03-17"], "ok"),
        ("a3", ["missing", "10"], "fine 100 price 2500"),
        ("a4", ["check-in", "10", "1"], "fine 0 shelf 1"),
        ("a5", ["check-out", "1", "11", "1"], "refused 38"),
        ("p1", ["pay", "1", "30"], "owed 2570"),
        ("p1", ["pay", "1", "30"], "owed 2570"),
        ("p2", ["waive", "1", "20"], "owed 2550"),
        ("p3", ["pay", "1", "2551"], "refused 60"),
        ("p4", ["pay", "1", "2550"], "owed 0"),
        ("a6", ["check-out", "2", "11", "1"], "loan 2 due 2026-03-23"),
        ("a7", ["renew", "2"], "loan 2 due 2026-03-30"),
        ("a8", ["renew", "2"], "refused 42"),
    ])
    page = subprocess.run([CIRC, "file", path, "p1", "page", "2"], capture_output=True, timeout=120)
    check("a page", (page.stdout, page.returncode),
          (b"patron 2 owed 0 name Bo Carr\nloan 2 due 2026-03-30 renewals 0 title 100 Rivers of the North\n", 0))
    say(path, [("p1", ["page", "1"], "patron 1 owed 0 name Ann Bell"), ("p1", ["page", "9"], "refused 11")])
    check("owed", rows(path, "SELECT owed FROM patrons WHERE patron = 1"), [(0,)])
    check("lines", rows(path, "SELECT * FROM lines"),
          [(1, 1, 20529, 0, 100, 1), (2, 1, 20529, 1, 2500, 1), (3, 1, 20529, 2, 30, None),
           (4, 1, 20529, 3, 20, None), (5, 1, 20529, 2, 2550, None)])
    check("loans", rows(path, "SELECT * FROM loans3"),
          [(1, 10, 1, 1, 20514, 20521, 6, 1, 20, 100, 20529, 0),
           (2, 11, 2, 1, 20529, 20542, 6, 0, 20, 100, None, 0)])


def grace_days(folder):
    """A loan within the grace days that its rule had when it was made costs nothing and makes no line; one past them
    costs each day late, and a loan of before has none."""
    path = os.path.join(folder, "grace.db")
    say(path, GROUND)
    say(path, [
        ("a1", ["check-out", "1", "10", "1"], "loan 1 due 2026-03-09"),
        ("a2", ["grace", "1", "1", "2"], "ok"),
        ("a2", ["grace", "1", "1", "2"], "ok"),
        ("a2", ["grace", "1", "1", "3"], "refused 80"),
        ("a3", ["check-out", "2", "11", "1"], "loan 2 due 2026-03-09"),
        ("a4", ["check-out", "3", "20", "2"], "loan 3 due 2026-03-10"),
    ])
    check("rules", rows(path, "SELECT * FROM rules3"), [(1, 1, 6, 1, 20, 100, 2), (1, 2, 12, 1, 20, 100, 0)])
    say(path, [
        ("b1", ["begin-day", "2026-03-11"], "ok"),
        ("b2", ["check-in", "10", "1"], "fine 40 shelf 1"),
        ("b3", ["check-in", "11", "1"], "fine 0 shelf 1"),
        ("b4", ["begin-day", "2026-03-13"], "ok"),
        ("b5", ["check-in", "20", "2"], "fine 60 shelf 2"),
        ("b6", ["rule", "1", "1", "6", "1", "20", "100"], "ok"),
    ])
    check("rules that were set again", rows(path, "SELECT * FROM rules3"), [(1, 1, 6, 1, 20, 100, 0), (1, 2, 12, 1, 20, 100, 0)])
    check("loans", rows(path, "SELECT loan, due, rate, cap, ended, grace FROM loans3"),
          [(1, 20521, 20, 100, 20523, 0), (2, 20521, 20, 100, 20523, 2), (3, 20522, 20, 100, 20525, 2)])
    check("lines", rows(path, "SELECT * FROM lines"), [(1, 1, 20523, 0, 40, 1), (2, 3, 20525, 0, 60, 3)])
    check("owed", rows(path, "SELECT patron, owed FROM patrons"), [(1, 40), (2, 0), (3, 60)])
    check("no row of the old tables", rows(path, "SELECT (SELECT COUNT(*) FROM rules), (SELECT COUNT(*) FROM loans)"), [(0, 0)])


def movements(folder):
    """Copies travel, stand on hold shelves, come back, are lost and withdrawn."""
    path = os.path.join(folder, "moves.db")
    say(path, GROUND)
    say(path, [
        ("a1", ["place-hold", "2", "100", "1"], "hold 1"),
        ("a2", ["place-hold", "3", "100", "2"], "hold 2"),
        ("a3", ["check-in", "10", "2"], "fine 0 transit 1 for 1"),
        ("a4", ["check-in", "11", "2"], "fine 0 ready 2 at 2 until 2026-03-05"),
    ])
    check("holds", rows(path, "SELECT * FROM holds2"),
          [(1, 2, 100, 1, 0, None, None, None), (2, 3, 100, 2, 1, 11, 20517, None)])
    check("transits", rows(path, "SELECT * FROM transits"), [(10, 1, 1)])
    say(path, [
        ("b1", ["cancel-hold", "1"], "ok"),
        ("b2", ["cancel-hold", "2"], "refused 53"),
    ])
    check("the copy goes on", rows(path, "SELECT * FROM transits"), [(10, 1, None)])
    say(path, [
        ("b3", ["check-in", "10", "1"], "fine 0 shelf 1"),
        ("b4", ["begin-day", "2026-03-05"], "ok"),
        ("b5", ["unshelve", "2"], "refused 54"),
        ("b6", ["begin-day", "2026-03-06"], "ok"),
        ("b7", ["unshelve", "2"], "transit 1"),
    ])
    check("states", rows(path, "SELECT hold, state, copy, limit_day FROM holds2"), [(1, 3, None, None), (2, 4, None, None)])
    check("home", rows(path, "SELECT * FROM transits"), [(11, 1, None)])
    say(path, [
        ("c1", ["missing", "11"], "ok"),
        ("c2", ["missing", "11"], "refused 34"),
        ("c3", ["withdraw", "11"], "ok"),
        ("c4", ["check-in", "11", "1"], "refused 35"),
        ("c5", ["place-hold", "1", "300", "2"], "hold 3"),
        ("c6", ["check-in", "30", "2"], "fine 0 ready 3 at 2 until 2026-03-10"),
        ("c7", ["unshelve-cancelled", "3"], "transit 1"),
    ])
    check("transits", rows(path, "SELECT * FROM transits"), [(30, 1, None)])
    check("conditions", rows(path, "SELECT copy, condition FROM copies ORDER BY copy"), [(10, 0), (11, 2), (20, 0), (30, 0)])
    check("meta", rows(path, "SELECT * FROM meta"), [(1, 4, 20518, 1, 4, 1)])


def a_day_at_the_desk(folder):
    """The page of a day's work is what the program really answers."""
    room = os.path.join(folder, "day")
    os.mkdir(room)
    type_page(room, "DAY-AT-THE-DESK.md", 30)


def the_readme(folder):
    """The first day that the README shows, and the example of each row of the rules' table of words."""
    with open(os.path.join(TOP, "README.md"), encoding="utf-8") as file:
        page = file.read()
    room, library = os.path.join(folder, "readme"), Library()
    os.mkdir(room)
    typed = [shlex.split(line) for line in re.findall(r"^    \./circ (file town\.db .*)$", page, re.MULTILINE)]
    check("the README's first day", (len(typed) > 7, typed[0][2:]), (True, ["g1", "begin-day", "2026-03-02"]))
    for _, _, key, *words in typed:
        line = library.handle(key, words)
        run = subprocess.run([CIRC, "file", "town.db", key, *words], capture_output=True, timeout=120, cwd=room)
        check(f"{key} {words}", (run.stdout.decode(), run.returncode), (line + "\n", status_of(line)))
    check("its last line", line, "loan 1 due 2026-03-09")
    with open(os.path.join(TOP, "docs", "RULES.md"), encoding="utf-8") as file:
        table = re.findall(r"^\| `([a-z-]+) ?[^`]*` \|[^|]*\| `([^`]+)` \| ([^|]*) \|[^|]*\|$", file.read(), re.MULTILINE)
    check("a row for each word", [word for word, _, _ in table], list(WORDS))
    library, path = Library(), os.path.join(folder, "examples.db")
    for at, (word, example, refusals) in enumerate(table):
        words = shlex.split(example)
        check(f"the example of {word}", words[0], word)
        line = library.handle(f"e{at}", words)
        check(f"{example}", answers(path, f"e{at}", words), (line + "\n", status_of(line)))
        refused = re.findall(r"^refused (\d+)$", line)
        check(f"the refusal of {example} is in its row", [it for it in refused if it not in re.findall(r"\d+", refusals)], [])


# A library with loans, one of them overdue, a hold that waits, one whose first day is to come, two that are ready, a
# lost copy, accounts with a charge, and barcodes.
BEGUN = [shlex.join(words) for _, words, _ in GROUND] + [
    "acquire 12 101 1 1 900 'Slow Water'", "check-out 1 10 1", "check-out 1 11 1", "place-hold 2 100 1",
    "place-hold 3 300 1", "check-in 30 1", "place-hold 1 200 1", "check-in 20 1", "begin-day 2026-03-07",
    "check-out 3 12 1", "begin-day 2026-03-12", "missing 11", "pay 1 30", "place-hold-from 1 101 1 2026-03-13",
    "kind 2 1 1 0", "rule 2 1 3 0 50 200", "close-day 1 2026-12-24", "copy-barcode 10 c10", "patron-barcode 2 p2",
    "charge 2 250 1 'Photocopies, 10 pages'",
]


# Requests about its few copies, loans and holds, which get in each other's way.
CROWDED = [
    "check-out 1 10 1", "check-out 2 10 1", "check-out 3 30 1", "check-out 1 20 1", "check-in 10 1", "check-in 10 2",
    "check-in 12 2", "check-in 11 1", "renew 1", "renew 3", "place-hold 2 101 2", "place-hold 1 100 2",
    "place-hold-from 2 200 2 2026-03-13", "begin-day 2026-03-13", "cancel-hold 1", "unshelve 2", "unshelve-cancelled 3",
    "missing 30", "withdraw 11", "pay 1 30", "waive 1 2500", "page 1", "grace 1 1 2", "rule 1 1 6 1 20 100",
    "card-key 1 newkey000001", "amend-patron 1 2 Ann", "amend-branch 1 0 Hall", "amend-title 100 Rivers", "amend-copy 10 2 900",
    "rehome 12 2", "rehome 20 1", "copy-barcode 12 p2", "patron-barcode 1 p2", "drop-barcode p2",
    "charge 1 40 2 Copies",
    "pay-at 2 250 1",
]


# What is asked after them, one after a pair; as many as have no divisor in common with the number of requests, so that
# each comes after each of them.
AFTER_PAIRS = [
    *(" ".join(it) for it in every_question(P="1", C="10", B="1", T="100", K="1", N="2026-03-12", A="0", F="r",
                                            W="p2")),
    "pulls 2 0", "transits 2 0", "queue 101 0",
]


def every_pair(folder):
    """Every ordered pair of these requests, each on a library of its own that is the same before: each reply is that
    of the rules, and so are what a question is answered after them and each row."""
    begun, pair, rules = os.path.join(folder, "begun.db"), os.path.join(folder, "pair.db"), Library()
    for at, text in enumerate(BEGUN):
        words = shlex.split(text)
        line = rules.handle(f"s{at}", words)
        check(f"{text}", answers(begun, f"s{at}", words), (line + "\n", 0))
    check("accounts have lines", {line["sort"] for line in rules.lines}, {"fine", "price", "payment", "charge"})
    replies, asked = set(), itertools.cycle(AFTER_PAIRS)
    for one in CROWDED:
        for other in CROWDED:
            library = copy.deepcopy(rules)
            shutil.copy(begun, pair)
            for key, text in (("one", one), ("other", other)):
                line = library.handle(key, text.split())
                check(f"{one}, {other}", answers(pair, key, text.split()), (line + "\n", status_of(line)))
                replies.add((text.split()[0], status_of(line)))
            words = next(asked).split()
            line = library.handle("other", words)
            check(f"{words} after {one}, {other}", answers(pair, "other", words), (line + "\n", status_of(line)))
            the_rows_are(pair, library)
    check("each command is accepted", {name for name, status in replies if status == 0}, {text.split()[0] for text in CROWDED})


def main():
    with tempfile.TemporaryDirectory() as folder:
        part(single_closed_days, folder)
        part(payments, folder)
        part(grace_days, folder)
        part(movements, folder)
        part(a_day_at_the_desk, folder)
        part(the_readme, folder)
        part(every_pair, folder)


if __name__ == "__main__":
    run_script(main)
