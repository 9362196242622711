#!/usr/bin/env python3
"""A month of three branches on a real file, and on one whose runs are killed at random moments; so is a run that makes
a library.

    tests/gate/month.py

Each line and each row is that of the rules in plain Python. The moments of the kills are random, by seeds that are
told.
"""

import os
import random
import re
import tempfile

import room  # finds lib and reference
from lib.checking import check, part, run_script
from lib.runs import answers, circ, kill_at_work, month, report, rows_now, status_of, the_rows_are, timed, whole
from reference.desk_rules import QUESTIONS, SEARCHES, Library, folded, number


# What the month has to have, on rows that the desk made: commands, each with its reply's first word or its refusal.
IN_THE_MONTH = {
    ("withdraw", "ok"), ("withdraw", "33"), ("check-in", "35"), ("check-out", "35"), ("check-out", "33"), ("check-out", "38"),
    ("check-out", "50"), ("place-hold", "50"), ("place-hold", "51"), ("renew", "41"), ("renew", "38"), ("missing", "35"),
    ("place-hold-from", "hold"), ("place-hold-from", "23"), ("place-hold-from", "50"), ("place-hold-from", "51"), ("place-hold-from", "52"),
    ("grace", "ok"), ("grace", "16"), ("grace", "21"),
    ("copy", "copy"), ("copies", "title"), ("queue", "title"), ("queue", "12"), ("account", "patron"), ("debts", "patron"), ("debts", "end"), ("overdue", "loan"),
    ("shelf", "hold"), ("shelf", "10"), ("pulls", "hold"), ("pulls", "end"), ("pulls", "10"), ("transits", "copy"), ("till", "till"),
    ("card-key", "ok"), ("card-key", "11"), ("amend-patron", "ok"), ("amend-patron", "11"), ("amend-patron", "17"), ("amend-branch", "ok"), ("amend-branch", "10"), ("amend-branch", "21"),
    ("amend-title", "ok"), ("amend-title", "12"), ("amend-copy", "ok"), ("amend-copy", "13"), ("amend-copy", "21"), ("rehome", "ok"), ("rehome", "10"), ("rehome", "35"), ("patron", "20"), ("acquire", "20"),
    ("today", "today"), ("borrower", "patron"), ("borrower", "11"), ("find-patrons", "patron"), ("find-patrons", "end"), ("find-titles", "title"), ("find-titles", "end"),
    ("branches", "branch"), ("branches", "end"), ("closed-days", "day"), ("closed-days", "end"), ("closed-days", "10"), ("kinds", "kind"), ("kinds", "end"), ("rules", "rule"), ("rules", "end"), ("rules", "17"),
    ("missing-copies", "copy"), ("missing-copies", "end"), ("loans", "loan"), ("loans", "end"), ("loans", "13"),
    ("copy-barcode", "ok"), ("copy-barcode", "13"), ("copy-barcode", "26"), ("patron-barcode", "ok"),
    ("patron-barcode", "11"), ("patron-barcode", "26"), ("drop-barcode", "ok"), ("drop-barcode", "18"),
    ("charge", "owed"), ("charge", "10"), ("charge", "11"), ("charge", "21"), ("charge", "60"), ("pay-at", "owed"),
    ("pay-at", "10"), ("pay-at", "11"), ("pay-at", "60"),
    ("find-barcode", "copy"), ("find-barcode", "patron"), ("find-barcode", "18"), ("till-at", "till"),
    ("till-at", "10"),
}


class Asker:
    """Makes up questions of a library, with numbers that mostly mean something, and counts those that are shown
    rows."""

    def __init__(self, rng, library):
        self.rng, self.library, self.shown, self.kinds = rng, library, 0, set()

    def one_of(self, numbers):
        return str(self.rng.choice([*numbers, 99_999] if self.rng.random() < 0.1 or not numbers else [*numbers]))

    def sought(self, names):
        """A text to be searched: parts of one name, of two, or of none."""
        draw = self.rng
        words = " ".join(draw.choices(sorted(names) or ["Ann"], k=draw.choice((1, 1, 1, 2)))).split()
        parts = [word[draw.randrange(min(2, len(word))):][:draw.randint(1, 4)] for word in draw.sample(words, min(2, len(words)))]
        return " ".join(draw.choice((part, part.upper(), folded(part))) for part in parts)

    def noted(self):
        """The branch and the day of each line that was made at a counter."""
        return [[str(line["at"]), str(line["day"])] for line in self.library.lines if line["at"] is not None]

    def words(self):
        """The next question, and its answer by the rules."""
        it = self.library
        # barcodes and counters come late in the month, so they are asked for often until they were shown
        late = [name for name,
                rows_ in (("find-barcode", it.barcodes),
                          ("till-at", self.noted())) if rows_ and name not in self.kinds]
        name = self.rng.choice(late if late and self.rng.random() < 0.5 else QUESTIONS)
        after = [str(self.rng.choice((0, 0, 0, 1, 2, 5, 20, 110, 2**32 - 1)))]
        waited = {hold["title"] for hold in it.holds.values() if hold["state"] == "waiting"}
        owners = {line["patron"] for line in it.lines}
        lent = {loan["copy"] for loan in it.loans.values()}
        closing = {branch for branch, days in it.closed.items() if any(day > it.today for day in days)}
        parts = {"copy": lambda: [self.one_of(it.copies)], "copies": lambda: [self.one_of(it.titles), *after],
                 "queue": lambda: [self.one_of(waited if self.rng.random() < 0.8 else it.titles), *after],
                 "account": lambda: [self.one_of(owners if self.rng.random() < 0.8 else it.patrons), *after], "debts": lambda: after,
                 "till": lambda: [str(self.rng.choice([it.today, *(line["day"] for line in it.lines)]))], "today": list, "borrower": lambda: [self.one_of(it.patrons)],
                 "find-patrons": lambda: [*after, self.sought([row["name"] for row in it.patrons.values()])], "find-titles": lambda: [*after, self.sought(it.titles.values())],
                 "branches": lambda: after, "kinds": lambda: after, "rules": lambda: [self.one_of(it.kinds), *after],
                 "missing-copies": lambda: after, "loans": lambda: [self.one_of(lent if self.rng.random() < 0.8 else it.copies), *after],
                 "find-barcode": lambda: [self.one_of(it.barcodes.values())],
                 "till-at": lambda: self.rng.choice(self.noted() or [[self.one_of(it.branches), str(it.today)]]),
                 "closed-days": lambda: [self.one_of(closing if self.rng.random() < 0.8 else it.branches), str(self.rng.choice((0, 0, number(it.today), number(it.today) + 9, 2**32 - 1)))]}
        words = [name, *parts.get(name, lambda: [self.one_of(it.branches), *after])()]
        answer = it.handle("", words)
        has_rows = re.search(r"^(copy|hold|line|kind|branch|rule|day|loan) [0-9]|^today |^patron [0-9]+$|^patron .*\n(?:.*\n)*end$|^ +[0-9]|^(?:fines|prices|payments|waivers|charges) .*[1-9]", answer, re.MULTILINE) or (
            name in SEARCHES and "\n" in answer)
        self.shown += bool(has_rows)
        self.kinds.update([name] if has_rows else [])
        return words, answer


def a_month(folder):
    """Three branches in one month: each line is that of the rules, and so is each row; and with a run that is killed
    at a random moment before many of the commands, which are then sent again under the same key, the rows are the
    same. After each command a question is asked under its key, and is answered by the rules."""
    requests = month()
    calm, killed = os.path.join(folder, "calm.db"), os.path.join(folder, "killed.db")
    library, seed = Library(), random.randrange(10**9)
    print(f"month: {len(requests)} requests of a month, moments of kills by the seed {seed}")
    moments, seen, hits = random.Random(seed), set(), {False: 0, True: 0}
    asker = Asker(random.Random(seed + 1), library)
    for at, (key, *words) in enumerate(requests):
        line = library.handle(key, words)
        seen.add((words[0], line.split()[1] if line.startswith("refused") else line.split()[0]))
        answered, took = timed(lambda: answers(calm, key, words))
        check(f"{key} {words}", answered, (line + "\n", status_of(line)))
        question, shown = asker.words()
        check(f"{question} after {key}, seed {seed}", answers(calm, key, question), (shown + "\n", status_of(shown)))
        # a kill while the file is made may leave no library, so the first request is let be
        while at and moments.random() < 0.5:
            printed, hit = kill_at_work(["file", killed, key, *words], moments.uniform(0, 1.2 * took))
            kept = rows_now(killed, f"SELECT COUNT(*) FROM kept WHERE caller = 0 AND key = '{key}'") == [(1,)]
            # what was told is kept, whenever the kill came
            check(f"{key} {words} told and kept, seed {seed}", kept or (0, key) not in library.kept or printed == "", True)
            if hit and (0, key) in library.kept:
                hits[kept] += 1
        check(f"{key} {words} after kills, seed {seed}", answers(killed, key, words), (line + "\n", status_of(line)))
    check("the month has each of these", IN_THE_MONTH - seen, set())
    check(f"questions of each kind were shown rows, {asker.shown} of {len(requests)}, seed {seed}", (asker.kinds, asker.shown > len(requests) // 4), (set(QUESTIONS), True))
    print(f"month: {hits[False]} runs were killed before their request was kept, {hits[True]} after it")
    check(f"kills hit before and after the request was kept, seed {seed}", (hits[False] > 0, hits[True] > 0), (True, True))
    the_rows_are(calm, library)
    for branch in sorted(library.branches):
        check(f"the hold shelf of {branch}", report(calm, "shelf", str(branch)), (library.shelf(branch), 0))
        check(f"the overdue loans of {branch}", report(calm, "overdue", str(branch)), (library.overdue(branch), 0))
    for day in sorted({line["day"] for line in library.lines}):
        check(f"the till of {day}", report(calm, "till", str(day)), (library.till(day), 0))
    check(f"the rows after kills, seed {seed}", whole(killed), whole(calm))


MADE = 600  # so many creations are killed at most, until they hit


def a_creation(folder):
    """A run that makes a library is killed at random moments: nothing was told, or the library is whole."""
    seed = random.randrange(10**9)
    moments, hits = random.Random(seed), {"no file": 0, "a library": 0, "fault 93": 0}
    print(f"month: libraries that are made, moments of kills by the seed {seed}")
    words = ["g1", "begin-day", "2026-03-02"]
    took = max(timed(lambda: circ(["file", os.path.join(folder, f"calm{at}.db"), *words]))[1] for at in range(3))
    for at in range(MADE):
        if at >= 60 and hits["no file"] and hits["a library"]:
            break
        path = os.path.join(folder, f"made{at}.db")
        printed, hit = kill_at_work(["file", path, *words], moments.uniform(0, (0.2 if at % 2 else 1.2) * took))
        there = os.path.exists(path) and os.path.getsize(path) > 0
        found = circ(["file", path, *words])
        # what was told is there; of what wasn't told a part may be, which is told as no library
        wanted = [("ok\n", ("ok", 0)), ("", ("ok", 0)), ("", ("fault 93", 3))]
        check(f"a library, or none, seed {seed}: {printed} {found}", (printed, found) in wanted, True)
        hits["no file" if not there else "fault 93" if found[1] else "a library"] += hit
    print("month: creations killed: " + ", ".join(f"{many} left {what}" for what, many in hits.items()))
    check(f"kills left no file and libraries, seed {seed}", (hits["no file"] > 0, hits["a library"] > 0), (True, True))


def main():
    with tempfile.TemporaryDirectory() as folder:
        part(a_month, folder)
        part(a_creation, folder)


if __name__ == "__main__":
    run_script(main)
