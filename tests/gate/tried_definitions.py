#!/usr/bin/env python3
"""Tries what changes definitions by chance: what `tests/tools/definitions` tells of changes of which it is known what
they come to.

    tests/gate/tried_definitions.py

Changes that a worked row has to notice, one that random histories have to, some that mean the same, and one that
leaves a case without an answer, of which nothing is said. Then runs of the tool in a copy of the repository: what is
left fails unless it is known, a known one without a reason is none, and a row with a wrong answer fails without any
change.
"""

import os
import re
import shutil
import subprocess
import tempfile

from room import TOP
from lib.antt.changes import Change, Changes, Edit
from lib.antt.judging import HISTORIES, NOBODY, ROWS, UNJUDGED, Judge, deeply
from lib.antt.program import Defined, Program
from lib.antt.running import Running
from lib.checking import check, run_script

# What is changed in which definition, and who notices it.
TRIED = [
    ("History", "has_begun", "has_begun today (Some day) = nat_le day today", "has_begun today (Some day) = nat_lt day today", ROWS),
    ("Places", "route_to", "Transit (home_of H c) None", "Transit b None", ROWS),
    ("Refusals", "is_bad_amount", "(n == 0) ||", "(n == 1) ||", ROWS),
    ("Loans", "first_due", "today H + ", "suc (today H) + ", ROWS),
    ("Picture", "copy_columns", "home = r.home", "home = r.kind", ROWS),
    ("Asking", "closed_days_list", "nat_lt (today H) d", "nat_le (today H) d", ROWS),
    ("Refusals", "kind_now", "debt = 0", "debt = 1", NOBODY),
    ("Places", "title_of_copy", "(copy_of H c)) 0", "(copy_of H c)) 1", NOBODY),
]


def changed(program, file, name, before, after):
    """The change of a definition that puts one text in place of another."""
    definition = program.definition(Defined(f"Rattle.model.specs.{file}", name))
    text = definition.module.text
    for at, (begun, ended) in enumerate(definition.spans):
        if before in text[begun:ended]:
            here = text.index(before, begun)
            return Change(definition, Edit("tried", at, [(here, here + len(before), after)]))
    return None


def verdicts():
    """What the changes come to."""
    program = Program(TOP)
    judge = Judge(program, Running(program), 2)
    check("rows and histories hold of the definitions", judge.wrong, [])
    changes = [changed(program, *it[:4]) for it in TRIED]
    for it, (verdict, _) in zip(TRIED, judge.verdicts(changes)):
        check(f"{it[1]} with `{it[3]}` for `{it[2]}`", verdict, it[4])
    alone = [(sort, watch) for sort, watch in judge.watches if sort == HISTORIES]
    judge.watches, judge.costs, judge.seen = alone, [0] * len(alone), {}
    judge.watching = lambda key: range(len(alone))
    check("a line in the other order, by histories alone", judge.verdicts([changed(program, "Places", "goal_of", "r.branch", "r.patron")])[0][0], HISTORIES)
    unfit = changed(program, "Refusals", "is_empty", "is_empty [] = true", "")
    check("a definition that lacks a case", judge.verdicts([unfit])[0][0], UNJUDGED)


def types_of_changes():
    """The same seed makes the same changes; each has another text, and its clauses are read."""
    program = Program(TOP)
    definition = program.definition(Defined("Rattle.model.specs.Places", "route_to"))
    made = list(Changes(program, definition).all())
    kinds = {it.kind for it in made}
    check("kinds of changes of `route_to`", {"turned", "choice", "value", "name", "function", "constructor"} - kinds, set())
    check("each is another text", all(it.before != it.after for it in made), True)
    check("each is read", all(it.clauses() for it in made), True)


def told(room, *words):
    how = {"stdout": subprocess.PIPE, "stderr": subprocess.STDOUT, "encoding": "utf-8"}
    ran = subprocess.run([f"{room}/tests/tools/definitions", *words], check=False, **how)
    return ran.stdout, ran.returncode


def runs():
    """Runs of the tool in a copy whose known ones are others."""
    with tempfile.TemporaryDirectory(prefix="tried-definitions-") as room:
        shutil.copytree(f"{TOP}/tests", f"{room}/tests")
        for name in os.listdir(f"{TOP}/crates"):
            for part in ("specs", "proofs", "src"):
                if name in ("model", "terms", "clerks", "calendar", "finding"):
                    shutil.copytree(f"{TOP}/crates/{name}/{part}", f"{room}/crates/{name}/{part}")
        known = f"{room}/tests/data/definitions_left.txt"
        with open(known, "w", encoding="utf-8") as it:
            it.write("# None.\n")
        text, status = told(room, "--seed", "7", "--count", "60")
        left = re.findall(r"^definitions: LEFT: (\w+ \w+), \w+: `(.*)` => `(.*)`$", text, re.M)
        check("something is left, and fails", bool(left) and status == 1 and text.endswith(f"\n{60 - len(left)} passed, {len(left)} failed\n"), True)
        with open(known, "w", encoding="utf-8") as it:
            it.write("\n\n".join(f"{name}\n- {before}\n+ {after}\nsame: so it is" for name, before, after in left) + "\n")
        text, status = told(room, "--seed", "7", "--count", "60")
        check("known ones don't fail", status == 0 and text.endswith("\n60 passed, 0 failed\n"), True)
        with open(known, "w", encoding="utf-8") as it:
            it.write("Refusals kind_now\n- 7\n+ 8\nso it is\n")
        text, status = told(room, "--seed", "7", "--count", "1")
        check("a known one without a reason is none", status == 1 and "is not read" in text, True)
        with open(known, "w", encoding="utf-8") as it:
            it.write("# None.\n")
        path = f"{room}/crates/model/proofs/RowsLending.antt"
        with open(path, encoding="utf-8") as it:
            text = it.read()
        with open(path, "w", encoding="utf-8") as it:
            it.write(text.replace('("loan 1 due 2026-03-09" ∷ [])', '("loan 1 due 2026-03-08" ∷ [])', 1))
        text, status = told(room, "--seed", "7", "--count", "1")
        check("a row with a wrong answer is told", status == 1 and "FAILED: without a change model/proofs/RowsLending.antt: due_day_is_moved_to_an_open_day" in text, True)


def main():
    deeply(verdicts)
    types_of_changes()
    runs()


if __name__ == "__main__":
    run_script(main)
