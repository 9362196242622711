#!/usr/bin/env python3
"""The worked rows over the definitions: which checks they show, and which definitions they go through.

    tests/gate/rows.py

Each check that the table of commands in docs/RULES.md has, but used-up numbers, has to be the refusal that some worked
row states of that command. Each definition to which the picture of a history leads, and each of the replies, has to be
gone through by a row. And the two sides of each row have to be the same when they are computed in plain Python
(tests/lib/antt), which shares nothing with the prover.
"""

import re

from room import TOP
from lib.antt.judging import deeply
from lib.antt.program import Defined, Program
from lib.antt.rows import rows
from lib.antt.running import Running
from lib.antt.values import items, shown
from lib.checking import check, none, run_script
from lib.messages import read

NAMES = {"SetCardKey": "card-key"}
USED_UP = 70
ROOTS = [Defined("Rattle.model.specs.Picture", "picture"), Defined("Rattle.model.specs.Requests", "replies")]


def pairs_of_rules():
    """Each command with each of its refusals, as docs/RULES.md has them."""
    found = set()
    for name, refusals in re.findall(r"^\| `([a-z-]+)(?: [A-Z ]+)?` \| .* \| `.*` \| (.*) \| .* \|$", read("docs/RULES.md"), re.M):
        found |= {(name, int(it[:2])) for it in refusals.split("; ") if it != "none"}
    return {(name, number) for name, number in found if number != USED_UP}


def word_of(command):
    """The word for a command: that of its question, where it is one."""
    name = command.tag.rpartition(".")[2]
    if name == "Ask":
        return word_of(command.args[0])
    if name == "PlaceHold" and command.args[3].args:
        return "place-hold-from"
    return NAMES.get(name) or re.sub(r"(?<=.)([A-Z])", r"-\1", name).lower()


def stated(running, row):
    """Each command of a row with the answer that the row states."""
    if "requests" not in row.given:
        return []
    requests, texts = (items(running.value(row.module, row.given[it])) for it in ("requests", "texts"))
    check(f"{row} states an answer to each request", len(requests), len(texts))
    return [(word_of(request.command), text) for request, text in zip(requests, texts)]


def look():
    """Compares all rows, and tells what they show and go through."""
    program = Program(TOP)
    running, shows = Running(program), set()
    found = rows(program)
    for row in found:
        one, other = row.both(running)
        check(f"{row} in plain Python", shown(one), shown(other))
        refused = ((name, re.fullmatch(r"refused (\d+)", text)) for name, text in stated(running, row))
        shows |= {(name, int(it[1])) for name, it in refused if it}
    wanted, used = pairs_of_rules(), running.used()
    none("no worked row shows this refusal", sorted(f"{name} {number}" for name, number in wanted - shows))
    reached = [it for it in program.reached(ROOTS) if it.module.startswith("Rattle.model.specs.")]
    none("no worked row goes through", sorted(f"{it.module.rpartition('.')[2]}.{it.name}" for it in reached if it not in used))
    print(f"rows: {len(found)} rows show {len(wanted & shows)} refusals and go through {len(reached)} definitions")


def main():
    deeply(look)


if __name__ == "__main__":
    run_script(main)
