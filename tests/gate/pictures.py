#!/usr/bin/env python3
"""Compares the pictures in docs/ with what they show.

    tests/gate/pictures.py            compares
    tests/gate/pictures.py --write    writes the pictures anew

The places of a copy and the states of a hold, with the commands that lead from one to another (docs/RULES.md): the
arrows are those that random requests on small libraries take by the rules in plain Python
(tests/reference/desk_rules.py), and no others. The crates (docs/ARCHITECTURE.md): an arrow goes to each crate that one
stands on by crates.txt, unless another arrow leads there. The plots (docs/SPEED.md) were drawn from figures that each
of them has as its description: these are those of the document's tables now. They are drawn anew by `bench/plots`.
"""

import json
import os
import random
import re
import sys
from xml.etree import ElementTree

from room import TOP
from lib.checking import check, none, run_script
from reference.desk_rules import Library

sys.path.append(os.path.join(TOP, "bench"))

import figures

CRATES = "docs/ARCHITECTURE.md"
RULES = "docs/RULES.md"
ROUNDS, REQUESTS = 300, 150
LARGEST = 60_000  # bytes of a plot
DESCRIPTION = ".//{http://purl.org/dc/elements/1.1/}description"
GROUND = """begin-day 2026-03-02;branch 1 5 Main;branch 2 0 Harbour;kind 1 9 9 1000000;rule 1 1 6 9 20 100;patron 1 1 cardkey00001 Ann;patron 2 1 cardkey00002 Bo;
acquire 10 100 1 1 2500 Rivers;acquire 11 100 1 2 2500 Rivers;acquire 20 200 1 2 1200 Roads"""
COMMANDS = ["check-out P C B", "check-in C B", "check-in C B", "check-in C B", "place-hold P T B", "place-hold P T B", "place-hold-from P T B D",
            "cancel-hold H", "unshelve H", "unshelve-cancelled H", "missing C", "withdraw C", "begin-day D", "pay P 100", "rehome C B"]
PLACES = {"Shelf": "on the shelf at home", "OnLoan": "on loan", "HoldShelf": "on the hold shelf", "ForHold": "in transit for a hold",
          "ForNone": "in transit for none", "Missing": "missing", "Withdrawn": "withdrawn"}


def place(library, copy):
    """The place of a copy; none before it is acquired."""
    if copy not in library.copies:
        return None
    condition = library.copies[copy]["condition"]
    if condition != "present":
        return condition.capitalize()
    if library.loan_of(copy) is not None:
        return "OnLoan"
    if library.ready_for(copy) is not None:
        return "HoldShelf"
    if copy in library.transits:
        return "ForNone" if library.transits[copy][1] is None else "ForHold"
    return "Shelf"


def state(library, hold):
    """The state of a hold; none before it is placed."""
    if hold not in library.holds:
        return None
    is_coming = any(it == hold for _, it in library.transits.values())
    return "Coming" if is_coming else library.holds[hold]["state"].capitalize()


def walk(seed, moves, turns):
    """Random requests on a new library: each move of a copy, and each turn of a hold, with its command."""
    chance, library = random.Random(seed), Library()
    day = 3

    def ask(words):
        before = {it: place(library, it) for it in (10, 11, 20)}, {it: state(library, it) for it in range(1, len(library.holds) + 2)}
        library.handle(f"k{len(library.kept)}", words)
        for found, old, of in ((moves, before[0], place), (turns, before[1], state)):
            for it, was in old.items():
                if of(library, it) != was:
                    found.setdefault((was or "[*]", of(library, it)), set()).add(words[0])

    for line in GROUND.replace("\n", "").split(";"):
        ask(line.split())
    for _ in range(REQUESTS):
        values = {"P": chance.choice("12"), "C": chance.choice(["10", "11", "20"]), "B": chance.choice("12"), "T": chance.choice(["100", "200"]),
                  "H": str(chance.randint(max(1, len(library.holds) - 3), len(library.holds) + 1)), "D": f"2026-03-{day:02}"}
        words = [values.get(it, it) for it in chance.choice(COMMANDS).split()]
        day += words[0] == "begin-day" and day < 28
        ask(words)


def arrows(found):
    return [f"    {was} --> {now}: {', '.join(sorted(commands))}" for (was, now), commands in sorted(found.items())]


def states_of(found, names):
    return "\n".join(["stateDiagram-v2", *(f"    {it}: {said}" for it, said in names.items()), *arrows(found)])


def crates():
    """The crates of the program, each with those that it stands on, as far as no other of them leads there."""
    below = {}
    with open(os.path.join(TOP, "crates.txt"), encoding="utf-8") as file:
        for line in file:
            name, colon, words = line.split("#")[0].partition(":")
            if colon:
                below[name.split()[0]] = words.split()
    all_below = {}
    for name, names in below.items():
        own = [it for it in names if it in below]
        all_below[name] = set(own).union(*(all_below[it] for it in own))
        below[name] = own
    shown = {"circ_cli"} | all_below["circ_cli"]
    lines = ["graph TD"]
    for name in below:
        if name in shown:
            direct = [it for it in below[name] if not any(it in all_below[other] for other in below[name])]
            lines += [f"    {name} --> {it}" for it in sorted(direct)]
    return "\n".join(lines)


def plots():
    """What is wrong with the plots: each has the figures of the document's tables, is small, and is shown by the
    document, and one of them by the README."""
    shown_in = {}
    for path in (figures.SPEED, "README.md"):
        with open(os.path.join(TOP, path), encoding="utf-8") as file:
            shown_in[path] = set(re.findall(r"!\[[^\]]+\]\((?:docs/)?(\S+\.svg)\)", file.read()))
    wanted = figures.shown()
    for name, parts in wanted.items():
        with open(os.path.join(TOP, "docs", name), encoding="utf-8") as file:
            text = file.read()
        described = ElementTree.fromstring(text).find(DESCRIPTION)
        if described is None or json.loads(described.text) != parts:
            yield f"docs/{name} was not drawn from the tables of {figures.SPEED}: bench/plots draws it anew"
        if len(text) > LARGEST:
            yield f"docs/{name} has {len(text)} bytes"
        # a table that lost its rows would be compared with nothing
        if any(not lines or min(map(len, lines.values())) < 2 for lines in parts.values()):
            yield f"docs/{name} shows nothing, or a line of fewer than two points"
    if shown_in[figures.SPEED] != set(wanted):
        yield f"{figures.SPEED} shows {sorted(shown_in[figures.SPEED])}, and not {sorted(wanted)}"
    if not shown_in["README.md"] & set(wanted):
        yield "README.md shows no plot"


def main():
    moves, turns = {}, {}
    for seed in range(ROUNDS):
        walk(seed, moves, turns)
    pictures = {"places": (RULES, states_of(moves, PLACES)), "holds": (RULES, states_of(turns, {"Coming": "waiting, a copy is in transit for it"})),
                "crates": (CRATES, crates())}
    for name, (path, picture) in pictures.items():
        wanted = f"<!-- picture {name}: tests/gate/pictures.py --write -->\n\n```mermaid\n{picture}\n```\n"
        with open(os.path.join(TOP, path), encoding="utf-8") as file:
            text = file.read()
        found = re.search(rf"<!-- picture {name}: .*?-->\n(\n```mermaid\n.*?\n```\n)?", text, re.S)
        if found and found[0] != wanted and "--write" in sys.argv:
            with open(os.path.join(TOP, path), "w", encoding="utf-8") as file:
                file.write(text.replace(found[0], wanted, 1))
        else:
            check(f"{path}: the picture {name}", found and found[0], wanted)
    none("a plot", plots())
    check("arrows of copies and holds are enough", len(moves) + len(turns) >= 20, True)
    print(f"pictures: {len(figures.shown())} plots, and {len(moves) + len(turns)} arrows of copies and holds")


if __name__ == "__main__":
    run_script(main)
