#!/usr/bin/env python3
"""Runs `tools/export` on a library that has a copy in each place, holds and lines of each sort, and names with commas,
quotes and letters beyond ASCII; then where it can't be done.

    tests/gate/export.py

The rows that are wanted are what the rules in plain Python know after the same requests
(tests/reference/desk_rules.py).
"""

import csv
import hashlib
import os
import re
import shutil
import subprocess
import sys
import tempfile

from room import TOP
from lib.checking import check, part, run_script
from lib.runs import GROUND, say, write
from migrate import old_library
from reference.desk_rules import Library

EXPORT = os.path.join(TOP, "tools", "export")
# after the ground: a copy in each place, a hold in each state, a line of each sort
REQUESTS = [
    "patron 4 1 cardkey00004 'Dunn, \"Di\"'", "patron 5 1 cardkey00005 'Åsa Ångström'", "acquire 40 400 1 1 900 '2 × 2, \"Œuvres\"'", "acquire 50 500 1 1 900 Tides", "acquire 60 600 1 2 100 Reefs",
    "acquire 70 700 1 1 100 Dunes", "acquire 80 800 1 1 100 Shells", "close-day 1 2026-03-20", "close-day 2 2026-03-21", "grace 1 1 2", "check-out 1 10 1", "check-out 2 11 1", "place-hold 3 100 1", "place-hold-from 4 200 2 2026-03-25",
    "place-hold 4 300 2", "place-hold 5 300 1", "check-in 30 2", "check-out 5 40 1", "missing 40", "pay 5 200", "waive 5 100", "withdraw 50", "missing 70", "check-in 60 1", "place-hold 1 400 1", "cancel-hold 5",
    "begin-day 2026-03-19", "check-in 11 1", "check-out 2 20 2", "rehome 11 2", "copy-barcode 10 30000100000010",
    "copy-barcode 40 007", "patron-barcode 5 Card5", "charge 4 250 2 'Photocopies, \"A4\"'", "pay-at 4 100 1",
]
HEADERS = {
    "branches": "branch,pickup,week,name", "closed-days": "branch,day", "kinds": "kind,loans,holds,debt",
           "rules": "kind,copy-kind,period,renewals,rate,cap,grace", "patrons": "patron,kind,name,owed,barcode",
    "titles": "title,text", "copies": "copy,title,kind,home,price,place,barcode",
           "loans": "loan,copy,patron,branch,made,due,renewals-left",
           "holds": "hold,patron,title,branch,state,copy,until,from",
    "lines": "line,patron,day,sort,amount,loan,branch,text",
}


def texts(*cells):
    """Cells as a file has them."""
    return ["" if it is None else str(it) for it in cells]


def wanted(library):
    """The rows of each file, by the rules."""
    place = lambda copy: re.sub(r" (?:due|until) .*", "", library.where(copy)[0])
    in_order = lambda table: sorted(table.items())
    active = [(n, it) for n, it in in_order(library.holds) if it["state"] in ("waiting", "ready")]
    ready = lambda hold, value: value if hold["state"] == "ready" else None
    return {
        "branches": [texts(n, it["pickup"], it["week"], it["name"]) for n, it in in_order(library.branches)],
        "closed-days": [texts(n, day) for n, days in in_order(library.closed) for day in sorted(days)],
        "kinds": [texts(n, it["loans"], it["holds"], it["debt"]) for n, it in in_order(library.kinds)],
        "rules": [texts(*key, *(it[name] for name in ("period", "renewals", "rate", "cap", "grace"))) for key, it in in_order(library.rules)],
        "patrons": [texts(n, it["kind"], it["name"], library.owed(n), library.barcodes.get(("patron", n))) for n,
                    it in in_order(library.patrons)],
        "titles": [texts(n, it) for n, it in in_order(library.titles)],
        "copies": [texts(n, it["title"], it["kind"], it["home"], it["price"], place(n),
                         library.barcodes.get(("copy", n))) for n, it in in_order(library.copies)],
        "loans": [texts(n, *(it[name] for name in ("copy", "patron", "branch", "made", "due", "renewals"))) for n, it in in_order(library.loans) if it["ended"] is None],
        "holds": [texts(n, it["patron"], it["title"], it["branch"], it["state"], ready(it, it.get("copy")), ready(it, it.get("limit")), it["first"]) for n, it in active],
        "lines": [texts(n, *(it[name] for name in ("patron", "day", "sort", "amount", "loan", "at", "text"))) for n,
                  it in enumerate(library.lines, 1)],
    }


def export(*words):
    told = subprocess.run([sys.executable, EXPORT, *words], capture_output=True, text=True, timeout=60, check=False)
    return told.returncode, told.stdout, told.stderr


def digest(path):
    with open(path, "rb") as file:
        return hashlib.sha256(file.read()).hexdigest()


def whole(folder, path):
    """Each file, with each row; the library is as it was."""
    library, requests = Library(), [(key, words) for key, words, _ in GROUND]
    requests += [(f"r{at}", [it.strip("'") for it in re.findall(r"'[^']*'|\S+", text)]) for at, text in enumerate(REQUESTS)]
    say(path, [(key, words, library.handle(key, words)) for key, words in requests])
    before, out = digest(path), os.path.join(folder, "out")
    check("the run", export(path, out), (0, "", ""))
    check("the library", (digest(path), sorted(it for it in os.listdir(folder) if it.startswith("town.db"))), (before, sorted(it for it in os.listdir(folder) if it.startswith("town.db"))))
    check("the files", sorted(os.listdir(out)), sorted(f"{it}.csv" for it in HEADERS))
    rows = wanted(library)
    for name, header in HEADERS.items():
        with open(f"{out}/{name}.csv", "rb") as file:
            data = file.read().decode()
        check(f"the ends of lines of {name}", (data.count("\n"), data.endswith("\r\n")), (data.count("\r\n"), True))
        check(f"the rows of {name}", list(csv.reader(data.splitlines(keepends=True))), [header.split(","), *rows[name]])
        check(f"{name} has rows", len(rows[name]) > 0, True)
        check(f"card keys in {name}", "cardkey" in data, False)
    places = {re.sub(r" .*", "", row[5]) for row in rows["copies"]}
    check("places", places, {"shelf", "loan", "ready", "transit", "missing", "withdrawn"})
    check("sorts of lines", {row[3] for row in rows["lines"]}, {"fine", "price", "payment", "waiver", "charge"})
    barcodes = [row[-1] for name in ("copies", "patrons") for row in rows[name] if row[-1]]
    check("barcodes", barcodes, ["30000100000010", "007", "Card5"])
    check("who may read them", oct(os.stat(out).st_mode & 0o777), "0o700")


def impossible(folder, path):
    """Nothing is left where it can't be done, and what is there stays."""
    old, other, absent, made = (os.path.join(folder, it) for it in ("old.db", "other.db", "absent.db", "made"))
    old_library("schema2_new", old)
    with open(other, "wb") as file:
        file.write(b"no database" * 1000)
    shutil.copy(path, os.path.join(folder, "logged.db"))
    with open(os.path.join(folder, "logged.db-wal"), "wb") as file:
        file.write(bytes(4096))
    logged, damaged = os.path.join(folder, "logged.db"), os.path.join(folder, "damaged.db")
    shutil.copy(path, damaged)
    write(damaged, "DROP TABLE lines")
    before = sorted(os.listdir(folder))
    for what, line in ((old, f"{old} is of schema 2, and not 4"), (other, "file is not a database"),
                       (absent, f"{absent} is no file"), (folder, f"{folder} is no file"),
                       (damaged, "no such table: lines"),
                       (logged, f"{logged}-wal has what isn't in {logged} yet: circ audit {logged} empties it")):
        check(f"of {what}", export(what, made), (3, "", f"export: {line}\n"))
    check("a folder that is there", export(path, folder), (3, "", f"export: {folder} is there already\n"))
    check("a place that isn't there", export(path, f"{absent}/made"), (3, "", "export: No such file or directory\n"))
    check("what is left", sorted(os.listdir(folder)), before)
    for words in ((), (path,), (path, made, "x"), ("", made)):
        check(f"the words {words}", export(*words), (4, "", "usage: export LIBRARY FOLDER\n"))


def main():
    with tempfile.TemporaryDirectory() as folder:
        path = os.path.join(folder, "town.db")
        part(whole, folder, path)
        part(impossible, folder, path)


if __name__ == "__main__":
    run_script(main)
