#!/usr/bin/env python3
"""Runs `tools/forget` on a library whose patron has left: nothing of the name, of the card keys and of what the patron
asked for stays in the file, and everything else is as it was.

    tests/gate/forget.py
"""

import hashlib
import os
import subprocess
import sys
import tempfile

from room import TOP
from lib.checking import check, part, run_script
from lib.runs import GROUND, answers, circ, rows_now, say, write
from lib.serving import Serving

FORGET = os.path.join(TOP, "tools", "forget")
# the patron who leaves is 3; 31 and 33 begin or end alike, and what they sent stays
REQUESTS = [
    ("f1", ["patron", "31", "1", "cardkey00031", "Cyd Dunning"], "ok"), ("f2", ["patron", "33", "1", "cardkey00033", "Al Three"], "ok"), ("f3", ["check-out", "3", "10", "1"], "loan 1 due 2026-03-09"),
    ("f4", ["place-hold", "3", "200", "1"], "hold 1"), ("f5", ["amend-patron", "3", "1", "Cy Dunn-Marsh"], "ok"), ("f6", ["card-key", "3", "secondkey003"], "ok"), ("f7", ["check-in", "10", "1"], "fine 0 shelf 1"),
    ("f8", ["cancel-hold", "1"], "ok"), ("f9", ["place-hold", "31", "300", "1"], "hold 2"), ("f10", ["amend-patron", "33", "1", "Al Trey"], "ok"),
    ("f11", ["patron-barcode", "3", "OldCard3"], "ok"), ("f12", ["patron-barcode", "3", "NewCard3"], "ok"),
            ("f13", ["drop-barcode", "NewCard3"], "ok"), ("f14", ["patron-barcode", "3", "LastCard3"], "ok"),
    ("f15", ["patron-barcode", "31", "newcard3"], "ok"), ("f16", ["drop-barcode", "newcard3"], "ok"),
            ("f17", ["patron-barcode", "33", "Card33"], "ok"), ("f18", ["copy-barcode", "10", "3"], "ok"),
    ("f19", ["charge", "3", "250", "1", "Lost the diary of Cy"], "owed 250"),
            ("f20", ["charge", "3", "40", "2", "Copies of a will"], "owed 290"),
            ("f21", ["charge", "31", "60", "1", "Lost card"], "owed 60"),
            ("f22", ["pay-at", "3", "90", "2"], "owed 200"),
]
LEFT = [("l1", ["amend-patron", "3", "1", "Left"], "ok"), ("l2", ["card-key", "3", "lastkey00003"], "ok")]
GONE = [b"Cy Dunn", b"Cy Dunn-Marsh", b"cardkey00003", b"secondkey003", b"OldCard3", b"NewCard3", b"LastCard3",
        b"the diary", b"of a will"]
TELLING = ["patron", "amend-patron", "card-key", "patron-barcode"]
TABLES = ["branches", "closed_days", "kinds", "rules3", "patrons", "titles", "copies", "loans3", "holds2", "transits", "lines", "meta"]
ACCOUNT = """patron 3 owed 200 name Left
line 1 2026-03-02 charge 250 at 1 for {}
line 2 2026-03-02 charge 40 at 2 for {}
line 4 2026-03-02 payment 90 at 2
end
"""


def forget(*words):
    told = subprocess.run([sys.executable, FORGET, *words], capture_output=True, text=True, timeout=60, check=False, env={**os.environ, "PATH": f"{TOP}:{os.environ['PATH']}"})
    return told.returncode, told.stdout, told.stderr


def read(path):
    with open(path, "rb") as file:
        return file.read()


def library(folder, name):
    path = os.path.join(folder, name)
    say(path, GROUND + REQUESTS)
    with Serving(path, 2) as serving:
        for key, body in (("p1", b'{"branch":1,"title":300}'), ("p2", b'{"branch":2,"title":100}')):
            check(f"a hold by the patron under {key}", serving.ask("POST", "/patrons/3/holds", {"Card-Key": "secondkey003", "Request-Key": key}, body)[0], 200)
    say(path, [*LEFT, ("l3", ["cancel-hold", "3"], "ok"), ("l4", ["cancel-hold", "4"], "ok")])
    check("the audit", circ(["audit", path]), ("sound", 0))
    return path


def forgotten(folder):
    """The file has nothing of them, and all other rows and replies stay."""
    path = library(folder, "town.db")
    check("what is there before", [it for it in GONE if it not in read(path)], [])
    tables = {it: rows_now(path, f"SELECT * FROM {it}") for it in TABLES}
    kept, mode = rows_now(path, "SELECT * FROM kept"), os.stat(path).st_mode
    is_told = lambda caller, text: caller == 3 or (caller == 0
                                                   and text.split(" ")[:2] in [*([it, "3"] for it in TELLING), ["drop-barcode", "NewCard3"]])
    gone = [row for row in kept if is_told(row[0], row[2])]
    check("how many there are", (len(gone), sum(row[0] == 3 for row in gone)), (11, 2))
    charges = {"charge 3 250 1 Lost the diary of Cy": "charge 3 250 1 removed",
               "charge 3 40 2 Copies of a will": "charge 3 40 2 removed"}
    check("the account before", answers(path, "q", ["account", "3", "0"]),
          (ACCOUNT.format("Lost the diary of Cy", "Copies of a will"), 0))
    check("the run", forget(path, "3"), (0, "11 requests and 2 texts were removed\n", ""))
    data = read(path)
    check("what is left of them", [it for it in [*GONE, *(row[1].encode() + b"place-hold 3" for row in gone)] if it in data], [])
    check("the name of now", b"Left" in data, True)
    check("the other tables", {it: rows_now(path, f"SELECT * FROM {it}") for it in TABLES}, tables)
    left = [(caller, key, charges.get(text, text), reply) for caller, key, text,
            reply in (row for row in kept if row not in gone)]
    check("the kept requests", rows_now(path, "SELECT * FROM kept"), left)
    check("the barcodes", rows_now(path, "SELECT * FROM barcodes ORDER BY barcode"), [(1, 10, "3"), (0, 33, "Card33")])
    check("the notes", rows_now(path, "SELECT * FROM notes ORDER BY line"),
          [(1, 1, "removed"), (2, 2, "removed"), (3, 1, "Lost card"), (4, 2, None)])
    check("the file", (os.stat(path).st_mode, sorted(os.listdir(folder))), (mode, ["town.db", "town.db-wal"] if os.path.exists(f"{path}-wal") else ["town.db"]))
    check("the audit after it", circ(["audit", path]), ("sound", 0))
    check("the account", answers(path, "q", ["account", "3", "0"]), (ACCOUNT.format("removed", "removed"), 0))
    say(path, [("f9", ["place-hold", "31", "300", "1"], "hold 2"),
               ("f2", ["patron", "33", "1", "cardkey00033", "Al Three"], "ok"),
               ("f19", ["charge", "3", "250", "1", "Lost the diary of Cy"], "refused 80"),
               ("b1", ["patron-barcode", "31", "LastCard3"], "ok"), ("b2", ["drop-barcode", "LastCard3"], "ok")])
    check("once more", forget(path, "3"), (0, "0 requests and 0 texts were removed\n", ""))


def impossible(folder):
    """The library stays as it is where it can't be done, and nothing is left beside it."""
    path, absent = os.path.join(folder, "other.db"), os.path.join(folder, "absent.db")
    say(path, GROUND + REQUESTS)
    circ(["audit", path])
    before, beside = hashlib.sha256(read(path)).hexdigest(), sorted(os.listdir(folder))
    check("an unknown patron", forget(path, "9"), (3, "", "forget: there is no patron 9\n"))
    check("no library", forget(absent, "3"), (3, "", f"forget: {absent} is no library\n"))
    with Serving(path, 1) as serving:
        check("one that is served", forget(path, "3"), (3, "", f"forget: the audit of {path} tells: fault 91\n"))
        serving.ask("GET", "/patrons/1", {"Card-Key": "cardkey00001"})
    check("the library", (hashlib.sha256(read(path)).hexdigest(), sorted(os.listdir(folder))), (before, beside))
    write(path, "UPDATE patrons SET owed = 5 WHERE patron = 1")
    before = read(path)
    check("an unsound one", forget(path, "3"), (3, "", f"forget: the audit of {path} tells: unsound balance 1\n"))
    check("it stays", (read(path), sorted(os.listdir(folder))), (before, beside))
    for words in ((), (path,), (path, "3", "x"), ("", "3"), (path, "0"), (path, "03"), (path, "x"), (path, "10000000")):
        check(f"the words {words}", forget(*words), (4, "", "usage: forget LIBRARY PATRON\n"))


def main():
    for tried in (forgotten, impossible):
        with tempfile.TemporaryDirectory() as folder:
            part(tried, folder)


if __name__ == "__main__":
    run_script(main)
