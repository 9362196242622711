#!/usr/bin/env python3
"""Runs `tools/label` on lists of labels, good, refused and bad ones, before the program that serves; it is killed in
the middle and run again.

    tests/gate/label.py

Expected lines and rows are worked out by hand from docs/RULES.md. What `label` has in common with `enrol` is tried in
enrol.py.
"""

import os
import signal
import subprocess
import sys
import tempfile
import time

from room import TOP
from enrol import a_desk, put
from lib.checking import check, need, part, run_script
from lib.messages import told_refusal
from lib.runs import IN_MEMORY, LONGEST_RUN, circ, rows_now, take_in
from lib.serving import DESK_KEY, a_library

sys.path.insert(0, os.path.join(TOP, "tools"))

from circ_client import Desk, Refused

LABEL = os.path.join(TOP, "tools", "label")
HEADER = "copy,barcode\n"
GIVEN = "SELECT number, barcode FROM barcodes WHERE sort = 1 ORDER BY number"
MANY = 600


def begun(*words):
    return subprocess.Popen([sys.executable, LABEL, *words], stdout=subprocess.PIPE, stderr=subprocess.PIPE, text=True)


def labelled(*words):
    """What a run prints, what it says on standard error, and its status."""
    with begun(*words) as run:
        return (*run.communicate(timeout=LONGEST_RUN), run.returncode)


def said(*lines):
    return "".join(f"label: {line}\n" for line in lines)


def given(folder):
    """The labels of a list find their copies, each was given once, and the refused rows are in their file and are
    accepted once they are mended there."""
    path, refused, again = a_library(folder,
                                     "given.db"), os.path.join(folder, "rest.csv"), os.path.join(folder, "rest2.csv")
    listed = put(folder, "labels.csv", HEADER + "10,30000100000010\n11,0011\n99,30000100000099\n20,card2\n30,a\n")
    with a_desk(path) as (_, port):
        desk = Desk(int(port), DESK_KEY)
        desk.ask("patron-barcode", 2, "card2")
        told = (f"row 3 {told_refusal(13)} (copy-barcode-99)\nrow 4 {told_refusal(26)} (copy-barcode-20)\n"
                "accepted 3 refused 2\n")
        check("a list", labelled(port, DESK_KEY, listed, refused), (told, "", 2))
        check("its file", open(refused, encoding="utf-8").read(), HEADER + "99,30000100000099\n20,card2\n")
        check("the file is not written over", labelled(port, DESK_KEY, listed, refused)[1:],
              (said(f"{refused} is there already, and is not written over"), 3))
        mended = put(folder, "mended.csv", HEADER + "20,Card2\n")
        check("a mended list", labelled(port, DESK_KEY, mended, again), ("accepted 1 refused 0\n", "", 0))
        check("the labels", rows_now(path, GIVEN), [(10, "30000100000010"), (11, "0011"), (20, "Card2"), (30, "a")])
        check("what they find", [desk.ask("find-barcode", it)
                                 for it in ("30000100000010", "0011", "card2", "Card2", "a")],
              ["copy 10", "copy 11", "patron 2", "copy 20", "copy 30"])
        other = put(folder, "other.csv", HEADER + "10,31\n")
        check("another label for a copy that a list labelled", labelled(port, DESK_KEY, other, again),
              (f"row 1 {told_refusal(80)} (copy-barcode-10)\naccepted 0 refused 1\n", "", 2))
        check("no label", labelled(port, DESK_KEY, put(folder, "none.csv", HEADER), os.path.join(folder, "none2.csv")),
              ("accepted 0 refused 0\n", "", 0))
        check("a wrong key", labelled(port, "deskkey00002", listed, os.path.join(folder, "none2.csv")),
              ("accepted 0 refused 0\n", said(told_refusal(81)), 2))


def bad(folder):
    """A list with a bad row is told, and nothing of it is sent."""
    path, refused = a_library(folder, "bad.db"), os.path.join(folder, "of_bad.csv")
    form = "its barcode is not 1 to 24 ASCII letters and digits"
    rows = [("x,1", "its copy is no number"), ("011,1", "its copy is no number"), ("11,", form), ("11,1-2", form),
            ("11,1 ", form),
            (f"11,{'1' * 25}", form), ("11", "it has 1 fields, not 2"), ("11,1,2", "it has 3 fields, not 2"),
            ("10,1", "copy 10 stands in a row before it too"), ("11,b", "the barcode b stands in a row before it too")]
    with a_desk(path) as (_, port):
        for row, why in rows:
            listed = put(folder, "bad.csv", f"{HEADER}10,b\n{row}\n")
            check(row, labelled(port, DESK_KEY, listed, refused),
                  ("", said(f"{listed}: row 2 is bad: {why}", "nothing was sent"), 4))
        listed = put(folder, "header.csv", "barcode,copy\nb,10\n")
        check("another header", labelled(port, DESK_KEY, listed, refused),
              ("", said(f"{listed}: its first line is not copy,barcode"), 4))
        for words in ((), (port, DESK_KEY, listed), (port, DESK_KEY, listed, "")):
            check(f"the words {words}", labelled(*words), ("", "usage: label PORT DESKKEY|@KEYFILE COPIES REFUSED\n",
                                                           4))
        check("no label is there", rows_now(path, GIVEN), [])
        longest = put(folder, "long.csv", f"{HEADER}10,{'Z' * 24}\n11,0\n")
        check("the longest and the shortest", labelled(port, DESK_KEY, longest, refused),
              ("accepted 2 refused 0\n", "", 0))
    check("they are there", rows_now(path, GIVEN), [(10, "Z" * 24), (11, "0")])
    check("no file of refused rows", os.path.exists(refused), False)


def killed_in_the_middle(folder):
    """Killed in the middle, the first labels are there; after the same run again each is there, given once."""
    path, refused = a_library(folder, "many.db"), os.path.join(folder, "of_many.csv")
    copies = put(folder, "copies.csv",
                 "copy,title,text,kind,home,price,end\n" + "".join(f"{1000 + at},900,Many,1,1,100,end\n"
                                                                   for at in range(MANY)))
    check("the copies", take_in(path, copies)[0].splitlines()[-1], f"accepted {MANY} refused 0")
    labels = [(1000 + at, f"3{at:013}") for at in range(MANY)]
    listed = put(folder, "many.csv", HEADER + "".join(f"{copy},{barcode}\n" for copy, barcode in labels))
    with a_desk(path) as (_, port):
        with begun(port, DESK_KEY, listed, refused) as run:
            while not is_found(port, labels[MANY // 4][1]):
                need("the run is at work", run.poll(), None)
                time.sleep(0.02)
            run.kill()
            check("what it told when it was killed", (run.communicate(), run.returncode), (("", ""), -signal.SIGKILL))
        found = rows_now(path, GIVEN)
        check("a beginning of the list", (found, MANY // 4 < len(found) < MANY), (labels[: len(found)], True))
        check("the same run again", labelled(port, DESK_KEY, listed, refused), (f"accepted {MANY} refused 0\n", "", 0))
    check("each label", rows_now(path, GIVEN), labels)
    check("each key once",
          rows_now(path, "SELECT count(*), count(DISTINCT key) FROM kept WHERE key LIKE 'copy-barcode-%'"),
          [(MANY, MANY)])
    check("the audit", circ(["audit", path]), ("sound", 0))


def is_found(port, barcode):
    try:
        return bool(Desk(int(port), DESK_KEY).ask("find-barcode", barcode))
    except Refused:
        return False


def main():
    for tried in (given, bad, killed_in_the_middle):
        with tempfile.TemporaryDirectory(dir=IN_MEMORY) as folder:
            part(tried, folder)


if __name__ == "__main__":
    run_script(main)
