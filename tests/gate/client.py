#!/usr/bin/env python3
"""Uses the module for programs, tools/circ_client.py, before the program that serves, and before others that answer
wrongly or not at all.

    tests/gate/client.py
"""

import os
import sys
import tempfile
import threading
import time

from room import TOP
from lib.checking import check, part, run_script
from lib.fake_desk import NOTHING, FakeDesk, reply
from lib.runs import rows_now, write
from lib.serving import DESK_KEY, Serving, a_library, put_keys

sys.path.insert(0, os.path.join(TOP, "tools"))

from circ_client import (
    BadKeys, Borrower, Copy, Desk, Fault, Hold, Line, Loan, NoAnswer, NoDesk, NotUnderstood, Page, Refused, Till,
    first_key, read_borrower, read_copy, read_found, read_line, read_owed, read_page, read_till,
)

MANY = 205  # copies of a title, in three parts of a list


def raised(call):
    """What a call raises, with its number where it has one."""
    try:
        return call()
    except Exception as found:
        return type(found), getattr(found, "number", None)


def served(folder):
    """Replies, refusals, a fault, words that aren't understood, lists of several parts, and what replies are read
    into."""
    path = a_library(folder, "town.db")
    asked = 6 + 4 + MANY + 3 + 2 + 4 + 2 + 1
    with Serving(path, asked) as serving:
        desk = Desk(serving.port, DESK_KEY)
        check("a reply", desk.ask("check-out", 1, 10, 1), "loan 1 due 2026-03-09")
        check("under one key", [desk.ask("place-hold", 2, 100, 2, key="h1") for _ in range(2)], ["hold 1"] * 2)
        check("its text for another", raised(lambda: desk.ask("place-hold", 2, 200, 2, key="h1")), (Refused, 80))
        check("a refusal", raised(lambda: desk.ask("check-out", 9, 10, 1)), (Refused, 11))
        check("another key", raised(lambda: Desk(serving.port, "wrongkey0001").ask("today")), (Refused, 81))
        for words in (["check-out", "1"], ["nothing"], [], ["x"] * 13):
            check(f"the words {words}", raised(lambda: desk.ask(*words)), (NotUnderstood, None))
        for at in range(MANY):
            desk.ask("acquire", 1000 + at, 900, 1, 1, 100, "Many")
        found = list(desk.listed("copies", 900))
        check("a list of three parts", (found[0], found[1:]), ("title 900 Many", [f"copy {1000 + at} shelf 1" for at in range(MANY)]))
        check("a list with its text last", list(desk.listed("find-patrons", "bell an")), ["patron 1 owed 0 name Ann Bell"])
        check("one without rows", list(desk.listed("debts")), [])
        copy = read_copy(desk.ask("copy", 10))
        check("a copy", copy, Copy(10, 1, 1, 2500, 100, "Rivers of the North",
                                   "loan 1 due 2026-03-09 patron 1 Ann Bell", 1, "2026-03-09", 1, None))
        check("one on its shelf", read_copy(desk.ask("copy", 30))[6:], ("shelf 1", None, None, None, None))
        check("a page with a loan", read_page(desk.ask("page", 1)), Page(1, 0, "Ann Bell", [Loan(1, "2026-03-09", 1, 100, "Rivers of the North")], []))
        check("a page with a hold", read_page(desk.ask("page", 2)), Page(2, 0, "Bo Carr", [], [Hold(1, 2, "waiting", 100, "Rivers of the North")]))
        check("card keys", [desk.knows(1, it) for it in ("cardkey00001", "cardkey00002", "short")], [True, False, False])
        check("a patron's request keys are not used up", desk.ask("today"), "today 2026-03-02")
    check("the hold stands once", rows_now(path, "SELECT count(*) FROM holds2"), [(1,)])
    write(path, "UPDATE copies SET price = 2000000 WHERE copy = 20")
    with Serving(path, 4, after="fault 93\n", status=3) as serving:
        desk = Desk(serving.port, DESK_KEY)
        check("a fault that a question met", raised(lambda: desk.ask("copy", 20)), (Fault, 93))
        check("the desk goes on", desk.ask("today"), "today 2026-03-02")
        check("a fault that a command met", raised(lambda: desk.ask("check-out", 1, 20, 1)), (Fault, 93))
        check("a closed desk", raised(lambda: desk.ask("copy", 10)), (Fault, 92))


def labels_and_charges(folder):
    """Barcodes, charges and the tills of a day, read."""
    path = a_library(folder, "charges.db")
    with Serving(path, 21) as serving:
        desk = Desk(serving.port, DESK_KEY)
        check("a patron without a barcode", read_borrower(desk.ask("borrower", 2)), Borrower(2, 0, "Bo Carr", 1, None))
        check("barcodes", [desk.ask(*it) for it in (("copy-barcode", 10, "30000100000010"),
                                                    ("patron-barcode", 2, "007"))], ["ok", "ok"])
        check("what they find", [read_found(desk.ask("find-barcode", it)) for it in ("30000100000010", "007")],
              [("copy", 10), ("patron", 2)])
        check("what none finds", raised(lambda: desk.ask("find-barcode", "7")), (Refused, 18))
        check("one that is taken", raised(lambda: desk.ask("copy-barcode", 11, "007")), (Refused, 26))
        check("a copy with one", read_copy(desk.ask("copy", 10)),
              Copy(10, 1, 1, 2500, 100, "Rivers of the North", "shelf 1", None, None, None, "30000100000010"))
        check("a till without charges", read_till(desk.ask("till", "2026-03-02")),
              Till("2026-03-02", None, 0, 0, 0, 0, None))
        check("what is owed", [read_owed(desk.ask(*it)) for it in (("charge", 2, 250, 1, "Photocopies for 5 at 2"),
                                                                   ("pay-at", 2, 100, 2), ("pay", 2, 40),
                                                                   ("waive", 2, 10))], [250, 150, 110, 100])
        check("a patron with one", read_borrower(desk.ask("borrower", 2)), Borrower(2, 100, "Bo Carr", 1, "007"))
        check("the tills", [read_till(desk.ask(*it)) for it in (("till", "2026-03-02"), ("till-at", 1, "2026-03-02"),
                                                                ("till-at", 2, "2026-03-02"))], [
            Till("2026-03-02", None, 0, 0, 140, 10, 250), Till("2026-03-02", 1, None, None, 0, None,
                                                               250), Till("2026-03-02", 2, None, None, 100, None, 0)])
        check("a lost copy", [desk.ask(*it) for it in (("check-out", 2, 10, 1), ("begin-day", "2026-03-17"),
                                                       ("missing", 10))], ["loan 1 due 2026-03-09", "ok", "fine 100 price 2500"])
        account = [read_line(it) for it in list(desk.listed("account", 2))[1:]]
        check("the account", account, [
            Line(1, "2026-03-02", "charge", 250, None, None, "Photocopies for 5 at 2", 1),
                                       Line(2, "2026-03-02", "payment", 100, None, None, None, 2),
            Line(3, "2026-03-02", "payment", 40, None, None, None, None),
                                       Line(4, "2026-03-02", "waiver", 10, None, None, None, None),
            Line(5, "2026-03-17", "fine", 100, 1, 100, "Rivers of the North", None),
                                       Line(6, "2026-03-17", "price", 2500, 1, 100, "Rivers of the North", None)])


def others(_folder):
    """What isn't a desk is told apart from what doesn't answer; and a request without an answer is sent again under
    its key."""
    fake = FakeDesk(os.path.join(TOP, "pages"))
    port = int(fake.url.rpartition(":")[2])
    for answer in ((0.0, 200, "<html>"), (0.0, 200, '{"reply":5}'), (0.0, 200, "[]"), (0.0, 409, '{"refusal":true}'), (0.0, 404, '{"status":404}'), (0.0, 400, '{"status":404}'), (0.0, 503, '{"refusal":11}')):
        fake.says(lambda what: answer)
        check(f"{answer}", raised(lambda: Desk(port, DESK_KEY).ask("week", 1, "ooooooo")), (NoDesk, None))
    answers = iter([NOTHING, NOTHING, reply("ok")])
    fake.says(lambda what: next(answers))
    check("no answer", raised(lambda: Desk(port, DESK_KEY).ask("week", 1, "ooooooo", key="k1")), (NoAnswer, None))
    check("an answer at last", Desk(port, DESK_KEY, 30).ask("week", 1, "ooooooo", key="k1"), "ok")
    check("under which keys", fake.keys(), ["k1"] * 3)
    check("nobody listens", raised(lambda: Desk(1, DESK_KEY).ask("week", 1, "ooooooo")), (NoAnswer, None))
    begun = time.monotonic()
    check("nor for a while", (raised(lambda: Desk(1, DESK_KEY, 1).ask("week", 1, "ooooooo")), 1 <= time.monotonic() - begun < 20), ((NoAnswer, None), True))


def keys(folder):
    """The key that stands first in a file of keys, each of whose lines has its form."""
    path = os.path.join(folder, "desk.keys")
    check("the first key", first_key(put_keys(path, [("ann", "desk", "annkey000001"), ("kiosk", "lending", "kioskkey0001")])), "annkey000001")
    for data in (b"", b"ann desk annkey000001", b"ann desk short\n", b"ann clerk annkey000001\n", b"ann desk annkey000001\nann desk bokey0000001\n", b"ann desk annkey000001\nbo desk annkey000001\n", b"ann  desk annkey000001\n", b"ann desk annkey000001\nx\n"):
        check(f"{data!r}", raised(lambda: first_key(put_keys(path, data))), (BadKeys, None))
    check("no file", raised(lambda: first_key(os.path.join(folder, "absent")))[0], FileNotFoundError)


def at_once(folder):
    """Many threads ask one desk object: each gets its own answer."""
    path, found = a_library(folder, "many.db"), []
    with Serving(path, 8 * 20, workers=4) as serving:
        desk = Desk(serving.port, DESK_KEY)
        threads = [threading.Thread(target=lambda at=at: found.extend((at, desk.ask("find-patrons", 0, text)) for text in ["ann", "bo"] * 10)) for at in range(8)]
        for it in threads:
            it.start()
        for it in threads:
            it.join()
    wanted = {"patron 1 owed 0 name Ann Bell\nend": 80, "patron 2 owed 0 name Bo Carr\nend": 80}
    check("the answers", {text: sum(it == text for _, it in found) for text in wanted}, wanted)


def main():
    for tried in (served, labels_and_charges, others, keys, at_once):
        with tempfile.TemporaryDirectory() as folder:
            part(tried, folder)


if __name__ == "__main__":
    run_script(main)
