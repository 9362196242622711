#!/usr/bin/env python3
"""The program as a whole on real files: new and small libraries, each refusal, words and files that are none, lost
output, and two runs at once.

    tests/gate/end_to_end.py

Expected lines and rows are those of the desk's rules, worked out by hand. The tables are read back with stock SQLite.
"""

import os
import shutil
import signal
import subprocess
import tempfile

import room  # finds lib and reference
from lib.checking import check, part, run_script
from lib.messages import message
from lib.runs import CIRC, GROUND, HEADER, LAST_INDEXES, PROGRAM, circ, digest, rows, say, take_in, whole, write


LENDING = [
    ("k1", ["check-out", "1", "10", "1"], "loan 1 due 2026-03-09"),
    ("k1", ["check-out", "1", "10", "1"], "loan 1 due 2026-03-09"),
    ("k1", ["check-out", "1", "11", "1"], "refused 80"),
    ("k2", ["check-out", "1", "99", "1"], "refused 13"),
    ("k2", ["check-out", "1", "11", "1"], "loan 2 due 2026-03-09"),
]


# Each refusal that the commands can give on a library that they made, in the order of their words.
REFUSALS = [
    (["begin-day", "2026-03-02"], 23),
    (["begin-day", "2191-01-01"], 23),
    (["branch", "100", "5", "Hill"], 21),
    (["branch", "1", "61", "Main"], 21),
    (["branch", "1", "6", "Main"], 20),
    (["week", "9", "ooooooo"], 10),
    (["week", "1", "ccccccc"], 22),
    (["close-day", "9", "2026-03-09"], 10),
    (["close-day", "1", "2026-03-02"], 23),
    (["open-day", "9", "2026-03-09"], 10),
    (["open-day", "1", "2026-03-02"], 23),
    (["open-day", "1", "2026-03-09"], 25),
    (["kind", "1", "201", "5", "500"], 21),
    (["rule", "1", "1", "0", "1", "20", "100"], 21),
    (["rule", "9", "1", "6", "1", "20", "100"], 17),
    (["grace", "1", "3", "2"], 16),
    (["grace", "9", "1", "2"], 16),
    (["grace", "1", "1", "366"], 21),
    (["grace", "1", "100", "2"], 21),
    (["grace", "0", "3", "2"], 21),
    (["patron", "0", "1", "cardkey00009", "Di"], 21),
    (["patron", "9", "9", "cardkey00009", "Di"], 17),
    (["patron", "1", "1", "cardkey00009", "Ann Bell"], 20),
    (["acquire", "12", "100", "1", "1", "1000001", "Rivers of the North"], 21),
    (["acquire", "12", "100", "1", "9", "2500", "Rivers of the North"], 10),
    (["acquire", "12", "100", "1", "1", "2500", "Rivers of the South"], 20),
    (["card-key", "9", "newkey000001"], 11),
    (["amend-patron", "9", "100", "Ann"], 21),
    (["amend-patron", "9", "0", "Ann"], 21),
    (["amend-patron", "9", "3", "Ann"], 11),
    (["amend-patron", "1", "3", "Ann"], 17),
    (["amend-branch", "100", "5", "Hall"], 21),
    (["amend-branch", "0", "5", "Hall"], 21),
    (["amend-branch", "9", "61", "Hall"], 21),
    (["amend-branch", "9", "5", "Hall"], 10),
    (["amend-title", "999", "Rivers"], 12),
    (["amend-copy", "99", "0", "1"], 21),
    (["amend-copy", "99", "100", "1"], 21),
    (["amend-copy", "99", "1", "1000001"], 21),
    (["amend-copy", "99", "1", "1"], 13),
    (["rehome", "99", "9"], 10),
    (["rehome", "99", "2"], 13),
    (["copy-barcode", "99", "c1"], 13),
    (["patron-barcode", "9", "p1"], 11),
    (["drop-barcode", "c1"], 18),
    (["check-out", "1", "20", "9"], 10),
    (["check-out", "9", "20", "2"], 11),
    (["check-out", "1", "99", "2"], 13),
    (["check-out", "2", "10", "1"], 31),
    (["check-out", "1", "20", "1"], 30),
    (["check-in", "10", "9"], 10),
    (["check-in", "99", "1"], 13),
    (["renew", "9"], 14),
    (["place-hold", "9", "100", "1"], 11),
    (["place-hold", "1", "999", "1"], 12),
    (["place-hold", "1", "300", "9"], 10),
    (["place-hold", "1", "100", "1"], 52),
    (["place-hold-from", "9", "100", "1", "2026-03-03"], 11),
    (["place-hold-from", "1", "999", "1", "2026-03-03"], 12),
    (["place-hold-from", "1", "300", "9", "2026-03-03"], 10),
    (["place-hold-from", "1", "300", "1", "2026-03-02"], 23),
    (["place-hold-from", "1", "300", "1", "2000-01-01"], 23),
    (["place-hold-from", "1", "300", "1", "2191-01-01"], 23),
    (["place-hold-from", "1", "300", "1", "2199-12-31"], 23),
    (["place-hold-from", "1", "100", "1", "2026-03-03"], 52),
    (["cancel-hold", "9"], 15),
    (["unshelve", "9"], 15),
    (["unshelve-cancelled", "9"], 15),
    (["missing", "99"], 13),
    (["withdraw", "99"], 13),
    (["withdraw", "10"], 31),
    (["pay", "9", "1"], 11),
    (["pay", "1", "0"], 60),
    (["pay", "1", "1"], 60),
    (["waive", "9", "1"], 11),
    (["waive", "1", "1"], 60),
    (["charge", "9", "1000001", "9", "Card"], 21),
    (["charge", "9", "0", "9", "Card"], 11),
    (["charge", "1", "0", "9", "Card"], 10),
    (["charge", "1", "0", "1", "Card"], 60),
    (["pay-at", "9", "0", "9"], 11),
    (["pay-at", "1", "0", "9"], 10),
    (["pay-at", "1", "0", "1"], 60),
    (["pay-at", "1", "1", "1"], 60),
    (["copy", "99"], 13),
    (["copies", "999", "0"], 12),
    (["queue", "999", "0"], 12),
    (["account", "9", "0"], 11),
    (["overdue", "9", "0"], 10),
    (["shelf", "9", "0"], 10),
    (["pulls", "9", "0"], 10),
    (["transits", "9", "0"], 10),
    (["borrower", "9"], 11),
    (["closed-days", "9", "0"], 10),
    (["rules", "9", "0"], 17),
    (["loans", "99", "0"], 13),
    (["find-barcode", "c1"], 18),
    (["till-at", "9", "2026-03-02"], 10),
]


BAD_WORDS = [
    [],
    ["file"],
    ["file", "FILE"],
    ["file", "FILE", "k1"],
    ["report"],
    ["report", "FILE"],
    ["report", "FILE", "till"],
    ["report", "FILE", "till", "2026-3-2"],
    ["report", "FILE", "till", "2026-03-02", "again"],
    ["report", "FILE", "shelf", "01"],
    ["report", "FILE", "shelf", ""],
    ["report", "FILE", "overdue"],
    ["report", "FILE", "overdue", "one"],
    ["report", "FILE", "overdue", "x"],
    ["report", "FILE", "overdue", "1", "2"],
    ["import"],
    ["import", "FILE"],
    ["import", "FILE", "copies.csv", "again"],
    ["report", "FILE", "sums", "1"],
    ["audit"],
    ["audit", "FILE", "again"],
    ["audit", "FILE", "all", "all"],
    ["audit", "FILE", "All"],
    ["", "", "", ""],
    ["file", "FILE", "", "begin-day", "2026-03-03"],
    ["file", "FILE", "k" * 41, "begin-day", "2026-03-03"],
    ["file", "FILE", "k 1", "begin-day", "2026-03-03"],
    ["file", "FILE", "k_1", "begin-day"],
    ["files", "FILE", "k1", "begin-day"],
    ["--helps"],
    [b"file", b"FILE", b"k1", b"begin-day", b"2026-03-0\xff"],
]


# These are read once the file is open, and change nothing in it.
BAD_REQUESTS = [
    [""],
    ["helps"],
    ["begin-day"],
    ["begin-day", "2026-3-3"],
    ["begin-day", "2026-03-03", "again"],
    ["check-out", "01", "10", "1"],
    ["branch", "4", "5", "-Hill"],
    ["branch", "4", "5", "\x07"],
    ["branch", "4", "5", "x" * 121],
    ["check-in", "10"],
    ["renew", "1", "2"],
    ["page", "01"],
    ["pay", "1", "05"],
    ["close-day", "1", "2026-3-9"],
    ["week", "1", "oooooo"],
    ["week", "1", "oooooox"],
    ["grace", "1", "1"],
    ["grace", "1", "1", "02"],
    ["grace", "1", "1", "2", "2"],
    ["grace", "1", "1", "-1"],
    ["grace", "1", "1", "two"],
    ["place-hold", "2", "100", "1", "2026-03-05"],
    ["place-hold-from", "2", "100", "1"],
    ["place-hold-from", "2", "100", "1", "2026-3-5"],
    ["place-hold-from", "2", "100", "1", "2026-02-29"],
    ["place-hold-from", "2", "100", "1", "1999-12-31"],
    ["place-hold-from", "2", "100", "1", "2200-01-01"],
    ["place-hold-from", "2", "100", "1", "20517"],
    ["place-hold-from", "2", "100", "1", "2026-03-05", "again"],
    ["place-hold-from", "2", "2026-03-05", "100", "1"],
    ["copy"],
    ["copy", "010"],
    ["copy", "10", "0"],
    ["copies", "100"],
    ["queue", "100"],
    ["queue", "100", "0", "0"],
    ["account", "1", "00"],
    ["debts"],
    ["debts", "-1"],
    ["overdue", "1"],
    ["shelf", "1", "4294967296"],
    ["pulls", "one", "0"],
    ["transits", "1", ""],
    ["till", "2026-3-17"],
    ["till", "20514"],
    ["till", "2026-03-17", "0"],
    ["card-key", "1"],
    ["card-key", "1", "newkey1"],
    ["card-key", "1", "newkey-00001"],
    ["card-key", "01", "newkey000001"],
    ["amend-patron", "1", "1"],
    ["amend-patron", "1", "1", "Ann "],
    ["amend-patron", "1", "1", "cardkey00001", "Ann"],
    ["amend-branch", "1", "five", "Main"],
    ["amend-title", "100"],
    ["amend-title", "100", "\x07"],
    ["amend-copy", "10", "1"],
    ["amend-copy", "10", "1", "-1"],
    ["rehome", "10"],
    ["rehome", "10", "1", "2"],
    ["today", "1"],
    ["borrower"],
    ["borrower", "01"],
    ["find-patrons", "0"],
    ["find-patrons", "ann"],
    ["find-patrons", "0", ""],
    ["find-patrons", "0", " ann"],
    ["find-patrons", "0", "ann", "bell"],
    ["find-patrons", "4294967296", "ann"],
    ["find-patrons", "0", "-x"],
    ["find-patrons", "0", "x" * 121],
    ["branches"],
    ["branches", "00"],
    ["branches", "0", "0"],
    ["closed-days", "1"],
    ["closed-days", "1", "2026-03-03"],
    ["closed-days", "1", "0", "0"],
    ["closed-days", "1", "-1"],
    ["closed-day", "1", "0"],
    ["kinds"],
    ["kinds", "4294967296"],
    ["kinds", "0", "0"],
    ["rules", "1"],
    ["rules", "1", "1", "0"],
    ["rules", "one", "0"],
    ["missing-copies"],
    ["missing-copies", "-1"],
    ["missing-copies", "0", "0"],
    ["missing-copy", "0"],
    ["loans", "10"],
    ["loans", "10", "01"],
    ["loans", "10", "0", "0"],
    ["copy-barcode", "10"],
    ["copy-barcode", "10", "A-1"],
    ["copy-barcode", "10", ""],
    ["copy-barcode", "10", "c 1"],
    ["copy-barcode", "10", "c1 "],
    ["copy-barcode", "10", "1" * 25],
    ["copy-barcode", "c1", "10"],
    ["copy-barcode", "010", "c1"],
    ["copy-barcode", "10", "c1", "c2"],
    ["patron-barcode", "1"],
    ["patron-barcode", "1", "p_1"],
    ["patron-barcode", "1", "\u00fc1"],
    ["drop-barcode"],
    ["drop-barcode", "c.1"],
    ["drop-barcode", "10", "c1"],
    ["charge", "1", "5", "1"],
    ["charge", "1", "05", "1", "Card"],
    ["charge", "1", "-5", "1", "Card"],
    ["charge", "1", "5", "1", ""],
    ["charge", "1", "5", "1", "Card "],
    ["charge", "1", "5", "1", "-Card"],
    ["charge", "1", "5", "1", "x" * 121],
    ["charge", "1", "5", "1", "Lost", "card"],
    ["pay-at", "1", "5"],
    ["pay-at", "1", "5", "one"],
    ["pay-at", "1", "5", "1", "Card"],
    ["find-barcode"],
    ["find-barcode", "1234567890123456789012345"],
    ["find-barcode", "c1", "0"],
    ["till-at", "1"],
    ["till-at", "1", "2026-3-3"],
    ["till-at", "1", "20514"],
    ["till-at", "1", "2026-03-02", "0"],
    ["till-at", "2026-03-02", "1"],
]


def a_new_library(folder):
    """A new file has the eighteen tables, their keys and indexes, and the first row of meta."""
    path = os.path.join(folder, "new.db")
    check("a new file", circ(["file", path, "g1", "week", "1", "ooooooo"]), ("refused 10", 2))
    check("meta", rows(path, "SELECT * FROM meta"), [(1, 4, 10957, 1, 1, 1)])
    tables = "SELECT name FROM sqlite_schema WHERE type = 'table' AND name NOT LIKE 'sqlite%' ORDER BY rowid"
    names = "meta branches closed_days kinds rules patrons titles copies loans holds transits lines kept holds2 rules3 loans3 barcodes notes"
    check("tables", [name for (name,) in rows(path, tables)], names.split())
    for name in names.split()[1:]:
        check(f"no row of {name}", rows(path, f"SELECT COUNT(*) FROM {name}"), [(0,)])
        check(f"no foreign key of {name}", rows(path, f"PRAGMA foreign_key_list({name})"), [])
    keys = {"closed_days": "branch day", "rules": "kind copy_kind", "rules3": "kind copy_kind",
            "kept": "caller key", "barcodes": "sort number"}
    for name in names.split():
        columns = rows(path, f"PRAGMA table_info({name})")
        first = " ".join(column[1] for column in columns if column[5])
        check(f"key of {name}", first, keys.get(name, columns[0][1]))
    unique = "SELECT name FROM pragma_index_list('transits') WHERE \"unique\" = 1 AND origin = 'u'"
    check("one UNIQUE", len(rows(path, unique)), 1)
    indexes = "SELECT name FROM sqlite_schema WHERE type = 'index' AND sql IS NOT NULL ORDER BY rowid"
    wanted = """loans_copy loans_patron holds_copy holds_patron holds_title holds_branch lines_day loans_branch holds2_copy holds2_patron
        holds2_title holds2_branch loans3_copy loans3_patron loans3_branch copies_title lines_patron holds2_state loans3_of_copy copies_condition barcodes_barcode notes_branch"""
    check("indexes", [name for (name,) in rows(path, indexes)], wanted.split())
    check("the index of a title's line", rows(path, "SELECT sql FROM sqlite_schema WHERE name = 'holds2_title'"),
          [("CREATE INDEX holds2_title ON holds2 (title, state, first_day, hold)",)])
    made = [text for (text,) in rows(path,
                                     "SELECT sql FROM sqlite_schema WHERE type = 'index' AND sql IS NOT NULL ORDER BY rowid")]
    check("the five indexes that came last in schema 3", made[-7:-2], LAST_INDEXES)
    check("the indexes of schema 4", made[-2:],
          ["CREATE INDEX barcodes_barcode ON barcodes (barcode)", "CREATE INDEX notes_branch ON notes (branch, line)"])
    empty = os.path.join(folder, "empty.db")
    open(empty, "w").close()
    say(empty, [("g1", ["begin-day", "2026-03-02"], "ok")])
    check("today", rows(empty, "SELECT today FROM meta"), [(20514,)])


def a_small_library(folder):
    """The fifteen requests of the ground, and lending with a repeated key."""
    path = os.path.join(folder, "town.db")
    say(path, GROUND)
    check("branches", rows(path, "SELECT * FROM branches"),
          [(1, 5, "ooooooc", "Main"), (2, 3, "coooooc", "Harbour")])
    check("kinds", rows(path, "SELECT * FROM kinds"), [(1, 5, 5, 500)])
    check("rules", rows(path, "SELECT * FROM rules3"), [(1, 1, 6, 1, 20, 100, 0), (1, 2, 12, 1, 20, 100, 0)])
    check("patrons", rows(path, "SELECT * FROM patrons"),
          [(1, 1, "cardkey00001", "Ann Bell", 0), (2, 1, "cardkey00002", "Bo Carr", 0),
           (3, 1, "cardkey00003", "Cy Dunn", 0)])
    check("titles", rows(path, "SELECT * FROM titles"),
          [(100, "Rivers of the North"), (200, "Salt Roads"), (300, "Night Ferries")])
    check("copies", rows(path, "SELECT * FROM copies"),
          [(10, 100, 1, 1, 2500, 0), (11, 100, 1, 1, 2500, 0), (20, 200, 1, 2, 1200, 0),
           (30, 300, 2, 1, 800, 0)])
    say(path, LENDING)
    check("loans", rows(path, "SELECT * FROM loans3"),
          [(1, 10, 1, 1, 20514, 20521, 6, 1, 20, 100, None, 0),
           (2, 11, 1, 1, 20514, 20521, 6, 1, 20, 100, None, 0)])
    check("meta", rows(path, "SELECT * FROM meta"), [(1, 4, 20514, 3, 1, 1)])
    check("kept", rows(path, "SELECT * FROM kept WHERE key IN ('g1', 'k1', 'k2') ORDER BY key"),
          [(0, "g1", "begin-day 2026-03-02", "ok"),
           (0, "k1", "check-out 1 10 1", "loan 1 due 2026-03-09"),
           (0, "k2", "check-out 1 11 1", "loan 2 due 2026-03-09")])
    check("kept in all", rows(path, "SELECT COUNT(*) FROM kept"), [(17,)])
    return path


def refusals_and_bad_words(path):
    """Each refusal, and each list of words that is not understood, changes no row."""
    before = whole(path)
    for at, (words, number) in enumerate(REFUSALS):
        check(f"{words}", circ(["file", path, f"r{at}", *words]), (f"refused {number}", 2))
    for words in BAD_REQUESTS:
        check(f"{words}", circ(["file", path, "b1", *words]), ("words not understood", 4))
    check("no row is changed", whole(path), before)


def refusals_of_other_rows(folder, path):
    """Check-out heeds rows that are written past the desk."""
    other = os.path.join(folder, "rows.db")
    shutil.copy(path, other)
    say(other, [
        ("o1", ["acquire", "50", "500", "3", "1", "100", "Old Maps"], "ok"),
        ("o2", ["check-out", "2", "50", "1"], "refused 16"),
        ("o3", ["kind", "1", "2", "5", "500"], "ok"),
        ("o4", ["acquire", "12", "101", "1", "1", "100", "Deep Water"], "ok"),
        ("o5", ["check-out", "1", "12", "1"], "refused 37"),
        ("o6", ["acquire", "13", "102", "1", "1", "100", "High Pastures"], "ok"),
        ("o7", ["acquire", "14", "103", "1", "1", "100", "Last Light"], "ok"),
        ("o8", ["acquire", "15", "103", "1", "1", "100", "Last Light"], "ok"),
    ])
    write(other,
          "UPDATE copies SET condition = 2 WHERE copy = 20",
          "UPDATE copies SET condition = 1 WHERE copy = 30",
          "INSERT INTO transits VALUES (12, 2, NULL)",
          "INSERT INTO holds2 VALUES (1, 3, 103, 1, 1, 14, 20519, NULL)",
          "INSERT INTO holds2 VALUES (2, 3, 102, 1, 0, NULL, NULL, NULL)",
          "INSERT INTO holds2 VALUES (3, 2, 103, 1, 0, NULL, NULL, NULL)",
          "INSERT INTO holds2 VALUES (4, 2, 103, 1, 0, NULL, NULL, NULL)")
    say(other, [
        ("p1", ["check-out", "2", "20", "2"], "refused 35"),
        ("p2", ["check-out", "2", "30", "1"], "refused 34"),
        ("p3", ["check-out", "2", "12", "1"], "refused 32"),
        ("p4", ["check-out", "2", "14", "1"], "refused 33"),
        ("p5", ["check-out", "2", "13", "1"], "refused 36"),
        ("p6", ["check-out", "2", "15", "1"], "refused 50"),
        ("p7", ["check-out", "3", "14", "1"], "loan 3 due 2026-03-09"),
        ("p8", ["check-out", "3", "13", "1"], "loan 4 due 2026-03-09"),
    ])
    check("filled holds", rows(other, "SELECT hold, state, copy, limit_day FROM holds2 WHERE patron = 3"),
          [(1, 2, None, None), (2, 2, None, None)])
    write(other, "DELETE FROM transits", "UPDATE patrons SET owed = 501", "UPDATE kinds SET loans = 5")
    say(other, [("q1", ["check-out", "1", "12", "1"], "refused 38")])
    write(other, "UPDATE patrons SET owed = 500", "UPDATE meta SET next_loan = 2147483648")
    say(other, [("q2", ["check-out", "1", "12", "1"], "refused 70")])


def lost_output(folder):
    """Where a line can't be written the status is 3, and what was handled stands."""
    path, copies = os.path.join(folder, "silent.db"), os.path.join(folder, "many.csv")
    say(path, GROUND)
    with open("/dev/full", "wb") as full:
        run = subprocess.run([CIRC, "file", path, "k1", "check-out", "1", "10", "1"], stdout=full, timeout=120)
    check("a full disk", run.returncode, 3)
    check("the loan stands", rows(path, "SELECT loan, copy FROM loans3"), [(1, 10)])
    say(path, [("k1", ["check-out", "1", "10", "1"], "loan 1 due 2026-03-09")])
    for words in (["report", path, "shelf", "1"], ["audit", path], ["file", path, "k2", "page", "1"], ["file"]):
        with open("/dev/full", "wb") as full:
            check(f"a full disk at {words[0]}", subprocess.run([CIRC, *words], stdout=full, timeout=120).returncode, 3)
    with open(copies, "w", encoding="utf-8") as file:
        file.write(HEADER + "".join(f"{1000 + n},{700 + n},Volume {n},1,1,100,end\n" for n in range(2000)))
    with open("/dev/full", "wb") as full:
        run = subprocess.run([CIRC, "import", path, copies], stdout=full, timeout=120)
    check("a full disk at the first row", run.returncode, 3)
    check("one row was handled", rows(path, "SELECT copy FROM copies WHERE copy >= 1000"), [(1000,)])
    # the reader goes after three lines; what ignores the signal sees the write fail. The pipe holds a part of the
    # lines, so some are written after that
    with subprocess.Popen([PROGRAM, "import", path, copies], stdout=subprocess.PIPE, bufsize=0, pipesize=4096, restore_signals=False) as run:
        lines = [run.stdout.readline() for _ in range(3)]
        run.stdout.close()
        status = run.wait(timeout=120)
    check("lines before the reader went", lines, [b"row 1 ok\n", b"row 2 ok\n", b"row 3 ok\n"])
    check("a pipe that is closed", status, 3)
    found = [copy for (copy,) in rows(path, "SELECT copy FROM copies WHERE copy >= 1000 ORDER BY copy")]
    check("a beginning of the rows", (found, 3 <= len(found) < 2000), (list(range(1000, 1000 + len(found))), True))
    check("the rest is taken in", take_in(path, copies), ("".join(f"row {n} ok\n" for n in range(1, 2001)) + "accepted 2000 refused 0\n", 0))


def two_at_once(folder):
    """While one run works on a file, another is told that it can't; nothing is lost."""
    path, copies = os.path.join(folder, "busy.db"), os.path.join(folder, "long.csv")
    say(path, GROUND)
    with open(copies, "w", encoding="utf-8") as file:
        file.write(HEADER + "".join(f"{1000 + n},{700 + n},Volume {n},1,1,100,end\n" for n in range(2000)))
    with subprocess.Popen([PROGRAM, "import", path, copies], stdout=subprocess.PIPE) as run:
        check("the first row", run.stdout.readline(), b"row 1 ok\n")
        # it stands still meanwhile, so that it isn't at its end
        run.send_signal(signal.SIGSTOP)
        try:
            for at in range(5):
                words = ["file", path, f"w{at}", "place-hold", "2", "100", "1"]
                other = subprocess.run([PROGRAM, *words], capture_output=True, timeout=120)
                check("the other run", (other.stdout, other.stderr, other.returncode), (b"fault 91\n", message(words, "fault 91\n", True), 3))
        finally:
            run.send_signal(signal.SIGCONT)
        rest = run.stdout.read().decode()
        check("the run at work", (run.wait(timeout=120), rest.endswith("accepted 2000 refused 0\n")), (0, True))
    check("nothing is lost", rows(path, "SELECT COUNT(*) FROM copies"), [(2004,)])


def bad_words(folder):
    """Words out of form are told before the file is opened: none is made."""
    path = os.path.join(folder, "never.db")
    for words in BAD_WORDS:
        named = [path.encode() if word == b"FILE" else path if word == "FILE" else word for word in words]
        check(f"{words}", circ(named), ("words not understood", 4))
        check(f"no file after {words}", os.path.exists(path), False)


def bad_files(folder, path):
    """A file that is no library of this schema is told as a fault, and stays as it is."""
    words = ["k9", "begin-day", "2026-03-03"]
    garbage = os.path.join(folder, "garbage.db")
    with open(garbage, "wb") as file:
        file.write(b"this is no database " * 500)
    before = digest(garbage)
    check("garbage", circ(["file", garbage, *words]), ("fault 91", 3))
    check("garbage stays", digest(garbage), before)
    other = os.path.join(folder, "other.db")
    write(other, "CREATE TABLE note (id INTEGER PRIMARY KEY, title TEXT)", "INSERT INTO note VALUES (1, 'mine')")
    check("another program's", circ(["file", other, *words]), ("fault 93", 3))
    check("it stays", whole(other), {"note": [(1, "mine")]})
    namesake = os.path.join(folder, "namesake.db")
    write(namesake, "CREATE TABLE meta (name TEXT)")
    check("another meta", circ(["file", namesake, *words]), ("fault 93", 3))
    later = os.path.join(folder, "later.db")
    shutil.copy(path, later)
    write(later, "UPDATE meta SET schema = 5")
    before = whole(later)
    check("a later schema", circ(["file", later, *words]), ("fault 93", 3))
    check("it stays", whole(later), before)
    check("a directory", circ(["file", folder, *words]), ("fault 91", 3))
    absent = os.path.join(folder, "no", "where.db")
    check("no such folder", circ(["file", absent, *words]), ("fault 91", 3))


def an_unreadable_file(folder, path):
    """A file that may not be read is told as a fault. The superuser may read all, so another user asks for one."""
    closed = os.path.join(folder, "closed.db")
    shutil.copy(path, closed)
    os.chmod(closed, 0)
    os.chmod(folder, 0o755)
    program = os.path.join(folder, "program")
    shutil.copy(PROGRAM, program)
    os.chmod(program, 0o755)
    run = subprocess.run([program, "file", closed, "k9", "begin-day", "2026-03-03"],
                         capture_output=True, timeout=120, user=None if os.getuid() else 65534, cwd="/")
    check("unreadable", (run.stdout, run.returncode), (b"fault 91\n", 3))


def main():
    with tempfile.TemporaryDirectory() as folder:
        part(a_new_library, folder)
        path = a_small_library(folder)
        part(refusals_and_bad_words, path)
        part(refusals_of_other_rows, folder, path)
        part(lost_output, folder)
        part(two_at_once, folder)
        part(bad_words, folder)
        part(bad_files, folder, path)
        part(an_unreadable_file, folder, path)


if __name__ == "__main__":
    run_script(main)
