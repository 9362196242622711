#!/usr/bin/env python3
"""`circ migrate` on libraries of schemas 1 to 3: what is carried over, what stays, and what is left where it meets
damage, a fault or a stop.

    tests/gate/migrate.py

The old libraries stand in tests/data as texts of SQL: the program made them when it had their schema, and stock SQLite
wrote them down (`sqlite3 FILE .dump`). Of each schema one is a new library; one is after the first requests of
tests/data/month.txt, as many as that schema knew (`KNOWN`); and one after the first `HALF` requests of the month and
those of patrons in `BY_PATRONS`, which came over the web: there are holds in every state, and copies that travel for
some. Those of schemas 2 and 3 have the requests of `FIRST_DAYS` too, so a hold with a first day is ready, one is
coming, one waits for its day and one is cancelled. What they hold is worked out here once more by the rules in plain
Python, and what each step of a migration has to leave follows from it: nothing here is taken from the program.
"""

import fcntl
import os
import pty
import random
import shutil
import signal
import sqlite3
import subprocess
import tempfile
import time
from contextlib import closing

from room import TOP
from lib import runs
from lib.checking import check, part, run_script
from lib.messages import DAMAGED_ROW, LATER, MEANINGS, OLDER, SCHEMA, as_it_is, is_held, message
from lib.runs import (
    CIRC, GROUND, HEADER, LAST_INDEXES, PROGRAM, ROOM, answers, circ, digest, kill_at_work, memory_of, month,
    rows, say,
    status_of, the_rows_are, timed, whole, write,
)
from lib.serving import DESK_KEY, Serving, by_patron, told
from reference.desk_rules import Library

NEW, HOLDS, MONTH = ([f"schema{schema}_{it}" for schema in (1, 2, 3)] for it in ("new", "holds", "month"))
HALF, KNOWN = 642, {1: 732, 2: 771, 3: 1150}
# What patrons asked for after these requests: the number of each, a key, and the words. One key is one that the desk
# used too.
BY_PATRONS = [
    (2, "h1", ["place-hold", "2", "1", "1"], "hold 63"),
    (12, "r1", ["renew", "75"], "loan 75 due 2026-04-25"),
    (12, "c1", ["cancel-hold", "61"], "ok"),
    (6, "m2", ["cancel-hold", "11"], "ok"),
    (6, "c2", ["cancel-hold", "58"], "refused 15"),
]
# What was asked after them of the libraries of schemas 2 and 3: by a patron or, for 0, by the desk.
FIRST_DAYS = [
    (0, "d1", ["place-hold-from", "5", "13", "3", "2026-03-31"], "hold 64"),
    (6, "d1", ["place-hold-from", "6", "13", "1", "2026-03-31"], "hold 65"),
    (0, "d2", ["place-hold-from", "14", "3", "2", "2026-04-15"], "hold 66"),
    (6, "d3", ["place-hold-from", "6", "3", "1", "2026-04-20"], "hold 67"),
    (6, "d4", ["cancel-hold", "67"], "ok"),
    (0, "d5", ["begin-day", "2026-03-31"], "ok"),
    (0, "d6", ["check-in", "131", "3"], "fine 0 ready 64 at 3 until 2026-03-31"),
    (0, "d7", ["acquire", "140", "13", "1", "2", "1800", "A Short History of Rain"], "ok"),
    (0, "d8", ["check-in", "140", "2"], "fine 0 transit 1 for 65"),
]
NEWEST = int(SCHEMA)
DONE = f"schema {NEWEST}"
# What each schema has in another table than the one before it: the old table, the new one, and the value of its last
# column in a row that is carried over.
MOVED = {2: [("holds", "holds2", None)], 3: [("rules", "rules3", 0), ("loans", "loans3", 0)], 4: []}
# The tables that each schema has beside these, which a migration makes empty.
MADE = {2: [], 3: [], 4: ["barcodes", "notes"]}


def old_library(name, path, journal="delete"):
    """The file of an old library, made of its text by stock SQLite."""
    with open(os.path.join(TOP, "tests", "data", f"{name}.sql"), encoding="utf-8") as file, closing(sqlite3.connect(path)) as conn:
        conn.executescript(file.read())
        conn.execute(f"PRAGMA journal_mode = {journal}")
    return path


def asked_after(name):
    """What was asked of an old library with holds after the beginning of the month."""
    return BY_PATRONS + (FIRST_DAYS if name != HOLDS[0] else [])


def handle_after(library, name):
    """Has the rules handle what was asked after the beginning of the month; that an unknown hold is told of another's
    is patrons' alone to be refused."""
    for patron, key, words, line in [it for it in asked_after(name) if it[-1] != "refused 15"]:
        check(f"{key} of {patron or 'the desk'}, by the rules", library.handle(key, words, caller=patron), line)


def known(name):
    """What the rules know of an old library."""
    library, requests = Library(), month()
    if name in NEW:
        return library
    for key, *words in requests[:HALF if name in HOLDS else KNOWN[MONTH.index(name) + 1]]:
        library.handle(key, words)
    if name in HOLDS:
        handle_after(library, name)
    return library


def named(tables, schema):
    """The tables with another schema in the row of `meta`."""
    return {**tables, "meta": [(row[0], schema, *row[2:]) for row in tables["meta"]]}


def schema_of(tables):
    return tables["meta"][0][1]


def older(tables, schema):
    """The tables of an older schema that are led to these of the newest: rows have no column more, and stand in the
    tables of before; what it had no table for is none."""
    for at in range(NEWEST, schema, -1):
        check(f"what schema {at} has tables for", [tables[name] for name in MADE[at]], [[] for _ in MADE[at]])
        tables = {name: found for name, found in tables.items() if name not in MADE[at]}
        for old, new, _ in MOVED[at]:
            tables = {**tables, old: [row[:-1] for row in tables[new]]}
            tables = {name: found for name, found in tables.items() if name != new}
    return named(tables, schema)


def led_on(tables):
    """The tables of the next schema to which these have to be led."""
    schema = schema_of(tables) + 1
    for old, new, value in MOVED[schema]:
        tables = {**tables, old: [], new: [(*row, value) for row in tables[old]]}
    return named({**tables, **{name: [] for name in MADE[schema]}}, schema)


def stages(tables):
    """These tables, and what each step of a migration has to leave of them, up to the newest schema."""
    found = [tables]
    while schema_of(found[-1]) < NEWEST:
        found.append(led_on(found[-1]))
    return found


def led_up(tables):
    """The tables of the newest schema to which these have to be led."""
    return stages(tables)[-1]


def texts_of(path):
    """What tables and indexes there are, each with its text."""
    return rows(path, "SELECT type, name, tbl_name, sql FROM sqlite_schema ORDER BY name")


def migrate(path, line=DONE):
    """One migration prints this line."""
    check(f"the migration of {path}", circ(["migrate", path]), (line, status_of(line)))


def is_migrated(path, before, what):
    """A migration leads these tables to the newest schema, and leaves a whole database; a second one changes
    nothing."""
    migrate(path)
    check(f"the rows of {what}", whole(path), led_up(before))
    check(f"stock SQLite finds no fault in {what}", rows(path, "PRAGMA integrity_check"), [("ok",)])
    kept = digest(path)
    migrate(path)
    check(f"the file of {what} after a second migration", (digest(path), has_log(path)), (kept, False))


def has_log(path):
    """Whether there is a page beside the file that isn't in it yet."""
    return os.path.exists(path + "-wal") and os.path.getsize(path + "-wal") > 512


def leaves(path, words, line, after):
    """A run prints this line, and leaves these rows."""
    check(f"{words} on {path}", circ(words), (line, status_of(line)))
    check(f"the rows after {words}", whole(path), after)


def leaves_and_says(path, words, line, after, said):
    """The same, and it says this of the file."""
    leaves(path, words, line, after)
    run = subprocess.run([PROGRAM, *words], capture_output=True, timeout=120, check=False)
    number = int(line.split()[-1])
    check(f"what is said of {words}", (run.stdout.decode(), run.stderr.decode()), (f"{line}\n", f"circ: {MEANINGS[number]}\ncirc: {path}: {said}\n"))
    check(f"the rows after {words} again", whole(path), after)


def old_libraries(folder):
    """Each old library, in both journal modes of stock SQLite: its rows are those of the rules; it is led to the
    newest schema, with the tables and indexes of a new library, and is sound."""
    new = os.path.join(folder, "new.db")
    say(new, [("g1", ["week", "1", "ooooooo"], "refused 10")])
    for name in (*NEW, *HOLDS, *MONTH):
        for journal in ("delete", "wal"):
            path = old_library(name, os.path.join(folder, f"{name}-{journal}.db"), journal)
            library, before = known(name), whole(path)
            check(f"the old rows of {name}", before, older(library.tables(), schema_of(before)))
            is_migrated(path, before, f"{name}, {journal}")
            check(f"the tables and indexes of {name}, {journal}", texts_of(path), texts_of(new))
            check(f"the audit of {name}", circ(["audit", path]), ("sound", 0))
            the_rows_are(path, library)
    for name, travelling in zip(HOLDS, (4, 5, 5)):
        path = os.path.join(folder, f"{name}-wal.db")
        states = {state for (state,) in rows(path, "SELECT state FROM holds2")}
        coming = rows(path, "SELECT COUNT(*) FROM transits WHERE hold IS NOT NULL")
        loans = rows(path, "SELECT SUM(ended IS NULL) > 5, SUM(ended IS NOT NULL) > 50 FROM loans3")
        check(f"holds in every state were carried over, and open and ended loans, {name}", (states, coming, loans), ({0, 1, 2, 3, 4}, [(travelling,)], [(1, 1)]))
        found = rows(path, "SELECT hold, state, copy, first_day FROM holds2 WHERE first_day IS NOT NULL ORDER BY hold")
        firsts = [(64, 1, 131, 20543), (65, 0, None, 20543), (66, 0, None, 20558), (67, 3, None, 20563)]
        check(f"first days were carried over, {name}", found, [] if name == HOLDS[0] else firsts)
    path = os.path.join(folder, f"{MONTH[2]}-wal.db")
    found = rows(path,
                 "SELECT COUNT(DISTINCT grace) > 1 FROM loans3 UNION ALL SELECT COUNT(DISTINCT grace) > 1 FROM rules3")
    check("grace days stay", found, [(1,), (1,)])


def absent_indexes(folder):
    """Of a library of schema 3 that was made before there were the five last indexes, or lacks some of them, those are
    made that it lacks; one to which they were added by hand keeps them. The words IF NOT EXISTS, by which an index was
    made, are no part of it."""
    new, names = os.path.join(folder, "new.db"), [text.split()[2] for text in LAST_INDEXES]
    say(new, [("g1", ["week", "1", "ooooooo"], "refused 10")])
    lacking = [names, *([name] for name in names), names[:3], names[3:], names[::2]]
    for at, absent in enumerate(lacking):
        path = old_library(MONTH[2], os.path.join(folder, f"lacking{at}.db"), ("delete", "wal")[at % 2])
        write(path, *(f"DROP INDEX {name}" for name in absent))
        is_migrated(path, whole(path), f"a library without {absent}")
        found = [(*it, sql and sql.replace(" IF NOT EXISTS", "")) for *it, sql in texts_of(path)]
        check(f"the tables and indexes of a library without {absent}", found, texts_of(new))
        the_rows_are(path, known(MONTH[2]))
    path = old_library(HOLDS[2], os.path.join(folder, "by_hand.db"))
    write(path, *(f"DROP INDEX {name}" for name in names), *LAST_INDEXES)
    is_migrated(path, whole(path), "a library with indexes made by hand")
    check("its tables and indexes", texts_of(path), texts_of(new))


def by_route(serving, patron, key, words):
    """What a patron is answered by the route for these words."""
    return serving.ask(*by_patron(patron, f"cardkey{patron:05}", key, words))[:2]


def the_rest_of_the_month(folder, name):
    """After the migration what was kept is answered under its keys, and the rest of the month is answered as the rules
    answer it, by words and over the web."""
    path, library, requests = old_library(name, os.path.join(folder, f"{name}.db")), known(name), month()
    migrate(path)
    kept = [(key, words) for key, *words in requests[:HALF] if (0, key) in library.kept]
    kept += [(key, words) for patron, key, words, _ in asked_after(name) if not patron]
    by_patrons = [it for it in asked_after(name) if it[0]]
    with Serving(path, len(kept) + 2 * len(by_patrons)) as serving:
        for key, words in kept:
            check(f"{key} {words} again", serving.desk(key, words), told(library.handle(key, words)))
        for patron, key, words, line in by_patrons:
            for again in (words, ["cancel-hold", "44"]):
                # a refusal isn't kept: hold 44 is another patron's, and so unknown to these
                wanted = line if again == words else "refused 15" if line.startswith("refused") else "refused 80"
                check(f"{key} {again} of patron {patron} again", by_route(serving, patron, key, again), told(wanted))
    the_rows_are(path, library)
    check("much was kept", len(kept) > 300, True)
    later = []
    for key, *words in requests[HALF:]:
        line = library.handle(key, words)
        check(f"{key} {words}", answers(path, key, words), (line + "\n", status_of(line)))
        later += [(key, words, line)] if (0, key) in library.kept else []
    check("more was kept", len(later) > 90, True)
    for key, words, line in later[::10]:
        check(f"{key} {words} again", answers(path, key, words), (line + "\n", status_of(line)))
        check(f"{key} for another", answers(path, key, ["withdraw", "999"]), ("refused 80\n", 2))
    the_rows_are(path, library)
    for branch in sorted(library.branches):
        check(f"the hold shelf of {branch}", runs.report(path, "shelf", str(branch)), (library.shelf(branch), 0))
        check(f"the overdue loans of {branch}", runs.report(path, "overdue", str(branch)), (library.overdue(branch), 0))


def are_answered(path, library, requests):
    """The requests are answered so by the rules and by the program, and lead to the same rows."""
    with Serving(path, len(requests)) as serving:
        for patron, key, words, line in requests:
            check(f"{key} {words}, by the rules", library.handle(key, words, caller=patron), line)
            found = by_route(serving, patron, key, words) if patron else serving.desk(key, words)
            check(f"{key} {words} of {patron}", found, told(line))
    the_rows_are(path, library)


# What is asked of the library with holds in every state after it was migrated: the patron who asks, or 0 for the desk,
# a key, the words and the answer. Two keys were kept before.
FROM_A_DAY_ON = [
    (0, "m1", ["begin-day", "2026-03-02"], "ok"),
    (0, "m1", ["place-hold-from", "5", "1", "3", "2026-04-02"], "refused 80"),
    (2, "h1", ["place-hold", "2", "1", "1"], "hold 63"),
    (2, "h1", ["place-hold-from", "2", "1", "1", "2026-04-02"], "refused 80"),
    (0, "f1", ["place-hold-from", "2", "1", "1", "2026-04-02"], "refused 50"),
    (0, "f1", ["place-hold-from", "5", "1", "3", "2026-04-02"], "hold 64"),
    (6, "f1", ["place-hold-from", "6", "8", "1", "2026-04-01"], "hold 65"),
    (0, "f2", ["page", "2"], "patron 2 owed 0 name Bo Dunn\nhold 37 at 3 waiting title 14 Lanterns\nhold 63 at 1 waiting title 1 Rivers of the North"),
    (0, "f2", ["page", "5"], "patron 5 owed 0 name Eva Grant\nhold 64 at 3 waiting from 2026-04-02 title 1 Rivers of the North"),
    # holds 44 and 63 were there before; Hill is open on Tuesdays, Thursdays and Saturdays, and keeps a copy no day
    # longer than today
    (0, "f3", ["unshelve-cancelled", "38"], "ready 44 at 3 until 2026-03-31"),
    (0, "f4", ["begin-day", "2026-04-01"], "ok"),
    (0, "f5", ["unshelve", "44"], "transit 1 for 63"),
    (2, "f6", ["cancel-hold", "63"], "ok"),
    (0, "f7", ["check-in", "104", "1"], "fine 0 transit 3"),
    (0, "f8", ["begin-day", "2026-04-02"], "ok"),
    (0, "f9", ["check-in", "104", "1"], "fine 0 transit 3 for 64"),
    (0, "g1", ["check-in", "104", "3"], "fine 0 ready 64 at 3 until 2026-04-02"),
    (0, "g2", ["check-out", "5", "104", "3"], "loan 77 due 2026-04-23"),
    (6, "f1", ["place-hold-from", "6", "8", "1", "2026-04-01"], "hold 65"),
]


def holds_from_a_day_on(folder):
    """A library that was migrated takes holds from a day on, beside the holds that it had, which have no first day."""
    path, library = old_library(HOLDS[0], os.path.join(folder, "from.db")), known(HOLDS[0])
    migrate(path)
    check("no first day is made up", rows(path, "SELECT DISTINCT first_day FROM holds2"), [(None,)])
    are_answered(path, library, FROM_A_DAY_ON)


# What is asked of a library with loans after it was migrated. Loan 76 was there before, and has no grace days, also
# once it is renewed; loan 77 is made under a rule with two.
WITH_GRACE = [
    (0, "m1", ["begin-day", "2026-03-02"], "ok"),
    (0, "m1", ["grace", "1", "1", "2"], "refused 80"),
    (0, "e1", ["grace", "1", "1", "2"], "ok"),
    (0, "e2", ["grace", "1", "3", "1"], "refused 16"),
    (12, "e1", ["renew", "76"], "loan 76 due 2026-04-27"),
    (0, "e4", ["acquire", "150", "150", "1", "1", "900", "Deep Water"], "ok"),
    (0, "e5", ["begin-day", "2026-04-01"], "ok"),
    (0, "e6", ["check-out", "15", "150", "1"], "loan 77 due 2026-04-15"),
    (0, "e7", ["begin-day", "2026-04-17"], "ok"),
    (0, "e8", ["check-in", "150", "1"], "fine 0 shelf 1"),
    (0, "e9", ["begin-day", "2026-04-29"], "ok"),
    (0, "f1", ["check-in", "132", "1"], "fine 40 shelf 1"),
    (0, "f2", ["page", "15"], "patron 15 owed 0 name Ole Grant"),
]


def grace_days(folder, name):
    """A library that was migrated takes grace days: the rules and loans that it had have none, and a loan that is made
    under a rule with some has them."""
    path, library = old_library(name, os.path.join(folder, f"{name}.db")), known(name)
    migrate(path)
    check("no grace days are made up", rows(path, "SELECT DISTINCT grace FROM rules3 UNION SELECT DISTINCT grace FROM loans3"), [(0,)])
    are_answered(path, library, WITH_GRACE)


# What is asked of a library with accounts after it was migrated. Patron 3 owes the price of line 16, and line 17 is the
# last that was made before.
LABELLED = [
    (0, "m1", ["begin-day", "2026-03-02"], "ok"),
    (0, "m1", ["drop-barcode", "1"], "refused 80"),
    (0, "l1", ["begin-day", "2026-04-01"], "ok"),
    (0, "l2", ["find-barcode", "30000100000101"], "refused 18"),
    (0, "l2", ["copy-barcode", "101", "30000100000101"], "ok"),
    (0, "l3", ["patron-barcode", "3", "30000100000101"], "refused 26"),
    (0, "l3", ["patron-barcode", "3", "20000000000003"], "ok"),
    (0, "l4", ["find-barcode", "30000100000101"], "copy 101"),
    (0, "l5", ["charge", "3", "250", "2", "Photocopies, 10 pages"], "owed 2050"),
    (0, "l6", ["pay-at", "3", "50", "1"], "owed 2000"),
    (0, "l7", ["pay", "3", "1000"], "owed 1000"),
    (0, "l8", ["account", "3", "16"],
     "patron 3 owed 1000 name Cy Elias\nline 18 2026-04-01 charge 250 at 2 for Photocopies, 10 pages\n"
     "line 19 2026-04-01 payment 50 at 1\nline 20 2026-04-01 payment 1000\nend"),
    (0, "l8", ["till-at", "1", "2026-04-01"],
     "till 2026-04-01 at 1\npayments              50\ncharges                0"),
    (0, "l8", ["till-at", "1", "2026-03-26"],
     "till 2026-03-26 at 1\npayments               0\ncharges                0"),
    (0, "l8", ["till", "2026-04-01"],
     "till 2026-04-01\nfines                  0\nprices                 0\npayments            1050\n"
     "waivers                0\ncharges              250"),
    (0, "l8", ["borrower", "3"], "patron 3 owed 1000 name Cy Elias\nkind 1\nbarcode 20000000000003"),
    (0, "l9", ["drop-barcode", "20000000000003"], "ok"),
    (0, "l9", ["borrower", "3"], "patron 3 owed 1000 name Cy Elias\nkind 1"),
    (0, "l2", ["copy-barcode", "101", "30000100000101"], "ok"),
]


def labels(folder, name):
    """A library that was migrated takes barcodes, charges and payments at counters: its copies and patrons have no
    barcode, and its lines no note."""
    path, library = old_library(name, os.path.join(folder, f"{name}.db")), known(name)
    migrate(path)
    check("no barcode and no note is made up",
          rows(path, "SELECT number FROM barcodes UNION ALL SELECT line FROM notes"), [])
    are_answered(path, library, LABELLED)


def on_a_terminal(folder):
    """A person at a terminal is told that the work has begun; elsewhere nothing is told but the line."""
    path = old_library(NEW[0], os.path.join(folder, "terminal.db"))
    ours, theirs = pty.openpty()
    try:
        run = subprocess.run([PROGRAM, "migrate", path], stdout=subprocess.PIPE, stderr=theirs, timeout=120, check=False)
        shown = os.read(ours, 1000).decode()
    finally:
        os.close(ours)
        os.close(theirs)
    check("what a terminal shows", shown, f"circ: {path}: the library is being brought to the newest schema\r\n")
    check("the line beside it", (run.stdout, run.returncode), (f"{DONE}\n".encode(), 0))
    run = subprocess.run([PROGRAM, "migrate", path], capture_output=True, timeout=120, check=False)
    check("what is told elsewhere", (run.stdout, run.stderr), (f"{DONE}\n".encode(), b""))


def other_runs(folder):
    """Every other run on an old library is told 93, and why, and leaves its bytes alone."""
    copies = os.path.join(folder, "copies.csv")
    with open(copies, "w", encoding="utf-8") as file:
        file.write(HEADER + "50,500,Maps,1,1,1500,end\n")
    for name in (*NEW, *HOLDS):
        for journal in ("delete", "wal"):
            path = old_library(name, os.path.join(folder, f"{name}-other-{journal}.db"), journal)
            before, kept = whole(path), digest(path)
            others = [["file", path, "m1", "begin-day", "2026-03-02"], ["file", path, "k1", "begin-day", "2026-06-01"], ["file", path, "k1", "page", "1"],
                      ["file", path, "k1", "place-hold", "1", "1", "1"], ["file", path, "k1", "grace", "1", "1", "2"], ["file", path, "k1", "help"], ["import", path, copies], ["import", path, os.path.join(folder, "absent.csv")],
                      ["report", path, "overdue", "1"], ["report", path, "till", "2026-03-02"], ["report", path, "shelf", "1"], ["audit", path],
                      ["serve", path, "1", "1", "1", DESK_KEY]]
            for words in others:
                leaves_and_says(path, words, "fault 93", before, OLDER)
                check(f"the file after {words[0]}", (digest(path), has_log(path)), (kept, False))
            is_migrated(path, before, f"{name}, {journal}, after other runs")


def no_library(folder):
    """Where there is no library no file is made, and what is there stays."""
    absent, empty, garbage, other = (os.path.join(folder, f"{it}.db") for it in ("absent", "empty", "garbage", "other"))
    open(empty, "w").close()
    with open(garbage, "wb") as file:
        file.write(b"this is no database " * 500)
    write(other, "CREATE TABLE note (id INTEGER PRIMARY KEY, title TEXT)", "INSERT INTO note VALUES (1, 'mine')")
    migrate(absent, "fault 93")
    check("none is made", [it for it in os.listdir(folder) if it.startswith("absent")], [])
    migrate(os.path.join(folder, "no", "where.db"), "fault 93")
    check("no folder is made", os.path.exists(os.path.join(folder, "no")), False)
    for path, line in ((empty, "fault 93"), (garbage, "fault 91"), (other, "fault 93")):
        before = digest(path)
        migrate(path, line)
        check(f"{path} stays", digest(path), before)
    migrate(folder, "fault 91")
    for words in (["migrate"], ["migrate", absent, "again"], ["migrates", absent]):
        check(f"{words[0]} with {len(words) - 1} words", circ(words), ("words not understood", 4))
    path = old_library(HOLDS[0], os.path.join(folder, "silent.db"))
    before = whole(path)
    with open("/dev/full", "wb") as full:
        check("a full disk for the line", subprocess.run([CIRC, "migrate", path], stdout=full, stderr=subprocess.DEVNULL, timeout=120, check=False).returncode, 3)
    check("the migration was made", whole(path), led_up(before))
    migrate(path)


# What is written into the row of `meta` of any schema past the desk, with which a library can't be led on.
META = ["UPDATE meta SET schema = 0", "UPDATE meta SET schema = -1", "UPDATE meta SET schema = 5",
        "UPDATE meta SET schema = 9", "UPDATE meta SET schema = 4294967295", "UPDATE meta SET schema = 4294967297",
        "UPDATE meta SET schema = -9223372036854775808", "INSERT INTO meta VALUES (2, 1, 20514, 1, 1, 1)", "DELETE FROM meta", "DROP TABLE meta", "UPDATE meta SET id = 2",
        "UPDATE meta SET today = 10956", "UPDATE meta SET today = 84006", "UPDATE meta SET next_loan = 0", "UPDATE meta SET next_hold = 0", "UPDATE meta SET next_line = 0",
        "UPDATE meta SET next_loan = 2147483649", "UPDATE meta SET next_hold = 2147483649", "UPDATE meta SET next_line = 2147483649"]
# The least and the greatest number that each column of a row that is carried over may have; and numbers past all of
# these, one of which would be 1 if it were cut to 32 bits.
NUMBER, LARGE, SMALL, DAY, PERIOD, RENEWALS, RATE, CAP = (1, 2_147_483_647), (1, 9_999_999), (1, 99), (10_957, 84_005), (1, 365), (0, 99), (0, 10_000), (0, 100_000)
LIMITS = {
    "holds": {"hold": NUMBER, "patron": LARGE, "title": LARGE, "branch": SMALL, "state": (0, 4), "copy": LARGE, "limit_day": DAY},
    "rules": {"kind": SMALL, "copy_kind": SMALL, "period": PERIOD, "renewals": RENEWALS, "rate": RATE, "cap": CAP},
    "loans": {"loan": NUMBER, "copy": LARGE, "patron": LARGE, "branch": SMALL, "made": DAY, "due": DAY, "period": PERIOD, "renewals_left": RENEWALS, "rate": RATE, "cap": CAP, "ended": DAY},
}
FAR = (-9_223_372_036_854_775_808, 9_223_372_036_854_775_807, -1, 4_294_967_297)
MANY = 2_345  # more holds, and more loans, than are read at once, twice


def with_many_rows(path, name=HOLDS[0]):
    """An old library with many holds more, half of which are cancelled, and half wait; and with many loans more, which
    ended."""
    old_library(name, path)
    with closing(sqlite3.connect(path)) as conn, conn:
        first, lent, schema = conn.execute("SELECT next_hold, next_loan, schema FROM meta").fetchone()
        numbers = range(first, first + MANY)
        conn.executemany("INSERT INTO patrons VALUES (?, 1, ?, 'A reader', 0)", ((1_000 + n, f"cardkey{n:05}") for n in numbers))
        holds = "holds VALUES (?, ?, 1, 1, ?, NULL, NULL)" if schema == 1 else "holds2 VALUES (?, ?, 1, 1, ?, NULL, NULL, NULL)"
        loans = "loans VALUES (?, 104, 1, 1, 20514, 20521, 6, 1, 20, 100, 20520)" if schema < 3 else "loans3 VALUES (?, 104, 1, 1, 20514, 20521, 6, 1, 20, 100, 20520, 2)"
        conn.executemany(f"INSERT INTO {holds}", ((n, 1_000 + n, n % 2 * 3) for n in numbers))
        conn.executemany(f"INSERT INTO {loans}", ((n,) for n in range(lent, lent + MANY)))
        conn.execute("UPDATE meta SET next_hold = ?, next_loan = ?", (first + MANY, lent + MANY))
    return path


def ends_of(path, table):
    """What tells the first row of a table and the last one."""
    keys = ("kind", "copy_kind") if table == "rules" else (table.rstrip("3")[:-1],)
    found = rows(path, f"SELECT {', '.join(keys)} FROM {table} ORDER BY 1, 2" if len(keys) > 1 else f"SELECT {keys[0]} FROM {table} ORDER BY 1")
    return [" AND ".join(f"{key} = {number}" for key, number in zip(keys, numbers)) for numbers in (found[0], found[-1])]


def is_at_fault(path, name, table):
    """A row of the table is damaged, which is told as 93: the step that would carry it over changes nothing, and one
    before it stands. So it is again at a second migration."""
    before = whole(path)
    after = led_on(before) if name == HOLDS[0] and table != "holds" else before
    for _ in range(2):
        leaves(path, ["migrate", path], "fault 93", after)


def damaged(folder, name):
    """A row of `meta` or of a table that is carried over that is damaged is told as 93, wherever it stands; one that
    is just within its limits is carried over as it is."""
    path, kept = os.path.join(folder, "damaged.db"), with_many_rows(os.path.join(folder, "kept.db"), name)
    # the step from schema 2 on is one and the same, so of a library of schema 1 one column of each of its tables is
    # enough; the step from schema 3 on carries no row over
    limits = {HOLDS[0]: {"holds": LIMITS["holds"], "rules": {"rate": RATE}, "loans": {"ended": DAY}},
              HOLDS[1]: {it: LIMITS[it] for it in ("rules", "loans")}, HOLDS[2]: {}}[name]
    for text in META:
        shutil.copy(kept, path)
        write(path, text)
        leaves(path, ["migrate", path], "fault 93", whole(path))
    for table, columns in limits.items():
        first, last = ends_of(kept, table)
        for column, (least, greatest) in columns.items():
            # each such number in one of the two rows, and those next to the limits in both
            for number, row in [(it, row) for it in (least - 1, greatest + 1) for row in (first, last)] + list(zip(FAR, (first, last) * 2)):
                shutil.copy(kept, path)
                write(path, f"UPDATE {table} SET {column} = {number} WHERE {row}")
                is_at_fault(path, name, table)
            for number, row in ((least, first), (least, last), (greatest, first), (greatest, last)):
                shutil.copy(kept, path)
                write(path, f"UPDATE OR REPLACE {table} SET {column} = {number} WHERE {row}")
                is_migrated(path, whole(path), f"{column} of {table} is {number}")
    # what is nobody's row is no damaged row: it is carried over, and the audit tells it as before
    shutil.copy(kept, path)
    loans = "loans3" if name == HOLDS[2] else "loans"
    write(path, f"UPDATE {loans} SET ended = NULL WHERE {ends_of(kept, loans)[1]}")
    is_migrated(path, whole(path), "a loan of a copy that is elsewhere")
    check("the audit of it", circ(["audit", path]), ("unsound claims 104", 2))


def damaged_and_mended(folder):
    """Of schema 1: a loan that is damaged stops the second step, so the library is of schema 2, which every other run
    tells; once it is mended the library is led on. A damaged hold stops the first step, whatever else is damaged."""
    path = with_many_rows(os.path.join(folder, "mended.db"))
    library, last = whole(path), ends_of(path, "loans")[1]
    write(path, f"UPDATE loans SET due = 84006 WHERE {last}")
    between = led_on(whole(path))
    leaves_and_says(path, ["migrate", path], "fault 93", between, DAMAGED_ROW)
    kept = digest(path)
    for words in (["audit", path], ["file", path, "k1", "page", "1"], ["report", path, "till", "2026-03-02"]):
        leaves_and_says(path, words, "fault 93", between, OLDER)
        check(f"the file after {words[0]}", (digest(path), has_log(path)), (kept, False))
    write(path, f"UPDATE loans SET due = 20521 WHERE {last}")
    check("what is mended", whole(path), led_on(library))
    is_migrated(path, library, "a library that was mended")
    path = with_many_rows(os.path.join(folder, "twice.db"))
    write(path, f"UPDATE loans SET due = 84006 WHERE {last}", "UPDATE holds SET state = 5 WHERE hold = (SELECT max(hold) FROM holds)")
    leaves_and_says(path, ["migrate", path], "fault 93", whole(path), DAMAGED_ROW)
    # a row of a table that no step looks at stays as it is, and is told by the audit
    for name in HOLDS[1:]:
        path = with_many_rows(os.path.join(folder, f"{name}-others.db"), name)
        write(path, "UPDATE holds2 SET state = 5 WHERE hold = 64", "UPDATE patrons SET owed = -1 WHERE patron = 3")
        is_migrated(path, whole(path), f"a damaged row of another table, {name}")
        check("the audit of it", circ(["audit", path]), ("fault 93", 3))


# What is done to the tables of a library, what its migration prints, and how many steps it made before.
OTHER_TABLES = {
    HOLDS[0]: [
        ("DROP TABLE holds", "fault 91", 0), ("CREATE TABLE holds2 (hold INTEGER PRIMARY KEY, patron INTEGER)", "fault 91", 0), ("ALTER TABLE holds ADD COLUMN more INTEGER", "fault 93", 0),
        ("DROP TABLE loans", "fault 91", 1), ("DROP TABLE rules", "fault 91", 1), ("CREATE TABLE loans3 (loan INTEGER PRIMARY KEY, copy INTEGER)", "fault 91", 1),
        ("ALTER TABLE loans ADD COLUMN more INTEGER", "fault 93", 1),
        ("CREATE TABLE more (n INTEGER PRIMARY KEY, text TEXT)", DONE, 3), ("DROP INDEX holds_copy", DONE, 3),
        ("CREATE TABLE barcodes (sort INTEGER, number INTEGER)", "fault 91", 2),
    ],
    HOLDS[1]: [
        ("DROP TABLE loans", "fault 91", 0), ("DROP TABLE rules", "fault 91", 0), ("CREATE TABLE rules3 (kind INTEGER PRIMARY KEY, copy_kind INTEGER)", "fault 91", 0),
        ("ALTER TABLE rules ADD COLUMN more INTEGER", "fault 93", 0),
        ("ALTER TABLE loans ADD COLUMN more INTEGER", "fault 93", 0), ("DROP INDEX loans_copy", DONE, 2),
        ("CREATE TABLE notes (line INTEGER PRIMARY KEY, text TEXT)", "fault 91", 1),
    ],
    HOLDS[2]: [
        ("CREATE TABLE barcodes (sort INTEGER, number INTEGER)", "fault 91", 0),
        ("CREATE TABLE notes (line INTEGER PRIMARY KEY, text TEXT)", "fault 91", 0),
        ("CREATE VIEW barcodes AS SELECT patron FROM patrons", "fault 91", 0),
        ("CREATE INDEX barcodes_barcode ON copies (title)", "fault 91", 0),
        ("CREATE INDEX notes_branch ON lines (day)", "fault 91", 0),
        ("DROP TABLE copies", "fault 91", 0), ("DROP TABLE lines", "fault 91", 0),
        ("DROP TABLE holds2", "fault 91", 0), ("DROP TABLE loans3", "fault 91", 0),
        ("DROP INDEX loans3_copy", DONE, 1), ("CREATE TABLE more (n INTEGER PRIMARY KEY, text TEXT)", DONE, 1),
    ],
}


def other_tables(folder, name):
    """Where the tables aren't those of a library the database refuses a call, which is told as 91, or nothing is known
    of a schema; the step that meets it changes no row."""
    for at, (text, line, steps) in enumerate(OTHER_TABLES[name]):
        path = old_library(name, os.path.join(folder, f"tables{at}.db"))
        write(path, text)
        before, texts = whole(path), texts_of(path)
        migrate(path, line)
        for _ in range(steps):
            before = led_on(before)
        # a step makes tables
        check(f"the rows after {text}, and whether the tables are as they were", (whole(path), texts_of(path) == texts), (before, steps == 0))


def later(folder):
    """A library of a later schema isn't led back."""
    path = os.path.join(folder, "later.db")
    say(path, GROUND)
    write(path, f"UPDATE meta SET schema = {NEWEST + 1}")
    before, kept = whole(path), digest(path)
    leaves_and_says(path, ["migrate", path], "fault 93", before, LATER)
    check("its file", digest(path), kept)


TRIES = 50  # so many migrations are stopped at most while they are at work, until three were met there


def held(folder):
    """While another process has the file it is told 91, and nothing is changed: one with the lock alone, one that
    serves, and one that is at a migration."""
    path = old_library(HOLDS[0], os.path.join(folder, "held.db"))
    before = whole(path)

    def is_refused(words):
        other = subprocess.run([PROGRAM, *words], capture_output=True, timeout=120, check=False)
        check(f"{words[0]} on a file that is held", (other.stdout, other.stderr, other.returncode), (b"fault 91\n", message(words, "fault 91\n", True), 3))

    kept = digest(path)
    for words in (["migrate", path], ["audit", path]):
        # the lock is let go as soon as this process closes the file anywhere, so each run has one of its own
        with open(path, "rb+") as file:
            fcntl.lockf(file, fcntl.LOCK_EX | fcntl.LOCK_NB, 512, 1 << 30)
            is_refused(words)
    check("the file stays", digest(path), kept)
    is_migrated(path, before, "a file that was held")
    after = whole(path)
    with Serving(path, 1) as serving:
        is_refused(["migrate", path])
        check("it serves on", serving.desk("z", ["withdraw", "999"])[0], 409)
    check("the rows stay", whole(path), after)
    large = with_many_rows(os.path.join(folder, "large.db"))
    before = whole(large)
    _, took = timed(lambda: migrate(shutil.copy(large, large + ".timed")))
    met = 0
    for at in range(TRIES):
        if met == 3:
            break
        busy = shutil.copy(large, os.path.join(folder, f"busy{at}.db"))
        with subprocess.Popen([PROGRAM, "migrate", busy], stdout=subprocess.PIPE, stderr=subprocess.DEVNULL) as run:
            time.sleep(took * (at % 10 + 1) / 11)
            # it stands still meanwhile, so that it isn't at its end
            run.send_signal(signal.SIGSTOP)
            try:
                if run.poll() is None and is_held(busy):
                    is_refused(["migrate", busy])
                    is_refused(["file", busy, "k1", "page", "1"])
                    met += 1
            finally:
                run.send_signal(signal.SIGCONT)
            check("the migration at work", (run.stdout.read(), run.wait(timeout=120)), (f"{DONE}\n".encode(), 0))
        check("its rows", whole(busy), led_up(before))
    check("migrations at work were met", met, 3)


KILLS, LEAST = 1_200, 40  # so many libraries at most, and at least, have their migrations killed, until kills hit before and after the end of each transaction


def killed(folder, name):
    """A migration is killed at a random moment: the rows are the old ones, or those that a step leaves. It is run
    again until it is done."""
    seed, base, path = random.randrange(10**9), with_many_rows(os.path.join(folder, "base.db"), name), os.path.join(folder, "killed.db")
    print(f"migrate: moments of kills by the seed {seed}")
    each = stages(whole(base))
    after = each[-1]
    moments, hits = random.Random(seed), {schema_of(it): 0 for it in each}
    took = max(timed(lambda: migrate(shutil.copy(base, os.path.join(folder, "calm.db"))))[1] for _ in range(3))
    for at in range(KILLS):
        if at >= LEAST and min(hits.values()) >= 3:
            break
        for end in ("-wal", "-shm"):
            if os.path.exists(path + end):
                os.remove(path + end)
        shutil.copy(base, path)
        before, found = 0, each[0]
        while found != after and moments.random() < 0.8:
            # half of the kills are at the end, where the last transaction is over and the log is copied into the file
            printed, hit = kill_at_work(["migrate", path], moments.uniform(0.7 * took * (moments.random() < 0.5), 1.1 * took))
            with as_it_is(path) as copied:
                found = whole(copied)
                check(f"stock SQLite finds no fault after a kill, seed {seed}", rows(copied, "PRAGMA integrity_check"), [("ok",)])
            check(f"the rows after a kill, seed {seed}", found in each[before:], True)
            check(f"what was told is there, seed {seed}", (printed, found == after) in (("", False), ("", True), (f"{DONE}\n", True)), True)
            before = each.index(found)
            if hit:
                hits[schema_of(found)] += 1
        migrate(path)
        check(f"the rows after kills, seed {seed}", whole(path), after)
    print("migrate: " + ", ".join(f"{many} kills left schema {schema}" for schema, many in hits.items()))
    check(f"kills hit before and after the end of each transaction, seed {seed}", min(hits.values()) > 0, True)


COPIES, HELD, LENT = 100_000, 5_000, 20_000


def a_large_library(folder):
    """A library of 100,000 copies, and some thousands of holds and loans, is led on in about the memory that opening
    it takes, and then is sound."""
    path, out = old_library(NEW[0], os.path.join(folder, "grown.db")), os.path.join(folder, "grown.txt")
    with closing(sqlite3.connect(path)) as conn, conn:
        each, holds = range(1, COPIES + 1), range(1, HELD + 1)
        conn.execute("INSERT INTO branches VALUES (1, 5, 'ooooooc', 'Main')")
        conn.execute("INSERT INTO kinds VALUES (1, 200, 200, 0)")
        conn.executemany("INSERT INTO patrons VALUES (?, 1, ?, ?, 0)", ((n, f"card{n:08}", f"Reader {n}") for n in holds))
        conn.executemany("INSERT INTO titles VALUES (?, ?)", ((n, f"A title of number {n}") for n in each))
        conn.executemany("INSERT INTO copies VALUES (?, ?, 1, 1, 2500, 0)", ((n, n) for n in each))
        # in turn: waiting, ready, filled, cancelled, expired, and waiting while a copy travels for it
        state = lambda n: (0, 1, 2, 3, 4, 0)[n % 6]
        conn.executemany("INSERT INTO holds VALUES (?, ?, ?, 1, ?, ?, ?)", ((n, n, n, state(n), *((n, 20_520) if state(n) == 1 else (None, None))) for n in holds))
        conn.executemany("INSERT INTO transits VALUES (?, 1, ?)", ((n, n) for n in holds if n % 6 == 5))
        conn.executemany("INSERT INTO kept VALUES (0, ?, ?, 'ok')", ((f"k{n}", f"acquire {n} {n} 1 1 2500 A title of number {n}") for n in each))
        conn.executemany("INSERT INTO loans VALUES (?, ?, 1, 1, 20514, 20521, 6, 1, 20, 100, 20520)", ((n, n) for n in range(1, LENT + 1)))
        conn.execute("UPDATE meta SET next_hold = ?, next_loan = ?", (HELD + 1, LENT + 1))
    before = whole(path)
    opened = shutil.copy(path, os.path.join(folder, "opened.db"))
    migrate(opened)
    least, status = memory_of(["report", opened, "till", "2026-03-02"], out)
    check("a report of the same library", status, 0)
    most, status = memory_of(["migrate", path], out)
    with open(out, encoding="utf-8") as file:
        check("the migration of a large library", (file.read(), status), (f"{DONE}\n", 0))
    check("its rows", whole(path), led_up(before))
    check("its audit", circ(["audit", path]), ("sound", 0))
    print(f"migrate: {COPIES} copies, {HELD} holds and {LENT} loans: {most} KiB for the migration, {least} KiB for opening the library")
    check(f"{most - least} KiB more than opening, of {ROOM}", most - least < ROOM, True)


def main():
    of_each = [(work, name) for work in (the_rest_of_the_month, grace_days, labels, damaged, other_tables,
                                         killed) for name in HOLDS]
    for work, *name in [(old_libraries,), (absent_indexes,), (holds_from_a_day_on,), (on_a_terminal,),
                        (other_runs,), (no_library,), (damaged_and_mended,), (later,), (held,), (a_large_library,),
                        *of_each]:
        with tempfile.TemporaryDirectory() as folder:
            part(work, folder, *name)


if __name__ == "__main__":
    run_script(main)
