#!/usr/bin/env python3
"""`circ audit` on libraries that the program made, and on the same with rows that stock SQLite wrote past the desk.

    tests/gate/audit.py            all of it
    tests/gate/audit.py SEED       the random damage by that seed

The laws stand below once more in plain Python, written from docs/RULES.md (`findings_of`), which finds all that breaks
them. The damage of `DAMAGE` has answers that were worked out by hand, and one damage at least for each case of each
law, and so has that of `SEVERAL`, for the audit that goes on to all findings; the random damage is compared with
`findings_of` alone.
"""

import os
import random
import shutil
import sqlite3
import subprocess
import sys
import tempfile
from collections import Counter
from concurrent.futures import ThreadPoolExecutor
from contextlib import closing

from room import TOP
from lib.checking import check, part, run_script
from lib.messages import message
from lib.runs import CIRC, GROUND, circ, digest, memory_of, rows, say, whole, write

# After the small library: a loan that ended with a fine, which was paid and waived in part, a copy on loan, one that
# is lost, one that travels for a hold, one that stands ready for another, a hold that waits, and one from a day on.
# Days: 2026-03-17 is 20529, 2026-03-23 is 20535, 2026-04-01 is 20544.
BUSY = [
    ("a1", ["check-out", "1", "11", "1"], "loan 1 due 2026-03-09"),
    ("a2", ["begin-day", "2026-03-17"], "ok"),
    ("a3", ["check-in", "11", "1"], "fine 100 shelf 1"),
    ("a4", ["pay", "1", "30"], "owed 70"),
    ("a5", ["waive", "1", "20"], "owed 50"),
    ("a6", ["check-out", "1", "10", "1"], "loan 2 due 2026-03-23"),
    ("a7", ["missing", "11"], "ok"),
    ("a8", ["place-hold", "2", "200", "1"], "hold 1"),
    ("a9", ["check-in", "20", "2"], "fine 0 transit 1 for 1"),
    ("b1", ["place-hold", "3", "300", "1"], "hold 2"),
    ("b2", ["check-in", "30", "1"], "fine 0 ready 2 at 1 until 2026-03-23"),
    ("b3", ["place-hold", "2", "300", "2"], "hold 3"),
    ("b4", ["acquire", "40", "400", "1", "1", "900", "High Pastures"], "ok"),
    ("b5", ["place-hold-from", "1", "400", "1", "2026-04-01"], "hold 4"),
]

# After the small library: a charge, a payment at a counter, and barcodes.
CHARGED = [
    ("a1", ["charge", "2", "250", "1", "Photocopies, 10 pages"], "owed 250"),
    ("a2", ["pay-at", "2", "50", "2"], "owed 200"),
    ("a3", ["copy-barcode", "10", "30000100000010"], "ok"),
    ("a4", ["patron-barcode", "1", "01"], "ok"),
]

# Rows in the tables of older schemas, which stand empty in the newest.
OLD_RULE = "INSERT INTO rules VALUES ({}, {}, 6, 1, 20, 100)"
OLD_LOAN = "INSERT INTO loans VALUES ({}, 10, 1, 1, 20514, 20521, 6, 1, 20, 100, 20520)"
OLD_HOLD = "INSERT INTO holds VALUES ({}, 1, 100, 1, 3, NULL, NULL)"

# What is written into the small library, and the line of its audit.
ON_THE_GROUND = [
    ([], "sound"),
    (["UPDATE copies SET condition = 1 WHERE copy = 20", "INSERT INTO transits VALUES (20, 1, NULL)"], "unsound claims 20"),
    (["INSERT INTO holds2 VALUES (1, 2, 100, 1, 1, 10, NULL, NULL)", "UPDATE meta SET next_hold = 2"], "unsound binding 1"),
    (["UPDATE patrons SET owed = 1 WHERE patron = 2"], "unsound balance 2"),
    ([OLD_RULE.format(1, 2)], "unsound numbers rules 2"),
    ([OLD_LOAN.format(7)], "unsound numbers loans 7"),
    ([OLD_HOLD.format(3)], "unsound numbers holds 3"),
]

CLOSED = "INSERT INTO closed_days VALUES ({}, {})"
BARCODE = "INSERT INTO barcodes VALUES ({}, {}, '{}')"
PATRON = "INSERT INTO patrons VALUES ({}, 1, 'cardkey00009', 'Ann', 0)"
KEPT = "INSERT INTO kept VALUES ({}, '{}', 'cancel-hold 3', 'ok')"
LOAN = "INSERT INTO loans3 VALUES ({}, {}, 1, 1, 20529, 20535, 6, 1, 20, 100, NULL, 0)"

# What is written into the busy library, and the line of its audit.
DAMAGE = [
    ([], "sound"),
    # two claims on a copy: of two kinds, each two of them, and of one kind
    (["UPDATE copies SET condition = 1 WHERE copy = 10"], "unsound claims 10"),
    (["UPDATE copies SET condition = 2 WHERE copy = 10"], "unsound claims 10"),
    (["INSERT INTO transits VALUES (10, 1, NULL)"], "unsound claims 10"),
    (["UPDATE holds2 SET copy = 10 WHERE hold = 2"], "unsound claims 10"),
    (["UPDATE copies SET condition = 2 WHERE copy = 20"], "unsound claims 20"),
    (["INSERT INTO transits VALUES (30, 2, NULL)"], "unsound claims 30"),
    (["UPDATE copies SET condition = 1 WHERE copy = 30"], "unsound claims 30"),
    ([LOAN.format(3, 10)], "unsound claims 10"),
    (["UPDATE holds2 SET state = 1, copy = 30, limit_day = 20535 WHERE hold = 3"], "unsound claims 30"),
    # an ended loan claims nothing until it is open again
    (["UPDATE loans3 SET ended = NULL WHERE loan = 1"], "unsound claims 11"),
    (["UPDATE loans3 SET copy = 10 WHERE loan = 1"], "sound"),
    (["UPDATE copies SET condition = 0 WHERE copy = 11"], "sound"),
    # the least number is told, on whatever page of numbers it stands, and a copy needs no row for it
    (["UPDATE copies SET condition = 1 WHERE copy IN (10, 20, 30)"], "unsound claims 10"),
    ([LOAN.format(3, 9999999), LOAN.format(4, 9999999)], "unsound claims 9999999"),
    ([LOAN.format(3, 65536), LOAN.format(4, 131071), LOAN.format(5, 131071)], "unsound claims 131071"),
    ([LOAN.format(3, 65536), LOAN.format(4, 65536), LOAN.format(5, 65535), LOAN.format(6, 65535)], "unsound claims 65535"),
    ([LOAN.format(3, 65535), LOAN.format(4, 65536), LOAN.format(5, 131072)], "unsound reference loans3 3"),
    # a ready hold lacks its copy or its limit
    (["UPDATE holds2 SET limit_day = NULL WHERE hold = 2"], "unsound binding 2"),
    (["UPDATE holds2 SET copy = NULL WHERE hold = 2"], "unsound binding 2"),
    # one that isn't ready has either
    (["UPDATE holds2 SET copy = 40 WHERE hold = 3"], "unsound binding 3"),
    (["UPDATE holds2 SET limit_day = 20535 WHERE hold = 3"], "unsound binding 3"),
    (["UPDATE holds2 SET state = 2 WHERE hold = 2"], "unsound binding 2"),
    (["UPDATE holds2 SET state = 4, copy = NULL WHERE hold = 2"], "unsound binding 2"),
    # a transit names a hold that has no row, that isn't waiting, or that is picked up elsewhere
    (["UPDATE transits SET hold = 9 WHERE copy = 20"], "unsound binding 9"),
    (["UPDATE holds2 SET state = 3 WHERE hold = 1"], "unsound binding 1"),
    (["UPDATE transits SET goal = 2 WHERE copy = 20"], "unsound binding 1"),
    (["UPDATE holds2 SET branch = 2 WHERE hold = 1"], "unsound binding 1"),
    # the copy of a hold has no row, or is of another title
    (["UPDATE holds2 SET copy = 99 WHERE hold = 2"], "unsound binding 2"),
    (["UPDATE holds2 SET copy = 40 WHERE hold = 2"], "unsound binding 2"),
    (["UPDATE holds2 SET title = 400 WHERE hold = 2"], "unsound binding 2"),
    (["UPDATE transits SET copy = 99 WHERE copy = 20"], "unsound binding 1"),
    (["UPDATE transits SET copy = 40 WHERE copy = 20"], "unsound binding 1"),
    (["UPDATE copies SET title = 400 WHERE copy = 20"], "unsound binding 1"),
    # a transit for no hold is none of its, and a hold that is cancelled may be without any
    (["UPDATE transits SET hold = NULL WHERE copy = 20"], "sound"),
    (["UPDATE holds2 SET state = 3 WHERE hold = 3"], "sound"),
    # no law looks at grace days, nor at what a fine was
    (["UPDATE rules3 SET grace = 365", "UPDATE loans3 SET grace = 365"], "sound"),
    # a first day binds nothing: any hold may have one, or none
    (["UPDATE holds2 SET first_day = NULL WHERE hold = 4"], "sound"),
    (["UPDATE holds2 SET first_day = 20544"], "sound"),
    (["UPDATE holds2 SET state = 1, copy = 40, limit_day = 20549 WHERE hold = 4"], "sound"),
    (["INSERT INTO transits VALUES (40, 1, 4)"], "sound"),
    (["INSERT INTO transits VALUES (40, 2, 4)"], "unsound binding 4"),
    (["UPDATE holds2 SET state = 1 WHERE hold = 4"], "unsound binding 4"),
    (["UPDATE holds2 SET copy = 40 WHERE hold = 4"], "unsound binding 4"),
    # the least hold is told
    (["UPDATE holds2 SET limit_day = NULL WHERE hold = 2", "UPDATE transits SET goal = 2 WHERE copy = 20"], "unsound binding 1"),
    (["UPDATE holds2 SET limit_day = NULL WHERE hold = 2", "UPDATE holds2 SET copy = 40 WHERE hold = 3"], "unsound binding 2"),
    (["INSERT INTO transits VALUES (40, 1, 2147483647)"], "unsound binding 2147483647"),
    # what is owed isn't the fines, prices and charges less the payments and waivers
    (["UPDATE patrons SET owed = 51 WHERE patron = 1"], "unsound balance 1"),
    (["UPDATE patrons SET owed = 70 WHERE patron = 1"], "unsound balance 1"),
    (["UPDATE patrons SET owed = 1 WHERE patron = 3"], "unsound balance 3"),
    (["UPDATE lines SET amount = 101 WHERE sort = 0"], "unsound balance 1"),
    (["UPDATE lines SET amount = 31 WHERE sort = 2"], "unsound balance 1"),
    (["UPDATE lines SET amount = 19 WHERE sort = 3"], "unsound balance 1"),
    (["UPDATE lines SET sort = 1 WHERE sort = 0"], "sound"),
    (["UPDATE lines SET sort = 3 WHERE sort = 2"], "sound"),
    (["INSERT INTO lines VALUES (4, 3, 20529, 1, 2500, 1)"], "unsound balance 3"),
    (["INSERT INTO lines VALUES (4, 3, 20529, 2, 5, NULL)"], "unsound balance 3"),
    (["DELETE FROM lines WHERE sort = 3"], "unsound balance 1"),
    (["UPDATE lines SET patron = 3 WHERE sort = 2", "UPDATE patrons SET owed = 80 WHERE patron = 1"], "unsound balance 3"),
    (["UPDATE lines SET patron = 2", "UPDATE patrons SET owed = 0 WHERE patron = 1", "UPDATE patrons SET owed = 50 WHERE patron = 2"], "sound"),
    (["INSERT INTO lines VALUES (4, 9, 20529, 0, 5, 1)"], "unsound reference lines 4"),
    (["INSERT INTO patrons VALUES (9999999, 1, 'cardkey09999', 'Zed', 7)"], "unsound balance 9999999"),
    (["INSERT INTO patrons VALUES (65536, 1, 'cardkey65536', 'Yan', 5)", "INSERT INTO lines VALUES (4, 65536, 20529, 0, 5, 1)",
      "INSERT INTO patrons VALUES (131072, 1, 'cardkey13107', 'Wim', 1)"], "unsound balance 131072"),
    # claims come before bindings, and these before balances
    (["UPDATE copies SET condition = 1 WHERE copy = 30", "UPDATE holds2 SET limit_day = NULL WHERE hold = 2", "UPDATE patrons SET owed = 0"], "unsound claims 30"),
    (["UPDATE holds2 SET copy = 40 WHERE hold = 3", "UPDATE patrons SET owed = 0"], "unsound binding 3"),
    # each column names a row that isn't there: of a table that is read first, and the least of its rows
    ([CLOSED.format(9, 20600)], "unsound reference closed_days 20600"),
    ([CLOSED.format(8, 20700), CLOSED.format(9, 20600)], "unsound reference closed_days 20600"),
    (["UPDATE rules3 SET kind = 9 WHERE copy_kind = 2"], "unsound reference rules3 2"),
    (["DELETE FROM kinds"], "unsound reference rules3 1"),
    (["UPDATE patrons SET kind = 9 WHERE patron = 3"], "unsound reference patrons 3"),
    (["UPDATE patrons SET kind = 9"], "unsound reference patrons 1"),
    (["UPDATE copies SET title = 999 WHERE copy = 40"], "unsound reference copies 40"),
    (["DELETE FROM titles WHERE title = 400"], "unsound reference copies 40"),
    (["UPDATE copies SET home = 9 WHERE copy = 40"], "unsound reference copies 40"),
    (["DELETE FROM branches"], "unsound reference copies 10"),
    (["UPDATE loans3 SET copy = 99 WHERE loan = 1"], "unsound reference loans3 1"),
    (["UPDATE loans3 SET patron = 9 WHERE loan = 2"], "unsound reference loans3 2"),
    (["UPDATE loans3 SET branch = 9 WHERE loan = 2"], "unsound reference loans3 2"),
    (["UPDATE loans3 SET patron = 9, branch = 9"], "unsound reference loans3 1"),
    (["UPDATE holds2 SET patron = 9 WHERE hold = 4"], "unsound reference holds2 4"),
    (["UPDATE holds2 SET title = 999 WHERE hold = 4"], "unsound reference holds2 4"),
    (["UPDATE holds2 SET branch = 9 WHERE hold = 4"], "unsound reference holds2 4"),
    (["INSERT INTO transits VALUES (40, 9, NULL)"], "unsound reference transits 40"),
    (["INSERT INTO transits VALUES (99, 1, NULL)"], "unsound reference transits 99"),
    (["UPDATE lines SET loan = 9 WHERE sort = 0"], "unsound reference lines 1"),
    (["UPDATE lines SET patron = 9", "UPDATE patrons SET owed = 0"], "unsound reference lines 1"),
    # the desk is no patron, and one patron's requests are told once; the least patron is told
    ([KEPT.format(9, "k1")], "unsound reference kept 9"),
    ([KEPT.format(3, "k1"), KEPT.format(3, "k2"), KEPT.format(2, "k1")], "sound"),
    ([KEPT.format(9, "k1"), KEPT.format(8, "k3"), KEPT.format(8, "k2"), KEPT.format(1, "k4")],
     "unsound reference kept 8"),
    (["UPDATE kept SET caller = 9 WHERE key = 'a1'"], "unsound reference kept 9"),
    (["UPDATE kept SET caller = 9"], "unsound reference kept 9"),
    (["UPDATE kept SET caller = 3"], "sound"),
    ([PATRON.format(7), KEPT.format(7, "k1")], "sound"),
    ([PATRON.format(7), KEPT.format(7, "k1"), "DELETE FROM patrons WHERE patron = 7"], "unsound reference kept 7"),
    ([KEPT.format(9, "k1"), "UPDATE lines SET loan = 9 WHERE sort = 0"], "unsound reference lines 1"),
    ([KEPT.format(9, "k1"), BARCODE.format(0, 8, "A1")], "unsound reference kept 9"),
    ([KEPT.format(9, "k1"), "INSERT INTO notes VALUES (2, 9, NULL)"], "unsound reference kept 9"),
    ([KEPT.format(9, "k1"), "UPDATE meta SET next_loan = 9"], "unsound reference kept 9"),
    ([BARCODE.format(1, 99, "A1")], "unsound reference barcodes 99"),
    ([BARCODE.format(0, 10, "A1")], "unsound reference barcodes 10"),
    ([BARCODE.format(1, 10, "A1"), BARCODE.format(0, 3, "A2")], "sound"),
    (["INSERT INTO notes VALUES (9, 1, NULL)"], "unsound reference notes 9"),
    (["INSERT INTO notes VALUES (2, 9, NULL)"], "unsound reference notes 2"),
    (["UPDATE patrons SET kind = 9", CLOSED.format(9, 20600)], "unsound reference closed_days 20600"),
    (["INSERT INTO notes VALUES (2, 9, NULL)", "UPDATE lines SET loan = 9"], "unsound reference lines 1"),
    (["DELETE FROM patrons WHERE patron = 3"], "unsound reference holds2 2"),
    (["DELETE FROM loans3 WHERE loan = 1"], "unsound reference lines 1"),
    # a number below the next one has no row, or one from it on has one: the least of the first such table
    (["DELETE FROM loans3 WHERE loan = 2"], "unsound numbers loans3 2"),
    (["DELETE FROM holds2 WHERE hold = 3"], "unsound numbers holds2 3"),
    (["UPDATE meta SET next_loan = 2"], "unsound numbers loans3 2"),
    (["UPDATE meta SET next_loan = 1"], "unsound numbers loans3 1"),
    (["UPDATE meta SET next_loan = 4"], "unsound numbers loans3 3"),
    (["UPDATE meta SET next_hold = 1"], "unsound numbers holds2 1"),
    (["UPDATE meta SET next_hold = 4"], "unsound numbers holds2 4"),
    (["UPDATE meta SET next_line = 9"], "unsound numbers lines 4"),
    (["UPDATE meta SET next_line = 3"], "unsound numbers lines 3"),
    (["UPDATE meta SET next_loan = 9, next_hold = 1, next_line = 1"], "unsound numbers loans3 3"),
    (["UPDATE meta SET next_hold = 9, next_line = 1"], "unsound numbers holds2 5"),
    (["UPDATE loans3 SET loan = 7 WHERE loan = 2"], "unsound numbers loans3 2"),
    (["UPDATE loans3 SET loan = 7 WHERE loan = 2", "UPDATE meta SET next_loan = 2"], "unsound numbers loans3 7"),
    (["UPDATE meta SET next_loan = 9", "UPDATE patrons SET kind = 9"], "unsound reference patrons 1"),
    # a patron or a copy has the barcode of another one; capitals count
    ([BARCODE.format(0, 2, "A1"), BARCODE.format(0, 3, "A1")], "unsound reference barcodes 3"),
    ([BARCODE.format(0, 3, "A1"), BARCODE.format(1, 10, "A1")], "unsound reference barcodes 10"),
    ([BARCODE.format(0, 3, "A1"), BARCODE.format(1, 10, "a1")], "sound"),
    ([BARCODE.format(1, 10, "1"), BARCODE.format(1, 11, "01"), BARCODE.format(1, 20, "1")],
     "unsound reference barcodes 20"),
    ([BARCODE.format(0, 2, "A1"), BARCODE.format(0, 3, "A1"), "UPDATE meta SET next_loan = 2"],
     "unsound numbers loans3 2"),
    # nobody can tell that a reply is no more kept
    (["DELETE FROM kept"], "sound"),
    # a row in a table of older schemas: the least of the first such table, by the last number of its key, once all
    # laws hold
    ([OLD_RULE.format(2, 1), OLD_RULE.format(1, 9), OLD_RULE.format(1, 99)], "unsound numbers rules 9"),
    ([OLD_LOAN.format(2147483647), OLD_LOAN.format(5)], "unsound numbers loans 5"),
    ([OLD_LOAN.format(2147483647)], "unsound numbers loans 2147483647"),
    ([OLD_HOLD.format(1), OLD_HOLD.format(2)], "unsound numbers holds 1"),
    ([OLD_HOLD.format(1), OLD_LOAN.format(2), OLD_RULE.format(1, 3)], "unsound numbers rules 3"),
    ([OLD_HOLD.format(1), OLD_LOAN.format(2)], "unsound numbers loans 2"),
    ([OLD_RULE.format(1, 1), "UPDATE patrons SET owed = 51 WHERE patron = 1"], "unsound balance 1"),
    ([OLD_RULE.format(1, 1), "UPDATE meta SET next_loan = 2"], "unsound numbers loans3 2"),
    ([OLD_HOLD.format(9), "DELETE FROM holds"], "sound"),
]

# What no law sees of another hand, by its row in docs/TESTS.md: what is written into the busy library, which stays
# sound.
UNSEEN = {
    "a loan is ended": ["UPDATE loans3 SET ended = 20529 WHERE loan = 2"],
    "whose a loan or hold is, a due day": ["UPDATE loans3 SET patron = 3, due = 20600 WHERE loan = 2", "UPDATE holds2 SET patron = 3 WHERE hold = 3"],
    "a hold is cancelled": ["UPDATE holds2 SET state = 3 WHERE hold = 3"],
    "a missing copy is found": ["UPDATE copies SET condition = 0 WHERE copy = 11"],
    "a copy arrives": ["DELETE FROM transits WHERE copy = 20"],
    "a line and its patron's debt": ["UPDATE lines SET amount = 90 WHERE line = 1", "UPDATE patrons SET owed = 40 WHERE patron = 1"],
    "the last loan, hold or line and the next number": ["DELETE FROM holds2 WHERE hold = 4", "UPDATE meta SET next_hold = 4"],
    "a name, a text, a price, a key": ["UPDATE patrons SET name = 'Zed', card_key = 'cardkey00009' WHERE patron = 1", "UPDATE titles SET text = 'Tides'", "UPDATE copies SET price = 1"],
    "a home, a kind, a rule, a calendar": ["UPDATE copies SET home = 2 WHERE copy = 40", "UPDATE copies SET kind = 2", "UPDATE rules3 SET period = 20", CLOSED.format(1, 20600)],
    "a barcode": [BARCODE.format(1, 40, "A1")],
    "today": ["UPDATE meta SET today = 20600"],
    "what is kept of requests": ["DELETE FROM kept WHERE key = 'a1'"],
}

# A row past its limits, or tables that no library has, are faults and no findings.
FAULTS = [
    (["UPDATE copies SET condition = 3 WHERE copy = 10"], "fault 93"),
    (["UPDATE patrons SET owed = -1 WHERE patron = 1"], "fault 93"),
    (["UPDATE holds2 SET state = 5 WHERE hold = 1"], "fault 93"),
    (["UPDATE holds2 SET first_day = 10956 WHERE hold = 4"], "fault 93"),
    (["UPDATE holds2 SET first_day = 84006 WHERE hold = 1"], "fault 93"),
    (["UPDATE loans3 SET due = 84006 WHERE loan = 1"], "fault 93"),
    (["UPDATE loans3 SET grace = 366 WHERE loan = 1"], "fault 93"),
    (["UPDATE loans3 SET grace = -1 WHERE loan = 2"], "fault 93"),
    (["UPDATE branches SET name = CAST(x'ff' AS TEXT) WHERE branch = 1"], "fault 93"),
    (["INSERT INTO closed_days VALUES (1, 84006)"], "fault 93"),
    (["UPDATE kinds SET loans = -1"], "fault 93"),
    (["UPDATE rules3 SET period = 0"], "fault 93"),
    (["UPDATE rules3 SET grace = 366 WHERE copy_kind = 2"], "fault 93"),
    (["UPDATE titles SET text = CAST(x'ff' AS TEXT) WHERE title = 100"], "fault 93"),
    (["UPDATE kept SET reply = CAST(x'ff' AS TEXT) WHERE key = 'a1'"], "fault 93"),
    # texts that have no such form
    (["UPDATE branches SET name = '' WHERE branch = 1"], "fault 93"),
    (["UPDATE branches SET week = 'ooooox' WHERE branch = 1"], "fault 93"),
    (["UPDATE branches SET week = 'ccccccc' WHERE branch = 1"], "fault 93"),
    (["UPDATE patrons SET card_key = 'short' WHERE patron = 1"], "fault 93"),
    (["UPDATE titles SET text = '' WHERE title = 100"], "fault 93"),
    # numbers below those that there are
    (["INSERT INTO patrons VALUES (0, 1, 'cardkey00000', 'Nil', 0)"], "fault 93"),
    (["INSERT INTO titles VALUES (-1, 'A title')"], "fault 93"),
    (["INSERT INTO copies VALUES (-9223372036854775808, 100, 1, 1, 900, 0)"], "fault 93"),
    ([LOAN.format(0, 99)], "fault 93"),
    (["INSERT INTO holds2 VALUES (-1, 1, 100, 1, 3, NULL, NULL, NULL)"], "fault 93"),
    (["INSERT INTO transits VALUES (0, 1, NULL)"], "fault 93"),
    (["INSERT INTO lines VALUES (-2, 1, 20529, 0, 5, 1)"], "fault 93"),
    ([KEPT.format(-1, "k1")], "fault 93"),
    ([KEPT.format(10_000_000, "k1")], "fault 93"),
    ([OLD_RULE.format(1, 1), "UPDATE rules SET period = 0"], "fault 93"),
    ([OLD_LOAN.format(1), "UPDATE loans SET due = 84006"], "fault 93"),
    ([OLD_LOAN.format(0)], "fault 93"),
    ([OLD_HOLD.format(1), "UPDATE holds SET state = 5"], "fault 93"),
    (["DROP TABLE loans"], "fault 91"),
    (["UPDATE meta SET schema = 9"], "fault 93"),
    (["DROP TABLE transits"], "fault 91"),
]

# What is written into the library with a charge, a payment at a counter and barcodes.
ON_THE_CHARGED = [
    ([], "sound"),
    (["UPDATE lines SET amount = 251 WHERE sort = 4"], "unsound balance 2"),
    (["UPDATE lines SET sort = 3 WHERE sort = 4"], "unsound balance 2"),
    (["UPDATE lines SET sort = 4"], "unsound balance 2"),
    (["UPDATE lines SET patron = 3 WHERE sort = 4"], "unsound balance 2"),
    (["UPDATE lines SET patron = 3", "UPDATE patrons SET owed = 0 WHERE patron = 2"], "unsound balance 3"),
    (["UPDATE lines SET patron = 3", "UPDATE patrons SET owed = 200 * (patron - 2) WHERE patron > 1"], "sound"),
    (["DELETE FROM lines WHERE sort = 4"], "unsound balance 2"),
    (["UPDATE patrons SET owed = 0 WHERE patron = 2"], "unsound balance 2"),
    (["UPDATE patrons SET owed = 250 WHERE patron = 2"], "unsound balance 2"),
    (["UPDATE patrons SET owed = 300 WHERE patron = 2"], "unsound balance 2"),
    (["UPDATE lines SET sort = 5 WHERE sort = 4"], "fault 93"),
    (["UPDATE lines SET sort = 5 WHERE sort = 2"], "fault 93"),
    (["UPDATE notes SET branch = 0 WHERE line = 1"], "fault 93"),
    (["UPDATE notes SET branch = 100 WHERE line = 2"], "fault 93"),
    (["UPDATE notes SET text = '' WHERE line = 1"], "fault 93"),
    (["UPDATE notes SET text = ' Copies' WHERE line = 1"], "fault 93"),
    (["UPDATE notes SET text = CAST(x'ff' AS TEXT) WHERE line = 1"], "fault 93"),
    (["INSERT INTO notes VALUES (0, 1, NULL)"], "fault 93"),
    (["INSERT INTO notes VALUES (2147483648, 1, NULL)"], "fault 93"),
    (["UPDATE barcodes SET barcode = '' WHERE sort = 0"], "fault 93"),
    (["UPDATE barcodes SET barcode = 'a-1' WHERE sort = 1"], "fault 93"),
    (["UPDATE barcodes SET barcode = '1234567890123456789012345' WHERE sort = 1"], "fault 93"),
    (["UPDATE barcodes SET barcode = CAST(x'ff' AS TEXT) WHERE sort = 0"], "fault 93"),
    (["UPDATE barcodes SET sort = 2 WHERE sort = 1"], "fault 93"),
    (["UPDATE barcodes SET sort = -1 WHERE sort = 0"], "fault 93"),
    (["UPDATE barcodes SET number = 0 WHERE sort = 0"], "fault 93"),
    (["UPDATE barcodes SET number = 10000000 WHERE sort = 1"], "fault 93"),
    (["DROP TABLE barcodes"], "fault 91"),
    (["DROP TABLE notes"], "fault 91"),
]

# A library with more rows of each table that grows than are read at once, which the texts of `FAR` damage past the
# first of them.
MANY, FIRST = 2_345, 10_000
LAST = FIRST + MANY - 1
# the last loan, hold and line: those of the busy library come before
LAST_LOAN, LAST_HOLD, LAST_LINE = 2 + MANY, 4 + MANY, 3 + 2 * MANY
FAR = [
    ([], "sound"),
    ([f"UPDATE copies SET condition = 2 WHERE copy = {LAST}"], f"unsound claims {LAST}"),
    ([LOAN.format(LAST_LOAN + 1, LAST)], f"unsound claims {LAST}"),
    ([f"UPDATE loans3 SET ended = NULL WHERE loan = {LAST_LOAN}"], f"unsound claims {LAST}"),
    ([f"UPDATE holds2 SET copy = {LAST} WHERE hold = {LAST_HOLD}"], f"unsound binding {LAST_HOLD}"),
    ([f"UPDATE transits SET hold = {LAST_HOLD} WHERE copy = {LAST}"], f"unsound binding {LAST_HOLD}"),
    ([f"UPDATE patrons SET owed = 1 WHERE patron = {LAST}"], f"unsound balance {LAST}"),
    ([f"DELETE FROM lines WHERE line = {LAST_LINE}"], f"unsound balance {LAST}"),
    ([f"UPDATE patrons SET kind = 9 WHERE patron = {LAST}"], f"unsound reference patrons {LAST}"),
    ([f"UPDATE copies SET title = {LAST + 1} WHERE copy = {LAST}"], f"unsound reference copies {LAST}"),
    ([f"DELETE FROM titles WHERE title = {LAST}"], f"unsound reference copies {LAST}"),
    ([f"UPDATE loans3 SET patron = {LAST + 1} WHERE loan = {LAST_LOAN}"], f"unsound reference loans3 {LAST_LOAN}"),
    ([f"UPDATE holds2 SET branch = 9 WHERE hold = {LAST_HOLD}"], f"unsound reference holds2 {LAST_HOLD}"),
    ([f"UPDATE transits SET goal = 9 WHERE copy = {LAST}"], f"unsound reference transits {LAST}"),
    ([f"UPDATE lines SET loan = {LAST_LOAN + 1} WHERE line = {LAST_LINE - 1}"],
     f"unsound reference lines {LAST_LINE - 1}"),
    # after all others; after those of one caller, who has many; and before all
    ([f"UPDATE kept SET caller = {LAST + 1} WHERE caller = {LAST}"], f"unsound reference kept {LAST + 1}"),
    ([KEPT.format(FIRST - 1, "k1")], f"unsound reference kept {FIRST - 1}"),
    ([KEPT.format(FIRST - 1, "k1"), "DELETE FROM kept WHERE caller < 2"], f"unsound reference kept {FIRST - 1}"),
    ([f"UPDATE barcodes SET number = {LAST + 1} WHERE sort = 1 AND number = {LAST}"],
     f"unsound reference barcodes {LAST + 1}"),
    ([f"UPDATE notes SET branch = 9 WHERE line = {LAST_LINE}"], f"unsound reference notes {LAST_LINE}"),
    ([f"UPDATE barcodes SET barcode = 'c{FIRST}' WHERE sort = 1 AND number = {LAST}"],
     f"unsound reference barcodes {LAST}"),
    ([f"UPDATE meta SET next_loan = {LAST_LOAN}"], f"unsound numbers loans3 {LAST_LOAN}"),
    ([f"DELETE FROM holds2 WHERE hold = {LAST_HOLD}"], f"unsound numbers holds2 {LAST_HOLD}"),
    ([f"UPDATE meta SET next_line = {LAST_LINE + 2}"], f"unsound numbers lines {LAST_LINE + 1}"),
    ([f"UPDATE patrons SET owed = -1 WHERE patron = {LAST}"], "fault 93"),
    ([f"UPDATE titles SET text = CAST(x'ff' AS TEXT) WHERE title = {LAST}"], "fault 93"),
    ([f"UPDATE copies SET condition = 3 WHERE copy = {LAST}"], "fault 93"),
    ([f"UPDATE loans3 SET due = 84006 WHERE loan = {LAST_LOAN}"], "fault 93"),
    ([f"UPDATE loans3 SET grace = 366 WHERE loan = {LAST_LOAN}"], "fault 93"),
    ([f"UPDATE holds2 SET state = 5 WHERE hold = {LAST_HOLD}"], "fault 93"),
    ([f"UPDATE transits SET goal = 0 WHERE copy = {LAST}"], "fault 93"),
    (["UPDATE lines SET sort = 4 WHERE line = (SELECT max(line) FROM lines)"], f"unsound balance {LAST}"),
    (["UPDATE lines SET sort = 5 WHERE line = (SELECT max(line) FROM lines)"], "fault 93"),
    (["UPDATE notes SET branch = 0 WHERE line = (SELECT max(line) FROM notes)"], "fault 93"),
    ([f"UPDATE barcodes SET barcode = '' WHERE sort = 1 AND number = {LAST}"], "fault 93"),
    ([f"UPDATE kept SET reply = CAST(x'ff' AS TEXT) WHERE caller = 0 AND key = 'k{LAST}'"], "fault 93"),
    ([f"UPDATE kept SET text = CAST(x'ff' AS TEXT) WHERE caller = 1 AND key = 'p{LAST}'"], "fault 93"),
    ([f"UPDATE kept SET text = CAST(x'ff' AS TEXT) WHERE caller = {LAST}"], "fault 93"),
]

WAITING, READY = 0, 1
FINE, PRICE, CHARGE = 0, 1, 4

# Of each table, in the order of an audit: the last number of its key, and which table's key each column names.
NAMED = (
    ("closed_days", "day", {"branch": "branches"}),
    ("rules3", "copy_kind", {"kind": "kinds"}),
    ("patrons", "patron", {"kind": "kinds"}),
    ("copies", "copy", {"title": "titles", "home": "branches"}),
    ("loans3", "loan", {"copy": "copies", "patron": "patrons", "branch": "branches"}),
    ("holds2", "hold", {"patron": "patrons", "title": "titles", "branch": "branches", "copy": "copies"}),
    ("transits", "copy", {"copy": "copies", "goal": "branches", "hold": "holds2"}),
    ("lines", "line", {"patron": "patrons", "loan": "loans3"}),
    ("kept", "caller", {"NULLIF(caller, 0)": "patrons"}),
    ("barcodes", "number", {}),
    ("notes", "line", {"line": "lines", "branch": "branches"}),
)
THINGS = ("patrons", "copies")
NUMBERED = (("loans3", "loan", "next_loan"), ("holds2", "hold", "next_hold"), ("lines", "line", "next_line"))


def unreferred(read):
    """The lines of rows that name a missing one, table by table, of each the numbers in order."""
    others = {other for _, _, named in NAMED for other in named.values()}
    there = {other: {key for key, in read(f"SELECT rowid FROM {other}")} for other in others}
    lines = []
    for table, last, named in NAMED:
        wrong = set()
        for column, other in named.items():
            cells = read(f"SELECT {last}, {column} FROM {table}")
            wrong |= {key for key, it in cells if it is not None and it not in there[other]}
        if table == "barcodes":
            cells = read("SELECT sort, number FROM barcodes")
            wrong = {number for sort, number in cells if number not in there[THINGS[sort]]}
        lines += [f"unsound reference {table} {number}" for number in sorted(wrong)]
    return lines


def misnumbered(read):
    """The lines of numbers that were given and have no row, or weren't and have one, table by table."""
    lines = []
    for table, key, column in NUMBERED:
        ((following,),) = read(f"SELECT {column} FROM meta")
        wrong = {number for number, in read(f"SELECT {key} FROM {table}")} ^ set(range(1, following))
        lines += [f"unsound numbers {table} {number}" for number in sorted(wrong)]
    return lines


def doubled(read):
    """The lines of patrons and copies, patrons first, with the barcode of one before."""
    seen, lines = set(), []
    for number, barcode in read("SELECT number, barcode FROM barcodes ORDER BY sort, number"):
        if barcode in seen:
            lines.append(f"unsound reference barcodes {number}")
        seen.add(barcode)
    return lines


def findings_of(path):
    """The lines of all that breaks the laws in plain Python, in the order of an audit."""
    with closing(sqlite3.connect(path)) as conn:
        def read(text):
            return conn.execute(text).fetchall()

        loans, transits = read("SELECT copy, ended FROM loans3"), read("SELECT copy, goal, hold FROM transits")
        copies = {copy: (title, condition) for copy, title, condition in read("SELECT copy, title, condition FROM copies")}
        holds = {hold: row for hold, *row in read("SELECT hold, title, branch, state, copy, limit_day FROM holds2")}
        owed, lines = dict(read("SELECT patron, owed FROM patrons")), read("SELECT patron, sort, amount FROM lines")
        old = {"rules": read("SELECT kind, copy_kind FROM rules"), "loans": read("SELECT loan FROM loans"), "holds": read("SELECT hold FROM holds")}
        later = unreferred(read) + misnumbered(read) + doubled(read)

    claims = [copy for copy, ended in loans if ended is None] + [copy for copy, *_ in transits]
    claims += [copy for _, _, state, copy, _ in holds.values() if state == READY and copy is not None]
    claims += [copy for copy, (_, condition) in copies.items() if condition != 0]
    found = [f"unsound claims {copy}" for copy, many in sorted(Counter(claims).items()) if many > 1]

    def is_of(copy, title):
        return copy in copies and copies[copy][0] == title

    unbound, serving = set(), Counter(hold for _, _, hold in transits)
    for hold, (title, _, state, copy, limit) in holds.items():
        named = copy is not None and limit is not None and is_of(copy, title) if state == READY else copy is None and limit is None
        if not named:
            unbound.add(hold)
    for copy, goal, hold in transits:
        if hold is not None:
            title, branch, state, _, _ = holds.get(hold, (None,) * 5)
            if state != WAITING or branch != goal or not is_of(copy, title) or serving[hold] > 1:
                unbound.add(hold)
    found += [f"unsound binding {hold}" for hold in sorted(unbound)]

    due = Counter()
    for who, sort, amount in lines:
        due[who] += amount if sort in (FINE, PRICE, CHARGE) else -amount
    found += [f"unsound balance {patron}" for patron in sorted(owed) if owed[patron] != due[patron]]
    return found + later + [f"unsound numbers {table} {min(keys)[-1]}" for table, keys in old.items() if keys][:1]


def laws_of(path):
    """The line of an audit that ends at the first finding."""
    return (findings_of(path) or ["sound"])[0]


def status_of(line):
    return 0 if line == "sound" else 3 if line.startswith("fault") else 2


# So many findings are told at most.
MOST_FINDINGS = 1_000


def audit_all(path, lines, what):
    """The audit of the file that goes on to all findings tells the first of these lines, as many as may be, and on
    standard error what each means."""
    words = ["audit", path, "all"]
    out = "".join(f"{line}\n" for line in lines[:MOST_FINDINGS])
    run = subprocess.run([CIRC, *words], capture_output=True, timeout=600)
    check(f"all findings after {what}", (run.stdout.decode(), run.returncode), (out, status_of(lines[0])))
    check(f"what they mean after {what}", run.stderr, message(words, out))


def audit(path, line, what):
    """The audit of the file is this line, with its status, all findings are those of the laws in plain Python, and no
    byte of the file is changed."""
    before = digest(path)
    check(f"the audit after {what}", circ(["audit", path]), (line, status_of(line)))
    audit_all(path, [line] if line.startswith("fault") else findings_of(path) or ["sound"], what)
    check(f"the file after {what}", digest(path), before)


def damaged(library, folder, at, texts, line):
    """A copy of the library with these texts run on it: the audit's line."""
    path = os.path.join(folder, f"damage{at}.db")
    shutil.copy(library, path)
    write(path, *texts)
    audit(path, line, texts)
    os.remove(path)


def found(library, folder, at, texts, line):
    """The same, where the line is one of the laws: they give it in plain Python too."""
    path = os.path.join(folder, f"found{at}.db")
    shutil.copy(library, path)
    write(path, *texts)
    check(f"the laws in plain Python after {texts}", laws_of(path), line)
    os.remove(path)


def several(library, folder, at, texts, lines):
    """A copy of the library with these texts run on it: these are all findings, in plain Python too."""
    path = os.path.join(folder, f"several{at}.db")
    shutil.copy(library, path)
    write(path, *texts)
    audit_all(path, lines, texts)
    check(f"all that breaks the laws in plain Python after {texts}", findings_of(path) or ["sound"], lines)
    os.remove(path)


def a_damaged_old_row(library, folder):
    """A damaged row in a table of older schemas is found by the audit that goes on to its end alone, where a law is
    broken."""
    path = os.path.join(folder, "old.db")
    shutil.copy(library, path)
    write(path, OLD_LOAN.format(1), "UPDATE loans SET due = 84006", "UPDATE patrons SET owed = 51 WHERE patron = 1")
    check("the first finding beside a damaged row", circ(["audit", path]), ("unsound balance 1", 2))
    audit_all(path, ["fault 93"], "a damaged old row")
    os.remove(path)


def more_than_may_be(large, folder):
    """Of more findings than may be told the first are: of one law, of several, and of barcodes behind them."""
    path = os.path.join(folder, "more.db")
    for texts in (["UPDATE patrons SET owed = owed + 1"], ["DELETE FROM titles"],
                  ["UPDATE meta SET next_loan = 9000, next_hold = 1, next_line = 1"],
                  [f"UPDATE copies SET condition = 2 WHERE copy < {FIRST + 600}",
                   "UPDATE patrons SET owed = owed + 1", OLD_HOLD.format(7)],
                  [f"UPDATE copies SET condition = 2 WHERE copy BETWEEN {FIRST} AND {FIRST + 998}",
                   "UPDATE meta SET next_line = 1"],
                  [f"UPDATE copies SET condition = 2 WHERE copy BETWEEN {FIRST} AND {FIRST + 997}",
                   "UPDATE barcodes SET barcode = 'A1' WHERE number < 10003"],
                  [f"UPDATE copies SET condition = 2 WHERE copy BETWEEN {FIRST} AND {FIRST + 998}",
                   OLD_HOLD.format(7)],
                  [f"UPDATE copies SET condition = 2 WHERE copy BETWEEN {FIRST} AND {FIRST + 999}",
                   OLD_HOLD.format(7)],
                  ["UPDATE barcodes SET barcode = 'A1'"]):
        shutil.copy(large, path)
        write(path, *texts)
        lines = findings_of(path)
        check(f"as many findings as may be told after {texts}", len(lines) >= MOST_FINDINGS, True)
        audit_all(path, lines, texts)
        os.remove(path)


def fill(path):
    """More rows of each table that grows than are read at once, with which the library is sound: each loan ended with
    a fine that was paid, each hold is cancelled, each copy travels, each copy and patron has a barcode, and much is
    kept for the desk, for one patron, and for each patron."""
    numbers = range(FIRST, LAST + 1)
    fines = [(4 + 2 * at, n, 20529, FINE, 240, 3 + at) for at, n in enumerate(numbers)]
    lines = fines + [(line + 1, n, day, 2, amount, None) for line, n, day, _, amount, _ in fines]
    kept = [(owner, f"{letter}{n}", "page 1", "ok") for owner, letter in ((0, "k"), (1, "p")) for n in numbers] + [(n, "own", "page 1", "ok") for n in numbers]
    tables = {
        "patrons": [(n, 1, f"cardkey{n}", "Reader", 0) for n in numbers],
        "titles": [(n, "A title") for n in numbers],
        "copies": [(n, n, 1, 1, 900, 0) for n in numbers],
        "loans3": [(3 + at, n, n, 1, 20500, 20520, 20, 1, 20, 1000, 20529, 2) for at, n in enumerate(numbers)],
        "holds2": [(5 + at, n, n, 1, 3, None, None, None) for at, n in enumerate(numbers)],
        "transits": [(n, 1, None) for n in numbers],
        "lines": lines,
        "notes": [(line, 1, None) for line, _, _, sort, _, _ in lines if sort != FINE],
        "barcodes": [(sort, n, f"{letter}{n}") for sort, letter in ((0, "p"), (1, "c")) for n in numbers],
        "kept": kept,
    }
    with closing(sqlite3.connect(path)) as conn, conn:
        for table, many in tables.items():
            conn.executemany(f"INSERT INTO {table} VALUES ({', '.join('?' * len(many[0]))})", many)
        following = (LAST_LOAN + 1, LAST_HOLD + 1, LAST_LINE + 1)
        conn.execute("UPDATE meta SET next_loan = ?, next_hold = ?, next_line = ?", following)


PAST = 100_000
# bytes
LOAN_AND_TITLE = 320


def the_past(ground, folder):
    """Beyond the memory of opening the file, an audit keeps loans and titles, and of what is kept of requests one row
    for each caller."""
    path, out = os.path.join(folder, "past.db"), os.path.join(folder, "past.txt")
    shutil.copy(ground, path)
    with closing(sqlite3.connect(path)) as conn, conn:
        each = range(1, PAST + 1)
        conn.executemany("INSERT INTO loans3 VALUES (?, 10, 1, 1, 20514, 20521, 6, 1, 20, 100, 20520, 0)", ((n,) for n in each))
        conn.executemany("INSERT INTO titles VALUES (?, ?)", ((1_000 + n, f"A title of number {n}") for n in each))
        for caller in (0, 1):
            conn.executemany(f"INSERT INTO kept VALUES ({caller}, ?, 'check-out 1 10 1', ?)",
                ((f"k{n}", f"loan {n} due 2026-03-09") for n in each))
        conn.execute("UPDATE meta SET next_loan = ?", (PAST + 1,))
    least, status = memory_of(["report", path, "shelf", "2"], out)
    check("a report of no row", status, 0)
    most, status = memory_of(["audit", path], out)
    with open(out, encoding="utf-8") as file:
        check("an audit of what is past", (file.read(), status), ("sound\n", 0))
    bound = LOAN_AND_TITLE * PAST // 1024
    check(f"{most - least} KiB for the rows, of {bound}", most - least < bound, True)


def unseen_rows():
    """The document has a row for each of what no law sees, and no other."""
    with open(f"{TOP}/docs/TESTS.md", encoding="utf-8") as file:
        told = file.read().partition("## What an audit can't find")[2].partition("\n## ")[0]
    told = [line.split("|")[1].strip() for line in told.splitlines() if line.startswith("| ")]
    check("what no law sees, in the document", told[1:], list(UNSEEN))


def no_library(folder):
    """Where there is no file, or one of no bytes, the answer is a fault, and no file is made."""
    absent, empty = os.path.join(folder, "absent.db"), os.path.join(folder, "empty.db")
    open(empty, "w").close()
    check("no file", circ(["audit", absent]), ("fault 93", 3))
    check("none is made", os.path.exists(absent), False)
    check("a file of no bytes", circ(["audit", empty]), ("fault 93", 3))
    check("it stays", os.path.getsize(empty), 0)
    garbage = os.path.join(folder, "garbage.db")
    with open(garbage, "wb") as file:
        file.write(b"this is no database " * 500)
    audit(garbage, "fault 91", "garbage")
    for words in (["audit"], ["audit", absent, "again"], ["audits", absent]):
        check(f"{words[0]} with {len(words) - 1} words", circ(words), ("words not understood", 4))


def lost_output(library):
    """Where the line can't be written the status is 3."""
    with open("/dev/full", "wb") as full:
        check("a full disk", subprocess.run([CIRC, "audit", library], stdout=full, timeout=120).returncode, 3)


# What is written into the busy library, and all findings.
SEVERAL = [
    ([], ["sound"]),
    # several numbers of a law
    (["UPDATE copies SET condition = 1 WHERE copy IN (10, 20, 30)"], ["unsound claims 10", "unsound claims 20",
                                                                      "unsound claims 30"]),
    (["UPDATE patrons SET owed = owed + 1"], ["unsound balance 1", "unsound balance 2", "unsound balance 3"]),
    ([LOAN.format(3, 65535), LOAN.format(4, 65535), LOAN.format(5, 65536), LOAN.format(6, 65536), LOAN.format(7, 9999999), LOAN.format(8, 9999999)],
     ["unsound claims 65535", "unsound claims 65536", "unsound claims 9999999",
      *(f"unsound reference loans3 {loan}" for loan in range(3, 9)),
      *(f"unsound numbers loans3 {loan}" for loan in range(3, 9))]),
    (["UPDATE transits SET hold = 2147483647 WHERE copy = 20"], ["unsound binding 2147483647",
                                                                 "unsound reference transits 20"]),
    # a law after each law, and tables of one
    (["UPDATE copies SET condition = 1 WHERE copy = 30", "UPDATE holds2 SET limit_day = NULL WHERE hold = 2",
      "UPDATE patrons SET owed = 51, kind = 9 WHERE patron = 1",
      "UPDATE copies SET home = 9 WHERE copy = 40", "UPDATE meta SET next_loan = 5, next_hold = 4"],
     ["unsound claims 30", "unsound binding 2", "unsound balance 1", "unsound reference patrons 1",
      "unsound reference copies 40", "unsound numbers loans3 3",
      "unsound numbers loans3 4", "unsound numbers holds2 4"]),
    (["DELETE FROM titles WHERE title IN (100, 300)"],
     ["unsound reference copies 10", "unsound reference copies 11", "unsound reference copies 30",
      "unsound reference holds2 2", "unsound reference holds2 3"]),
    # numbers without a row, and rows without a number
    (["UPDATE loans3 SET loan = 7 WHERE loan = 2", "UPDATE meta SET next_loan = 5"],
     ["unsound numbers loans3 2", "unsound numbers loans3 3", "unsound numbers loans3 4", "unsound numbers loans3 7"]),
    (["UPDATE meta SET next_loan = 1, next_line = 3"], ["unsound numbers loans3 1", "unsound numbers loans3 2",
                                                        "unsound numbers lines 3"]),
    # barcodes, and a row of an older schema, whatever comes before them: of those the first one alone
    ([BARCODE.format(0, 2, "A1"), BARCODE.format(0, 3, "A1"), BARCODE.format(1, 10, "A1"), BARCODE.format(1, 99, "B2"), "UPDATE meta SET next_loan = 2"],
     ["unsound reference barcodes 99", "unsound numbers loans3 2", "unsound reference barcodes 3",
      "unsound reference barcodes 10"]),
    ([OLD_HOLD.format(1), OLD_HOLD.format(2), OLD_LOAN.format(2), "UPDATE patrons SET owed = 51 WHERE patron = 1"],
     ["unsound balance 1", "unsound numbers loans 2"]),
]

# Columns with the values that the random damage gives them, most of them within the limits.
COLUMNS = {
    "loans3": {"copy": (10, 11, 20, 30, 40, 99), "ended": (None, None, 20529), "patron": (1, 2, 3, 9), "grace": (0, 2)},
    "holds2": {"state": (0, 1, 2, 3, 4), "copy": (None, 10, 20, 30, 40, 99), "limit_day": (None, 20535), "title": (100, 200, 300, 400), "branch": (1, 2),
               "first_day": (None, 20544)},
    "transits": {"goal": (1, 2), "hold": (None, 1, 2, 3, 4, 9), "copy": (10, 11, 20, 30, 40, 99)},
    "copies": {"condition": (0, 0, 1, 2), "title": (100, 200, 300, 400)},
    "lines": {"patron": (1, 2, 3, 9), "sort": (0, 1, 2, 3, 4), "amount": (1, 20, 30, 50, 100), "loan": (None, 1, 2, 9)},
    "patrons": {"owed": (0, 20, 50, 70, 100), "kind": (1, 1, 9)},
    "kept": {"caller": (0, 1, 3, 9)},
    "meta": {"next_loan": (2, 3, 4), "next_hold": (1, 5, 9), "next_line": (3, 4, 5)},
}


def random_damage(library, folder, seed, many):
    """Rows that are changed at random, one to three at a time: the audit is that of the laws in plain Python."""
    draw, met = random.Random(seed), {}
    keys = {name: [key for (key,) in rows(library, f"SELECT rowid FROM {name} ORDER BY rowid")] for name in COLUMNS}
    jobs = []
    for at in range(many):
        texts = []
        for _ in range(draw.choice((1, 1, 2, 3))):
            table = draw.choice(sorted(COLUMNS))
            column = draw.choice(sorted(COLUMNS[table]))
            value = draw.choice(COLUMNS[table][column])
            texts.append(f"UPDATE OR IGNORE {table} SET {column} = {'NULL' if value is None else value} WHERE rowid = {draw.choice(keys[table])}")
        jobs.append((at, texts))

    def one(job):
        at, texts = job
        path = os.path.join(folder, f"random{at}.db")
        shutil.copy(library, path)
        write(path, *texts)
        line = laws_of(path)
        audit(path, line, f"{texts}, seed {seed}")
        os.remove(path)
        return " ".join(line.split()[:2])

    with ThreadPoolExecutor(os.cpu_count()) as pool:
        for line in pool.map(one, jobs):
            met[line] = met.get(line, 0) + 1
    print("audit: random damage: " + ", ".join(f"{count} {line}" for line, count in sorted(met.items())) + f", by the seed {seed}")
    laws = ("balance", "binding", "claims", "numbers", "reference")
    check("each law is broken, and none", sorted(met), ["sound", *(f"unsound {it}" for it in laws)])


def flipped_bits(library, folder, seed, many):
    """One bit of a page of a table is another, of what stands in it: where stock SQLite reads the rows of before, the audit is `sound`, or the file is
    told as damaged; where it reads others, the line is that of the laws in plain Python, or a fault; and a fault where
    it reads none."""
    draw, met, before = random.Random(seed), {}, whole(library)
    tidy = os.path.join(folder, "tidy.db")
    write(library, f"VACUUM INTO '{tidy}'")
    pages = [4096 * (page - 1) for page, in rows(tidy, "SELECT rootpage FROM sqlite_schema WHERE type = 'table'")]
    with open(tidy, "rb") as file:
        text = file.read()
    filled = [at for page in pages for at in range(page, page + 4096) if text[at]]
    bits = [8 * draw.choice(filled) + draw.randrange(8) for _ in range(many)]

    def one(bit):
        path = os.path.join(folder, f"bit{bit}.db")
        data = bytearray(text)
        data[bit // 8] ^= 1 << bit % 8
        with open(path, "wb") as file:
            file.write(data)
        try:
            is_same, line = whole(path) == before, laws_of(path)
            wanted = ("sound", "fault 91") if is_same else (line, "fault 91", "fault 93")
        except (sqlite3.Error, TypeError, ValueError):
            is_same, wanted = False, ("fault 91", "fault 93")
        run = subprocess.run([CIRC, "audit", path], capture_output=True, timeout=60)
        told = run.stdout.decode().rstrip("\n")
        check(f"the audit with bit {bit} flipped, {told}", (told in wanted, run.returncode), (True, status_of(told)))
        os.remove(path)
        return is_same, told.split()[0]

    with ThreadPoolExecutor(os.cpu_count()) as pool:
        for it in pool.map(one, sorted(set(bits))):
            met[it] = met.get(it, 0) + 1
    told = ", ".join(f"{count} {'with the same rows' if is_same else 'with others'} {word}"
                     for (is_same, word), count in sorted(met.items()))
    print(f"audit: flipped bits: {told}, by the seed {seed}")
    check("other rows are found", min(met.get((False, it), 0) for it in ("unsound", "fault")) > 0, True)


def main(arguments):
    seed = int(arguments[0]) if arguments else 2826
    with tempfile.TemporaryDirectory() as folder:
        ground, busy, charged, large = (os.path.join(folder, name) for name in ("ground.db", "busy.db",
            "charged.db", "large.db"))
        say(ground, GROUND)
        shutil.copy(ground, busy)
        say(busy, BUSY)
        shutil.copy(ground, charged)
        say(charged, CHARGED)
        shutil.copy(busy, large)
        fill(large)
        kept = whole(busy)
        jobs = [(ground, at, *it) for at, it in enumerate(ON_THE_GROUND)]
        jobs += [(busy, len(jobs) + at, *it) for at, it in enumerate(DAMAGE + FAULTS)]
        jobs += [(charged, len(jobs) + at, *it) for at, it in enumerate(ON_THE_CHARGED)]
        jobs += [(large, len(jobs) + at, *it) for at, it in enumerate(FAR)]
        jobs += [(busy, len(jobs) + at, texts, "sound") for at, texts in enumerate(UNSEEN.values())]
        by_laws = [job for job in jobs if not job[-1].startswith("fault")]
        check("findings and faults are tried", (len(by_laws) > 30, len(jobs) - len(by_laws) > 30), (True, True))
        with ThreadPoolExecutor(os.cpu_count()) as pool:
            list(pool.map(lambda job: part(damaged, job[0], folder, *job[1:]), jobs))
            list(pool.map(lambda job: part(found, job[0], folder, *job[1:]), by_laws))
            list(pool.map(lambda it: part(several, busy, folder, it[0], *it[1]), enumerate(SEVERAL)))
        part(a_damaged_old_row, busy, folder)
        part(more_than_may_be, large, folder)
        part(unseen_rows)
        part(the_past, ground, folder)
        part(no_library, folder)
        part(lost_output, busy)
        part(random_damage, busy, folder, seed, 400)
        part(flipped_bits, busy, folder, seed, 300)
        check("the library is as it was", whole(busy), kept)


if __name__ == "__main__":
    run_script(main, sys.argv[1:])
