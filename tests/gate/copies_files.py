#!/usr/bin/env python3
"""Runs `./circ import` and `./circ import --check` on copies files: good, refused and bad ones, ones with too many
rows, and ones that can't be read.

Expected lines and rows are those of docs/RULES.md, worked out by hand; those of the delivery come from `desk_rules`.
"""

import csv
import os
import random
import shutil
import tempfile

from room import TOP
from lib.checking import check, part, run_script
from lib.runs import GROUND, HEADER, kill_at_work, look_at, rows, rows_now, say, take_in, the_rows_are, timed, whole
from reference.desk_rules import Library

BEES = HEADER + """\
50,500,"Maps, Old and New",1,1,1500,end
51,500,"Maps, Old and New",1,2,1500,end
52,501,Winter Bees,2,1,700,end
"""


def copies_files(folder):
    """Rows of copies files, good, refused and bad; files that can't be read."""
    path, copies = os.path.join(folder, "taken.db"), os.path.join(folder, "copies.csv")
    say(path, GROUND)

    def taken(text, lines, status):
        with open(copies, "wb") as file:
            file.write(text if isinstance(text, bytes) else text.encode())
        check(f"{text!r}", take_in(path, copies), (lines, status))

    taken(BEES[:BEES.index("ter Bees")], "row 1 ok\nrow 2 ok\nrow 3 bad\naccepted 2 refused 0\n", 4)
    taken(BEES, "row 1 ok\nrow 2 ok\nrow 3 ok\naccepted 3 refused 0\n", 0)
    check("a row each", rows(path, "SELECT copy, title, home FROM copies WHERE copy IN (50, 51) ORDER BY copy"),
          [(50, 500, 1), (51, 500, 2)])
    before = whole(path)
    taken(BEES.replace("Bees", "Birds"), "row 1 ok\nrow 2 ok\nrow 3 refused 20\naccepted 2 refused 1\n", 2)
    taken("\ufeff" + BEES, "row 1 ok\nrow 2 ok\nrow 3 ok\naccepted 3 refused 0\n", 0)
    taken("", "row 0 bad\naccepted 0 refused 0\n", 4)
    taken(HEADER, "accepted 0 refused 0\n", 0)
    taken(HEADER.replace("end", "END"), "row 0 bad\naccepted 0 refused 0\n", 4)
    taken(HEADER.encode() + b"53,502,M\xe4rz,1,1,1500,end\n", "row 1 bad\naccepted 0 refused 0\n", 4)
    check("no row is changed", whole(path), before)
    taken(HEADER + """60,600,Tall Ships,1,1,900,end
60,600,Tall Ships,1,1,900,end
61,600,Tall Ships,1,9,900,end
61,600,Tall Ships,1,2,1000001,end
61,600,Tall Ships,1,2,900,end
""", "row 1 ok\nrow 2 ok\nrow 3 refused 10\nrow 4 refused 21\nrow 5 ok\naccepted 3 refused 2\n", 2)
    before, unread = whole(path), ("fault reading\naccepted 0 refused 0\n", 3)
    check("no copies file", take_in(path, os.path.join(folder, "absent.csv")), unread)
    check("a directory of copies", take_in(path, folder), unread)
    check("no row is changed", whole(path), before)
    new = os.path.join(folder, "first.db")
    check("a new library", take_in(new, copies),
          ("".join(f"row {n} refused {m}\n" for n, m in ((1, 10), (2, 10), (3, 10), (4, 21), (5, 10)))
           + "accepted 0 refused 5\n", 2))
    check("it is made", [name for name, found in whole(new).items() if found], ["meta"])
    garbage = os.path.join(folder, "no_library.db")
    with open(garbage, "wb") as file:
        file.write(b"this is no database " * 500)
    check("no library", take_in(garbage, copies), ("fault 91\n", 3))


def a_delivery(folder):
    """A copies file of three hundred rows, some of them refused: its lines and rows are those of the rules; and with
    runs that are killed at random moments before it is taken in again, the rows are the same."""
    calm, killed = os.path.join(folder, "delivered.db"), os.path.join(folder, "interrupted.db")
    copies, library, seed = os.path.join(folder, "delivery.csv"), Library(), random.randrange(10**9)
    for key, words, _ in GROUND:
        library.handle(key, words)
    for path in (calm, killed):
        say(path, GROUND)
    moments = random.Random(seed)
    print(f"copies files: a delivery, moments of kills by the seed {seed}")
    books = [(1000 + n, 700 + n // 3, f'Volume {n // 3}, "the {n // 3 % 7}th"', 1 + n % 2, 1 + n % 5 // 2, 50 * n) for n in range(300)]
    with open(copies, "w", encoding="utf-8", newline="") as file:
        file.write(HEADER)
        csv.writer(file).writerows([*book, "end"] for book in books)
    lines = library.take_in(books)
    taken, hits = [row[0] for row in books if row[0] in library.copies], 0
    fresh = os.path.join(folder, "to_be_delivered.db")
    shutil.copy(killed, fresh)
    delivered, took = timed(lambda: take_in(calm, copies))
    check("the lines of the delivery", delivered, (lines, 2))
    for at in range(60):
        if at >= 12 and hits:
            break
        printed, hit = kill_at_work(["import", killed, copies], moments.uniform(0, took))
        told = printed[:printed.rfind("\n") + 1]
        check(f"a beginning of the lines, seed {seed}", lines.startswith(told), True)
        found = rows_now(killed, "SELECT copy FROM copies WHERE copy >= 1000 ORDER BY copy")
        check(f"the first rows, seed {seed}", [copy for (copy,) in found], taken[:len(found)])
        check(f"what was told is there, seed {seed}", told.count(" ok\n") <= len(found), True)
        hits += hit and 0 < len(found) < len(taken)
        # where all rows came in before a kill hit work, the library begins again
        if not hits and len(found) == len(taken):
            if os.path.exists(killed + "-wal"):
                os.remove(killed + "-wal")
            shutil.copy(fresh, killed)
    check(f"kills hit the delivery at work, seed {seed}", hits > 0, True)
    check("some rows are refused", 0 < lines.count("refused 10") < 300, True)
    the_rows_are(calm, library)
    check(f"the lines after kills, seed {seed}", take_in(killed, copies), (lines, 2))
    check(f"the rows after kills, seed {seed}", whole(killed), whole(calm))


# A good row, and rows that aren't, each of which comes after the good one.
GOOD = b"50,500,Maps,1,1,1500,end\n"
BAD = [
    ("six fields", b"51,500,Maps,1,1500,end\n"),
    ("a number with a zero before it", b"062,500,Maps,1,1,1500,end\n"),
    ("another closing word", b"51,500,Maps,1,1,1500,END\n"),
    ("no title", b"51,501,,1,1,1500,end\n"),
    ("a title that is no UTF-8", b"51,501,M\xe4rz,1,1,1500,end\n"),
    ("a quote that is never closed", b'51,501,"Maps,1,1,1500,end\n'),
]


def bad_rows(folder):
    """A row that isn't good ends the file, whatever comes after it; the row before it is there, and acts once."""
    copies = os.path.join(folder, "bad.csv")
    for at, (what, row) in enumerate(BAD):
        path = os.path.join(folder, f"bad{at}.db")
        say(path, GROUND)
        for turn in range(2):
            with open(copies, "wb") as file:
                file.write(HEADER.encode() + GOOD + row + b"52,502,Bees,1,1,700,end\n" * turn)
            check(f"{what}, {turn} rows after it", take_in(path, copies), ("row 1 ok\nrow 2 bad\naccepted 1 refused 0\n", 4))
        check(f"the row before {what}", rows(path, "SELECT * FROM copies WHERE copy >= 50"), [(50, 500, 1, 1, 1500, 0)])
        check(f"its title before {what}", rows(path, "SELECT * FROM titles WHERE title >= 500"), [(500, "Maps")])


SEPARATOR = "1 field instead of 7: the separator must be a comma, not a semicolon or a tab"
HEADER_CAUSE = "the header is not copy,title,text,kind,home,price,end"
NUMBER = "a number up to 4294967295 without a leading zero"
TEXT = "the text is not 1 to 120 bytes without control characters and without a space at either end: it has"

# Bad rows, and what is wrong with each. The quote that is never closed comes last.
CAUSES = [
    (b"51,500,Maps,1,1500,end\n", "6 fields instead of 7"),
    (b"51,500,Maps,1,1,1500,end,end\n", "8 fields instead of 7"),
    (b"51\n", "1 field instead of 7"),
    (b"51;500;Maps;1;1;1500;end\n", SEPARATOR),
    (b"51\t500\tMaps\t1\t1\t1500\tend\n", SEPARATOR),
    (b"51,500,Maps,1,1,1500,END\n", "the last field is not end: perhaps a quote is not closed"),
    (b"5\xe4,500,Maps,1,1,1500,end\n", "the field copy is not UTF-8"),
    (b"51,501,M\xe4rz,1,1,1500,end\n", "the field text is not UTF-8"),
    (b"062,500,Maps,1,1,1500,end\n", f"the field copy is not {NUMBER}"),
    (b"51,4294967296,Maps,1,1,1500,end\n", f"the field title is not {NUMBER}"),
    (b"51,500,Maps,one,1,1500,end\n", f"the field kind is not {NUMBER}"),
    (b"51,500,Maps,1, 1,1500,end\n", f"the field home is not {NUMBER}"),
    (b"51,500,Maps,1,1,15.00,end\n", f"the field price is not {NUMBER}"),
    (b"51,500,Maps,1,1,,end\n", f"the field price is not {NUMBER}"),
    (b"51,501,,1,1,1500,end\n", f"{TEXT} 0 bytes"),
    (b"51,501, ,1,1,1500,end\n", f"{TEXT} 1 byte"),
    (b"51,501,Maps ,1,1,1500,end\n", f"{TEXT} 5 bytes"),
    (b"51,501,Ma\tps,1,1,1500,end\n", f"{TEXT} 5 bytes"),
    (b"51,501," + b"M" * 121 + b",1,1,1500,end\n", f"{TEXT} 121 bytes"),
    (b'51,501,"Maps,1,1,1500,end\n',
     "3 fields instead of 7, with a line break in the last: perhaps a quote is not closed"),
]


def causes(folder):
    """A check tells every bad row of a file, with what is wrong with it, and makes no library; an import tells what is
    wrong with the row that ended it."""
    copies, path = os.path.join(folder, "checked.csv"), os.path.join(folder, "unchecked.db")
    say(path, GROUND)
    before = os.listdir(folder)

    def looked_at(bytes_, lines, said, status):
        with open(copies, "wb") as file:
            file.write(bytes_)
        check(f"the check of {bytes_!r}", look_at(copies), (lines, "".join(f"circ: {it}\n" for it in said), status))

    header = HEADER.encode()
    for row, cause in CAUSES:
        looked_at(header + GOOD + row, "row 2 bad\ngood 1 bad 1\n", [f"row 2: {cause}"], 4)
        check(f"{row!r} is taken in", take_in(path, copies), ("row 1 ok\nrow 2 bad\naccepted 1 refused 0\n", 4))
    bad = range(2, 2 * len(CAUSES) + 1, 2)
    lines = "".join(f"row {n} bad\n" for n in bad)
    looked_at(header + b"".join(GOOD + row for row, _ in CAUSES), f"{lines}good {len(bad)} bad {len(bad)}\n",
              [f"row {n}: {cause}" for n, (_, cause) in zip(bad, CAUSES)], 4)
    looked_at(BEES.encode(), "good 3 bad 0\n", [], 0)
    looked_at(b"\xef\xbb\xbf" + BEES.encode(), "good 3 bad 0\n", [], 0)
    looked_at(header, "good 0 bad 0\n", [], 0)
    looked_at(header + GOOD[:-1], "good 1 bad 0\n", [], 0)
    # a file that was cut
    looked_at(BEES[:BEES.index("ter Bees")].encode(), "row 3 bad\ngood 2 bad 1\n", ["row 3: 3 fields instead of 7"], 4)
    # files without a header: the rows are looked at all the same
    looked_at(b"", "row 0 bad\ngood 0 bad 1\n", [f"row 0: {HEADER_CAUSE}"], 4)
    looked_at(GOOD * 2, "row 0 bad\ngood 1 bad 1\n", [f"row 0: {HEADER_CAUSE}"], 4)
    looked_at(header.replace(b",", b";") + GOOD, "row 0 bad\ngood 1 bad 1\n", [f"row 0: {SEPARATOR}"], 4)
    check("an unreadable header is taken in", take_in(path, copies), ("row 0 bad\naccepted 0 refused 0\n", 4))
    unread = "fault reading\ngood 0 bad 0\n", "circ: the copies file is missing or can't be read\n", 3
    check("no copies file", look_at(os.path.join(folder, "absent.csv")), unread)
    check("a directory of copies", look_at(folder), unread)
    check("a library's copies", look_at(path)[2], 4)
    made = [name for name in os.listdir(folder) if name not in before and not name.startswith(("checked.csv", "unchecked.db"))]
    check("no library is made", (made, os.path.exists("--check")), ([], False))


def a_spreadsheets_files(folder):
    """The files that LibreOffice Calc wrote (tests/data), as they are, with a byte order mark, and with the ends of
    lines of another system."""
    copies = os.path.join(folder, "calc.csv")
    wanted = [(50, "Maps, Old and New", 1500), (51, "Maps, Old and New", 1500), (52, 'The "Winter" Bees', 700), (53, "M\u00e4rchen, neu erz\u00e4hlt", 900)]
    for name in ("calc.csv", "calc_quoted.csv"):
        with open(os.path.join(TOP, "tests", "data", name), "rb") as file:
            written = file.read()
        for how, mark, end in (("as it is", b"", b"\n"), ("with a mark", b"\xef\xbb\xbf", b"\n"), ("with CR LF", b"", b"\r\n"), ("with both", b"\xef\xbb\xbf", b"\r\n")):
            path = os.path.join(folder, f"{name} {how}.db")
            say(path, GROUND)
            with open(copies, "wb") as file:
                file.write(mark + written.replace(b"\n", end))
            check(f"{name} {how}", take_in(path, copies), ("".join(f"row {n} ok\n" for n in range(1, 5)) + "accepted 4 refused 0\n", 0))
            found = rows(path, "SELECT copy, text, price FROM copies JOIN titles USING (title) WHERE copy >= 50 ORDER BY copy")
            check(f"the copies of {name} {how}", found, wanted)


def a_row_too_many(folder):
    """A file of 100,000 rows is taken in whole; row 100,001 ends it as bad, though it is as good as the others. One
    copy and its like: the first row acquires it, the others do so again under the same key."""
    path, copies = os.path.join(folder, "many.db"), os.path.join(folder, "many.csv")
    say(path, GROUND)
    with open(copies, "wb") as file:
        file.write(HEADER.encode() + GOOD * 100_000)
    lines = "".join(f"row {n} ok\n" for n in range(1, 100_001))
    check("100,000 rows", take_in(path, copies), (lines + "accepted 100000 refused 0\n", 0))
    with open(copies, "ab") as file:
        file.write(GOOD)
    check("100,001 rows", take_in(path, copies), (lines + "row 100001 bad\naccepted 100000 refused 0\n", 4))
    wanted = ("row 100001 bad\ngood 100000 bad 1\n", "circ: row 100001: more than 100,000 rows\n", 4)
    check("100,001 rows, checked", look_at(copies), wanted)
    check("one copy", rows(path, "SELECT COUNT(*) FROM copies WHERE copy >= 50"), [(1,)])


def main():
    with tempfile.TemporaryDirectory() as folder:
        part(copies_files, folder)
        part(bad_rows, folder)
        part(causes, folder)
        part(a_spreadsheets_files, folder)
        part(a_row_too_many, folder)
        part(a_delivery, folder)


if __name__ == "__main__":
    run_script(main)
