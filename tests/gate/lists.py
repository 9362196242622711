#!/usr/bin/env python3
"""Reports, long lines of holds and long lists, on real files.

    tests/gate/lists.py

Expected lines and rows are those of the desk's rules, worked out by hand or by the rules in plain Python. Rows in
great numbers are written past the desk.
"""

import datetime
import os
import re
import shutil
import sqlite3
import subprocess
import tempfile
from collections import Counter
from contextlib import closing

import room  # finds lib and reference
from lib.checking import check, part, run_script
from lib.runs import GROUND, HEADER, LAST_INDEXES, PROGRAM, ROOM, answers, circ, memory_of, report, rows, say, take_in, the_rows_are, whole, write
from lib.serving import DESK_KEY, Serving, told
from reference.desk_rules import EPOCH, MOST_LOOKED_AT, MOST_ROWS, SEARCHES, Library, finds


def reports(folder):
    """The overdue loans and the ready holds of a branch and the sums of a day; no library is made for a report."""
    path = os.path.join(folder, "reports.db")
    say(path, GROUND)
    say(path, [
        ("a1", ["place-hold", "2", "100", "1"], "hold 1"),
        ("a2", ["place-hold", "3", "100", "1"], "hold 2"),
        ("a3", ["check-in", "10", "1"], "fine 0 ready 1 at 1 until 2026-03-07"),
        ("a4", ["check-out", "1", "30", "1"], "loan 1 due 2026-03-14"),
    ])
    shelf = ("      hold    copy  patron until      title\n"
             "         1      10       2 2026-03-07 Rivers of the North\n"
             "ready 1\n")
    check("the hold shelf", report(path, "shelf", "1"), (shelf, 0))
    check("an empty hold shelf", report(path, "shelf", "2"),
          ("      hold    copy  patron until      title\nready 0\n", 0))
    check("an unknown branch", report(path, "shelf", "9"), ("refused 10\n", 2))
    check("a branch that can't be", report(path, "shelf", "4294967295"), ("refused 10\n", 2))
    nothing = "      loan  patron    copy due         late title\noverdue 0\n"
    check("nothing is overdue", report(path, "overdue", "1"), (nothing, 0))
    check("nor at an unknown branch", report(path, "overdue", "9"), ("refused 10\n", 2))
    say(path, [("b1", ["begin-day", "2026-03-23"], "ok")])
    overdue = ("      loan  patron    copy due         late title\n"
               "         1       1      30 2026-03-14     7 Night Ferries\n"
               "overdue 1\n")
    check("the overdue loans", report(path, "overdue", "1"), (overdue, 0))
    check("they are the lender's", report(path, "overdue", "2"), (nothing, 0))
    say(path, [
        ("b2", ["check-in", "30", "1"], "fine 100 shelf 1"),
        ("b3", ["pay", "1", "30"], "owed 70"),
        ("b4", ["waive", "1", "20"], "owed 50"),
    ])
    before = whole(path)
    till = ("till 2026-03-23\nfines                100\nprices                 0\npayments              30\n"
            "waivers               20\n")
    check("the till", report(path, "till", "2026-03-23"), (till, 0))
    check("a day of no lines", report(path, "till", "2199-12-31"),
          ("till 2199-12-31\nfines                  0\nprices                 0\npayments               0\n"
           "waivers                0\n", 0))
    check("no row is changed", whole(path), before)
    absent, empty = os.path.join(folder, "absent.db"), os.path.join(folder, "nothing.db")
    open(empty, "w").close()
    for words in (["overdue", "1"], ["till", "2026-03-23"], ["shelf", "1"]):
        check("no file", report(absent, *words), ("fault 93\n", 3))
        check("none is made", os.path.exists(absent), False)
        check("a file of no bytes", report(empty, *words), ("fault 93\n", 3))
        check("it stays", os.path.getsize(empty), 0)


TODAY = 20514  # 2026-03-02, as it is stored


def a_long_line(folder):
    """A copy that comes in goes to the first of a thousand holds that wait for its title."""
    path = os.path.join(folder, "line.db")
    say(path, GROUND)
    with closing(sqlite3.connect(path)) as db, db:
        db.executemany("INSERT INTO patrons VALUES (?, 1, ?, ?, 0)", ((n, f"card{n:08}", f"Reader {n}") for n in range(1001, 2001)))
        db.executemany("INSERT INTO holds2 VALUES (?, ?, 100, ?, 0, NULL, NULL, NULL)", ((n, 1000 + n, 1 + n % 2) for n in range(1, 1001)))
        db.execute("UPDATE meta SET next_hold = 1001")
    say(path, [
        ("c1", ["check-in", "10", "2"], "fine 0 ready 1 at 2 until 2026-03-05"),
        ("c2", ["check-in", "11", "2"], "fine 0 transit 1 for 2"),
        ("c3", ["place-hold", "1", "100", "1"], "hold 1001"),
    ])
    check("the others wait", rows(path, "SELECT COUNT(*), MIN(hold), MAX(hold) FROM holds2 WHERE state = 0"), [(1000, 2, 1001)])


def a_line_with_first_days(folder):
    """Of a thousand holds that wait for a title, most with a first day, a copy goes to the least number of those that
    have none or whose day has come: on each day anew."""
    path, served = os.path.join(folder, "first_days.db"), []
    say(path, GROUND)
    # first days from two weeks before today to two weeks after it, in no order of the numbers; every fortieth hold has
    # none, and the least of these is hold 7
    first_days = {n: None if n % 40 == 7 else TODAY - 14 + n * 97 % 29 for n in range(1, 1001)}
    with closing(sqlite3.connect(path)) as db, db:
        db.executemany("INSERT INTO patrons VALUES (?, 1, ?, ?, 0)", ((1000 + n, f"card{n:08}", f"Reader {n}") for n in first_days))
        db.executemany("INSERT INTO holds2 VALUES (?, ?, 100, 1, 0, NULL, NULL, ?)", ((n, 1000 + n, day) for n, day in first_days.items()))
        db.execute("UPDATE meta SET next_hold = 1001")
    waiting = dict(first_days)
    for today in range(TODAY, TODAY + 15):
        # a day that has begun isn't begun again
        say(path, [(f"d{today}", ["begin-day", str(EPOCH + datetime.timedelta(today))], "ok" if today > TODAY else "refused 23")])
        for number in ("10", "11"):
            first = min(n for n, day in waiting.items() if day is None or day <= today)
            served.append((first, waiting.pop(first)))
            found, status = answers(path, f"c{today}-{number}", ["check-in", number, "1"])
            check(f"the first in line on day {today}", (found.startswith(f"fine 0 ready {first} at 1 until "), status), (True, 0))
            say(path, [(f"m{today}-{number}", ["missing", number], "ok"), (f"x{today}-{number}", ["cancel-hold", str(first)], "ok")])
    kinds = {"none" if day is None else "before" if day <= TODAY else "after" for _, day in served}
    check("holds without a first day were served, and with one before the beginning and after it", kinds, {"none", "before", "after"})


LATE = 100_000


def a_long_report(folder):
    """A report of 100,000 overdue loans takes about the memory of one of none: its rows are read by pages. So do the
    sums of a day with as many charges and payments, of which each tenth was made at no counter."""
    path, out = os.path.join(folder, "late.db"), os.path.join(folder, "late.txt")
    say(path, GROUND)
    with closing(sqlite3.connect(path)) as db, db:
        each = range(1, LATE + 1)
        db.executemany("INSERT INTO copies VALUES (?, 100, 1, 1, 2500, 0)", ((1000 + n,) for n in each))
        db.executemany("INSERT INTO loans3 VALUES (?, ?, 1, 1, 20514, 20521, 6, 1, 20, 100, NULL, 0)", ((n, 1000 + n) for n in each))
        made = {n: (("charge", 30) if n % 2 else ("payment", 20),
                    None if n % 10 == 0 else 1 + n % 4 // 2) for n in each}
        db.executemany("INSERT INTO lines VALUES (?, 2, 20529, ?, ?, NULL)",
                       ((n, {"payment": 2, "charge": 4}[sort], amount) for n, ((sort, amount), _) in made.items()))
        db.executemany("INSERT INTO notes VALUES (?, ?, ?)",
                       ((n, at, "Copies" if n % 2 else None) for n, (_, at) in made.items() if at))
        db.execute("UPDATE patrons SET owed = ? WHERE patron = 2", (LATE // 2 * 10,))
        db.execute("UPDATE meta SET next_loan = ?, next_line = ?", (LATE + 1, LATE + 1))
    say(path, [("d1", ["begin-day", "2026-03-17"], "ok")])
    check("its audit", circ(["audit", path]), ("sound", 0))
    least, status = memory_of(["report", path, "shelf", "2"], out)
    check("an empty shelf in a large library", status, 0)
    most, status = memory_of(["report", path, "overdue", "1"], out)
    check("a long report", status, 0)
    with open(out, encoding="utf-8") as file:
        lines = file.read().splitlines()
    check("its header", lines[0], "      loan  patron    copy due         late title")
    wanted = (f"{n:>10} {1:>7} {1000 + n:>7} 2026-03-09     7 Rivers of the North" for n in range(1, LATE + 1))
    check("its rows", next((pair for pair in zip(lines[1:-1], wanted) if pair[0] != pair[1]), None), None)
    check("its end", (len(lines), lines[-1]), (LATE + 2, f"overdue {LATE}"))
    check(f"{most - least} KiB for the rows, of {ROOM}", most - least < ROOM, True)
    for branch in (None, 1, 2):
        words = ["report", path, "till", "2026-03-17"] if branch is None else ["file", path, "a1", "till-at",
            str(branch), "2026-03-17"]
        most, status = memory_of(words, out)
        with open(out, encoding="utf-8") as file:
            sums = [int(line.split()[1]) for line in file.read().splitlines() if line.startswith(("payments",
                "charges"))]
        wanted = [sum(amount for (it, amount),
                      at in made.values() if it == sort and branch in (None, at)) for sort in ("payment", "charge")]
        check(f"the sums of {words[3:]}", (status, sums), (0, wanted))
        check(f"{most - least} KiB for {words[3:]}, of {ROOM}", most - least < ROOM, True)
    # of a list a hundred rows are read, and one more
    for words in (["overdue", "1", "0"], ["copies", "100", "0"], ["copies", "100", "90000"], ["copy", "90000"], ["transits", "1", "0"]):
        most, status = memory_of(["file", path, "a1", *words], out)
        with open(out, encoding="utf-8") as file:
            lines = file.read().splitlines()
        check(f"{words} of a large library", (status, len(lines)), (0, {"copy": 2, "transits": 1}.get(words[0], MOST_ROWS + 2)))
        check(f"{most - least} KiB for {words}, of {ROOM}", most - least < ROOM, True)


# Lists of so many rows: two parts that are full, and one row more.
MANY = 2 * MOST_ROWS + 1


def with_long_lists(library):
    """Adds rows to the rules of a small library, so that each list has so many: a title of many copies in all places,
    with many holds in its line; many titles, of which each has a copy to be taken for its first hold; loans that are
    overdue; holds that are ready; copies on their way; a patron with many lines, and many who owe something; days that
    are closed; copies that are missing, and one that was lent often. Their numbers rise in an order of their own."""
    mixed = lambda n: n * 97 % MANY
    day = library.today - datetime.timedelta(9)
    tall = 900
    library.titles[tall] = "Tall Ships"
    new_copy = lambda number, title, **more: library.copies.update({number: {"title": title, "kind": 1, "home": 1, "price": 2500, "condition": "present", **more}})
    new_hold = lambda number, patron, title, branch, **more: library.holds.update(
        {number: {"patron": patron, "title": title, "branch": branch, "state": "waiting", "copy": None, "limit": None, "first": None, **more}})
    for n in range(MANY):
        patron, own = 2_000 + n, 1_000 + mixed(n)
        library.patrons[patron] = {"kind": 1, "card_key": f"card{n:08}", "name": f"Reader {n}"}
        library.titles[own] = f"Volume {own}"
        # of each own title a copy on the shelf of branch 1, and one on that of branch 2, which the hold doesn't need
        new_copy(3_000 + n, own)
        new_copy(8_000 + mixed(n), own, home=2)
        new_copy(9_000 + mixed(n), own, condition="missing")
        for number in (4_000 + n, 5_000 + n, 6_000 + n):
            new_copy(number, tall)
        new_copy(7_000 + n, tall, condition=("present", "missing", "withdrawn")[n % 3])
        new_hold(4 * n + 1, patron, own, 2)
        # every third one in the line has a first day, which has come or is to come
        first = {"first": library.today + datetime.timedelta(n % 7 - 5)} if n % 3 == 0 else {}
        new_hold(4 * n + 2, patron, tall, 1 + n % 2, **first)
        new_hold(4 * n + 3, 1, tall, 2, state="ready", copy=5_000 + mixed(n), limit=library.today)
        new_hold(4 * n + 4, 2, tall, 2)
        library.transits[6_000 + mixed(n)] = (2, 4 * n + 4) if n % 2 else (2, None)
        loan = {"copy": 4_000 + mixed(n), "patron": patron, "branch": 1, "made": day, "due": day, "period": 6, "renewals": 1, "rate": 20, "cap": 100, "grace": 0, "ended": None}
        library.loans.update({2 * n + 1: loan, 2 * n + 2: {**loan, "copy": 10, "ended": library.today}})
        line = {"day": library.today, "sort": "price", "amount": 10 + n, "loan": 2 * n + 2, "at": None, "text": None}
        library.lines += [{**line, "patron": patron}, {**line, "patron": 3}, {**line, "patron": 3, "sort": ("payment", "waiver")[n % 2], "amount": 5, "loan": None}]
        # charges and payments at both counters, on two days
        made = {**line, "patron": 3, "day": (library.today, day)[n % 3 // 2], "loan": None, "at": 1 + n % 2}
        library.lines += [{**made, "sort": "charge", "amount": 7 + n, "text": f"Copies {n}"},
                          {**made, "sort": "payment", "amount": 3}]
        library.barcodes.update({("copy", 4_000 + mixed(n)): f"c{n}", ("patron", patron): f"{n:05}"})
        library.closed[1].add(library.today + datetime.timedelta(1 + 3 * mixed(n)))
        library.closed[1].add(day - datetime.timedelta(n % 90))
    # a hold whose copy travels for none is in the line behind it
    for n in range(0, MANY, 2):
        library.holds[4 * n + 4]["state"] = "cancelled"


def put_in(path, library):
    """Writes the rows of the rules past the desk."""
    with closing(sqlite3.connect(path)) as db, db:
        for name, found in library.tables().items():
            db.execute(f"DELETE FROM {name}")
            for row in found:
                db.execute(f"INSERT INTO {name} VALUES ({', '.join('?' * len(row))})", row)


LONG_LISTS = [["copies", "900"], ["queue", "900"], ["account", "3"], ["debts"], ["overdue", "1"], ["shelf", "2"], ["pulls", "1"], ["pulls", "2"], ["transits", "2"], ["closed-days", "1"],
              ["missing-copies"], ["loans", "10"]]


def number_of(row):
    """The number of a row of a list: the first in it, or that of a day."""
    if row.startswith("day "):
        return (datetime.date.fromisoformat(row.removeprefix("day ")) - EPOCH).days
    return int(re.search("[0-9]+", row)[0])


def asked_from(words, after):
    """The words by which a list is asked for from a number on: the number stands last, and before the text of a
    search."""
    return [words[0], after, *words[1:]] if words[0] in SEARCHES else [*words, after]


def walked(path, library, words):
    """A list asked for again and again to its end, each part being that of the rules: the numbers of its rows."""
    found, after, heads = [], "0", {"copies": 1, "queue": 1, "account": 1, "overdue": 1, "shelf": 1}.get(words[0], 0)
    while after:
        asked = asked_from(words, after)
        wanted = library.handle("w", asked)
        check(f"{asked}", answers(path, "w", asked), (wanted + "\n", 0))
        *rows_, end = wanted.split("\n")[heads:]
        found += map(number_of, rows_)
        after = end.removeprefix("after ") if end != "end" else ""
    return found


def long_lists(folder):
    """Lists of many rows, part by part: each is that of the rules, from whatever number on it is asked for, and each
    row is shown once. So it is without the five indexes that came last in schema 3, and with those
    made by hand."""
    path, library = os.path.join(folder, "lists.db"), Library()
    say(path, GROUND)
    for key, words, _ in GROUND:
        library.handle(key, words)
    with_long_lists(library)
    put_in(path, library)
    the_rows_are(path, library)
    lengths = {}
    for words in LONG_LISTS:
        numbers = walked(path, library, words)
        lengths[" ".join(words)] = len(numbers)
        check(f"the numbers of {words}", numbers, sorted(set(numbers)))
        for after in {0, 1, *(numbers[at] for at in (0, 1, -1, -2, -MOST_ROWS, -MOST_ROWS - 1, -MOST_ROWS - 2)), numbers[0] - 1, numbers[-1] + 1, 2**32 - 1}:
            asked = [*words, str(after)]
            check(f"{asked}", answers(path, "a", asked), (library.handle("a", asked) + "\n", 0))
    check(f"lists are long: {lengths}", [it for it, many in lengths.items() if many < MANY - 60], [])
    check("lists of a hundred rows twice and one more", sum(many == MANY for many in lengths.values()) > 3, True)
    for words in [[name, *branch, str(library.today - datetime.timedelta(days))] for days in (0, 1, 9) for name,
                  *branch in (["till"], ["till-at", "1"], ["till-at", "2"])]:
        check(f"{words}", answers(path, "a", words), (library.handle("a", words) + "\n", 0))
    for words in [["find-barcode", it] for it in [*library.barcodes.values()][::29]] + [["borrower",
        str(2_000 + n)] for n in range(0, MANY, 29)]:
        check(f"{words}", answers(path, "a", words), (library.handle("a", words) + "\n", 0))
    for number in [*library.copies][::7]:
        check(f"copy {number}", answers(path, "a", ["copy", str(number)]), (library.handle("a", ["copy", str(number)]) + "\n", 0))
    made, old = "SELECT name, sql FROM sqlite_schema WHERE type = 'index' AND sql IS NOT NULL ORDER BY name", os.path.join(folder, "older.db")
    shutil.copy(path, old)
    before = rows(old, made)
    write(old, *(f"DROP INDEX {text.split()[2]}" for text in LAST_INDEXES))
    check("five indexes are gone", len(rows(old, made)), len(before) - 5)
    for words in LONG_LISTS:
        check(f"{words} without the indexes", walked(old, library, words), walked(path, library, words))
    write(old, *LAST_INDEXES)
    check("the indexes, made by hand", rows(old, made), before)
    for words in LONG_LISTS:
        check(f"{words} with the indexes made by hand", walked(old, library, words), walked(path, library, words))
    the_rows_are(old, library)


def a_search_of_five_thousand(folder):
    """Titles of a copies file: a search stops at the 5,000th row that it looks at, or at the hundredth that it finds,
    and goes on where a row is left. By words, by POST /desk with eight workers and by `circ send` it is answered the
    same."""
    path, copies = os.path.join(folder, "volumes.db"), os.path.join(folder, "volumes.csv")
    say(path, [*GROUND, ("a1", ["acquire", "40", "400", "1", "2", "900", "2 × 2 Œuvres"], "ok")])
    each = range(20_001, 25_001)
    with open(copies, "w", encoding="utf-8") as file:
        file.write(HEADER + "".join(f"{n},{n},Volume,1,1,100,end\n" for n in each))
    check("the volumes", take_in(path, copies), ("".join(f"row {at} ok\n" for at in range(1, len(each) + 1)) + "accepted 5000 refused 0\n", 0))
    say(path, [("a2", ["acquire", "25001", "25001", "1", "1", "100", "Zebra Crossings"], "ok"), ("a3", ["acquire", "25002", "25002", "1", "1", "100", "Volume"], "ok")])
    zebra = "title 25001 Zebra Crossings"
    searches = [
        # four titles stand before 20001
        (["0", "zebra"], "after 24996"),
        (["24996", "zebra"], f"{zebra}\nend"),
        (["20000", "zebra"], "after 25000"),
        (["20001", "zebra"], f"{zebra}\nafter 25001"),
        (["20002", "zebra"], f"{zebra}\nend"),
        (["0", "volume"], "".join(f"title {n} Volume\n" for n in range(20_001, 20_101)) + "after 20100"),
        # exactly 5,000 rows are left, and the last hundred of them
        (["20002", "nothing"], "end"),
        (["20001", "nothing"], "after 25001"),
        (["24901", "volume"], "".join(f"title {n} Volume\n" for n in (*range(24_902, 25_001), 25_002)) + "end"),
        (["24900", "volume"], "".join(f"title {n} Volume\n" for n in range(24_901, 25_001)) + "after 25000"),
    ]
    for words, wanted in searches:
        check(f"{words}", answers(path, "s1", ["find-titles", *words]), (wanted + "\n", 0))
    with Serving(path, 2 * len(searches), workers=8) as serving:
        for words, wanted in searches:
            check(f"{words} posted", serving.desk("s1", ["find-titles", *words]), told(wanted))
            run = subprocess.run([PROGRAM, "send", str(serving.port), DESK_KEY, "s1", "find-titles", *words], capture_output=True, timeout=60)
            check(f"{words} sent", (run.stdout, run.stderr, run.returncode), (told(wanted)[1] + b"\n", b"", 0))


# So many rows of patrons and of titles more, whose numbers aren't one after another.
NAMED = 12_000
SEARCHED = [["find-patrons", "zoe sand"], ["find-patrons", "carr 1"], ["find-patrons", "nobody"], ["find-titles", "arorikke"], ["find-titles", "vol 7"], ["find-titles", "nothing"]]


def long_searches(folder):
    """Searches of many rows, part by part: each is that of the rules, from whatever number on it is asked for, and
    each row that is found is shown once. They take the memory of a part of the rows."""
    path, library, out = os.path.join(folder, "named.db"), Library(), os.path.join(folder, "named.txt")
    say(path, GROUND)
    for key, words, _ in GROUND:
        library.handle(key, words)
    for n in range(1, NAMED + 1):
        number = 1_000 + n * 3 + n % 2
        library.patrons[number] = {"kind": 1, "card_key": f"card{n:08}", "name": f"Zoë Sand-{n}" if n % 97 == 0 else f"Ann Carr {n}" if n % 2 else f"Bo Łuć {n}"}
        library.titles[number] = f"Ærørikke {n}" if n > 10_000 and n % 7 == 0 else f"Volume {n}"
    put_in(path, library)
    parts = Counter()
    for words in SEARCHED:
        names = {n: row["name"] for n, row in library.patrons.items()} if words[0] == "find-patrons" else library.titles
        numbers = walked(path, library, words)
        check(f"each row that {words} finds", numbers, sorted(n for n, name in names.items() if finds(words[1], name)))
        parts[len(numbers) > MOST_ROWS, not numbers] += 1
        above = sorted(names)
        for after in {0, 1, above[0], above[-1], above[-2], above[-MOST_LOOKED_AT], above[-MOST_LOOKED_AT - 1], above[-MOST_LOOKED_AT - 2], *numbers[:1], *numbers[-MOST_ROWS - 1:-MOST_ROWS + 2], 2**32 - 1}:
            asked = asked_from(words, str(after))
            check(f"{asked}", answers(path, "a", asked), (library.handle("a", asked) + "\n", 0))
    check(f"searches that find more than a hundred rows, and none: {parts}", parts[True, False] > 2 and parts[False, True] > 1, True)
    least, status = memory_of(["file", path, "a1", "today"], out)
    check("today in a library of many names", status, 0)
    for words in SEARCHED:
        most, status = memory_of(["file", path, "a1", *asked_from(words, "0")], out)
        check(f"{most - least} KiB for {words}, of {ROOM}", (status, most - least < ROOM), (0, True))
    the_rows_are(path, library)


def main():
    with tempfile.TemporaryDirectory() as folder:
        part(reports, folder)
        part(a_long_line, folder)
        part(a_line_with_first_days, folder)
        part(a_long_report, folder)
        part(long_lists, folder)
        part(a_search_of_five_thousand, folder)
        part(long_searches, folder)


if __name__ == "__main__":
    run_script(main)
