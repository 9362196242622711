#!/usr/bin/env python3
"""Moves a generated town in by `tools/move-in`: killed in the middle, again and to its end, and then once more. Each due
day, place in line and debt is compared with the exports, and bad rows of each kind are told.

    tests/gate/move_in.py [--whole]

With --whole the town is as large as a real one.
"""

import csv
import datetime
import os
import random
import signal
import stat
import subprocess
import sys
import tempfile
import time

from room import TOP
from enrol import a_desk
from lib.checking import check, need, part, run_script
from lib.messages import told_refusal
from lib.runs import IN_MEMORY, LONGEST_RUN, circ, rows_now
from lib.serving import DESK_KEY

sys.path.insert(0, os.path.join(TOP, "tools"))

from circ_client import Desk, Refused

MOVE_IN = os.path.join(TOP, "tools", "move-in")
IS_WHOLE = sys.argv[1:] == ["--whole"]
PATRONS, ITEMS, ISSUES, RESERVES, DEBTS = (10_000, 50_000, 5_000, 745, 585) if IS_WHOLE else (120, 400, 90, 40, 30)
PERIODS = 60
DAY = datetime.date(2026, 3, 2)
FIRST = datetime.date(2025, 12, 1)
EPOCH = datetime.date(1970, 1, 1)
BRANCHES, KINDS = {"MAIN": 1, "HARB": 2}, {"ADULT": 1, "STAFF": 1, "CHILD": 2}
OF_COPIES = {"BK": 1, "DVD": 2, "REF": 3}
RULES = {(1, 1): (28, 2, 20, 1000, 0), (1, 2): (7, 1, 50, 2000, 1), (2, 1): (28, 3, 10, 500, 3),
         (2, 2): (7, 0, 25, 1000, 0)}
TABLE = """\
# filled in
day 2026-03-02
branch MAIN 1 5 Main Library
branch HARB 2 3 Harbour
patrons ADULT 1 5 5 500
patrons STAFF 1 5 5 500
patrons CHILD 2 3 2 200
copies BK 1
copies DVD 2
copies REF 3
rule 1 1 28 2 20 1000 0
rule 1 2 7 1 50 2000 1
rule 2 1 28 3 10 500 3
rule 2 2 7 0 25 1000 0
week 1 ooooooc
week 2 coooooc
close-day 1 2026-12-24
close-day 2 2026-12-25
"""
HEADERS = {
    "borrowers": "borrowernumber cardnumber surname firstname branchcode categorycode email",
    "items": "itemnumber biblionumber barcode homebranch itype title author replacementprice itemlost withdrawn",
    "issues": "issue_id borrowernumber itemnumber branchcode issuedate date_due renewals_count",
    "reserves": "reserve_id borrowernumber biblionumber branchcode priority found itemnumber reservedate suspend suspend_until",
    "accountlines": "accountlines_id borrowernumber date description amount amountoutstanding branchcode",
}


class Town:
    """A town as Koha would have it: the good rows of each file, the bad ones with their causes, and what the library
    is to have."""

    def __init__(self, seed):
        self.dice = random.Random(seed)
        self.rows, self.bad = {name: [] for name in HEADERS}, {name: [] for name in HEADERS}
        self.people()
        self.items()
        self.issues()
        self.reserves()
        self.debts()
        self.bad_rows()

    def people(self):
        numbers = self.dice.sample(range(1, 5 * PATRONS), PATRONS)
        first, last = ["Ann", "J\u00f3n", "Zo\u00eb", "Di \"D\"", ""], ["Bell", "\u00deor", "Carr, jr", "O'Hara"]
        for at, number in enumerate(numbers):
            cells = [number, f"2{at:013}" if at % 7 else "", self.dice.choice(last), self.dice.choice(first)]
            self.rows["borrowers"].append([*cells, self.dice.choice([*BRANCHES]), self.dice.choice([*KINDS]),
                                           "x@y.example"])
        self.patrons = {row[0]: row for row in self.rows["borrowers"]}

    def items(self):
        numbers = self.dice.sample(range(1, 5 * ITEMS), ITEMS)
        for at, number in enumerate(numbers):
            title = 1 + at * 2 // 5
            kind = "REF" if title % 20 == 0 else self.dice.choice(["BK", "BK", "DVD"])
            price = self.dice.choice(["25.000000", "9.50", "", "0.05"])
            lost, author = int(at % 37 == 36), "" if title % 3 else "M\u00e4rz, A."
            self.rows["items"].append([number, title, f"3{at:013}" if at % 9 else "", self.dice.choice([*BRANCHES]),
                                       kind, f"Title {title}, \"the\" first /", author, price, lost, 0])
        self.copies = {row[0]: row for row in self.rows["items"]}

    def issues(self):
        """Each of many periods, some of them after a renewal, and some at another branch than the copy's."""
        lendable = [row[0] for row in self.rows["items"] if row[4] != "REF" and not row[8]]
        days = self.dice.sample(range(3, 300), PERIODS)
        for at, item in enumerate(self.dice.sample(lendable, ISSUES)):
            made = FIRST + datetime.timedelta(self.dice.randrange((DAY - FIRST).days + 1))
            due = made + datetime.timedelta(days[at % PERIODS])
            branch = self.copies[item][3] if at % 4 else self.dice.choice([*BRANCHES])
            self.rows["issues"].append([at + 1, self.dice.choice([*self.patrons]), item, branch, f"{made} 10:15:00",
                                        f"{due} 23:59:00", at % 3])
        self.lent = {row[2]: row for row in self.rows["issues"]}

    def reserves(self):
        """Lines of several holds, in no order in the file; of some titles the first has a copy already."""
        titles = {}
        for row in self.rows["items"]:
            titles.setdefault(row[1], []).append(row[0])
        has = {(row[1], self.copies[row[2]][1]) for row in self.rows["issues"]}
        left, number = RESERVES, 0
        for title in self.dice.sample([*titles], len(titles)):
            free = [it for it in self.patrons if (it, title) not in has]
            size = min(left, self.dice.randrange(1, 6))
            for at, patron in enumerate(self.dice.sample(free, size)):
                number += 1
                copy = next((it for it in titles[title] if it not in self.lent and not self.copies[it][8]), "")
                found = self.dice.choice(["W", "T", ""]) if at == 0 and copy else ""
                first = DAY + datetime.timedelta(9) if at == 1 and number % 4 == 0 else DAY - datetime.timedelta(30)
                suspend, until = (1, f"{DAY + datetime.timedelta(20)} 00:00:00") if at == 2 and number % 3 == 0 else (0, "")
                self.rows["reserves"].append([0, patron, title, self.dice.choice([*BRANCHES]), 0 if found else at + 1,
                                              found,
                                              copy if found else "", first, suspend, until])
            left -= size
            if not left:
                break
        self.dice.shuffle(self.rows["reserves"])
        for at, row in enumerate(self.rows["reserves"], 1):
            row[0] = at

    def debts(self):
        for at in range(DEBTS):
            amount = self.dice.choice(["2.500000", "0.05", "10", "12.30", "0.000000"])
            self.rows["accountlines"].append([at + 1, self.dice.choice([*self.patrons]),
                                              FIRST + datetime.timedelta(at % 40),
                                              f"Overdue,  item {at}" if at % 5 else "x" * 130, "99.00", amount,
                                              self.dice.choice(["MAIN", "HARB", ""])])

    def bad_rows(self):
        """Rows of each kind that can't be carried over, in whole or in part."""
        adult = next(it for it, row in self.patrons.items() if row[5] == "ADULT")
        on_loan, lent = next((row[2], row[1]) for row in self.rows["issues"])
        free = [it for it, row in self.copies.items() if it not in self.lent and not row[8] and row[4] != "REF"
                and not any(row[1] == hold[2] for hold in self.rows["reserves"])]
        reference = next(it for it, row in self.copies.items() if row[4] == "REF" and not row[8])
        lost = next(it for it, row in self.copies.items() if row[8] and row[4] != "REF")
        taken_card, taken_label = (next(row[at] for row in self.rows[it] if row[at])
                                   for it, at in (("borrowers", 1), ("items", 2)))
        held = next((row[1], row[2]) for row in self.rows["reserves"])
        number = "is no number from 1 to 9999999"
        self.bad["borrowers"] = [
            (["x", "", "Bell", "Ann", "MAIN", "ADULT", ""], f"its borrowernumber {number}: x"),
            (["10000000", "", "Bell", "Ann", "MAIN", "ADULT", ""], f"its borrowernumber {number}: 10000000"),
            ([adult, "", "Bell", "Ann", "MAIN", "ADULT", ""],
             f"borrowernumber {adult} stands in row {1 + [*self.patrons].index(adult)} too"),
            ([9_000_001, "", "Bell", "Ann", "MAIN", "GUEST", ""], "its categorycode is not in table.txt: GUEST"),
            ([9_000_002, "", "", "", "MAIN", "ADULT", ""],
             "its name is empty, begins with a hyphen, or has a control character"),
            ([9_000_003, "12-3", "Part", "Ly", "MAIN", "ADULT", ""],
             "it is carried over without its cardnumber, which is not 1 to 24 letters and digits: 12-3"),
            ([9_000_004, taken_card, "Part", "Two", "NONE", "ADULT", ""], f"patron-barcode {told_refusal(26)}"),
        ]
        item = lambda number, title=900_000, label="", home="MAIN", kind="BK", text="Odd", price="1.00", withdrawn=0: [
            number, title, label, home, kind, text, "", price, 0, withdrawn]
        self.bad["items"] = [
            (item(0), f"its itemnumber {number}: 0"), (item(9_000_001, "x"), f"its biblionumber {number}: x"),
            (item(9_000_002, withdrawn=1), "it is withdrawn"),
            (item(9_000_003, text="/"),
             "its title is empty, begins with a hyphen, or has a control character"),
            (item(9_000_004, price="10000.01"), "its replacementprice is not from 0 to 10000: 10000.01"),
            (item(9_000_005, price="dear"), "its replacementprice is no amount: dear"),
            (item(9_000_006, kind="MAP"), "its itype is not in table.txt: MAP"),
            (item(9_000_007, home="HILL"), "its homebranch is not in table.txt: HILL"),
            (item(9_000_008, 1), "biblionumber 1 has another title in row 1"),
            (item(9_000_009, label=taken_label), f"copy-barcode {told_refusal(26)}"),
        ]
        issue = lambda patron, item, branch="MAIN", made=DAY, due=DAY + datetime.timedelta(14): [0, patron, item, branch, made, due, 0]
        many = iter(free)
        self.bad["issues"] = [
            (issue(9_000_001, next(many)), "its patron is not carried over: borrowernumber 9000001"),
            (issue(adult, 9_000_002), "its copy is not carried over: itemnumber 9000002"),
            (issue(adult, next(many), "HILL"), "its branchcode is not in table.txt: HILL"),
            (issue(adult, next(many), made="yesterday"),
             "its issuedate begins with no day such as 2026-03-02: yesterday"),
            (issue(adult, next(many), due=""), "its date_due begins with no day such as 2026-03-02: nothing"),
            (issue(adult, next(many), due=DAY),
             "it is due 0 days after it was made, and a loan has 1 to 365"),
            (issue(adult, next(many), made=FIRST, due=FIRST + datetime.timedelta(366)),
             "it is due 366 days after it was made, and a loan has 1 to 365"),
            (issue(adult, next(many), made=DAY + datetime.timedelta(1)),
             "it was made after 2026-03-02, the day of table.txt"),
            (issue(adult, reference), "table.txt has no rule for patrons of kind 1 and copies of kind 3"),
            (issue(adult, on_loan), f"itemnumber {on_loan} stands in row 1 too"),
        ]
        self.part_lost = issue(adult, lost, self.copies[lost][3])
        self.bad["issues"].append((self.part_lost, "it is carried over as a loan, and its itemlost is not"))
        reserve = lambda at, patron, title, found="", item="", suspend=0: [100_000 + at, patron, title, "MAIN", 90 + at, found, item, DAY, suspend, ""]
        title_of = self.copies[on_loan][1]
        self.bad["reserves"] = [
            (reserve(0, 9_000_001, 1), "its patron is not carried over: borrowernumber 9000001"),
            (reserve(1, adult, 9_000_000), "its title is not carried over: biblionumber 9000000"),
            (reserve(2, adult, self.copies[free[-1]][1], suspend=1), "it is suspended, and no day says until when"),
            (reserve(3, lent, title_of), f"place-hold {told_refusal(52)}"),
            (reserve(4, *held), f"place-hold {told_refusal(50)}"),
        ]
        line = lambda at, patron, amount, date=DAY, branch="MAIN": [100_000 + at, patron, date, "Odd", "1", amount,
                                                                    branch]
        self.bad["accountlines"] = [
            (line(0, adult, "-2.00"), "its amountoutstanding is not from 0 to 10000: -2.00"),
            (line(1, adult, "10000.01"),
             "its amountoutstanding is not from 0 to 10000: 10000.01"),
            (line(2, adult, "much"), "its amountoutstanding is no amount: much"),
            (line(3, adult, "0.005"), "its amountoutstanding is no amount: 0.005"),
            (line(4, 9_000_001, "1"), "its patron is not carried over: borrowernumber 9000001"),
            (line(5, adult, "1", "then"),
             "its date begins with no day such as 2026-03-02: then"),
            (line(6, 9_000_004, "1", branch=""), "neither its branchcode nor the patron's is in table.txt"),
        ]

    def write(self, folder):
        for name, header in HEADERS.items():
            with open(os.path.join(folder, f"{name}.csv"), "w", encoding="utf-8", newline="") as file:
                csv.writer(file).writerows([header.split(" "), *self.rows[name], *(row for row, _ in self.bad[name])])

    def told(self):
        return [f"{name}.csv row {len(self.rows[name]) + at}: {why}" for name in HEADERS
                for at, (_, why) in enumerate(self.bad[name], 1)]


def number(day):
    return (day - EPOCH).days


def day_of(text):
    return datetime.date.fromisoformat(str(text)[:10])


def move_in(*words):
    """What a run prints, what it says on standard error, and its status."""
    told = subprocess.run([sys.executable, MOVE_IN, *words], capture_output=True, text=True,
                          timeout=LONGEST_RUN * (20 if IS_WHOLE else 1), check=False)
    return told.stdout, told.stderr, told.returncode


def put(folder, name, text):
    with open(os.path.join(folder, name), "w", encoding="utf-8") as file:
        file.write(text)


def tables(folder):
    """The table is made with the codes that are there; one that isn't filled in is told, line by line, and so are
    wrong lines."""
    Town(1).write(folder)
    path = os.path.join(folder, "table.txt")
    check("no table yet", move_in(folder), (f"{path} is made: fill it in\n", "", 0))
    with open(path, encoding="utf-8") as file:
        lines = [it for it in file.read().splitlines() if not it.startswith("#")]
    codes = ["branch HARB ? ? ?", "branch HILL ? ? ?", "branch MAIN ? ? ?", "branch NONE ? ? ?",
             "patrons ADULT ? ? ? ?", "patrons CHILD ? ? ? ?", "patrons GUEST ? ? ? ?", "patrons STAFF ? ? ? ?",
             "copies BK ?", "copies DVD ?", "copies MAP ?", "copies REF ?"]
    check("its lines", lines, ["day ?", *codes, "rule ? ? ? ? ? ? ?"])
    told = move_in(folder)
    check("one that isn't filled in", (told[0], told[1].count("it is not filled in"), told[2]),
          ("", len(codes) + 2, 4))
    for line, why in (("close-day 1 2026-02-30", "it has no such day"), ("town x", "it is no line of the table"),
                      ("rule 1 1 28", "it is no line of the table"),
                      ("branch MAIN 3 5 Main", "this code has another number in a line before it"),
                      ("rule 1 1 27 2 20 1000 0", "a line before it says something else"),
                      ("patrons OLD 1 6 6 6", "a line before it says something else"),
                      ("week 1 open", "it is no line of the table")):
        put(folder, "table.txt", f"{TABLE}{line}\n")
        check(line, move_in(folder),
              ("", f"move-in: {path}: line {TABLE.count(chr(10)) + 1}: {why}\nmove-in: nothing was sent\n", 4))
    put(folder, "table.txt", TABLE.replace("day 2026-03-02\n", ""))
    check("no day", move_in(folder), ("", f"move-in: {path}: it has no line with the day\nmove-in: nothing was sent\n",
                                      4))
    put(folder, "table.txt", TABLE)
    items = os.path.join(folder, "items.csv")
    put(folder, "items.csv", "itemnumber,title\n")
    check("columns that are not there", move_in(folder), ("",
                                                          f"move-in: {items}: its first line has no column biblionumber, barcode, homebranch, itype\n", 4))
    os.remove(items)
    check("a file that isn't there", move_in(folder),
          ("", f"move-in: {items} can't be read: No such file or directory\n", 3))
    for words in ((), (folder, "8080"), (folder, "8080", DESK_KEY, "x"), ("",)):
        check(f"the words {words}", move_in(*words), ("", "usage: move-in FOLDER [PORT DESKKEY|@KEYFILE]\n", 4))
    check("a port", move_in(folder, "x", DESK_KEY), ("", "move-in: the port is no number from 1 to 65535\n", 4))


def killed_when(words, is_so):
    """Kills a run once something is so."""
    with subprocess.Popen([sys.executable, MOVE_IN, *words], stdout=subprocess.PIPE, stderr=subprocess.PIPE,
                          text=True) as run:
        while not is_so():
            need("the run is at work", run.poll(), None)
            time.sleep(0.02)
        run.kill()
        check("what it told when it was killed", (run.communicate(), run.returncode), (("", ""), -signal.SIGKILL))


def moved(folder):
    """A town, killed at three places, and run again: all of it is there once. Once more, and nothing changes."""
    town, path = Town(20_261_201), os.path.join(folder, "town.db")
    town.write(folder)
    put(folder, "table.txt", TABLE)
    told = move_in(folder)
    at_desk = [it for it in town.told() if "refused" in it]
    check("what is told before", (told[0].splitlines()[:-1], told[1:]),
          ([it for it in town.told() if it not in at_desk], ("", 2)))
    check("the first day", circ(["file", path, "day", "begin-day", str(FIRST - datetime.timedelta(1))]), ("ok", 0))
    with a_desk(path) as (_, port):
        desk, words = Desk(int(port), DESK_KEY), (folder, port, DESK_KEY)
        today = lambda: datetime.date.fromisoformat(desk.ask("today").split(" ")[1])
        killed_when(words, lambda: is_known(desk, "copy", [*town.copies][ITEMS // 2]))
        killed_when(words, lambda: today() >= FIRST + (DAY - FIRST) / 2)
        killed_when(words, lambda: today() == DAY)
        out, err, status = move_in(*words)
        lines = out.splitlines()
        # those that the desk refused are told last, in the order in which they were sent
        check("what is told", (sorted(lines[:-1]), err, status), (sorted(town.told()), "", 2))
        debts = sum(float(row[5]) > 0 for row in town.rows["accountlines"])
        done = f"{PATRONS + 2} patrons, {ITEMS + 1} copies, {ISSUES + 1} loans, {RESERVES} holds, {debts} debts; {len(town.told())} rows are told"
        check("how much is there", lines[-1], done)
    part(compared, town, path, folder)
    before = all_rows(path)
    with a_desk(path) as (_, port):
        check("once more", (sorted(move_in(folder, port, DESK_KEY)[0].splitlines()[:-1])), sorted(town.told()))
    check("nothing is changed by that", all_rows(path), before)
    check("the audit", circ(["audit", path]), ("sound", 0))


def is_known(desk, *words):
    try:
        return bool(desk.ask(*words))
    except Refused:
        return False


def all_rows(path):
    """All that the library has, but for the keys of settings that were set again."""
    names = ("meta", "branches", "closed_days", "kinds", "rules3", "patrons", "titles", "copies", "loans3", "holds2",
             "transits", "lines", "barcodes", "notes")
    return {name: rows_now(path, f"SELECT * FROM {name} ORDER BY 1, 2") for name in names}


def compared(town, path, folder):
    """The rows of the library are those of the exports."""
    is_extra = "patron NOT IN (9000003, 9000004)"
    name = lambda row: " ".join(f"{row[3]} {row[2]}".split())
    with open(os.path.join(folder, "card-keys.csv"), encoding="utf-8", newline="") as file:
        keys = {int(row[0]): row[2] for row in list(csv.reader(file))[1:]}
    check("who may read the card keys", stat.S_IMODE(os.stat(os.path.join(folder, "card-keys.csv")).st_mode), 0o600)
    check("each has another card key", (len(keys), len(set(keys.values()))), (PATRONS + 2, PATRONS + 2))
    check("the patrons", rows_now(path,
                                  f"SELECT patron, kind, card_key, name FROM patrons WHERE {is_extra} ORDER BY patron"),
          sorted((it, KINDS[row[5]], keys[it], name(row)) for it, row in town.patrons.items()))
    text = lambda row: row[5].rstrip(" /") + (" / M\u00e4rz, A" if row[6] else "")
    cents = lambda amount: round(100 * float(amount or 0))
    lost = {row[0] for row in town.rows["items"] if row[8]} - {town.part_lost[2]}
    check("the copies", rows_now(path,
                                 "SELECT copy, title, text, kind, home, price, condition FROM copies JOIN titles USING (title) WHERE copy <> 9000009 ORDER BY copy"),
          sorted((it, row[1], text(row), OF_COPIES[row[4]], BRANCHES[row[3]], cents(row[7]), int(it in lost))
                 for it, row in town.copies.items()))
    check("the barcodes", rows_now(path, "SELECT sort, number, barcode FROM barcodes ORDER BY sort, number"),
          sorted((sort, row[0], row[at]) for sort, file, at in ((0, "borrowers", 1), (1, "items", 2))
                 for row in town.rows[file] if row[at]))
    loans = []
    for _, patron, item, branch, made, due, renewals in [*town.rows["issues"], town.part_lost]:
        made, due, rule = day_of(made), day_of(due), RULES[KINDS[town.patrons[patron][5]],
                                                           OF_COPIES[town.copies[item][4]]]
        loans.append((item, patron, BRANCHES[branch], number(made), number(due), max(0, rule[1] - renewals), *rule[2:],
                      None))
    check("the loans, with their due days",
          rows_now(path, "SELECT copy, patron, branch, made, due, renewals_left, rate, cap, grace, ended FROM loans3 ORDER BY copy"), sorted(loans))
    check("periods", len({due - made for _, _, _, made, due, *_ in loans}) >= PERIODS, True)
    lines = {}
    for row in sorted(town.rows["reserves"], key=lambda row: (row[2], row[4], row[0])):
        first = number(DAY) + 20 if row[8] else number(row[7]) if row[7] > DAY else None
        travels = row[5] and (BRANCHES[row[3]] != BRANCHES[town.copies[row[6]][3]])
        is_ready = row[5] == "W" or (row[5] == "T" and not travels)
        lines.setdefault(row[2], []).append((row[1], BRANCHES[row[3]], int(is_ready), row[6] if is_ready else None,
                                             first))
    found = {}
    for title, *hold in rows_now(path,
                                 "SELECT title, patron, branch, state, copy, first_day FROM holds2 ORDER BY hold"):
        found.setdefault(title, []).append(tuple(hold))
    check("the holds, in their places", found, lines)
    on_way = sorted((row[6], BRANCHES[row[3]]) for row in town.rows["reserves"] if row[5] == "T"
                    and row[3] != town.copies[row[6]][3])
    check("copies that travel for a hold",
          rows_now(path, "SELECT copy, goal FROM transits WHERE hold IS NOT NULL ORDER BY copy"), on_way)
    check("none travels for no hold", rows_now(path, "SELECT count(*) FROM transits WHERE hold IS NULL"), [(0,)])
    check("there are some of each", (len(on_way) > 0, {it[2] for holds in lines.values() for it in holds}),
          (True, {0, 1}))
    debts = []
    for _, patron, day, words, _, amount, branch in town.rows["accountlines"]:
        if float(amount):
            words = " ".join(f"{day} {words}".split())
            words = words if len(words) <= 120 else f"{day}…"
            debts.append((patron, number(DAY), 4, cents(amount), BRANCHES[branch or town.patrons[patron][4]], words))
    check("the debts", sorted(rows_now(path,
                                       "SELECT patron, day, sort, amount, branch, text FROM lines JOIN notes USING (line)")), sorted(debts))
    check("no other line", rows_now(path, "SELECT count(*) FROM lines"), [(len(debts),)])
    check("the rules", rows_now(path,
                                "SELECT kind, copy_kind, period, renewals, rate, cap, grace FROM rules3 ORDER BY 1, 2"), sorted((*kinds, *rule) for kinds, rule in RULES.items()))
    check("the kinds", rows_now(path, "SELECT * FROM kinds ORDER BY 1"), [(1, 5, 5, 500), (2, 3, 2, 200)])
    check("the branches", rows_now(path, "SELECT branch, pickup, week, name FROM branches ORDER BY 1"),
          [(1, 5, "ooooooc", "Main Library"), (2, 3, "coooooc", "Harbour")])
    check("closed days", rows_now(path, "SELECT * FROM closed_days ORDER BY 1"),
          [(1, number(datetime.date(2026, 12, 24))), (2, number(datetime.date(2026, 12, 25)))])
    check("today", rows_now(path, "SELECT today FROM meta"), [(number(DAY),)])
    check("the audit", circ(["audit", path]), ("sound", 0))


def main():
    for tried in (tables, moved):
        with tempfile.TemporaryDirectory(dir=IN_MEMORY) as folder:
            part(tried, folder)


if __name__ == "__main__":
    run_script(main)
