#!/usr/bin/env python3
"""Stories: requests by words with the lines that answer them, run by the program on real files.

    tests/gate/stories.py [--rules] [FILE ..]      the stories of these files of tests/data/stories, or of all; with --rules without the program, by the rules in plain Python alone

The stories stand in tests/data/stories/*.txt. Their answers are those of the rules, worked out by hand; none was taken
from the program. Each story has a library of its own: a copy of the small one that the fifteen requests of `GROUND`
make. As many stories are run at a time as there are processors. The lines of a story:

    story SENTENCE                 begins a story, and says what it shows
    new                            its library isn't there yet, in place of the small one
    after FILE                     the one story of that file comes before it, in the same library
    KEY WORDS.. -> ANSWER          a request and its answer; a word with blanks stands in quotes
    P/CARDKEY KEY WORDS.. -> ANSWER
                                   a request of patron P, who shows that card key: over the web, by the route of patrons for these
                                   words, or by the desk's where there is none
    weekly N KEY WORDS.. -> ANSWER N such requests, under KEY0, KEY1, .., each with a last word that is a week later
    counted N KEY WORDS.. -> ANSWER
                                   N such requests, each with a second word that is one more
    report WORDS.. -> ANSWER       a report; a fault may be its last line, after a beginning of it
    rows -> ANSWER                 a copies file, of the lines `< TEXT` that follow; \\u and four digits stand for a letter there
    pairs                          every ordered pair of the requests `& WORDS..` that follow, one after another in the one library
    sql TEXT                       what stock SQLite writes past the desk
    select TEXT -> VALUE           what stock SQLite finds: bars part columns, semicolons part rows
    damage TABLE.COLUMN LEAST GREATEST KEY WORDS..
                                   the request, or report, is told `fault 93` where that column holds a number past either limit,
                                   and something else where it holds what it held
    | TEXT                         a line of the answer, where that has several
    # TEXT                         a remark

The status of a run follows from its answer. Where a story writes nothing past the desk, its answers (those of pairs
too) and its rows at the end are compared with the rules in plain Python as well, and its rows with the laws of places,
holds and accounts, which `circ audit` looks at too.
"""

import copy
import datetime
import glob
import os
import re
import shlex
import shutil
import subprocess
import sys
import tempfile
import time
from concurrent.futures import ThreadPoolExecutor

from room import TOP
from lib.checking import check, count, fails, none, part, run_script
from lib.messages import makes_library, message
from lib.runs import GROUND, PROGRAM, rows, status_of, whole, write
from lib.serving import DESK_KEY, Serving, by_patron, told
from reference.desk_rules import Library
from reference.outer_forms import is_understood, said

KINDS = ("weekly", "counted", "report", "rows", "pairs", "sql", "select", "damage")
SILENT = ("pairs", "sql", "damage")  # lines with no answer of their own

# What no library may have, each by a text that finds it.
LAWS = {
    "a copy is in two places, or isn't there": """
        SELECT copy FROM (SELECT copy FROM loans3 WHERE ended IS NULL UNION ALL SELECT copy FROM holds2 WHERE state = 1
            UNION ALL SELECT copy FROM transits UNION ALL SELECT copy FROM copies WHERE condition > 0)
        GROUP BY copy HAVING COUNT(*) > 1 OR copy IS NULL OR copy NOT IN (SELECT copy FROM copies)""",
    "a ready hold has no present copy": """
        SELECT hold FROM holds2 WHERE state = 1 AND (copy IS NULL OR copy NOT IN (SELECT copy FROM copies WHERE condition = 0))""",
    "a hold that isn't ready names a copy or a limit": """
        SELECT hold FROM holds2 WHERE state <> 1 AND (copy IS NOT NULL OR limit_day IS NOT NULL)""",
    "a patron doesn't owe what the lines say": """
        SELECT patron FROM patrons WHERE owed <> (SELECT COALESCE(SUM(CASE WHEN sort IN (0, 1, 4) THEN amount ELSE -amount END), 0)
            FROM lines WHERE lines.patron = patrons.patron)""",
}


BY_RULES = 1_400  # so many answers at least are compared with the rules in plain Python in a run of all stories


class Step:
    """A line of a story with the lines that belong to it."""

    def __init__(self, place, line):
        self.place, self.given, self.answer = place, [], None
        if line.partition(" ")[0] not in SILENT:
            line, arrow, answer = f"{line} ".rpartition(" -> ")
            if not arrow:
                sys.exit(f"{place}: a line with no answer")
            self.answer = [answer[:-1]] if answer else []
        first, _, rest = line.partition(" ")
        self.patron = self.card_key = None
        if re.fullmatch("[0-9]+/[A-Za-z0-9]+", first):
            self.patron, self.card_key = int(first.partition("/")[0]), first.partition("/")[2]
            self.kind, self.text = "request", rest
        else:
            self.kind, self.text = (first, rest) if first in KINDS else ("request", line)

    def runs(self):
        """About how often the program is run for it."""
        return {"pairs": 2 * len(self.given) ** 2, "weekly": 400, "counted": 100, "damage": 3}.get(self.kind, 1)

    def by_rules(self, library, key, words):
        """The line that the rules give to one of its requests."""
        return said(library, DESK_KEY, self.patron, DESK_KEY if self.patron is None else self.card_key, key, words)

    def requests(self):
        """Its requests, each with its key."""
        if self.kind == "request":
            key, *words = shlex.split(self.text)
            yield key, words
        elif self.kind in ("weekly", "counted"):
            count, key, *words = shlex.split(self.text)
            for at in range(int(count)):
                yield f"{key}{at}", later(words, at) if self.kind == "weekly" else [words[0], str(int(words[1]) + at), *words[2:]]


def later(words, weeks):
    """The words with a last one that is so many weeks later."""
    return [*words[:-1], str(datetime.date.fromisoformat(words[-1]) + datetime.timedelta(7 * weeks))]


class Story:
    """A sentence and its steps, and what was found when they were run."""

    def __init__(self, place, name):
        self.place, self.name, self.is_new, self.steps = place, name, False, []
        self.compared, self.by_rules, self.differences = 0, 0, []

    def is_plain(self):
        """Whether nothing is written past the desk."""
        return not any(step.kind in ("sql", "rows", "damage") for step in self.steps)

    def compare(self, place, what, found, wanted):
        self.compared += 1
        if found != wanted:
            self.differences.append(f"{place}: {what}\n  found  {found!r}\n  wanted {wanted!r}")

    def run(self, small, rules, folder):
        """Runs the steps on a library of its own, made in the folder."""
        self.path = os.path.join(folder, "town.db")
        self.rules = (Library() if self.is_new else copy.deepcopy(rules)) if self.is_plain() else None
        if not self.is_new:
            shutil.copy(small, self.path)
        for step in self.steps:
            getattr(self, "do_" + step.kind)(step)
        if self.rules:
            self.look_at_laws(self.steps[-1].place)
            found = whole(self.path)
            for name, wanted in self.rules.tables().items():
                self.compare(self.place, f"rows of {name}", sorted(found[name], key=repr), sorted(wanted, key=repr))

    def look_at_laws(self, place):
        for law, text in LAWS.items():
            self.compare(place, law, rows(self.path, text), [])
        ran = subprocess.run([PROGRAM, "audit", self.path], capture_output=True, timeout=120)
        self.compare(place, "the audit", (ran.stdout, ran.returncode), (b"sound\n", 0))

    def send(self, step, words, lines, status):
        """One run of the program: its lines, its status, and what it says of them on standard error."""
        made = makes_library(words)
        ran = subprocess.run([PROGRAM, *words], capture_output=True, timeout=120)
        found = ran.stdout.decode().split("\n"), ran.returncode, ran.stderr
        self.compare(step.place, shlex.join(words), found, ([*lines, ""], status, message(words, "".join(f"{it}\n" for it in lines), made=made)))

    def ask_rules(self, step, what, found, lines):
        """The rules give the same lines."""
        self.by_rules += 1
        self.compare(step.place, f"the rules at {what}", found.split("\n"), lines)

    def ask(self, step, key, words, lines):
        """One request; the rules give the same lines, where its words are understood."""
        if step.patron is None:
            self.send(step, ["file", self.path, key, *words], lines, status_of(lines[0]))
        else:
            with Serving(self.path, 1) as serving:
                found = serving.ask(*by_patron(step.patron, step.card_key, key, words))[:2]
            self.compare(step.place, f"{key} {words} of {step.patron}", found, told("\n".join(lines)))
        if self.rules and status_of(lines[0]) != 4:
            self.ask_rules(step, key, step.by_rules(self.rules, key, words), lines)

    def run_by_rules(self, rules):
        """Asks the rules alone what the steps ask, where nothing is written past the desk."""
        self.rules = Library() if self.is_new else copy.deepcopy(rules)
        for step in self.steps:
            for key, words in step.requests():
                if status_of(step.answer[0]) == 4:
                    self.compare(step.place, f"{words}", is_understood(words), False)
                else:
                    self.ask_rules(step, key, step.by_rules(self.rules, key, words), step.answer)

    def do_request(self, step):
        for key, words in step.requests():
            self.ask(step, key, words, step.answer)

    do_weekly = do_counted = do_request

    def do_report(self, step):
        kind, *words = shlex.split(step.text)
        self.send(step, ["report", self.path, kind, *words], step.answer, status_of(step.answer[-1]))

    def do_rows(self, step):
        """The status is that of a fault, else of a bad row, else of refused rows."""
        copies, lines = self.path + ".csv", step.answer
        text = "".join(line + "\n" for line in step.given)
        with open(copies, "w", encoding="utf-8", newline="") as file:
            file.write(re.sub(r"\\u([0-9a-f]{4})", lambda it: chr(int(it[1], 16)), text))
        statuses = [3] * any(line.startswith("fault") for line in lines) + [4] * any(line.endswith(" bad") for line in lines)
        self.send(step, ["import", self.path, copies], lines, [*statuses, 0 if lines[-1].endswith("refused 0") else 2][0])

    def do_pairs(self, step):
        """The rules in plain Python say what is answered; the laws are looked at twenty times on the way."""
        texts = [shlex.split(text) for text in step.given]
        for place, first in enumerate(texts):
            for at, second in enumerate(texts):
                for key, words in ((f"a-{place}-{at}", first), (f"b-{place}-{at}", second)):
                    lines = self.rules.handle(key, words).split("\n")
                    self.send(step, ["file", self.path, key, *words], lines, status_of(lines[0]))
            self.look_at_laws(step.place)

    def do_sql(self, step):
        write(self.path, step.text)

    def do_select(self, step):
        found = ";".join("|".join("none" if it is None else str(it) for it in row) for row in rows(self.path, step.text))
        self.compare(step.place, step.text, [found], step.answer)

    def do_damage(self, step):
        column, least, greatest, *words = shlex.split(step.text)
        table, _, name = column.partition(".")
        words = [words[0], self.path, *words[1:]] if words[0] == "report" else ["file", self.path, *words]
        kept = self.path + ".kept"
        shutil.copy(self.path, kept)
        for value in (int(least) - 1, int(greatest) + 1, None):
            if value is not None:
                write(self.path, f"UPDATE {table} SET {name} = {value}")
            ran = subprocess.run([PROGRAM, *words], capture_output=True, timeout=120)
            found = ran.stdout == b"fault 93\n", ran.returncode == 3
            self.compare(step.place, f"{column} is {value}", found, (value is not None,) * 2)
            shutil.copy(kept, self.path)


def stories_of(path):
    """The stories of a file."""
    found = []
    with open(path, encoding="utf-8") as file:
        for number, line in enumerate(file, 1):
            line, place = line.rstrip("\n"), f"{os.path.basename(path)}:{number}"
            mark, _, text = line.partition(" ")
            if mark == "story":
                found.append(Story(place, text))
            elif mark == "|":
                found[-1].steps[-1].answer.append(text)
            elif mark in ("<", "&"):
                found[-1].steps[-1].given.append(text)
            elif line == "new":
                found[-1].is_new = True
            elif mark == "after":
                (before,) = stories_of(os.path.join(os.path.dirname(path), text))
                found[-1].steps += before.steps
            elif line and mark != "#":
                found[-1].steps.append(Step(place, line))
    for story in found:
        for step in story.steps:
            if step.answer == []:
                sys.exit(f"{step.place}: a line with no answer")
    return found


def story_paths(names):
    """The files of stories with these names, or all."""
    return [path for path in sorted(glob.glob(os.path.join(TOP, "tests", "data", "stories", "*.txt"))) if not names or os.path.basename(path) in names]


def small_library(folder):
    """The file of the small library, and what the rules know of it."""
    path, rules = os.path.join(folder, "small.db"), Library()
    for key, words, line in GROUND:
        ran = subprocess.run([PROGRAM, "file", path, key, *words], capture_output=True, timeout=120)
        if (ran.stdout.decode(), rules.handle(key, words)) != (line + "\n", line):
            sys.exit(f"{key} {words}: {ran.stdout!r}")
    return path, rules


def compared_by_rules(stories):
    """The plain stories by the rules alone."""
    plain, rules = [story for story in stories if story.is_plain()], Library()
    for key, words, line in GROUND:
        if rules.handle(key, words) != line:
            sys.exit(f"{key} {words} by the rules")
    for story in plain:
        story.run_by_rules(rules)
    judge(plain)
    compared = sum(story.by_rules for story in plain)
    check("answers were compared", compared > 0, True)
    print(f"stories: {len(plain)} by the rules alone, {compared} answers compared")


def judge(stories):
    """A story passes in which nothing differs."""
    for story in stories:
        if story.differences:
            fails("\n".join([f"{story.place}: {story.name}", *story.differences[:5]]))
        else:
            count(1)


def main(names):
    alone, names = "--rules" in names, [name for name in names if name != "--rules"]
    if alone:
        compared_by_rules([story for path in story_paths(names) for story in stories_of(path)])
        return
    stories = [story for path in story_paths(names) for story in stories_of(path)]
    begun = time.perf_counter()
    with tempfile.TemporaryDirectory() as folder:
        small, rules = small_library(folder)
        # the longest first, so that none is left alone at the end
        stories.sort(key=lambda story: -sum(step.runs() for step in story.steps))
        with ThreadPoolExecutor(len(os.sched_getaffinity(0))) as pool:
            rooms = [tempfile.mkdtemp(dir=folder) for _ in stories]
            for _ in pool.map(lambda it: part(it[0].run, small, rules, it[1]), zip(stories, rooms)):
                pass
    none("a story in which nothing was compared", [story.place for story in stories if not story.compared])
    judge(stories)
    compared, by_rules, seconds = sum(story.compared for story in stories), sum(story.by_rules for story in stories), time.perf_counter() - begun
    print(f"stories: {len(stories)} stories, {compared} comparisons, {by_rules} of them of answers with the rules, in {seconds:.0f} s")
    if not names:
        check(f"a run of all stories compares most answers with the rules: {by_rules}", by_rules > BY_RULES, True)


if __name__ == "__main__":
    run_script(main, sys.argv[1:])
