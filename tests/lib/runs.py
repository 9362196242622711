"""Runs of the program on files, and what stock SQLite reads back: what the tests have in common."""

import hashlib
import os
import re
import shlex
import signal
import sqlite3
import subprocess
import time
from contextlib import closing

from lib.checking import check
from lib.messages import as_it_is, makes_library, message
from lib.program import program
from room import TOP

CIRC = os.path.join(TOP, "circ")
PROGRAM = program()
LONGEST_RUN = 600  # seconds, on a loaded machine with a slow disk
# A place in memory for libraries to which much is sent, so that no test waits for a disk; else that of other files.
IN_MEMORY = "/dev/shm" if os.access("/dev/shm", os.W_OK) else None

# The five indexes that came last in schema 3. A library that was made before lacks them.
LAST_INDEXES = [
    "CREATE INDEX copies_title ON copies (title, copy)",
    "CREATE INDEX lines_patron ON lines (patron, line)",
    "CREATE INDEX holds2_state ON holds2 (state, hold)",
    "CREATE INDEX loans3_of_copy ON loans3 (copy, loan)",
    "CREATE INDEX copies_condition ON copies (condition, copy)",
]

# A key, the words, and the line that answers them.
GROUND = [
    ("g1", ["begin-day", "2026-03-02"], "ok"),
    ("g2", ["branch", "1", "5", "Main"], "ok"),
    ("g3", ["branch", "2", "3", "Harbour"], "ok"),
    ("g4", ["week", "1", "ooooooc"], "ok"),
    ("g5", ["week", "2", "coooooc"], "ok"),
    ("g6", ["kind", "1", "5", "5", "500"], "ok"),
    ("g7", ["rule", "1", "1", "6", "1", "20", "100"], "ok"),
    ("g8", ["rule", "1", "2", "12", "1", "20", "100"], "ok"),
    ("g9", ["patron", "1", "1", "cardkey00001", "Ann Bell"], "ok"),
    ("g10", ["patron", "2", "1", "cardkey00002", "Bo Carr"], "ok"),
    ("g11", ["patron", "3", "1", "cardkey00003", "Cy Dunn"], "ok"),
    ("g12", ["acquire", "10", "100", "1", "1", "2500", "Rivers of the North"], "ok"),
    ("g13", ["acquire", "11", "100", "1", "1", "2500", "Rivers of the North"], "ok"),
    ("g14", ["acquire", "20", "200", "1", "2", "1200", "Salt Roads"], "ok"),
    ("g15", ["acquire", "30", "300", "2", "1", "800", "Night Ferries"], "ok"),
]


def circ(words, **how):
    """The line and the status of one run, which says on standard error what the line means."""
    made = makes_library(words)
    run = subprocess.run([CIRC, *words], capture_output=True, timeout=LONGEST_RUN, **how)
    line = run.stdout.decode()
    check(f"standard error of {words}", run.stderr, message(words, line, made=made))
    check(f"one line of {words}", (line.count("\n"), line.endswith("\n")), (1, True))
    return line[:-1], run.returncode


def status_of(line):
    """The status that goes with a line."""
    if line.startswith("refused "):
        return 2
    if line.startswith("fault "):
        return 3
    return 4 if line == "words not understood" else 0


def say(path, rows):
    """Each request gets its line, and the status of that line."""
    for key, words, line in rows:
        check(f"{key} {words}", circ(["file", path, key, *words]), (line, status_of(line)))


def rows(path, text):
    """What stock SQLite reads."""
    with closing(sqlite3.connect(path)) as conn:
        return conn.execute(text).fetchall()


def write(path, *texts):
    """What stock SQLite writes."""
    with closing(sqlite3.connect(path)) as conn:
        for text in texts:
            conn.execute(text)
        conn.commit()


def digest(path):
    """What a file holds, in short; None where there is no file."""
    if not os.path.isfile(path):
        return None
    with open(path, "rb") as file:
        return hashlib.sha256(file.read()).hexdigest()


def whole(path):
    """All rows of all tables."""
    names = [name for (name,) in rows(path, "SELECT name FROM sqlite_schema WHERE type = 'table' ORDER BY name")]
    return {name: rows(path, f'SELECT * FROM "{name}" ORDER BY 1, 2') for name in names}


def answers(path, key, words):
    """What one run prints, of any number of lines, and its status."""
    run_words = ["file", path, key, *words]
    made = makes_library(run_words)
    run = subprocess.run([CIRC, *run_words], capture_output=True, timeout=LONGEST_RUN)
    check(f"standard error of {key} {words}", run.stderr, message(run_words, run.stdout.decode(), made=made))
    return run.stdout.decode(), run.returncode


def report(path, *words):
    """What a report prints, and its status."""
    run = subprocess.run([CIRC, "report", path, *words], capture_output=True, timeout=LONGEST_RUN)
    check(f"standard error of {words}", run.stderr, message(["report", path, *words], run.stdout.decode()))
    return run.stdout.decode(), run.returncode


def memory_of(words, out):
    """The most memory that a run of the program takes, in KiB, and its status; what it prints goes into a file."""
    run = subprocess.run([os.path.join(TOP, "tests", "tools", "measured"), out, PROGRAM, *words], stdout=subprocess.PIPE, check=True)
    _, most, status = run.stdout.split()
    return int(most), int(status)


ROOM = 8 * 1024  # KiB; the rows of a whole report of so many loans would take several times as much


def kill_at_work(words, seconds):
    """Starts a run and kills it after a while; it may have ended by then. What it printed, and whether the kill hit
    it."""
    with subprocess.Popen([PROGRAM, *words], stdout=subprocess.PIPE) as run:
        time.sleep(seconds)
        run.kill()
        printed = run.stdout.read().decode()
    return printed, run.returncode == -signal.SIGKILL


def timed(call):
    """What a call gives, and the seconds that it took: kills are set by that, so that they hit work on a slow machine
    too."""
    begin = time.perf_counter()
    given = call()
    return given, time.perf_counter() - begin


def rows_now(path, text):
    """What stock SQLite reads in a copy of the files."""
    with as_it_is(path) as copied:
        return rows(copied, text)


def the_rows_are(path, library):
    """The file holds exactly the rows that the rules give, and they are sound."""
    check("the audit", circ(["audit", path]), ("sound", 0))
    found = {name: sorted(rows, key=lambda row: row[:2] if name != "transits" else row[:1])
             for name, rows in whole(path).items()}
    for name, rows_of in library.tables().items():
        check(f"rows of {name}", found[name], rows_of)


def month():
    """The requests of a month: the key of each and its words."""
    with open(os.path.join(TOP, "tests", "data", "month.txt"), encoding="utf-8") as file:
        return [shlex.split(line) for line in file]


HEADER = "copy,title,text,kind,home,price,end\n"


def take_in(path, copies):
    """What taking in a copies file prints, and its status."""
    words = ["import", path, copies]
    made = makes_library(words)
    run = subprocess.run([CIRC, *words], capture_output=True, timeout=LONGEST_RUN)
    check("standard error of a copies file", run.stderr, message(words, run.stdout.decode(), made=made))
    return run.stdout.decode(), run.returncode


def look_at(copies):
    """What checking a copies file prints, what is said of it, and its status."""
    words = ["import", "--check", copies]
    run = subprocess.run([CIRC, *words], capture_output=True, timeout=LONGEST_RUN)
    check("standard error of a check", run.stderr, message(words, run.stdout.decode()))
    return run.stdout.decode(), run.stderr.decode(), run.returncode


def examples(page):
    """The lines that a page of docs/ shows as typed, each with the lines that answer it, or that the file has."""
    with open(os.path.join(TOP, "docs", page), encoding="utf-8") as file:
        blocks = file.read().split("```\n")[1::2]
    for block in blocks:
        for typed in re.split(r"^\$ ", block, flags=re.MULTILINE)[1:]:
            line, _, answer = typed.partition("\n")
            yield shlex.split(line), answer


def type_page(room, page, least):
    """Types in a folder what a page of docs/ shows, which is more than so many lines: each is answered as it stands
    there."""
    shown = list(examples(page))
    check(f"how much {page} shows", len(shown) > least, True)
    for (command, *words), answer in shown:
        if command == "cat":
            with open(os.path.join(room, words[0]), "w", encoding="utf-8", newline="") as file:
                file.write(answer)
            continue
        check(f"the command of {words}", command, "./circ")
        run = subprocess.run([CIRC, *words], capture_output=True, timeout=LONGEST_RUN, cwd=room)
        check(f"{words}", (run.stdout.decode(), run.returncode), (answer, status_of(answer.partition("\n")[0])))
