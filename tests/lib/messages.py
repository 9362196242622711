"""What the program says for a person on standard error beside the lines of a run, as the manual page has it: `message`
is asked of every run."""

import fcntl
import os
import re
import shutil
import sqlite3
import stat
import tempfile
from contextlib import closing, contextmanager

from reference.outer_forms import (
    WORDS, bad_rows, is_barcode, is_card_key, is_day, is_key, is_mask, is_name, is_number, read_keys,
)
from room import TOP

SAYINGS = {
    "fault reading": "the copies file is missing or can't be read",
    "fault network": "nobody listens on the port, no answer came, or the port is taken",
    "fault keys": "the file of keys can't be read, or a line of it isn't NAME ROLE KEY",
    "fault threads": "a thread could not be created, so fewer connections were answered",
    "unsound claims ": "two or more claims are made on the copy with this number, which can only be in one place: restore a backup",
    "unsound binding ": "the hold with this number is not bound to its copy as its state requires: restore a backup",
    "unsound balance ": "the patron with this number doesn't owe the charges less payments and waivers: restore a backup",
    "unsound reference barcodes ": (
        "the patron or copy with this number is missing, or has the barcode of another: restore a backup"
    ),
    "unsound reference ": "a row of this table with this number names a row that is missing: restore a backup",
    **dict.fromkeys(
        ("unsound numbers rules ", "unsound numbers loans ", "unsound numbers holds "),
        "this table has a row with this number, though only libraries of older schemas have rows there: restore a "
        "backup, or take its rows out with sqlite3",
    ),
    "unsound numbers ": (
        "the row of this table with this number is missing, or there though the number was not given: restore a backup"
    ),
}
OLDER = "the library has an older schema: make a backup first, then run circ migrate FILE"
LATER = "the library has a later schema: it needs a later version of this program"
FOREIGN = "not a library: it has no table meta with one row that names its schema"
NO_DATABASE = "not a library: the file is not a database"
DAMAGED_ROW = "a row of the library is damaged: restore a backup"
CUT = "the file is damaged or truncated: restore a backup"
CUT_OR_LOG = "the file is damaged or truncated, or the log beside it belongs to another file: restore a backup of both"
LOG_ALONE = "the file is missing or empty, but the log beside it may hold a library: put the library's file back beside it, or move the log away"
HELD = "another process has the file"
FREE = "it opens now: another process had the file, or the disk was full or failed"
DISK = "the disk is full or failed"
MADE = "there was no library; a new one was made"
CLOSED = "circ: pages are still answered, and every other request gets fault 92; fix the cause and restart the program\n"
SWAPPED = "this is a database, not a copies file: circ import LIBRARY COPIES"
NO_COPIES = "this is a database, not a copies file"
JOURNAL = "another program left a rollback journal beside the file: open it with sqlite3 first"
UNWRITABLE = "no permission to write the file, its log or the folder: circ opens a library for writing even to read it; use a copy for that"
READ_ONLY = "the file system is read-only: circ opens a library for writing even to read it; use a copy elsewhere for that"
WRONG_KEYS = ("wanted is NAME ROLE KEY, parted by single spaces: a name of 1 to 16 ASCII letters and digits, desk or lending, and a key of 8 to 32; "
              "no name and no key twice, at most 99 lines, and a newline at the end of each")
NO_KEYS = "the file can't be read"
OPEN_KEYS = "other users may read these keys: take that from them with chmod o-r"
NOT_UNDERSTOOD = "words not understood\n"
UNWRITTEN = b"circ: standard output can't be written\n"
RUNS = ["file", "import", "import", "report", "report", "report", "audit", "audit", "migrate", "serve", "send"]


def read(path):
    with open(os.path.join(TOP, path), encoding="utf-8") as file:
        return file.read()


def of_manual(manual):
    """The runs, the commands with their parts, and the meanings of numbers, as the manual page has them."""
    synopsis = manual[manual.index(".Sh SYNOPSIS") : manual.index(".Sh DESCRIPTION")]
    runs = []
    for lines in synopsis.split(".Nm\n")[1:]:
        words = ["circ"]
        for macro, rest in re.findall(r"^\.(Cm|Ar) (.+)$", lines, re.M):
            words += rest.split() if macro == "Cm" else ["..." if it == "..." else it.upper() for it in rest.split()]
        runs.append(" ".join(words))
    listed = manual[manual.index(".Sh COMMANDS") : manual.index(".Sh FILES")]
    commands = {line.split()[0]: line.split()[2:] for line in re.findall(r"^\.It Cm (.+)$", listed, re.M)}
    meanings = re.findall(r"^\.It (\d+)\n((?:[^.].*\n)+)", manual[manual.index(".Sh DIAGNOSTICS") :], re.M)
    return runs, commands, {int(number): " ".join(text.split()) for number, text in meanings}


USAGES, COMMANDS, MEANINGS = of_manual(read("docs/circ.1"))
VERSION, SCHEMA = re.search(r"^## (\S+), schema (\d+)$", read("CHANGES.md"), re.M).groups()


def told_refusal(number):
    """A refusal with its meaning, as the tools tell it."""
    return f"refused {number}: {MEANINGS[number]}" if number in MEANINGS else f"refused {number}"


def form(name):
    return " ".join([name, *(f"<{part}>" for part in COMMANDS[name])])


# What a word of a command has to be, by its form; the parts that are amounts are told apart by their names.
WANTED = {
    is_number: "a number up to 4294967295, without a leading zero",
    is_day: "a day from 2000-01-01 to 2199-12-31, such as 2026-03-02",
    is_mask: "seven letters, Monday to Sunday: o for open, c for closed",
    is_card_key: "8 to 32 ASCII letters and digits",
    is_barcode: "1 to 24 ASCII letters and digits",
    is_name: "1 to 120 bytes, with no control character and no space at either end",
}
AMOUNTS = ["debt", "rate", "cap", "price", "amount"]
AMOUNT = "an amount in cents up to 4294967295, without a leading zero"


def is_within(most):
    return lambda word: is_number(word) and 1 <= int(word) <= most


def is_desk_keys(word):
    return len(word) > 1 if word.startswith("@") else is_card_key(word)


# The words of a run that have a form, by their places after the run's name: what each is called, its form, and what it
# has to be.
KEY = ("KEY", is_key, "1 to 40 ASCII letters, digits and hyphens")
DESKKEY = ("DESKKEY", is_desk_keys, "8 to 32 ASCII letters and digits, or @ and the path of a file of keys")
PORT = ("PORT", is_within(65_535), "a number from 1 to 65535, without a leading zero")
ARGUMENTS = {
    "file": {1: KEY},
    "serve": {1: PORT, 2: ("WORKERS", is_within(8), "a number from 1 to 8"), 3: ("EACH", is_within(1_000_000), "a number from 1 to 1000000, without a leading zero"), 4: DESKKEY},
    "send": {0: PORT, 1: DESKKEY, 2: KEY},
    "overdue": {2: ("BRANCH", is_number, WANTED[is_number])},
    "shelf": {2: ("BRANCH", is_number, WANTED[is_number])},
    "till": {2: ("DAY", is_day, WANTED[is_day])},
}
# How many words follow the name of a run; one more at least for those of a command.
COUNTS = {"file": 2, "import": 2, "report": 3, "audit": 1, "migrate": 1, "serve": 5, "send": 3}


def wrong_argument(words):
    """The first word of a run that isn't in its form: its name and what it has to be. None where all are, or their
    number is wrong."""
    run, given = words[0], words[1:]
    if run == "audit" and len(given) == 2 and given[1] != "all":
        return "the word after LIBRARY", "all"
    if run not in COUNTS or (len(given) <= COUNTS[run] if run in ("file", "send") else len(given) != COUNTS[run]):
        return None
    if run == "report" and given[1] not in ARGUMENTS:
        return "the report", "overdue, till or shelf"
    for place, (name, has_form, wanted) in ARGUMENTS.get(given[1] if run == "report" else run, {}).items():
        if not has_form(given[place]):
            return name, wanted
    return None


def is_whole_audit(words):
    """Whether an audit goes on to all findings."""
    return words[:1] == ["audit"] and words[2:] == ["all"]


def is_run(words):
    """Whether the first words are those of a run."""
    if not words or words[0] not in COUNTS:
        return False
    many = len(words) - (2 if is_whole_audit(words) else 1)
    return (many > COUNTS[words[0]] if words[0] in ("file", "send") else many == COUNTS[words[0]]) and wrong_argument(words) is None


def of_run(words):
    """What is said of words that are no run."""
    wrong = wrong_argument(words) if words else None
    said = f"circ: {wrong[0]} must be {wrong[1]}\n" if wrong else ""
    of_name = [it for it in USAGES if it.split()[1] == words[0]] if words else []
    if of_name:
        return said + "".join(f"usage: {it}\n" for it in of_name)
    lines = [f"usage: {it}" for it in USAGES] + ["WORD ... is one of"] + [f"  {form(name)}" for name in COMMANDS]
    return said + "".join(f"{line}\n" for line in [*lines, f"circ {VERSION}, schema {SCHEMA}"])


def of_command(run, words):
    """What is said of words that are no command."""
    name, given = words[0], words[1:]
    if name not in COMMANDS:
        return f"circ: unknown command {name}; circ without words lists them all\n"
    forms, said = WORDS[name], ""
    if any(it.startswith("-") for it in given):
        said = "circ: no word may begin with a hyphen\n"
    elif len(given) != len(forms):
        said = f"circ: words after {name}: {len(given)} instead of {len(forms)}\n"
    else:
        wrong = [(part, AMOUNT if part in AMOUNTS else WANTED[has_form]) for part, has_form, it in zip(COMMANDS[name], forms, given) if not has_form(it)]
        said = f"circ: {wrong[0][0]} must be {wrong[0][1]}\n" if wrong else ""
    return said + f"usage: {run} {form(name)}\n"


def usage(words):
    """What is said of words that aren't understood."""
    if not is_run(words):
        return of_run(words)
    return of_command("circ send PORT DESKKEY KEY", words[4:]) if words[0] == "send" else of_command("circ file LIBRARY KEY", words[3:])


def is_log_alone(path):
    """Whether a log that has a page stands beside a library file that is missing or empty."""
    real = os.path.realpath(path)
    return os.path.isfile(f"{real}-wal") and os.path.getsize(f"{real}-wal") >= 512 and not (os.path.exists(real) and os.path.getsize(real))


def keys_of(words):
    """The file of keys that the words of a run name; None where they name none."""
    place = {"serve": 5, "send": 2}.get(words[0]) if is_run(words) else None
    return words[place][1:] if place and words[place].startswith("@") else None


def of_keys(path):
    """What is said of a file of keys as it is now, and whether it is good."""
    try:
        with open(path, "rb") as file:
            wrong = read_keys(file.read())[1]
    except OSError:
        return f"circ: {path}: {NO_KEYS}\n", False
    if wrong:
        return f"circ: {path}: line {wrong}: {WRONG_KEYS}\n", False
    return f"circ: {path}: {OPEN_KEYS}\n" if os.stat(path).st_mode & stat.S_IROTH else "", True


def makes_library(words):
    """Whether a run that begins now makes a new library in its file."""
    if not is_run(words) or words[0] not in ("file", "import", "serve") or is_check(words) or is_log_alone(words[1]):
        return False
    if keys_of(words) is not None and not of_keys(keys_of(words))[1]:
        return False
    try:
        return os.path.getsize(words[1]) == 0
    except FileNotFoundError:
        return os.path.isdir(os.path.dirname(os.path.abspath(words[1])))


def is_check(words):
    """Whether a run only checks a copies file."""
    return words[:2] == ["import", "--check"]


def of_rows(words, out):
    """What is said of the bad rows of a copies file: of all, or of the one that ended it."""
    bad = [int(number) for number in re.findall(r"^row (\d+) bad$", out, re.M)]
    if not bad:
        return ""
    with open(words[2], "rb") as file:
        found = dict(bad_rows(file.read())[0])
    return "".join(f"circ: row {number}: {found[number]}\n" for number in bad)


def of_findings(out):
    """What is said of all findings of an audit: what each means."""
    found = [line for line in out.split("\n") if line.startswith("unsound ")]
    said = [next(it for begin, it in SAYINGS.items() if line.startswith(begin)) for line in found]
    return "".join(f"circ: {line.removeprefix('unsound ')}: {it}\n" for line, it in zip(found, said))


def is_held(path):
    """Whether another process has the locks of a database."""
    with open(path, "rb+") as file:
        try:
            fcntl.lockf(file, fcntl.LOCK_EX | fcntl.LOCK_NB, 512, 1 << 30)
            return False
        except BlockingIOError:
            return True


@contextmanager
def as_it_is(path):
    """A copy of the files for stock SQLite, so that what a kill left stays as it is."""
    with tempfile.TemporaryDirectory() as folder:
        copied = os.path.join(folder, "copy.db")
        for tail in ("", "-wal"):
            if os.path.exists(path + tail):
                shutil.copy(path + tail, copied + tail)
        yield copied


def schema_of(path):
    """The schema of a library, as stock SQLite reads it: the one number of 32 bits that the one row of `meta` has;
    none where there is no such."""
    try:
        with as_it_is(path) as copied, closing(sqlite3.connect(copied)) as conn:
            found = conn.execute("SELECT schema FROM meta").fetchall()
    except sqlite3.Error:
        return None
    return found[0][0] if len(found) == 1 and isinstance(found[0][0], int) and 0 <= found[0][0] < 2**32 else None


def is_database(path):
    with open(path, "rb") as file:
        return file.read(16) == b"SQLite format 3\0"


def cause(run, path, line, held=None):
    """What is known of a library's file after a fault of a run; whether another process has it is looked up where it
    isn't given."""
    if is_log_alone(path):
        return LOG_ALONE
    try:
        if os.path.isdir(path):
            return "this is a directory"
        if not os.path.getsize(path):
            return "the file has no bytes"
        if not is_database(path):
            return NO_DATABASE
        if line == "fault 91" and (is_held(path) if held is None else held):
            return HELD
        schema = schema_of(path)
        if not schema:
            return FOREIGN
        if schema > int(SCHEMA):
            return LATER
        if schema < int(SCHEMA) and run != "migrate":
            return OLDER
        return FREE if line == "fault 91" else DAMAGED_ROW
    except (FileNotFoundError, NotADirectoryError):
        return "no such file or directory"


def is_telling(line):
    return bool(re.match(r'(row \d+ (refused|bad)|refused |fault |words |unsound |\{"(refusal|fault)":)', line))


def message(words, out, held=None, made=False, closed=None):
    """What is said beside the lines of a run of these words; `held` is whether another process had the library's file,
    `made` whether it makes a new one, and `closed` the number of the fault that closed the desk while it served."""
    path = keys_of(words) if words else None
    said = "" if path is None else of_keys(path)[0]
    said += f"circ: {words[1]}: {MADE}\n" if made else ""
    if closed:
        said += f"circ: the desk is closed: {MEANINGS[closed]}\n{CLOSED}"
    line = ([it for it in out.split("\n")[:-1] if is_telling(it)] or [""])[-1]
    if line == "words not understood" or out == '{"status":400}\n':
        return (said + usage(words)).encode()
    sayings = [it for begin, it in SAYINGS.items() if line.startswith(begin)][:1]
    numbers = re.findall(r"\d+", line)
    if words and words[0] == "import":
        said += of_rows(words, out)
    if is_whole_audit(words):
        said += of_findings(out)
    if line.endswith(" bad") or is_whole_audit(words) and line.startswith("unsound "):
        pass
    elif sayings:
        said += f"circ: {sayings[0]}\n"
    elif numbers:
        said += f"circ: {MEANINGS[int(numbers[-1])]}\n"
    if line in ("fault 91", "fault 93") and words[0] != "send":
        said += f"circ: {words[1]}: {cause(words[0], words[1], line, held)}\n"
    if words[0] == "import" and line and os.path.isfile(words[2]) and is_database(words[2]):
        said += f"circ: {words[2]}: {NO_COPIES if is_check(words) else SWAPPED}\n"
    return said.encode()
