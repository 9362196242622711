#!/usr/bin/env python3
"""What the program says for a person on standard error, as the manual page has it, compared with what it says.

    tests/gate/messages.py

What is wanted beside the lines of a run is told by tests/lib/messages.py, which the other tests ask of every run. The
script goes through each kind of message, and through what is known of a library's file when the database told a fault.
"""

import fcntl
import os
import shutil
import sqlite3
import subprocess
import tempfile
import time
from contextlib import closing

import room  # finds lib and reference
from lib.checking import check, part, run_script
from lib.messages import (
    COMMANDS, CUT, FOREIGN, HELD, JOURNAL, LATER, MEANINGS, NO_DATABASE, NOT_UNDERSTOOD, OLDER, READ_ONLY, RUNS, SCHEMA, UNWRITABLE, UNWRITTEN, USAGES, VERSION, makes_library, message,
    of_run,
)
from lib.program import program
from reference.outer_forms import WORDS, is_barcode, is_card_key, is_day, is_mask, is_name, is_number, lines_of_check

PROGRAM = program()

# A word in each form, and some that aren't.
RIGHT = {is_number: "1", is_day: "2026-03-02", is_mask: "ooooooc", is_card_key: "cardkey00001", is_barcode: "01",
         is_name: "Ann"}
WRONG = {
    is_number: ["01", "4294967296", "one", ""],
    is_day: ["2026-02-30", "2200-01-01", "2026-3-2"],
    is_mask: ["oooooo", "Ooooooc"],
    is_card_key: ["short01", "c" * 33, "card key 01"],
    is_barcode: ["", "a-1", "1" * 25, "a 1"],
    is_name: ["", " Ann", "A\tn", "a" * 121],
}


def asks(words, lines, program=PROGRAM, **how):
    """A run of these words prints these lines, and says what they mean."""
    made = makes_library(words)
    run = subprocess.run([program, *words], capture_output=True, timeout=120, check=False, **how)
    check(words, (run.stdout.decode(), run.stderr.decode()), (lines, message(words, lines, made=made).decode()))


def says(words, number, path, said, program=PROGRAM, **how):
    """A run of these words meets a fault, and says this of a file; the file and what lies beside it stay as they
    are."""
    before = beside(path)
    run = subprocess.run([program, *words], capture_output=True, timeout=120, check=False, **how)
    check(words, (run.returncode, run.stdout.decode(), run.stderr.decode()), (3, f"fault {number}\n", f"circ: {MEANINGS[number]}\ncirc: {path}: {said}\n"))
    check(f"the files after {words}", beside(path), before)


def beside(path):
    """The bytes of a file, and of what lies beside it under its name."""
    found = {}
    for name in sorted(os.listdir(os.path.dirname(path))):
        if name.startswith(os.path.basename(path)) and os.path.isfile(os.path.join(os.path.dirname(path), name)):
            with open(os.path.join(os.path.dirname(path), name), "rb") as file:
                found[name] = file.read()
    return found


def words_of_commands(path):
    """Words that are no command, by file and sent."""
    for name, forms in WORDS.items():
        asks(["file", path, "k1", name, "-"], NOT_UNDERSTOOD)
        # one command is its name alone
        asks(["file", path, "k1", name], NOT_UNDERSTOOD if forms else "today 2026-03-02\n")
        asks(["file", path, "k1", name, *["1"] * 9], NOT_UNDERSTOOD)
        asks(["send", "8080", "desk key", "k1", name], NOT_UNDERSTOOD)
        given = [RIGHT[it] for it in forms]
        for place, has_form in enumerate(forms):
            for bad in WRONG[has_form]:
                asks(["file", path, "k1", name, *given[:place], bad, *given[place + 1 :]], NOT_UNDERSTOOD)
    asks(["file", path, "k1", "chek-out", "1", "10", "1"], NOT_UNDERSTOOD)


def words_of_runs(path):
    """Words that are no run."""
    for words in ([], ["file", path, "k1"], ["import", path], ["import", "--check"], ["import", "--check", path, path], ["audit", path, "one"], ["audit", path, "all", "all"], ["migrate"], ["migrate", path, "again"], ["serve", path, "1", "1", "1"]):
        asks(words, NOT_UNDERSTOOD)
    for key in ("", "k 1", "k" * 41):
        asks(["file", path, key, "page", "1"], NOT_UNDERSTOOD)
        asks(["send", "8080", "deskkey00001", key, "page", "1"], NOT_UNDERSTOOD)
    for port in ("0", "01", "65536", "port"):
        asks(["send", port, "deskkey00001", "k1", "page", "1"], NOT_UNDERSTOOD)
        asks(["serve", path, port, "1", "1", "deskkey00001"], NOT_UNDERSTOOD)
    for words in (["0", "1"], ["9", "1"], ["1", "0"], ["1", "1000001"]):
        asks(["serve", path, "1", *words, "deskkey00001"], NOT_UNDERSTOOD)
    asks(["serve", path, "1", "1", "1", "short"], NOT_UNDERSTOOD)
    for words in (["debts", "1"], ["overdue", "01"], ["shelf", "one"], ["till", "no day"]):
        asks(["report", path, *words], NOT_UNDERSTOOD)


def lines_of_runs(place, path):
    """Refusals, faults and copies files of a library, which the first run makes."""
    asks(["file", path, "k1", "begin-day", "2026-03-02"], "ok\n")
    asks(["file", path, "k2", "page", "9"], "refused 11\n")
    asks(["report", path, "shelf", "1"], "refused 10\n")
    copies = os.path.join(place, "copies.csv")
    asks(["import", path, copies], "fault reading\naccepted 0 refused 0\n")
    with open(copies, "w", encoding="utf-8") as file:
        file.write("copy,title,text,kind,home,price,end\n50,500,Maps,1,1,1500,end\n51,500,Maps,1,1,1500,END\n")
    asks(["import", path, copies], "row 1 refused 10\nrow 2 bad\naccepted 0 refused 1\n")
    asks(["import", os.path.join(place, "imported.db"), copies], "row 1 refused 10\nrow 2 bad\naccepted 0 refused 1\n")
    asks(["import", "--check", copies], "row 2 bad\ngood 1 bad 1\n")
    with open(path, "rb") as file:
        asks(["import", "--check", path], lines_of_check(file.read())[0])
    asks(["import", "--check", os.path.join(place, "absent.csv")], "fault reading\ngood 0 bad 0\n")
    asks(["import", copies, path], "fault 91\n")
    asks(["import", os.path.join(place, "swapped.db"), path], "row 0 bad\naccepted 0 refused 0\n")
    asks(["send", "1", "deskkey00001", "k1", "page", "1"], "fault network\n")
    asks(["audit", path, "all"], "sound\n")
    asks(["migrate", path], f"schema {SCHEMA}\n")
    with open("/dev/full", "wb") as full:
        run = subprocess.run([PROGRAM, "file", path, "k3", "page", "9"], stdout=full, stderr=subprocess.PIPE, timeout=120, check=False)
    check("no room for a line", (run.returncode, run.stderr), (3, UNWRITTEN))


def files_of_nobody(place):
    """Files that are no library: none is made where none is, and none is written."""
    empty, garbage, absent = (os.path.join(place, it) for it in ("empty.db", "garbage.db", "absent.db"))
    open(empty, "w", encoding="utf-8").close()
    with open(garbage, "wb") as file:
        file.write(b"this is no database " * 500)
    foreign = os.path.join(place, "foreign.db")
    with closing(sqlite3.connect(foreign)) as conn:
        conn.execute("CREATE TABLE notes (text TEXT)")
        conn.commit()
    for words in (["report", "shelf", "1"], ["audit"], ["audit", "all"], ["migrate"]):
        run = [words[0], "", *words[1:]]
        for path, number, said in ((empty, 93, "the file has no bytes"), (absent, 93, "no such file or directory"), (garbage, 91, NO_DATABASE), (foreign, 93, FOREIGN)):
            run[1] = path
            says(run, number, path, said)
        run[1] = place
        asks(run, "fault 91\n")
    says(["file", garbage, "k1", "page", "1"], 91, garbage, NO_DATABASE)
    says(["file", foreign, "k1", "page", "1"], 93, foreign, FOREIGN)
    asks(["file", place, "k1", "page", "1"], "fault 91\n")
    asks(["file", os.path.join(place, "no", "town.db"), "k1", "page", "1"], "fault 91\n")


def files_of_libraries(place, path):
    """Libraries of other schemas, held, damaged, cut off, with another's log, with a journal, and such as can't be
    written."""
    later = os.path.join(place, "later.db")
    asks(["file", later, "k1", "begin-day", "2026-03-02"], "ok\n")
    for schema, said in ((int(SCHEMA) + 1, LATER), *((it, OLDER) for it in range(int(SCHEMA) - 1, 0, -1)),
                         (0, FOREIGN)):
        with closing(sqlite3.connect(later)) as conn:
            conn.execute(f"UPDATE meta SET schema = {schema}")
            conn.commit()
        for words in (["report", later, "shelf", "1"], ["audit", later], ["file", later, "k2", "page", "1"]):
            asks(words, "fault 93\n")
        says(["file", later, "k2", "page", "1"], 93, later, said)
    with open(path, "rb+") as file:
        fcntl.lockf(file, fcntl.LOCK_EX | fcntl.LOCK_NB, 512, 1 << 30)
        began = time.monotonic()
        # nothing else is opened here, since that would let go of the lock
        run = subprocess.run([PROGRAM, "file", path, "k2", "page", "1"], capture_output=True, timeout=120, check=False)
        check("a file that is held", (run.returncode, run.stdout.decode(), run.stderr.decode()), (3, "fault 91\n", f"circ: {MEANINGS[91]}\ncirc: {path}: {HELD}\n"))
        check("it was tried again for two seconds", 2 <= time.monotonic() - began < 10, True)
    cut = os.path.join(place, "cut.db")
    shutil.copy(path, cut)
    os.truncate(cut, os.path.getsize(cut) // 2)
    says(["audit", cut], 91, cut, CUT)
    journal = os.path.join(place, "journal.db")
    shutil.copy(path, journal)
    with open(f"{journal}-journal", "wb") as file:
        file.write(b"a journal")
    says(["audit", journal], 91, journal, JOURNAL)
    kept = os.path.join(place, "kept.db")
    shutil.copy(path, kept)
    program = os.path.join(place, "circ")
    shutil.copy(PROGRAM, program)
    os.chmod(place, 0o755)
    says(["audit", kept], 91, kept, UNWRITABLE, program=program, user=None if os.getuid() else 65534)


def log_of_another(place, path):
    """A library beside which the log of another program's database stands."""
    library, other = os.path.join(place, "logged.db"), os.path.join(place, "other.db")
    shutil.copy(path, library)
    with closing(sqlite3.connect(other)) as conn:
        conn.execute("PRAGMA journal_mode = wal")
        conn.execute("CREATE TABLE notes (text TEXT)")
        conn.execute("PRAGMA wal_checkpoint(TRUNCATE)")
        conn.executemany("INSERT INTO notes VALUES (?)", [("x" * 900,)] * 30)
        conn.commit()
        shutil.copy(f"{other}-wal", f"{library}-wal")
    asks(["audit", library], "fault 93\n")


def file_system_to_read(place, path):
    """A library on a file system that can only be read, where something may be mounted."""
    folder = os.path.join(place, "mounted")
    os.mkdir(folder)
    if shutil.which("mount") is None or subprocess.run(["mount", "-t", "tmpfs", "tmpfs", folder], capture_output=True, check=False).returncode:
        print("messages: a file system that can only be read was not tried, since nothing may be mounted here")
        return
    try:
        library = shutil.copy(path, os.path.join(folder, "town.db"))
        subprocess.run(["mount", "-o", "remount,ro", folder], check=True)
        says(["audit", library], 91, library, READ_ONLY)
    finally:
        subprocess.run(["umount", folder], check=True)


def asked_for(path):
    """Help and the version go to standard output where they are asked for, and the run ends well."""
    version = f"circ {VERSION}, schema {SCHEMA}\n"
    for word, lines in (("help", of_run([])), ("--help", of_run([])), ("-h", of_run([])), ("--version", version), ("-V", version)):
        run = subprocess.run([PROGRAM, word], capture_output=True, timeout=120, check=False)
        check(word, (run.stdout.decode(), run.stderr, run.returncode), (lines, b"", 0))
        with open("/dev/full", "wb") as full:
            run = subprocess.run([PROGRAM, word], stdout=full, stderr=subprocess.PIPE, timeout=120, check=False)
        check(f"no room for {word}", (run.returncode, run.stderr), (3, UNWRITTEN))
        asks([word, path], "words not understood\n")


def parallel(place):
    """Runs on one library at once wait for one another."""
    path = os.path.join(place, "shared.db")
    runs = [subprocess.Popen([PROGRAM, "file", path, f"p{at}", "begin-day", f"2026-03-{at + 1:02}"], stdout=subprocess.PIPE, stderr=subprocess.DEVNULL) for at in range(4)]
    check("runs at once", sorted({run.communicate(timeout=120)[0] for run in runs}) in ([b"ok\n"], [b"ok\n", b"refused 23\n"]), True)


def main():
    with tempfile.TemporaryDirectory() as place:
        path = os.path.join(place, "town.db")
        part(words_of_runs, path)
        part(lines_of_runs, place, path)
        part(words_of_commands, path)
        part(files_of_nobody, place)
        part(files_of_libraries, place, path)
        part(log_of_another, place, path)
        part(file_system_to_read, place, path)
        part(asked_for, path)
        part(parallel, place)
    check("the manual page lacks nothing", (list(COMMANDS), len(MEANINGS) >= 40, len(USAGES)), (list(WORDS), True, len(RUNS)))


if __name__ == "__main__":
    run_script(main)
