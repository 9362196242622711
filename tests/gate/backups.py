#!/usr/bin/env python3
"""What docs/OPERATIONS.md says of the two files of a library: both, of a program that was stopped at any moment or
that ended, are the library, and it goes on from them. A log whose file is missing or empty is refused and kept, and so
is the log of another process. What a stop leaves of a library that was being made is told.

    tests/gate/backups.py
"""

import fcntl
import os
import shutil
import signal
import subprocess
import tempfile
import time
from collections import Counter

from room import TOP
from lib.checking import check, part, run_script
from lib.messages import HELD, LOG_ALONE, MEANINGS
from lib.runs import CIRC, GROUND, PROGRAM, circ, digest, month, say, the_rows_are, whole
from lib.serving import DESK_KEY, Serving, free_port
from reference.desk_rules import Library


def copied(path, to):
    """A backup of a library that no process has open."""
    for end in ("", "-wal"):
        if os.path.exists(path + end):
            shutil.copy(path + end, to + end)


def ended(folder):
    """After a run that ended the file alone has everything."""
    path, alone = os.path.join(folder, "ended.db"), os.path.join(folder, "alone.db")
    say(path, GROUND)
    shutil.copy(path, alone)
    check("the file alone", whole(alone), whole(path))
    say(alone, [("b1", ["check-out", "1", "10", "1"], "loan 1 due 2026-03-09")])


def ask_all(serving, library, requests):
    """What a desk sends, with the status that the rules give each."""
    for key, *words in requests:
        check(f"{key} {words}", serving.desk(key, words)[0], 409 if library.handle(key, words).startswith("refused") else 200)


def kill_after(path, library, requests):
    """A program that serves answers these requests and is killed; its two files are left."""
    serving = Serving(path, len(requests) + 1)
    serving.__enter__()
    try:
        ask_all(serving, library, requests)
    finally:
        serving.end()
    check("there is a log", os.path.getsize(path + "-wal") > 1000, True)


def stopped(folder):
    """A program that serves is killed between requests: its two files, copied to another place, have all that was
    answered; and the requests after it, sent there, leave what they leave."""
    path, restored, library, requests = os.path.join(folder, "stopped.db"), os.path.join(folder, "restored.db"), Library(), month()
    half = len(requests) // 2
    kill_after(path, library, requests[:half])
    copied(path, restored)
    for place in (restored, path):
        run = subprocess.run([CIRC, "report", place, "till", "2026-03-02"], stdout=subprocess.PIPE, timeout=120, check=False)
        check(f"{place} is opened", run.returncode, 0)
        the_rows_are(place, library)
    with Serving(restored, len(requests) - half) as serving:
        ask_all(serving, library, requests[half:])
    the_rows_are(restored, library)


def beside(path):
    """What each file holds whose name begins with that of a file, in short."""
    folder, name = os.path.split(path)
    return {it: digest(os.path.join(folder, it)) for it in os.listdir(folder) if it.startswith(name)}


def empty(path):
    open(path, "wb").close()


def a_log_alone(folder):
    """The log of a killed program, where the library's file is missing, empty, or an empty one to which a link leads.
    Each run says what to do, makes no library, and leaves each byte; once the file is back the library is whole, and
    once the log is away a new one is made. A log without a page, which a run leaves that ended, hinders nobody."""
    path, copies, library = os.path.join(folder, "whole.db"), os.path.join(folder, "copies.csv"), Library()
    kill_after(path, library, month()[:40])
    with open(copies, "w", encoding="utf-8") as file:
        file.write("copy,title,text,kind,home,price,end\n")
    given, refused = beside(path), Counter()
    for state in ("missing", "empty", "linked"):
        place = os.path.join(folder, state)
        os.mkdir(place)
        lost, town = os.path.join(place, "lost.db"), os.path.join(place, "lost.db" if state != "linked" else "town.db")
        if state != "missing":
            empty(lost)
        if state == "linked":
            os.symlink("lost.db", town)
        shutil.copy(path + "-wal", lost + "-wal")
        inside = os.path.join(place, "")
        before = beside(inside)
        for words, line in ((["file", town, "k1", "begin-day", "2026-03-02"], "fault 91"), (["file", town, "k1", "page", "1"], "fault 91"), (["import", town, copies], "fault 91"),
                            (["serve", town, str(free_port()), "1", "1", DESK_KEY], "fault 91"), (["report", town, "shelf", "1"], "fault 93"), (["audit", town], "fault 93"),
                            (["migrate", town], "fault 93")):
            run = subprocess.run([CIRC, *words], capture_output=True, text=True, timeout=30, check=False)
            said = f"circ: {MEANINGS[int(line.split()[1])]}\ncirc: {town}: {LOG_ALONE}\n"
            check(f"{words}, file {state}", (run.stdout, run.returncode, run.stderr), (f"{line}\n", 3, said))
            check(f"the files after {words}, file {state}", beside(inside), before)
            refused[state] += beside(inside) == before
        shutil.copy(path, lost)
        the_rows_are(town, library)
        for name in beside(lost):
            os.remove(os.path.join(place, name))
        if state == "missing":
            say(lost, GROUND[:1])
            os.remove(lost)
            check("a log without a page", 0 < os.path.getsize(lost + "-wal") < 512, True)
            say(lost, GROUND[:1])
    check("the two files stay", beside(path), given)
    print(f"backups: runs that left a log alone, by the state of its file: {dict(refused)}")


def the_log_of_another(folder):
    """A run that begins where no log is, and whose file another process has: the log that this process makes
    meanwhile, still without a page, is there when the run ends with 91."""
    path, hits = os.path.join(folder, "others.db"), 0
    say(path, GROUND[:1])
    with open(path + "-wal", "rb") as file:
        header = file.read()
    for log in (header, header[:1], b""):
        os.remove(path + "-wal")
        with open(path, "rb+") as file:
            fcntl.lockf(file, fcntl.LOCK_EX | fcntl.LOCK_NB, 512, 1 << 30)
            # nothing else opens the file here, since that would let go of the lock
            run = subprocess.Popen([PROGRAM, "file", path, "k1", "page", "1"], stdout=subprocess.PIPE, stderr=subprocess.PIPE)
            time.sleep(0.7)
            check("no log while the run tries", os.path.exists(path + "-wal"), False)
            with open(path + "-wal", "wb") as made:
                made.write(log)
            hits += run.poll() is None
            out, err = run.communicate(timeout=120)
            check("a file that another process has", (out.decode(), run.returncode, err.decode()), ("fault 91\n", 3, f"circ: {MEANINGS[91]}\ncirc: {path}: {HELD}\n"))
            with open(path + "-wal", "rb") as left:
                check("the log of the other process", left.read(), log)
    check("runs that were still trying when the log was made", hits, 3)
    print(f"backups: {hits} runs ended beside the log of another process")


BLANK, BEGUN, WHOLE = bytes(16), b"\0QLite format 3\0", b"SQLite format 3\0"
LEFT = {BLANK: "blank", BEGUN: "begun", WHOLE: "whole"}


def left_of(path):
    """What a kill left of a file: no bytes, a blank or a begun first page, or a whole one."""
    if not os.path.exists(path) or not os.path.getsize(path):
        return "none"
    with open(path, "rb") as file:
        return LEFT.get(file.read(16).ljust(16, b"\0"), "something else")


def made_and_killed(folder):
    """A run that makes a library is killed at each of its writes, before it and in its middle. Where the file has no
    bytes yet a new library is made; where its first page isn't whole yet, or there are no tables, that is told as no
    library, again and again; and else the library is there."""
    library, hits = os.path.join(folder, "stop.so"), Counter()
    subprocess.run(["cc", "-O2", "-shared", "-fPIC", "-o", library, f"{TOP}/tests/data/stop.c"], check=True)
    for place, how in (("before", {}), ("middle", {"HALF": "1"})):
        number, status = 0, -signal.SIGKILL
        while status == -signal.SIGKILL:
            number += 1
            path, where = os.path.join(folder, f"{place}{number}.db"), f"a kill at write {number}, {place}"
            words = ["file", path, "g1", "begin-day", "2026-03-02"]
            run = subprocess.run([PROGRAM, *words], env={**os.environ, **how, "LD_PRELOAD": library, "STOP": str(number)}, capture_output=True, timeout=120, check=False)
            status, left, found = run.returncode, left_of(path), circ(words)
            wanted = {"none": [("ok", 0)], "blank": [("fault 93", 3)], "begun": [("fault 93", 3)], "whole": [("fault 93", 3), ("ok", 0)]}.get(left, [])
            check(f"after {where}, {left}: {found}", found in wanted, True)
            check(f"again after {where}", circ(words), found)
            hits[f"{left}, {found[0]}"] += status == -signal.SIGKILL
        check("the last run ended", (status, run.stdout), (0, b"ok\n"))
    check("what kills left", sorted(hits), ["begun, fault 93", "blank, fault 93", "none, ok", "whole, fault 93", "whole, ok"])
    print(f"backups: kills of a run that makes a library, at each write: {dict(hits)}")


def main():
    with tempfile.TemporaryDirectory() as folder:
        part(ended, folder)
        part(stopped, folder)
        part(a_log_alone, folder)
        part(the_log_of_another, folder)
        part(made_and_killed, folder)


if __name__ == "__main__":
    run_script(main)
