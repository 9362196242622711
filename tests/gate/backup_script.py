#!/usr/bin/env python3
"""Runs `tools/backup` on libraries, sound, damaged and absent ones, with a `systemctl` of the test's own on the path,
and restores what it made.

    tests/gate/backup_script.py

What a backup has to hold is read from the library before it, by stock SQLite in a copy of both files.
"""

import errno
import fcntl
import os
import re
import shutil
import signal
import sqlite3
import subprocess
import sys
import tempfile
import time
from contextlib import closing

from room import TOP
from lib.checking import check, part, run_script
from lib.messages import message
from lib.runs import GROUND, PROGRAM, answers, digest, month, say, the_rows_are, whole
from lib.serving import Serving, a_library
from reference.desk_rules import Library

BACKUP, CREATE, RESTORE, EXPORT, COPIES = (
    os.path.join(TOP, "tools", it) for it in ("backup", "create", "restore", "export", "copies")
)
USAGE = "usage: backup [--service NAME | --no-service] [--no-audit] [--fewer] LIBRARY FOLDER KEEP\n"
STAMP = r"\d{4}-\d\d-\d\dT\d\d-\d\d-\d\dZ"
NOBODY = 65534
AS_NOBODY = {"user": NOBODY, "group": NOBODY, "extra_groups": []}

# Notes what it is told, and ends with the status that a file of the verb's name has. Where the limit of starts is
# reached it starts nothing, until that is reset.
SYSTEMCTL = """\
#!/bin/sh
echo "$*" >>"{folder}/calls"
[ "$1" != is-active ] || cat "{folder}/state"
[ "$1" != reset-failed ] || rm -f "{folder}/limit"
[ "$1" != start ] || [ ! -f "{folder}/limit" ] || exit 1
[ ! -f "{folder}/$1" ] || exit "$(cat "{folder}/$1")"
"""


class Machine:
    """A folder of its own with a library, a place for backups, and the programs on the path: `circ`, and a `systemctl`
    that notes what it is told."""

    def __init__(self, folder, name):
        self.folder = os.path.join(folder, name)
        self.bin, self.backups = os.path.join(self.folder, "bin"), os.path.join(self.folder, "backups")
        os.makedirs(self.bin)
        os.symlink(PROGRAM, os.path.join(self.bin, "circ"))
        with open(os.path.join(self.bin, "systemctl"), "w", encoding="utf-8") as file:
            file.write(SYSTEMCTL.format(folder=self.folder))
        os.chmod(file.name, 0o755)
        self.is_now("active")
        self.path = os.path.join(self.folder, "town.db")
        shutil.copy(os.path.join(folder, "small.db"), self.path)

    def is_now(self, state):
        with open(os.path.join(self.folder, "state"), "w", encoding="utf-8") as file:
            file.write(f"{state}\n")

    def env(self):
        return {**os.environ, "PATH": f"{self.bin}:{os.environ['PATH']}"}

    def runs(self, *words):
        return subprocess.run(words, capture_output=True, text=True, timeout=60, env=self.env(), check=False)

    def begun(self, *words, by=(), tool=BACKUP, **how):
        how = {"env": self.env(), **how}
        return subprocess.Popen([*by, tool, *words], stdout=subprocess.PIPE, stderr=subprocess.PIPE, text=True, **how)

    def backed_up(self, *words, **how):
        """What a run prints, what it says on standard error, and its status."""
        with self.begun(*words, **how) as run:
            out, err = run.communicate(timeout=60)
        return out, err, run.returncode

    def restored(self, *words, **how):
        """What a restoration prints, what it says on standard error, and its status."""
        run = subprocess.run([RESTORE, "--library", self.path, *words], capture_output=True, text=True, timeout=60, env=self.env(), check=False, **how)
        return run.stdout, run.stderr, run.returncode

    def fails(self, verb, status):
        with open(os.path.join(self.folder, verb), "w", encoding="utf-8") as file:
            file.write(f"{status}\n")

    def told(self):
        """What `systemctl` was told since the calls were asked last."""
        path = os.path.join(self.folder, "calls")
        if not os.path.exists(path):
            return ""
        with open(path, encoding="utf-8") as file:
            return file.read()

    def calls(self):
        """The same, line by line, and forgotten then."""
        told = self.told().splitlines()
        if told:
            os.remove(os.path.join(self.folder, "calls"))
        return told

    def good(self, what, keep="9", *options):
        """Makes a backup, which has to be good; its folder."""
        out, err, status = self.backed_up(*(options or ("--no-service",)), self.path, self.backups, keep)
        check(f"{what} is good", (err, status), ("", 0))
        check(f"its folder, {what}", bool(re.fullmatch(re.escape(f"{self.backups}/town.db-") + STAMP + r"(-\d+)?\n", out)), True)
        return out[:-1]

    def there(self):
        """All that stands in the place for backups."""
        return sorted(os.listdir(self.backups)) if os.path.isdir(self.backups) else None

    def bad(self, what, wanted, *words, status=3, **how):
        """A backup that has to fail: what it says, and the older backups stay as they were, with nothing beside
        them."""
        before = [(it, digest(f"{self.backups}/{it}/town.db")) for it in self.there() or []]
        check(what, self.backed_up(*words, **how), ("", said(*wanted), status))
        check(f"the older backups after {what}", [(it, digest(f"{self.backups}/{it}/town.db")) for it in self.there() or []], before)


def said(*lines):
    return "".join(f"backup: {line}\n" for line in lines)


ORDER = ["is-active circ.service", "stop circ.service", "reset-failed circ.service", "start circ.service", "is-active circ.service"]


RESTORING = ["is-active circ-backup.service", "is-active circ.service", "stop circ.service", "reset-failed circ.service", "start circ.service", "is-active circ.service"]


def restored(machine, place, library):
    """Restores a backup by the line of docs/OPERATIONS.md, with the machine's own places, and looks at its rows. What
    was there is put aside."""
    with open(os.path.join(TOP, "docs", "OPERATIONS.md"), encoding="utf-8") as file:
        block = re.search(r"^To restore.*\n\n((?:    .*\n)+)", file.read(), re.M)[1]
    check("the line", bool(re.fullmatch(r"    circ-restore /var/backups/circ/town\.db-" + STAMP + r"\n", block)), True)
    before = digest(machine.path)
    out, err, status = machine.restored(*block.replace(block.split()[1], place).split()[1:])
    aside = re.fullmatch(re.escape(f"{machine.path} is restored from {place}\nwhat was there is in {machine.folder}/aside/town.db-") + f"({STAMP}(?:-\\d+)?)\\n", out)
    check("it is restored", (err, status, bool(aside)), ("", 0, True))
    check("with the service stopped", machine.calls(), RESTORING)
    the_rows_are(machine.path, library)
    aside = f"{machine.folder}/aside/town.db-{aside[1]}"
    check("what is put aside", digest(f"{aside}/town.db"), before)
    return aside


def of_a_desk(folder):
    """A library that is killed while it serves is in its two files: the backup is the library of what was answered,
    and it goes on from there. While the program has it open no backup is made."""
    machine, library, requests = Machine(folder, "desk"), Library(), month()
    os.remove(machine.path)
    half = 40
    serving = Serving(machine.path, half + 1)
    serving.__enter__()
    try:
        for key, *words in requests[:half]:
            check(f"{key} {words}", serving.desk(key, words)[0], 409 if library.handle(key, words).startswith("refused") else 200)
        machine.bad("while it serves", [f"{machine.path} is open in another process"], "--no-service", machine.path, machine.backups, "9")
    finally:
        serving.end()
    check("there is a log", os.path.getsize(machine.path + "-wal") > 1000, True)
    log = digest(machine.path + "-wal")
    place = machine.good("a killed one")
    check("the library's own log stays", digest(machine.path + "-wal"), log)
    check("who may look into the backup", os.stat(place).st_mode & 0o777, 0o700)
    for key, *words in requests[half:half + 10]:
        answers(machine.path, key, words)
    # a wrong day, that can't be taken back but by the backup
    check("a wrong day", answers(machine.path, "wrong", ["begin-day", "2190-12-31"]), ("ok\n", 0))
    check("the right one is refused", answers(machine.path, "right", ["begin-day", "2031-01-01"]), ("refused 23\n", 2))
    restored(machine, place, library)
    for key, *words in requests[half:half + 10]:
        check(f"{key} {words} after it", answers(machine.path, key, words)[0], library.handle(key, words) + "\n")
    the_rows_are(machine.path, library)
    check("the right day", answers(machine.path, "right", ["begin-day", "2031-01-01"]), ("ok\n", 0))


def kept(folder):
    """Backups of one day, of which the newest stay; what else stands beside them stays too."""
    machine = Machine(folder, "kept")
    others = ["town.db-of-before-the-move", "harbour.db-2026-03-02T05-00-00Z", "town.db-2026-03-02T05-00-00Z.txt"]
    old = ["town.db-2026-03-01T05-00-00Z", "town.db-2026-03-02T05-00-00Z", "town.db-2026-03-02T05-00-00Z-2", "town.db-2026-03-02T05-00-00Z-10"]
    for name in [*others, *old, ".town.db-unfinished-by-a-kill"]:
        os.makedirs(os.path.join(machine.backups, name))
    first = os.path.basename(machine.good("the first", "4"))
    check("the oldest is removed", machine.there(), sorted([*others, *old[1:], first]))
    say(machine.path, [("k1", ["check-out", "1", "10", "1"], "loan 1 due 2026-03-09")])
    second = os.path.basename(machine.good("the second", "3"))
    check("two of one day", machine.there(), sorted([*others, old[3], first, second]))
    check("the first is as it was", len(whole(f"{machine.backups}/{first}/town.db")["loans3"]), 0)
    check("the second has what came after it", len(whole(f"{machine.backups}/{second}/town.db")["loans3"]), 1)
    third = os.path.basename(machine.good("the third", "1"))
    check("the newest alone", machine.there(), sorted([*others, third]))
    # one that can't be removed is told, and the new one is there
    file = os.path.join(machine.backups, old[0])
    open(file, "w", encoding="utf-8").close()
    out, err, status = machine.backed_up("--no-service", machine.path, machine.backups, "2")
    check("an old one that can't be removed", (err, status), (said(f"{old[0]} can't be removed from {machine.backups}: Not a directory"), 3))
    check("the new one is there", whole(os.path.join(out[:-1], "town.db")), whole(machine.path))
    os.remove(file)
    # those of the seconds to come are there already
    taken = [time.strftime("town.db-%Y-%m-%dT%H-%M-%SZ", time.gmtime(time.time() + at)) for at in range(20)]
    taken = [name for name in taken if name not in machine.there()]
    for name in taken:
        os.mkdir(os.path.join(machine.backups, name))
    time.sleep(1)
    again = os.path.basename(machine.good("one of a second that is taken", "99"))
    check("another name", (again[:-2] in taken, again[-2:]), (True, "-2"))
    check("nothing is written over", [it for it in taken if os.listdir(os.path.join(machine.backups, it))], [])
    for name in taken:
        os.rmdir(os.path.join(machine.backups, name))
    if os.geteuid() == 0:
        os.chown(machine.path, NOBODY, NOBODY)
        os.chmod(machine.path, 0o640)
        place = machine.good("one of another owner", "99")
        check("its owner and rights", {(it.stat().st_uid, it.stat().st_gid, it.stat().st_mode & 0o777) for it in os.scandir(place)}, {(NOBODY, NOBODY, 0o640)})
    check("the libraries are those", whole(f"{machine.backups}/{third}/town.db"), whole(machine.path))


def runs_as_nobody():
    """Whether a user without rights can run the program from here."""
    try:
        return subprocess.run([BACKUP], capture_output=True, check=False, **AS_NOBODY).returncode == 4
    except PermissionError:
        print("backup_script: a place that can't be written was not tried, since nobody else can be here")
        return False


def failing(folder):
    """What is missing, damaged or can't be written is told, the status isn't 0, the older backups stay, and the
    service is started again where it was stopped."""
    machine = Machine(folder, "failing")
    machine.good("one before")
    words = (machine.path, machine.backups, "1")
    for what in (f"{machine.folder}/absent.db", machine.folder):
        machine.bad(f"no library {what}", [f"{what} is no file"], what, machine.backups, "1")
    empty = os.path.join(machine.folder, "empty.db")
    open(empty, "w", encoding="utf-8").close()
    machine.bad("an empty library", [f"{empty} has no bytes"], empty, machine.backups, "1")
    below = f"{machine.path}/below"
    machine.bad("a place below a file", [f"{below} can't be made or opened: Not a directory"], machine.path, below, "1")
    check("the service wasn't stopped", machine.calls(), [])
    if runs_as_nobody():
        closed = os.path.join(machine.folder, "closed")
        os.mkdir(closed, 0o755)
        for at in (folder, machine.folder):
            os.chmod(at, 0o755)
        os.chmod(machine.path, 0o644)
        machine.bad("a place that can't be written", [f"{closed} can't be written: Permission denied"], machine.path, closed, "1", **AS_NOBODY)
    # an account that owes what no line says is the one fault of the library
    with closing(sqlite3.connect(machine.path)) as conn:
        conn.execute("UPDATE patrons SET owed = 7 WHERE patron = 2")
        conn.commit()
    gone = "the copy was removed, and the older backups stay"
    meant = message(["audit", machine.path], "unsound balance 2\n").decode().splitlines()
    machine.bad("an unsound library", ["the audit of the copy tells: unsound balance 2", *meant, gone], *words)
    check("the service runs again", machine.calls(), ORDER[:4])
    with open(machine.path, "r+b") as file:
        file.truncate(5000)
    out, err, status = machine.backed_up(*words)
    check("a damaged library", (out, status, bool(re.match(r"backup: the audit of the copy tells: fault 9[13]\n", err)), err.endswith(said(gone))), ("", 3, True, True))
    check("the service runs again", machine.calls(), ORDER[:4])
    check("one backup is there", len(machine.there()), 1)
    # it is copied, all the same, by who wants it so
    machine.good("with no audit", "9", "--no-service", "--no-audit")


FEWER = "where that is right, type: backup --fewer LIBRARY FOLDER KEEP"
REMOVED = "the copy was removed, and the older backups stay"


def fewer(folder):
    """A library that has fewer copies or patrons than the newest backup takes the place of none, but where that is
    wanted. GROUND has four copies and three patrons."""
    machine = Machine(folder, "fewer")
    machine.good("one of before")
    say(machine.path, [("f1", ["withdraw", "30"], "ok")])
    first = os.path.basename(machine.good("one whose copy was withdrawn"))
    for what, rows, said_of in (("a patron less", [*GROUND[:10], *GROUND[11:]], "2 patrons where {0} has 3"), ("a copy less", GROUND[:-1], "3 copies where {0} has 4"),
                                ("a new library", GROUND[:1], "0 copies where {0} has 4 and 0 patrons where {0} has 3")):
        os.remove(machine.path)
        say(machine.path, rows)
        machine.bad(what, [f"the library has only {said_of.format(first)}", REMOVED, FEWER], "--no-service", machine.path, machine.backups, "1")
    machine.bad("one with the service", [f"the library has only {said_of.format(first)}", REMOVED, FEWER], machine.path, machine.backups, "1")
    check("the service runs again", machine.calls(), ORDER[:4])
    machine.good("one that is wanted", "9", "--no-service", "--fewer")
    machine.good("one after it, with as few as the newest")
    check("four are there", len(machine.there()), 4)
    # one that can't be read is passed over, and one of another library isn't looked at
    for name in ("town.db-2099-03-02T05-00-00Z", "harbour.db-2098-03-02T05-00-00Z"):
        os.mkdir(f"{machine.backups}/{name}")
    shutil.copy(f"{machine.backups}/{first}/town.db", f"{machine.backups}/harbour.db-2098-03-02T05-00-00Z/harbour.db")
    before = [digest(f"{machine.backups}/{first}/{it}") for it in sorted(os.listdir(f"{machine.backups}/{first}"))]
    machine.good("one beside others")
    check("nothing is written into a backup", [digest(f"{machine.backups}/{first}/{it}") for it in sorted(os.listdir(f"{machine.backups}/{first}"))], before)
    say(machine.path, GROUND[1:10])
    os.rename(machine.path, f"{machine.folder}/more.db")
    shutil.copy(f"{machine.folder}/more.db", machine.path)
    machine.good("one with more")
    os.remove(machine.path)
    say(machine.path, GROUND[:1])
    newest = machine.there()[-2]
    machine.bad("one that lost them", [f"the library has only 0 patrons where {newest} has 2", REMOVED, FEWER], "--no-service", machine.path, machine.backups, "1")


def created(folder):
    """A library is made where none is, by who asks for it; the service asks whether there is one, and makes none."""
    machine = Machine(folder, "created")
    path, none = os.path.join(machine.folder, "new.db"), f"{machine.folder}/none/new.db"

    def create(*words):
        told = machine.runs(CREATE, *words)
        return told.stdout, told.stderr, told.returncode

    def tells(line):
        return f"create: {line}\n"

    absent = tells(f"{path} is absent or empty: mount its disk, or restore a backup by restore; only for a new town type: create {path}")
    check("an absent one", create("--check", path), ("", absent, 3))
    open(path, "w", encoding="utf-8").close()
    check("an empty one", create("--check", path), ("", absent, 3))
    check("a folder", create("--check", machine.folder), ("", absent.replace(path, machine.folder), 3))
    check("nothing was made", (os.path.getsize(path), os.path.exists(path + "-wal")), (0, False))
    check("a new one", create(path, "2026-03-02"), (f"{path}: a new library, whose day is 2026-03-02\n", "", 0))
    check("it is there", create("--check", path), ("", "", 0))
    check("with its day", answers(path, "q", ["today"]), ("today 2026-03-02\n", 0))
    before = digest(path)
    check("a second time", create(path, "2026-03-03"), ("", tells(f"{path} is there already"), 3))
    check("it is as it was", digest(path), before)
    os.remove(path)
    with open(path + "-wal", "w", encoding="utf-8") as file:
        file.write("a log")
    check("a log alone", create(path, "2026-03-02"), ("", tells(f"{path}-wal is there, the log of a library that isn't: restore a backup, or move the log away"), 3))
    check("it makes none beside a log", os.path.exists(path), False)
    os.remove(path + "-wal")
    os.symlink(f"{machine.folder}/elsewhere.db", path)
    check("a link that leads nowhere", create(path, "2026-03-02"), ("", tells(f"{path} is a link that leads to no library"), 3))
    check("to the service neither", create("--check", path), ("", absent, 3))
    os.remove(path)
    for day in ("2026-3-2", "2026-02-30", "tomorrow", "1"):
        check(f"the day {day}", create(path, day), ("", tells(f"DAY is no day such as 2026-03-02: {day}"), 4))
    out, err, status = create(path, "1999-12-31")
    told = ("words not understood\n", "from 2000-01-01", tells("no library was made with the day 1999-12-31"))
    check(f"a day out of range, and why: {err}", (out, [it in err for it in told], status), ("", [True] * 3, 3))
    check("that its file was new isn't told", "there was no library" in err, False)
    check("no folder", create(none), ("", tells(f"there is no folder {machine.folder}/none"), 3))
    usage = "usage: create LIBRARY [DAY]\n       create --check LIBRARY\n"
    for words in ((), ("--check",), ("--check", path, "2026-03-02"), ("--other",), (path, "2026-03-02", "x"), ("",)):
        check(f"the words {words}", create(*words), ("", usage, 4))
    check("nothing is left", sorted(it for it in os.listdir(machine.folder) if "new" in it), [])
    today = time.strftime("%F")
    out = create(path)[0]
    check("today, where no day is given", out in {f"{path}: a new library, whose day is {it}\n" for it in (today, time.strftime("%F"))}, True)
    if os.geteuid() == 0:
        place = os.path.join(machine.folder, "of nobody")
        os.mkdir(place)
        os.chown(place, NOBODY, NOBODY)
        check("one in the folder of another owner", create(f"{place}/town.db", "2026-03-02")[2], 0)
        check("it belongs to that one", {(it.stat().st_uid, it.stat().st_gid) for it in os.scandir(place)}, {(NOBODY, NOBODY)})
    # with the package and without it, a library is made with its first day before anything is started
    with open(os.path.join(TOP, "docs", "OPERATIONS.md"), encoding="utf-8") as file:
        typed = re.findall(r"^    (.*)\n    systemctl enable --now circ.service ", file.read(), re.M)
    check("what is typed before the start", typed, ["circ-create /var/lib/circ/town.db"] * 2)
    # the unit asks before the program, which would make one
    with open(os.path.join(TOP, "docs", "operations", "circ.service"), encoding="utf-8") as file:
        runs = re.findall(r"^Exec(\w+)=/usr/local/bin/(\S+ \S+ \S+)", file.read(), re.M)
    check("what the unit runs", runs, [("StartPre", "circ-create --check /var/lib/circ/town.db"), ("Start", "circ serve /var/lib/circ/town.db")])


def restore_said(*lines):
    return "".join(f"restore: {line}\n" for line in lines)


def asides(machine):
    """What was put aside, the oldest first."""
    place = os.path.join(machine.folder, "aside")
    found = os.listdir(place) if os.path.isdir(place) else []
    return [f"{place}/{it}" for it in sorted(found, key=lambda it: (it[:len("town.db-2026-03-02T05-00-00Z")], int(it.rpartition("Z")[2][1:] or 1)))]


def state_of(machine):
    """Whatever a restoration could change: the library, its log and what is put aside; and that nothing else is
    left."""
    left = [it for it in os.listdir(machine.folder) if it.startswith(".")]
    return digest(machine.path), digest(machine.path + "-wal"), asides(machine), left


def restorations(folder):
    """To the same machine twice and back again, with the log of an older day there; to a new machine, whose service
    has another number; and where the service was stopped or failed."""
    machine = Machine(folder, "restorations")
    first = machine.good("the first")
    say(machine.path, [("r1", ["check-out", "1", "10", "1"], "loan 1 due 2026-03-09")])
    second = machine.good("the second")
    rows = {it: whole(f"{it}/town.db") for it in (first, second)}
    check("the two differ", rows[first] == rows[second], False)
    with open(machine.path + "-wal", "wb") as file:
        file.write(b"a log of another day" * 100)
    log = digest(machine.path + "-wal")
    for at, place in enumerate((first, second, first, first)):
        out, err, status = machine.restored(place)
        check(f"restored {at}", (out, err, status), (f"{machine.path} is restored from {place}\nwhat was there is in {asides(machine)[-1]}\n", "", 0))
        check(f"the calls {at}", machine.calls(), RESTORING)
        check(f"its rows {at}", whole(machine.path), rows[place])
        check(f"so many are aside {at}", len(asides(machine)), at + 1)
    check("what was there, with its log", (digest(f"{asides(machine)[0]}/town.db"), digest(f"{asides(machine)[0]}/town.db-wal")), (digest(f"{second}/town.db"), log))
    check("each of the others", [whole(f"{it}/town.db") for it in asides(machine)[1:]], [rows[first], rows[second], rows[first]])
    check("the backup stays", whole(f"{first}/town.db"), rows[first])
    check("and back again", machine.restored(asides(machine)[2])[1:], ("", 0))
    check("the rows after it", whole(machine.path), rows[second])
    for state in ("inactive", "failed"):
        machine.is_now(state)
        machine.calls()
        # it is so again at the end, which is told
        out, err, status = machine.restored(second)
        check(f"a service that is {state} is started", (machine.calls(), err, status), (RESTORING, restore_said("circ.service was started, and has ended since: journalctl -u circ.service says why"), 3))
    machine.is_now("active")
    with open(os.path.join(machine.folder, "limit"), "w", encoding="utf-8") as file:
        file.write("1\n")
    check("a service at the limit of its starts", machine.restored(first)[1:], ("", 0))
    machine.calls()
    check("another service", (machine.restored("--service", "harbour", first)[1:], machine.calls()), (("", 0), [it.replace("circ.service", "harbour") for it in RESTORING]))
    check("none", (machine.restored("--no-service", first)[1:], machine.calls()), (("", 0), []))
    # a library to which a link leads
    link, there = os.path.join(machine.folder, "link.db"), os.path.join(machine.folder, "disk")
    os.mkdir(there)
    shutil.copy(f"{second}/town.db", f"{there}/town.db")
    os.symlink("disk/town.db", link)
    told = machine.runs(RESTORE, "--library", link, "--no-service", first)
    check("by a link", (told.returncode, told.stderr, os.readlink(link)), (0, "", "disk/town.db"))
    check("the rows where it leads", (whole(f"{there}/town.db"), [whole(f"{there}/aside/{it}/town.db") for it in os.listdir(f"{there}/aside")]), (rows[first], [rows[second]]))
    # a machine that has no library yet; its folder is of another user than the backup
    new = Machine(folder, "new machine")
    os.remove(new.path)
    if os.geteuid() == 0:
        os.chown(f"{first}/town.db", NOBODY - 1, NOBODY - 1)
        os.chown(new.folder, NOBODY, NOBODY)
    check("a new machine", (new.restored(first + "/"), new.calls()), ((f"{new.path} is restored from {first}\n", "", 0), RESTORING))
    check("its rows", (whole(new.path), asides(new)), (rows[first], []))
    if os.geteuid() == 0:
        check("whom it belongs to", [(it.st_uid, it.st_gid) for it in (os.stat(new.path),)], [(NOBODY, NOBODY)])
        check("once more", new.restored(second)[1:], ("", 0))
        check("whom what is aside belongs to", {(it.st_uid, it.st_gid) for it in map(os.stat, (new.path, f"{new.folder}/aside", *asides(new), f"{asides(new)[0]}/town.db"))}, {(NOBODY, NOBODY)})


def not_restored(folder):
    """What isn't sound, or can't be put in place, changes nothing: the library is as it was, nothing is put aside, and
    the service runs as before."""
    machine = Machine(folder, "not restored")
    good = machine.good("a good one")
    say(machine.path, [("n1", ["check-out", "1", "10", "1"], "loan 1 due 2026-03-09")])
    with open(machine.path + "-wal", "wb") as file:
        file.write(b"its log" * 100)
    before = state_of(machine)

    def refuses(what, wanted, *words, calls=(), status=3):
        out, err, found = machine.restored(*words)
        check(what, (out, err, found), ("", wanted, status))
        check(f"the library after {what}", state_of(machine), before)
        check(f"the calls of {what}", machine.calls(), list(calls))

    unsound, damaged, empty, two = (os.path.join(machine.folder, it) for it in ("unsound", "damaged", "empty", "two"))
    for place in (unsound, damaged, two):
        shutil.copytree(good, place)
    shutil.copy(f"{two}/town.db", f"{two}/harbour.db")
    os.mkdir(empty)
    with closing(sqlite3.connect(f"{unsound}/town.db")) as conn:
        conn.execute("UPDATE patrons SET owed = 7 WHERE patron = 2")
        conn.commit()
    with open(f"{damaged}/town.db", "r+b") as file:
        file.truncate(5000)
    for place, told in ((unsound, "unsound balance 2"), (damaged, "fault 9[13]")):
        out, err, status = machine.restored(place)
        check(f"{place} isn't restored", (out, status, bool(re.search(f"^restore: the audit of the backup tells: {told}; nothing was changed$", err, re.M))), ("", 3, True))
        check("the library after it", state_of(machine), before)
        check("the service wasn't stopped", machine.calls(), RESTORING[:1])
    for place in (empty, f"{machine.folder}/absent", f"{good}/town.db"):
        refuses(f"no backup {place}", restore_said(f"{place} is no backup: it holds no library"), place)
    refuses("two libraries", restore_said(f"{two} is no backup: it holds more than one library"), two)
    none = f"{machine.folder}/none"
    refuses("no folder", restore_said(f"there is no folder {none}; where its disk is mounted, type: install -d -m 700 -o circ -g circ {none}"), "--library", f"{none}/town.db", good)
    machine.is_now("activating")
    refuses("a backup at work", restore_said("a backup is being made: try again when it has ended"), good, calls=RESTORING[:1])
    machine.is_now("active")
    machine.fails("stop", 1)
    refuses("a service that isn't stopped", restore_said("circ.service can't be stopped; nothing was changed"), good, calls=RESTORING[:5])
    machine.fails("stop", 0)
    # each of the moves fails: of the file, of its log, and of the copy
    for what, stops, line in (("the file", f'"{machine.path} "*', f"{machine.path} can't be put aside; nothing was changed"),
                              ("its log", f'"{machine.path}-wal "*', f"{machine.path}-wal can't be put aside; nothing was changed"),
                              ("the copy", "*/.restored-*", f"the copy can't take the place of {machine.path}, which is as it was")):
        with open(os.path.join(machine.bin, "mv"), "w", encoding="utf-8") as file:
            file.write(f'#!/bin/sh\ncase "$1 $2" in {stops}) exit 1 ;; esac\nexec /bin/mv "$@"\n')
        os.chmod(file.name, 0o755)
        out, err, status = machine.restored(good)
        check(f"{what} can't be moved", (out, err, status), ("", restore_said(line), 3))
        check("the library after it, and nothing aside", state_of(machine), before)
        check("the service runs again", machine.calls(), RESTORING[:5])
    machine.is_now("inactive")
    check("a service that somebody stopped", (machine.restored(good)[2], machine.calls()), (3, RESTORING[:3]))
    machine.is_now("active")
    os.remove(os.path.join(machine.bin, "mv"))
    # ended by a signal while the service is being stopped
    slow = os.path.join(machine.folder, "slow")
    shutil.copytree(machine.bin, slow, symlinks=True)
    with open(os.path.join(slow, "systemctl"), "w", encoding="utf-8") as file:
        file.write(SYSTEMCTL.format(folder=machine.folder).replace("[ ! -f", '[ "$1" != stop ] || exec sleep 2\n[ ! -f'))
    before = state_of(machine)
    with subprocess.Popen([RESTORE, "--library", machine.path, good], stdout=subprocess.PIPE, stderr=subprocess.PIPE, text=True, env={**os.environ, "PATH": f"{slow}:{os.environ['PATH']}"}) as run:
        while "stop" not in machine.told() and run.poll() is None:
            time.sleep(0.02)
        run.send_signal(signal.SIGTERM)
        out, err = run.communicate(timeout=60)
    check("a run that is ended", (out, err, run.returncode), ("", restore_said("stopped before its end"), 130))
    check("the library after it", state_of(machine), before)
    check("the service runs again", machine.calls(), RESTORING[:5])
    usage = "usage: restore [--library LIBRARY] [--service NAME | --no-service] BACKUP\n"
    for words in ((), ("",), ("--library", ""), ("--library", "", good), ("--service", "", good), ("--no-service",), ("--other", good), (good, good)):
        check(f"the words {words}", machine.restored(*words), ("", usage, 4))
    check("nothing was called", machine.calls(), [])
    check("it is restored then", machine.restored(good)[1:], ("", 0))


def services(folder):
    """The service is stopped before the files are copied and started after it, whatever comes."""
    machine = Machine(folder, "services")
    machine.good("with the service", "9", "--service", "circ.service")
    check("in this order", machine.calls(), ORDER)
    machine.good("with another service", "9", "--service", "harbour")
    check("by its name", machine.calls(), [it.replace("circ.service", "harbour") for it in ORDER])
    check("with none", (machine.good("without one"), machine.calls())[1], [])
    for state in ("activating", "failed"):
        machine.is_now(state)
        machine.good(f"a service that is {state}", "9", "--service", "circ.service")
        check(f"one that is {state} is started", machine.calls(), ORDER)
    machine.fails("limit", 1)
    machine.good("a service at the limit of its starts", "9", "--service", "circ.service")
    check("its starts count anew", machine.calls(), ORDER)
    machine.is_now("inactive")
    machine.good("a service that somebody stopped", "9", "--service", "circ.service")
    check("it stays stopped", machine.calls(), ORDER[:1])
    machine.is_now("active")
    words = (machine.path, machine.backups, "1")
    machine.fails("stop", 1)
    machine.bad("a service that isn't stopped", ["circ.service can't be stopped"], *words)
    check("it is started all the same", machine.calls(), ORDER[:4])
    machine.fails("start", 1)
    machine.bad("nor started", ["circ.service can't be started again", "circ.service can't be stopped"], *words)
    machine.fails("stop", 0)
    machine.calls()
    for verb, told, calls in (("start", "circ.service can't be started again", ORDER[:4]), ("is-active", "circ.service was started again, and has ended since", ORDER)):
        machine.fails("start", 0)
        machine.fails(verb, 3)
        out, err, status = machine.backed_up(machine.path, machine.backups, "9")
        check(f"what is told where {verb} fails", (err, status, machine.calls()), (said(told), 3, calls))
        check("the backup is good", whole(os.path.join(out[:-1], "town.db")), whole(machine.path))
    # ended by a signal while the service is being stopped
    os.remove(os.path.join(machine.bin, "systemctl"))
    with open(os.path.join(machine.bin, "systemctl"), "w", encoding="utf-8") as file:
        file.write(SYSTEMCTL.format(folder=machine.folder).replace("[ ! -f", '[ "$1" != stop ] || exec sleep 30\n[ ! -f'))
    os.chmod(file.name, 0o755)
    before = machine.there()
    with machine.begun(*words) as run:
        while "stop" not in machine.told() and run.poll() is None:
            time.sleep(0.02)
        run.send_signal(signal.SIGTERM)
        out, err = run.communicate(timeout=60)
    check("a run that is ended", (out, err, run.returncode), ("", said("stopped before its end"), 130))
    check("the service runs again", machine.calls(), ORDER[:4])
    check("no backup came of it", machine.there(), before)


def others(folder):
    """Another run in the same place, and a machine without the programs."""
    machine = Machine(folder, "others")
    words = (machine.path, machine.backups, "1")
    machine.good("one before")
    held = os.open(machine.backups, os.O_RDONLY)
    fcntl.flock(held, fcntl.LOCK_EX)
    machine.bad("another run at work", [f"another backup is being made in {machine.backups}"], *words)
    os.close(held)
    check("it stops nothing", machine.calls(), [])
    empty, apart = os.path.join(machine.folder, "empty"), os.path.join(machine.folder, "apart")
    os.mkdir(empty)
    os.mkdir(apart)
    # outside the checkout
    for tool in (BACKUP, *(os.path.join(TOP, "tools", it) for it in ("circ_client.py", "circ_tool.py"))):
        shutil.copy(tool, apart)
    machine.bad("no circ", ["there is no circ to audit by, neither beside this program nor on the path"], *words, by=[sys.executable], tool=os.path.join(apart, "backup"), env={"PATH": empty})
    without = {**os.environ, "PATH": f"{empty}:{os.environ['PATH']}"}
    if shutil.which("circ", path=without["PATH"]) is None:
        out, err, status = machine.backed_up("--no-service", *words[:2], "9", env=without)
        check("by that of the checkout", (err, status, whole(os.path.join(out[:-1], "town.db"))), ("", 0, whole(machine.path)))
    os.symlink(PROGRAM, os.path.join(empty, "circ"))
    none = "systemctl can't be run: No such file or directory"
    machine.bad("no systemctl", [none, none, none, none, "circ.service can't be started again", "circ.service can't be stopped"], *words, by=[sys.executable], env={"PATH": empty})


def a_full_disk(folder):
    """Where there is no room for both files it is told, and the older backup stays. Whether it could be tried."""
    machine = Machine(folder, "full")
    os.mkdir(machine.backups)
    if shutil.which("mount") is None:
        return False
    mounted = subprocess.run(["mount", "-t", "tmpfs", "-o", "size=300k", "tmpfs", machine.backups], capture_output=True, check=False)
    if mounted.returncode:
        return False
    try:
        size = os.path.getsize(machine.path)
        check("one has room and two have not", size < 300 * 1024 < 2 * size, True)
        machine.good("one that has room")
        out, err, status = machine.backed_up(machine.path, machine.backups, "1")
        check("one that has none", (out, status, err.startswith(f"backup: {machine.path} can't be copied to "), err.endswith(": No space left on device\n")), ("", 3, True, True))
        check("the service runs again", machine.calls(), ORDER[:4])
        check("the older one stays", [whole(f"{machine.backups}/{it}/town.db") for it in machine.there()], [whole(machine.path)])
        full_for_others(machine)
    finally:
        subprocess.run(["umount", machine.backups], check=True)
    return True


def full_for_others(machine):
    """What makes a library, restores one, or writes what one has or a spreadsheet's list, tells it in words, and
    leaves nothing."""
    full, backup = machine.backups, os.path.join(machine.backups, machine.there()[0])
    try:
        with open(f"{full}/fill", "wb", buffering=0) as file:
            while True:
                file.write(bytes(4096))
    except OSError as fault:
        check("the disk is full", fault.errno, errno.ENOSPC)
    copies = os.path.join(machine.folder, "list.csv")
    with open(copies, "w", encoding="utf-8") as file:
        file.write("copy,title,text,kind,home,price\n" + "".join(f"{it},{it},Maps,1,1,5.00\n" for it in range(1, 2000)))
    before = machine.there()
    for what, words in (
        ("a new library", (CREATE, f"{full}/new.db", "2026-03-02")),
        ("a restoration", (RESTORE, "--no-service", "--library", f"{full}/restored.db", backup)),
        ("an export", (EXPORT, machine.path, f"{full}/out")),
        ("a copies file", (COPIES, copies, f"{full}/made.csv")),
    ):
        told = machine.runs(*words)
        is_said = "the disk is full" in told.stderr or "No space left on device" in told.stderr
        check(f"{what}: {told.stderr}", (told.stdout, told.returncode, is_said), ("", 3, True))
        check(f"what {what} leaves", machine.there(), before)


def wrong_words(folder):
    machine = Machine(folder, "words")
    for words in ((), (machine.path, machine.backups), (machine.path, machine.backups, ""), ("--service", machine.path, machine.backups, "1"), ("--other", machine.path, machine.backups, "1"),
                  (machine.path, machine.backups, "1", "2"), ("--service", "", machine.path, machine.backups, "1")):
        check(f"the words {words}", machine.backed_up(*words), ("", USAGE, 4))
    for keep in ("0", "-1", "x", "01", "1000000"):
        machine.bad(f"KEEP {keep}", ["KEEP is no number from 1 to 999999"], machine.path, machine.backups, keep, status=4)
    check("nothing was stopped or made", (machine.calls(), machine.there()), ([], None))


def main():
    with tempfile.TemporaryDirectory() as folder:
        a_library(folder, "small.db")
        part(of_a_desk, folder)
        part(kept, folder)
        part(failing, folder)
        part(fewer, folder)
        part(created, folder)
        part(restorations, folder)
        part(not_restored, folder)
        part(services, folder)
        part(others, folder)
        tried = part(a_full_disk, folder)
        part(wrong_words, folder)
    if tried is False:
        print("backup_script: a full disk was not tried, since nothing may be mounted here")


if __name__ == "__main__":
    run_script(main)
