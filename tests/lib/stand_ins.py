"""Stand-ins for the system's commands that docs/OPERATIONS.md types and that want root, a running systemd or an
installation. They work on a machine whose places are below the folder MACHINE: each looks at its words, does there
what the command would do, and ends with 9 where it isn't a form that it knows. So a wrong word fails.

    python3 tests/lib/stand_ins.py COMMAND WORDS..
"""

import glob
import os
import re
import shutil
import signal
import sqlite3
import subprocess
import sys
import time

MACHINE = os.environ.get("MACHINE", "")
FOLDERS = ("etc/systemd/system", "usr/lib/systemd/system")


class Wrong(Exception):
    """Why a call isn't one that the command would take, and its status."""

    def __init__(self, why, status=9):
        super().__init__(why)
        self.status = status


def below(text, folder=MACHINE):
    """A text with the places of the machine in the place of the system's."""
    return re.sub(r"(?<![\w.])/(?=(?:etc|run|usr|var)\b)", f"{folder}/", text)


def read(path):
    with open(path, encoding="utf-8") as file:
        return file.read()


def note(path, text):
    os.makedirs(os.path.dirname(path), exist_ok=True)
    with open(path, "w", encoding="utf-8") as file:
        file.write(text)


def need(holds, why, status=9):
    if not holds:
        raise Wrong(why, status)


def need_user(name):
    need(name == "root" or os.path.exists(f"{MACHINE}/users/{name}"), f"there is no user or group {name}", 1)


def run(*words, **how):
    return subprocess.run(words, check=False, **how).returncode


def real(name):
    """The system's own command of a name that has a stand-in."""
    here = os.path.join(MACHINE, "stand-ins")
    return shutil.which(name, path=":".join(it for it in os.environ["PATH"].split(":") if it != here))


# users, and what belongs to them: the files stay the test's own


def makes_user(*words):
    home = f"{MACHINE}/var/lib/circ"
    by_hand = ("--system", "--home-dir", home, "circ")
    by_package = ("--system", "--group", "--quiet", "--home", home, "--no-create-home", "circ")
    need(words in (by_hand, by_package), "these words make no user")
    note(f"{MACHINE}/users/circ", "")


def getent(*words):
    need(words == ("passwd", "circ"), "this isn't asked")
    return 0 if os.path.exists(f"{MACHINE}/users/circ") else 2


def of_id(*words):
    if words == ("-u", "circ"):
        print(100)
        return 0
    return run(real("id"), *words)


def of_stat(*words):
    if words[:2] == ("-c", "%U"):
        print("circ")
    elif words[:2] == ("-c", "%U:%G %a"):
        print("root:circ 750")
    else:
        return run(real("stat"), *words)
    return 0


def makes_file(*words):
    words = list(words)
    for option in ("-o", "-g"):
        if option in words:
            at = words.index(option)
            need_user(words[at + 1])
            del words[at : at + 2]
    return run(real("install"), *words)


def gives_group(group, *paths):
    need_user(group)
    need(paths and all(map(os.path.exists, paths)), "a file isn't there", 1)


def as_user(*words):
    need(words[:3] == ("-u", "circ", "--") and len(words) > 3, "runuser knows no such words")
    need_user("circ")
    return run(*words[3:])


# a package


def apt(*words):
    need(len(words) == 2 and words[0] == "install", "apt knows no such words")
    path, control = words[1], f"{MACHINE}/control"
    is_path = path.startswith("./") and os.path.isfile(path)
    need(is_path, "it is no file by a path, so apt would look for a package of this name", 100)
    is_new = not os.path.exists(control)
    shutil.rmtree(control, ignore_errors=True)
    unpacked = [run("dpkg-deb", *words) for words in (("-x", path, MACHINE), ("-e", path, control))]
    need(unpacked == [0, 0], "it is no package", 100)
    note(f"{control}/postinst", below(read(f"{control}/postinst")))
    version = re.search("^Version: (.*)$", read(f"{control}/control"), re.M)[1]
    return run("sh", f"{control}/postinst", "configure", "" if is_new else version)


def of_helper(verb, *_):
    need(verb in ("debian-installed", "update-state"), "deb-systemd-helper isn't called so")
    return 1


def of_invoke(verb, *units):
    need(verb == "try-restart", "deb-systemd-invoke isn't called so")
    for unit in (Unit(it) for it in units):
        if unit.pid():
            unit.stops()
            unit.starts()


# systemd


def heeds_signals():
    for it in (signal.SIGHUP, signal.SIGINT, signal.SIGTERM):
        signal.signal(it, signal.SIG_DFL)


class Unit:
    """A unit of the machine: its file is in one of systemd's folders there."""

    def __init__(self, name, env=os.environ):
        self.name, folder = name if re.search(r"\.(service|timer)$", name) else f"{name}.service", env["MACHINE"]
        there = [path for path in (f"{folder}/{it}/{self.name}" for it in FOLDERS) if os.path.isfile(path)]
        need(there, f"there is no unit {self.name}", 5)
        text = re.sub(r"\b8080\b", env["PORT"], read(there[0]))
        self.text = below(re.sub(r"\b6001\b", env["SIP2_PORT"], text), folder)
        self.state = f"{folder}/run/units/{self.name}"

    def lines(self, field):
        return re.findall(f"^{field}=(.*)$", self.text, re.M)

    def pid(self):
        """The number of its process, where that runs."""
        try:
            number = int(read(self.state))
            is_gone = read(f"/proc/{number}/stat").rpartition(")")[2].split()[0] in "ZX"
        except (OSError, ValueError):
            return None
        return None if is_gone else number

    def is_active(self):
        if self.pid():
            return "active"
        return "failed" if os.path.exists(self.state) else "inactive"

    def starts(self):
        """A timer only waits; a service runs as its unit has it, but for its user and what it may do."""
        if self.name.endswith(".timer"):
            Unit(self.name.replace(".timer", ".service"))
            return note(self.state, "1")
        if self.pid():
            return None
        for user in (*self.lines("User"), *self.lines("Group"), *self.lines("SupplementaryGroups")):
            need_user(user)
        note(self.state, "none")
        with open(f"{self.state}.log", "ab") as log:
            how = {"stdin": subprocess.DEVNULL, "stdout": log, "stderr": log}
            for line in self.lines("ExecStartPre"):
                need(run(*line.split(), **how) == 0, f"{self.name} failed: {line}", 1)
            (line,) = self.lines("ExecStart")
            if "exec" in self.lines("Type"):
                # the tools ignore signals while they start it, and systemd hands none of that on
                started = subprocess.Popen(line.split(), start_new_session=True, preexec_fn=heeds_signals, **how)
                note(self.state, str(started.pid))
            else:
                need(run(*line.split(), **how) == 0, f"{self.name} failed: {line}", 1)
                os.remove(self.state)
        return None

    def stops(self):
        number, end = self.pid(), time.monotonic() + 20
        if number and self.name.endswith(".service"):
            os.kill(number, signal.SIGTERM)
            while self.pid():
                need(time.monotonic() < end, f"{self.name} goes on after SIGTERM", 1)
                time.sleep(0.02)
        if os.path.exists(self.state):
            os.remove(self.state)


def systemctl(verb="", *words):
    if verb == "daemon-reload" and not words or (verb, words) == ("--system", ("daemon-reload",)):
        return 0
    if verb in ("enable", "disable"):
        need(words[:1] == ("--now",) and len(words) > 1, f"{verb} has no --now")
        units = [Unit(it) for it in words[1:]]
        need(all(it.lines("WantedBy") for it in units), "a unit has no WantedBy")
        for unit in units:
            unit.starts() if verb == "enable" else unit.stops()
        return 0
    need(len(words) == 1, f"systemctl {verb} has {len(words)} words")
    unit = Unit(words[0])
    if verb == "is-active":
        print(unit.is_active())
        return 0 if unit.is_active() == "active" else 3
    need(verb in ("start", "stop", "restart", "reset-failed"), f"systemctl {verb} isn't known")
    if verb in ("stop", "restart"):
        unit.stops()
    if verb in ("start", "restart"):
        unit.starts()
    return 0


# where the machine has no sqlite3


def asks(*words):
    need(len(words) == 1, "sqlite3 is called with one word here")
    tables = sqlite3.connect(words[0], uri=True, isolation_level=None)
    for statement in filter(None, map(str.strip, sys.stdin.read().split(";"))):
        for row in tables.execute(statement):
            print("|".join(map(str, row)))
    tables.close()


COMMANDS = {
    "adduser": makes_user,
    "apt": apt,
    "chgrp": gives_group,
    "deb-systemd-helper": of_helper,
    "deb-systemd-invoke": of_invoke,
    "getent": getent,
    "id": of_id,
    "install": makes_file,
    "runuser": as_user,
    "sqlite3": asks,
    "stat": of_stat,
    "systemctl": systemctl,
    "useradd": makes_user,
}


class Machine:
    """A machine whose places are below a folder: first on its path are the stand-ins, and then what is installed."""

    def __init__(self, folder, ports):
        self.folder = folder
        bins = [f"{folder}/{it}" for it in ("stand-ins", "usr/local/bin", "usr/bin")]
        self.env = {it: os.environ[it] for it in os.environ if it not in ("DESKKEY", "MAILTO")}
        self.env.update(MACHINE=folder, PORT=ports[0], SIP2_PORT=ports[1], PATH=":".join([*bins, os.environ["PATH"]]))
        for path in (*bins, *(f"{folder}/{it}" for it in (*FOLDERS, "run/systemd/system", "var/lib", "var/backups"))):
            os.makedirs(path, exist_ok=True)
        for name in COMMANDS:
            if name == "sqlite3" and shutil.which(name):
                continue
            with open(f"{bins[0]}/{name}", "w", encoding="utf-8") as file:
                file.write(f'#!/bin/sh\nexec "{sys.executable}" "{os.path.abspath(__file__)}" {name} "$@"\n')
            os.chmod(file.name, 0o755)

    def ends(self):
        """Ends what its services left."""
        for path in glob.glob(f"{self.folder}/run/units/*.service"):
            try:
                os.kill(int(read(path)), signal.SIGKILL)
            except (ProcessLookupError, ValueError):
                pass


def main():
    name, *words = sys.argv[1:]
    try:
        return COMMANDS[name](*words) or 0
    except Wrong as why:
        print(f"{name} {' '.join(words)}: {why}", file=sys.stderr)
        return why.status


if __name__ == "__main__":
    sys.exit(main())
