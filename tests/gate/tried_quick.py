#!/usr/bin/env python3
"""Tries `./test quick`: which scripts files need, and that it runs these, tells what failed and what it left out.

    tests/gate/tried_quick.py
"""

import os
import shutil
import subprocess
import sys
import tempfile
from importlib.machinery import SourceFileLoader
from importlib.util import module_from_spec, spec_from_loader

from room import TOP
from lib.checking import check, none, part, run_script

ALWAYS = ["words", "changing", "contracts", "linted", "documents"]
# a file, and what it needs beside what is always run
NEEDS = [
    (["docs/PROOFS.md"], []),
    (["bench/page"], []),
    (["tests/gate/month.py"], ["month"]),
    (["tests/gate/hands.mjs"], ["pages"]),
    (["tests/lib/antt/values.py"], ["rows", "tried_definitions"]),
    (["tests/data/calc.csv"], ["copies_files"]),
    (["tests/tools/mutants"], ["tried_mutants"]),
    (["tests/tools/quick"], ["tried_quick"]),
    (["tools/sip2"], ["at_hand", "installed", "package", "blocks", "sip2"]),
    (["tools/backup"], ["at_hand", "installed", "package", "blocks", "backup_script"]),
    (["pages/desk.html"], ["installed", "package", "pages", "demo"]),
    (["docs/replies.json"], ["described", "package"]),
    (["tests/gate/month.py", "tools/sip2"],
     ["at_hand", "installed", "package", "blocks", "sip2", "month"]),
    (["crates/desk/src/lists.rt"], ["alternatives", "described", "desk"]),
    (["crates/model/specs/Loans.antt", "crates/desk/src/deposits.rt"],
     ["alternatives", "rows", "described", "desk", "model"]),
]
RT = '#!/bin/sh\necho "$(basename "$PWD"): $*" >>"$NOTES"\n'
SAYS = 'print("{0}: 1 passed, 0 failed")\n'


def quick():
    """The script of that name, which has no ending."""
    sys.path.insert(0, f"{TOP}/tests/tools")
    sys.dont_write_bytecode = True
    loader = SourceFileLoader("quick", f"{TOP}/tests/tools/quick")
    module = module_from_spec(spec_from_loader("quick", loader))
    loader.exec_module(module)
    return module


def files():
    """The files of the repository, without what is made of them."""
    for at, folders, names in os.walk(TOP):
        folders[:] = [it for it in folders if it not in (".git", "out", "__pycache__")]
        names = [it for it in names if not it.endswith((".db", ".db-wal")) and it != ".git"]
        yield from (os.path.relpath(f"{at}/{it}", TOP) for it in names)


def choices(tool):
    """Each file is known, each script is needed by one, and some files need just these."""
    every = sorted(files())
    check(f"{len(every)} files are enough", len(every) > 1000, True)
    none("a file of which it isn't known what it needs", [it for it in every if not tool.is_known(it)])
    needed = set(tool.chosen([it for it in every if not it.startswith("crates/")]))
    none("a script that no file needs", [it for it in tool.scripts() if it not in needed])
    none("a script that is none", sorted(needed - {*tool.scripts()}))
    for paths, wanted in NEEDS:
        words = [f"{TOP}/tests/tools/quick", "--choose", *paths]
        told = subprocess.run(words, capture_output=True, text=True, check=True)
        check(f"what {' and '.join(paths)} need", sorted(told.stdout.split()), sorted([*ALWAYS, *wanted]))
    check("a file of no kind", tool.is_known("attic/notes.txt"), False)
    check("what stands on hall", tool.above(["hall"]), ["circ", "circ_cli", "circ_runs", "circ_tests", "hall_tests"])


class Repository:
    """A small one, in which the scripts only say that they passed."""

    def __init__(self, place, tool):
        self.top, self.notes = f"{place}/repository", f"{place}/notes"
        for name in ("test", "crates.txt", "tests/tools/quick", "tests/tools/room.py", "tests/lib/rooms.py"):
            os.makedirs(os.path.dirname(f"{self.top}/{name}"), exist_ok=True)
            shutil.copy2(f"{TOP}/{name}", f"{self.top}/{name}")
        for name in tool.scripts():
            path = tool.OTHERS[name][0] if name in tool.OTHERS else f"tests/gate/{name}.py"
            self.put(path, f"#!/usr/bin/env python3\n{SAYS.format(name)}")
        for name in ("desk", "desk_tests", "store"):
            self.put(f"crates/{name}/src/lib.rt", "")
        self.put("docs/PROOFS.md", "# Proofs\n")
        self.put("bin/rt", RT)
        self.git("init", "-q")
        self.commits()

    def put(self, path, text):
        os.makedirs(os.path.dirname(f"{self.top}/{path}"), exist_ok=True)
        with open(f"{self.top}/{path}", "w", encoding="utf-8") as file:
            file.write(text)
        os.chmod(file.name, 0o755)

    def git(self, *words):
        who = ["-c", "user.name=somebody", "-c", "user.email=somebody@library.example"]
        subprocess.run(["git", "-c", "safe.directory=*", *who, *words], cwd=self.top, check=True, capture_output=True)

    def commits(self):
        self.git("add", "-A")
        self.git("commit", "-q", "-m", "A step")

    def runs(self, *words, seconds="60"):
        """The status of the quick test, its lines, and what the prover was told."""
        path = f"{self.top}/bin:{os.environ['PATH']}"
        around = {**os.environ, "NOTES": self.notes, "QUICK_SECONDS": seconds, "PATH": path}
        how = {"capture_output": True, "text": True, "timeout": 120, "cwd": self.top, "env": around, "check": False}
        told, rt = subprocess.run(["./test", *words], **how), []
        if os.path.exists(self.notes):
            with open(self.notes, encoding="utf-8") as file:
                rt = file.read().splitlines()
            os.remove(self.notes)
        return told.returncode, (told.stdout + told.stderr).splitlines(), rt


def is_there(number):
    """Whether a process is there, and has not ended."""
    try:
        with open(f"/proc/{number}/stat", encoding="utf-8") as file:
            return file.read().rpartition(")")[2].split()[0] not in "ZX"
    except OSError:
        return False


def passed(*names):
    return [f"{it}: 1 passed, 0 failed" for it in names]


def runs(place, tool):
    """What was changed is run, or else what the last commit changed; what fails, is late or isn't run is told."""
    repository = Repository(place, tool)
    repository.put("docs/PROOFS.md", "# Proofs of it\n")
    status, lines, rt = repository.runs("quick")
    begin = ["quick: 1 files: docs/PROOFS.md", *passed(*ALWAYS)]
    check("a changed text", (status, lines[:6], rt), (0, begin, []))
    left = [it for it in tool.scripts() if it not in ALWAYS] + ["calendar_weeks", "refused", "definitions"]
    end = [
        f"quick: left out: {', '.join(left)}",
        "quick: left out are all wrong bodies, and the proofs of all crates but: none",
        "quick: 5 passed, 0 failed, 0 not ended; ./test runs everything",
    ]
    check("what it leaves out", lines[6:], end)
    repository.commits()
    check("the same in the last commit", repository.runs("quick"), (status, lines, rt))
    repository.put("crates/store/src/lib.rt", "// changed\n")
    repository.put("attic/notes.txt", "new\n")
    status, lines, rt = repository.runs("quick", "desk")
    check("crates and a new file", (status, lines[0]), (0, "quick: 2 files: attic/notes.txt crates/store/src/lib.rt"))
    check("what the prover does", rt, ["store: check", "store: try --test", "desk: check", "desk_tests: try --test"])
    above = ", ".join(tool.above(["store", "desk"]))
    for line in (
        "quick: left out are all wrong bodies, and the proofs of all crates but: store, desk",
        f"quick: left out is the program of these sources; what stands on them: {above}",
        "quick: it isn't known what these files need: attic/notes.txt",
    ):
        check(line, line in lines, True)
    repository.put("tests/gate/contracts.py", "import sys\nprint('contracts: a word\\n  found 1')\nsys.exit(1)\n")
    status, lines, _ = repository.runs("quick")
    wanted = ["contracts: a word", "  found 1", "quick: failed: contracts"]
    check("a script that fails", (status, [it for it in lines if it in wanted]), (1, wanted))
    sleeps = f"echo $$ >{place}/late; sleep 60; true"
    repository.put("tests/gate/contracts.py", f"import subprocess\nsubprocess.run(['sh', '-c', '{sleeps}'])\n")
    repository.put("bin/rt", "#!/bin/sh\nexit 1\n")
    status, lines, _ = repository.runs("quick", "desk", seconds="4")
    late = [it for it in lines if it.startswith("quick: left out, since the time was over: contracts, ")]
    found = (status, [it.endswith("the tests of desk_tests") for it in late])
    check("one that is late, and all after it", found, (0, [True]))
    with open(f"{place}/late", encoding="utf-8") as file:
        check("what it started is ended", is_there(file.read().strip()), False)
    repository.put("tests/gate/contracts.py", SAYS.format("contracts"))
    status, lines, _ = repository.runs("quick", "desk")
    told = [it for it in lines if it.startswith("quick: failed: ")]
    wanted = "the proof of store, the tests of store, the proof of desk, the tests of desk_tests"
    check("a prover that fails", (status, told), (1, [f"quick: failed: {wanted}"]))
    check("no such crate", repository.runs("quick", "harbour"), (4, ["quick: there is no crate harbour"], []))
    check("other words", repository.runs("slow"), (4, ["usage: ./test [quick [CRATE ..]]"], []))


def main():
    tool = quick()
    part(choices, tool)
    if shutil.which("git") is None:
        print("tried_quick: no run was tried, since there is no git")
        return
    with tempfile.TemporaryDirectory() as place:
        part(runs, place, tool)


if __name__ == "__main__":
    run_script(main)
