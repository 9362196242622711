#!/usr/bin/env python3
"""Looks at the repository's scripts: `shellcheck` finds nothing in those of the shell and `pyflakes3` nothing in those
of Python, where Debian's packages of these names are installed, and no more lines of Python are long than were. `node
--check` reads each module of the pages and of their tests, and a short look finds nothing in those of the pages.

    tests/gate/linted.py
"""

import os
import re
import shutil
import subprocess
import tempfile

from room import TOP
from lib.checking import check, none, run_script
from lib.modules import faults

COLUMNS = 119
# So many lines of Python have more. It is made smaller when lines are, and never larger.
LONG = 1630
# A script of the gate imports its room, so that it finds lib and reference.
MEANT = "'room' imported but unused"
# for each tool a script, and what is wrong with it
WRONG = {"shellcheck": ("#!/bin/sh\nrm $1\n", "SC2086"), "pyflakes3": ("import os\n", "'os' imported but unused")}
# two modules, and what is wrong with the second
WRONG_MODULES = {
    "right.js": "// What is right.\nexport const used = 1;\n",
    "wrong.js": """import { used, absent } from "./right.js";
let state = 1;
export const nobodys = (given) => state == ABSENT && given(lost(`${gone(1)}, ${used}`));
document.body.innerHTML = absent; // lost(1)
""",
}
FAULTS = [
    "wrong.js doesn't begin by what it is for", "wrong.js imports absent, which right.js doesn't have",
    "wrong.js exports nobodys for nobody", "wrong.js has a value that is compared by == or !=",
    "wrong.js has a text that is read as HTML", "wrong.js has state outside of an object",
    "wrong.js uses ABSENT, which it doesn't declare", "wrong.js uses gone, which it doesn't declare",
    "wrong.js uses lost, which it doesn't declare",
]


def scripts():
    """Each script, and whether it is one of Python."""
    for at, folders, names in os.walk(TOP):
        folders[:] = sorted(it for it in folders if it not in (".git", "out", "__pycache__"))
        for name in sorted(names):
            path = os.path.join(at, name)
            with open(path, "rb") as file:
                first = file.readline(80)
            if name.endswith(".py") or re.match(rb"#!.*\bpython3?\b", first):
                yield path, True
            elif name.endswith((".sh", ".bash")) or re.match(rb"#!.*\b(ba|da)?sh\b", first):
                yield path, False


def found_by(tool, paths):
    """The lines that a tool prints of these files."""
    options = ["-f", "gcc", "-s", "bash"] if tool == "shellcheck" and paths[0].endswith(".bash") else ["-f", "gcc"]
    words = [tool, *(options if tool == "shellcheck" else []), *paths]
    run = subprocess.run(words, capture_output=True, text=True, timeout=600, check=False)
    return [it.replace(f"{TOP}/", "") for it in (run.stdout + run.stderr).splitlines()]


def looks(tool, paths):
    """What a tool finds in the repository, and that it finds something in a wrong script."""
    if shutil.which(tool) is None:
        print(f"linted: nothing was looked at by {tool}, since it isn't installed")
        return
    text, wanted = WRONG[tool]
    with tempfile.NamedTemporaryFile("w", suffix=".py") as file:
        file.write(text)
        file.flush()
        check(f"what {tool} finds in a wrong script", [wanted in it for it in found_by(tool, [file.name])], [True])
    none(f"{tool} finds", [it for it in found_by(tool, paths) if MEANT not in it])


def read(path):
    with open(path, encoding="utf-8") as file:
        return file.read()


def is_read(text):
    """Whether node reads a module."""
    words = ["node", "--input-type=module", "--check"]
    return subprocess.run(words, input=text, capture_output=True, text=True, timeout=60, check=False).returncode == 0


def modules():
    """The modules of the pages and of their tests; how many there are."""
    pages = {it: read(f"{TOP}/pages/{it}") for it in sorted(os.listdir(f"{TOP}/pages")) if it.endswith(".js")}
    tests = {it: read(f"{TOP}/tests/{it}") for at in ("gate", "lib") for it in
             (f"{at}/{name}" for name in sorted(os.listdir(f"{TOP}/tests/{at}"))) if it.endswith(".mjs")}
    told = is_read("export const a = 1;"), is_read("const a = ;")
    check("what node reads of right and of wrong text", told, (True, False))
    none("node doesn't read", [name for name, text in {**pages, **tests}.items() if not is_read(text)])
    wrong = [fault for name in WRONG_MODULES for fault in faults(name, WRONG_MODULES, "")]
    check("what is found in wrong modules", wrong, FAULTS)
    none("in the pages", [fault for name in pages for fault in faults(name, pages, "".join(tests.values()))])
    return len(pages) + len(tests)


def main():
    print(f"linted: {modules()} modules")
    every = list(scripts())
    shell, python = ([path for path, is_python in every if is_python == wanted] for wanted in (False, True))
    told = f"{len(shell)} scripts of the shell and {len(python)} of Python"
    check(f"{told} are enough", (len(shell) > 15, len(python) > 95), (True, True))
    bash = [it for it in shell if it.endswith(".bash")]
    looks("shellcheck", [it for it in shell if it not in bash])
    looks("shellcheck", bash)
    looks("pyflakes3", python)
    long = {path: 0 for path in python}
    for path in python:
        with open(path, encoding="utf-8") as file:
            long[path] = sum(len(line.rstrip("\n")) > COLUMNS for line in file)
    count = sum(long.values())
    check(f"{count} lines of Python are longer than {COLUMNS} columns, and {LONG} may be", count <= LONG, True)
    worst = sorted(((many, os.path.relpath(path, TOP)) for path, many in long.items()), reverse=True)[:3]
    most = ", ".join(f"{path} {many}" for many, path in worst)
    print(f"linted: {told}, {count} long lines, most of them in {most}")


if __name__ == "__main__":
    run_script(main)
