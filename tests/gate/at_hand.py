#!/usr/bin/env python3
"""The program that stands in the repository: it runs at once where none is built, also without the toolchain, and
never where it is damaged.

    tests/gate/at_hand.py
"""

import hashlib
import os
import re
import shutil
import subprocess
import tempfile
import time

from room import TOP
from lib.checking import check, part, run_script

SHIPPED = os.path.join("bin", "circ-x86_64-linux")
TOOLS = ("backup", "copies", "create", "day", "enrol", "export", "forget", "label", "move-in", "restore", "sip2", "tell",
         "watch")
FIRST = ["file", "town.db", "g1", "begin-day", "2026-03-02"]
MADE = "circ: town.db: there was no library; a new one was made\n"


def run(*words, **how):
    return subprocess.run(words, capture_output=True, text=True, timeout=120, check=False, **how)


def told(ran):
    return ran.returncode, ran.stdout, ran.stderr


def fresh(place):
    """What a clone has of it, in a folder: the launcher and the program, and none that is built."""
    for name in ("circ", "build", os.path.join("tools", "program"), SHIPPED, f"{SHIPPED}.sha256"):
        os.makedirs(os.path.dirname(os.path.join(place, name)), exist_ok=True)
        shutil.copy(os.path.join(TOP, name), os.path.join(place, name))


def path_with(place, **tools):
    """A path on which each of these commands is another one, before all else; none has the toolchain."""
    folder = os.path.join(place, "commands")
    os.makedirs(folder, exist_ok=True)
    for name, text in tools.items():
        with open(os.path.join(folder, name), "w", encoding="utf-8") as file:
            file.write(f"#!/bin/sh\n{text}\n")
        os.chmod(os.path.join(folder, name), 0o755)
    return {**os.environ, "PATH": f"{folder}:/usr/bin:/bin"}


def at_once(place):
    """The first command of the README, on a fresh clone."""
    began = time.monotonic()
    first = run(os.path.join(place, "circ"), *FIRST, cwd=place, env=path_with(place))
    check("the first command", told(first), (0, "ok\n", MADE))
    check("it answers within two seconds", time.monotonic() - began < 2, True)
    check("the second", told(run(os.path.join(place, "circ"), *FIRST, cwd=place, env=path_with(place))), (0, "ok\n", ""))
    check("a build without the toolchain", told(run(os.path.join(place, "build"), env=path_with(place))), (1, "", "build: the Rattle toolchain is missing: there is no command rt on the path\n"))
    for words in (["now"], ["--write", "now"]):
        check(f"build {words}", told(run(os.path.join(place, "build"), *words)), (4, "", "usage: ./build [--write]\n"))


def the_tools(place):
    """Each tool of a checkout runs the checkout's program, where none is installed."""
    wanted = told(run(os.path.join(place, "circ"), "--version", cwd=place, env=path_with(place)))
    shutil.copytree(os.path.join(TOP, "tools"), os.path.join(place, "tools"), dirs_exist_ok=True)
    names = [it for it in TOOLS if os.path.isfile(os.path.join(place, "tools", it))]
    check("the tools", sorted(names), sorted(TOOLS))
    for name in names:
        found = told(run(os.path.join(place, "tools", name), "--version", cwd=place, env=path_with(place)))
        check(f"tools/{name} --version", found, wanted)


def one_that_is_built(place):
    """A program that was built here goes before the other."""
    built = os.path.join(place, "crates", "circ_cli", "out", "circ_cli")
    os.makedirs(os.path.dirname(built))
    with open(built, "w", encoding="utf-8") as file:
        file.write('#!/bin/sh\necho built "$@"\n')
    os.chmod(built, 0o755)
    check("the one that is built", told(run(os.path.join(place, "circ"), "a b", "c")), (0, "built a b c\n", ""))
    os.remove(built)


def refused(place):
    """Another system, a program that is damaged or absent, and no tool to tell."""
    circ = os.path.join(place, "circ")
    check("another system", told(run(circ, *FIRST, env=path_with(place, uname="echo Darwin arm64"))), (1, "", "circ: the program runs on Linux x86_64; this is Darwin arm64\n"))
    os.remove(os.path.join(place, "commands", "uname"))
    shipped = os.path.join(place, SHIPPED)
    with open(shipped, "r+b") as file:
        file.seek(1000)
        byte = file.read(1)[0]
        file.seek(1000)
        file.write(bytes([byte ^ 1]))
    damaged = "circ: bin/circ-x86_64-linux is damaged: its SHA-256 is not the one in bin/circ-x86_64-linux.sha256\n"
    check("one bit is another", told(run(circ, *FIRST, cwd=place)), (1, "", damaged))
    os.remove(f"{shipped}.sha256")
    check("no sum", told(run(circ, *FIRST, cwd=place)), (1, "", damaged))
    os.remove(shipped)
    check("no program", told(run(circ, *FIRST, cwd=place)), (1, "", "circ: there is no program; ./build makes it\n"))


def alone(place):
    """In a root with the C library and nothing else; it takes root to go there."""
    if os.getuid():
        return
    root = os.path.join(place, "root")
    linked = run("ldd", os.path.join(TOP, SHIPPED)).stdout
    for library in re.findall(r"(/\S+) \(0x", linked):
        os.makedirs(root + os.path.dirname(library), exist_ok=True)
        shutil.copy(os.path.realpath(library), root + library)
    os.makedirs(os.path.join(root, "dev"))
    shutil.copy(os.path.join(TOP, SHIPPED), os.path.join(root, "circ"))
    check("in a bare root", told(run("chroot", root, "/circ", *FIRST)), (0, "ok\n", MADE))


def its_facts():
    """The sum that stands beside it, and the least C library that the README names."""
    with open(os.path.join(TOP, SHIPPED), "rb") as file:
        program = file.read()
    with open(os.path.join(TOP, f"{SHIPPED}.sha256"), encoding="utf-8") as file:
        check("its sum", file.read(), f"{hashlib.sha256(program).hexdigest()}  circ-x86_64-linux\n")
    versions = {tuple(map(int, it.split(b"."))) for it in re.findall(rb"GLIBC_(\d+\.\d+)", program)}
    with open(os.path.join(TOP, "README.md"), encoding="utf-8") as file:
        found = re.search(r"glibc (\d+\.\d+)", file.read())
    check("the least C library", found and found[1], ".".join(map(str, max(versions))))


def main():
    with tempfile.TemporaryDirectory() as place:
        fresh(place)
        part(at_once, place)
        part(the_tools, place)
        part(one_that_is_built, place)
        part(alone, place)
        part(refused, place)
    part(its_facts)


if __name__ == "__main__":
    run_script(main)
