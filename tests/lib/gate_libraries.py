"""How a crate is checked over the libraries that the gate left, for what is tried once the crates are proved."""

import os
import subprocess

from room import TOP

# What a crate is made of.
PARTS = ("src", "specs", "proofs")


def kit():
    """The toolchain's folder."""
    return os.path.dirname(subprocess.run(["rt", "doc"], stdout=subprocess.PIPE, encoding="utf-8", check=True).stdout.strip())


def libraries():
    """The crates, each with the libraries that it names."""
    with open(f"{TOP}/crates.txt", encoding="utf-8") as it:
        rows = [line.split("#")[0].partition(":") for line in it]
    return {head.split()[0]: below.split() for head, _, below in rows if head.strip()}


def check_of(name, listed, gate, tools):
    """The words that check a crate in the folder where they run, over the libraries in GATE/crates/*/out; and those of
    them that aren't there."""
    own = lambda it: [lib for lib in listed[it] if lib in listed]
    below, left = [], own(name)
    while left:
        lib = left.pop()
        if lib not in below:
            below.append(lib)
            left += own(lib)
    place = lambda it: f"{gate}/crates/{it}/out/rlib"
    missing = [it for it in below if not os.path.isdir(f"{place(it)}/{it}.rlib")]
    words = [f"{tools}/bin/rattle", "check", "--crate-name", name, "src/lib.rt"]
    for lib in ["std", *[it for it in listed[name] if it not in listed]]:
        words += ["--extern", f"{lib}={tools}/rlibs/{lib}.rlib"]
    for lib in own(name):
        words += ["--extern", f"{lib}={place(lib)}/{lib}.rlib"]
    for folder in [f"{tools}/rlibs", *map(place, below)]:
        words += ["-L", f"dependency={folder}"]
    words += ["--antt-project", f"{tools}/rattle/logic/antt-project.json", "--logic-built", f"{tools}/logic_built"]
    return [*words, "--jobs", "1", "--links", f"{name}="], missing
