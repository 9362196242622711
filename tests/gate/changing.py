#!/usr/bin/env python3
"""Compares docs/CHANGING.md with the files that name a command, a question or a column.

    tests/gate/changing.py            compares
    tests/gate/changing.py --write    writes the table of counts anew

A list of files stands below a mark `files of WORD, ..` or `some files of WORD, ..`. Its items name a folder, and the
items below them files in it, or files by their whole path; NAME stands for a word's own name, and * for any part of
one. Each file that is named has to name one of the words, by tests/tools/command_files. After `files of` each file of
`src`, `specs`, `proofs` and the pages that names the first word has to be in the list too. Every other path of the
document is there.
"""

import os
import re
import sys
from importlib.machinery import SourceFileLoader
from importlib.util import module_from_spec, spec_from_loader

from room import TOP
from lib.checking import check, run_script

PAGE = f"{TOP}/docs/CHANGING.md"
LISTED = ("src", "specs", "proofs", "pages")
COUNTED = ("src", "specs", "proofs", "edits")
MARKED = r"<!-- (files|some files) of ([\w, -]+): tests/gate/changing.py -->\n\n(1[.] .*?)(?=\n\n|\Z)"
TOPS = ("crates/", "tests/", "docs/", "pages/", "bench/", "CHANGES.md", "tools/")


def command_files():
    """The script of that name, which has no ending."""
    loader = SourceFileLoader("command_files", f"{TOP}/tests/tools/command_files")
    module = module_from_spec(spec_from_loader("command_files", loader))
    sys.dont_write_bytecode = True
    loader.exec_module(module)
    return module


def lists(text):
    """Each list with a mark: whether it is whole, its words, and its text."""
    for mark, words, rest in re.findall(MARKED, text, re.S):
        yield mark == "files", words.split(", "), rest


def paths(text):
    """The files that a list names, each by its whole path."""
    folder = ""
    for line in text.split("\n"):
        for name in re.findall(r"`([^`\n]+)`", line):
            if re.match(r"\d+\. ", line) and re.fullmatch(r"crates/\w+/", name):
                folder = name
            elif re.fullmatch(r"[\w./*-]+", name) and name.startswith(TOPS):
                yield name
            elif re.fullmatch(r"\w+/[\w./*-]+", name) and folder:
                yield folder + name
        if re.match(r"\d+\. [A-Z]", line):
            folder = ""


def pattern(path, words):
    """The files that a path with NAME or * in it stands for."""
    own = "|".join(form for word in words for form in (re.sub("-", "_", word), "".join(it.title() for it in word.split("-"))))
    return re.compile(re.escape(path).replace(r"\*", r"[^/]+").replace("NAME", f"(?:{own})"))


def table(files, words):
    """How many files of each kind name each word, and how many lines of them do."""
    lines = [f"| name | {' | '.join(COUNTED)} | files | lines |", f"|{'---|' * (len(COUNTED) + 3)}"]
    for word in words:
        of_kind = {kind: {} for kind in COUNTED}
        for path, count in files.touched(word).items():
            of_kind.get(files.kind_of(path), {})[path] = count
        each = [len(of_kind[kind]) for kind in COUNTED]
        lines.append(f"| `{word}` | {' | '.join(map(str, each))} | {sum(each)} | {sum(sum(it.values()) for it in of_kind.values())} |")
    return "\n".join(lines) + "\n"


def main():
    os.chdir(TOP)
    files, compared = command_files(), 0
    with open(PAGE, encoding="utf-8") as file:
        text = file.read()
    known = files.listed()
    for is_whole, words, listed in lists(text):
        naming = [files.touched(word) for word in words]
        patterns = {path: pattern(path, words) for path in paths(listed)}
        every = {path for found in naming for path in found}
        for path, form in patterns.items():
            compared += 1
            check(f"it names {path}, which names one of {', '.join(words)}", any(form.fullmatch(it) for it in every), True)
        for path in naming[0] if is_whole else ():
            compared += 1
            check(f"{path} names {words[0]}, and the list has it", files.kind_of(path) not in LISTED or any(form.fullmatch(path) for form in patterns.values()), True)
    for path in paths(re.sub(MARKED, "", text, flags=re.S)):
        compared += 1
        check(f"it names {path}, which is there", any(it == path or it.startswith(path.rstrip("/") + "/") or pattern(path, ()).fullmatch(it) for it in known), True)
    mark, words, found = re.search(r"(<!-- counts of ([\w, -]+): tests/gate/changing.py --write -->\n)((?:\n\|.*|\|.*\n|\n)*)", text).groups()
    wanted = "\n" + table(files, words.split(", "))
    if found != wanted and "--write" in sys.argv:
        with open(PAGE, "w", encoding="utf-8") as file:
            file.write(text.replace(mark + found, mark + wanted))
    else:
        check("its counts are those of the tree; tests/gate/changing.py --write makes them anew", found, wanted)
    check(f"{compared} files are enough", compared >= 150, True)


if __name__ == "__main__":
    run_script(main)
