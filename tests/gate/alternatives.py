#!/usr/bin/env python3
"""Compares the alternatives that public contracts offer with those of `tests/data/alternatives.txt`, where each case
is tied to its cause, or a line says why it can't be.

    tests/gate/alternatives.py            compares
    tests/gate/alternatives.py --list     prints the alternatives of the sources, crate by crate, each with how many cases it has at least

A clause that offers cases is as weak as the one that isn't tied to what makes it so: a body may always answer that
one. So each definition of `crates/*/specs` is listed that a clause of a public function or of a public trait's
function leads to, and that offers cases, as OFFERS finds them; and so is each of these functions of which a clause
offers some itself. The head of the file says how it is read. Each edit and each name of code that it has is there.
"""

import os
import re
import sys

from room import TOP
from lib.checking import check, fails, none, run_script
from contracts import CRATES, files, functions, imported, read

FILE = "tests/data/alternatives.txt"
# What offers cases in a definition: this or that, a case for each form of a result or an option, the fault that came
# or none, or an arm that says nothing.
OFFERS = r"⊎|\b(?:MatchBool|MatchOption|MatchResult|IfErr)\b|\bOption (?:Fault|ServiceFault|Refusal)\b|\b(?:None|Read|Memory|Gone|Untold)\b[^=\n]*= Unit \{0\}"
# And in a clause, which may also say what a yes means, or what was found, and nothing of a no and of none; that faults
# are of one number offers nothing.
CLAUSE_OFFERS = r"⊎|\b(?:MatchBool|MatchOption|MatchResult)\b|\bIsTrue (?:result|none) →|\bIfSome (?:result|found)\b|\bIfErr result (?!\(λ fault\. fault ≡ [\w.]+\))"
STARTS = r"^ *(?:abbrev pub|unfoldable pub|pub record|pub data) (\w+)|^(?:  )?pub (?!use |mod |record |data )(\w+) :"
KINDS = ("tied by ", "given: ", "can't be tied: ")
NAME = r"[^\W\d]\w*"


def definitions(path):
    """The definitions of a file, each with its text; a field of a record is of the record."""
    found, name, is_record = {}, None, False
    for line in read(path).split("\n"):
        start = re.match(STARTS, line)
        if re.match(r" *--", line) or not line:
            continue
        if start and (start[1] or not is_record):
            name, is_record = start[1] or start[2], "pub record" in line
            found[name] = ""
        elif re.match(r"module |abbrev mutual|(?:pub )?use ", line):
            name, is_record = None, False
        if name:
            found[name] += line + "\n"
    return found


class Sources:
    """The definitions of all crates, and the functions with a contract."""

    def __init__(self):
        self.texts, self.known, self.asked = {}, {}, []
        for crate in CRATES:
            for path in files(crate, "specs", ".antt"):
                file = "/".join(path.split("/")[3:])[:-5].replace("/", ".")
                self.known[crate, file] = imported(read(path))
                self.texts.update({(crate, file, name): text for name, text in definitions(path).items()})
            for path in files(crate, "src", ".rt"):
                known = imported(read(path))
                self.asked += [(crate, it.name, text, known) for it in functions(path)[0] for _, _, text in it.clauses]

    def named(self, text, known, here=None):
        """The definitions that a text names."""
        for word in dict.fromkeys(re.findall(NAME, re.sub(r'"[^"\n]*"', "", text))):
            key = (*here, word) if here and (*here, word) in self.texts else known.get(word)
            if key in self.texts:
                yield key

    def reached(self):
        """The definitions to which the clauses lead."""
        found, left = set(), [key for _, _, text, known in self.asked for key in self.named(text, known)]
        while left:
            key = left.pop()
            if key not in found:
                found.add(key)
                left += self.named(self.texts[key], self.known[key[:2]], key[:2])
        return found

    def alternatives(self):
        """What offers cases, by crate and name, with how many of them there are at least."""
        found = {}
        for crate, file, name in self.reached():
            text = self.texts[crate, file, name]
            if re.search(OFFERS, text):
                found[crate, name] = max(text.count("⊎") + 1, found.get((crate, name), 2))
        for crate, name, text, _ in self.asked:
            if re.search(CLAUSE_OFFERS, text):
                found[crate, name] = max(text.count("⊎") + 1, found.get((crate, name), 2))
        return dict(sorted(found.items(), key=lambda it: (CRATES.index(it[0][0]), it[0][1])))


def parts():
    """The file's parts: the crate, the names, and the cases, each with what is said of it."""
    for part in re.split(r"\n\n+", "\n".join(line for line in read(FILE).split("\n") if not line.startswith("#")).strip("\n")):
        head, *lines = part.split("\n")
        crate, *names = head.replace(",", "").split()
        cases = [re.match(r"- ([^:]+): (.*)", line) for line in lines]
        if crate not in CRATES or not names or not cases or None in cases:
            fails(f"{FILE}: this is not read\n{part}")
        else:
            yield crate, names, [(it[1], it[2]) for it in cases]


def edits(crate, text):
    """The edits that a text names, each with its crate."""
    for listed in re.findall(r"\(edits? ([^)]*)\)", text):
        for word in listed.split(", "):
            yield tuple(word.split("/")) if "/" in word else (crate, word)


def words_of_sources():
    """All words of the crates' sources and definitions."""
    found = set()
    for crate in CRATES:
        for path in (*files(crate, "src", ".rt"), *files(crate, "specs", ".antt")):
            found.update(re.findall(NAME, read(path)))
    return found


def main():
    there = Sources().alternatives()
    if sys.argv[1:] == ["--list"]:
        for (crate, name), count in there.items():
            print(f"{crate} {name}: {count}")
    told, kinds, named, words = {}, dict.fromkeys(KINDS, 0), [], words_of_sources()
    for crate, names, cases in parts():
        for name in names:
            check(f"{FILE}: {crate} {name} stands there once", (crate, name) in told, False)
            told[crate, name] = cases
        for case, said in cases:
            kind = next((it for it in KINDS if said.startswith(it)), None)
            if kind is None:
                fails(f"{FILE}: {crate} {names[0]}, {case}: nothing says what ties it")
                continue
            kinds[kind] += 1
            named += edits(crate, said)
            none(f"{FILE}: {crate} {names[0]}, {case}: a name of no code", [it for quoted in re.findall(r"`([^`]*)`", said) for it in re.findall(NAME, quoted) if it not in words])
    none(f"{FILE}: it lacks an alternative of the sources", [it for it in there if it not in told])
    none(f"{FILE}: no public contract leads to it, or it offers no cases", [it for it in told if it not in there])
    few = [it for it, cases in told.items() if it in there and [case for case, _ in cases] != ["all"] and len(cases) < there[it]]
    none(f"{FILE}: it has fewer cases than the sources", few)
    none(f"{FILE}: an edit that isn't there", [it for it in named if not os.path.isfile(f"{TOP}/crates/{it[0]}/must-fail/{it[1]}.edit")])
    check(f"{len(there)} alternatives are enough", len(there) >= 60, True)
    print(f"alternatives: {len(there)} in contracts, {len(named)} edits, and of {sum(kinds.values())} cases " + ", ".join(f"{count} {kind.strip(' :')}" for kind, count in kinds.items()))


if __name__ == "__main__":
    run_script(main)
