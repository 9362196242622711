#!/usr/bin/env python3
"""Tells the contracts of the crates, and compares what documents say of them.

    tests/gate/contracts.py            compares
    tests/gate/contracts.py --write    writes the made parts anew
    tests/gate/contracts.py CRATE ..   prints each public function of a crate that has a contract (`pub fn`, and each function of a `pub trait`), file by file: the first sentence
                                       of the `///` comment above it, and the label of each clause, or the definitions that a clause without one names

docs/CONTRACTS.md names each law: a function with a contract, no parameter and no result. Each label of its list of
labels stands in a contract or a record.

docs/PROOFS.md has the fields of the record `Headline`, each with the comment above it. It has an item for each crate,
lowest first, which begins with the crate's name.

docs/ARCHITECTURE.md has the table of the crates: what each is for is the first sentence of the `//!` comment of its
`lib.rt` or `main.rt`. README.md names each crate.
"""

import os
import re
import sys

from room import TOP
from lib.checking import check, none, run_script

PAGE, PROOFS, LAYERS, FRONT = "docs/CONTRACTS.md", "docs/PROOFS.md", "docs/ARCHITECTURE.md", "README.md"
USES = r"^ *(?:ghost |pub )?use Rattle\.(\w+)\.specs\.([\w.]+?)\.\{([^}]*)\}"
# The crates that are there for tests, beside those whose names end so.
FOR_TESTS = ("test_bytes", "test_library")
# What a call's clause names only to say of which state or limit it speaks.
PLAIN = ("state", "limit_of", "over_memory")
# A clause that has no label and names no definition is told as it stands, up to so many characters.
LONGEST = 40


def read(path):
    with open(f"{TOP}/{path}", encoding="utf-8") as file:
        return file.read()


def crates():
    """The crates of the product, lowest first."""
    for name in re.findall(r"^(\w+)(?: \w+=\S+)*:", read("crates.txt"), re.M):
        if not name.endswith("_tests") and name not in FOR_TESTS:
            yield name


CRATES = list(crates())


def files(crate, folder, ending):
    """The files of a crate's folder."""
    for at, folders, names in os.walk(f"{TOP}/crates/{crate}/{folder}"):
        folders.sort()
        for name in sorted(names):
            if name.endswith(ending):
                yield os.path.relpath(f"{at}/{name}", TOP)


def head(path, mark):
    """The comment at the head of a file, its first paragraph."""
    return " ".join(re.findall(rf"^{mark} (.*)", re.match(rf"(?:{mark} .*\n)*", read(path))[0], re.M))


def purpose(crate):
    """What a crate is for, in one sentence."""
    path = f"crates/{crate}/src/lib.rt"
    text = head(path if os.path.exists(f"{TOP}/{path}") else path.replace("lib.rt", "main.rt"), "//!")
    return re.match(r".*?\.(?= |$)", text)[0]


def imported(text):
    """The definitions that a file can name: each name with its crate, its file and its name there."""
    found = {}
    for crate, file, names in re.findall(USES, text, re.M):
        for name in names.split(","):
            real, _, own = name.strip().partition(" as ")
            found[own or real] = crate, file, real
    return found


def definitions():
    """All definitions, by crate, file and name."""
    found = set()
    for crate in CRATES:
        for path in files(crate, "specs", ".antt"):
            file = "/".join(path.split("/")[3:])[:-5].replace("/", ".")
            found.update((crate, file, name) for name in re.findall(r"^(?: *(?:pub record|abbrev pub|unfoldable pub) |pub )(\w+)", read(path), re.M))
    return found


def headline():
    """The fields of the headline, each with the comment above it."""
    record = read("crates/desk/specs/Headline.antt").partition("pub record Headline ")[2]
    return "".join(f"- `{name}`: {' '.join(re.findall(r'-- (.*)', note))}\n" for note, name in re.findall(r"((?:^  -- .*\n)*)  pub (\w+) :", record, re.M))


class Function:
    """A function with a contract: its name, its comment, its clauses, each with its kind, its label and its text, and
    whether it is a law."""

    def __init__(self, name, comment, clauses, is_law):
        self.name, self.comment, self.clauses, self.is_law = name, comment, clauses, is_law


def owner(line):
    """The type or trait of a block, its `pub`, and whether it is a trait."""
    line = re.sub(r"<[^<>]*(?:<[^<>]*(?:<[^<>]*>)?[^<>]*>[^<>]*)*>", "", line)
    found = re.match(r"(?:(pub(?:\(\w+\))? )?(trait)|impl)\s+(?:\w+ for )?(\w+)", line)
    return found and (found[3], found[1], bool(found[2]))


def comment_above(lines, at):
    """The `///` comment above a line, past its attributes."""
    said = []
    while at > 0 and re.match(r" *(///|#\[)", lines[at - 1]):
        at -= 1
        if "///" in lines[at]:
            said.append(lines[at].partition("///")[2].strip())
    return " ".join(it for it in reversed(said) if it)


def functions(path):
    """The public functions of a source that have a contract, and the names of its types with an invariant."""
    lines = read(path).split("\n")
    block, found, kept = None, [], []
    for at, line in enumerate(lines):
        if re.match(r"(pub(\(\w+\))? )?(trait|impl)\b", line):
            block = owner(line)
        elif line.startswith("}"):
            block = None
        start = re.match(r"( *)(pub )?(?:const |unsafe |ghost )*fn (\w+)", line)
        if start and (start[2] or (block and block[2] and block[1] == "pub ")):
            end = at
            while not re.match(rf"{start[1]}[{{}}]", lines[end]) and not lines[end].endswith(";") and not re.search(r"\)( -> [^{]*)? \{$", lines[end]):
                end += 1
            clauses = re.findall(r"^ *(ensures|requires) (\w+ )?\{(.*?)\}(?=\s*(?:^ *(?:ensures|requires)\b|;?\Z))", "\n".join(lines[at : end + lines[end].endswith(";")]), re.M | re.S)
            if clauses:
                name = f"{block[0]}::{start[3]}" if start[1] and block else start[3]
                found.append(Function(name, comment_above(lines, at), [(kind, label.strip(), " ".join(text.split())) for kind, label, text in clauses], line.endswith("()")))
        if line.startswith("    ghost invariant = {") and block:
            kept.append(block[0])
    return found, kept


def named_by(text, known, found):
    """The definitions that a text names: the statements among them, or else the others."""
    keys = [known[word] for word in dict.fromkeys(re.findall(r"[A-Za-z_]\w*", text)) if word in known and known[word] in found]
    return [key for key in keys if key[2][0].isupper()] or [key for key in keys if key[2] not in PLAIN]


def clause(label, text, known, found):
    """A clause as the table has it: its label, or the definitions that it names."""
    names = ", ".join(f"`{key[2]}`" for key in named_by(text, known, found))
    return f"`{label}`" if label else names or (f"`{text}`" if len(text) <= LONGEST else "one clause")


def clauses_of(function, known, found):
    """All clauses of a function, those first that its caller has to show."""
    told = {kind: ", ".join(dict.fromkeys(clause(label, text, known, found) for its, label, text in function.clauses if its == kind)) for kind in ("requires", "ensures")}
    return "; ".join(it for it in (told["requires"] and f"needs {told['requires']}", told["ensures"]) if it)


def first_sentence(comment):
    return re.match(r".*?[.:;](?= |$)", comment)[0][:-1] if comment else ""


def told(crate):
    """The functions of a crate that have a contract, file by file, and its types with an invariant."""
    found, invariants = definitions(), []
    for path in files(crate, "src", ".rt"):
        known = imported(read(path))
        its, kept = functions(path)
        invariants += kept
        if its:
            print(path)
        for it in its:
            print(f"  {it.name}: {first_sentence(it.comment)}\n    {clauses_of(it, known, found).replace('`', '')}")
    if invariants:
        print(f"With an invariant: {', '.join(invariants)}")


def laws():
    """The names of the laws, and how many functions have a contract."""
    its = [it for crate in CRATES for path in files(crate, "src", ".rt") for it in functions(path)[0]]
    return [it.name for it in its if it.is_law], len(its)


def table_of_crates():
    """The table of the crates."""
    return "\n".join(["| crate | what it is for |", "|---|---|", *(f"| `{name}` | {purpose(name)} |" for name in CRATES)]) + "\n"


def compare(path, name, make):
    """Compares a made part of a document, between its marks, or writes it anew."""
    text = read(path)
    marks = f"<!-- {name}: tests/gate/contracts.py --write makes what follows -->\n", f"<!-- {name}: end -->\n"
    before, rest = text.split(marks[0])
    there, after = rest.split(marks[1])
    wanted = f"\n{make(there)}\n"
    if there != wanted and "--write" in sys.argv:
        with open(f"{TOP}/{path}", "w", encoding="utf-8") as file:
            file.write(before + marks[0] + wanted + marks[1] + after)
    else:
        have = set(there.splitlines())
        more = [it for it in wanted.splitlines() if it not in have]
        none(f"{path}: tests/gate/contracts.py --write makes", more or [f"another part {name}"] * (there != wanted))


def labels_of_sources():
    """The labels of all contracts, and of the fields of records."""
    found = set()
    for at, folders, names in os.walk(f"{TOP}/crates"):
        folders[:] = [it for it in folders if it not in ("out", "must-fail")]
        for name in names:
            if name.endswith((".rt", ".antt")):
                found.update(re.findall(r"^ *(?:ensures|requires|pub) (\w+) (?:\{|:)", read(os.path.relpath(f"{at}/{name}", TOP)), re.M))
    return found


def main():
    if sys.argv[1:] and sys.argv[1:] != ["--write"]:
        unknown = [it for it in sys.argv[1:] if it not in CRATES]
        if unknown:
            sys.exit(f"contracts: no crate of the product is {', '.join(unknown)}")
        for crate in sys.argv[1:]:
            told(crate)
        return
    named, count = laws()
    none(f"{PAGE}: a law that it doesn't name", [it for it in named if f"`{it}`" not in read(PAGE)])
    compare(PROOFS, "headline", lambda _: headline())
    compare(LAYERS, "crates", lambda _: table_of_crates())
    check(f"{PROOFS}: the crates that have an item", re.findall(r"^- \*\*`(\w+)`\*\*:", read(PROOFS), re.M), CRATES)
    none(f"{FRONT}: a crate that it doesn't name", [it for it in CRATES if f"`{it}`" not in read(FRONT)])
    listed = re.search(r"^## Labels\n(.*?)^## ", read(PAGE), re.M | re.S)[1]
    labels = [label for item in re.findall(r"^- (`[^:]*):", listed, re.M) for label in re.findall(r"`(\w+)`", item)]
    used = labels_of_sources()
    none(f"{PAGE}: a label that no contract has", [it for it in labels if it not in used])
    check(f"{len(labels)} labels, {len(named)} laws and {count} functions are enough", (len(labels) >= 50, len(named) >= 30, count >= 300), (True, True, True))
    print(f"contracts: {count} functions, {len(named)} laws, {len(labels)} labels and {len(CRATES)} crates")


if __name__ == "__main__":
    run_script(main)
