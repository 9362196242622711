#!/usr/bin/env python3
"""Compares what documents say of the words with the program's own tables, as its source has them.

    tests/gate/words.py            compares
    tests/gate/words.py --write    writes what is copied anew first: the table of commands in the manual page and the
                                   desk's page, and how many edits there are

The table of commands (`crates/terms/src/form.rt`): each command and its parts stand so in the manual page, its name in
the completion for bash and in the table of the rules. The numbers of refusals and faults
(`crates/terms/src/refusal.rt`, `fault.rt`): what each means stands in one way in the program's messages
(`crates/messages/src/meanings.rt`), the manual page and the rules. The runs of the usage are those of the manual page,
and the newest version of CHANGES.md and its schema are the program's. Each edit that `docs/WRONG-BODIES.md` names is
there, in the crate and the function under which it stands, it says how many there are in all, and each field of the
headline has its item; its table of wrong bodies by chance adds up. Each name in backquotes that only code can have (with an underscore, or capitals
within) in the documents of NAMING stands in a source, or is that of a file. The table of the files that the headline's
words stand in (`docs/PROOFS.md`) is the one that `tests/tools/headline_files` makes, and so is that of the files that
make it about the requests and the database. Each link of a document within the repository leads to a file that is
there, and to one of its headings.
"""

import os
import re
import subprocess
import sys
from difflib import unified_diff
from glob import glob

from room import TOP
from lib.checking import check, none, run_script
from lib.messages import SCHEMA, VERSION, of_manual, read
from lib.program import program
from reference.outer_forms import WORDS

TOLD_EDITS = r"\bthe (\d+) edits in the crates'"
NAMING = ("README.md", "docs/PROOFS.md", "docs/WRONG-BODIES.md", "docs/GATE.md", "docs/CHANGING.md", "docs/TESTS.md", "docs/RULES.md", "docs/ARCHITECTURE.md", "docs/CONTRACTS.md", "docs/DECISIONS.md")


def commands():
    """Each command with the names of its parts, in the order of the table."""
    text = read("crates/terms/src/form.rt")
    parts = dict(re.findall(r'const ([A-Z_]+): PartForm = PartForm \{\s*name: "([a-z-]+)"', text))
    rows = re.findall(r'CommandForm \{\s*name: "([a-z-]+)",\s*parts: &\[([A-Z_, \n]*)\]', text)
    return {name: [parts[word] for word in re.findall(r"[A-Z_]+", names)] for name, names in rows}


def put(path, pattern, made):
    """Writes what was made in the place of what the pattern's one group finds in a file."""
    text = read(path)
    found = re.search(pattern, text, re.M | re.S)
    with open(f"{TOP}/{path}", "w", encoding="utf-8") as file:
        file.write(text[: found.start(1)] + made + text[found.end(1) :])


def heads(manual, table):
    """The commands of the manual page with their parts, as the table has them; what is said of each stays, and a new
    one has nothing said of it yet."""
    listed = manual[manual.index(".Sh COMMANDS") : manual.index(".Sh FILES")]
    before, *parts = re.split(r"^\.It Cm ", listed, flags=re.M)
    *parts, last = parts
    last, end, after = last.partition("\n.El")
    said = {part.split()[0]: part.partition("\n")[2].strip("\n") for part in [*parts, last]}
    items = ["\n".join(it for it in (" ".join([f".It Cm {name}", *(["Ar", *words] if words else [])]), said.get(name, "")) if it) for name, words in table.items()]
    return before + "\n".join(items) + end + after


def write(table):
    """Writes the copies of the table of commands, and the number of edits."""
    put("pages/commands.js", r"^export const COMMANDS = \{\n(.*?)^\};", "".join(f'  "{name}": [{", ".join(f"{chr(34)}{it}{chr(34)}" for it in parts)}],\n' for name, parts in table.items()))
    put("docs/circ.1", r"(^\.Sh COMMANDS.*?)^\.Sh FILES", heads(read("docs/circ.1"), table))
    put("docs/WRONG-BODIES.md", TOLD_EDITS, str(edits()))


def completed(*words):
    """The words that bash completes after these words of the program."""
    said = 'source "$0"; COMP_CWORD=$#; COMP_WORDS=("$@" ""); _circ; printf "%s\\n" "${COMPREPLY[@]}"'
    run = subprocess.run(["bash", "-c", said, f"{TOP}/docs/circ.bash", program(), *words], capture_output=True, text=True, timeout=60, check=True)
    return run.stdout.split()


def numbers(path):
    """The numbers that a table from cases to numbers gives."""
    return {int(number) for number in re.findall(r"=> (\d+),", read(path))}


def meanings():
    """What the program says that each number means."""
    found = re.findall(r'number: (\d+),\s*text:\s*"([^"]*)"', re.sub(r"\\\n\s*", "", read("crates/messages/src/meanings.rt")))
    return {int(number): text for number, text in found}


def rules():
    """What the page of rules says that each number means."""
    return {int(number): text for number, text in re.findall(r"^\| (\d+) \| ([^|]*) \|", read("docs/RULES.md"), re.M)}


def edits():
    """How many edits the crates have."""
    return len(glob(f"{TOP}/crates/*/must-fail/*.edit"))


def wrong_bodies():
    """The edits of the document of wrong bodies, each as its crate, its name and the function beside which it stands;
    the function is None among the fields of the headline."""
    text = re.sub(r"\n  +", " ", read("docs/WRONG-BODIES.md"))
    bodies, _, rest = text.partition("\n## The headline")
    for crate, listed in re.findall(r"^### `(\w+)`\n\n((?:- .*\n)+)", bodies, re.M):
        for function, edits in re.findall(r"^- `([\w:]+)`.*?: (`\w+`(?:, `\w+`)*)", listed, re.M):
            for name in re.findall(r"\w+", edits):
                yield crate, name, function
    for item in re.findall(r"^- `\w+`: (.*)$", rest.partition("\n## ")[0], re.M):
        crate = "circ_core"
        for word in re.findall(r"`(\w+)`", item):
            if os.path.isdir(f"{TOP}/crates/{word}"):
                crate = word
            else:
                yield crate, word, None


def is_refused_in(crate, name, function):
    """Whether there is the edit, of this function if one is given."""
    path = f"crates/{crate}/must-fail/{name}.edit"
    return os.path.isfile(f"{TOP}/{path}") and function in (None, *re.findall(r"^fn: (.*)$", read(path), re.M))


def fields_of_headline():
    """The fields of the headline: those of the record, and those of the document of wrong bodies, in which each has an
    edit."""
    record = read("crates/desk/specs/Headline.antt").partition("pub record Headline ")[2]
    listed = re.sub(r"\n  +", " ", read("docs/WRONG-BODIES.md")).partition("\n## The headline")[2].partition("\n## ")[0]
    return re.findall(r"^  pub (\w+) :", record, re.M), re.findall(r"^- `(\w+)`: .*`\w+`", listed, re.M)


def by_chance():
    """The table of wrong bodies by chance, of what `tests/tools/mutants` printed: the numbers of each crate, by all
    seeds together, and of all crates by each seed."""
    made = re.search(r"^<!-- by chance: tests/tools/mutants .*-->\n\n```\n(.*?)```\n\n<!-- by chance: end -->$", read("docs/WRONG-BODIES.md"), re.M | re.S)[1]
    rows = [(line.startswith("all,"), [int(it) for it in line.split()[-5:]]) for line in made.splitlines()[1:]]
    return [it for is_of_all, it in rows if not is_of_all], [it for is_of_all, it in rows if is_of_all]


def named():
    """The names of code in backquotes, each with the document that has it."""
    for path in NAMING:
        for quoted in re.findall(r"`([^`\n]+)`", read(path)):
            for name in re.findall(r"[A-Za-z]\w*", quoted):
                if "_" in name or re.search(r"[a-z][A-Z]", name):
                    yield path, name


def sources():
    """All words of the sources, and the names of files."""
    words = set()
    for at, folders, files in os.walk(TOP):
        folders[:] = [it for it in folders if it not in (".git", "out", "__pycache__")]
        for name in files:
            words.update(part for part in re.split(r"[/.]", os.path.relpath(f"{at}/{name}", TOP)))
            if not name.endswith((".md", ".png", ".svg", ".xlsx", ".ods")):
                with open(f"{at}/{name}", encoding="utf-8", errors="replace") as file:
                    words.update(re.findall(r"[A-Za-z]\w*", file.read()))
    return words


def headings(path):
    """The anchors of a document's headings."""
    text = re.sub(r"^```.*?^```$", "", read(path), flags=re.M | re.S)
    return {re.sub(r"[^\w -]", "", title.strip().lower()).replace(" ", "-") for title in re.findall(r"^#+ (.*)$", text, re.M)}


def links():
    """The links of documents to files and headings of the repository: each with its document, and whether it leads
    there."""
    documents = [it for it in os.listdir(TOP) if it.endswith(".md")] + [f"docs/{it}" for it in os.listdir(f"{TOP}/docs") if it.endswith(".md")]
    for document in sorted(documents):
        for target in re.findall(r"\]\(([^()\s]+)\)", read(document)):
            if re.match(r"\w+:", target):
                continue
            name, _, heading = target.partition("#")
            path = os.path.normpath(os.path.join(os.path.dirname(document), name)) if name else document
            there = os.path.exists(f"{TOP}/{path}") and (not heading or heading in headings(path))
            yield document, target, there


def main():
    table = commands()
    if sys.argv[1:] == ["--write"]:
        write(table)
    check("the commands of the table", list(table), list(WORDS))
    runs, words, told = of_manual(read("docs/circ.1"))
    check("the manual page's commands", words, table)
    check("the completion's words", completed("file", "town.db", "k1"), list(table))
    check("the completion's words of what is sent", completed("send", "8080", "deskkey00001", "k1"), list(table))
    ruled = re.findall(r"^\| `([a-z-]+)(?: [A-Z ]+)?` \| [^|]* \| `([a-z-]+)[ `]", read("docs/RULES.md"), re.M)
    check("the commands of the rules", sorted(name for name, _ in ruled), sorted(table))
    check("the examples of the rules", [name for name, example in ruled if name != example], [])
    check("the numbers that have a meaning", set(told), numbers("crates/terms/src/refusal.rt") | numbers("crates/terms/src/fault.rt"))
    check("the program's meanings", meanings(), told)
    check("the meanings of the rules", rules(), told)
    usages = [f"circ {name} {rest}" for name, rest in re.findall(r'name: "([a-z]+)",\s*rest: "([^"]*)"', read("crates/messages/src/usage.rt"))]
    check("the runs of the usage", usages, runs)
    version = re.search(r'VERSION: &str = "([^"]*)"', read("crates/messages/src/usage.rt")).group(1)
    schema = re.search(r"SCHEMA: u32 = (\d+)", read("crates/terms/src/limits.rt")).group(1)
    check("the newest version and its schema", (VERSION, SCHEMA), (version, schema))
    check("how many edits there are", re.findall(TOLD_EDITS, read("docs/WRONG-BODIES.md")), [str(edits())])
    bodies = list(wrong_bodies())
    check(f"{len(bodies)} edits in docs/WRONG-BODIES.md are enough", len(bodies) >= 150, True)
    check("the edits that docs/WRONG-BODIES.md names, each with its function", [it for it in bodies if not is_refused_in(*it)], [])
    crates, seeds = by_chance()
    check("the wrong bodies by chance of all crates", [sum(it) for it in zip(*seeds)], [sum(it) for it in zip(*crates)])
    check("what they came to", [row for row in (*crates, *seeds) if row[0] != sum(row[1:])], [])
    fields, told_of = fields_of_headline()
    check("the fields of the headline that have an edit", told_of, fields)
    names, words_there = list(named()), sources()
    check(f"{len(names)} names of code in the documents are enough", len(names) >= 500, True)
    none("a name of no code in the documents", sorted({it for it in names if it[1] not in words_there}))
    led = list(links())
    check(f"{len(led)} links in the documents are enough", len(led) >= 80, True)
    none("a link of the documents that leads nowhere", [it[:2] for it in led if not it[2]])
    listed = re.findall(r"^\| folder \| files, .*\n(?:\|.*\n)+", read("docs/PROOFS.md"), re.M)
    for at, words in enumerate(([], ["--about"])):
        made = subprocess.run([f"{TOP}/tests/tools/headline_files", *words], check=True, capture_output=True, text=True).stdout
        there = listed[at].splitlines() if at < len(listed) else []
        none("docs/PROOFS.md, the files of the headline", unified_diff(there, made.splitlines(), "document", " ".join(["tests/tools/headline_files", *words]), n=0, lineterm=""))
    print(f"words: {len(table)} commands, {len(told)} numbers, {len(bodies)} edits, {len(names)} names of code and {len(led)} links")


if __name__ == "__main__":
    run_script(main)
