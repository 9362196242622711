#!/usr/bin/env python3
"""Compares the pages for browsers with the program: each number that it tells has a sentence, the table of commands
stands in both, the pages name nothing that isn't theirs, the modules that read replies are run on every form, and the
work of a desk is done as fast as the fastest hand, over the slowest network.

    tests/gate/pages.py
"""

import os
import re
import subprocess

from room import TOP
from lib.checking import check, run_script
from reference.outer_forms import WORDS

MODULES = {"pages": 328, "hands": 488, "views": 64}  # how many comparisons the modules of these names make

SVG = 'xmlns="http://www.w3.org/2000/svg"'  # it says what the file is, and nothing is loaded from there


def read(path):
    with open(os.path.join(TOP, path), encoding="utf-8") as file:
        return file.read()


def meanings():
    """The numbers with their meanings, of the program and of the pages."""
    program = re.findall(r'number: (\d+),\s*text:\s*"([^"]*)"', re.sub(r"\\\n\s*", "", read("crates/messages/src/meanings.rt")))
    page = re.findall(r'^  (\d+): "([^"]*)",$', read("pages/texts.js"), re.MULTILINE)
    return program, page


def commands():
    """The commands with the names of their parts, of the program and of the pages."""
    form = read("crates/terms/src/form.rt")
    parts = dict(re.findall(r'const (\w+): PartForm = PartForm \{\s*name: "([^"]*)"', form))
    program = [(name, [parts[it] for it in re.findall(r"\w+", inside)]) for name, inside in re.findall(r'name: "([^"]*)",\s*parts: &\[([^]]*)\]', form)]
    page = [(name, re.findall(r'"([^"]*)"', inside)) for name, inside in re.findall(r'^  "([^"]*)": \[([^]]*)\],$', read("pages/commands.js"), re.MULTILINE)]
    return program, page


def kinds():
    """The kinds of the parts that aren't numbers, of the program and of the pages."""
    program = re.findall(r'name: "([^"]*)",\s*kind: PartKind::(\w+)', read("crates/terms/src/form.rt"))
    inside = re.search(r"export const KINDS = \{([^}]*)\}", read("pages/commands.js"))[1]
    return [it for it in dict(program).items() if it[1] != "Number"], re.findall(r'"([^"]*)": "(\w+)"', inside)


def wanted():
    """What a word of each kind must be, of the program and of the pages. Only an amount is typed there as it is shown,
    and not in cents."""
    program = [it for it in re.findall(r'PartKind::(\w+) => \{?\s*"([^"]*)"', read("crates/messages/src/misread.rt")) if it[0] != "Amount"]
    return program, [(kind, text) for kind, text in re.findall(r'^  must([A-Z]\w*): "([^"]*)",$', read("pages/texts.js"), re.MULTILINE) if kind != "Be"]


def colours():
    """The colours of the style by their names, where the system is light and where it is dark, and those that stand
    outside of these."""
    light, dark, rest = re.fullmatch(r"(?s).*?:root \{(.*?)\}.*?prefers-color-scheme: dark\) \{\s*:root \{(.*?)\}(.*)", read("pages/style.css")).groups()
    return [dict(re.findall(r"--(\w+): (#[0-9a-f]{6});", it)) for it in (light, dark)], re.findall(r"#[0-9a-f]{3,8}\b|rgba?\(|hsla?\(", rest)


def contrast(one, other):
    """How much lighter one colour is than the other, by WCAG 2.2."""
    def light(colour):
        parts = (int(colour[at:at + 2], 16) / 255 for at in (1, 3, 5))
        return sum(share * (it / 12.92 if it <= 0.04045 else ((it + 0.055) / 1.055) ** 2.4) for share, it in zip((0.2126, 0.7152, 0.0722), parts))
    low, high = sorted((light(one), light(other)))
    return (high + 0.05) / (low + 0.05)


def readable():
    """Each text, line and mark of the focus has 4.5 to 1 on what it stands on."""
    check("black on white", round(contrast("#000000", "#ffffff"), 2), 21)
    schemes, others = colours()
    for scheme in schemes:
        for ground in ("paper", "card"):
            found = {name: round(contrast(scheme[name], scheme[ground]), 2) for name in scheme if name not in ("paper", "card")}
            check(f"colours on {scheme[ground]}", {name: it for name, it in found.items() if it < 4.5}, {})
        check("the colours that there are", sorted(scheme), ["card", "good", "ink", "line", "paper", "quiet", "soon", "wrong"])
    check("colours that have no name", others, [])


def spoken(name, text):
    """The words for people that stand in a page or a script itself, and not in the texts of the pages."""
    if name.endswith(".html"):
        named = re.findall(r'\s(?:placeholder|aria-label|alt|title|label)="[^"]*"', text)
        return re.sub(r"<[^>]*>", " ", text).split() + named
    code = re.sub(r"^import .*$|//.*$", "", text, flags=re.M)
    return re.findall(r'"[^"\n]*(?:[A-Z][a-z]+ [A-Za-z]|[a-z][.!?] )[^"\n]*"|"[A-Z][a-z]+[.!?]"', code)


def loaded(script):
    """A script of a page, and those that it loads."""
    found, left = [], [script]
    while left:
        name = left.pop()
        if name not in found:
            found.append(name)
            left += re.findall(r'from "\./([^"]*)"', read(f"pages/{name}"))
    return found


def main():
    program, page = meanings()
    check("how many meanings there are", len(program) >= 40, True)
    check("the numbers", [number for number, _ in page], [number for number, _ in program])
    check("meanings that are no short sentence", [text for _, text in page if not re.fullmatch(r"[A-Z][^.]*\.", text) or len(text) > 90], [])
    program, page = commands()
    check("the commands of the program", [name for name, _ in program], list(WORDS))
    check("the commands", page, program)
    for what, (program, page) in (("the kinds of parts", kinds()), ("what a word must be", wanted())):
        check(what, (page, len(page) > 4), (program, True))

    readable()
    names = sorted(os.listdir(os.path.join(TOP, "pages")))
    pages, scripts = ([name for name in names if name.endswith(end)] for end in (".html", ".js"))
    check("there are pages and scripts", (len(pages) > 1, len(scripts) > 3), (True, True))
    for name in names:
        # with the header that the servers before it send, a browser runs and loads nothing else
        text = read(f"pages/{name}").replace(SVG, "")
        check(f"{name} names another origin", re.findall(r"(?:https?:)?//[a-z][^\s]*\.[a-z]+", text), [])
    samples = {"a.html": '<p title="Day">Sign <b data-text="x"></b></p>', "a.js": 'tell("No connection", "checked in");\ntell("Gone.");'}
    check("texts of a page and of a script", [spoken(*it) for it in samples.items()], [["Sign", ' title="Day"'], ['"No connection"', '"Gone."']])
    for name in (*pages, *(it for it in scripts if not it.startswith("texts"))):
        check(f"the texts of {name} itself", spoken(name, read(f"pages/{name}")), [])
    for name in pages:
        text = read(f"pages/{name}")
        check(f"{name} has a script or a style of its own within", re.findall(r"<style|<script(?! type=\"module\" src=)|\son\w+=|\sstyle=", text), [])
        # the header allows no data: address, and without an icon a browser asks for /favicon.ico
        check(f"the icon of {name}", re.findall(r'rel="icon" href="([^"]*)"', text), ["icon.svg"])
        for file in re.findall(r'(?:src|href)="([^"]*)"', text):
            check(f"{name} names {file}", os.path.exists(os.path.join(TOP, "pages", file)), True)
        asked_for = re.findall(r'rel="modulepreload" href="([^"]*)"', text)
        check(f"what {name} loads at once", asked_for, sorted(set(loaded(f"{name[:-5]}.js")) - {f"{name[:-5]}.js"}))
        ids = re.findall(r'\sid="([^"]*)"', text)
        check(f"{name} has an id twice", len(ids), len(set(ids)))
        for script in loaded(f"{name[:-5]}.js"):
            check(f"the ids of {name} that {script} names", sorted(set(re.findall(r'\bit\("([^"]*)"\)', read(f"pages/{script}"))) - set(ids)), [])
    known = set(re.findall(r"^  (\w+):", read("pages/texts.js"), re.MULTILINE))
    for name in scripts:
        check(f"the texts that {name} names", sorted(set(re.findall(r"TEXTS\.(\w+)", read(f"pages/{name}"))) - known), [])
    used = set(re.findall(r'TEXTS\.(\w+)|data-text="(\w+)"', "".join(read(f"pages/{name}") for name in names if not name.endswith(".css"))))
    used = {name for names in used for name in names if name}
    texts = set(re.findall(r'^  ([a-zA-Z]\w*): "', read("pages/texts.js"), re.MULTILINE))
    check("the texts that pages show", sorted(used), sorted(texts))

    for name, tried in MODULES.items():
        done = subprocess.run(["node", os.path.join(TOP, "tests", "gate", f"{name}.mjs")], capture_output=True, text=True, timeout=60, check=False)
        check(f"the modules by tests/gate/{name}.mjs", (done.returncode, done.stdout, done.stderr[-2000:]), (0, f"{name}: {tried} tried\n", ""))
    print(f"pages: {sum(MODULES.values())} tried by the modules")


if __name__ == "__main__":
    run_script(main)
