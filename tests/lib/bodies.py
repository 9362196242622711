"""The bodies of a crate's functions, and what they are made of: by brackets and lines, over sources as `rt fmt` leaves
them."""

import os
import re
from collections import namedtuple

# A piece of a source: its sort, its text, and where it begins and ends.
Token = namedtuple("Token", "sort text at end")

# A function with a body: its path below the crate, as a check prints it; its file; where its body begins and ends,
# with the braces; whether a contract says what it gives, which is its own or that of a trait; and, of a function that
# could stand twice under two names, its first and its last line, else nothing.
Body = namedtuple("Body", "function path at end claims lines", defaults=(None,))

TOKENS = re.compile(
    r"""(?P<comment>//[^\n]*)|(?P<string>b?"(?:\\.|[^"\\])*")|(?P<char>b?'(?:\\[^']+|[^'\\])')|(?P<life>'\w+)"""
    r"""|(?P<number>\d[\d_]*(?:[ui](?:8|16|32|64|128|size))?\b|0x\w+)|(?P<word>\w+)"""
    r"""|(?P<mark>::|->|=>|<=|>=|==|!=|&&|\|\||\+=|-=|\.\.=|\.\.|[^\s\w])""",
    re.S,
)
OPENED = {"(": ")", "[": "]", "{": "}"}
HEADED = re.compile(r"( *)(?:pub(?:\([a-z ]+\))? )?(?:const |unsafe )*fn (\w+)")


def tokens(text, at, end):
    """The pieces of a text from one place to another, without blanks and comments."""
    return [Token(it.lastgroup, it[0], it.start(), it.end()) for it in TOKENS.finditer(text, at, end) if it.lastgroup != "comment"]


def closing(pieces, at):
    """The place of the bracket that closes the one at a place, among pieces."""
    depth = 0
    for here in range(at, len(pieces)):
        if pieces[here].text in OPENED:
            depth += 1
        elif pieces[here].text in OPENED.values():
            depth -= 1
            if depth == 0:
                return here
    return len(pieces) - 1


def parted(pieces, first, last):
    """What stands between commas among the pieces from first to before last: each as the places of its first and its
    last piece."""
    found, begun, here = [], first, first
    while here < last:
        if pieces[here].text in OPENED:
            here = closing(pieces, here)
        elif pieces[here].text == ",":
            found.append((begun, here - 1))
            begun = here + 1
        here += 1
    found.append((begun, last - 1))
    return [(begun, ended) for begun, ended in found if begun <= ended]


def bodies(texts):
    """The bodies in the sources of a crate, which are given by path."""
    kinds = {name: module_of(path) for path, text in texts.items() for name in re.findall(r"^(?:pub(?:\([a-z ]+\))? )?(?:struct|enum) (\w+)", text, re.M)}
    return [it for path, text in texts.items() for it in bodies_of(text, path, kinds)]


def module_of(path):
    """The words of the module that a file is."""
    return [it for it in re.sub(r"^src/|\.rt$|/mod\.rt$", "", path).split("/") if it != "lib"]


def bodies_of(text, path, kinds):
    """The bodies in a file. A type's own functions have the path of the module that declares the type, which is given
    for each type."""
    lines, found, owner, starts, is_of_trait = text.split("\n"), [], [], [0], False
    for line in lines:
        starts.append(starts[-1] + len(line) + 1)
    for at, line in enumerate(lines):
        if re.match(r"(?:pub(?:\([a-z ]+\))? )?(?:impl\b|trait )", line):
            head = text[starts[at] : text.index("\n}", starts[at])]
            owner, is_of_trait = owner_of(head, module_of(path), kinds), " for " in head.partition(" {")[0] or "trait " in line
        elif line == "}":
            owner, is_of_trait = [], False
        head = HEADED.match(line)
        first = head and opens(lines, at, head[1])
        if first:
            last = next(it for it in range(first, len(lines)) if lines[it] == head[1] + "}" and it > at)
            begun = starts[first] + len(lines[first]) - 1
            function = "::".join([*(owner if head[1] and owner else module_of(path)), head[2]])
            claims = is_of_trait or any(it.lstrip().startswith("ensures") for it in lines[at:first])
            top = first_line(lines, at)
            # what calls itself can't stand twice; a path of another module or type names another function
            itself = re.compile(rf"(?<!::)\b{head[2]}\b|\b(?:Self|self|{owner[-1] if owner else 'Self'})::{head[2]}\b")
            is_twice = not is_of_trait and not any("#[cycle" in it for it in lines[top:at]) and not any(itself.search(it) for it in lines[first : last + 1])
            found.append(Body(function, path, begun, starts[last] + len(lines[last]), claims, (top, last) if is_twice else None))
    return found


def first_line(lines, at):
    """The first line of the attributes and the comment of a function whose head is a line."""
    while at and lines[at - 1].strip() and not lines[at - 1].endswith(("{", "}", ";")):
        at -= 1
    return at


def opens(lines, at, indent):
    """The line on which the body opens of a function whose head begins at a line; nothing if it has none."""
    for here in range(at, len(lines)):
        line = lines[here]
        if line == indent + "{":
            return here
        if here == at or line.startswith(indent + ")"):
            if line.endswith("{"):
                return here
            if line.endswith(";"):
                return None
        elif line.endswith("};") or not line.startswith(indent):
            return None
    return None


def owner_of(head, module, kinds):
    """The words of the path below which a check prints what stands in an `impl` or a trait that begins so in a
    module."""
    head = " ".join(head.split())
    trait = re.match(r"(?:pub(?:\([a-z ]+\))? )?trait (\w+)", head)
    if trait:
        return [*module, trait[1]]
    own, rest = set(), head[len("impl") :]
    if rest.startswith("<"):
        end = angled(rest, 0)
        own, rest = set(re.findall(r"[<,] ?('?\w+)", rest[:end])), rest[end:]
    given, _, kind = re.split(r" \{| where ", rest)[0].strip().rpartition(" for ")
    if given and given != "Drop":
        return [*module, "".join(words_of(kind, own) + words_of(given, own))]
    words = words_of(kind, ())
    return [*kinds.get(words[0], module), words[0]] if set(words[1:]) <= own else [*module, "+".join(words)]


def angled(text, at):
    """Where the angle bracket at a place is closed."""
    depth = 0
    for here in range(at, len(text)):
        depth += {"<": 1, ">": -1}.get(text[here], 0)
        if depth == 0:
            return here + 1
    return len(text)


def words_of(kind, own):
    """The words by which a path names a type or a trait: its own, and those in its angle brackets, without lifetimes
    and the parameters of the `impl`."""
    first, _, rest = re.sub(r"&?'\w+,? ?|\bmut |\bdyn ", "", kind).partition("<")
    inner = [word for path in re.findall(r"\w+(?:::\w+)*", rest) for word in path.split("::") if word not in own and word != "_"]
    return [first.split("::")[-1], *[it[0].upper() + it[1:] for it in inner]]


def sources(folder):
    """The sources of a crate, by their paths in its folder, without those of its tests."""
    found = {}
    for at, _, its in os.walk(f"{folder}/src"):
        for name in sorted(its):
            path = os.path.relpath(f"{at}/{name}", folder)
            if name.endswith(".rt") and name != "tests.rt":
                with open(f"{folder}/{path}", encoding="utf-8") as it:
                    found[path] = it.read()
    return dict(sorted(found.items()))
