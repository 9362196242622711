"""Reads files of definitions: those parts of the language that the definitions of this repository are written in.

A file is cut into items by its indentation: what a name's type is, and the clauses that say what it gives. An item is
read into a tree, of which each node knows where it stands in the file, so that a change of a definition is a change of
its text.
"""

import re
from collections import namedtuple

# A node: its sort, its parts, and where it begins and ends in the file. name TEXT, number N, string TEXT, app FUNCTION
# ARGUMENTS, op SIGN LEFT RIGHT, if CONDITION THEN ELSE, elim VALUE CASES, lam NAMES BODY, record BASE FIELDS, tuple
# PARTS, field VALUE NAME, let NAME VALUE BODY, arrow FROM TO; a case is (pattern, body), a field (name, value).
Node = namedtuple("Node", "sort parts at end")

Token = namedtuple("Token", "text at end")

# One item of a file: its sort (use, type, clause, data, record), where it begins and ends, the parameters of the inner
# modules that it stands in, and where each of these begins.
Item = namedtuple("Item", "sort at end parameters inside")

# A clause: its patterns, and the node of what it gives.
Clause = namedtuple("Clause", "patterns body at end")

TOKENS = re.compile(r"""(?P<blank>\s+|--[^\n]*)|(?P<string>"(?:\\.|[^"\\])*")|(?P<nil>\[\](?![^\s(){}\[\];,]))|(?P<mark>[(){}\[\];,λ])|(?P<word>[^\s(){}\[\];,"λ]+)""")
# The signs between two parts, by how weakly they bind; those of RIGHT group to the right.
LEVELS = (("≡", "≢"), ("→",), ("||",), ("&&",), ("==", "<", "≤"), ("∷", "++"), ("+", "-"), ("*", "/", "%"), ("^",))
RIGHT = ("→", "||", "&&", "∷", "++", "×")
SIGNS = {sign: level for level, signs in enumerate(LEVELS) for sign in signs} | {"×": 1}
CLOSERS = {")", "]", "}", ";", ",", "then", "else", "in", "|", "↦", "=", "as"}


class Unread(Exception):
    """The text is none that these parts of the language have."""


def tokens(text, at=0, end=None):
    """The pieces of a text, without blanks and comments."""
    found = []
    while at < (len(text) if end is None else end):
        it = TOKENS.match(text, at)
        if not it:
            raise Unread(f"{text[at:at + 20]!r}")
        if it.lastgroup != "blank":
            found.append(Token(it[0], it.start(), it.end()))
        at = it.end()
    return found


class Reader:
    """Reads trees from pieces."""

    def __init__(self, text, at=0, end=None):
        self.text, self.pieces, self.here = text, tokens(text, at, end), 0
        self.last = at

    def peek(self, ahead=0):
        return self.pieces[self.here + ahead].text if self.here + ahead < len(self.pieces) else ""

    def take(self, wanted=None):
        if self.here >= len(self.pieces) or wanted is not None and self.peek() != wanted:
            raise Unread(f"{self.peek()!r} stands where {wanted!r} should")
        it = self.pieces[self.here]
        self.here += 1
        self.last = it.end
        return it

    def start(self):
        return self.pieces[self.here].at if self.here < len(self.pieces) else self.last

    def ended(self):
        return self.here >= len(self.pieces)

    def expression(self, least=0):
        """Parts with signs between them that bind at least so strongly."""
        at = self.start()
        left = self.prefix()
        while self.peek() in SIGNS and SIGNS[self.peek()] >= least:
            sign = self.take().text
            level = SIGNS[sign]
            right = self.expression(level if sign in RIGHT else level + 1)
            left = Node("arrow", (left, right), at, self.last) if sign == "→" else Node("op", (sign, left, right), at, self.last)
        return left

    def prefix(self):
        form = {"λ": self.function, "if": self.choice, "elim": self.cases, "let": self.binding}.get(self.peek())
        return form() if form else self.application()

    def function(self):
        at, names = self.take("λ").at, []
        while True:
            name = self.take().text
            names.append(name.removesuffix("."))
            if name.endswith("."):
                break
        body = self.expression()
        return Node("lam", (tuple(names), body), at, self.last)

    def choice(self):
        at = self.take("if").at
        condition = self.expression()
        self.take("then")
        chosen = self.expression()
        self.take("else")
        other = self.expression()
        return Node("if", (condition, chosen, other), at, self.last)

    def cases(self):
        at = self.take("elim").at
        value, found = self.atom(), []
        self.take("[")
        while self.peek() != "]":
            if self.peek() == "|":
                self.take()
            pattern = self.pattern()
            self.take("↦")
            found.append((pattern, self.expression()))
        self.take("]")
        return Node("elim", (value, tuple(found)), at, self.last)

    def binding(self):
        at = self.take("let").at
        name = self.take().text
        self.take("=")
        value = self.expression()
        self.take("in")
        body = self.expression()
        return Node("let", (name, value, body), at, self.last)

    def application(self):
        at = self.start()
        head, arguments = self.atom(), []
        while not self.ended() and self.peek() not in SIGNS and self.peek() not in CLOSERS:
            arguments.append(self.prefix() if self.peek() == "λ" else self.atom())
        return Node("app", (head, tuple(arguments)), at, self.last) if arguments else head

    def atom(self):
        """One part, with the fields that are asked of it."""
        at = self.start()
        if self.peek() == "(":
            found = self.bracketed()
        elif self.peek() == "{":
            found = self.braced()
        elif self.peek() == "record":
            found = self.record()
        else:
            it = self.take()
            if it.text in CLOSERS or it.text in SIGNS or it.text in ("[", "λ"):
                raise Unread(f"{it.text!r} begins no part")
            if it.text.startswith('"'):
                found = Node("string", (it.text,), it.at, it.end)
            elif it.text.isdecimal():
                found = Node("number", (int(it.text),), it.at, it.end)
            else:
                found = Node("name", (it.text,), it.at, it.end)
        while self.peek().startswith(".") and len(self.peek()) > 1 and self.start() == self.last:
            for name in self.take().text[1:].split("."):
                found = Node("field", (found, name), at, self.last)
        return found

    def bracketed(self):
        at, parts = self.take("(").at, []
        if len(self.pieces) > self.here + 1 and self.named_type():
            return self.telescope(at, ")")
        while self.peek() != ")":
            parts.append(self.expression())
            if self.peek() == ",":
                self.take()
        self.take(")")
        if len(parts) == 1:
            return Node("paren", (parts[0],), at, self.last)
        return Node("tuple", tuple(parts), at, self.last)

    def named_type(self):
        """Whether names and a colon follow: the names of a type."""
        ahead = 0
        while self.peek(ahead) and self.peek(ahead) not in SIGNS and not TOKENS.fullmatch(self.peek(ahead)).lastgroup == "mark":
            if self.peek(ahead) == ":":
                return ahead > 0
            ahead += 1
        return False

    def telescope(self, at, closer):
        names = []
        while self.peek() != ":":
            names.append(self.take().text)
        self.take(":")
        kind = self.expression()
        self.take(closer)
        return Node("named", (tuple(names), kind), at, self.last)

    def braced(self):
        at = self.take("{").at
        if self.named_type():
            return self.telescope(at, "}")
        value = self.expression()
        self.take("}")
        return Node("level", (value,), at, self.last)

    def record(self):
        at = self.take("record").at
        base = None if self.peek() == "{" else self.atom()
        self.take("{")
        fields = []
        while self.peek() != "}":
            name = self.take().text
            self.take("=")
            fields.append((name, self.expression()))
            if self.peek() == ";":
                self.take()
        self.take("}")
        return Node("record", (base, tuple(fields)), at, self.last)

    # ---- patterns, which are nodes too

    def pattern(self):
        """A pattern with a sign, or a constructor with its parts."""
        at = self.start()
        head, parts = self.small_pattern(), []
        while not self.ended() and self.peek() not in ("∷", ")", "↦", "="):
            parts.append(self.small_pattern())
        found = Node("app", (head, tuple(parts)), at, self.last) if parts else head
        if self.peek() == "∷":
            self.take()
            rest = self.pattern()
            return Node("op", ("∷", found, rest), at, self.last)
        return found

    def small_pattern(self):
        if self.peek() != "(":
            it = self.take()
            return Node("name", (it.text,), it.at, it.end)
        self.take("(")
        found = self.pattern()
        self.take(")")
        return found


def bare(node):
    """The node without brackets about it."""
    while node.sort == "paren":
        node = node.parts[0]
    return node


def children(node):
    """The nodes right below one."""
    for part in node.parts:
        if isinstance(part, Node):
            yield part
        elif isinstance(part, tuple):
            for it in part:
                if isinstance(it, Node):
                    yield it
                elif isinstance(it, tuple):
                    yield from (deep for deep in it if isinstance(deep, Node))


# ---- files

def blocks(text, indent, at, end):
    """The items of a part of a file that stand at this indentation: where each begins and ends."""
    found, begun, last = [], None, at
    for it in re.finditer(r"[^\n]*\n?", text[at:end]):
        line, here = it[0], at + it.start()
        if not line.strip():
            continue
        depth = len(line) - len(line.lstrip(" "))
        if depth == indent and line[depth] in "])}":
            depth += 1  # it closes what the item opened
        if depth == indent and begun is not None:
            found.append((begun, last))
            begun = None
        if line.lstrip().startswith("--"):
            continue
        if depth == indent:
            begun = here + depth
        last = here + len(line.rstrip())
    if begun is not None:
        found.append((begun, last))
    return found


def items(text, indent=0, at=0, end=None, parameters=(), inside=()):
    """The items of a file, those of its inner modules under the parameters of these."""
    found = []
    for begun, ended in blocks(text, indent, at, len(text) if end is None else end):
        head = text[begun : text.find("\n", begun) if "\n" in text[begun:ended] else ended]
        if head.startswith("module _") or head == "abbrev mutual":
            named = re.findall(r"[({]([^:(){}]+) : ", head[: head.rfind(" where")]) if head.startswith("module") else []
            inner = parameters + tuple(name for names in named for name in names.split())
            found += items(text, indent + 2, begun + len(head), ended, inner, (*inside, begun) if named else inside)
            if named:
                found.append(Item("parameters", begun, begun + len(head), inner, inside))
        else:
            found.append(Item(sort_of(head), begun, ended, parameters, inside))
    return found


def sort_of(head):
    """The sort of an item, by its first line."""
    if re.match(r"(?:pub )?(?:use|mod) ", head):
        return "use"
    if head.startswith("pub record "):
        return "record"
    if head.startswith("pub data "):
        return "data"
    if head.startswith("unfolding "):
        return "unfolding"
    if re.match(r"(?:abbrev |unfoldable )?(?:pub )?[^\s(){}]+ : ", head) or re.match(r"(?:abbrev |unfoldable )?(?:pub )?[^\s(){}]+ :$", head):
        return "type"
    return "clause"
