"""Small changes of definitions, each of which keeps every type: what a slip in writing a definition could have made of
it."""

import re
from collections import namedtuple

from lib.antt.program import NAT, Constructor, Defined, Word
from lib.antt.reading import Clause, bare, children
from lib.antt.typing import Typing, arguments_of, is_known

# A change: the definition, the kind, which of its clauses it is made in (None leaves that clause out), and what stands
# where.
Edit = namedtuple("Edit", "kind clause edits")

# The kinds that keep what a definition gives to itself.
HELD = ("name", "arguments", "function", "number")
# Days, which aren't taken for counts: a list of as many numbers is too long to be gone through.
DAYS = ("today", "today_after")
# Words of which it is the same which argument comes first.
EVEN = ("bytes_eq", "same_thing", "min", "max")
OTHER_WORDS = {"nat_le": "nat_lt", "nat_lt": "nat_le", "is_some": "is_none", "is_none": "is_some", "list_any": "list_all", "list_all": "list_any"}
# What a change may have to import.
LIBRARY = {it: "Prelude" for it in ("not", "nat_le", "nat_lt", "is_some", "is_none", "true", "false", "None", "◌&&◌", "◌||◌", "◌+◌", "◌-◌")} | {"list_any": "List", "list_all": "List"}
OTHER_SIGNS = {"&&": "||", "||": "&&", "+": "-", "-": "+"}


class Change:
    """One change of a definition's text."""

    def __init__(self, definition, edit):
        self.definition, self.kind, self.at, self.edits = definition, edit.kind, edit.clause, edit.edits
        text = definition.module.text
        first, last = min(it[0] for it in self.edits), max(it[1] for it in self.edits)
        begun = text.rfind("\n", 0, first) + 1
        ended = text.find("\n", last)
        self.before = " ".join(text[begun:ended].split())
        self.after = " ".join(self.applied(text, begun, ended).split())

    def applied(self, text, begun, ended):
        """The text from one place to another with the change."""
        made, here = [], begun
        for at, end, new in sorted(self.edits):
            made += [text[here:at], new]
            here = end
        return "".join([*made, text[here:ended]])

    @property
    def key(self):
        return f"{self.definition.module.name.rpartition('.')[2]} {self.definition.name}", self.before, self.after

    def clauses(self):
        """The clauses of the definition with the change."""
        found = list(self.definition.clauses)
        at, end = self.definition.spans[self.at]
        made = self.applied(self.definition.module.text, at, end)
        if made.strip():
            found[self.at] = self.definition.clause(0, len(made), made)
        else:
            del found[self.at]
        return found

    def file_text(self):
        """The file of the definition with the change, and with what that has to import."""
        module = self.definition.module
        made = self.applied(module.text, 0, len(module.text))
        new = " ".join(it[2] for it in self.edits)
        lines = "".join(f"use Rattle.std.specs.{LIBRARY[word]}.{{{word}}}\n" for word in LIBRARY if self.says(word, new) and word not in module.scope)
        at = made.index("use ")
        return made[:at] + lines + made[at:]

    def says(self, word, text):
        return re.search(rf"(?<![^\s(]){re.escape(word.strip('◌'))}(?![^\s)])", text)

    def __str__(self):
        return f"{self.key[0]}, {self.kind}: `{self.before}` => `{self.after}`"


class Changes:
    """All changes of one definition."""

    def __init__(self, program, definition):
        self.program, self.definition, self.module = program, definition, definition.module
        self.text = definition.module.text
        self.typing = Typing(program, definition)

    def all(self):
        """Each change once."""
        seen = set()
        for at, clause in enumerate(self.definition.clauses):
            fixed = list(self.descents(clause))
            for edit in self.of_clause(at, clause):
                change = Change(self.definition, edit)
                descends = any(at <= begun < end or at < ended <= end or begun <= at and end <= ended for begun, ended in fixed for at, end, _ in edit.edits)
                if change.before != change.after and change.key not in seen and not (descends and edit.kind in HELD):
                    seen.add(change.key)
                    yield change

    def descents(self, clause):
        """Where a definition names itself at a smaller value: what stands there has to be smaller."""
        parts = set().union(*(self.names_in(it) for it in clause.patterns if bare(it).sort != "name"))
        for site in self.typing.clause(clause):
            node = site.node
            if node.sort == "app" and self.said(node.parts[0]) == self.definition.name:
                for it in node.parts[1]:
                    if self.said(it) in parts:
                        yield it.at, it.end

    def names_in(self, pattern):
        pattern = bare(pattern)
        if pattern.sort == "name":
            return {pattern.parts[0]}
        return set().union(*(self.names_in(it) for it in children(pattern)))

    def of_clause(self, at, clause):
        for kind, edits in self.whole(at, clause):
            yield Edit(kind, at, edits)
        for site in self.typing.clause(clause):
            for make in (self.turned, self.elements, self.exchanged, self.others, self.passes, self.left_out, self.by_one):
                for kind, edits in make(site):
                    yield Edit(kind, at, edits)

    def said(self, node):
        return self.text[node.at : node.end]

    def put(self, node, text):
        return [(node.at, node.end, text)]

    def whole(self, at, clause):
        """A case left out, where a later one takes it."""
        if any(self.takes_all(later) for later in self.definition.clauses[at + 1 :]):
            span = self.definition.spans[at]
            yield "case", [(span[0], span[1], "")]

    def takes_all(self, clause):
        names = [it for it in map(bare, clause.patterns)]
        return isinstance(clause, Clause) and all(it.sort == "name" and not self.is_constructor(it.parts[0]) for it in names)

    def is_constructor(self, name):
        return name in ("[]", "zero", "None", "true", "false") or isinstance(self.program.meaning(self.module, name), Constructor)

    # ---- a comparison turned

    def turned(self, site):
        node = site.node
        if node.sort == "name" and node.parts[0] in OTHER_WORDS and self.is_word(node.parts[0]):
            yield "turned", self.put(node, OTHER_WORDS[node.parts[0]])
        elif node.sort == "name" and node.parts[0] in ("true", "false"):
            yield "turned", self.put(node, "false" if node.parts[0] == "true" else "true")
        elif node.sort == "op" and node.parts[0] == "==":
            yield "turned", self.put(node, f"not ({self.said(node)})")
        elif node.sort == "op" and node.parts[0] in OTHER_SIGNS:
            _, left, right = node.parts
            at = self.text.index(f" {node.parts[0]}", left.end)
            kind = "turned" if node.parts[0] in ("&&", "||") else "number"
            yield kind, [(at + 1, at + 1 + len(node.parts[0]), OTHER_SIGNS[node.parts[0]])]
        elif node.sort == "app" and self.said(node.parts[0]) == "not":
            yield "turned", self.put(node, self.said(node.parts[1][0]))

    def is_word(self, name):
        return isinstance(self.program.meaning(self.module, name), Word)

    # ---- elements of a list

    def elements(self, site):
        """An element left out, or exchanged with the next one."""
        node = site.node
        if node.sort != "op" or node.parts[0] != "∷":
            return
        head, rest = node.parts[1], node.parts[2]
        yield "element", [(head.at, rest.at, "")]
        if rest.sort == "op" and rest.parts[0] == "∷":
            other = rest.parts[1]
            yield "order", [(head.at, head.end, self.said(other)), (other.at, other.end, self.said(head))]

    # ---- another of the same type

    def exchanged(self, site):
        """Two arguments of one type, or the two sides of a sign, exchanged."""
        node = site.node
        if node.sort == "app" and bare(node.parts[0]).sort == "name" and self.said(node.parts[0]) not in EVEN:
            kinds, _ = arguments_of(self.typing.head(bare(node.parts[0]).parts[0], site.names))
            args = node.parts[1]
            for at, one in enumerate(args):
                for to in range(at + 1, min(len(args), len(kinds))):
                    if kinds[at] == kinds[to] and is_known(kinds[at]) and self.said(one) != self.said(args[to]):
                        yield "arguments", self.exchange(one, args[to])
        elif node.sort == "op" and node.parts[0] in ("-", "++", "<", "≤"):
            yield "arguments", [(node.parts[1].at, node.parts[1].end, self.inner(node.parts[2])), (node.parts[2].at, node.parts[2].end, self.inner(node.parts[1]))]
        elif node.sort == "record":
            yield from self.exchanged_fields(site)

    def inner(self, node):
        """The text of a side of a sign, in brackets where it is more than one part."""
        return self.said(node) if node.sort in ("name", "number", "paren", "app", "field", "tuple") else f"({self.said(node)})"

    def exchange(self, one, other):
        return [(one.at, one.end, self.said(other)), (other.at, other.end, self.said(one))]

    def exchanged_fields(self, site):
        types, fields = self.typing.fields(site.type) or {}, site.node.parts[1]
        for at, (name, value) in enumerate(fields):
            for other, its in fields[at + 1 :]:
                if types.get(name) == types.get(other) and name in types and self.said(value) != self.said(its):
                    yield "fields", self.exchange(value, its)

    def others(self, site):
        """Another name for a value, field, constructor or function of the same type."""
        node = site.node
        if node.sort == "field":
            yield from (("name", self.put(node, it)) for it in self.other_fields(site))
        if node.sort not in ("name", "app"):
            return
        head = node if node.sort == "name" else bare(node.parts[0])
        if head.sort != "name":
            return
        text = head.parts[0]
        local, _, fields = text.partition(".")
        if local in site.names:
            if node.sort == "name":
                yield from (("name", self.put(node, it)) for it in self.other_values(site, local, fields))
            return
        meant = self.program.meaning(self.module, text)
        if isinstance(meant, Constructor):
            yield from (("constructor", self.put(head, it)) for it in self.other_constructors(text, meant))
        elif isinstance(meant, Defined):
            yield from (("function", self.put(head, it)) for it in self.other_functions(text, meant))

    def other_values(self, site, local, fields):
        if not is_known(site.type):
            return
        for name, kind in site.names.items():
            if name != local and kind == site.type and not fields:
                yield name
        if fields:
            base, _, last = f"{local}.{fields}".rpartition(".")
            kind = self.typing.head(base, site.names)
            for name, its in (self.typing.fields(kind) or {}).items():
                if name != last and its == site.type:
                    yield f"{base}.{name}"

    def other_fields(self, site):
        """Other fields of the record of which one is asked."""
        value, last = site.node.parts
        kind = next((it.type for it in self.typing.sites if it.node == value), None)
        for name, its in (self.typing.fields(kind) or {}).items() if kind else ():
            if name != last and its == site.type:
                yield f"{self.said(value)}.{name}"

    def other_constructors(self, text, meant):
        """Those of the same parts that stand next to it in its type and are known here."""
        parts = self.program.parts_of(meant)
        names = list(self.program.variants(*meant.type)) if len(meant.type) == 3 else list(self.program.module(meant.type[0]).types[meant.type[1]])
        fitting = [it for it in names if self.program.parts_of(Constructor(meant.type, it)) == parts]
        at = fitting.index(meant.name)
        for name in [*fitting[at + 1 : at + 2], *fitting[max(0, at - 1) : at]]:
            here = self.known_as(text, meant, name)
            if here:
                yield here

    def known_as(self, text, meant, name):
        """What another constructor of the type is called here."""
        if "." in text:
            return f"{text.partition('.')[0]}.{name}"
        wanted = Constructor(meant.type, name)
        for here in [name, *self.module.scope]:
            if self.program.meaning(self.module, here) == wanted:
                return here
        return None

    def other_functions(self, text, meant):
        """Definitions of the same type in the same file that are known here and stand before this one."""
        kind = self.typing.beside(meant)
        if kind[0] != "fn" or not is_known(kind) or text in DAYS:
            return
        for name in [*self.module.scope, *self.module.definitions]:
            other = self.program.meaning(self.module, name)
            if isinstance(other, Defined) and other.module == meant.module and other != meant and name not in DAYS and self.stands_before(other) and self.program.computes(other) and self.typing.beside(other) == kind:
                yield name

    def stands_before(self, key):
        it = self.program.definition(key)
        return it.module is not self.module or it is not self.definition and it.spans and it.spans[0][0] < self.definition.spans[0][0] and it.inside == self.definition.inside[: len(it.inside)]

    # ---- a filter that passes everything, and what is left out

    def passes(self, site):
        node = site.node
        if node.sort == "app" and self.said(node.parts[0]) in ("filter", "find") and len(node.parts[1]) == 2 and self.said(node.parts[0]) == "filter":
            yield "filter", self.put(node, self.said(node.parts[1][1]))

    def left_out(self, site):
        """A condition, a half, an update or a value left out."""
        node = site.node
        if node.sort == "if":
            yield from (("choice", self.put(node, self.inner(it))) for it in node.parts[1:])
        elif node.sort == "elim":
            yield from self.one_case(node)
        elif node.sort == "op" and node.parts[0] in ("&&", "||", "++"):
            yield from (("half", self.put(node, self.said(it))) for it in node.parts[1:])
        elif node.sort == "record" and node.parts[0] is not None:
            yield from self.updates(node)
        elif node.sort == "app" and self.said(node.parts[0]) == "Some" and site.type[0] == "Option":
            yield "value", self.put(node, "None")
        elif node.sort == "app" and self.said(node.parts[0]) in ("option_map", "option_and_then") and len(node.parts[1]) == 2:
            if dict((it.node, it.type) for it in self.typing.sites).get(node.parts[1][1]) == site.type:
                yield "update", self.put(node, self.said(node.parts[1][1]))
        elif node.sort == "app" and self.said(node.parts[0]) == "option_or":
            yield from (("half", self.put(node, self.said(it))) for it in node.parts[1])

    def one_case(self, node):
        """What one case gives, where its pattern names nothing."""
        for pattern, body in node.parts[1]:
            if pattern.sort == "name" and self.is_constructor(pattern.parts[0]):
                yield "choice", self.put(node, self.inner(body))

    def updates(self, node):
        base, fields = node.parts
        for name, value in fields:
            kept = "; ".join(f"{other} = {self.said(its)}" for other, its in fields if other != name)
            yield "update", self.put(node, f"record {self.said(base)} {{ {kept} }}" if kept else self.said(base))

    # ---- a number by one

    def by_one(self, site):
        node = site.node
        if node.sort == "number":
            yield "number", self.put(node, str(node.parts[0] + 1))
            if node.parts[0]:
                yield "number", self.put(node, str(node.parts[0] - 1))
        elif node.sort == "app" and self.said(node.parts[0]) == "suc" and site.type == NAT:
            yield "number", self.put(node, self.said(node.parts[1][0]))

