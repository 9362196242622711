"""The types of what stands in a definition, as far as its signature and those that it names tell them."""

import re
from collections import namedtuple

from lib.antt.program import BOOL, NAT, TEXT, Constant, Constructor, Defined, Word
from lib.antt.reading import Reader, Unread, bare

# A place in a definition: its node, its type, and the types of the names that stand for something there.
Site = namedtuple("Site", "node type names")

SIGNATURES = {
    "is_none": "Option a → Bool", "is_some": "Option a → Bool", "option_map": "(a → b) → Option a → Option b", "option_and_then": "(a → Option b) → Option a → Option b",
    "unwrap_or": "Option a → a → a", "option_or": "Option a → Option a → Option a", "codes": "String → List ℕ", "decimal": "ℕ → List ℕ", "map": "(a → b) → List a → List b",
    "flat_map": "(a → List b) → List a → List b", "filter": "(a → Bool) → List a → List a", "find": "(a → Bool) → List a → Option a", "list_any": "(a → Bool) → List a → Bool",
    "list_all": "(a → Bool) → List a → Bool", "sum_by": "(a → ℕ) → List a → ℕ", "length": "List a → ℕ", "replicate": "ℕ → a → List a", "take": "ℕ → List a → List a", "drop": "ℕ → List a → List a",
    "slice_get": "List a → ℕ → Option a", "slice_index_or": "List a → ℕ → a → a", "slice_index": "List ℕ → ℕ → ℕ", "bytes_eq": "List ℕ → List ℕ → Bool",
    "join_with_byte": "ℕ → List (List ℕ) → List ℕ", "slice_split": "(a → Bool) → List a → List (List a)", "chars": "List ℕ → List ℕ", "encode_utf8_all": "List ℕ → List ℕ",
    "before_first": "(a → Bool) → List a → List a", "after_first": "(a → Bool) → List a → List a", "nat_lt": "ℕ → ℕ → Bool", "nat_le": "ℕ → ℕ → Bool", "not": "Bool → Bool", "min": "ℕ → ℕ → ℕ", "max": "ℕ → ℕ → ℕ", "Some": "a → Option a", "None": "Option a", "suc": "ℕ → ℕ", "zero": "ℕ",
    "days_in_month": "ℤ → ℕ → ℕ", "pos": "ℕ → ℤ",
}
SIGN_TYPES = {sign: (NAT, NAT, NAT) for sign in "+-*/%^"} | {"==": (NAT, NAT, BOOL), "&&": (BOOL, BOOL, BOOL), "||": (BOOL, BOOL, BOOL)}
UNKNOWN = ("?",)


def arguments_of(kind):
    """What a type takes, and what it gives."""
    return (kind[1], kind[2]) if kind[0] == "fn" else ((), kind)


def is_variable(kind):
    return len(kind) == 1 and bool(re.fullmatch(r"[a-zA-Z]'?\d*", kind[0]))


def is_known(kind):
    """Whether a type has no part that isn't known."""
    if kind[0] == "fn":
        return all(map(is_known, kind[1])) and is_known(kind[2])
    return kind != UNKNOWN and not is_variable(kind) and all(is_known(it) for it in kind[1:] if isinstance(it, tuple))


def match(wanted, found, known):
    """Learns what the variables of a wanted type stand for, where a found one tells it."""
    if found == UNKNOWN:
        return
    if is_variable(wanted):
        if wanted[0] not in known or known[wanted[0]] == UNKNOWN:
            known[wanted[0]] = found
    elif wanted[0] == "fn" and found[0] == "fn" and len(wanted[1]) == len(found[1]):
        for one, other in zip((*wanted[1], wanted[2]), (*found[1], found[2])):
            match(one, other, known)
    elif wanted[0] == found[0] and wanted[0] != "fn":
        for one, other in zip(wanted[1:], found[1:]):
            match(one, other, known)


def filled(kind, known):
    """A type with what its variables stand for."""
    if is_variable(kind):
        return known.get(kind[0], UNKNOWN)
    if kind[0] == "fn":
        return ("fn", tuple(filled(it, known) for it in kind[1]), filled(kind[2], known))
    return (kind[0], *(filled(it, known) for it in kind[1:]))


class Typing:
    """Goes through the clauses of a definition, and keeps the type of each place in them."""

    def __init__(self, program, definition):
        self.program, self.definition, self.module = program, definition, definition.module
        self.sites = []

    def clause(self, clause):
        """The places of one clause."""
        self.sites = []
        taken, given = arguments_of(self.program.type_of(self.definition.key))
        names = dict(zip(self.definition.parameters, taken))
        taken = taken[len(self.definition.parameters) :]
        for pattern, kind in zip(clause.patterns, taken):
            self.pattern(pattern, kind, names)
        rest = taken[len(clause.patterns) :]
        self.term(clause.body, ("fn", rest, given) if rest else given, names)
        return self.sites

    # ---- patterns

    def pattern(self, pattern, kind, names):
        pattern = bare(pattern)
        if pattern.sort == "op":
            inner = kind[1] if kind[0] == "List" else UNKNOWN
            self.pattern(pattern.parts[1], inner, names)
            self.pattern(pattern.parts[2], kind, names)
            return
        head, parts = (pattern.parts[0].parts[0], pattern.parts[1]) if pattern.sort == "app" else (pattern.parts[0], ())
        if head == "suc":
            self.pattern(parts[0], NAT, names)
        elif head == "Some":
            self.pattern(parts[0], kind[1] if kind[0] == "Option" else UNKNOWN, names)
        elif head not in ("_", "[]", "zero", "None", "true", "false"):
            meant = self.program.meaning(self.module, head)
            if isinstance(meant, Constructor):
                for part, own in zip(parts, self.program.parts_of(meant)):
                    self.pattern(part, own, names)
            else:
                names[head] = kind

    # ---- terms

    def term(self, node, wanted, names):
        """The type of a term."""
        kind = getattr(self, f"of_{node.sort}", self.of_other)(node, wanted, names)
        if kind == UNKNOWN or not is_known(kind):
            kind = wanted if is_known(wanted) else kind
        self.sites.append(Site(node, kind, names))
        return kind

    def of_other(self, node, wanted, names):
        return UNKNOWN

    def of_paren(self, node, wanted, names):
        return self.term(node.parts[0], wanted, names)

    def of_number(self, node, wanted, names):
        return NAT

    def of_string(self, node, wanted, names):
        return ("String",)

    def of_tuple(self, node, wanted, names):
        kinds = wanted[1:] if wanted[0] == "×" and len(wanted) == len(node.parts) + 1 else (UNKNOWN,) * len(node.parts)
        return ("×", *(self.term(it, kind, names) for it, kind in zip(node.parts, kinds)))

    def of_if(self, node, wanted, names):
        self.term(node.parts[0], BOOL, names)
        chosen = self.term(node.parts[1], wanted, names)
        other = self.term(node.parts[2], wanted, names)
        return chosen if is_known(chosen) else other

    def of_op(self, node, wanted, names):
        sign, left, right = node.parts
        if sign in SIGN_TYPES:
            one, other, given = SIGN_TYPES[sign]
            self.term(left, one, names)
            self.term(right, other, names)
            return given
        if sign == "∷":
            inner = wanted[1] if wanted[0] == "List" else UNKNOWN
            head = self.term(left, inner, names)
            rest = self.term(right, ("List", head) if is_known(head) else wanted, names)
            return ("List", head) if is_known(head) else rest
        one = self.term(left, wanted, names)
        other = self.term(right, one if is_known(one) else wanted, names)
        return one if is_known(one) else other

    def of_let(self, node, wanted, names):
        name, value, body = node.parts
        return self.term(body, wanted, {**names, name: self.term(value, UNKNOWN, names)})

    def of_elim(self, node, wanted, names):
        value, cases = node.parts
        kind, given = self.term(value, UNKNOWN, names), UNKNOWN
        for pattern, body in cases:
            own = dict(names)
            self.pattern(pattern, kind, own)
            found = self.term(body, wanted, own)
            given = found if is_known(found) else given
        return given

    def of_lam(self, node, wanted, names):
        taken, given = arguments_of(wanted)
        own = dict(names)
        for at, name in enumerate(node.parts[0]):
            own[name] = taken[at] if at < len(taken) else UNKNOWN
        rest = taken[len(node.parts[0]) :]
        found = self.term(node.parts[1], ("fn", rest, given) if rest else given, own)
        return ("fn", tuple(own[name] for name in node.parts[0]), found)

    def of_record(self, node, wanted, names):
        base, fields = node.parts
        kind = self.term(base, UNKNOWN, names) if base is not None else wanted
        types = self.fields(kind) or {}
        for name, value in fields:
            self.term(value, types.get(name, UNKNOWN), names)
        return kind

    def of_field(self, node, wanted, names):
        value, name = node.parts
        return self.field(self.term(value, UNKNOWN, names), name)

    def of_name(self, node, wanted, names):
        return self.head(node.parts[0], names)

    def of_app(self, node, wanted, names):
        head, args = node.parts
        own = self.head(bare(head).parts[0], names) if bare(head).sort == "name" else self.term(head, UNKNOWN, names)
        taken, given = arguments_of(own)
        known, late = {}, []
        if len(args) <= len(taken):
            rest = taken[len(args) :]
            match(("fn", rest, given) if rest else given, wanted, known)
        for at, arg in enumerate(args):
            kind = taken[at] if at < len(taken) else UNKNOWN
            if bare(arg).sort == "lam":
                late.append((arg, kind))
            else:
                match(kind, self.term(arg, filled(kind, known), names), known)
        for arg, kind in late:
            match(kind, self.term(arg, filled(kind, known), names), known)
        rest = taken[len(args) :]
        if len(args) > len(taken):
            return UNKNOWN
        return filled(("fn", rest, given) if rest else given, known)

    # ---- names and fields

    def head(self, text, names):
        """The type of a name, with the fields that are asked of it."""
        local, _, fields = text.partition(".")
        if local in names:
            kind = names[local]
            for name in filter(None, fields.split(".")):
                kind = self.field(kind, name)
            return kind
        return self.global_type(text)

    def global_type(self, text):
        if text in ("true", "false"):
            return BOOL
        meant = self.program.meaning(self.module, text)
        if isinstance(meant, Constant):
            return NAT if isinstance(meant.value, int) else TEXT
        if isinstance(meant, Constructor):
            parts, own = self.program.parts_of(meant), (meant.type[-1],)
            return ("fn", parts, own) if parts else own
        if isinstance(meant, Defined):
            return self.beside(meant)
        name = meant.name if isinstance(meant, Word) else text
        if name in SIGNATURES:
            return self.program.type_of_node(self.module, Reader(SIGNATURES[name]).expression())
        return UNKNOWN

    def beside(self, key):
        """The type of a definition, without the parameters of the module that both stand in."""
        other = self.program.definition(key)
        try:
            kind = self.program.type_of(key)
        except Unread:
            return UNKNOWN
        if other.module is not self.module or other.inside != self.definition.inside[: len(other.inside)] or not other.parameters:
            return kind
        rest = kind[1][len(other.parameters) :]
        return ("fn", rest, kind[2]) if rest else kind[2]

    def field(self, kind, name):
        if kind[0] == "×" and name.isdecimal():
            return kind[1 + int(name)] if int(name) < len(kind) - 1 else UNKNOWN
        return (self.fields(kind) or {}).get(name, UNKNOWN)

    def fields(self, kind):
        """The fields of a record, with their types."""
        if len(kind) != 1:
            return None
        return self.program.record_fields(self.module, kind[0])

