"""The definitions of the repository: what stands in which file, and what each name means there."""

import functools
import os
import re
from collections import namedtuple

from lib.antt.reading import Clause, Reader, Unread, bare, children, items

# What a name can mean.
Defined = namedtuple("Defined", "module name")
Constructor = namedtuple("Constructor", "type name")
Word = namedtuple("Word", "name")  # of the standard library
Constant = namedtuple("Constant", "value")
Alias = namedtuple("Alias", "module")

NUMBERS = {
    "BranchId", "PatronId", "TitleId", "CopyId", "LoanId", "HoldId", "LineId", "PatronKind", "CopyKind", "Days", "Count", "Cents", "Day", "u8", "u16", "u32", "u64", "usize",
}
TEXTS = {"Name", "CardKey", "Key", "Text", "String"}
NAT, BOOL = ("ℕ",), ("Bool",)
TEXT = ("List", NAT)


def rust_type(text):
    """The type that definitions see of one of the code."""
    text = text.strip()
    if text.startswith("Option<"):
        return ("Option", rust_type(text[7:-1]))
    if text in NUMBERS:
        return NAT
    if text in TEXTS:
        return TEXT
    if text in ("Mask", "Weekdays"):
        return ("List", BOOL)
    return BOOL if text == "bool" else (text,)


class Definition:
    """One definition: its type, its clauses, and the parameters of the module about it."""

    def __init__(self, module, name, parameters, inside):
        self.module, self.name, self.parameters, self.inside = module, name, parameters, inside
        self.spans, self.type, self.type_at = [], None, None
        self.is_row = False

    @property
    def key(self):
        return Defined(self.module.name, self.name)

    @functools.cached_property
    def clauses(self):
        return [self.clause(at, end) for at, end in self.spans]

    def clause(self, at, end, text=None):
        reader = Reader(text or self.module.text, at, end)
        reader.take(self.name)
        patterns = []
        while reader.peek() != "=":
            patterns.append(reader.small_pattern())
        reader.take("=")
        body = reader.expression()
        if not reader.ended():
            raise Unread(f"{self.name}: {reader.peek()!r} is left")
        return Clause(tuple(patterns), body, at, end)


class Module:
    """A file: its items, and what names mean in it."""

    def __init__(self, program, name, path, text=None):
        self.program, self.name, self.path, self.text = program, name, path, text
        if text is None:
            with open(path, encoding="utf-8") as it:
                self.text = it.read()
        self.scope, self.passed, self.definitions, self.records, self.types, self.parameter_types = {}, {}, {}, {}, {}, {}
        self.read()

    def read(self):
        last = None
        for item in items(self.text):
            text = self.text[item.at : item.end]
            if item.sort == "use":
                self.use(text)
            elif item.sort == "type":
                reader = Reader(self.text, item.at, item.end)
                while reader.peek() in ("abbrev", "unfoldable", "pub"):
                    reader.take()
                name = reader.take().text
                last = self.definitions[name] = Definition(self, name, item.parameters, item.inside)
                reader.take(":")
                last.is_row = not re.match(r"abbrev|unfoldable|pub", text)
                last.type_at = (reader.start(), item.end)
            elif item.sort == "clause" and last is not None and text.split()[0] == last.name:
                last.spans.append((item.at, item.end))
            elif item.sort == "data":
                self.data(text)
            elif item.sort == "record":
                self.record(text)
            elif item.sort == "parameters":
                self.module_head(text)

    def module_head(self, text):
        for names, kind in re.findall(r"\(([^:()]+) : (.*?)\)(?= \(| where)", text):
            for name in names.split():
                self.parameter_types[name] = kind

    def use(self, text):
        it = re.fullmatch(r"(pub )?(use|mod) ([^\s{]+?)(?:\.\{(.*)\}| as (\S+))?", text, re.S)
        if not it or it[2] == "mod":
            return
        if it[4] is None:
            self.scope[it[5] or it[3].rpartition(".")[2]] = Alias(it[3])
            return
        for part in it[4].split(","):
            name, _, own = part.strip().partition(" as ")
            self.scope[own or name] = (it[3], name)
            if it[1]:
                self.passed[own or name] = (it[3], name)

    def data(self, text):
        name = re.match(r"pub data (\w+)", text)[1]
        for own, kind in re.findall(r"^ +(\w+) : (.*)$", text, re.M):
            self.types.setdefault(name, {})[own] = kind

    def record(self, text):
        head = text[: text.index(" where")]
        name = re.match(r"pub record (\S+)", text)[1]
        fields = re.findall(r"^ +pub (\w+) : ((?:.|\n {4,})*)$", text, re.M)
        self.records[name] = (re.findall(r"\(([^:()]+) : ", head), fields)


class Program:
    """All files of definitions that some names lead to, read as they are asked for."""

    def __init__(self, top):
        self.top, self.modules, self.codes, self.files = top, {}, {}, {}

    def module(self, name):
        if name not in self.modules:
            parts = name.split(".")
            self.modules[name] = Module(self, name, f"{self.top}/crates/{parts[1]}/{'/'.join(parts[2:])}.antt")
        return self.modules[name]

    def path_of(self, name):
        parts = name.split(".")
        return f"{self.top}/crates/{parts[1]}/{'/'.join(parts[2:])}.antt" if len(parts) > 2 else ""

    # ---- what stands in code: constants, and the variants of enums

    def code(self, crate, file):
        if (crate, file) not in self.codes:
            with open(f"{self.top}/crates/{crate}/src/{file}.rt", encoding="utf-8") as it:
                self.codes[crate, file] = re.sub(r"^\s*(?://|#\[).*\n", "", it.read(), flags=re.M)
        return self.codes[crate, file]

    def constant(self, crate, file, name):
        text = self.code(crate, file)
        it = re.search(rf"^pub const {name}: \w+ = ([\d_]+);", text, re.M)
        if it:
            return Constant(int(it[1].replace("_", "")))
        it = re.search(rf"^pub const {name}: \[char; \d+\] = \[(.*?)\];", text, re.M | re.S)
        return Constant(tuple(ord(letter) for letter in re.findall(r"'(.)'", it[1])))

    @functools.lru_cache(maxsize=None)
    def variants(self, crate, file, name):
        """The variants of an enum of the code, each with the types of its parts."""
        it = re.search(rf"^pub enum {name} \{{\n(.*?)^\}}", self.code(crate, file), re.M | re.S)
        found = {}
        for own, fields, parts in re.findall(r"^    (\w+)(?: \{([^}]*)\}|\(([^)]*)\))?,?$", it[1], re.M | re.S):
            texts = re.findall(r"\w+: ((?:[^,<>]|<[^>]*>)+)", fields) if fields else [part for part in parts.split(",") if part.strip()]
            found[own] = tuple(rust_type(text) for text in texts)
        return found

    @functools.lru_cache(maxsize=None)
    def fields(self, crate, file, name):
        """The fields of a struct of the code, with their types."""
        it = re.search(rf"^pub struct {name} \{{\n(.*?)^\}}", self.code(crate, file), re.M | re.S)
        return {own: rust_type(text) for own, text in re.findall(r"^    pub (\w+): (.*?),$", it[1], re.M)} if it else None

    # ---- names

    def in_module(self, module, name):
        """What a name of a module means to others."""
        parts = module.split(".")
        if module.startswith("Rattle.std") or parts[0] in ("Prim", "lib") or parts[1] not in self.crates():
            return Word(name)
        if "declared" in parts:
            at = parts.index("declared")
            crate, file, owner = parts[1], parts[at + 1], parts[at + 2]
            if owner == "TheConstants":
                return self.constant(crate, file, name)
            return Constructor((crate, file, owner), name) if parts[-1] == "TheVariants" else Word(name)
        if not os.path.isfile(self.path_of(module)):  # a data type as a module of its constructors
            module, _, owner = module.rpartition(".")
            return Constructor((self.module(module).name, owner), name)
        return self.own(self.module(module), name)

    @functools.lru_cache(maxsize=None)
    def crates(self):
        return os.listdir(f"{self.top}/crates")

    def own(self, module, name):
        """What a name that a module declares or passes on means."""
        if name in module.definitions:
            return Defined(module.name, name)
        for owner, variants in module.types.items():
            if name in variants:
                return Constructor((module.name, owner), name)
        if name in module.passed:
            return self.in_module(*module.passed[name])
        return Word(name)

    def meaning(self, module, name):
        """What a name means in a module; None where it means nothing there, as a variable does."""
        if "." in name:
            head, _, rest = name.partition(".")
            alias = module.scope.get(head)
            return self.in_module(alias.module, rest) if isinstance(alias, Alias) else None
        if name in module.definitions or any(name in it for it in module.types.values()):
            return self.own(module, name)
        it = module.scope.get(name)
        if isinstance(it, tuple) and not isinstance(it, Alias):
            return self.in_module(*it)
        return None

    def definition(self, key):
        return self.module(key.module).definitions[key.name]

    # ---- types

    def type_of_node(self, module, node):
        """The type that a node writes: a tuple; one with arrows is ("fn", the types of what it takes, what it
        gives)."""
        node = bare(node)
        if node.sort == "arrow":
            taken, given = [], node
            while given.sort == "arrow":
                left = bare(given.parts[0])
                if left.sort == "named" and not (left.parts[1].sort == "app" and left.parts[1].parts[0].parts == ("Type",)):
                    taken += [self.type_of_node(module, left.parts[1])] * len(left.parts[0])
                elif left.sort != "named":
                    taken.append(self.type_of_node(module, left))
                given = bare(given.parts[1])
            return ("fn", tuple(taken), self.type_of_node(module, given))
        if node.sort == "op" and node.parts[0] == "×":
            right = self.type_of_node(module, node.parts[2])
            return ("×", self.type_of_node(module, node.parts[1]), *(right[1:] if right[0] == "×" else (right,)))
        if node.sort == "app":
            head = node.parts[0].parts[0] if node.parts[0].sort == "name" else "?"
            return (head, *(self.type_of_node(module, it) for it in node.parts[1] if it.sort != "number"))
        if node.sort == "name":
            return self.named_type(module, node.parts[0])
        return ("?",)

    def named_type(self, module, name):
        meant = self.meaning(module, name)
        if isinstance(meant, Defined):
            it = self.definition(meant)
            if len(it.spans) == 1 and not it.clauses[0].patterns and it.clauses[0].body.sort in ("name", "app", "op"):
                return self.type_of_node(it.module, it.clauses[0].body)
        return (name,)

    def type_of(self, key):
        """The type of a definition, with the parameters of its module before the others."""
        it = self.definition(key)
        if it.type is None:
            reader = Reader(it.module.text, *it.type_at)
            kind = self.type_of_node(it.module, reader.expression())
            if not reader.ended():
                raise Unread(f"{key}: {reader.peek()!r} is left of its type")
            before = tuple(self.type_of_text(it.module, it.module.parameter_types[name]) for name in it.parameters)
            if before:
                kind = ("fn", before + kind[1], kind[2]) if kind[0] == "fn" else ("fn", before, kind)
            it.type = kind
        return it.type

    def type_of_text(self, module, text):
        return self.type_of_node(module, Reader(text).expression())

    def parts_of(self, constructor):
        """The types of a constructor's parts."""
        if len(constructor.type) == 3:
            return self.variants(*constructor.type)[constructor.name]
        module = self.module(constructor.type[0])
        kind = self.type_of_text(module, module.types[constructor.type[1]][constructor.name])
        return kind[1] if kind[0] == "fn" else ()

    def record_fields(self, module, name):
        """The fields of a record that is known under this name in any file read so far, or in the code that a file
        names."""
        for it in [module, *self.modules.values()]:
            if name in it.records:
                return {own: self.type_of_text(it, re.sub(r"\s+", " ", text)) for own, text in it.records[name][1]}
        for it in [module, *self.modules.values()]:
            where = it.scope.get(name)
            if isinstance(where, tuple) and not isinstance(where, Alias) and ".declared." in where[0]:
                parts = where[0].split(".")
                return self.fields(parts[1], parts[4], name)
        return None

    def computes(self, key):
        """Whether a definition gives a value, and no statement."""
        try:
            kind = self.type_of(key)
        except Unread:
            return False
        given = kind[2] if kind[0] == "fn" else kind
        return given[0] not in ("Type", "?") and not self.definition(key).is_row

    # ---- what a definition uses

    def uses(self, key):
        """The definitions that one names."""
        it = self.definition(key)
        return {meant for clause in it.clauses for meant in self.named_in(it.module, clause.body) if isinstance(meant, Defined)}

    def named_in(self, module, node):
        if node.sort == "name":
            meant = self.meaning(module, node.parts[0])
            return {meant} if meant is not None else set()
        return set().union(*(self.named_in(module, it) for it in children(node)))

    def reached(self, keys):
        """All definitions to which some lead, these among them."""
        found, left = set(), list(keys)
        while left:
            key = left.pop()
            if key not in found:
                found.add(key)
                left += self.uses(key)
        return found

