"""Works out what definitions give: each is made a function of Python, which keeps what it gave.

A definition can be given another text of one clause. Then it and all that lead to it forget what they gave.
"""

import keyword
import re
import sys

from lib.antt import values
from lib.antt.program import Constant, Constructor, Defined, Word
from lib.antt.reading import Unread, bare

OPERATORS = {"+": "({0} + {1})", "*": "({0} * {1})", "-": "monus({0}, {1})", "/": "quotient({0}, {1})", "%": "remainder({0}, {1})", "^": "({0} ** {1})", "==": "({0} == {1})",
             "&&": "({0} and {1})", "||": "({0} or {1})", "∷": "cons({0}, {1})", "++": "append({0}, {1})", "<": "({0} < {1})", "≤": "({0} <= {1})"}
BOOLEANS = {"true": "True", "false": "False"}


def monus(m, n):
    return m - n if m > n else 0


def quotient(m, n):
    return m // n if n else 0


def remainder(m, n):
    return m % n if n else m


def tag_of(constructor):
    return f"{constructor.type[-1]}.{constructor.name}"


def python_name(name):
    plain = re.sub(r"\W", "_", name)
    return f"{plain}_" if keyword.iskeyword(plain) or plain == "names" else plain


class Making:
    """Makes one definition a function of Python."""

    def __init__(self, running, definition):
        self.running, self.program, self.definition, self.module = running, running.program, definition, definition.module
        self.count = 0

    def fresh(self):
        self.count += 1
        return f"v{self.count}"

    def source(self, name, clauses):
        arity = len(clauses[0].patterns)
        params = [f"p_{python_name(it)}" for it in self.definition.parameters]
        given = [f"a{at}" for at in range(arity)]
        taken = [*params, *given]
        lines = [f"def {name}({', '.join(taken)}):"]
        if taken:
            lines += [f"    key = ({', '.join(taken)},)", f"    found = memo_{name}.get(key)", "    if found is not None: return found"]
        else:
            lines += [f"    found = memo_{name}.get(())", "    if found is not None: return found", "    key = ()"]
        module_names = dict(zip(self.definition.parameters, params))
        for clause in clauses:
            tests, names = [], dict(module_names)
            for at, pattern in enumerate(clause.patterns):
                self.match(pattern, f"a{at}", tests, names)
            body = self.term(clause.body, names)
            lines += [f"    if {' and '.join(tests) or 'True'}:", f"        found = {body}", f"        memo_{name}[key] = found", "        return found"]
        return "\n".join([*lines, f"    stuck({name!r})", ""])

    # ---- patterns

    def match(self, pattern, path, tests, names):
        """The tests of a pattern at a place, and what its names stand for."""
        pattern = bare(pattern)
        if pattern.sort == "op":
            tests.append(f"{path} is not NIL")
            self.match(pattern.parts[1], f"{path}.head", tests, names)
            self.match(pattern.parts[2], f"{path}.tail", tests, names)
            return
        head, parts = (pattern.parts[0].parts[0], pattern.parts[1]) if pattern.sort == "app" else (pattern.parts[0], ())
        if head in ("_",):
            return
        if head == "[]":
            tests.append(f"{path} is NIL")
        elif head in BOOLEANS:
            tests.append(path if head == "true" else f"not {path}")
        elif head == "zero":
            tests.append(f"{path} == 0")
        elif head == "suc":
            tests.append(f"{path} != 0")
            self.match(parts[0], f"({path} - 1)", tests, names)
        else:
            self.constructor(head, parts, path, tests, names)

    def constructor(self, head, parts, path, tests, names):
        meant = self.program.meaning(self.module, head)
        if isinstance(meant, Word) and head in ("Some", "None"):
            meant = Constructor(("Option",), head)
        if not isinstance(meant, Constructor):
            if parts:
                raise Unread(f"{head} is no constructor")
            names[head] = path
            return
        tests.append(f"{path}.tag == {tag_of(meant)!r}")
        for at, part in enumerate(parts):
            self.match(part, f"{path}.args[{at}]", tests, names)

    # ---- terms

    def term(self, node, names):
        return getattr(self, f"make_{node.sort}")(node, names)

    def make_paren(self, node, names):
        return self.term(node.parts[0], names)

    def make_number(self, node, names):
        return str(node.parts[0])

    def make_string(self, node, names):
        return node.parts[0]

    def make_tuple(self, node, names):
        return f"({', '.join(self.term(it, names) for it in node.parts)},)"

    def make_if(self, node, names):
        condition, chosen, other = (self.term(it, names) for it in node.parts)
        return f"({chosen} if {condition} else {other})"

    def make_op(self, node, names):
        sign, left, right = node.parts
        return OPERATORS[sign].format(self.term(left, names), self.term(right, names))

    def make_let(self, node, names):
        name, value, body = node.parts
        it = self.fresh()
        return f"(({it} := {self.term(value, names)}), {self.term(body, {**names, name: it})})[1]"

    def make_elim(self, node, names):
        value, cases = node.parts
        it = self.fresh()
        made = f"stuck({self.definition.name!r})"
        for pattern, body in reversed(cases):
            tests, own = [], dict(names)
            self.match(pattern, it, tests, own)
            made = f"({self.term(body, own)} if {' and '.join(tests) or 'True'} else {made})"
        return f"(({it} := {self.term(value, names)}), {made})[1]"

    def make_lam(self, node, names):
        given, own, taken = node.parts[0], dict(names), []
        for name in given:
            taken.append(self.fresh())
            own[name] = taken[-1]
        return f"Fn({len(given)}, lambda {', '.join(taken)}: {self.term(node.parts[1], own)})"

    def make_record(self, node, names):
        base, fields = node.parts
        if base is not None:
            return f"updated({self.term(base, names)}, {', '.join(f'{python_name(name)}={self.term(it, names)}' for name, it in fields)})"
        made = sorted((python_name(name), self.term(it, names)) for name, it in fields)
        return f"record({tuple(name for name, _ in made)!r}, {', '.join(it for _, it in made)})"

    def make_field(self, node, names):
        value, name = node.parts
        made = self.term(value, names)
        return f"{made}[{name}]" if name.isdecimal() else f"{made}.{python_name(name)}"

    def make_name(self, node, names):
        return self.applied(node, (), names)

    def make_app(self, node, names):
        return self.applied(node.parts[0], node.parts[1], names)

    def applied(self, head, arguments, names):
        """A head with its arguments."""
        args = [self.term(it, names) for it in arguments]
        head = bare(head)
        if head.sort != "name":
            return self.run(self.term(head, names), args)
        text = head.parts[0]
        local, _, fields = text.partition(".")
        if local in names:
            made = names[local] + "".join(f"[{it}]" if it.isdecimal() else f".{python_name(it)}" for it in fields.split(".") if it)
            return self.run(made, args)
        if text in BOOLEANS:
            return BOOLEANS[text]
        return self.global_name(text, args, names)

    def global_name(self, text, args, names):
        meant = self.program.meaning(self.module, text)
        if text == "[]":
            return "NIL"
        if text == "zero":
            return "0"
        if text == "suc":
            return f"({args[0]} + 1)" if args else "SUC"
        if text in ("Some", "None") and isinstance(meant, Word):
            return f"some({args[0]})" if args else "NONE" if text == "None" else "SOME"
        if isinstance(meant, Constructor):
            return self.call(f"con_{python_name(tag_of(meant))}", len(self.program.parts_of(meant)), args, self.running.use_constructor(meant))
        if isinstance(meant, Constant):
            return repr(meant.value) if isinstance(meant.value, int) else f"listed({meant.value!r})"
        if isinstance(meant, Defined):
            return self.defined(meant, args, names)
        word = meant.name if isinstance(meant, Word) else text if meant is None else ""  # a change may say one that its file has to import
        if word in values.WORDS:
            return self.call(f"word_{word}", values.WORDS[word][0], args, f"word_{word}")
        if "." in text and meant is None:
            head, _, fields = text.partition(".")
            made = self.global_name(head, [], names) + "".join(f".{python_name(it)}" for it in fields.split("."))
            return self.run(made, args)
        raise Unread(f"{self.definition.name}: {text} means nothing")

    def defined(self, key, args, names):
        """A definition, with the parameters of its module where it stands in the same one."""
        other = self.program.definition(key)
        is_beside = other.module is self.module and other.inside == self.definition.inside[: len(other.inside)]
        before = [names[it] for it in other.parameters] if is_beside else []
        arity = len(other.parameters) + len(other.clauses[0].patterns)
        return self.call(self.running.name_of(key), arity, [*before, *args], key)

    def call(self, name, arity, args, key):
        if len(args) == arity:
            return f"{name}({', '.join(args)})"
        if len(args) < arity:
            return f"partial({name!r}, {arity - len(args)}, {self.code(name)}{''.join(f', {it}' for it in args)})"
        return self.run(f"{name}({', '.join(args[:arity])})", args[arity:])

    def code(self, name):
        return f"lambda *args: {name}(*args)" if name.startswith("def_") else name

    def run(self, made, args):
        return f"ap({', '.join([made, *args])})" if args else made


class Running:
    """The definitions as functions, each made as it is asked for."""

    def __init__(self, program):
        self.program, self.names, self.users, self.given = program, {}, {}, None
        self.space = {name: getattr(values, name) for name in ("cons", "con", "record", "updated", "partial", "ap", "stuck", "NIL", "NONE", "some", "append", "listed", "Fn")}
        self.space |= {"monus": monus, "quotient": quotient, "remainder": remainder, "SOME": values.Fn(1, values.some), "SUC": values.Fn(1, lambda it: it + 1)}
        self.space |= {f"word_{name}": work for name, (_, work) in values.WORDS.items()}
        self.made = set()

    def use_constructor(self, constructor):
        tag = tag_of(constructor)
        name = f"con_{python_name(tag)}"
        if name not in self.space:
            self.space[name] = lambda *args: values.con(tag, *args)
        return name

    def name_of(self, key):
        """The function of a definition."""
        if key not in self.names:
            self.names[key] = f"def_{key.module.split('.', 1)[1].replace('.', '_')}_{python_name(key.name)}"
            self.space[f"memo_{self.names[key]}"] = {}
            self.make(key, self.program.definition(key).clauses)
        return self.names[key]

    def make(self, key, clauses):
        it = self.program.definition(key)
        source = Making(self, it).source(self.names[key], clauses)
        exec(compile(source, f"<{key.name}>", "exec"), self.space)
        for used in self.program.uses(key):
            self.users.setdefault(used, set()).add(key)

    def takes_functions(self, key):
        """Whether a definition is given functions, by themselves or in a record: then what it gave may hang on one
        that it doesn't name."""
        kind = self.program.type_of(key)
        module = self.program.definition(key).module
        return kind[0] == "fn" and any(self.holds_function(module, it) for it in kind[1])

    def holds_function(self, module, kind):
        if kind[0] == "fn":
            return True
        fields = self.program.record_fields(module, kind[0]) if len(kind) == 1 else None
        return any(self.holds_function(module, it) for it in (fields or {}).values()) or any(self.holds_function(module, it) for it in kind[1:])

    def change(self, key, clauses):
        """Gives a definition other clauses; it, all that lead to it and all that are given functions forget what they
        gave."""
        name = self.names[key]
        exec(compile(Making(self, self.program.definition(key)).source(name, clauses), f"<{key.name}>", "exec"), self.space)
        if self.given is None:
            self.given = {it for it in self.names if self.takes_functions(it)}
        left, seen = [key, *self.given], set()
        while left:
            it = left.pop()
            if it not in seen:
                seen.add(it)
                left += self.users.get(it, ())
        for it in seen:
            self.space[f"memo_{self.names[it]}"] = {}
        return seen

    def compiled(self, module, node, names=()):
        """A term of a module, in which some names are given, as code."""
        source = Making(self, Scope(module)).term(node, {name: f"given_{name}" for name in names})
        return compile(f"lambda {', '.join(f'given_{name}' for name in names)}: {source}", "<term>", "eval")

    def run(self, code, given=None):
        """What such code gives."""
        return eval(code, self.space)(*(given or {}).values())

    def value(self, module, node):
        """What a term gives in a module."""
        return self.run(self.compiled(module, node))

    def call(self, key, *args):
        return self.space[self.name_of(key)](*args)


    def used(self):
        """The definitions that gave something since they forgot."""
        return {key for key, name in self.names.items() if self.space[f"memo_{name}"]}

    def forget(self):
        """Every definition of the crate `model` forgets what it gave."""
        for key, name in self.names.items():
            if key.module.startswith("Rattle.model."):
                self.space[f"memo_{name}"] = {}


class Scope:
    """A place in a module where a term stands that no definition has."""

    def __init__(self, module):
        self.module, self.name, self.parameters, self.inside = module, "a term", (), ()


sys.setrecursionlimit(1_000_000)
