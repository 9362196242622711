"""The worked rows: equations between terms, whose two sides are worked out and compared."""

import glob
import os

from lib.antt.reading import Reader, bare


class Row:
    """One worked row: its name, its file, and its equations."""

    def __init__(self, program, module, name, node):
        self.module, self.name, self.made = module, name, None
        self.file = os.path.relpath(module.path, f"{program.top}/crates")
        node = bare(node)
        if node.sort == "op" and node.parts[0] == "≡":
            self.sides, self.given = (node.parts[1], node.parts[2]), {}
            self.owner = module
        else:
            self.from_record(program, module, node)

    def from_record(self, program, module, node):
        """`Gives ground requests texts`: the equation that the record has as its field, with these for its
        parameters."""
        owner, name = module.scope[node.parts[0].parts[0]] if node.parts[0].parts[0] in module.scope else (module.name, node.parts[0].parts[0])
        self.owner = program.module(owner)
        named, fields = self.owner.records[name]
        names = [it for group in named for it in group.split()]
        self.given = dict(zip(names, node.parts[1]))
        equation = bare(Reader(fields[0][1]).expression())
        self.sides = (equation.parts[1], equation.parts[2])

    def both(self, running):
        """What the two sides give."""
        if self.made is None:
            self.made = {name: running.compiled(self.module, it) for name, it in self.given.items()}, [running.compiled(self.owner, side, self.given) for side in self.sides]
        given = {name: running.run(it) for name, it in self.made[0].items()}
        return tuple(running.run(it, given) for it in self.made[1])

    def __str__(self):
        return f"{self.file}: {self.name}"


# Where rows stand.
FILES = ("model/proofs/Rows*", "terms/proofs/Examples", "calendar/proofs/Examples", "finding/proofs/Examples", "clerks/proofs/Examples")


def rows(program):
    """The rows of all files of rows."""
    found = []
    for pattern in FILES:
        for path in sorted(glob.glob(f"{program.top}/crates/{pattern}.antt")):
            name = os.path.relpath(path, f"{program.top}/crates").removesuffix(".antt").replace("/", ".")
            found += rows_of(program, program.module(f"Rattle.{name}"))
    return found


def rows_of(program, module):
    """The rows of one file."""
    named = ((it.name, module.text[slice(*it.type_at)], it.type_at) for it in module.definitions.values() if it.is_row)
    return [Row(program, module, name, Reader(module.text, *at).expression()) for name, text, at in named if not text.startswith("{")]
