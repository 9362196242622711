"""Random histories over the definitions, beside the rules in plain Python: what each request is answered, the tables
after them all, pages and reports."""

import random

from lib.antt.program import Defined, Module
from lib.antt.reading import Reader
from lib.antt.values import ap, con, items, listed, record
from lib.random_histories import as_term, lived
from reference.desk_rules import EPOCH, number

SEED, HISTORIES = 76, 48
IMPORTS = """
use Rattle.std.specs.Prelude.{[], ◌∷◌, true, false, Some, None, codes}
use Rattle.std.specs.Str.{encode_utf8_all}
use Rattle.terms.specs.declared.command.Command.TheVariants.{SetCardKey, AmendPatron, AmendBranch, AmendTitle, AmendCopy, Rehome}
use Rattle.terms.specs.declared.command.Command.TheVariants.{CopyBarcode, PatronBarcode, DropBarcode, Charge, PayAt}
use Rattle.terms.specs.declared.command.Command.TheVariants.{BeginDay, Branch, Week, CloseDay, OpenDay, Kind, Rule, Grace, Patron, Acquire, CheckOut, CheckIn, Renew}
use Rattle.terms.specs.declared.command.Command.TheVariants.{PlaceHold, CancelHold, Unshelve, UnshelveCancelled, Missing, Withdraw, Pay, Waive, Ask}
use Rattle.terms.specs.declared.question.Question.TheVariants as question
use Rattle.model.proofs.Rows.{by_desk, closed_in, ground}
"""
REQUESTS, PICTURE = "Rattle.model.specs.Requests", Defined("Rattle.model.specs.Picture", "picture")
REPORTS = {name: Defined("Rattle.model.specs.Reports", name) for name in ("overdue", "shelf", "till")}
# The columns of each table, in the order in which the rules give them; the first are its keys. A column that has a
# sort of its own, or may be absent, is named with it.
TABLES = {
    "kinds": ("kinds", ("kind",), ("loans", "holds", "debt")),
    "rules3": ("rules", ("kind", "copy_kind"), ("period", "renewals", "rate", "cap", "grace")),
    "patrons": ("patrons", ("patron",), ("kind", "card_key", "name", "owed")),
    "titles": ("titles", ("title",), ("text",)),
    "copies": ("copies", ("copy",), ("title", "kind", "home", "price", "condition")),
    "loans3": ("loans", ("loan",), ("copy", "patron", "branch", "made", "due", "period", "renewals_left", "rate", "cap", "ended", "grace")),
    "holds2": ("holds", ("hold",), ("patron", "title", "branch", "state", "copy", "limit_day", "first_day")),
    "transits": ("transits", ("copy",), ("goal", "hold")),
    "lines": ("lines", ("line",), ("patron", "day", "sort", "amount", "loan")),
}
SORTS = {
    ("copies", "condition"): "Condition Present Missing Withdrawn", ("holds2", "state"): "HoldState Waiting Ready Filled Cancelled Expired", ("lines", "sort"): "Sort Fine Price Payment Waiver Charge",
}
OPTIONAL = {("loans3", "ended"), ("holds2", "copy"), ("holds2", "limit_day"), ("holds2", "first_day"), ("transits", "hold"), ("lines", "loan")}
BRANCHES, KINDS, PATRONS, COPIES, TITLES = (1, 2, 3, 9), (1, 2, 3), (1, 2, 3, 4, 9), (10, 11, 12, 20, 21, 30), (100, 200, 300, 301)


def texted(text):
    return listed(list(text.encode("utf-8")))


class History:
    """One random history: what the definitions show of it, and what the rules do."""

    def __init__(self, program, at, rng):
        self.name, self.code = f"history {at}", None
        asked, self.library = lived(rng, at % 4 == 0)
        self.answers = [texted(answer) for _, answer in asked]
        terms = "".join(f'by_desk (codes "{self.key(place)}") ({as_term(words)}) ∷ ' for place, (words, _) in enumerate(asked))
        self.module = Module(program, "Rattle.model.proofs.RandomHistories", "", IMPORTS)
        self.node = Reader(f"{terms}[]").expression()

    def key(self, place):
        return f"k{place}"

    def __str__(self):
        return self.name

    def both(self, running):
        self.code = self.code or running.compiled(self.module, self.node)
        ground = running.call(Defined("Rattle.model.proofs.Rows", "ground"))
        requests = running.run(self.code)
        replies = running.call(Defined(REQUESTS, "replies"), ground, requests)
        texts = [running.call(Defined("Rattle.terms.specs.Texts", "reply_text"), it) for it in items(replies)]
        yield from zip(texts, self.answers)
        after = running.call(Defined(REQUESTS, "after"), ground, requests)
        yield from self.tables(running.call(PICTURE, after))
        yield from self.shown(running, after)

    # ---- pages and reports

    def shown(self, running, after):
        page = Defined("Rattle.model.specs.Pages", "page")
        for patron in PATRONS[:3]:
            yield running.call(page, after, patron), texted(self.library.do_page(patron))
        for branch in BRANCHES[:2]:
            yield running.call(REPORTS["overdue"], after, branch), texted(self.library.overdue(branch))
            yield running.call(REPORTS["shelf"], after, branch), texted(self.library.shelf(branch))
        for day in {line["day"] for line in self.library.lines} | {self.library.today}:
            yield running.call(REPORTS["till"], after, (day - EPOCH).days), texted(self.library.till(day))

    # ---- tables

    def tables(self, picture):
        rows = self.library.tables()
        meta = picture.meta
        yield (meta.schema, meta.today, meta.next_loan, meta.next_hold, meta.next_line), rows["meta"][0][1:]
        for name, (field, keys, columns) in TABLES.items():
            wanted = {row[: len(keys)]: row[len(keys) :] for row in rows[name]}
            for key in self.keys(name) | set(wanted):
                yield self.row(picture, field, key), self.wanted(name, keys, columns, key, wanted.get(key))
        yield from self.branches(picture, rows)
        yield from self.labels(picture, rows)
        yield from self.older(picture)

    def keys(self, name):
        count = {"loans3": len(self.library.loans), "holds2": len(self.library.holds), "lines": len(self.library.lines)}
        if name in count:
            return {(it,) for it in range(count[name] + 3)}
        if name == "rules3":
            return {(one, other) for one in KINDS for other in KINDS}
        return {(it,) for it in {"kinds": KINDS, "patrons": PATRONS, "titles": TITLES}.get(name, COPIES)}

    def row(self, picture, field, key):
        return ap(getattr(picture, field), *key)

    def wanted(self, name, keys, columns, key, row):
        """The row of the rules as the definitions would give it."""
        if row is None:
            return con("Option.None")
        values = dict(zip(keys, key)) | {column: self.value(name, column, it) for column, it in zip(columns, row)}
        names = tuple(sorted(values))
        return con("Option.Some", record(names, *(values[it] for it in names)))

    def value(self, name, column, value):
        if (name, column) in SORTS:
            owner, *variants = SORTS[name, column].split()
            return con(f"{owner}.{variants[value]}")
        if (name, column) in OPTIONAL:
            return con("Option.None") if value is None else con("Option.Some", value)
        return texted(value) if isinstance(value, str) else value

    def branches(self, picture, rows):
        wanted = {row[0]: row for row in rows["branches"]}
        names = ("branch", "name", "pickup", "week")
        for branch in BRANCHES:
            row, none = wanted.get(branch), con("Option.None")
            made = none if row is None else con("Option.Some", record(names, branch, texted(row[3]), row[1], listed([letter == "c" for letter in row[2]])))
            yield ap(picture.branches, branch), made
            for day in range(number(self.library.today) - 3, number(self.library.today) + 12):
                yield ap(picture.closed_days, branch, day), (branch, day) in set(rows["closed_days"])

    def labels(self, picture, rows):
        """Barcodes, and the notes of lines."""
        none, things = con("Option.None"), {row[:2]: row[2] for row in rows["barcodes"]}
        for sort, variant, numbers in ((0, "Patron", PATRONS), (1, "Copy", COPIES)):
            for it in numbers:
                thing, barcode = con(f"Thing.{variant}", it), things.get((sort, it))
                row = None if barcode is None else record(("barcode", "thing"), texted(barcode), thing)
                yield ap(picture.barcodes, thing), none if row is None else con("Option.Some", row)
        notes = {row[0]: row for row in rows["notes"]}
        for line in range(len(self.library.lines) + 3):
            made = none
            if line in notes:
                _, branch, text = notes[line]
                told = none if text is None else con("Option.Some", texted(text))
                made = con("Option.Some", record(("branch", "line", "text"), branch, line, told))
            yield ap(picture.notes, line), made

    def older(self, picture):
        """The tables of older schemas are empty."""
        none = con("Option.None")
        yield ap(picture.loans1, 1), none
        yield ap(picture.holds1, 1), none
        yield ap(picture.rules1, 1, 1), none


def histories(program):
    """Random histories, always the same ones."""
    rng = random.Random(SEED)
    return [History(program, at, rng) for at in range(HISTORIES)]
