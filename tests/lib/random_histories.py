"""Random requests of the desk, what the rules in plain Python answer them, and both as the definitions write them."""

import datetime
import re
import sys

from reference.desk_rules import ENDS_WITH_TEXT, EPOCH, QUESTIONS, Library, number

REQUESTS = 25
QUESTIONED = 2  # in a history with questions one comes after each second request
# Questions that are shown something wherever they aren't refused.
ALWAYS_SHOWN = ("copy", "till", "today", "borrower", "find-barcode", "till-at")
# The small library of the definitions' worked examples.
FOUNDING = [
    ["begin-day", "2026-03-02"], ["branch", "1", "5", "Main"], ["branch", "2", "3", "Harbour"], ["week", "1", "ooooooc"], ["week", "2", "coooooc"],
    ["kind", "1", "5", "5", "500"], ["rule", "1", "1", "6", "1", "20", "100"], ["rule", "1", "2", "12", "1", "20", "100"],
    ["patron", "1", "1", "cardkey00001", "Ann Bell"], ["patron", "2", "1", "cardkey00002", "Bo Carr"], ["patron", "3", "1", "cardkey00003", "Cy Dunn"],
    ["acquire", "10", "100", "1", "1", "2500", "Rivers of the North"], ["acquire", "11", "100", "1", "1", "2500", "Rivers of the North"],
    ["acquire", "20", "200", "1", "2", "1200", "Salt Roads"], ["acquire", "30", "300", "2", "1", "800", "Night Ferries"],
]


def text_of(word):
    """A text as the definitions write it."""
    return f'(codes "{word}")' if word.isascii() else f'(encode_utf8_all (codes "{word}"))'


def named(name):
    """The variant for a word."""
    return "".join(part.capitalize() for part in name.split("-"))


def as_term(words):
    """A command as the definitions write it: a variant, and its parts. A question is one of the command `Ask`."""
    name, parts = words[0], [word if word.isdecimal() else text_of(word) for word in words[1:]]
    if name in ENDS_WITH_TEXT:
        parts[-1] = text_of(words[-1])
    for at, word in enumerate(words[1:]):
        if re.fullmatch(r"\d{4}-\d{2}-\d{2}", word):
            parts[at] = str((datetime.date.fromisoformat(word) - EPOCH).days)
    if name in QUESTIONS:
        return f"Ask {' '.join(['(question.' + named(name), *parts]) + ')' if parts else 'question.' + named(name)}"
    if name == "week":
        parts[1] = f'(closed_in "{words[2]}")'
    if name == "card-key":
        name = "set-card-key"
    if name == "place-hold":
        parts.append("None")
    if name == "place-hold-from":
        name, parts[3] = "place-hold", f"(Some {parts[3]})"
    return " ".join([named(name), *parts])


class Clerk:
    """Who makes up what is asked, with numbers that mostly mean something."""

    def __init__(self, rng, library):
        self.rng, self.library = rng, library

    def one(self, *numbers):
        return str(self.rng.choice(numbers))

    def among(self, rows):
        return str(self.rng.randint(1, max(1, len(rows))))

    def day(self, *later):
        return str(self.library.today + datetime.timedelta(self.rng.choice(later)))

    def end_of_a_loan(self):
        """What ends an open loan late: a day soon after the one on which it is due and, from then on, its copy; None
        where there is none."""
        lent = [loan for loan in self.library.loans.values() if loan["ended"] is None]
        if not lent:
            return None
        loan = self.rng.choice(lent)
        if self.library.today <= loan["due"]:
            return ["begin-day", str(loan["due"] + datetime.timedelta(self.rng.choice((1, 2, 3, 4, 6))))]
        return ["missing", str(loan["copy"])] if self.rng.random() < 0.2 else ["check-in", str(loan["copy"]), self.one(1, 2)]

    def barcode(self):
        """A barcode, mostly one that something has. Case counts, and leading zeros."""
        there = sorted(self.library.barcodes.values())
        return self.one(*(there if there and self.rng.random() < 0.6 else ("a1", "A1", "01", "1", "30000100000010")))

    def label_or_charge(self):
        """A request about a barcode, or one that is made at a counter."""
        one, barcode, library = self.one, self.barcode(), self.library
        owing = [it for it in library.patrons if library.owed(it)] or [1]
        there = sorted(library.barcodes.values()) or [barcode]
        return self.rng.choice([
            ["copy-barcode", one(10, 11, 20, 99), barcode], ["patron-barcode", one(1, 2, 3, 9), barcode],
            ["drop-barcode", one(barcode, *there)],
            ["charge", one(1, 2, 3), one(0, 30, 250, 600), one(1, 2), one("Photocopies", "7")],
            ["charge", one(1, 2, 9), one(30, 1_000_001), one(1, 9), "Lost card"],
            ["pay-at", one(*owing), one(10, 10, 30, 600), one(1, 2)], ["pay-at", one(*owing), "10", "1"],
            ["pay-at", one(1, 9), one(0, 10), one(1, 9)],
        ])

    def question(self):
        """A question, which mostly is shown rows."""
        late = [branch for branch in (1, 2) if self.library.overdue_rows(branch)]
        if late and self.rng.random() < 0.4:
            return ["overdue", self.one(*late), "0"]
        closing = [branch for branch, days in self.library.closed.items() if any(day > self.library.today for day in days)]
        if closing and self.rng.random() < 0.2:
            return ["closed-days", self.one(*closing), self.after_day()]
        for _ in range(4):
            words = self.any_question()
            if has_rows(words, self.library.handle("", words)):
                break
        return words

    def after_day(self):
        """A number from which a list of days goes on."""
        return self.one(0, 0, *(number(self.library.today) + days for days in (0, 1, 5)))

    def any_question(self):
        one, patron, branch, after = self.one, self.one(1, 2, 3), self.one(1, 1, 2, 2, 9), self.one(0, 0, 0, 1, 2, 10)
        title = one(100, 100, 100, 200, 300)
        return self.rng.choice([
            ["copy", one(10, 11, 12, 20, 30)], ["copies", title, after], ["queue", title, after], ["account", patron, after], ["debts", after], ["overdue", branch, after],
            ["shelf", branch, after], ["shelf", branch, "0"], ["account", patron, "0"], ["pulls", branch, after], ["pulls", branch, "0"], ["transits", branch, after], ["till", self.day(0, 0, -1, -2)],
            ["today"], ["borrower", patron], ["find-patrons", after, self.rng.choice(("n", "bell an", "ÁNN", "R c", "ozil", "ann-bell"))], ["find-titles", after, self.rng.choice(("R", "s  r", "NoRth", "ŔÓÀD"))],
            ["branches", one(0, 0, 1, 2)], ["closed-days", branch, self.after_day()], ["kinds", one(0, 0, 1, 2)], ["rules", one(1, 1, 2, 9), one(0, 0, 1, 2)],
            ["missing-copies", after], ["loans", one(10, 10, 11, 12, 20, 99), one(0, 0, 1, 2)],
            ["loans", one(10, 11), "0"], ["find-barcode", self.barcode()], ["till-at", branch, self.day(0, 0, -1)],
        ])

    def request(self):
        one, day = self.one, self.day
        ends = self.end_of_a_loan() if self.rng.random() < 0.3 else None
        if ends:
            return ends
        if self.rng.random() < 0.17:
            return self.label_or_charge()
        patron, title, branch, copy = one(1, 2, 3), one(100, 100, 100, 200, 300), one(1, 1, 2), one(10, 11, 10, 11, 20, 30)
        hold, loan, amount = self.among(self.library.holds), self.among(self.library.loans), one(10, 30, 2500)
        often = [
            ["check-in", copy, branch], ["check-out", patron, copy, branch], ["place-hold-from", patron, title, branch, day(0, 1, 1, 2, 3, 5)],
            ["begin-day", day(0, 1, 1, 2, 4)], ["place-hold", patron, title, branch],
        ]
        seldom = [
            ["renew", loan], ["cancel-hold", hold], ["unshelve", hold], ["unshelve-cancelled", hold], ["missing", copy], ["withdraw", copy], ["pay", patron, amount],
            ["waive", patron, amount], ["close-day", branch, day(1, 5, 6, 7)], ["open-day", branch, day(1, 5, 6, 7)], ["kind", "1", one(2, 5), one(1, 3, 5), "500"],
            ["rule", "1", one(1, 2), one(3, 6), one(0, 2), "20", "100"], ["grace", "1", one(1, 1, 2, 3), one(1, 2, 3, 366)], ["grace", "1", "1", one(0, 1, 2)], ["week", branch, self.rng.choice(["ooooooc", "coooooc", "ooooooo", "ccccccc"])],
            ["branch", branch, one(3, 5), "Main"], ["patron", patron, "1", "cardkey00001", "Ann Bell"], ["kind", "2", one(1, 2), one(1, 2), one(0, 500)], ["rule", "2", one(1, 2), one(3, 9), "1", "10", "50"],
            ["card-key", one(1, 2, 9), one("cardkey00001", "newkey000001")], ["amend-patron", patron, one(1, 2, 2, 100), one("Ann Bell", "Ann Ozil")], ["amend-patron", patron, "1", "Bo Ozil"], ["amend-branch", branch, one(0, 3, 7, 61), one("Main", "Hall")],
            ["amend-title", title, one("Rivers of the North", "Salt Rivers")], ["amend-copy", copy, one(1, 2, 2, 0), one(900, 2500)], ["rehome", copy, one(1, 2)], ["rehome", copy, one(1, 2)], ["acquire", one(10, 12), "100", "1", "1", "2500", "Rivers of the North"],
        ]
        return self.rng.choice(often if self.rng.random() < 0.6 else seldom)


def history(rng, has_questions):
    """Requests, and what they are answered."""
    return lived(rng, has_questions)[0]


def lived(rng, has_questions):
    """Requests, what they are answered, and the library after them."""
    library = Library()
    for at, words in enumerate(FOUNDING):
        if library.handle(f"f{at}", words) != "ok":
            sys.exit(f"{words} of the small library is refused")
    clerk, asked = Clerk(rng, library), []
    for at in range(REQUESTS):
        # few loans are made in one history, so half of them have grace days from the beginning
        words = ["grace", "1", "1", clerk.one(1, 2, 3)] if at == 0 and rng.random() < 0.5 else clerk.request()
        asked.append((words, library.handle(f"r{at}", words)))
        if has_questions and at % QUESTIONED == 0:
            words = clerk.question()
            asked.append((words, library.handle(f"r{at}", words)))
    return asked, library


def has_rows(words, answer):
    """Whether a question is shown a row: a copy, sums, a day, a borrower or what has a barcode, or a list with more
    than its head and its end."""
    heads = {"copies": 1, "queue": 1, "account": 1, "overdue": 1, "shelf": 1}.get(words[0], 0)
    return not answer.startswith("refused") and (words[0] in ALWAYS_SHOWN or answer.count("\n") > heads)


def shown_in(asked):
    """The questions that are shown rows in a history."""
    return {words[0] for words, answer in asked if words[0] in QUESTIONS and has_rows(words, answer)}
