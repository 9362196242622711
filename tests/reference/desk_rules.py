"""The rules of docs/RULES.md once more, in plain Python: what each request of the desk is answered, and the rows after
it.

It was written from the rules and shares nothing with the program, so that the two can be compared. It leaves out what
patrons are refused because it isn't theirs (14, 15 and 81), and numbers that are used up (70).
"""

import datetime

FIRST = datetime.date(2000, 1, 1)
LAST = datetime.date(2199, 12, 31)
LAST_TODAY = datetime.date(2190, 12, 31)
EPOCH = datetime.date(1970, 1, 1)
MOST_ROWS = 100  # of a list in one answer
MOST_LOOKED_AT = 5_000  # rows in one search

# What only asks: it looks at no key and keeps none. All but the page are the desk's alone.
SEARCHES = ("find-patrons", "find-titles")
SETTINGS = ("branches", "closed-days", "kinds", "rules")
QUESTIONS = ("copy", "copies", "queue", "account", "debts", "overdue", "shelf", "pulls", "transits", "till", "today",
             "borrower", *SEARCHES, *SETTINGS, "missing-copies", "loans", "find-barcode", "till-at")
ONLY_ASK = ("page", *QUESTIONS)

# What a patron may send, and of it what names the patron, who may only be the one who asks.
PATRONS_COMMANDS = ("page", "place-hold", "place-hold-from", "cancel-hold", "renew")
NAMES_A_PATRON = PATRONS_COMMANDS[:3]

# What corrects rows that are there.
CORRECTIONS = ("card-key", "amend-patron", "amend-branch", "amend-title", "amend-copy", "rehome")

# What gives things their barcodes, and takes them away.
LABELS = ("copy-barcode", "patron-barcode", "drop-barcode")

# Whose last word is a name, a text, a card key or a barcode, also where it has digits alone.
ENDS_WITH_TEXT = ("branch", "patron", "acquire", "card-key", "amend-patron", "amend-branch", "amend-title", *LABELS,
                  "charge", *SEARCHES, "find-barcode")

# The sorts of lines as they are numbered, each with its sign in what is owed.
SORTS = {"fine": 1, "price": 1, "payment": -1, "waiver": -1, "charge": 1}
MOST_CHARGED = 1_000_000  # cents, in one charge


def number(day):
    """A day as it is stored: days since 1970-01-01."""
    return (day - EPOCH).days


# What the letters from U+00C0 to U+017F are searched as, in their order; the two signs among them stay.
FIRST_FOLDED, LAST_FOLDED = 0xC0, 0x17F
LETTERS = (
    "aaaaaaaceeeeiiiidnooooo×ouuuuytsaaaaaaaceeeeiiiidnooooo÷ouuuuyty"
    "aaaaaaccccccccddddeeeeeeeeeegggggggghhhhiiiiiiiiiiiijjkkklllllll"
    "lllnnnnnnnnnoooooooorrrrrrssssssssttttttuuuuuuuuuuuuwwyyyzzzzzzs"
)


def folded(text):
    """A text as it is searched: without capitals and marks."""
    fold = lambda it: it.lower() if "A" <= it <= "Z" else LETTERS[ord(it) - FIRST_FOLDED] if FIRST_FOLDED <= ord(it) <= LAST_FOLDED else it
    return "".join(map(fold, text))


def finds(text, name):
    """Whether each word of a text occurs somewhere in a name."""
    return all(word in folded(name) for word in folded(text).split(" ") if word)


class Refused(Exception):
    """A check of the command fails; the argument is the refusal's number."""


def refuse(number_, fails):
    if fails:
        raise Refused(number_)


def overdue_row(loan, patron, copy, due, late, title):
    return f"{loan:>10} {patron:>7} {copy:>7} {due:<10} {late:>5} {title}"


def shelf_row(hold, copy, patron, until, title):
    return f"{hold:>10} {copy:>7} {patron:>7} {until:<10} {title}"


OVERDUE_HEAD = overdue_row("loan", "patron", "copy", "due", "late", "title")
SHELF_HEAD = shelf_row("hold", "copy", "patron", "until", "title")


class Library:
    """All that the desk knows."""

    def __init__(self):
        self.today = FIRST
        self.branches, self.closed, self.kinds, self.rules = {}, {}, {}, {}
        self.patrons, self.titles, self.copies = {}, {}, {}
        self.loans, self.holds, self.transits, self.lines = {}, {}, {}, []
        self.barcodes = {}  # by the sort of the thing and its number
        self.kept = {}  # by caller and key

    # ---- days

    def is_open(self, branch, day):
        return self.branches[branch]["week"][day.weekday()] == "o" and day not in self.closed[branch]

    def least_open(self, branch, day):
        refuse(39, day > LAST)
        while not self.is_open(branch, day):
            refuse(39, day >= LAST)
            day += datetime.timedelta(1)
        return day

    def late(self, branch, due):
        days = (due + datetime.timedelta(n) for n in range(1, (self.today - due).days + 1))
        return sum(self.is_open(branch, day) for day in days)

    # ---- what a copy or a hold is

    def loan_of(self, copy):
        return next((n for n, loan in self.loans.items() if loan["copy"] == copy and loan["ended"] is None), None)

    def ready_for(self, copy):
        return next((n for n, hold in self.holds.items() if hold["state"] == "ready" and hold["copy"] == copy), None)

    def line(self, title):
        """The holds of a title that stand in line; one with a first day does from that day on."""
        coming = {hold for _, hold in self.transits.values()}
        return [n for n, hold in sorted(self.holds.items()) if hold["title"] == title and hold["state"] == "waiting"
                and n not in coming and (hold["first"] is None or hold["first"] <= self.today)]

    def active(self, patron, title=None):
        return [n for n, hold in sorted(self.holds.items()) if hold["patron"] == patron
                and hold["state"] in ("waiting", "ready") and title in (None, hold["title"])]

    def open_loans(self, patron):
        return [n for n, loan in sorted(self.loans.items()) if loan["patron"] == patron and loan["ended"] is None]

    def owed(self, patron):
        return sum(SORTS[line["sort"]] * line["amount"] for line in self.lines if line["patron"] == patron)

    def add_line(self, patron, sort, amount, loan=None, at=None, text=None):
        """A line of an account; of one that was made at a counter the branch is noted and, of a charge, the text."""
        if amount:
            self.lines.append({"patron": patron, "day": self.today, "sort": sort, "amount": amount, "loan": loan,
                               "at": at, "text": text})

    # ---- movements

    def make_ready(self, hold, copy):
        row = self.holds[hold]
        limit = self.least_open(row["branch"], self.today + datetime.timedelta(self.branches[row["branch"]]["pickup"]))
        row.update(state="ready", copy=copy, limit=limit)
        return f"ready {hold} at {row['branch']} until {limit}"

    def route(self, copy, branch):
        goal, hold = self.transits.get(copy, (None, None))
        if hold is not None and goal != branch:
            return f"transit {goal} for {hold}"
        self.transits.pop(copy, None)
        if hold is not None:
            return self.make_ready(hold, copy)
        line = self.line(self.copies[copy]["title"])
        if line:
            pickup = self.holds[line[0]]["branch"]
            if pickup == branch:
                return self.make_ready(line[0], copy)
            self.transits[copy] = (pickup, line[0])
            return f"transit {pickup} for {line[0]}"
        home = self.copies[copy]["home"]
        if home == branch:
            return f"shelf {home}"
        self.transits[copy] = (home, None)
        return f"transit {home}"

    def end_loan(self, copy):
        """Ends the open loan of a copy, and gives the loan and its fine."""
        loan = self.loan_of(copy)
        if loan is None:
            return None, 0
        row = self.loans[loan]
        late = self.late(row["branch"], row["due"])
        # within the grace days nothing is due, and past them each day late is
        fine = 0 if late <= row["grace"] else min(late * row["rate"], row["cap"])
        row["ended"] = self.today
        self.add_line(row["patron"], "fine", fine, loan)
        return loan, fine

    # ---- commands

    def day_to_come(self, day):
        """A day that today can still become."""
        day = datetime.date.fromisoformat(day)
        refuse(23, not self.today < day <= LAST_TODAY)
        return day

    def do_begin_day(self, day):
        self.today = self.day_to_come(day)
        return "ok"

    def do_branch(self, branch, pickup, name):
        refuse(21, not (1 <= branch <= 99 and pickup <= 60))
        there = self.branches.get(branch)
        refuse(20, there and (there["pickup"], there["name"]) != (pickup, name))
        if not there:
            self.branches[branch] = {"pickup": pickup, "week": "ooooooo", "name": name}
            self.closed[branch] = set()
        return "ok"

    def do_week(self, branch, mask):
        refuse(10, branch not in self.branches)
        refuse(22, mask == "ccccccc")
        self.branches[branch]["week"] = mask
        return "ok"

    def do_close_day(self, branch, day):
        day = datetime.date.fromisoformat(day)
        refuse(10, branch not in self.branches)
        refuse(23, not self.today < day)
        refuse(24, day in self.closed[branch])
        refuse(21, len(self.closed[branch]) >= 400)
        self.closed[branch].add(day)
        return "ok"

    def do_open_day(self, branch, day):
        day = datetime.date.fromisoformat(day)
        refuse(10, branch not in self.branches)
        refuse(23, not self.today < day)
        refuse(25, day not in self.closed[branch])
        self.closed[branch].remove(day)
        return "ok"

    def do_kind(self, kind, loans, holds, debt):
        refuse(21, not (1 <= kind <= 99 and loans <= 200 and holds <= 200 and debt <= 1_000_000))
        self.kinds[kind] = {"loans": loans, "holds": holds, "debt": debt}
        return "ok"

    def do_rule(self, kind, copy_kind, period, renewals, rate, cap):
        refuse(21, not (1 <= kind <= 99 and 1 <= copy_kind <= 99 and 1 <= period <= 365 and renewals <= 99
                        and rate <= 10_000 and cap <= 100_000))
        refuse(17, kind not in self.kinds)
        self.rules[kind, copy_kind] = {"period": period, "renewals": renewals, "rate": rate, "cap": cap, "grace": 0}
        return "ok"

    def do_grace(self, kind, copy_kind, days):
        refuse(21, not (1 <= kind <= 99 and 1 <= copy_kind <= 99 and days <= 365))
        refuse(16, (kind, copy_kind) not in self.rules)
        self.rules[kind, copy_kind]["grace"] = days
        return "ok"

    def do_patron(self, patron, kind, card_key, name):
        refuse(21, not (1 <= patron <= 9_999_999 and 1 <= kind <= 99))
        refuse(17, kind not in self.kinds)
        row = {"kind": kind, "card_key": card_key, "name": name}
        refuse(20, self.patrons.get(patron, row) != row)
        self.patrons[patron] = row
        return "ok"

    def do_acquire(self, copy, title, kind, home, price, text):
        refuse(21, not (1 <= copy <= 9_999_999 and 1 <= title <= 9_999_999 and 1 <= kind <= 99 and price <= 1_000_000))
        refuse(10, home not in self.branches)
        row = {"title": title, "kind": kind, "home": home, "price": price}
        there = {name: self.copies[copy][name] for name in row} if copy in self.copies else row
        refuse(20, self.titles.get(title, text) != text or there != row)
        self.titles[title] = text
        self.copies.setdefault(copy, {**row, "condition": "present"})
        return "ok"

    # ---- corrections

    def do_card_key(self, patron, card_key):
        refuse(11, patron not in self.patrons)
        self.patrons[patron]["card_key"] = card_key
        return "ok"

    def do_amend_patron(self, patron, kind, name):
        refuse(21, not 1 <= kind <= 99)
        refuse(11, patron not in self.patrons)
        refuse(17, kind not in self.kinds)
        self.patrons[patron].update(kind=kind, name=name)
        return "ok"

    def do_amend_branch(self, branch, pickup, name):
        refuse(21, not (1 <= branch <= 99 and pickup <= 60))
        refuse(10, branch not in self.branches)
        self.branches[branch].update(pickup=pickup, name=name)
        return "ok"

    def do_amend_title(self, title, text):
        refuse(12, title not in self.titles)
        self.titles[title] = text
        return "ok"

    def do_amend_copy(self, copy, kind, price):
        refuse(21, not (1 <= kind <= 99 and price <= 1_000_000))
        refuse(13, copy not in self.copies)
        self.copies[copy].update(kind=kind, price=price)
        return "ok"

    def do_rehome(self, copy, branch):
        refuse(10, branch not in self.branches)
        refuse(13, copy not in self.copies)
        row = self.copies[copy]
        refuse(35, row["condition"] == "withdrawn")
        if branch != row["home"] and self.where(copy)[0].startswith("shelf "):
            self.transits[copy] = (branch, None)
        row["home"] = branch
        return "ok"

    # ---- barcodes

    def labelled(self, barcode):
        """The sort and the number of what has this barcode; None where nothing has."""
        return next((thing for thing, it in self.barcodes.items() if it == barcode), None)

    def give_barcode(self, thing, barcode):
        refuse(26, self.labelled(barcode) not in (None, thing))
        self.barcodes[thing] = barcode
        return "ok"

    def do_copy_barcode(self, copy, barcode):
        refuse(13, copy not in self.copies)
        return self.give_barcode(("copy", copy), barcode)

    def do_patron_barcode(self, patron, barcode):
        refuse(11, patron not in self.patrons)
        return self.give_barcode(("patron", patron), barcode)

    def do_drop_barcode(self, barcode):
        thing = self.labelled(barcode)
        refuse(18, thing is None)
        del self.barcodes[thing]
        return "ok"

    # ---- loans and holds

    def do_check_out(self, patron, copy, branch):
        refuse(10, branch not in self.branches)
        refuse(11, patron not in self.patrons)
        refuse(13, copy not in self.copies)
        row = self.copies[copy]
        refuse(35, row["condition"] == "withdrawn")
        refuse(34, row["condition"] == "missing")
        refuse(31, self.loan_of(copy) is not None)
        refuse(32, copy in self.transits)
        ready = self.ready_for(copy)
        refuse(30, branch != (row["home"] if ready is None else self.holds[ready]["branch"]))
        refuse(33, ready is not None and self.holds[ready]["patron"] != patron)
        line = self.line(row["title"])
        first = line[0] if ready is None and line else None
        refuse(36, first is not None and self.holds[first]["patron"] != patron)
        filled = ready if ready is not None else first
        refuse(50, any(hold != filled for hold in self.active(patron, row["title"])))
        kind = self.patrons[patron]["kind"]
        rule = self.rules.get((kind, row["kind"]))
        refuse(16, rule is None)
        refuse(37, len(self.open_loans(patron)) >= self.kinds[kind]["loans"])
        refuse(38, self.owed(patron) > self.kinds[kind]["debt"])
        due = self.least_open(branch, self.today + datetime.timedelta(rule["period"]))
        loan = len(self.loans) + 1
        self.loans[loan] = {"copy": copy, "patron": patron, "branch": branch, "made": self.today, "due": due, **rule,
                            "ended": None}
        if filled is not None:
            self.holds[filled].update(state="filled", copy=None, limit=None)
        return f"loan {loan} due {due}"

    def do_check_in(self, copy, branch):
        refuse(10, branch not in self.branches)
        refuse(13, copy not in self.copies)
        refuse(35, self.copies[copy]["condition"] == "withdrawn")
        refuse(33, self.ready_for(copy) is not None)
        _, fine = self.end_loan(copy)
        self.copies[copy]["condition"] = "present"
        return f"fine {fine} {self.route(copy, branch)}"

    def do_renew(self, loan):
        refuse(14, loan not in self.loans)
        row = self.loans[loan]
        refuse(40, row["ended"] is not None)
        refuse(41, self.today > row["due"])
        refuse(36, bool(self.line(self.copies[row["copy"]]["title"])))
        refuse(42, row["renewals"] == 0)
        kind = self.patrons[row["patron"]]["kind"]
        refuse(38, self.owed(row["patron"]) > self.kinds[kind]["debt"])
        row["due"] = self.least_open(row["branch"], row["due"] + datetime.timedelta(row["period"]))
        row["renewals"] -= 1
        return f"loan {loan} due {row['due']}"

    def do_place_hold(self, patron, title, branch, first=None):
        """A hold, with a first day if there is one."""
        refuse(11, patron not in self.patrons)
        refuse(12, title not in self.titles)
        refuse(10, branch not in self.branches)
        if first is not None:
            first = self.day_to_come(first)
        refuse(50, bool(self.active(patron, title)))
        refuse(52, any(self.copies[self.loans[n]["copy"]]["title"] == title for n in self.open_loans(patron)))
        refuse(51, len(self.active(patron)) >= self.kinds[self.patrons[patron]["kind"]]["holds"])
        hold = len(self.holds) + 1
        self.holds[hold] = {"patron": patron, "title": title, "branch": branch, "state": "waiting", "copy": None,
                            "limit": None, "first": first}
        return f"hold {hold}"

    do_place_hold_from = do_place_hold

    def do_cancel_hold(self, hold):
        refuse(15, hold not in self.holds)
        refuse(53, self.holds[hold]["state"] != "waiting")
        self.holds[hold]["state"] = "cancelled"
        for copy, (goal, for_hold) in self.transits.items():
            if for_hold == hold:
                self.transits[copy] = (goal, None)
        return "ok"

    def end_ready(self, hold, state):
        row = self.holds[hold]
        copy = row["copy"]
        row.update(state=state, copy=None, limit=None)
        return self.route(copy, row["branch"])

    def do_unshelve(self, hold):
        refuse(15, hold not in self.holds)
        refuse(53, self.holds[hold]["state"] != "ready")
        refuse(54, self.today <= self.holds[hold]["limit"])
        return self.end_ready(hold, "expired")

    def do_unshelve_cancelled(self, hold):
        refuse(15, hold not in self.holds)
        refuse(53, self.holds[hold]["state"] != "ready")
        return self.end_ready(hold, "cancelled")

    def do_missing(self, copy):
        refuse(13, copy not in self.copies)
        row = self.copies[copy]
        refuse(35, row["condition"] == "withdrawn")
        refuse(34, row["condition"] == "missing")
        ready = self.ready_for(copy)
        if ready is not None:
            self.holds[ready].update(state="waiting", copy=None, limit=None)
        self.transits.pop(copy, None)
        row["condition"] = "missing"
        loan, fine = self.end_loan(copy)
        if loan is None:
            return "ok"
        self.add_line(self.loans[loan]["patron"], "price", row["price"], loan)
        return f"fine {fine} price {row['price']}"

    def do_withdraw(self, copy):
        refuse(13, copy not in self.copies)
        row = self.copies[copy]
        refuse(35, row["condition"] == "withdrawn")
        refuse(31, self.loan_of(copy) is not None)
        refuse(32, copy in self.transits)
        refuse(33, self.ready_for(copy) is not None)
        row["condition"] = "withdrawn"
        return "ok"

    def settle(self, patron, amount, sort):
        refuse(11, patron not in self.patrons)
        refuse(60, not 0 < amount <= self.owed(patron))
        self.add_line(patron, sort, amount)
        return f"owed {self.owed(patron)}"

    def do_pay(self, patron, amount):
        return self.settle(patron, amount, "payment")

    def do_waive(self, patron, amount):
        return self.settle(patron, amount, "waiver")

    def do_charge(self, patron, amount, branch, text):
        refuse(21, amount > MOST_CHARGED)
        refuse(11, patron not in self.patrons)
        refuse(10, branch not in self.branches)
        refuse(60, amount == 0)
        self.add_line(patron, "charge", amount, at=branch, text=text)
        return f"owed {self.owed(patron)}"

    def do_pay_at(self, patron, amount, branch):
        refuse(11, patron not in self.patrons)
        refuse(10, branch not in self.branches)
        refuse(60, not 0 < amount <= self.owed(patron))
        self.add_line(patron, "payment", amount, at=branch)
        return f"owed {self.owed(patron)}"

    def do_page(self, patron):
        refuse(11, patron not in self.patrons)
        lines = [self.patron_line(patron)]
        for n in self.open_loans(patron):
            row = self.loans[n]
            title = self.copies[row["copy"]]["title"]
            lines.append(f"loan {n} due {row['due']} renewals {row['renewals']} title {title} {self.titles[title]}")
        for n in self.active(patron):
            row = self.holds[n]
            state = row["state"] if row["state"] == "ready" or row["first"] is None else f"waiting from {row['first']}"
            lines.append(f"hold {n} at {row['branch']} {state} title {row['title']} {self.titles[row['title']]}")
        return "\n".join(lines)

    # ---- what the desk can be asked

    def title_words(self, title):
        return f"title {title} {self.titles[title]}"

    def patron_line(self, patron):
        return f"patron {patron} owed {self.owed(patron)} name {self.patrons[patron]['name']}"

    def where(self, copy):
        """Where a copy is, and the patron for whom it is there, if there is one."""
        loan, ready = self.loan_of(copy), self.ready_for(copy)
        if loan is not None:
            return f"loan {loan} due {self.loans[loan]['due']}", self.loans[loan]["patron"]
        if ready is not None:
            hold = self.holds[ready]
            return f"ready {ready} at {hold['branch']} until {hold['limit']}", hold["patron"]
        if copy in self.transits:
            goal, hold = self.transits[copy]
            return (f"transit {goal}", None) if hold is None else (f"transit {goal} for {hold}", self.holds[hold]["patron"])
        row = self.copies[copy]
        return f"shelf {row['home']}" if row["condition"] == "present" else row["condition"], None

    def listed(self, head, rows, after):
        """A part of a list, whose rows stand by their numbers: those above a number, the least first and not too many,
        and whether others follow."""
        above = sorted(number for number in rows if number > after)
        shown = above[:MOST_ROWS]
        return "\n".join([*head, *[rows[number] for number in shown], "end" if shown == above else f"after {shown[-1]}"])

    def copies_of(self, title):
        return [n for n, row in self.copies.items() if row["title"] == title]

    def do_copy(self, copy):
        refuse(13, copy not in self.copies)
        row, (place, patron) = self.copies[copy], self.where(copy)
        whose = "" if patron is None else f" patron {patron} {self.patrons[patron]['name']}"
        columns = " ".join(f"{it} {row[it]}" for it in ("home", "kind", "price"))
        first = f"copy {copy} {columns} {self.title_words(row['title'])}"
        return f"{first}\n{place}{whose}{self.barcode_line('copy', copy)}"

    def barcode_line(self, sort, number_):
        """The line of its own that tells a thing's barcode, where it has one."""
        return f"\nbarcode {self.barcodes[sort, number_]}" if (sort, number_) in self.barcodes else ""

    def do_copies(self, title, after):
        refuse(12, title not in self.titles)
        return self.listed([self.title_words(title)], {n: f"copy {n} {self.where(n)[0]}" for n in self.copies_of(title)}, after)

    def do_queue(self, title, after):
        refuse(12, title not in self.titles)
        first_day = lambda hold: "" if hold["first"] is None else f" from {hold['first']}"
        rows = {n: f"hold {n} patron {self.holds[n]['patron']} at {self.holds[n]['branch']}{first_day(self.holds[n])}" for n in self.line(title)}
        return self.listed([self.title_words(title)], rows, after)

    def account_words(self, line):
        """A line of an account. A fine or a price tells the loan and the title, what was made at a counter where."""
        words = f"{line['day']} {line['sort']} {line['amount']}"
        if line["at"] is not None:
            return f"{words} at {line['at']}" + ("" if line["text"] is None else f" for {line['text']}")
        if line["loan"] is None:
            return words
        return f"{words} loan {line['loan']} {self.title_words(self.copies[self.loans[line['loan']]['copy']]['title'])}"

    def do_account(self, patron, after):
        refuse(11, patron not in self.patrons)
        rows = {n: f"line {n} {self.account_words(line)}" for n, line in enumerate(self.lines, 1) if line["patron"] == patron}
        return self.listed([self.patron_line(patron)], rows, after)

    def do_debts(self, after):
        return self.listed([], {patron: self.patron_line(patron) for patron in self.patrons if self.owed(patron) > 0}, after)

    def do_overdue(self, branch, after):
        refuse(10, branch not in self.branches)
        return self.listed([OVERDUE_HEAD], self.overdue_rows(branch), after)

    def do_shelf(self, branch, after):
        refuse(10, branch not in self.branches)
        return self.listed([SHELF_HEAD], self.shelf_rows(branch), after)

    def do_pulls(self, branch, after):
        refuse(10, branch not in self.branches)
        rows = {}
        for title in self.titles:
            first, standing = self.line(title)[:1], [n for n in self.copies_of(title) if self.where(n)[0] == f"shelf {branch}"]
            for hold in first if standing else []:
                rows[hold] = f"hold {hold} copy {min(standing)} {self.title_words(title)}"
        return self.listed([], rows, after)

    def do_transits(self, branch, after):
        refuse(10, branch not in self.branches)
        for_hold = lambda hold: "" if hold is None else f"for {hold} "
        rows = {n: f"copy {n} {for_hold(hold)}{self.title_words(self.copies[n]['title'])}" for n, (goal, hold) in self.transits.items() if goal == branch}
        return self.listed([], rows, after)

    def do_till(self, day):
        return self.till(datetime.date.fromisoformat(day)).removesuffix("\n")

    def do_till_at(self, branch, day):
        refuse(10, branch not in self.branches)
        sums = self.sums(datetime.date.fromisoformat(day), ("payment", "charge"), lambda line: line["at"] == branch)
        return f"till {day} at {branch}\n{sums}".removesuffix("\n")

    def do_find_barcode(self, barcode):
        thing = self.labelled(barcode)
        refuse(18, thing is None)
        return f"{thing[0]} {thing[1]}"

    def do_today(self):
        return f"today {self.today}"

    def do_borrower(self, patron):
        refuse(11, patron not in self.patrons)
        return f"{self.patron_line(patron)}\nkind {self.patrons[patron]['kind']}{self.barcode_line('patron', patron)}"

    def searched(self, names, shown, after, text):
        """A part of a search over rows with names: of those above a number, the least first, it looks at one after
        another until it has found or looked at as many as it may."""
        above, lines = sorted(number for number in names if number > after), []
        for at, number in enumerate(above, 1):
            if finds(text, names[number]):
                lines.append(shown(number))
            if at < len(above) and (len(lines) == MOST_ROWS or at == MOST_LOOKED_AT):
                return "\n".join([*lines, f"after {number}"])
        return "\n".join([*lines, "end"])

    def do_find_patrons(self, after, text):
        return self.searched({n: row["name"] for n, row in self.patrons.items()}, self.patron_line, after, text)

    def do_find_titles(self, after, text):
        return self.searched(self.titles, self.title_words, after, text)

    def do_missing_copies(self, after):
        rows = {n: f"copy {n} home {row['home']} {self.title_words(row['title'])}" for n, row in self.copies.items() if row["condition"] == "missing"}
        return self.listed([], rows, after)

    def do_loans(self, copy, after):
        refuse(13, copy not in self.copies)
        ended = lambda loan: "" if loan["ended"] is None else f" ended {loan['ended']}"
        rows = {n: f"loan {n} patron {loan['patron']} made {loan['made']} due {loan['due']}{ended(loan)}" for n, loan in self.loans.items() if loan["copy"] == copy}
        return self.listed([], rows, after)

    # ---- what is set

    def do_branches(self, after):
        rows = {n: f"branch {n} pickup {row['pickup']} week {row['week']} name {row['name']}" for n, row in self.branches.items()}
        return self.listed([], rows, after)

    def do_closed_days(self, branch, after):
        refuse(10, branch not in self.branches)
        return self.listed([], {number(day): f"day {day}" for day in self.closed[branch] if day > self.today}, after)

    def do_kinds(self, after):
        rows = {n: f"kind {n} loans {row['loans']} holds {row['holds']} debt {row['debt']}" for n, row in self.kinds.items()}
        return self.listed([], rows, after)

    def do_rules(self, kind, after):
        refuse(17, kind not in self.kinds)
        columns = ("period", "renewals", "rate", "cap", "grace")
        rows = {copy_kind: f"rule {kind} {copy_kind} " + " ".join(f"{column} {row[column]}" for column in columns)
                for (of_kind, copy_kind), row in self.rules.items() if of_kind == kind}
        return self.listed([], rows, after)

    # ---- requests

    def handle(self, key, words, caller=0):
        """The lines that answer a request of the desk, or of a patron about what is the patron's own."""
        name, arguments = words[0], [int(word) if word.isdecimal() else word for word in words[1:]]
        if name in ENDS_WITH_TEXT:
            arguments[-1] = words[-1]
        if name == "patron":
            arguments[2] = words[3]
        text = " ".join(words)
        if name not in ONLY_ASK and (caller, key) in self.kept:
            kept, reply = self.kept[caller, key]
            return reply if kept == text else "refused 80"
        try:
            reply = getattr(self, "do_" + name.replace("-", "_"))(*arguments)
        except Refused as refusal:
            return f"refused {refusal}"
        if name not in ONLY_ASK:
            self.kept[caller, key] = (text, reply)
        return reply

    def take_in(self, rows):
        """The lines that answer good rows of a copies file, each of six words."""
        lines, refused = "", 0
        for at, (copy, title, text, kind, home, price) in enumerate(rows, 1):
            words = ["acquire", str(copy), str(title), str(kind), str(home), str(price), text]
            reply = self.handle(" ".join(words), words)
            refused += reply != "ok"
            lines += f"row {at} {reply}\n"
        return f"{lines}accepted {len(rows) - refused} refused {refused}\n"

    # ---- reports and rows

    def sums(self, day, sorts, counts=lambda line: True):
        """A row for each of these sorts: the sum of a day's lines that count."""
        lines = [line for line in self.lines if line["day"] == day and counts(line)]
        amount = lambda sort: sum(line["amount"] for line in lines if line["sort"] == sort)
        return "".join(f"{sort + 's':<9}{amount(sort):>15}\n" for sort in sorts)

    def till(self, day):
        has_charge = any(line["day"] == day and line["sort"] == "charge" for line in self.lines)
        return f"till {day}\n" + self.sums(day, [sort for sort in SORTS if sort != "charge" or has_charge])

    def overdue_rows(self, branch):
        """The rows of a branch's overdue report, by their loans."""
        return {n: overdue_row(n, loan["patron"], loan["copy"], str(loan["due"]), self.late(branch, loan["due"]), self.titles[self.copies[loan["copy"]]["title"]])
                for n, loan in sorted(self.loans.items()) if loan["branch"] == branch and loan["ended"] is None and loan["due"] < self.today}

    def overdue(self, branch):
        rows = self.overdue_rows(branch)
        return "".join(f"{row}\n" for row in (OVERDUE_HEAD, *rows.values(), f"overdue {len(rows)}"))

    def shelf_rows(self, branch):
        """The rows of a branch's shelf report, by their holds."""
        return {n: shelf_row(n, hold["copy"], hold["patron"], str(hold["limit"]), self.titles[hold["title"]])
                for n, hold in sorted(self.holds.items()) if hold["state"] == "ready" and hold["branch"] == branch}

    def shelf(self, branch):
        rows = self.shelf_rows(branch)
        return "".join(f"{row}\n" for row in (SHELF_HEAD, *rows.values(), f"ready {len(rows)}"))

    def tables(self):
        """The rows as the file has to hold them, each table in the order of its key."""
        states = ["waiting", "ready", "filled", "cancelled", "expired"]
        conditions = ["present", "missing", "withdrawn"]
        sorts, things = list(SORTS), ["patron", "copy"]
        day = lambda d: None if d is None else number(d)
        return {
            "meta": [(1, 4, number(self.today), len(self.loans) + 1, len(self.holds) + 1, len(self.lines) + 1)],
            "branches": [(n, r["pickup"], r["week"], r["name"]) for n, r in sorted(self.branches.items())],
            "closed_days": [(n, number(d)) for n, days in sorted(self.closed.items()) for d in sorted(days)],
            "kinds": [(n, r["loans"], r["holds"], r["debt"]) for n, r in sorted(self.kinds.items())],
            "rules": [],  # those of the schemas before 3 stood here, and their loans and holds in the tables below that are empty too
            "rules3": [(*n, r["period"], r["renewals"], r["rate"], r["cap"], r["grace"]) for n, r in sorted(self.rules.items())],
            "patrons": [(n, r["kind"], r["card_key"], r["name"], self.owed(n)) for n, r in sorted(self.patrons.items())],
            "titles": sorted(self.titles.items()),
            "copies": [(n, r["title"], r["kind"], r["home"], r["price"], conditions.index(r["condition"]))
                       for n, r in sorted(self.copies.items())],
            "loans": [],
            "loans3": [(n, r["copy"], r["patron"], r["branch"], number(r["made"]), number(r["due"]), r["period"],
                        r["renewals"], r["rate"], r["cap"], day(r["ended"]), r["grace"]) for n, r in sorted(self.loans.items())],
            "holds": [],
            "holds2": [(n, r["patron"], r["title"], r["branch"], states.index(r["state"]), r["copy"], day(r["limit"]),
                        day(r["first"])) for n, r in sorted(self.holds.items())],
            "transits": [(n, goal, hold) for n, (goal, hold) in sorted(self.transits.items())],
            "lines": [(n, r["patron"], number(r["day"]), sorts.index(r["sort"]), r["amount"], r["loan"])
                      for n, r in enumerate(self.lines, 1)],
            "barcodes": sorted((things.index(sort), n, barcode) for (sort, n), barcode in self.barcodes.items()),
            "notes": [(n, r["at"], r["text"]) for n, r in enumerate(self.lines, 1) if r["at"] is not None],
            "kept": [(caller, key, text, reply) for (caller, key), (text, reply) in sorted(self.kept.items())],
        }
