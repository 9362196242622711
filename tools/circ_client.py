"""A desk that serves, asked by programs of Python's standard library alone.

    from circ_client import Desk, first_key
    desk = Desk(8080, first_key("/etc/circ/desk.keys"))
    desk.ask("check-out", 1, 10, 1)              # "loan 7 due 2026-03-09"
    [it for it in desk.listed("overdue", 1)]     # the rows of all parts of a list

docs/replies.json has the commands, their refusals, and the forms of their replies; docs/openapi.yaml has the routes.
"""

import http.client
import json
import re
import secrets
import time
from collections import namedtuple

LONGEST_WAIT = 30  # seconds, for a connection and for each part of an answer
MOST_CLERKS = 99
LONGEST_LINE = 58  # bytes of a file of keys, with its newline

Copy = namedtuple("Copy", "copy home kind price title text place loan due patron barcode")
Borrower = namedtuple("Borrower", "patron owed name kind barcode")
Line = namedtuple("Line", "line day sort amount loan title text branch")
Till = namedtuple("Till", "day branch fines prices payments waivers charges")
Page = namedtuple("Page", "patron owed name loans holds")
Loan = namedtuple("Loan", "loan due renewals title text")
Hold = namedtuple("Hold", "hold branch state title text")


class Refused(Exception):
    """The desk refuses: `number` is that of the refusal."""

    def __init__(self, number):
        super().__init__(f"refused {number}")
        self.number = number


class Fault(Exception):
    """The desk meets a fault: `number` is that of the fault. The request can be sent again under its key."""

    def __init__(self, number):
        super().__init__(f"fault {number}")
        self.number = number


class NotUnderstood(Exception):
    """The words are no command, or aren't in its form."""


class NoAnswer(Exception):
    """No answer came. The request can be sent again under its key, and acts once."""


class NoDesk(Exception):
    """What answers on the port is no desk."""


class BadKeys(Exception):
    """A file of keys isn't one."""


def is_key(text):
    """Whether a text has the form of a card key or a desk's key."""
    return bool(re.fullmatch("[A-Za-z0-9]{8,32}", text))


def first_key(path):
    """The key that stands first in a file of keys, of which every line is looked at."""
    with open(path, "rb") as file:
        lines = file.read(MOST_CLERKS * LONGEST_LINE + 1).split(b"\n")
    clerks = [re.fullmatch(b"([A-Za-z0-9]{1,16}) (?:desk|lending) ([A-Za-z0-9]{8,32})", line) for line in lines[:-1]]
    names, keys = [[it and it[at] for it in clerks] for at in (1, 2)]
    if lines[-1] or not 1 <= len(clerks) <= MOST_CLERKS or not all(clerks) or len(set(names)) < len(names) or len(set(keys)) < len(keys):
        raise BadKeys(path)
    return keys[0].decode()


class Desk:
    """The desk that serves on a port of this machine. A request that gets no answer is sent again under its key for
    `patience` seconds."""

    def __init__(self, port, key, patience=0):
        self.port, self.key, self.patience = port, key, patience

    def once(self, method, target, fields, body=None):
        """The status of the answer to a request, and what its body has."""
        connection = http.client.HTTPConnection("127.0.0.1", self.port, timeout=LONGEST_WAIT)
        try:
            connection.request(method, target, body, fields)
            answer = connection.getresponse()
            return answer.status, json.loads(answer.read())
        except (OSError, http.client.HTTPException):
            raise NoAnswer from None
        except (ValueError, RecursionError):
            raise NoDesk from None
        finally:
            connection.close()

    def answer(self, method, target, fields, body=None):
        """The same, sent again where no answer comes."""
        end = time.monotonic() + self.patience
        while True:
            try:
                return self.once(method, target, fields, body)
            except NoAnswer:
                if time.monotonic() >= end:
                    raise
                time.sleep(0.5)

    def ask(self, *words, key=None):
        """The reply to a command or a question, under this request key or a new one."""
        fields = {"Desk-Key": self.key, "Request-Key": key or secrets.token_hex(16)}
        status, body = self.answer("POST", "/desk", fields, json.dumps([str(it) for it in words]))
        return reply_of(status, body)

    def listed(self, name, *parts):
        """The rows of a list, of one part after another. A list that has a head has it as its first row."""
        after, is_first = "0", True
        while after is not None:
            words = (name, after, *parts) if name.startswith("find-") else (name, *parts, after)
            *rows, end = self.ask(*words).split("\n")
            has_head = name in ("copies", "queue", "account", "overdue", "shelf")
            yield from rows[has_head and not is_first :]
            after, is_first = (end.removeprefix("after ") if end != "end" else None), False

    def knows(self, patron, card_key):
        """Whether a card key is the patron's."""
        return is_key(card_key) and self.answer("GET", f"/patrons/{patron}", {"Card-Key": card_key})[0] == 200


def reply_of(status, body):
    """The reply that an answer has; what isn't one is raised."""
    word = {200: "reply", 403: "refusal", 409: "refusal", 503: "fault"}.get(status)
    told = body.get(word) if isinstance(body, dict) else None
    if (status, body) == (400, {"status": 400}):
        raise NotUnderstood
    if status == 200 and isinstance(told, str):
        return told
    if status == 200 or type(told) is not int:
        raise NoDesk
    raise (Refused if word == "refusal" else Fault)(told)


def read_copy(text):
    """A copy, of the reply to `copy`. Its loan, with the due day and the patron, is None where it isn't on loan, and so
    is its barcode where it has none."""
    first, place, *more = text.split("\n")
    form = r"copy (\d+) home (\d+) kind (\d+) price (\d+) title (\d+) (.*)"
    copy, home, kind, price, title, words = re.fullmatch(form, first).groups()
    lent = re.fullmatch(r"loan (\d+) due (\S+) patron (\d+) .*", place)
    loan = (int(lent[1]), lent[2], int(lent[3])) if lent else (None, None, None)
    return Copy(int(copy), int(home), int(kind), int(price), int(title), words, place, *loan, barcode_in(more))


def read_borrower(text):
    """A patron, of the reply to `borrower`. The barcode is None where the patron has none."""
    first, kind, *more = text.split("\n")
    patron, owed, name = re.fullmatch(r"patron (\d+) owed (\d+) name (.*)", first).groups()
    return Borrower(int(patron), int(owed), name, int(kind.removeprefix("kind ")), barcode_in(more))


def barcode_in(lines):
    """The barcode that a last line tells; None where there is no such line."""
    return lines[0].removeprefix("barcode ") if lines else None


def read_found(text):
    """What has a barcode, of the reply to `find-barcode`: "copy" or "patron", and its number."""
    sort, number = text.split(" ")
    return sort, int(number)


def read_owed(text):
    """What is owed, of the reply to `charge`, `pay`, `pay-at` or `waive`."""
    return int(text.removeprefix("owed "))


def read_line(text):
    """A line of an account, of a row of `account`. A fine and a price have their loan and its title, a charge what it
    is for; a charge, and a payment at a counter, have their branch. What a line hasn't is None."""
    line, day, sort, amount, more = re.fullmatch(r"line (\d+) (\S+) (\w+) (\d+)(.*)", text).groups()
    of_loan = re.fullmatch(r" loan (\d+) title (\d+) (.*)", more)
    at = re.fullmatch(r" at (\d+)(?: for (.*))?", more)
    loan, title, words = (int(of_loan[1]), int(of_loan[2]), of_loan[3]) if of_loan else (None, None, at and at[2])
    return Line(int(line), day, sort, int(amount), loan, title, words, at and int(at[1]))


def read_till(text):
    """The sums of a day, of the reply to `till`, or to `till-at`, which has a branch. What isn't shown is None; `till`
    shows charges where there were some."""
    first, *rows = text.splitlines()
    day, branch = re.fullmatch(r"till (\S+)(?: at (\d+))?", first).groups()
    sums = {name: int(amount) for name, amount in map(str.split, rows)}
    sorts = ("fines", "prices", "payments", "waivers", "charges")
    return Till(day, branch and int(branch), *(sums.get(it) for it in sorts))


def read_page(text):
    """A patron's page, of the reply to `page`, with its loans and its holds."""
    first, *lines = text.split("\n")
    patron, owed, name = re.fullmatch(r"patron (\d+) owed (\d+) name (.*)", first).groups()
    loans = [re.fullmatch(r"loan (\d+) due (\S+) renewals (\d+) title (\d+) (.*)", it).groups() for it in lines if it.startswith("loan ")]
    holds = [re.fullmatch(r"hold (\d+) at (\d+) (waiting|ready)(?: from \S+)? title (\d+) (.*)", it).groups() for it in lines if it.startswith("hold ")]
    return Page(int(patron), int(owed), name, [Loan(int(loan), due, int(left), int(title), words) for loan, due, left, title, words in loans],
                [Hold(int(hold), int(branch), state, int(title), words) for hold, branch, state, title, words in holds])
