"""The outer forms of docs/RULES.md once more, in plain Python: words, JSON bodies, web requests, files of keys and
copies files, read from their bytes.

It was written from the rules and shares nothing with the program, so that the two can be compared. What an accepted
request does is told by `desk_rules`.
"""

import datetime
import json
import math
import re

from reference.desk_rules import FIRST, LAST, NAMES_A_PATRON, PATRONS_COMMANDS

LEAST_BYTES_OF_TEXT, MOST_BYTES_OF_TEXT = 1, 120
HEAD_BYTES, HEAD_FIELDS, BODY_BYTES, MOST_WORDS = 8192, 32, 65_536, 12
MOST_ROWS = 100_000
MOST_LEVELS = 127  # how deep the values of a JSON text may lie in one another

# ---- words


def is_number(word):
    return re.fullmatch("0|[1-9][0-9]{0,9}", word) is not None and int(word) < 2**32


def is_day(word):
    if not re.fullmatch("[0-9]{4}-[0-9]{2}-[0-9]{2}", word):
        return False
    try:
        return FIRST <= datetime.date.fromisoformat(word) <= LAST
    except ValueError:
        return False


def is_mask(word):
    return re.fullmatch("[oc]{7}", word) is not None


def is_card_key(word):
    return re.fullmatch("[A-Za-z0-9]{8,32}", word) is not None


def is_barcode(word):
    return re.fullmatch("[A-Za-z0-9]{1,24}", word) is not None


def is_key(word):
    return re.fullmatch("[A-Za-z0-9-]{1,40}", word) is not None


def is_name(word):
    return (LEAST_BYTES_OF_TEXT <= len(word.encode()) <= MOST_BYTES_OF_TEXT and min(word) >= " " and "\x7f" not in word
            and word[0] != " " != word[-1])


# The words that follow the name of a command, each with its form.
NUMBERS = [is_number] * 6
WORDS = {
    "begin-day": [is_day],
    "branch": [is_number, is_number, is_name],
    "week": [is_number, is_mask],
    "close-day": [is_number, is_day],
    "open-day": [is_number, is_day],
    "kind": NUMBERS[:4],
    "rule": NUMBERS[:6],
    "grace": NUMBERS[:3],
    "patron": [is_number, is_number, is_card_key, is_name],
    "acquire": [*NUMBERS[:5], is_name],
    "card-key": [is_number, is_card_key],
    "amend-patron": [is_number, is_number, is_name],
    "amend-branch": [is_number, is_number, is_name],
    "amend-title": [is_number, is_name],
    "amend-copy": NUMBERS[:3],
    "rehome": NUMBERS[:2],
    "copy-barcode": [is_number, is_barcode],
    "patron-barcode": [is_number, is_barcode],
    "drop-barcode": [is_barcode],
    "check-out": NUMBERS[:3],
    "check-in": NUMBERS[:2],
    "renew": NUMBERS[:1],
    "place-hold": NUMBERS[:3],
    "place-hold-from": [*NUMBERS[:3], is_day],
    "cancel-hold": NUMBERS[:1],
    "unshelve": NUMBERS[:1],
    "unshelve-cancelled": NUMBERS[:1],
    "missing": NUMBERS[:1],
    "withdraw": NUMBERS[:1],
    "pay": NUMBERS[:2],
    "waive": NUMBERS[:2],
    "charge": [*NUMBERS[:3], is_name],
    "pay-at": NUMBERS[:3],
    "page": NUMBERS[:1],
    "copy": NUMBERS[:1],
    "copies": NUMBERS[:2],
    "queue": NUMBERS[:2],
    "account": NUMBERS[:2],
    "debts": NUMBERS[:1],
    "overdue": NUMBERS[:2],
    "shelf": NUMBERS[:2],
    "pulls": NUMBERS[:2],
    "transits": NUMBERS[:2],
    "till": [is_day],
    "today": [],
    "borrower": NUMBERS[:1],
    "find-patrons": [is_number, is_name],
    "find-titles": [is_number, is_name],
    "branches": NUMBERS[:1],
    "closed-days": NUMBERS[:2],
    "kinds": NUMBERS[:1],
    "rules": NUMBERS[:2],
    "missing-copies": NUMBERS[:1],
    "loans": NUMBERS[:2],
    "find-barcode": [is_barcode],
    "till-at": [is_number, is_day],
}


def is_understood(words):
    """Whether a list of words is a command of the desk."""
    if any(word.startswith("-") for word in words) or not words or words[0] not in WORDS:
        return False
    forms = WORDS[words[0]]
    return len(words) == 1 + len(forms) and all(has_form(word) for has_form, word in zip(forms, words[1:]))


# ---- JSON


class NotJson(Exception):
    """The text is no JSON text."""


class Json:
    """A reader of one JSON text. Of a member that is repeated the last value is kept."""

    BLANKS = re.compile("[ \t\n\r]*")
    NUMBER = re.compile("(-?(?:0|[1-9][0-9]*))((?:[.][0-9]+)?(?:[eE][+-]?[0-9]+)?)")
    PLAIN = re.compile('[^"\\\\\x00-\x1f]*')
    ESCAPES = {'"': '"', "\\": "\\", "/": "/", "b": "\b", "f": "\f", "n": "\n", "r": "\r", "t": "\t"}
    NAMES = {"true": True, "false": False, "null": None}

    def __init__(self, text):
        self.text, self.at = text, 0

    def read(self):
        value = self.value(0)
        self.blanks()
        if self.at < len(self.text):
            raise NotJson
        return value

    def blanks(self):
        self.at = self.BLANKS.match(self.text, self.at).end()

    def takes(self, mark):
        """Passes over a mark, if it stands here."""
        if not self.text.startswith(mark, self.at):
            return False
        self.at += len(mark)
        return True

    def must_take(self, mark):
        if not self.takes(mark):
            raise NotJson

    def value(self, level):
        """A value within so many lists and objects."""
        self.blanks()
        if self.takes('"'):
            return self.string()
        for mark, read in (("[", self.items), ("{", self.members)):
            if self.takes(mark):
                return read(level + 1) if level < MOST_LEVELS else self.fail()
        for name, value in self.NAMES.items():
            if self.takes(name):
                return value
        return self.number()

    def number(self):
        found = self.NUMBER.match(self.text, self.at)
        if not found:
            raise NotJson
        self.at = found.end()
        whole, rest = found.groups()
        if not rest and whole != "-0" and len(whole) <= 20 and -2**63 <= int(whole) < 2**64:
            return int(whole)
        if math.isinf(float(whole + rest)):
            raise NotJson
        return float(whole + rest)

    def string(self):
        found = ""
        while True:
            plain = self.PLAIN.match(self.text, self.at)
            found, self.at = found + plain.group(), plain.end()
            if self.takes('"'):
                return found
            self.must_take("\\")
            mark = self.text[self.at:self.at + 1]
            self.at += 1
            found += self.letter() if mark == "u" else self.ESCAPES.get(mark) or self.fail()

    def fail(self):
        raise NotJson

    def unit(self):
        """The number that four digits to the base of 16 write."""
        digits = self.text[self.at:self.at + 4]
        if not re.fullmatch("[0-9A-Fa-f]{4}", digits):
            raise NotJson
        self.at += 4
        return int(digits, 16)

    def letter(self):
        """The letter of one escape, or of two where it takes a pair."""
        first = self.unit()
        if not 0xD800 <= first < 0xE000:
            return chr(first)
        self.must_take("\\u")
        second = self.unit()
        if not (first < 0xDC00 <= second < 0xE000):
            raise NotJson
        return chr(0x10000 + (first - 0xD800) * 0x400 + second - 0xDC00)

    def items(self, level):
        found = []
        self.blanks()
        if self.takes("]"):
            return found
        while True:
            found.append(self.value(level))
            self.blanks()
            if self.takes("]"):
                return found
            self.must_take(",")

    def members(self, level):
        found = {}
        self.blanks()
        if self.takes("}"):
            return found
        while True:
            self.blanks()
            self.must_take('"')
            name = self.string()
            self.blanks()
            self.must_take(":")
            found[name] = self.value(level)
            self.blanks()
            if self.takes("}"):
                return found
            self.must_take(",")


def json_of(body):
    """The value of a JSON body; NotJson where it is none."""
    try:
        return Json(body.decode()).read()
    except UnicodeDecodeError as error:
        raise NotJson from error


# ---- web requests

TOKEN = rb"[!#$%&'*+\-.^_`|~0-9A-Za-z]+"
VALUE = rb"[\t\x20-\x7e\x80-\xff]*"
HEAD = re.compile(rb"(?:\r?\n)*(%b) ([\x21-\x7e\x80-\xff]+) HTTP/1\.[01]\r?\n((?:%b:%b\r?\n)*)\r?\n" % (TOKEN, TOKEN, VALUE))
FIELD = re.compile(rb"(%b):(%b)\r?\n" % (TOKEN, VALUE))
NUMBER_IN_TARGET = "(0|[1-9][0-9]{0,9})"
ROUTES = [
    ("page", "GET", re.compile(f"/patrons/{NUMBER_IN_TARGET}")),
    ("holds", "POST", re.compile(f"/patrons/{NUMBER_IN_TARGET}/holds")),
    ("cancel-hold", "POST", re.compile(f"/patrons/{NUMBER_IN_TARGET}/holds/{NUMBER_IN_TARGET}/cancel")),
    ("renew", "POST", re.compile(f"/patrons/{NUMBER_IN_TARGET}/loans/{NUMBER_IN_TARGET}/renew")),
    ("desk", "POST", re.compile("/desk")),
]


class Failed(Exception):
    """A check of a web request fails: the status, and the method that would be allowed."""

    def __init__(self, status, allowed=""):
        super().__init__(status)
        self.status, self.allowed = status, allowed


def fail(status, fails):
    if fails:
        raise Failed(status)


class Head:
    """The head of a request: a beginning of the first 8,192 bytes."""

    def __init__(self, bytes_):
        found = HEAD.match(bytes_[:HEAD_BYTES])
        fail(400, not found)
        self.method, target, fields = found.groups()
        self.fields = [(name.lower(), value.strip(b" \t")) for name, value in FIELD.findall(fields)]
        fail(400, len(self.fields) > HEAD_FIELDS)
        try:
            self.target = target.decode()
        except UnicodeDecodeError as error:
            raise Failed(400) from error
        self.rest = bytes_[found.end():]

    def values(self, name):
        return [value for field, value in self.fields if field == name.lower().encode()]

    def value(self, name, has_form):
        """The value of the one field of this name, if it is there and has its form."""
        for value in self.values(name):
            if value.isascii() and has_form(value.decode()):
                return value.decode()
        return None

    def body(self):
        """The body, by the length that the fields give it."""
        fail(400, self.values("Transfer-Encoding"))
        lengths = self.values("Content-Length")
        fail(400, len(lengths) > 1)
        if not lengths:
            return b""
        fail(400, not re.fullmatch(b"[0-9]{1,10}", lengths[0]))
        fail(413, int(lengths[0]) > BODY_BYTES)
        fail(400, len(self.rest) < int(lengths[0]))
        return self.rest[:int(lengths[0])]


def route_of(target):
    """The name, the method and the numbers of a target's route."""
    for name, method, form in ROUTES:
        found = form.fullmatch(target)
        if found and all(is_number(number) for number in found.groups()):
            return name, method, found.groups()
    raise Failed(404)


def words_of_hold(patron, value):
    """The words that place the hold for which a JSON value asks: from a day on, if it names one."""
    fail(400, not isinstance(value, dict))
    days = [value.pop("from")] if "from" in value else []
    fail(400, not all(isinstance(day, str) and is_day(day) for day in days))
    fail(400, set(value) != {"branch", "title"})
    fail(400, not all(type(number) is int and 0 <= number < 2**32 for number in value.values()))
    return ["place-hold-from" if days else "place-hold", patron, str(value["title"]), str(value["branch"]), *days]


def words_of(route, numbers, body):
    """The words of the command that a body asks for at a route."""
    if route == "page":
        fail(400, body)
        return ["page", numbers[0]]
    if route in ("cancel-hold", "renew"):
        fail(400, body)
        return [route, numbers[1]]
    try:
        value = json_of(body)
    except NotJson as error:
        raise Failed(400) from error
    if route == "holds":
        return words_of_hold(numbers[0], value)
    fail(400, not isinstance(value, list) or not 1 <= len(value) <= MOST_WORDS)
    fail(400, not all(isinstance(word, str) for word in value) or not is_understood(value))
    return value


def read_request(bytes_):
    """What a request asks for: the patron of its route (None for the desk's), the key that it shows, its own key and
    the words."""
    head = Head(bytes_)
    body = head.body()
    route, method, numbers = route_of(head.target)
    if head.method != method.encode():
        raise Failed(405, method)
    fail(400, any(len(head.values(name)) > 1 for name in ("Card-Key", "Desk-Key", "Request-Key")))
    key = head.value("Request-Key", is_key)
    fail(400, method == "POST" and key is None)
    shown = head.value("Desk-Key" if route == "desk" else "Card-Key", is_card_key)
    return None if route == "desk" else int(numbers[0]), shown, key, words_of(route, numbers, body)


# What a clerk of the role `lending` may send.
LENDING = ("check-out", "check-in", "renew", "page", "copy", "borrower", "find-barcode", "today")

PHRASES = {200: "OK", 400: "Bad Request", 403: "Forbidden", 404: "Not Found", 405: "Method Not Allowed", 409: "Conflict", 413: "Payload Too Large"}


def told(library, clerks, bytes_):
    """The status, the body and the allowed method of the answer to a request. It is handled, where it is to be."""
    try:
        patron, shown, key, words = read_request(bytes_)
    except Failed as failed:
        return failed.status, {"status": failed.status}, failed.allowed
    line = said(library, clerks, patron, shown, key, words)
    if line == "refused 81":
        return 403, {"refusal": 81}, ""
    if line.startswith("refused "):
        return 409, {"refusal": int(line.split()[1])}, ""
    return 200, {"reply": line}, ""


def said(library, clerks, patron, shown, key, words):
    """The line that answers a request: first the caller's key is looked at and whether the caller may send it, then
    the request's own key, and then whose loan or hold it is."""
    if patron is None:
        return said_to_clerk(library, clerks, shown, key, words)
    if patron not in library.patrons or library.patrons[patron]["card_key"] != shown:
        return "refused 81"
    if words[0] not in PATRONS_COMMANDS or (words[0] in NAMES_A_PATRON and int(words[1]) != patron):
        return "refused 81"
    kind, unknown = {"renew": (library.loans, 14), "cancel-hold": (library.holds, 15)}.get(words[0], ({}, 0))
    is_others = unknown and (int(words[1]) not in kind or kind[int(words[1])]["patron"] != patron)
    if is_others and (patron, key) not in library.kept:
        return f"refused {unknown}"
    return library.handle(key, words, patron)


def said_to_clerk(library, clerks, shown, key, words):
    """The line that answers a request of the desk. The clerks are those of a file of keys, each a name, a role and a
    key, and a request is kept under the name and its own key; or they are one key of nobody's, which may send
    everything, and nothing is put before the request's own key."""
    if isinstance(clerks, str):
        return library.handle(key, words) if shown == clerks else "refused 81"
    for name, role, own in clerks:
        if own == shown:
            return library.handle(f"{name}/{key}", words) if role == "desk" or words[0] in LENDING else "refused 81"
    return "refused 81"


def answer_to(library, clerks, bytes_):
    """The status of the answer to a request, and its bytes."""
    status, value, allowed = told(library, clerks, bytes_)
    body = json.dumps(value, ensure_ascii=False, separators=(",", ":")).encode()
    lines = [f"HTTP/1.1 {status} {PHRASES[status]}", *[f"Allow: {allowed}"] * bool(allowed), "Content-Type: application/json",
             f"Content-Length: {len(body)}", "Connection: close", "", ""]
    return status, "\r\n".join(lines).encode() + body


# ---- files of keys

MOST_CLERKS = 99
CLERK = re.compile(b"([A-Za-z0-9]{1,16}) (desk|lending) ([A-Za-z0-9]{8,32})")


def read_keys(bytes_):
    """The clerks of a file of keys, each a name, a role and a key; and the number of its first line that isn't as it
    has to be, None where all are. A last line without a newline isn't, and an empty file has such a line alone."""
    clerks = []
    *lines, rest = bytes_.split(b"\n")
    for number, line in enumerate(lines, 1):
        found = CLERK.fullmatch(line)
        if number > MOST_CLERKS or not found:
            return clerks, number
        name, role, key = (it.decode() for it in found.groups())
        if any(name == other or key == another for other, _, another in clerks):
            return clerks, number
        clerks.append((name, role, key))
    return clerks, len(lines) + 1 if rest or not lines else None


# ---- copies files

HEADER = [b"copy", b"title", b"text", b"kind", b"home", b"price", b"end"]
MARK = b"\xef\xbb\xbf"


def records(bytes_):
    """The records of a file, each a list of fields. Empty lines are none."""
    fields, field, place = [], bytearray(), "start"
    for byte in bytes_[len(MARK):] if bytes_.startswith(MARK) else bytes_:
        letter = bytes((byte,))
        if place == "quoted":
            # a quote ends the quoted part, unless another follows
            if letter == b'"':
                place = "after a quote"
            else:
                field += letter
        elif place == "after a quote" and letter == b'"':
            field += letter
            place = "quoted"
        elif letter == b'"' and place in ("start", "field begins"):
            place = "quoted"
        elif letter == b",":
            fields.append(bytes(field))
            field.clear()
            place = "field begins"
        elif letter in (b"\r", b"\n"):
            if place != "start":
                yield [*fields, bytes(field)]
            fields, place = [], "start"
            field.clear()
        else:
            field += letter
            place = "in a field"
    if place != "start":
        yield [*fields, bytes(field)]


def row_of(fields):
    """The six words of a good row; None where it isn't good."""
    try:
        copy, title, text, kind, home, price, end = [field.decode() for field in fields]
    except ValueError:
        return None
    numbers = [copy, title, kind, home, price]
    if end != "end" or not is_name(text) or not all(is_number(number) for number in numbers):
        return None
    return int(copy), int(title), text, int(kind), int(home), int(price)


def read_copies(bytes_):
    """The rows before the first that isn't good, and its number; None where all are good."""
    rows, found = [], records(bytes_)
    if next(found, None) != HEADER:
        return rows, 0
    for number, fields in enumerate(found, 1):
        row = row_of(fields) if number <= MOST_ROWS else None
        if row is None:
            return rows, number
        rows.append(row)
    return rows, None


def decoded(field):
    """The text of a field; None where it isn't UTF-8."""
    try:
        return field.decode()
    except UnicodeDecodeError:
        return None


def counted(many, unit):
    return f"{many} {unit}" if many == 1 else f"{many} {unit}s"


def cause_of_count(fields):
    """What is wrong with a record that hasn't seven fields."""
    said = f"{counted(len(fields), 'field')} instead of 7"
    if len(fields) == 1 and re.search(b"[;\t]", fields[0]):
        return said + ": the separator must be a comma, not a semicolon or a tab"
    if re.search(b"[\r\n]", fields[-1]):
        return said + ", with a line break in the last: perhaps a quote is not closed"
    return said


def cause_of_row(fields):
    """What is wrong with a row, as a person is told it; None where it is good."""
    if len(fields) != len(HEADER):
        return cause_of_count(fields)
    if fields[6] != b"end":
        return "the last field is not end: perhaps a quote is not closed"
    for place in (0, 1, 3, 4, 5, 2):
        name, text = HEADER[place].decode(), decoded(fields[place])
        if text is None:
            return f"the field {name} is not UTF-8"
        if place != 2 and not is_number(text):
            return f"the field {name} is not a number up to 4294967295 without a leading zero"
        if place == 2 and not is_name(text):
            return ("the text is not 1 to 120 bytes without control characters and without a space at either end: "
                    f"it has {counted(len(fields[place]), 'byte')}")
    return None


def cause_of_header(fields):
    """What is wrong with the first record, if there is any; None where it is the header."""
    if fields == HEADER:
        return None
    cause = cause_of_count(fields) if fields else ""
    return cause if "separator" in cause else "the header is not copy,title,text,kind,home,price,end"


def bad_rows(bytes_):
    """The numbers of all bad rows of a copies file, each with what is wrong with it, and how many are good. The header
    is row 0."""
    found = records(bytes_)
    causes, good = [(0, cause_of_header(next(found, [])))], 0
    for number, fields in enumerate(found, 1):
        cause = cause_of_row(fields) if number <= MOST_ROWS else "more than 100,000 rows"
        causes.append((number, cause))
        good += cause is None
    return [(number, cause) for number, cause in causes if cause is not None], good


def lines_of_check(bytes_):
    """What checking a copies file prints, and its status."""
    bad, good = bad_rows(bytes_)
    return "".join(f"row {number} bad\n" for number, _ in bad) + f"good {good} bad {len(bad)}\n", 4 if bad else 0


def lines_of(library, bytes_):
    """What taking in a copies file prints, and its status. Its rows are handled."""
    rows, bad = read_copies(bytes_)
    *lines, last = library.take_in(rows).splitlines()
    if bad is not None:
        lines.append(f"row {bad} bad")
    status = 4 if bad is not None else 2 if last.split()[-1] != "0" else 0
    return "\n".join([*lines, last, ""]), status
