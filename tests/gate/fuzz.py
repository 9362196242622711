#!/usr/bin/env python3
"""Random and mutated web requests, and copies files, against the program and against a reader of its own in plain
Python.

    tests/gate/fuzz.py [SEED [CASES]]

The seed decides every case. Each round has a library of its own, which begins as the small one; every second one has
three clerks in a file of keys. Its requests come over a socket to `circ serve`, one after another, and then its copies
files by `circ import`; each answer has to be, byte by byte, that of `outer_forms` and `desk_rules`, which were written
from the rules, and so has each row at the end of the round. A case has a minute; none may crash or hang the program.
"""

import csv
import io
import json
import os
import random
import shutil
import socket
import subprocess
import sys
import tempfile
import time
from collections import Counter
from concurrent.futures import ProcessPoolExecutor
from contextlib import closing

import room  # finds lib and reference
from lib import runs
from lib.checking import apart, check, count, counts, run_script
from lib.messages import message
from lib.questions import FORMS as FORMS_OF_QUESTIONS
from lib.runs import GROUND, PROGRAM, say
from lib.serving import DESK_KEY, Serving, everything
from reference.desk_rules import CORRECTIONS, LABELS, QUESTIONS, SEARCHES, Library
from reference.outer_forms import (
    HEADER, HEAD_BYTES, MARK, MOST_LEVELS, WORDS, Failed, answer_to, is_barcode, is_card_key, is_day, is_mask,
    is_name, lines_of, lines_of_check, read_request,
)

SEED, CASES = 28, 10_000
TOLD = 25_000  # after as many cases a long run tells that it goes on
REQUESTS, FILES = 470, 30  # in a round

# What stands for the parts of a request: mostly what is good, and with it what is nearly so.
NUMBERS = ["1", "2", "3", "10", "11", "20", "30", "100", "200", "300"]
ODD_NUMBERS = ["0", "01", "+1", "-1", "1.0", "", " 1", "1 ", "1e0", "x", "99", "100", "9999999", "10000000", "4294967295", "4294967296",
               "42949672950", "99999999999999999999", "\u0661", "0x1", "1_0", "007"]
DAYS = ["2026-03-03", "2026-03-04", "2026-03-09", "2026-04-01", "2026-05-01", "2000-01-01"]
FIRST_DAYS = ["2026-03-04", "2026-03-09", "2026-04-01", "2026-05-01", "2026-06-01", "2190-12-31"]  # of holds
ODD_DAYS = ["2026-3-3", "2026-02-29", "2028-02-29", "2026-13-01", "2191-01-01", "2199-12-31", "2200-01-01", "1999-12-31", "20260303", "2026-03-03 ", ""]
GRACE = ["0", "1", "1", "1", "2", "3", "365", "366"]
PATRONS, TITLES, COPIES = ["1", "2", "3"], ["100", "200", "300"], ["10", "11", "20", "30"]
AFTERS = ["0", "0", "0", "1", "2", "10", "4294967295"]  # from which a list goes on
CHARGED = ["1", "30", "250", "0", "1000000", "1000001"]  # cents
DAYS_AFTER = ["0", "0", "20514", "20515", "20521", "20550", "84005"]  # and a list of days
NAMED = {"P": PATRONS, "C": COPIES, "B": PATRONS, "T": TITLES, "K": ["1", "1", "2"], "A": AFTERS}
# What questions, corrections and what lends mostly name, by their words.
MOSTLY = {
    **{name: [NAMED[it] for it in form.split() if it in NAMED] for name, form in FORMS_OF_QUESTIONS.items()},
    "check-out": [PATRONS, COPIES, ["1", "1", "2"]], "check-in": [COPIES, ["1", "2"]], "renew": [["1", "2", "3"]],
    "card-key": [PATRONS], "amend-patron": [PATRONS, ["1", "1", "2"]], "amend-branch": [["1", "2"], ["0", "3", "60", "61"]], "amend-title": [TITLES], "amend-copy": [COPIES, ["1", "2"]],
    "rehome": [COPIES, ["1", "2"]], "closed-days": [["1", "2"], DAYS_AFTER], "copy-barcode": [COPIES],
    "patron-barcode": [PATRONS],
    "charge": [PATRONS, CHARGED, ["1", "2"]], "pay-at": [PATRONS, ["1", "10", "30"], ["1", "2"]],
    "till-at": [["1", "2"], ["2026-03-02", "2026-03-03", "2026-03-09"]],
}
SOUGHT = ["n", "bell ann", "ÁNN", "R c", "o", "rivers NORTH", "s  r", "bucher", "日本", "x", "7", "maps old"]
MASKS, ODD_MASKS = ["ooooooc", "coooooc", "ooooooo"], ["ccccccc", "oooooo", "oooooooo", "OOOOOOO", "oooooox"]
NAMES = ["Main", "Hill", "Rivers of the North", "Salt Roads", "Night Ferries", "Bücher", "日本 \U0001f4da", 'Maps, "Old"', "\u2028\u0085", "x" * 120, "7"]
ODD_NAMES = ["", " Hill", "Hill ", "x" * 121, "ü" * 60, "ü" * 60 + "x", "a\nb", "a\tb", "a\x7fb", "a\x00b", "-Hill"]
CARD_KEYS = ["cardkey00001", "cardkey00002", "cardkey00003"]
ODD_CARD_KEYS = ["cardkey00009", "short", "c" * 8, "c" * 32, "c" * 33, "card-key-1", "cardkey0000\u00e9", "", DESK_KEY.upper(), "CARDKEY00001"]
# mostly one of them, so that it is there already, or is found
BARCODES = ["a1", "a1", "a1", "a1", "A1", "01", "1", "x" * 24]
ODD_BARCODES = ["", "x" * 25, "a-1", " a1", "a1 ", "\u00fc1", "\u0661", "a_1", "00"]
CLERKS = [("ann", "desk", "annkey000001"), ("bo", "desk", "bokey0000001"), ("kiosk", "lending", "kioskkey0001")]
FORMS = {is_day: (DAYS, ODD_DAYS), is_mask: (MASKS, ODD_MASKS), is_name: (NAMES, ODD_NAMES),
         is_card_key: (CARD_KEYS, ODD_CARD_KEYS), is_barcode: (BARCODES, ODD_BARCODES)}
METHODS = ["GET", "POST", "PUT", "DELETE", "get", "Post", "G", "HEAD", "OPTIONS", "G\u00cbT", "", "GET,", "M-SEARCH"]
VERSIONS = ["HTTP/1.0", "HTTP/1.1", "HTTP/1.1", "HTTP/1.1", "HTTP/1.2", "HTTP/2.0", "HTTP/0.9", "http/1.1", "HTTP/1.1 ", "HTTP/1.", "HTTP/11", ""]
LENGTHS = ["+5", "-1", "", "5 5", "0x5", "00000000005", "0000000005", "12345678901", "65536", "65537", "4294967296", "5,5", "5.0", "\u0665", "0", "1"]
FIELDS = ["Host: 127.0.0.1", "Accept: */*", "X:", "A: b", "Expect: 100-continue", "Connection: close", "X-\u00fc: 1", "Bad Name: 1", ": 1", "Name : 1",
          "Transfer-Encoding: chunked", "transfer-encoding:", "Transfer-Encodings: x", "Folded: a\r\n b", "Nul: \x00", "Tab:\ta\t", "Del: \x7f",
          "Cr: a\rb", "Latin: \u00fc"]
ODD_VALUES = ['"1"', "-1", "-0", "1.0", "1e0", "1E+2", "4294967295", "4294967296", "18446744073709551616", "1e308", "1e309", "-1e400", "01", "+1", "null",
              "true", "nul", "[1]", "[]", "[1,]", "{}", '{"a":1}', "{1:1}", ".5", "1.", "1e", "NaN", "-Infinity", "1" + "0" * 400, '"\\ud83d\\ude00"', '"\\ud800"',
              '"\\ude00\\ud83d"', '"\\ud83dx"', '"\\ud83d\\n"', '"\\u12G4"', '"\\x"', '"\x01"', '"\x7f"', '"\t"', "'1'", "1//", '"']
TOKENS = [b"GET ", b"POST ", b"/patrons/", b"/desk", b" HTTP/1.1", b"\r\n", b"\n", b"\r", b"\r\n\r\n", b": ", b"Content-Length", b"Card-Key", b"Desk-Key",
          b"Request-Key", b"{", b"}", b"[", b"]", b'"', b",", b'"branch":', b'"title":', b'"from":', b'"2026-05-01"', b"1", b"0", b"-", b" ", b"\t", b"\x00", b"\xff", b"\xc3", b"\\u",
          b"\\ud800", b"\\", b"e9", b".5", b"null", MARK, b"end", b'""', b"copy,title,text,kind,home,price,end\n", b";", b"'"]


class Cases:
    """The cases of one round."""

    def __init__(self, rng, number):
        self.rng, self.number, self.count, self.keys, self.before = rng, number, 0, [], [b"", b"x"]
        # the keys of the desk, as often as they are shown
        ann, bo, kiosk = (key for _, _, key in CLERKS)
        self.clerks, self.desk_keys = (CLERKS, [ann, bo, kiosk, kiosk]) if number % 2 else (DESK_KEY, [DESK_KEY])

    def odd(self, chance):
        return self.rng.random() < chance

    def one_of(self, good, odd, chance=0.04):
        return self.rng.choice(odd if self.odd(chance) else good)

    def number_text(self, chance=0.04):
        return self.one_of(NUMBERS, ODD_NUMBERS, chance)

    # ---- words and bodies

    def word(self, name, form):
        """A part of a command, which mostly has its form."""
        if form not in FORMS:
            # mostly kinds that have a rule
            return self.one_of(GRACE, ODD_NUMBERS) if name == "grace" else self.number_text()
        return self.one_of(FIRST_DAYS, ODD_DAYS) if name == "place-hold-from" else self.one_of(*FORMS[form])

    def words(self):
        """Words of the desk."""
        name = self.rng.choice([*WORDS, "grace", "check-out", "check-in", "place-hold", "place-hold-from", "renew", "pay",
                                "copy-barcode", "find-barcode", "find-barcode", "charge", "pay-at", "pay-at"])
        words = [name] + [self.word(name, form) for form in WORDS[name]]
        for place, those in enumerate(MOSTLY.get(name, []), 1):
            words[place] = self.one_of(those, ODD_NUMBERS)
        if name in SEARCHES:
            words[2] = self.one_of(SOUGHT, ODD_NAMES)
        # mostly the key that the patron had at the beginning, so that it opens something again
        if name == "card-key" and self.odd(0.6):
            words[2] = f"cardkey{words[1]:0>5}"
        if self.odd(0.05):
            place = self.rng.randrange(len(words))
            words[place:place + self.rng.randrange(2)] = self.rng.choices(["1", "", "-1", "page", "help", "--", name], k=self.rng.randrange(4))
        return words

    def json_string(self, text):
        """A text in JSON, some of its letters by escapes."""
        if self.odd(0.7):
            return json.dumps(text, ensure_ascii=self.odd(0.5))
        units = text.encode("utf-16-be")
        escapes = [f"\\u{units[at]:02x}{units[at + 1]:02X}" for at in range(0, len(units), 2)]
        return '"' + "".join(escapes) + '"'

    def blank(self):
        return self.rng.choice(["", "", "", " ", "\n", "\t", "\r\n"]) if self.odd(0.3) else ""

    def json_value(self, chance=0.15):
        """Mostly a number as it should be."""
        return self.rng.choice(ODD_VALUES) if self.odd(chance) else self.number_text(0)

    def hold(self):
        members = [("branch", self.rng.choice(["1", "2"])), ("title", self.rng.choice(["100", "200", "300"]))]
        members = [(name, value if self.odd(0.8) else self.json_value()) for name, value in members]
        if self.odd(0.4):
            day = self.json_string(self.one_of(FIRST_DAYS, ODD_DAYS))
            members.append(("from", day if self.odd(0.95) else self.json_value(0.5)))
        if self.odd(0.1):
            members.append((self.rng.choice(["branch", "title", "from", "copy", "", "Branch", "From"]), self.json_value()))
        if self.odd(0.03):
            members.pop(0)
        self.rng.shuffle(members)
        # a value that another takes the place of has to be JSON all the same
        if self.odd(0.15):
            members.insert(0, (self.rng.choice(["branch", "title", "from"]), self.json_value(0.9)))
        texts = [self.blank() + self.json_string(name) + self.blank() + ":" + self.blank() + value + self.blank() for name, value in members]
        return "{" + ",".join(texts) + "}"

    def desk_body(self):
        items = [self.json_string(word) if self.odd(0.98) else self.json_value(0.5) for word in self.words()]
        return "[" + ",".join(self.blank() + item + self.blank() for item in items) + "]"

    def deep(self):
        """Lists or objects in one another, about as deep as a JSON text may be."""
        depth = self.rng.randrange(MOST_LEVELS - 2, MOST_LEVELS + 3)
        value = "[" * depth + "]" * depth if self.odd(0.5) else '{"a":' * depth + "1" + "}" * depth
        return f'{{"branch":{value},"branch":1,"title":100}}' if self.odd(0.7) else value

    def body(self, route):
        if self.odd(0.02):
            text = self.rng.choice(["", "{}", "[]", "null", '""', " ", '["page"]', '["page",1]', "[1,2]", "\ufeff[]", json.dumps(["1"] * 13)])
        elif self.odd(0.02):
            text = self.deep()
        elif route == "holds" or self.odd(0.01):
            text = self.hold()
        elif route == "desk":
            text = self.desk_body()
        else:
            text = ""
        if self.odd(0.04):
            text = self.blank() + text + self.rng.choice([" ", "\n", "x", "\x00", ",", "]", "\ufeff"])
        return text.encode("utf-8", "surrogatepass")

    # ---- requests

    def target(self, route):
        patron = self.rng.choice(["1", "2", "3"]) if self.odd(0.95) else self.rng.choice([*ODD_NUMBERS, "8"])
        number = self.rng.choice(["1", "2", "3", "4"]) if self.odd(0.95) else self.number_text(0.5)
        text = {"page": f"/patrons/{patron}", "holds": f"/patrons/{patron}/holds", "cancel-hold": f"/patrons/{patron}/holds/{number}/cancel",
                "renew": f"/patrons/{patron}/loans/{number}/renew", "desk": "/desk"}[route]
        if self.odd(0.03):
            text = self.rng.choice([text + "/", text + "?x=1", "/" + text, text.upper(), text[1:], text + "/holds", "*", "/", "http://a" + text, text + "\u00fc",
                                    text.replace("/", "%2F"), text.replace("a", "%61")])
        return text, patron

    def own_key(self):
        self.count += 1
        if self.keys and self.odd(0.1):
            return self.rng.choice(self.keys)
        if self.odd(0.03):
            return self.rng.choice(["", "a b", "k" * 40, "k" * 41, "k_1", "\u00fc", "-", "a,b"])
        self.keys.append(f"request-{self.number}-{self.count}")
        return self.keys[-1]

    def fields(self, route, patron, body):
        own = self.rng.choice(self.desk_keys) if route == "desk" else f"cardkey{patron:0>5}"
        shown = own if self.odd(0.93) else self.rng.choice([*CARD_KEYS, *ODD_CARD_KEYS, DESK_KEY, *self.desk_keys])
        fields = [("Desk-Key" if route == "desk" else "Card-Key", shown)]
        if route != "page" or self.odd(0.05):
            fields.append(("Request-Key", self.own_key()))
        if body or self.odd(0.05):
            fields.append(("Content-Length", str(len(body))))
        if self.odd(0.06):
            fields.append(("Content-Length", self.rng.choice([*LENGTHS, str(len(body)), str(len(body) + 1)])))
            if self.odd(0.7):
                fields = [it for it in fields[:-1] if it[0] != "Content-Length"] + fields[-1:]
        if self.odd(0.05):
            fields.append(self.rng.choice([*fields, ("Card-Key", shown), ("Desk-Key", shown)]))
        if self.odd(0.03):
            fields.pop(self.rng.randrange(len(fields)))
        return fields

    def field_line(self, name, value):
        if self.odd(0.15):
            name = self.rng.choice([name.lower(), name.upper(), name.swapcase()])
        before, after = (self.rng.choice([" ", " ", "", "\t", "  "]) for _ in range(2))
        return f"{name}:{before}{value}{after if self.odd(0.1) else ''}"

    def request(self):
        """A request, with a few parts that aren't good."""
        route = self.rng.choice(["page", "holds", "holds", "cancel-hold", "renew", "desk", "desk", "desk"])
        (target, patron), body = self.target(route), self.body(route)
        method = self.rng.choice(METHODS) if self.odd(0.04) else "GET" if route == "page" else "POST"
        version = self.rng.choice(VERSIONS) if self.odd(0.1) else "HTTP/1.1"
        lines = [self.field_line(*field) for field in self.fields(route, patron, body)]
        if self.odd(0.2):
            lines += self.rng.choices(FIELDS, k=self.rng.randrange(1, 3))
        if self.odd(0.03):
            lines += [f"N{at}: {at}" for at in range(self.rng.randrange(30, 34) - len(lines))]
        if self.odd(0.5):
            self.rng.shuffle(lines)
        end = "\n" if self.odd(0.1) else "\r\n"
        front = end * self.rng.randrange(3) if self.odd(0.05) else ""
        head = front + end.join([f"{method} {target} {version}", *lines, "", ""])
        head = head.encode("utf-8" if self.odd(0.8) else "latin-1", "replace")
        if self.odd(0.02):
            size = self.rng.randrange(HEAD_BYTES - 2, HEAD_BYTES + 3) - len(head) - 4
            head = head.replace(b"\n", b"\nP: " + b"p" * size + b"\n", 1) if end == "\n" else head.replace(b"\r\n", b"\r\nP: " + b"p" * (size - 1) + b"\r\n", 1)
        return head + body

    # ---- bytes

    def mutated(self, bytes_):
        """The same with some of its bytes changed."""
        found = bytearray(bytes_)
        for _ in range(self.rng.choice([1, 1, 1, 2, 3, 8])):
            at = self.rng.randrange(len(found) + 1)
            end = min(len(found), at + self.rng.choice([1, 1, 2, 4, 30]))
            deed = self.rng.randrange(8)
            if deed == 0:
                found[at:end] = bytes(byte ^ 1 << self.rng.randrange(8) for byte in found[at:end])
            elif deed == 1:
                found[at:end] = self.rng.randbytes(end - at)
            elif deed == 2:
                found[at:at] = self.rng.choice(TOKENS)
            elif deed == 3:
                del found[at:end]
            elif deed == 4:
                found[at:at] = found[at:end]
            elif deed == 5:
                del found[at:]
            elif deed == 6:
                other = self.rng.choice(self.before)
                found[at:] = other[self.rng.randrange(len(other) + 1):]
            else:
                found[at:end] = self.rng.choice(TOKENS)
        return bytes(found)

    def noise(self):
        if self.odd(0.3):
            return self.rng.randbytes(self.rng.randrange(200))
        return b"".join(self.rng.choices(TOKENS, k=self.rng.randrange(30)))

    def made(self, make, chances):
        """One case: as it is made, mutated, or noise."""
        sort = self.rng.choices(["made", "mutated", "noise"], chances)[0]
        if sort == "noise":
            return self.noise()
        found = make()
        if sort == "mutated":
            found = self.mutated(found)
        self.before = [*self.before[-49:], found]
        return found

    def next_request(self):
        return self.made(self.request, (60, 36, 4))

    def pieces(self, bytes_):
        """The pieces in which a request is sent."""
        if self.odd(0.9) or len(bytes_) < 2:
            return [bytes_]
        cuts = sorted(self.rng.sample(range(1, len(bytes_)), min(3, len(bytes_) - 1)))
        return [bytes_[start:end] for start, end in zip([0, *cuts], [*cuts, len(bytes_)])]

    # ---- copies files

    def row(self):
        """A row of a copies file. A copy that comes again is mostly the same."""
        copy_ = self.rng.randrange(40, 80)
        row = [str(copy_), str(500 + copy_ % 10), NAMES[copy_ % 10], str(1 + copy_ % 2), str(1 + copy_ // 2 % 2), str(100 * copy_), "end"]
        if self.odd(0.1):
            place = self.rng.randrange(6)
            row[place] = self.one_of(NAMES, ODD_NAMES, 0.3) if place == 2 else self.one_of([*NUMBERS, "9", "1000000", "1000001"], ODD_NUMBERS, 0.3)
        if self.odd(0.01):
            row[self.rng.randrange(6)] = self.rng.choice(["062", "\ufeff", "", " 1"])
        if self.odd(0.03):
            row[6] = self.rng.choice(["END", "End", "end ", "en", ""])
        if self.odd(0.02):
            row.pop(self.rng.randrange(7))
        if self.odd(0.01):
            row.append("end")
        return row

    def copies(self):
        """A copies file."""
        text = io.StringIO()
        lines = csv.writer(text, lineterminator=self.rng.choice(["\n", "\n", "\r\n", "\r"]), quoting=self.rng.choice([csv.QUOTE_MINIMAL, csv.QUOTE_ALL]))
        if self.odd(0.98):
            lines.writerow(name.decode() for name in HEADER)
        for _ in range(self.rng.randrange(12)):
            lines.writerow(self.row())
            if self.odd(0.03):
                text.write(self.rng.choice(["\n", "\r\n", "\r", " \n", '"', "\n\n"]))
        found = text.getvalue().encode("utf-8" if self.odd(0.97) else "latin-1", "replace")
        return MARK * (self.rng.randrange(3) if self.odd(0.1) else 0) + found

    def next_file(self):
        return self.made(self.copies, (55, 42, 3))


def exchange(port, pieces):
    """What pieces of a request are answered. A client that is still sending may be cut off after its answer."""
    with socket.create_connection(("127.0.0.1", port), timeout=60) as peer:
        peer.setsockopt(socket.IPPROTO_TCP, socket.TCP_NODELAY, 1)
        try:
            for piece in pieces:
                peer.sendall(piece)
            peer.shutdown(socket.SHUT_WR)
        except (BrokenPipeError, ConnectionResetError):
            pass
        return everything(peer)


def ask_all(cases, path, library, where, seen, shown):
    """All requests of a round."""
    with Serving(path, REQUESTS, clerks=cases.clerks if cases.clerks != DESK_KEY else None) as serving:
        for at in range(REQUESTS):
            request = cases.next_request()
            status, wanted = answer_to(library, cases.clerks, request)
            check(f"{where}, request {at}: {request!r}", exchange(serving.port, cases.pieces(request)), wanted)
            seen[f"answers {status}"] += 1
            shown.update([question_of(request)] if status == 200 else [])


def question_of(request):
    """The question that a request asks, or what else it is."""
    try:
        name = read_request(request)[3][0]
    except Failed:
        return "none"
    return name if name in QUESTIONS else "none"


def check_all_rows(what, file, copies):
    """A copies file is checked too."""
    words, (lines, status) = ["import", "--check", file], lines_of_check(copies)
    run = subprocess.run([PROGRAM, *words], capture_output=True, timeout=60)
    check(what, (run.stdout.decode(), run.stderr, run.returncode), (lines, message(words, lines), status))


def take_in_all(cases, path, library, where, seen):
    """All copies files of a round."""
    for at in range(FILES):
        copies, file = cases.next_file(), path + ".csv"
        with open(file, "wb") as opened:
            opened.write(copies)
        lines, status = lines_of(library, copies)
        run = subprocess.run([PROGRAM, "import", path, file], capture_output=True, timeout=60)
        check_all_rows(f"{where}, the check of copies file {at}: {copies!r}", file, copies)
        check(f"{where}, copies file {at}: {copies!r}", (run.stdout.decode(), run.stderr, run.returncode), (lines, message(["import", path, file], lines), status))
        seen[f"files that end with status {status}"] += 1


def play(ground, library, seed, number):
    """One round: how often each status came, each question was answered and each correction accepted, how many holds
    have a first day, how often grace days were set, and whose hands there were."""
    cases, seen, shown, where = Cases(random.Random(f"{seed} {number}"), number), Counter(), Counter(), f"seed {seed}, round {number}"
    with tempfile.TemporaryDirectory() as folder:
        path = os.path.join(folder, "round.db")
        shutil.copy(ground, path)
        ask_all(cases, path, library, where, seen, shown)
        take_in_all(cases, path, library, where, seen)
        runs.the_rows_are(path, library)
    accepted = Counter(text.partition(" ")[0] for text, _ in library.kept.values())
    accepted += Counter(f"by {key.partition('/')[0]}" for _, key in library.kept if "/" in key)
    return seen, shown, sum(hold["first"] is not None for hold in library.holds.values()), accepted


def main(seed=SEED, cases=CASES):
    rounds, began, library = -(-cases // (REQUESTS + FILES)), time.monotonic(), Library()
    with tempfile.TemporaryDirectory() as folder, ProcessPoolExecutor(os.cpu_count()) as pool:
        ground = os.path.join(folder, "ground.db")
        say(ground, GROUND)
        for key, words, line in GROUND:
            check(f"{key} by the rules", library.handle(key, words), line)
        seen, shown, first_days, accepted = Counter(), Counter(), 0, Counter()
        with closing(pool.map(apart, *zip(*[(play, ground, library, seed, number) for number in range(rounds)]))) as played:
            for made, its in played:
                count(*its)
                if made is None:
                    continue
                found, questions, held, done = made
                seen, shown, first_days, accepted = seen + found, shown + questions, first_days + held, accepted + done
                if seen.total() % TOLD == 0:
                    print(f"fuzz: {seen.total()} cases by the seed {seed}, {counts['failed']} differences so far", flush=True)
    wanted = [f"answers {status}" for status in (200, 400, 403, 404, 405, 409, 413)] + [f"files that end with status {status}" for status in (0, 2, 4)]
    check("each status came", [name for name in wanted if not seen[name]], [])
    check("each question was answered", [name for name in QUESTIONS if not shown[name]], [])
    check("holds with a first day were placed, and grace days set", (first_days > 0, accepted["grace"] > 0), (True, True))
    check("each correction was accepted", [name for name in CORRECTIONS if not accepted[name]], [])
    check("barcodes were given and dropped, and counters used",
          [name for name in (*LABELS, "charge", "pay-at") if not accepted[name]], [])
    check("requests of each clerk were accepted", [name for name, _, _ in CLERKS if not accepted[f"by {name}"]], [])
    told, hands = ", ".join(f"{many} {name}" for name, many in sorted(seen.items())), ", ".join(f"{many} {name}" for name, many in sorted(accepted.items()) if name.startswith("by "))
    print(f"fuzz: {seen.total()} cases by the seed {seed} in {time.monotonic() - began:.0f} seconds, {first_days} holds from a day on, {shown.total() - shown['none']} questions answered, {sum(accepted[name] for name in CORRECTIONS)} corrections accepted, grace days set {accepted['grace']} times, accepted {hands}: {told}")


if __name__ == "__main__":
    run_script(main, *map(int, sys.argv[1:]))
