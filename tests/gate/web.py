#!/usr/bin/env python3
"""Runs `circ serve` and `circ send` over sockets, with clients that nobody here wrote: curl and Python's http.client.

Expected answers are those of docs/RULES.md, worked out by hand; those of the month's commands come from `desk_rules`.
"""

import contextlib
import copy
import datetime
import errno
import json
import os
import pty
import random
import re
import select
import shlex
import shutil
import signal
import socket
import struct
import subprocess
import tempfile
import threading
import time
from collections import Counter
from concurrent.futures import ThreadPoolExecutor
from contextlib import contextmanager

from room import TOP
from lib import runs
from lib.checking import check, part, run_script
from lib.messages import UNWRITTEN, message
from lib.questions import FORMS, every_question
from lib.random_histories import has_rows
from lib.runs import GROUND, HEADER, PROGRAM, circ, digest, rows, whole
from lib.serving import (
    ANN, ANNS_PAGE, BO, DESK_KEY, FAILED, HOLD, PAGE_OF_ANN, Serving, a_library, answer, by_patron, everything, free_port, hold_with, is_let_go, put_keys, started, told,
)
from reference.desk_rules import QUESTIONS, Library
from reference.outer_forms import said
from stories import stories_of


@contextmanager
def deaf_port():
    """A port on which nobody listens, and that nobody else can take meanwhile."""
    with socket.socket() as taken:
        taken.bind(("127.0.0.1", 0))
        yield taken.getsockname()[1]


def each_route(folder, workers):
    """Each route with its command, and each status. A program that tells a fault to all renewals, or breaks every
    connection, fails here: that there is memory no clause can say."""
    path = a_library(folder, "routes.db")
    hold = b'{"branch":1,"title":100}'
    posted = [
        ("POST", "/patrons/2/holds", {**BO, "Request-Key": "h1"}, hold, 200, b'{"reply":"hold 1"}'),
        ("GET", "/patrons/2", BO, None, 200,
         b'{"reply":"patron 2 owed 0 name Bo Carr\\nhold 1 at 1 waiting title 100 Rivers of the North"}'),
        ("GET", "/patrons/1", ANN, None, 200, ANNS_PAGE),
        # the same key again gets the same reply, and another request under it is refused
        ("POST", "/patrons/2/holds", {**BO, "Request-Key": "h1"}, hold, 200, b'{"reply":"hold 1"}'),
        ("POST", "/patrons/2/holds", {**BO, "Request-Key": "h1"}, b'{"branch":2,"title":100}', 409, b'{"refusal":80}'),
        ("POST", "/patrons/2/holds", {**BO, "Request-Key": "h2"}, hold, 409, b'{"refusal":50}'),
        ("POST", "/patrons/2/holds/1/cancel", {**BO, "Request-Key": "c1"}, None, 200, b'{"reply":"ok"}'),
        ("POST", "/patrons/2/holds/1/cancel", {**BO, "Request-Key": "c2"}, None, 409, b'{"refusal":53}'),
        # another patron's hold is as none
        ("POST", "/patrons/1/holds/1/cancel", {**ANN, "Request-Key": "c3"}, None, 409, b'{"refusal":15}'),
        ("POST", "/desk", {"Desk-Key": DESK_KEY, "Request-Key": "d1"}, b'["check-out","1","10","1"]', 200,
         b'{"reply":"loan 1 due 2026-03-09"}'),
        ("POST", "/patrons/1/loans/1/renew", {**ANN, "Request-Key": "r1"}, None, 200, b'{"reply":"loan 1 due 2026-03-16"}'),
        ("POST", "/patrons/2/loans/1/renew", {**BO, "Request-Key": "r2"}, None, 409, b'{"refusal":14}'),
        ("POST", "/desk", {"Desk-Key": DESK_KEY, "Request-Key": "d2"}, b'["page","1"]', 200,
         b'{"reply":"patron 1 owed 0 name Ann Bell\\nloan 1 due 2026-03-16 renewals 0 title 100 Rivers of the North"}'),
        # keys
        ("GET", "/patrons/2", ANN, None, 403, b'{"refusal":81}'),
        ("GET", "/patrons/8", ANN, None, 403, b'{"refusal":81}'),
        ("GET", "/patrons/2", {}, None, 403, b'{"refusal":81}'),
        ("GET", "/patrons/2", {"Card-Key": "short"}, None, 403, b'{"refusal":81}'),
        ("POST", "/patrons/2/holds", {**ANN, "Request-Key": "h3"}, hold, 403, b'{"refusal":81}'),
        ("POST", "/desk", {"Desk-Key": "deskkey00002", "Request-Key": "d3"}, b'["page","1"]', 403, b'{"refusal":81}'),
        ("POST", "/desk", {**ANN, "Request-Key": "d3"}, b'["page","1"]', 403, b'{"refusal":81}'),
        # the checks before them
        ("POST", "/patrons/2/holds", {"Card-Key": "cardkey00009"}, hold, 400, b'{"status":400}'),
        ("POST", "/patrons/2/holds", {**BO, "Request-Key": "h 4"}, hold, 400, b'{"status":400}'),
        ("POST", "/patrons/2/holds", {**BO, "Request-Key": "h4"}, b'{"branch":"1","title":100}', 400, b'{"status":400}'),
        ("POST", "/desk", {"Desk-Key": DESK_KEY, "Request-Key": "d4"}, b'["page","01"]', 400, b'{"status":400}'),
        ("DELETE", "/patrons/x", {}, None, 404, b'{"status":404}'),
        ("GET", "/patrons/01", ANN, None, 404, b'{"status":404}'),
        ("GET", "/patrons/2?x=1", BO, None, 404, b'{"status":404}'),
        ("GET", "/", {}, None, 404, b'{"status":404}'),
        ("POST", "/desk", {"Desk-Key": DESK_KEY, "Request-Key": "d5"}, b" " * 65_537, 413, b'{"status":413}'),
    ]
    wrong = [("DELETE", "/patrons/1", "GET"), ("PUT", "/desk", "POST"), ("GET", "/patrons/1/loans/1/renew", "POST")]
    with Serving(path, len(posted) + len(wrong), workers=workers) as serving:
        for method, target, fields, body, status, wanted in posted:
            serving.answers(method, target, fields, body, status, wanted)
        for method, target, allowed in wrong:
            found = serving.answers(method, target, {}, None, 405, b'{"status":405}')
            check(f"what {target} allows", found.get("Allow"), allowed)
    check("the loan", rows(path, "SELECT loan, copy, patron, due, renewals_left FROM loans3"), [(1, 10, 1, 20528, 0)])
    check("the hold", rows(path, "SELECT hold, patron, title, branch, state FROM holds2"), [(1, 2, 100, 1, 3)])
    check("what is kept of patrons", rows(path, "SELECT caller, key FROM kept WHERE caller > 0 ORDER BY caller, key"),
          [(1, "r1"), (2, "c1"), (2, "h1")])


def from_a_day_on(folder, workers):
    """A patron's hold from a day on, by the route: until its day others borrow and renew, and on its day a copy that
    comes in is kept for it."""
    path = a_library(folder, "from.db")
    body = lambda day: b'{"branch":1,"from":"' + day + b'","title":100}'
    places = lambda key: ("POST", "/patrons/2/holds", {**BO, "Request-Key": key})
    desks = lambda key, *words: ("POST", "/desk", {"Desk-Key": DESK_KEY, "Request-Key": key}, json.dumps(words).encode())
    waiting = b'{"reply":"patron 2 owed 0 name Bo Carr\\nhold 1 at 1 waiting from 2026-03-05 title 100 Rivers of the North"}'
    ready = b'{"reply":"patron 2 owed 0 name Bo Carr\\nhold 1 at 1 ready title 100 Rivers of the North"}'
    asked = [
        (*places("h1"), body(b"2026-03-02"), 409, b'{"refusal":23}'),
        (*places("h2"), body(b"2191-01-01"), 409, b'{"refusal":23}'),
        # the patron's own key and number, and no other's
        ("POST", "/patrons/2/holds", {**ANN, "Request-Key": "h3"}, body(b"2026-03-05"), 403, b'{"refusal":81}'),
        ("POST", "/patrons/1/holds", {**BO, "Request-Key": "h3"}, body(b"2026-03-05"), 403, b'{"refusal":81}'),
        ("POST", "/patrons/8/holds", {**BO, "Request-Key": "h3"}, body(b"2026-03-05"), 403, b'{"refusal":81}'),
        (*places("h3"), body(b"2026-03-05"), 200, b'{"reply":"hold 1"}'),
        # the same key again: the same request, also with its members in another order, another day, and the hold of no
        # day
        (*places("h3"), b'{ "title": 100, "from": "2026\\u002d03-05", "branch": 1 }', 200, b'{"reply":"hold 1"}'),
        (*places("h3"), body(b"2026-03-06"), 409, b'{"refusal":80}'),
        (*places("h3"), HOLD, 409, b'{"refusal":80}'),
        (*places("h4"), body(b"2026-03-06"), 409, b'{"refusal":50}'),
        (*desks("d1", "check-in", "10", "1"), 200, b'{"reply":"fine 0 shelf 1"}'),
        (*desks("d2", "check-out", "2", "10", "1"), 409, b'{"refusal":50}'),
        (*desks("d3", "check-out", "1", "10", "1"), 200, b'{"reply":"loan 1 due 2026-03-09"}'),
        ("POST", "/patrons/1/loans/1/renew", {**ANN, "Request-Key": "r1"}, None, 200, b'{"reply":"loan 1 due 2026-03-16"}'),
        ("GET", "/patrons/2", BO, None, 200, waiting),
        (*desks("d4", "begin-day", "2026-03-05"), 200, b'{"reply":"ok"}'),
        ("GET", "/patrons/2", BO, None, 200, waiting),
        (*places("h3"), body(b"2026-03-05"), 200, b'{"reply":"hold 1"}'),
        ("POST", "/patrons/1/loans/1/renew", {**ANN, "Request-Key": "r2"}, None, 409, b'{"refusal":36}'),
        (*desks("d5", "check-in", "11", "1"), 200, b'{"reply":"fine 0 ready 1 at 1 until 2026-03-10"}'),
        ("GET", "/patrons/2", BO, None, 200, ready),
        (*desks("d6", "missing", "11"), 200, b'{"reply":"ok"}'),
        ("GET", "/patrons/2", BO, None, 200, waiting),
        # the desk sends it too; a hold is cancelled before its day, by its patron alone
        (*desks("d7", "place-hold-from", "2", "200", "2", "2190-12-31"), 200, b'{"reply":"hold 2"}'),
        ("POST", "/patrons/1/holds/2/cancel", {**ANN, "Request-Key": "c1"}, None, 409, b'{"refusal":15}'),
        ("POST", "/patrons/2/holds/2/cancel", {**BO, "Request-Key": "c2"}, None, 200, b'{"reply":"ok"}'),
        # of a member that is repeated the last value is kept
        (*places("h5"), b'{"from":null,"branch":1,"from":"2026-03-06","title":300}', 200, b'{"reply":"hold 3"}'),
    ]
    with Serving(path, len(asked), workers=workers) as serving:
        for it in asked:
            serving.answers(*it)
    check("the holds", rows(path, "SELECT hold, patron, title, branch, state, copy, limit_day, first_day FROM holds2"),
          [(1, 2, 100, 1, 0, None, None, 20517), (2, 2, 200, 2, 3, None, None, 80718), (3, 2, 300, 1, 0, None, None, 20518)])
    check("what is kept of Bo", rows(path, "SELECT key, text, reply FROM kept WHERE caller = 2 ORDER BY key"),
          [("c2", "cancel-hold 2", "ok"), ("h3", "place-hold-from 2 100 1 2026-03-05", "hold 1"), ("h5", "place-hold-from 2 300 1 2026-03-06", "hold 3")])


def grace_days(folder, workers):
    """The desk sets grace days over the web: a loan within those that its rule had when it was made costs nothing and
    shows no charge, a later one costs each day late, and no patron may set them."""
    path = a_library(folder, "grace.db")
    desks = lambda key, *words: ("POST", "/desk", {"Desk-Key": DESK_KEY, "Request-Key": key}, json.dumps(words).encode())
    asked = [
        (*desks("d1", "grace", "1", "3", "2"), 409, b'{"refusal":16}'),
        (*desks("d2", "grace", "1", "1", "366"), 409, b'{"refusal":21}'),
        (*desks("d3", "grace", "1", "1", "-2"), 400, b'{"status":400}'),
        (*desks("d3", "grace", "1", "1"), 400, b'{"status":400}'),
        ("POST", "/desk", {**ANN, "Request-Key": "d3"}, b'["grace","1","1","2"]', 403, b'{"refusal":81}'),
        ("POST", "/patrons/1/grace", {**ANN, "Request-Key": "d3"}, b'["grace","1","1","2"]', 404, b'{"status":404}'),
        # a loan of before has none, also once it is renewed
        (*desks("d3", "check-out", "2", "20", "2"), 200, b'{"reply":"loan 1 due 2026-03-10"}'),
        (*desks("d4", "grace", "1", "1", "2"), 200, b'{"reply":"ok"}'),
        (*desks("d4", "grace", "1", "1", "2"), 200, b'{"reply":"ok"}'),
        (*desks("d4", "grace", "1", "1", "3"), 409, b'{"refusal":80}'),
        ("POST", "/patrons/2/loans/1/renew", {**BO, "Request-Key": "r1"}, None, 200, b'{"reply":"loan 1 due 2026-03-17"}'),
        (*desks("d5", "check-out", "1", "10", "1"), 200, b'{"reply":"loan 2 due 2026-03-09"}'),
        (*desks("d6", "check-out", "1", "11", "1"), 200, b'{"reply":"loan 3 due 2026-03-09"}'),
        # what is set later changes no loan
        (*desks("d7", "rule", "1", "1", "6", "1", "20", "100"), 200, b'{"reply":"ok"}'),
        (*desks("d8", "begin-day", "2026-03-11"), 200, b'{"reply":"ok"}'),
        ("POST", "/patrons/1/loans/2/renew", {**ANN, "Request-Key": "r2"}, None, 409, b'{"refusal":41}'),
        (*desks("d9", "check-in", "10", "1"), 200, b'{"reply":"fine 0 shelf 1"}'),
        ("GET", "/patrons/1", ANN, None, 200, b'{"reply":"patron 1 owed 0 name Ann Bell\\nloan 3 due 2026-03-09 renewals 1 title 100 Rivers of the North"}'),
        (*desks("e1", "pay", "1", "1"), 409, b'{"refusal":60}'),
        (*desks("e2", "begin-day", "2026-03-12"), 200, b'{"reply":"ok"}'),
        (*desks("e3", "check-in", "11", "1"), 200, b'{"reply":"fine 60 shelf 1"}'),
        ("GET", "/patrons/1", ANN, None, 200, b'{"reply":"patron 1 owed 60 name Ann Bell"}'),
        (*desks("e4", "check-out", "3", "11", "1"), 200, b'{"reply":"loan 4 due 2026-03-18"}'),
        (*desks("e5", "begin-day", "2026-03-19"), 200, b'{"reply":"ok"}'),
        (*desks("e6", "check-in", "11", "1"), 200, b'{"reply":"fine 20 shelf 1"}'),
        (*desks("e7", "missing", "20"), 200, b'{"reply":"fine 40 price 1200"}'),
    ]
    with Serving(path, len(asked), workers=workers) as serving:
        for it in asked:
            serving.answers(*it)
    check("the rules", rows(path, "SELECT * FROM rules3"), [(1, 1, 6, 1, 20, 100, 0), (1, 2, 12, 1, 20, 100, 0)])
    check("the loans", rows(path, "SELECT loan, patron, due, ended, grace FROM loans3"),
          [(1, 2, 20529, 20531, 0), (2, 1, 20521, 20523, 2), (3, 1, 20521, 20524, 2), (4, 3, 20530, 20531, 0)])
    check("the lines", rows(path, "SELECT patron, day, sort, amount, loan FROM lines"), [(1, 20524, 0, 60, 3), (3, 20531, 0, 20, 4), (2, 20531, 0, 40, 1), (2, 20531, 1, 1200, 1)])


def of_stories():
    """What the stories of the desk's questions, of corrections and of labels ask, each as a list: the step, the key,
    the words and the answer. Those of labels go on after those of corrections, and these after those of what is
    found."""
    paths = [os.path.join(TOP, "tests", "data", "stories", name) for name in ("asking.txt", "settings_shown.txt",
        "labels.txt")]
    stories = [story for path in paths for story in stories_of(path) if story.is_plain()]
    return [[(step, key, words, "\n".join(step.answer)) for step in story.steps for key, words in step.requests()] for story in stories]


def asking(folder, workers):
    """The stories of the desk's questions, corrections and labels by POST /desk, and by `circ send`, those of patrons by
    their routes: each answer, and each row at the end. A patron's key opens the desk's route to none of them, and no
    route of patrons has one."""
    asked, known = of_stories(), Library()
    for key, words, _ in GROUND:
        known.handle(key, words)
    check("how much is asked", sum(words[0] in QUESTIONS for story in asked for _, _, words, _ in story) > 120, True)
    check("patrons ask", sum(step.patron is not None for story in asked for step, *_ in story) > 10, True)
    with_a_card = [(method, target, fields, body, *wanted) for name, parts in EXAMPLES.items() for body in (json.dumps([name, *parts]).encode(),) for method, target, fields, *wanted in (
        ("POST", "/desk", {**ANN, "Request-Key": "q1"}, 403, b'{"refusal":81}'),
        ("POST", "/desk", {"Desk-Key": "cardkey00001", "Request-Key": "q1"}, 403, b'{"refusal":81}'),
        ("POST", f"/patrons/1/{name}", {**ANN, "Request-Key": "q1"}, 404, b'{"status":404}'),
        ("POST", "/desk", {"Desk-Key": DESK_KEY}, 400, b'{"status":400}'))]
    for at, story in enumerate(asked):
        for way in ("posted", "sent"):
            path, library = os.path.join(folder, f"asking-{at}-{way}.db"), copy.deepcopy(known)
            shutil.copy(a_library(folder, "asking.db") if at == 0 and way == "posted" else os.path.join(folder, "asking.db"), path)
            first = with_a_card if at == 0 and way == "posted" else []
            with Serving(path, len(first) + len(story), workers=workers) as serving:
                for it in first:
                    serving.answers(*it)
                for step, key, words, line in story:
                    status, body = (400, b'{"status":400}') if line == "words not understood" else told(line)
                    if step.patron is not None:
                        serving.answers(*by_patron(step.patron, step.card_key, key, words), status, body)
                        continue
                    if way == "posted":
                        serving.answers("POST", "/desk", {"Desk-Key": DESK_KEY, "Request-Key": key}, json.dumps(words).encode(), status, body)
                        continue
                    run = subprocess.run([PROGRAM, "send", str(serving.port), DESK_KEY, key, *words], capture_output=True, timeout=60)
                    answer = body.decode() + "\n"
                    check(f"{key} {words}", (run.stdout.decode(), run.stderr, run.returncode), (answer, message(["send", str(serving.port), DESK_KEY, key, *words], answer), {200: 0, 400: 4}.get(status, 2)))
            for step, key, words, line in story:
                if line != "words not understood":
                    check(f"{key} {words} by the rules", step.by_rules(library, key, words), line)
            runs.the_rows_are(path, library)


# The parts of each question, of each correction, and of what gives barcodes or is at a counter, of the small library.
EXAMPLES = {
    **{name: parts for name,
       *parts in every_question(P="1", C="10", B="1", T="100", K="1", N="2026-03-02", A="0", F="a", W="1")},
    "card-key": ["1", "newkey000001"], "amend-patron": ["1", "1", "Ann"], "amend-branch": ["1", "5", "Main"], "amend-title": ["100", "Mine"], "amend-copy": ["10", "1", "0"], "rehome": ["10", "2"],
    "copy-barcode": ["10", "1"], "patron-barcode": ["1", "1"], "drop-barcode": ["1"],
    "charge": ["1", "5", "1", "Mine"], "pay-at": ["1", "5", "1"],
}

# What is asked at random, of few copies, holds and loans, which get in each other's way. Letters stand for a patron, a
# copy, a branch, a title, a hold, a loan, a day to come, a number of days, a number from which a list goes on, today,
# a kind, a name, a card key, a text to be searched, a barcode, and weekdays; S for one of the requests that set
# something.
AT_RANDOM = ["check-out P C B", "check-out P C B", "check-out P C B", "check-in C B", "check-in C B", "check-in C B", "check-in C B", "place-hold P T B", "place-hold-from P T B D",
             "place-hold-from P T B D", "cancel-hold H", "renew L", "unshelve H", "unshelve-cancelled H",
             "missing C", "begin-day D", "grace 1 1 G", "card-key P Y", "amend-patron P K X", "amend-branch B G X",
             "amend-title T X", "amend-copy C K 900", "rehome C B", "copy-barcode C W", "patron-barcode P W",
             "drop-barcode W", "charge P 30 B X", "pay-at P 10 B", "S"]
SET_AT_RANDOM = ["close-day B D", "close-day B D", "open-day B D", "week B M", "kind K 9 9 1000000", "rule K 1 3 2 10 50"]
ASKED_AT_RANDOM = [*(f"{name} {form}" for name, form in FORMS.items()), "find-patrons 0 F", "copy C", "queue T A",
                   "pulls B A", "closed-days B 0", "find-barcode W", "till-at B N"]
BEFORE = ["kind 1 9 9 1000000", "kind 2 4 4 1000000", "rule 2 1 9 2 10 50", "acquire 21 200 1 1 1200 'Salt Roads'", "acquire 22 200 1 2 1200 'Salt Roads'", "acquire 31 300 2 2 800 'Night Ferries'"]
BY_PATRONS = ("place-hold", "place-hold-from", "cancel-hold", "renew")
NAMES = ["Ann Bell", "Zoë Ærø-Sand", "Åsa Łuć", "Rivers of the North", "7"]
KEYS = ["cardkey00001", "cardkey00002", "cardkey00003", "newkey000001", "newkey000002"]
MASKS = ["ooooooc", "coooooc", "ooooooo"]
BARCODES = ["a1", "A1", "01", "1", "30000100000010"]
SOUGHT = ["n", "BELL an", "asa", "ŁUĆ sa", "zoe aro", "ri th", "7", "s  r"]
TURNS = 2_400
# What holds with a first day have to meet in these turns: what the state of one was before a request, and after it.
CLERKS = [("ann", "desk", "annkey000001"), ("bo", "desk", "bokey0000001"), ("kiosk", "lending", "kioskkey0001")]
SHOWN = Counter()  # how often each question was shown rows
MET = {("waiting", "coming"), ("waiting", "ready"), ("waiting", "cancelled"), ("coming", "ready"), ("ready", "filled"), ("ready", "waiting"), ("ready", "cancelled")}


class Turns:
    """Random requests, of a desk with one key or of clerks, and what holds with a first day met by them."""

    def __init__(self, seed, clerks):
        self.clerks = clerks or DESK_KEY
        self.desk_keys = [key for _, role, key in clerks for _ in range(6 if role == "desk" else 1)] if clerks else [DESK_KEY]
        self.draw, self.library, self.met, self.passed_over, self.shown = random.Random(seed), Library(), set(), 0, Counter()

    def question(self):
        """The next question of the desk, and its answer by the rules."""
        words = self.words(ASKED_AT_RANDOM)
        # loans are seldom overdue here, so that is asked for where it can be
        late = [branch for branch in (1, 2) if self.library.overdue_rows(branch)]
        if late and self.draw.random() < 0.5:
            words = ["overdue", str(self.draw.choice(late)), "0"]
        line = self.library.handle("", words)
        self.shown[words[0]] += has_rows(words, line)
        return words, line

    def card_key(self, patron):
        """A card key for a patron to show: mostly the patron's, now and then another, which may have been."""
        return self.draw.choice(KEYS) if self.draw.random() < 0.1 else self.library.patrons[patron]["card_key"]

    def words(self, forms=AT_RANDOM):
        """The next request of the desk."""
        draw, library = self.draw, self.library
        active = [number for number, hold in library.holds.items() if hold["state"] in ("waiting", "ready")]
        values = {"P": draw.choice("123"), "C": draw.choice(sorted(map(str, library.copies))), "B": draw.choice("12"), "T": draw.choice(("100", "200", "300")),
                  "H": str(draw.choice(active or [1])), "L": str(draw.randint(1, len(library.loans) + 1)), "D": str(library.today + datetime.timedelta(draw.choice((1, 1, 2, 3, 9)))), "G": draw.choice("01239"),
                  "A": draw.choice(("0", "0", "0", "1", "5", "10", "20")), "N": str(library.today),
                  "K": draw.choice("11229"), "X": draw.choice(NAMES), "Y": draw.choice(KEYS),
                  "F": draw.choice(SOUGHT), "M": draw.choice(MASKS), "W": draw.choice(BARCODES)}
        form = draw.choice(forms)
        return [values.get(it, it) for it in (draw.choice(SET_AT_RANDOM) if form == "S" else form).split()]

    def states(self):
        """How each hold with a first day stands."""
        coming = {hold for _, hold in self.library.transits.values()}
        return {number: "coming" if number in coming else hold["state"] for number, hold in self.library.holds.items() if hold["first"]}

    def awaited(self, copy):
        """Whether a hold of a copy's title has its first day to come."""
        title, today = self.library.copies[copy]["title"], self.library.today
        return any(hold["first"] and hold["first"] > today and hold["state"] == "waiting" and hold["title"] == title for hold in self.library.holds.values())

    def handle(self, patron, shown, key, words):
        """The line by the rules."""
        before, is_awaited = self.states(), words[0] == "check-in" and self.awaited(int(words[1]))
        line = said(self.library, self.clerks, patron, shown, key, words)
        self.passed_over += is_awaited and " shelf " in line
        self.met.update((before.get(it), now) for it, now in self.states().items() if before.get(it) != now)
        return line


def at_random(folder, workers):
    """Random requests of the desk and of patrons, on a small library: each answer is that of the rules, and so is a
    page and a question after each, and each row at the end."""
    path, seed, clerks = a_library(folder, "random.db"), random.randrange(10**9), CLERKS if workers == 2 else None
    turns, draw = Turns(seed, clerks), random.Random(seed + 1)
    for key, words, _ in GROUND:
        turns.library.handle(key, words)
    print(f"web: {TURNS} turns at random by the seed {seed}, {workers} workers")
    with Serving(path, 3 * (len(BEFORE) + TURNS), workers=workers, clerks=clerks) as serving:
        for at in range(-len(BEFORE), TURNS):
            words, number = shlex.split(BEFORE[at]) if at < 0 else turns.words(), draw.choice("123")
            is_own = words[0] in BY_PATRONS and draw.random() < 0.5
            patron = int(words[1] if words[0].startswith("place") else number) if is_own else None
            shown, key = turns.card_key(patron) if is_own else draw.choice(turns.desk_keys[: None if at >= 0 else 1]), f"t{at}"
            wanted = told(turns.handle(patron, shown, key, words))
            found = serving.ask(*by_patron(patron, shown, key, words))[:2] if is_own else serving.desk(key, words, shown)
            check(f"turn {at} by the seed {seed}: {words} of {patron or 'the desk'}", found, wanted)
            shown = turns.card_key(int(number))
            page = serving.ask(*by_patron(int(number), shown, "", ["page", number]))[:2]
            check(f"the page of {number} after turn {at} by the seed {seed}", page, told(said(turns.library, turns.clerks, int(number), shown, "", ["page", number])))
            question, line = turns.question()
            # a question passes over the key of the request before it
            check(f"{question} after turn {at} by the seed {seed}", serving.desk(key, question), told(line))
    runs.the_rows_are(path, turns.library)
    check(f"what holds with a first day met, by the seed {seed}", (MET - turns.met, turns.passed_over > 2), (set(), True))
    SHOWN.update(turns.shown)


def by_curl(folder, workers):
    """Each route by curl, as docs/USING.md shows it over the library that the day at the desk leaves, and a body for
    which curl waits to be told to go on."""
    runs.type_page(folder, "DAY-AT-THE-DESK.md", 30)
    with open(os.path.join(TOP, "docs", "USING.md"), encoding="utf-8") as file:
        shown = file.read().partition("\n## The web\n")[2]
    path = os.path.join(folder, re.search(rf"^    \./circ serve (\S+) 8080 [1-8] \d+ {DESK_KEY}$", shown, re.MULTILINE)[1])
    lines = [line.strip() for line in shown.splitlines() if line.startswith("    curl ")]
    answers = [b'{"reply":"hold 4"}', b'{"reply":"patron 2 owed 0 name Bo Carr\\nhold 4 at 1 waiting title 100 Rivers of the North"}',
               b'{"reply":"ok"}', b'{"reply":"hold 5"}', b'{"reply":"loan 5 due 2026-03-31"}', b'{"reply":"loan 5 due 2026-04-06"}']
    check("each route is shown", len(lines), len(answers))
    with Serving(path, len(answers) + 1, workers=workers) as serving:
        for line, wanted in zip(lines, answers):
            words = shlex.split(line.replace("127.0.0.1:8080", f"127.0.0.1:{serving.port}"))
            run = subprocess.run([*words, "-s", "-m", "60"], capture_output=True, timeout=90)
            check(line, (run.stdout, run.returncode), (wanted, 0))
        long = os.path.join(folder, "long.json")
        with open(long, "w", encoding="utf-8") as file:
            file.write('["branch","3","5","Hill"]' + " " * 60_000)
        found = serving.curl("/desk", "-H", f"Desk-Key: {DESK_KEY}", "-H", "Request-Key: x1",
                             "-H", "Expect: 100-continue", "--data-binary", f"@{long}")
        check("a body that curl asks about", found, (200, b'{"reply":"ok"}'))


def in_pieces(folder, workers):
    """A request is answered the same however its bytes come."""
    path = a_library(folder, "pieces.db")
    whole_page = answer("200 OK", ANNS_PAGE)
    pieces = [[PAGE_OF_ANN[at:at + step] for at in range(0, len(PAGE_OF_ANN), step)] for step in (1, 2, 7)]
    pieces += [[PAGE_OF_ANN[:at], PAGE_OF_ANN[at:]] for at in range(1, len(PAGE_OF_ANN))]
    body = b'{"branch":1,"title":100}'
    head = f"POST /patrons/2/holds HTTP/1.1\r\nCard-Key: cardkey00002\r\nRequest-Key: h1\r\nContent-Length: {len(body)}\r\n\r\n".encode()
    with Serving(path, len(pieces) + 9, workers=workers) as serving:
        for cut in pieces:
            check("a page in pieces", serving.raw(*cut), whole_page)
        for target in (b"/patrons/2", b"/patrons/8"):
            check(f"the page of another, or of nobody: {target}", serving.raw(page_fields(target=target)), answer("403 Forbidden", b'{"refusal":81}'))
        held = answer("200 OK", b'{"reply":"hold 1"}')
        check("a body that comes late", serving.raw(head, body, pause=0.3), held)
        check("a body in pieces", serving.raw(head, *[body[at:at + 5] for at in range(0, len(body), 5)]), held)
        check("a body one byte short", serving.raw(head, body[:-1]), answer("400 Bad Request", b'{"status":400}'))
        check("a head cut in its middle", serving.raw(PAGE_OF_ANN[:30]), answer("400 Bad Request", b'{"status":400}'))
        check("the method that is allowed", serving.raw(b"DELETE /patrons/1 HTTP/1.1\r\n\r\n"),
              answer("405 Method Not Allowed", b'{"status":405}', "Allow: GET\r\n"))
        # a client that is gone before its answer
        with socket.create_connection(("127.0.0.1", serving.port), timeout=60) as gone:
            gone.sendall(PAGE_OF_ANN[:30])
        check("the next one", serving.raw(PAGE_OF_ANN), whole_page)
    check("one hold", rows(path, "SELECT COUNT(*) FROM holds2"), [(1,)])


def page_with(fields, padding=0):
    """The request for Ann's page with so many fields, the last of which is so long."""
    lines = [b"GET /patrons/1 HTTP/1.1", b"Card-Key: cardkey00001", *[b"A: "] * (fields - 2), b"A: " + b"a" * padding]
    return b"\r\n".join(lines) + b"\r\n\r\n"


def page_fields(*lines, target=b"/patrons/1", body=b""):
    """The request for Ann's page with these fields too."""
    return b"GET " + target + b" HTTP/1.1\r\nCard-Key: cardkey00001\r\n" + b"".join(line + b"\r\n" for line in lines) + b"\r\n" + body


def desk_with(body):
    """The desk's request with this body."""
    return (f"POST /desk HTTP/1.1\r\nDesk-Key: {DESK_KEY}\r\nRequest-Key: d1\r\nContent-Length: {len(body)}\r\n\r\n").encode() + body


# Requests that a client might make up, each with its answer. None changes a row.
HOSTILE = [
    ("a head of 8,192 bytes", page_with(2, 8_136), answer("200 OK", ANNS_PAGE)),
    ("a head of 8,193 bytes", page_with(2, 8_137), FAILED),
    ("32 fields", page_with(32), answer("200 OK", ANNS_PAGE)),
    ("33 fields", page_with(33), FAILED),
    ("two lengths", page_fields(b"Content-Length: 0", b"Content-Length: 0"), FAILED),
    ("a length with a sign", page_fields(b"Content-Length: +5", body=b"12345"), FAILED),
    ("a length of eleven digits", page_fields(b"Content-Length: 00000000000"), FAILED),
    ("a coding, on an unknown route", page_fields(b"Transfer-Encoding: chunked", target=b"/nowhere"), FAILED),
    ("one key twice", page_fields(b"card-key: cardkey00001"), FAILED),
    ("a body one byte short", page_fields(b"Content-Length: 2", body=b"1"), FAILED),
    ("a hold's body one byte short", hold_with(HOLD[:-1], len(HOLD)), FAILED),
    ("a third member", hold_with(b'{"branch":1,"copy":10,"title":100}'), FAILED),
    ("a branch that is a text", hold_with(b'{"branch":"1","title":100}'), FAILED),
    ("a branch below 0", hold_with(b'{"branch":-1,"title":100}'), FAILED),
    ("a branch of 2^32", hold_with(b'{"branch":4294967296,"title":100}'), FAILED),
    ("a body that is no UTF-8", hold_with(b'{"branch":"\xe9","branch":1,"title":100}'), FAILED),
    ("a first day that is none", hold_with(b'{"branch":1,"from":"2026-3-5","title":100}'), FAILED),
    ("a first day that February hasn't", hold_with(b'{"branch":1,"from":"2026-02-29","title":100}'), FAILED),
    ("a first day before the calendar", hold_with(b'{"branch":1,"from":"1999-12-31","title":100}'), FAILED),
    ("a first day behind the calendar", hold_with(b'{"branch":1,"from":"2200-01-01","title":100}'), FAILED),
    ("a first day with a blank", hold_with(b'{"branch":1,"from":"2026-03-05 ","title":100}'), FAILED),
    ("an empty first day", hold_with(b'{"branch":1,"from":"","title":100}'), FAILED),
    ("a first day that is a number", hold_with(b'{"branch":1,"from":20517,"title":100}'), FAILED),
    ("a first day that is null", hold_with(b'{"branch":1,"from":null,"title":100}'), FAILED),
    ("a first day that is a list", hold_with(b'{"branch":1,"from":["2026-03-05"],"title":100}'), FAILED),
    ("a first day twice, the last time none", hold_with(b'{"branch":1,"from":"2026-03-05","from":"none","title":100}'), FAILED),
    ("a fourth member", hold_with(b'{"branch":1,"copy":10,"from":"2026-03-05","title":100}'), FAILED),
    ("a first day and no title", hold_with(b'{"branch":1,"from":"2026-03-05"}'), FAILED),
    ("a first day and no branch", hold_with(b'{"from":"2026-03-05","title":100}'), FAILED),
    ("a first day by another name", hold_with(b'{"From":"2026-03-05","branch":1,"title":100}'), FAILED),
    ("a branch that is a text, beside a first day", hold_with(b'{"branch":"1","from":"2026-03-05","title":100}'), FAILED),
    ("a day that is no word of the desk", desk_with(b'["place-hold-from","2","100","1","2026-3-5"]'), FAILED),
    ("a day too many", desk_with(b'["place-hold","2","100","1","2026-03-05"]'), FAILED),
    ("no words", desk_with(b"[]"), FAILED),
    ("thirteen words", desk_with(json.dumps(["page"] * 13).encode()), FAILED),
    ("a word too few", desk_with(b'["page"]'), FAILED),
    ("a word that is a number", desk_with(b'["page",1]'), FAILED),
]


@contextmanager
def held(run):
    """The program stands still meanwhile: each of its threads is stopped."""
    run.send_signal(signal.SIGSTOP)
    try:
        tasks = f"/proc/{run.pid}/task"
        while run.poll() is None and any(state_of(f"{tasks}/{it}/stat") != "T" for it in os.listdir(tasks)):
            time.sleep(0.001)
        yield
    finally:
        run.send_signal(signal.SIGCONT)


def state_of(path):
    """The state of a thread, a letter behind its name."""
    with open(path, encoding="utf-8") as file:
        return file.read().rpartition(")")[2].split()[0]


def reset(port, bytes_, pause=0.0):
    """Sends these bytes and breaks the connection, so that reads and writes at its other end fail."""
    with socket.create_connection(("127.0.0.1", port), timeout=60) as peer:
        peer.setsockopt(socket.SOL_SOCKET, socket.SO_LINGER, struct.pack("ii", 1, 0))
        peer.sendall(bytes_)
        time.sleep(pause)


def hostile_bytes(folder, workers):
    """What a hostile client sends gets its answer, or none where the connection breaks; then Ann's page is answered as
    ever, and the rows stay."""
    path, long, longer = a_library(folder, "hostile.db"), page_with(2, 8_136), page_with(2, 8_137)
    before, broken = whole(path), [page_with(32)[:30], hold_with(HOLD)[:-1], hold_with(HOLD, key=b"h0")[:40], desk_with(b'["withdraw","10"]')[:-2]]
    # reads fail in heads at the limit too, also in the last byte, and past it
    broken += [head[:at] for head in (long, longer) for at in (4_096, 8_190, 8_191)] + [longer[:8_192]]
    check("the limits of a head", (len(long), len(longer), page_with(33).count(b": ")), (8_192, 8_193, 33))

    def all_is_well(what):
        check(f"the next one after {what}", serving.raw(PAGE_OF_ANN, pause=0), answer("200 OK", ANNS_PAGE))
        with runs.as_it_is(path) as left:
            check(f"the rows after {what}", whole(left), before)

    with Serving(path, 2 * (len(HOSTILE) + len(broken)) + 2 * len(PAUSES) + 2 + 3 * LOST, workers=workers) as serving:
        for what, request, wanted in HOSTILE:
            check(what, serving.raw(request, pause=0), wanted)
            all_is_well(what)
        for request in broken:
            reset(serving.port, request, 0.01)
            all_is_well("a connection that broke")
        # the whole request came, and its answer may have been cut at any byte, or gone nowhere
        for pause in PAUSES:
            reset(serving.port, hold_with(HOLD), pause)
            check("the next one after a cut answer", serving.raw(PAGE_OF_ANN, pause=0), answer("200 OK", ANNS_PAGE))
        check("the same key again", serving.raw(hold_with(HOLD)), answer("200 OK", b'{"reply":"hold 1"}'))
        check("Ann's page", serving.raw(PAGE_OF_ANN), answer("200 OK", ANNS_PAGE))
        check("writes that failed", sum(is_lost(serving, path, number) for number in range(LOST)), LOST)
    after = whole(path)
    kept = [(2, f"l{number}", *it) for number in range(LOST) for it in LOST_HOLDS[number : number + 1]]
    check("the holds", ([hold[:4] for hold in after["holds2"]], after["meta"]), ([(1, 2, 100, 1), (2, 2, 200, 1), (3, 2, 300, 2)], [(1, 4, 20514, 1, 4, 1)]))
    check("what is kept of them", [it for it in after["kept"] if it not in before["kept"]], sorted([(2, "h1", "place-hold 2 100 1", "hold 1"), *kept]))
    check("all else stays", {**after, "holds2": [], "kept": before["kept"], "meta": before["meta"]}, before)


LATE = 30.9  # so many seconds after its last byte a silent client is let go too late
PAUSES = [n / 4000 for n in range(12)]  # in seconds, until a connection is broken whose answer is on its way
# Holds whose answers are lost, each with what is kept of it.
LOST_HOLDS = [("place-hold 2 200 1", "hold 2"), ("place-hold 2 300 2", "hold 3")]
LOST = len(LOST_HOLDS)


def is_lost(serving, path, number):
    """Whether the write of an answer to a hold fails: the connection is broken while the program stands still, before
    it has read the request; what was sent is read all the same, and acted on. The same request again gets the kept
    reply."""
    text, reply = LOST_HOLDS[number]
    _, _, title, branch = text.split()
    request = hold_with(f'{{"branch":{branch},"title":{title}}}'.encode(), key=f"l{number}".encode())
    with held(serving.run):
        reset(serving.port, request)
    check("the next one after a lost answer", serving.raw(PAGE_OF_ANN), answer("200 OK", ANNS_PAGE))
    # another worker may still be at it
    for _ in range(5_000):
        with runs.as_it_is(path) as left:
            is_kept = (2, f"l{number}", text, reply) in whole(left)["kept"]
        if is_kept:
            break
        time.sleep(0.01)
    check("the same key after a lost answer", serving.raw(request), answer("200 OK", f'{{"reply":"{reply}"}}'.encode()))
    return is_kept


def no_key_is_told(folder):
    """Whatever is asked and shown, no answer, line or message has a key of the desk or of a clerk, a card key or a key
    of a request in it."""
    path, heard = a_library(folder, "secret.db"), []
    keys = card, wrong, desk_key, own, clerks_key = "9card9card9", "8wrong8wrong", "7desk7desk7", "6request-6", "5clerk5clerk5"
    good, bad = put_keys(os.path.join(folder, "good.keys"), [("ann", "desk", clerks_key)], 0o644), put_keys(os.path.join(folder, "bad.keys"), f"ann desk {clerks_key}\nbo desk {clerks_key}\n".encode())

    def run(*words):
        ran = subprocess.run([PROGRAM, *words], capture_output=True, timeout=60)
        heard.extend([ran.stdout, ran.stderr])

    copies = os.path.join(folder, own + ".csv")
    with open(copies, "w", encoding="utf-8") as file:
        file.write(f"{HEADER}50,500,{card},1,1,1,END\n")
    for words in (["patron", "4", "1", card, "Di East"], ["patron", "4", "1", wrong, "Di East"], ["patron", "5", "1", "card key", card],
                  ["check-out", "4", "10", "1"], ["check-out", "4", "99", "1"], ["page", "4"], ["page", card]):
        run("file", path, own, *words)
        run("file", path, f"{own}-{words[0]}", *words)
    check("the patron is there", rows(path, "SELECT card_key FROM patrons WHERE patron = 4"), [(card,)])
    for words in (["file", path, card + "_", "page", "4"], ["import", path, copies], ["import", path, own], ["report", path, "shelf", card],
                  ["serve", path, "0", "1", "1", desk_key], ["serve", folder, str(free_port()), "1", "1", desk_key], [desk_key],
                  ["serve", folder, str(free_port()), "1", "1", f"@{good}"], ["serve", path, str(free_port()), "1", "1", f"@{bad}"], ["send", "1", f"@{good}", own, "page", "4"], ["send", "1", f"@{bad}", own, "page", "4"]):
        run(*words)
    with deaf_port() as port:
        run("send", str(port), desk_key, own, "page", "4")
    serving, port, first = started(lambda port: ["serve", path, str(port), "2", "30", desk_key])
    asked = 0
    with serving:
        try:
            check("the first line", first, f"listening on {port}\n")
            for shown in (card, wrong, desk_key, own):
                for target, body in (("/patrons/4", b""), ("/patrons/4/holds", HOLD), ("/patrons/4/holds/1/cancel", b""), ("/patrons/4/loans/1/renew", b""),
                                     ("/desk", json.dumps(["patron", "6", "1", card, "Ed"]).encode()), ("/desk", json.dumps([shown]).encode()),
                                     (f"/{shown}", b"")):
                    method = b"GET" if target == "/patrons/4" else b"POST"
                    lines = [f"{target} HTTP/1.1", f"Card-Key: {shown}", f"Desk-Key: {shown}", f"Request-Key: {own}-{asked}", f"Content-Length: {len(body)}"]
                    with socket.create_connection(("127.0.0.1", port), timeout=60) as peer:
                        peer.sendall(method + b" " + "\r\n".join([*lines, "", ""]).encode() + body)
                        peer.shutdown(socket.SHUT_WR)
                        heard.append(everything(peer))
                    asked += 1
            for _ in range(60 - asked - 2):
                with socket.create_connection(("127.0.0.1", port), timeout=60) as peer:
                    peer.sendall(f"GET /{card}\x00 {desk_key}\r\nCard-Key: {card}".encode())
                    peer.shutdown(socket.SHUT_WR)
                    heard.append(everything(peer))
            for shown in (desk_key, wrong):
                run("send", str(port), shown, own + "-s", "patron", "7", "1", card, "Flo")
            heard.extend(serving.communicate(timeout=60))
        finally:
            serving.kill()
    text = b"\n".join(heard)
    statuses = [status for status in (b"200 OK", b"400 ", b"403 ", b"404 ", b"409 ") if b"HTTP/1.1 " + status not in text]
    check("each kind of answer was heard", (statuses, text.count(b"not understood") > 2, text.count(b"fault") > 2), ([], True, True))
    check("no key was heard", [key for key in keys if key.encode() in text], [])


def one_waits(folder, workers):
    """Connections are answered in the order in which they came; one that waits for a worker is answered too."""
    path = a_library(folder, "waits.db")
    with Serving(path, 9, workers=workers) as serving:
        peers = [socket.create_connection(("127.0.0.1", serving.port), timeout=60) for _ in range(9)]
        peers[8].sendall(PAGE_OF_ANN)
        for peer in peers[:8]:
            peer.sendall(PAGE_OF_ANN)
            check("one of eight", everything(peer), answer("200 OK", ANNS_PAGE))
            peer.close()
        check("the ninth", everything(peers[8]), answer("200 OK", ANNS_PAGE))
        peers[8].close()


def a_silent_client(folder, workers):
    """A client that sends nothing is let go after half a minute; it keeps one worker waiting and no other. A busy
    machine may be late, and is asked thrice at most."""
    path = a_library(folder, f"silent{workers}.db")
    for _ in range(3):
        with Serving(path, 2, workers=workers) as serving:
            with socket.create_connection(("127.0.0.1", serving.port), timeout=120) as silent:
                began = time.monotonic()
                check("the next one", serving.raw(PAGE_OF_ANN), answer("200 OK", ANNS_PAGE))
                check("it came once the silent one was let go, if there is one worker", is_let_go(silent), workers == 1)
                check("the silent one gets nothing", everything(silent), b"")
                took = time.monotonic() - began
        if took < LATE:
            break
    check("it was let go after half a minute", 29 < took < LATE, True)


def a_damaged_patron(folder, workers):
    """Every page is made at the start, so a damaged patron is told in place of the first line, and nobody is
    served."""
    path = a_library(folder, "patron.db")
    runs.write(path, "UPDATE patrons SET card_key = 'short' WHERE patron = 2")
    before = whole(path)
    words_for = lambda port: ["serve", path, str(port), str(workers), "1", DESK_KEY]
    run, port, first = started(words_for)
    out, err = run.communicate(timeout=60)
    check("a damaged patron", (first + out.decode(), err, run.returncode), ("fault 93\n", message(words_for(port), "fault 93\n"), 3))
    check("the rows stay", whole(path), before)


def a_damaged_copy(folder, workers):
    """A question that meets a damaged row is told so, and the desk goes on. A command that meets one is told so too,
    and each later one that the hall is closed; pages stay, and a line tells the fault."""
    path = a_library(folder, "copy.db")
    runs.write(path, "UPDATE copies SET condition = 3 WHERE copy = 20")
    before = whole(path)
    clerk = lambda key: {"Desk-Key": DESK_KEY, "Request-Key": key}
    bos_page = b'{"reply":"patron 2 owed 0 name Bo Carr"}'
    asked = [
        ("POST", "/desk", clerk("q1"), b'["copy","20"]', 503, b'{"fault":93}'),
        ("POST", "/desk", clerk("q2"), b'["today"]', 200, b'{"reply":"today 2026-03-02"}'),
        ("POST", "/desk", clerk("q3"), b'["copies","200","0"]', 503, b'{"fault":93}'),
        ("POST", "/desk", clerk("q4"), b'["check-out","1","99","1"]', 409, b'{"refusal":13}'),
        ("POST", "/patrons/2/holds", {**BO, "Request-Key": "q5"}, b'{"branch":1,"title":999}', 409, b'{"refusal":12}'),
        ("GET", "/patrons/2", BO, None, 200, bos_page),
    ] * 2
    first = ("POST", "/desk", clerk("f1"), b'["check-out","1","20","2"]', 503, b'{"fault":93}')
    later = [
        ("POST", "/desk", clerk("f1"), b'["check-out","1","20","2"]', 503, b'{"fault":92}'),
        ("POST", "/desk", clerk("f2"), b'["check-out","1","10","1"]', 503, b'{"fault":92}'),
        ("POST", "/patrons/2/holds", {**BO, "Request-Key": "f3"}, b'{"branch":1,"title":100}', 503, b'{"fault":92}'),
        ("GET", "/patrons/2", BO, None, 200, bos_page),
        ("POST", "/desk", clerk("f4"), b'["page","2"]', 200, bos_page),
        ("GET", "/patrons/2", ANN, None, 403, b'{"refusal":81}'),
        ("POST", "/desk", clerk("f5"), b'["page","8"]', 409, b'{"refusal":11}'),
        ("POST", "/desk", {**clerk("f6"), "Desk-Key": "deskkey00002"}, b'["check-out","1","10","1"]', 403, b'{"refusal":81}'),
        ("POST", "/desk", clerk("f7"), b'["check-out","1"]', 400, b'{"status":400}'),
    ] * 3
    with Serving(path, 2 + len(asked + later), "fault 93\n", 3, workers=workers) as serving:
        for it in [("GET", "/patrons/1", ANN, None, 200, ANNS_PAGE), *asked, first, *later]:
            serving.answers(*it)
    check("the rows stay", whole(path), before)


def no_network(folder):
    """A file or a port that another process has, nobody who listens, and an answer that doesn't come."""
    path = a_library(folder, "taken.db")
    with Serving(path, 1) as serving:
        check("the file is taken", circ(["file", path, "x1", "begin-day", "2026-03-03"]), ("fault 91", 3))
        check("a port that is taken", circ(["serve", os.path.join(folder, "new.db"), str(serving.port), "1", "1", DESK_KEY]),
              ("fault network", 3))
        serving.answers("GET", "/patrons/1", ANN, None, 200, ANNS_PAGE)
    with deaf_port() as port:
        check("nobody listens", circ(["send", str(port), DESK_KEY, "s1", "page", "1"]), ("fault network", 3))
    # an answer that doesn't come
    with socket.socket() as listener:
        listener.bind(("127.0.0.1", 0))
        listener.listen()
        thread = threading.Thread(target=lambda: listener.accept()[0].close())
        thread.start()
        words = ["send", str(listener.getsockname()[1]), DESK_KEY, "s1", "page", "1"]
        check("no answer comes", circ(words), ("fault network", 3))
        thread.join()


def other_addresses():
    """Addresses of this machine besides the one that is served: another of its loopback, and those by which it goes to
    others, which it needn't have. Nothing is sent."""
    found = [(socket.AF_INET, "127.0.0.2"), (socket.AF_INET6, "::1")]
    for family, outside in ((socket.AF_INET, "192.0.2.1"), (socket.AF_INET6, "2001:db8::1")):
        with contextlib.suppress(OSError), socket.socket(family, socket.SOCK_DGRAM) as way:
            way.connect((outside, 9))
            found.append((family, way.getsockname()[0]))
    return found


def this_machine_alone(folder):
    """Who asks for 127.0.0.1 is served; at any other address of this machine nobody listens."""
    path, others = a_library(folder, "alone.db"), other_addresses()
    with Serving(path, 2) as serving:
        serving.answers("GET", "/patrons/1", ANN, None, 200, ANNS_PAGE)
        for family, address in others:
            with socket.socket(family) as peer:
                peer.settimeout(60)
                # 99 is an address that this machine hasn't
                check(f"a connection to {address}", peer.connect_ex((address, serving.port)) in (errno.ECONNREFUSED, errno.EADDRNOTAVAIL), True)
        serving.answers("GET", "/patrons/1", ANN, None, 200, ANNS_PAGE)
    check("127.0.0.2 was tried", others[0][1], "127.0.0.2")
    print(f"web: nobody listened at {len(others)} other addresses of this machine")


def one_program_at_a_time(folder):
    """While a program serves a library, every other run on its file, or on a link to it, tries for two seconds and is
    told 91. The two files stay as they are, and the program serves on."""
    path, link, copies = a_library(folder, "one.db"), os.path.join(folder, "link.db"), os.path.join(folder, "one.csv")
    os.symlink(path, link)
    with open(copies, "w", encoding="utf-8") as file:
        file.write(HEADER + "50,500,Maps,1,1,1500,end\n")
    others = [["file", path, "x1", "begin-day", "2026-03-03"], ["file", link, "x1", "begin-day", "2026-03-03"], ["import", path, copies], ["report", path, "shelf", "1"],
              ["audit", path], ["migrate", path], ["serve", path, str(free_port()), "1", "1", DESK_KEY]]
    with Serving(path, 2) as serving:
        serving.answers("GET", "/patrons/1", ANN, None, 200, ANNS_PAGE)
        before, began = [digest(path + tail) for tail in ("", "-wal")], time.monotonic()
        tried = [subprocess.Popen([PROGRAM, *words], stdout=subprocess.PIPE, stderr=subprocess.PIPE) for words in others]
        for words, run in zip(others, tried):
            out, err = run.communicate(timeout=120)
            check(f"{words} beside a program that serves", (out, run.returncode, err), (b"fault 91\n", 3, message(words, "fault 91\n", held=True)))
            check(f"how long {words} tried", time.monotonic() - began >= 2, True)
        check("the two files stay", [digest(path + tail) for tail in ("", "-wal")], before)
        serving.answers("POST", "/desk", {"Desk-Key": DESK_KEY, "Request-Key": "x2"}, b'["begin-day","2026-03-04"]', 200, b'{"reply":"ok"}')
    check("the file is free again", circ(["file", path, "x1", "begin-day", "2026-03-05"]), ("ok", 0))
    print(f"web: {len(tried)} runs were told that another process has the file")


DATA_PIECES = 152  # where the system's account of a connection has how many pieces with data it got


def in_one_write(folder, workers):
    """An answer comes in one piece of its connection, and that of a desk as that of a page and of nothing that is
    there."""
    path = a_library(folder, "pieces.db")
    asked = [(PAGE_OF_ANN, answer("200 OK", ANNS_PAGE)), (desk_with(b'["page","1"]'), answer("200 OK", ANNS_PAGE)), (b"GET /nowhere HTTP/1.1\r\n\r\n", answer("404 Not Found", b'{"status":404}'))]
    with Serving(path, len(asked), workers=workers) as serving:
        for request, wanted in asked:
            with socket.create_connection(("127.0.0.1", serving.port), timeout=60) as peer:
                peer.sendall(request)
                found = everything(peer)
                pieces = struct.unpack_from("I", peer.getsockopt(socket.IPPROTO_TCP, socket.TCP_INFO, DATA_PIECES + 4), DATA_PIECES)
            check(f"an answer in one piece, {request}", (found, pieces), (wanted, (1,)))


def still_sending(folder, workers):
    """A client that still sends once its answer is there gets it whole: the close waits for it, and what it sends is
    left alone. A connection that is cut at once is reset, and the answer is lost."""
    path = a_library(folder, "sending.db")
    too_long = f"POST /desk HTTP/1.1\r\nDesk-Key: {DESK_KEY}\r\nRequest-Key: d1\r\nContent-Length: 65537\r\n\r\n".encode()
    asked = [(too_long, answer("413 Payload Too Large", b'{"status":413}')), (PAGE_OF_ANN, answer("200 OK", ANNS_PAGE))]
    with Serving(path, len(asked), workers=workers) as serving:
        for request, wanted in asked:
            with socket.create_connection(("127.0.0.1", serving.port), timeout=60) as peer:
                peer.sendall(request)
                check("the answer is there", peer.recv(len(wanted), socket.MSG_PEEK | socket.MSG_WAITALL), wanted)
                for _ in range(8):
                    peer.sendall(b"more and " * 20)
                peer.shutdown(socket.SHUT_WR)
                check("the answer to a client that still sent", everything(peer), wanted)


def a_full_output(folder, workers):
    """Where the port can't be told nobody is served: the program ends by itself, though nobody asks for its
    connections."""
    path = a_library(folder, "silent.db")
    before, words = whole(path), ["serve", path, str(free_port()), str(workers), "3", DESK_KEY]
    with open("/dev/full", "wb") as full:
        run = subprocess.run([PROGRAM, *words], stdout=full, stderr=subprocess.PIPE, timeout=120)
    check("the end on a full disk", (run.returncode, run.stderr), (3, UNWRITTEN))
    check("the rows stay", whole(path), before)


def on_a_terminal(folder):
    """A person at a terminal is told that the library is being opened, before the program listens. Elsewhere nothing
    is told, as is compared at the end of each program that serves."""
    path = a_library(folder, "terminal.db")
    ours, theirs = pty.openpty()
    try:
        run, port, first = started(lambda port: ["serve", path, str(port), "1", "1", DESK_KEY], stderr=theirs)
        shown = os.read(ours, 1000).decode()
        while not shown.endswith("\n") and select.select([ours], [], [], 10)[0]:
            shown += os.read(ours, 1000).decode()
        check("the first line", first, f"listening on {port}\n")
        # what comes before it tells of a port that another process took
        check("what a terminal shows at the end", shown[shown.rfind("circ: "):], f"circ: {path}: the library is being opened, and the pages of its patrons are made\r\n")
        with socket.create_connection(("127.0.0.1", port), timeout=60) as peer:
            peer.sendall(PAGE_OF_ANN)
            check("it serves", everything(peer).endswith(ANNS_PAGE), True)
        check("it ends", run.wait(timeout=60), 0)
    finally:
        os.close(ours)
        os.close(theirs)


def bad_words(folder):
    """Words out of form are told before anything is opened."""
    path = os.path.join(folder, "never.db")
    port = str(free_port())
    for words in (["serve"], ["serve", path], ["serve", path, port, "1", "1"], ["serve", path, "0", "1", "1", DESK_KEY],
                  ["serve", path, "65536", "1", "1", DESK_KEY], ["serve", path, port, "0", "1", DESK_KEY],
                  ["serve", path, port, "9", "1", DESK_KEY], ["serve", path, port, "01", "1", DESK_KEY],
                  ["serve", path, port, "1", "0", DESK_KEY],
                  ["serve", path, port, "1", "1000001", DESK_KEY], ["serve", path, port, "1", "01", DESK_KEY],
                  ["serve", path, port, "1", "1", "short"], ["serve", path, port, "1", "1", DESK_KEY, "more"],
                  ["send"], ["send", port], ["send", port, DESK_KEY], ["send", port, DESK_KEY, "k1"],
                  ["send", "0", DESK_KEY, "k1", "page", "1"], ["send", port, "short", "k1", "page", "1"],
                  ["send", port, DESK_KEY, "k 1", "page", "1"]):
        check(f"{words}", circ(words), ("words not understood", 4))
    check("no file is made", os.path.exists(path), False)


def sent(folder, workers):
    """The month of commands by `circ send`: each answer, its status, and every row as by `circ file`."""
    requests, path, library = runs.month(), os.path.join(folder, "month.db"), Library()
    others = [
        (DESK_KEY, "o1", ["page", "01"], b'{"status":400}\n', 4),
        (DESK_KEY, "o2", ["no-such-word"], b'{"status":400}\n', 4),
        (DESK_KEY, "o3", ["branch", *["Hill"] * 12], b'{"status":400}\n', 4),
        ("deskkey00002", "o4", ["page", "1"], b'{"refusal":81}\n', 2),
    ]
    with Serving(path, len(requests) + len(others), workers=workers) as serving:
        for key, *words in requests:
            status, body = told(library.handle(key, words))
            run = subprocess.run([PROGRAM, "send", str(serving.port), DESK_KEY, key, *words], capture_output=True, timeout=60)
            found = run.stdout, run.stderr, run.returncode
            answer = body.decode() + "\n"
            check(f"{key} {words}", found, (answer.encode(), message(["send"], answer), 0 if status == 200 else 2))
        for desk_key, key, words, wanted, status in others:
            run = subprocess.run([PROGRAM, "send", str(serving.port), desk_key, key, *words], capture_output=True, timeout=60)
            check(f"{words}", (run.stdout, run.returncode), (wanted, status))
    runs.the_rows_are(path, library)


def main():
    if not shutil.which("curl"):
        raise SystemExit("curl is missing")
    with tempfile.TemporaryDirectory() as folder:
        with ThreadPoolExecutor() as pool:
            # half a minute in which nothing happens, beside the others
            silent = [pool.submit(part, a_silent_client, folder, workers) for workers in (1, 2)]
            part(no_network, folder)
            part(this_machine_alone, folder)
            part(one_program_at_a_time, folder)
            part(on_a_terminal, folder)
            part(bad_words, folder)
            part(no_key_is_told, folder)
            for workers in (1, 2, 8):
                room = os.path.join(folder, f"workers{workers}")
                os.mkdir(room)
                for work in (each_route, from_a_day_on, grace_days, asking, at_random, by_curl, in_pieces, in_one_write, still_sending, a_full_output, hostile_bytes, one_waits, a_damaged_patron, a_damaged_copy, sent):
                    part(work, room, workers)
            check(f"questions that were shown rows: {SHOWN}", [name for name in QUESTIONS if not SHOWN[name]], [])
            for it in silent:
                it.result()


if __name__ == "__main__":
    run_script(main)
