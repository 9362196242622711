#!/usr/bin/env python3
"""Runs `circ serve` with several workers under clients that come at once: what each is answered, and the rows at the
end.

Single answers are those of docs/RULES.md, worked out by hand. Under load `desk_rules` handles the same requests one
after another, in the order of their hold numbers or in that in which the file kept them: the replies and the rows have
to be the same. A question is kept nowhere, so its answer has to be that of the rules at some place of that order.
"""

import copy
import http.client
import json
import os
import random
import resource
import shutil
import signal
import socket
import tempfile
import threading
import time
from concurrent.futures import ThreadPoolExecutor

import room  # finds lib and reference
from lib import runs
from lib.checking import check, part, run_script
from lib.questions import every_question
from lib.runs import GROUND, rows, timed
from lib.serving import ANN, ANNS_PAGE, BO, FAILED, HOLD, PAGE_OF_ANN, Serving, a_library, answer, by_patron, everything, hold_with, is_let_go, told
from reference.desk_rules import QUESTIONS, Library

HALF_A_HEAD = PAGE_OF_ANN[:30]
NOT_ALLOWED = 403, b'{"refusal":81}'
PATRONS, TITLES, RENEWALS = range(1, 9), range(101, 151), 99
HOLDS = len(TITLES)


def at_once(calls):
    """What calls give that are all made at once, each in a thread of its own."""
    with ThreadPoolExecutor(len(calls)) as pool:
        made = [pool.submit(call) for call in calls]
    return [it.result() for it in made]


def asked(serving, caller, key, words, card_key=None):
    """What a request is answered: by the desk's route, or by that of the patron who asks, with the first card key
    unless another is shown."""
    if not caller:
        return serving.desk(key, words)
    return serving.ask(*by_patron(caller, card_key or f"cardkey{caller:05}", key, words))[:2]


def page_of(serving, patron, card_key=None):
    """What a patron's look at the own page is answered, with the first card key unless another is shown."""
    return serving.ask("GET", f"/patrons/{patron}", {"Card-Key": card_key or f"cardkey{patron:05}"})[:2]


def page_by(library, patron):
    """The page as the rules have it, answered."""
    return told(library.handle("", ["page", str(patron)]))


class Town:
    """A library of eight patrons, each with two loans of which nobody else wants the titles, and of fifty titles to be
    held; and its rules."""

    def __init__(self, folder):
        self.folder, self.path, self.rules = folder, os.path.join(folder, "town.db"), Library()
        requests = [*self.requests()]
        with Serving(self.path, len(requests) + len(PATRONS), workers=2) as serving:
            for at, words in enumerate(requests):
                check(f"{words}", asked(serving, 0, f"t{at}", words), told(self.rules.handle(f"t{at}", words)))
            for patron in PATRONS:
                check("the page of a patron who came meanwhile", page_of(serving, patron), page_by(self.rules, patron))
        runs.the_rows_are(self.path, self.rules)

    def requests(self):
        """What is asked of the desk to make it."""
        for line in ("begin-day 2026-03-02", "branch 1 5 Main", "branch 2 3 Harbour", "week 1 ooooooc", "kind 1 200 200 500",
                     f"rule 1 1 6 {RENEWALS} 20 100"):
            yield line.split()
        for patron in PATRONS:
            yield ["patron", str(patron), "1", f"cardkey{patron:05}", f"Reader {patron}"]
        for title in (*range(1, 17), *TITLES):
            yield ["acquire", str(title), str(title), "1", "1", "2500", f"A title of number {title}"]
        for number in range(1, 17):
            yield ["check-out", str((number + 1) // 2), str(number), "1"]

    def copied(self, name):
        """A copy of the file, and one of its rules."""
        path = os.path.join(self.folder, name)
        shutil.copy(self.path, path)
        return path, copy.deepcopy(self.rules)


def caller_of(patron):
    """Half of the patrons ask by their own routes, and the desk for the others."""
    return patron if patron % 2 else 0


def holds_of(patron):
    """A patron's requests to hold each title, every third from a day on: the caller, the key and the words."""
    for_now, for_later = ("place-hold", []), ("place-hold-from", ["2026-04-01"])
    return [(caller_of(patron), f"h{patron}-{title}", [name, str(patron), str(title), str(1 + title % 2), *days])
            for title in TITLES for name, days in [for_later if title % 3 == 0 else for_now]]


def renewals_of(patron):
    """As many requests to renew a patron's two loans."""
    return [(caller_of(patron), f"r{patron}-{n}", ["renew", str(2 * patron - n % 2)]) for n in range(HOLDS)]


def hold_number(reply):
    """The number of a hold that was answered."""
    status, body = reply
    check("a hold is accepted", (status, body.startswith(b'{"reply":"hold ')), (200, True))
    return int(body[len(b'{"reply":"hold '):-2])


def handle_holds(library, answered):
    """Has the rules handle holds that were answered, in the order of their numbers: they are numbered from 1, and each
    reply is the same."""
    numbered = sorted((hold_number(reply), request, reply) for request, reply in answered)
    check("the numbers of the holds", [number for number, _, _ in numbered], [*range(1, len(numbered) + 1)])
    for number, (caller, key, words), reply in numbered:
        check(f"hold {number}", reply, told(library.handle(key, words, caller)))


def handle_kept(path, library):
    """Has the rules handle what the file kept since, in the order in which it was kept: each reply is the same, and so
    is each row."""
    later = [it for it in rows(path, "SELECT caller, key, text, reply FROM kept ORDER BY rowid") if it[:2] not in library.kept]
    for caller, key, text, reply in later:
        check(f"{caller} {key} {text}", reply, library.handle(key, text.split(), caller))
    runs.the_rows_are(path, library)


def a_hold_and_its_page(folder):
    """Two workers: a hold is on its page, another's page is as before, and a head cut in its middle changes
    nothing."""
    path, library = a_library(folder, "hold.db"), Library()
    for key, words, _ in GROUND:
        library.handle(key, words)
    check("the hold by the rules", library.handle("h1", ["place-hold", "2", "100", "1"], 2), "hold 1")
    bos_page = b'{"reply":"patron 2 owed 0 name Bo Carr\\nhold 1 at 1 waiting title 100 Rivers of the North"}'
    with Serving(path, 20, workers=2) as serving:
        serving.answers("GET", "/patrons/1", ANN, None, 200, ANNS_PAGE)
        serving.answers("POST", "/patrons/2/holds", {**BO, "Request-Key": "h1"}, b'{"branch":1,"title":100}', 200, b'{"reply":"hold 1"}')
        for _ in range(6):
            serving.answers("GET", "/patrons/2", BO, None, 200, bos_page)
            serving.answers("GET", "/patrons/1", ANN, None, 200, ANNS_PAGE)
            check("a head cut in its middle", serving.raw(HALF_A_HEAD), FAILED)
    runs.the_rows_are(path, library)


def a_reply_is_on_the_page(town, workers):
    """What was replied is on the page at once, whichever worker is asked for it: nobody can choose, and each serves as
    many connections."""
    path, library = town.copied(f"replied{workers}.db")
    with Serving(path, 4 * HOLDS, workers=workers) as serving:
        for request, renewal in zip(holds_of(1), renewals_of(1)):
            for caller, key, words in (request, renewal):
                check(f"{key} {words}", asked(serving, caller, key, words), told(library.handle(key, words, caller)))
                check(f"the page after {words}", page_of(serving, 1), page_by(library, 1))
    runs.the_rows_are(path, library)


def pages_of_a_month(folder):
    """The month of commands with two workers: after each, every page that it changed is shown anew, and another
    patron's as it was; none is shown with a card key that another took the place of."""
    path, library, pages, turns, void = os.path.join(folder, "month.db"), Library(), {}, [], {}
    for at, (key, *words) in enumerate(runs.month()):
        keys = {patron: row["card_key"] for patron, row in library.patrons.items()}
        before, wanted = pages, told(library.handle(key, words))
        void.update({patron: old for patron, old in keys.items() if library.patrons[patron]["card_key"] != old})
        pages = {patron: page_by(library, patron) for patron in library.patrons}
        looks = [patron for patron in pages if pages[patron] != before.get(patron)] + [*pages][at % max(len(pages), 1):][:1]
        shown = [(patron, library.patrons[patron]["card_key"], pages[patron]) for patron in looks]
        turns.append((key, words, wanted, shown + [(patron, void[patron], NOT_ALLOWED) for patron in {*looks, *([int(words[1])] if words[0] == "card-key" else [])} if patron in void]))
    check("commands change pages of several patrons", max(len(looks) for *_, looks in turns) > 2, True)
    check("card keys are void", sum(page == NOT_ALLOWED for *_, looks in turns for *_, page in looks) > 5, True)
    with Serving(path, sum(1 + len(looks) for *_, looks in turns), workers=2) as serving:
        for key, words, wanted, looks in turns:
            check(f"{key} {words}", asked(serving, 0, key, words), wanted)
            for patron, card_key, page in looks:
                check(f"the page of {patron} after {key} {words}", page_of(serving, patron, card_key), page)
    runs.the_rows_are(path, library)


def a_corrected_title(town, workers):
    """The text of a title that eight patrons hold or have on loan is set anew: each of their pages shows it at once,
    whichever worker is asked, and each other title as it was."""
    path, library = town.copied(f"corrected{workers}.db")
    title, turns = str(TITLES[0]), 12
    for patron in PATRONS:
        check("a hold by the rules", library.handle(f"h{patron}", ["place-hold", str(patron), title, "1"]).startswith("hold "), True)
    with Serving(path, len(PATRONS) + turns * (2 + len(PATRONS)), workers=workers) as serving:
        for patron in PATRONS:
            check("a hold", asked(serving, 0, f"h{patron}", ["place-hold", str(patron), title, "1"])[0], 200)
        for turn in range(turns):
            # in turn the title that all hold, and one that a single patron has on loan
            words = ["amend-title", title if turn % 2 else str(1 + turn), f"Edition-{turn}"]
            check(f"{words}", asked(serving, 0, f"e{turn}", words), told(library.handle(f"e{turn}", words)))
            for patron in PATRONS:
                check(f"the page of {patron} after {words}", page_of(serving, patron), page_by(library, patron))
            copies = ["copies", words[1], "0"]
            check(f"{copies}", asked(serving, 0, f"f{turn}", copies), told(library.handle("", copies)))
    runs.the_rows_are(path, library)


def void_card_keys(town):
    """Eight workers, and a desk that gives two patrons one card key after another, while six clients of theirs show
    the newest key that they know of, and keys of before: what is sent with a key after the answer to the next
    `card-key` is refused, a page as a request, and what was accepted with a key stands in the list of accepted
    requests between the two that set it and the next. No page is shown with a key once another was."""
    path, library = town.copied("void.db")
    patrons, changes = PATRONS[:2], 60
    keys = {patron: [f"cardkey{patron:05}", *(f"newkey{patron:03}x{turn:03}" for turn in range(changes))] for patron in patrons}
    known, sent, is_over = dict.fromkeys(patrons, 0), dict.fromkeys(patrons, 0), threading.Event()

    def change(patron, turn):
        sent[patron] = turn
        check(f"card key {turn} of {patron}", asked(serving, 0, f"v{patron}-{turn}", ["card-key", str(patron), keys[patron][turn]]), (200, b'{"reply":"ok"}'))
        known[patron] = turn
        # at once, whichever worker is asked
        check(f"card key {turn - 1} of {patron} is void", page_of(serving, patron, keys[patron][turn - 1]), NOT_ALLOWED)
        check(f"card key {turn} of {patron} opens the page", page_of(serving, patron, keys[patron][turn])[0], 200)

    def desk():
        try:
            for turn in range(1, changes + 1):
                for patron in patrons:
                    change(patron, turn)
        finally:
            is_over.set()

    def client(number):
        patron, mixed, found, at = patrons[number % 2], random.Random(number), [], 0
        while not is_over.is_set():
            at += 1
            before = known[patron]
            which = max(before - mixed.choice((0, 0, 0, 1, 5)), 0)
            words = ["page", str(patron)] if mixed.random() < 0.5 else ["renew", str(2 * patron - mixed.randrange(2))]
            key = f"w{number}-{at}"
            status, body = asked(serving, patron, key, words, keys[patron][which])
            found.append((key, words, which, before, sent[patron], (status, body)))
        return found

    with Serving(path, 8_000_000, status=-signal.SIGKILL, workers=8) as serving:
        _, *told_ = at_once([desk, *[lambda number=number: client(number) for number in range(6)]])
        serving.run.kill()
    shown, refused, raced, kept = 0, 0, 0, 0
    place = {key: at for at, (caller, key) in enumerate(rows(path, "SELECT caller, key FROM kept ORDER BY rowid"))}
    for number, found in enumerate(told_):
        patron = patrons[number % 2]
        for key, words, which, before, after, answer_ in found:
            if which < before:
                check(f"{words} of {patron} with card key {which} after the answer to {before}", answer_, NOT_ALLOWED)
                refused += 1
                continue
            # the key was good when the request was sent; meanwhile another may have come
            check(f"{words} of {patron} with card key {which}, which was the newest", answer_ != NOT_ALLOWED or after > which, True)
            raced += answer_ == NOT_ALLOWED
            shown += answer_[0] == 200
            if answer_[0] == 200 and words[0] == "renew":
                kept += 1
                begun = place.get(f"v{patron}-{which}", -1)
                ended = place.get(f"v{patron}-{which + 1}", len(place))
                check(f"{words} of {patron} with card key {which} stands between the two", begun < place[key] < ended, True)
    print(f"hall: {shown} pages were shown or renewals accepted with the newest card key, {refused} of void ones were refused, and {raced} while the next one was on its way")
    check("there were many of each", (shown > 100, kept > 50, refused > 100), (True, True, True))
    with runs.as_it_is(path) as left:
        handle_kept(left, library)


def one_is_held(folder):
    """Two workers for a connection each: while one is held in mid head, the other one is answered."""
    path = a_library(folder, "held.db")
    with Serving(path, 2, workers=2) as serving:
        held, other = (socket.create_connection(("127.0.0.1", serving.port), timeout=60) for _ in range(2))
        with held, other:
            held.sendall(HALF_A_HEAD)
            other.sendall(PAGE_OF_ANN)
            # were there one thread for both, this would come once the held one was let go
            check("one is answered", everything(other), answer("200 OK", ANNS_PAGE))
            check("the other is held still", is_let_go(held), False)
            other.close()
            held.sendall(PAGE_OF_ANN[len(HALF_A_HEAD):])
            check("the one that was held", everything(held), answer("200 OK", ANNS_PAGE))


def fifty_holds_each(town):
    """Eight workers and fifty holds by each of eight clients: all are accepted, and the rows are those of the same
    requests one after another."""
    path, library = town.copied("fifty.db")

    def client(patron):
        return [(request, asked(serving, *request)) for request in holds_of(patron)]

    with Serving(path, len(PATRONS) * HOLDS, workers=8) as serving:
        found = at_once([lambda patron=patron: client(patron) for patron in PATRONS])
    for answered in found:
        numbers = [hold_number(reply) for _, reply in answered]
        check("each client's own in their order", numbers, sorted(numbers))
    handle_holds(library, [it for answered in found for it in answered])
    runs.the_rows_are(path, library)


class Watched:
    """A patron whose renewals and pages are counted: how many renewals of each loan were sent, and how many were
    answered or shown at least."""

    def __init__(self, library, patron):
        self.library, self.patron, self.lock = copy.deepcopy(library), patron, threading.Lock()
        self.head, *lines = self.page()
        self.loans = self.library.open_loans(patron)
        self.lines = {loan: [line] for loan, line in zip(self.loans, lines)}
        self.dues = {loan: [str(self.library.loans[loan]["due"])] for loan in self.loans}
        for _ in range(RENEWALS):
            for loan in self.loans:
                self.dues[loan].append(self.library.do_renew(loan).split()[-1])
            for loan, line in zip(self.loans, self.page()[1:]):
                self.lines[loan].append(line)
        self.sent, self.known = dict.fromkeys(self.loans, 0), dict.fromkeys(self.loans, 0)

    def page(self):
        """The lines of the page as the rules have it now."""
        return self.library.handle("", ["page", str(self.patron)]).split("\n")

    def note(self, loan, count):
        """Notes a count of renewals that was answered or shown; none is more than were sent."""
        with self.lock:
            check(f"renewals of loan {loan} that were sent", count <= self.sent[loan], True)
            self.known[loan] = max(self.known[loan], count)

    def look(self, serving):
        """Looks at the page: it shows all that was known before."""
        before = dict(self.known)
        status, body = page_of(serving, self.patron)
        check("a page", status, 200)
        head, *lines = json.loads(body)["reply"].split("\n")
        check("its first line and its loans", (head, len(lines)), (self.head, len(self.loans)))
        for loan, line in zip(self.loans, lines):
            check(f"a line of the rules: {line}", line in self.lines[loan], True)
            count = self.lines[loan].index(line)
            check(f"no step back from renewal {before[loan]} of loan {loan}: {line}", count >= before[loan], True)
            self.note(loan, count)

    def renew(self, serving, loan, key):
        """Renews a loan: the due day is that of a renewal after all that were known."""
        with self.lock:
            before = self.known[loan]
            self.sent[loan] += 1
        found = asked(serving, caller_of(self.patron), key, ["renew", str(loan)])
        due = found[1][-12:-2].decode()
        check(f"a renewal of loan {loan}", found, told(f"loan {loan} due {due}"))
        check(f"a due day of the rules: {due}", due in self.dues[loan], True)
        check(f"it is a renewal more than {before}", self.dues[loan].index(due) > before, True)
        self.note(loan, self.dues[loan].index(due))


def no_step_back(town):
    """Eight clients, two for a patron, mix renewals and looks: a page shows what was answered or shown before it was
    asked for."""
    path, library = town.copied("steps.db")
    seed = random.randrange(10**9)
    print(f"hall: renewals and pages mixed by the seed {seed}")
    watched = [Watched(library, patron) for patron in PATRONS[:4]]
    turns = 100

    def client(number):
        it, mixed = watched[number // 2], random.Random(seed + number)
        for turn in range(turns):
            if mixed.random() < 0.5:
                it.look(serving)
            else:
                it.renew(serving, mixed.choice(it.loans), f"n{number}-{turn}")

    with Serving(path, 8 * turns + len(watched), workers=8) as serving:
        at_once([lambda number=number: client(number) for number in range(8)])
        for it in watched:
            check("every renewal sent was answered, as it is on the page", it.known, it.sent)
            it.look(serving)
    handle_kept(path, library)


def lending_of(patron):
    """What a clerk asks for on behalf of a patron: copies that are lent, come in, are held and are lost, and what is
    owed for them."""
    # another patron waits for the copy meanwhile, and borrows and loses it; then it is found
    number, other, on_loan = str(TITLES[patron]), str(patron + 4), str(2 * patron)
    for turn in range(12):
        key = f"q{patron}-{turn}"
        if (patron, turn) == (1, 6):
            yield "q1-day", ["begin-day", "2026-03-20"]
        yield f"{key}a", ["check-out", str(patron), number, "1"]
        yield f"{key}b", ["place-hold", other, number, str(1 + turn % 2)]
        yield f"{key}c", ["check-in", number, "1"]
        yield f"{key}d", ["check-in", number, str(1 + turn % 2)]
        yield f"{key}e", ["check-out", other, number, str(1 + turn % 2)]
        yield f"{key}f", ["missing", number]
        yield f"{key}g", ["pay", other, "2000"]
        yield f"{key}h", ["waive", other, "500"]
        yield f"{key}i", ["check-in", number, "1"]
        # corrections: the copy stands on its shelf again at the end
        yield f"{key}j", ["rehome", number, "2"]
        yield f"{key}k", ["amend-title", number, f"Edition-{turn}"]
        yield f"{key}l", ["rehome", number, "1"]
        yield f"{key}m", ["amend-patron", other, "1", f"Reader-{turn}"]
        yield f"{key}n", ["check-in", number, "1"]
        # settings, of which none changes what the others are answered
        yield f"{key}o", ["close-day", "2", f"2027-{patron:02}-{1 + turn:02}"]
        yield f"{key}p", ["amend-branch", "2", "3", f"Harbour-{turn}"]
        yield f"{key}q", ["kind", str(90 + patron), str(turn), "0", "0"]
        yield f"{key}r", ["rule", str(90 + patron), str(1 + turn), "7", "0", "0", "0"]
        # barcodes, of which one is the copy's and then the patron's, and what is paid at a counter
        yield f"{key}s", ["copy-barcode", number, f"b{number}"]
        yield f"{key}t", ["patron-barcode", other, f"b{number}"]
        yield f"{key}u", ["copy-barcode", number, f"c{number}x{turn}"]
        yield f"{key}v", ["patron-barcode", other, f"b{number}"]
        yield f"{key}w", ["charge", other, str(30 + turn), "2", "Copies"]
        yield f"{key}x", ["pay-at", other, str(10 + turn), "1"]
        yield f"{key}y", ["drop-barcode", f"b{number}"]
    yield f"q{patron}-renew", ["renew", on_loan]


def asked_of(patron, turn):
    """What another clerk asks meanwhile about that patron, the title, the branches and the settings."""
    number, other, lap = str(TITLES[patron]), str(patron + 4), turn // len(QUESTIONS) % 2
    asked_ = every_question(P=other, C=number, B=str(1 + (turn + lap) % 2), T=number, K=str(90 + patron),
                            N=("2026-03-02", "2026-03-20")[lap], A="0", F="e", W=f"b{number}")
    return asked_[turn % len(QUESTIONS)]


class Seen:
    """What clerks at once sent and were answered, in the order in which it was."""

    def __init__(self):
        self.lock, self.sent, self.answered = threading.Lock(), [], []

    def change(self, serving, key, words):
        """A request that may change something."""
        with self.lock:
            self.sent.append(key)
        found = asked(serving, 0, key, words)
        with self.lock:
            self.answered.append(key)
        return found

    def question(self, serving, key, words):
        """A question: its answer, which requests had been answered before it was asked, and which had been sent when
        it was answered."""
        with self.lock:
            before = len(self.answered)
        found = asked(serving, 0, key, words)
        with self.lock:
            return words, found, before, len(self.sent)


def places_of(seen, order, before, sent):
    """The first and the last place of the one list at which a question may have stood: after all that was answered
    before it, and before all that was sent after it."""
    place = {key: at for at, key in enumerate(order, 1)}
    first = max((place.get(key, 0) for key in seen.answered[:before]), default=0)
    there = {*seen.sent[:sent]}
    last = next((at for at, key in enumerate(order) if key not in there), len(order))
    return first, last


def questions_at_once(town):
    """Eight workers, four clerks that lend and four that ask: each answer is that of the rules at one place of the
    list of what was accepted, after all that was answered before it and before all that was sent later, and no clerk
    is shown an earlier place than before."""
    path, library = town.copied("asked.db")
    seen, turns = Seen(), 200

    def lends(patron):
        return [(key, words, seen.change(serving, key, words)) for key, words in lending_of(patron)]

    def asks(patron):
        # under the keys of requests that are accepted meanwhile
        return [seen.question(serving, f"q{patron}-{turn % 12}a", asked_of(patron, turn)) for turn in range(turns)]

    patrons = PATRONS[:4]
    changes = [sum(1 for _ in lending_of(patron)) for patron in patrons]
    with Serving(path, sum(changes) + turns * len(patrons), workers=8) as serving:
        found = at_once([*[lambda patron=patron: lends(patron) for patron in patrons], *[lambda patron=patron: asks(patron) for patron in patrons]])
    lent, shown = found[:len(patrons)], found[len(patrons):]
    kept = [it for it in rows(path, "SELECT caller, key, text, reply FROM kept ORDER BY rowid") if it[:2] not in library.kept]
    answers = {key: body for told_ in lent for key, _, body in told_}
    check("most was accepted", len(kept) > sum(changes) * 2 // 3, True)
    asked_for = {tuple(words) for told_ in shown for words, *_ in told_}
    # what each question is answered by the rules at each place
    at_place = [{words: told(library.handle("", list(words))) for words in asked_for}]
    for caller, key, text, reply in kept:
        check(f"{key} {text}", (reply, answers[key]), (library.handle(key, text.split()), told(reply)))
        at_place.append({words: told(library.handle("", list(words))) for words in asked_for})
    order, between, kinds = [key for _, key, _, _ in kept], 0, set()
    for told_ in shown:
        place = 0
        for words, answer_, before, sent in told_:
            first, last = places_of(seen, order, before, sent)
            fits = [at for at in range(max(first, place), last + 1) if at_place[at][tuple(words)] == answer_]
            check(f"{words} is answered by the rules at a place from {max(first, place)} to {last}: {answer_}", bool(fits), True)
            place = fits[0]
            if answer_ not in (at_place[0][tuple(words)], at_place[-1][tuple(words)]):
                between += 1
                kinds.add(words[0])
    print(f"hall: {sum(map(len, shown))} questions beside {len(kept)} requests that were accepted, {between} answered as it was neither before nor after all of them")
    check(f"questions of many kinds were answered in between: {kinds}", (between > 50, len(kinds) > 4), (True, True))
    runs.the_rows_are(path, library)


def work(serving, requests, answers):
    """Asks one request after another up to the first that has no answer, and notes the answers; whether that one may
    have reached the program."""
    for request in requests:
        try:
            answers[request[0], request[1]] = asked(serving, *request)
        except ConnectionRefusedError:
            return False
        except (OSError, http.client.HTTPException):
            return True
    return False


KILLS = 30  # so many at most, until they hit


def killed_at(path, plans, moment):
    """The answers of eight clients until the program is killed at a moment, and how many of them wait for an answer in
    vain."""
    answers = {}
    with Serving(path, 8_000_000, status=-signal.SIGKILL, workers=8) as serving:
        killer = threading.Timer(moment, serving.run.kill)
        killer.start()
        waiting = at_once([lambda plan=plan: work(serving, plan, answers) for plan in plans])
        killer.join()
    return answers, sum(waiting)


def kills(town):
    """The program is killed while eight clients are at work: what was answered is kept, nothing acts in part, and what
    is sent again acts once."""
    plans = [[it for pair in zip(holds_of(patron), renewals_of(patron)) for it in pair] for patron in PATRONS]
    everyone = {(caller, key) for plan in plans for caller, key, _ in plan}
    seed, sums = random.randrange(10**9), {"answered": 0, "cut": 0, "cut and kept": 0}
    moments = random.Random(seed)
    print(f"hall: moments of kills by the seed {seed}")

    def all_of_it(path):
        answers = {}
        with Serving(path, len(everyone), workers=8) as serving:
            waiting = at_once([lambda plan=plan: work(serving, plan, answers) for plan in plans])
        check("all are answered", (waiting, len(answers)), ([False] * 8, len(everyone)))
        return answers

    path, library = town.copied("calm.db")
    _, took = timed(lambda: all_of_it(path))
    handle_kept(path, library)
    for at in range(KILLS):
        if at >= 6 and sums["answered"] and sums["cut"]:
            break
        path, library = town.copied(f"killed{at}.db")
        answered, cut = killed_at(path, plans, moments.uniform(0.05, 0.8) * took)
        with runs.as_it_is(path) as left:
            handle_kept(left, library)
        kept = {it: told(reply) for it, (_, reply) in library.kept.items() if it in everyone}
        for it, reply in answered.items():
            check(f"{it} was answered and is kept, seed {seed}", kept.get(it), reply)
        check(f"what else is kept was cut, seed {seed}", len(kept) - len(answered) <= cut, True)
        sums = {name: sums[name] + more for name, more in zip(sums, (len(answered), cut, len(kept) - len(answered)))}
        again = all_of_it(path)
        for it, reply in kept.items():
            check(f"{it} gets its reply again, seed {seed}", again[it], reply)
        for it, (status, _) in again.items():
            check(f"{it} is accepted, seed {seed}", status, 200)
        handle_kept(path, library)
        for it, reply in again.items():
            check(f"the reply of {it}, seed {seed}", reply, told(library.kept[it][1]))
    print("hall: requests at kills: " + ", ".join(f"{many} {what}" for what, many in sums.items()))
    check(f"kills hit work, seed {seed}", (sums["answered"] > 0, sums["cut"] > 0), (True, True))


def a_full_disk(town):
    """The disk takes no more while eight clients are at work: one is told the fault, all later requests that the hall
    is closed. What was answered stands, and so do the pages."""
    path, library = town.copied("full.db")
    looks = [patron for patron in PATRONS for _ in range(3)]

    def client(patron):
        found = []
        for at, request in enumerate(holds_of(patron)):
            # no file of the process can be written from here on; the signal that would come with it is ignored as it
            # is here
            if patron == 1 and at == 10:
                resource.prlimit(serving.run.pid, resource.RLIMIT_FSIZE, (0, 0))
            found.append((request, asked(serving, *request)))
        return found

    connections = len(PATRONS) * HOLDS + 2 * len(looks)
    with Serving(path, connections, "fault 91\n", 3, workers=8, restore_signals=False) as serving:
        found = at_once([lambda patron=patron: client(patron) for patron in PATRONS])
        accepted = [it for answered in found for it in answered if it[1][0] == 200]
        handle_holds(library, accepted)
        refused = [reply for answered in found for _, reply in answered if reply[0] != 200]
        check("one met the fault", refused.count((503, b'{"fault":91}')), 1)
        check("the others met a closed hall", refused.count((503, b'{"fault":92}')), len(refused) - 1)
        for answered in found:
            statuses = [status for _, (status, _) in answered]
            check("nothing is accepted after that", statuses, sorted(statuses))
        check("ten were accepted before", [status for _, (status, _) in found[0]], [200] * 10 + [503] * (HOLDS - 10))
        for at, patron in enumerate(looks):
            check("a page as it was last", page_of(serving, patron), page_by(library, patron))
            check("the same by the desk", asked(serving, 0, f"p{at}", ["page", str(patron)]), page_by(library, patron))
    runs.the_rows_are(path, library)


def let_go(serving, bytes_):
    """A client that sends a beginning of a request and then nothing gets no answer, and is let go after half a
    minute."""
    with socket.create_connection(("127.0.0.1", serving.port), timeout=120) as peer:
        peer.sendall(bytes_)
        began = time.monotonic()
        check(f"nothing is answered to {bytes_}", everything(peer), b"")
        check(f"it is let go after half a minute, {bytes_}", time.monotonic() - began > 29, True)


def byte_by_byte(serving):
    """A client that sends a byte each second is answered, however long its request takes."""
    with socket.create_connection(("127.0.0.1", serving.port), timeout=120) as peer:
        for byte in b"GET /patrons/1 HTTP/1.0\nCard-Key:cardkey00001\n\n":
            peer.sendall(bytes((byte,)))
            time.sleep(1)
        check("a request byte by byte", everything(peer), answer("200 OK", ANNS_PAGE))


def unread(serving, is_over):
    """A client that doesn't read its answer, nor closes its end: the answer lies there until it does."""
    with socket.create_connection(("127.0.0.1", serving.port), timeout=120) as peer:
        peer.sendall(PAGE_OF_ANN)
        is_over.wait()
        check("an answer that was left alone", everything(peer), answer("200 OK", ANNS_PAGE))


def crowd(serving, count):
    """So many connections that are opened at once, and left with nothing sent. How many were made."""
    peers = []
    for _ in range(count):
        peer = socket.socket()
        peer.setblocking(False)
        peer.connect_ex(("127.0.0.1", serving.port))
        peers.append(peer)
    made = sum(peer.getsockopt(socket.IPPROTO_TCP, socket.TCP_INFO, 1)[0] == 1 for peer in peers)
    for peer in peers:
        peer.close()
    return made


def slow_clients(folder):
    """Clients that are slow, silent or gone keep the workers waiting that they have, for half a minute after their
    last byte. The patrons of the other workers are served meanwhile, and then all is as before."""
    path, beside, is_over = a_library(folder, "slow.db"), [], threading.Event()
    before = runs.whole(path)
    half_a_body = hold_with(HOLD, key=b"s1")[:-12]

    def looks():
        while not is_over.is_set():
            check("a page meanwhile", serving.raw(PAGE_OF_ANN), answer("200 OK", ANNS_PAGE))
            # how many of the slow clients are there still
            beside.append(sum(not it.done() for it in slow))
            time.sleep(0.1)

    with Serving(path, 8_000_000, status=-signal.SIGKILL, workers=8) as serving, ThreadPoolExecutor(8) as pool:
        slow = [pool.submit(byte_by_byte, serving), pool.submit(let_go, serving, HALF_A_HEAD), pool.submit(let_go, serving, half_a_body)]
        late = [pool.submit(unread, serving, is_over), pool.submit(looks)]
        try:
            made = sum(crowd(serving, 1000) for _ in range(2))
            for it in slow:
                it.result()
        finally:
            is_over.set()
        for it in late:
            it.result()
        print(f"hall: {beside.count(3)} pages beside three slow clients; {made} of 2000 connections were made and left")
        check("pages were shown while each of the slow clients was there", beside.count(3) > 4, True)
        check("connections were made", made > 100, True)
        with runs.as_it_is(path) as left:
            check("the rows after slow clients", runs.whole(left), before)
        # each of the eight workers is there again: as many connections wait for one another's end
        peers = [socket.create_connection(("127.0.0.1", serving.port), timeout=60) for _ in range(8)]
        for peer in reversed(peers):
            peer.sendall(PAGE_OF_ANN)
            check("one of eight at once", everything(peer), answer("200 OK", ANNS_PAGE))
        for peer in peers:
            peer.close()
        check("the request that was never whole", serving.raw(hold_with(HOLD, key=b"s1")), answer("200 OK", b'{"reply":"hold 1"}'))
        serving.run.kill()


def main():
    with tempfile.TemporaryDirectory() as folder, ThreadPoolExecutor(1) as pool:
        # most of a minute in which little happens, beside the others
        slow = pool.submit(part, slow_clients, folder)
        part(a_hold_and_its_page, folder)
        part(one_is_held, folder)
        part(pages_of_a_month, folder)
        town = Town(folder)
        for workers in (2, 8):
            part(a_reply_is_on_the_page, town, workers)
            part(a_corrected_title, town, workers)
        part(fifty_holds_each, town)
        part(no_step_back, town)
        part(void_card_keys, town)
        part(questions_at_once, town)
        part(a_full_disk, town)
        part(kills, town)
        slow.result()


if __name__ == "__main__":
    run_script(main)
