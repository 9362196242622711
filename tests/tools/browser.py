#!/usr/bin/python3
"""A clerk's day and a patron's in a real browser: Chromium, over nginx and over Caddy with the configurations of
docs/operations, before a `circ serve` of four workers. It is no part of the gate: `tests/tools/outside` runs it, with
what it needs from the system's packages.

    tests/tools/browser.py             both servers
    tests/tools/browser.py --pictures  writes the pictures of both pages in docs/ too, 1,280 and 360 pixels wide
"""

import contextlib
import importlib.util
import json
import os
import re
import socket
import sqlite3
import ssl
import subprocess
import sys
import tempfile
import time
from importlib.machinery import SourceFileLoader

from selenium.webdriver.common.action_chains import ActionChains
from selenium.webdriver.common.by import By
from selenium.webdriver.common.keys import Keys

from room import TOP
from lib import limits
from lib.browser_day import by_names
from lib.browsing import DESK_KEY, Desk, Failed, Page, browser, complaints, counts, need, until
from lib.examples import here

LOADED = importlib.util.spec_from_loader("outside", SourceFileLoader("outside", f"{TOP}/tests/tools/outside"))
outside = importlib.util.module_from_spec(LOADED)
LOADED.loader.exec_module(outside)
BRANCHES = {"1": "Main", "2": "Harbour"}
# what is done before a desk opens, since it opens for a branch that is there
FIRST_DAY = "2026-03-02"
SET_UP = (f"begin-day {FIRST_DAY}", "branch ")


class Serving:
    """`circ serve` with four workers on a port of its own, which can be killed and started again."""

    def __init__(self, place, name="town.db"):
        self.path, self.port = os.path.join(place, name), outside.free_port()

    def start(self, keys=DESK_KEY):
        self.run = subprocess.Popen([outside.PROGRAM, "serve", self.path, str(self.port), "4", "1000000", keys], stdout=subprocess.PIPE)
        need("listening", self.run.stdout.readline(), f"listening on {self.port}\n".encode())

    def kill(self):
        self.run.kill()
        self.run.wait()

    def rows(self, text):
        """What stock SQLite reads, once nothing serves."""
        with contextlib.closing(sqlite3.connect(self.path)) as found:
            return found.execute(text).fetchall()


@contextlib.contextmanager
def behind_nginx(place, port, allowed="allow 127.0.0.1;"):
    key, cert, at = f"{place}/key.pem", f"{place}/cert.pem", outside.free_port()
    made = outside.run("openssl", "req", "-x509", "-newkey", "rsa:2048", "-nodes", "-keyout", key, "-out", cert, "-days", "2", "-subj", "/CN=library.example")
    outside.need("a certificate", made.returncode == 0, made.stderr)
    site = outside.document("operations/nginx.conf").replace("/etc/ssl/circ/cert.pem", cert).replace("/etc/ssl/circ/key.pem", key).replace("allow 127.0.0.1;", allowed)
    outside.write(f"{place}/health.key", f"proxy_set_header Desk-Key {DESK_KEY};\n")
    site = site.replace("/etc/circ/health.key", f"{place}/health.key")
    site = site.replace("listen 443", f"listen {at}").replace("127.0.0.1:8080", f"127.0.0.1:{port}").replace("root /usr/local/share/circ", f"root {place}/share/circ")
    temporary = "".join(f"{it}_temp_path {place}/{it};\n" for it in ("client_body", "proxy", "fastcgi", "uwsgi", "scgi"))
    outside.write(f"{place}/nginx.conf", f"user root;\npid {place}/pid;\nerror_log {place}/error.log;\nevents {{}}\nhttp {{\ninclude /etc/nginx/mime.types;\naccess_log off;\n{temporary}{site}\n}}\n")
    server = subprocess.Popen(["nginx", "-c", f"{place}/nginx.conf", "-g", "daemon off;"])
    try:
        outside.await_port(at)
        yield f"https://127.0.0.1:{at}"
    finally:
        server.terminate()
        server.wait()


@contextlib.contextmanager
def behind_caddy(place, port):
    at = outside.free_port()
    site = here(outside.document("operations/Caddyfile"), place).replace("127.0.0.1:8080", f"127.0.0.1:{port}")
    site = site.replace("library.example {", f"https://127.0.0.1:{at} {{\n\ttls internal", 1)
    alone = "\n{\n\tadmin off\n\tskip_install_trust\n\tauto_https disable_redirects\n"
    site = site.replace("\n{\n", alone, 1).replace("root * /usr/local/share/circ", f"root * {place}/share/circ")
    outside.write(f"{place}/Caddyfile", site)
    words = ["caddy", "run", "--adapter", "caddyfile", "--config", f"{place}/Caddyfile"]
    with open(f"{place}/caddy.err", "ab") as told:
        server = subprocess.Popen(words, env={**os.environ, "HOME": place}, stdout=told, stderr=told)
    try:
        outside.await_port(at)
        yield f"https://127.0.0.1:{at}"
    finally:
        server.terminate()
        server.wait()


def dollars(cents):
    return f"{int(cents) // 100}.{int(cents) % 100:02}"


def sentences():
    """What the pages say of each number."""
    with open(f"{TOP}/pages/texts.js", encoding="utf-8") as file:
        return dict(re.findall(r'^  (\d+): "([^"]*)",$', file.read(), re.M))


REFUSALS = sentences()


def day():
    """What is typed on the day at the desk, with the answers: lines under a key that was typed before, files and lists
    of copies aside. Questions, which pass over their key, and reports are all there; a report is a question whose last
    line tells how many rows there are."""
    text, keys = outside.document("DAY-AT-THE-DESK.md"), set()
    for run, words, answer in re.findall(r"^\$ \./circ (file|report) day\.db (\S+ .+)\n((?:(?!\$|```).*\n)+)", text, re.M):
        if run == "report":
            yield (words if words.startswith("till") else f"{words} 0"), re.sub(r"\n(ready|overdue) \d+$", "\nend", answer.rstrip("\n"))
            continue
        key, _, line = words.partition(" ")
        if (key == "q" or key not in keys) and answer.strip() != "words not understood":
            yield line, answer.rstrip("\n")
        keys.add(key)


class Known:
    """Of the lines of the day so far: the titles of copies, names of patrons, whose the holds are and until when they
    are ready, which copies are on loan, who had each last, and who owes how much."""

    def __init__(self):
        self.day = FIRST_DAY
        self.of_copy, self.of_title, self.names, self.holders, self.loans, self.untils, self.borrowers, self.owed = {}, {}, {}, {}, {}, {}, {}, {}

    def learn(self, line, answer):
        name, *parts = re.findall(r"'[^']*'|\S+", line)
        if name == "begin-day":
            self.day = parts[0]
        elif name == "acquire":
            self.of_copy[parts[0]] = self.of_title[parts[1]] = parts[5].strip("'")
        elif name == "patron":
            self.names[parts[0]] = parts[3].strip("'")
        elif name == "amend-patron":
            self.names[parts[0]] = parts[2].strip("'")
        elif name == "amend-title":
            former, text = self.of_title[parts[0]], parts[1].strip("'")
            self.of_title[parts[0]] = text
            self.of_copy.update({copy: text for copy, title in self.of_copy.items() if title == former})
        elif name.startswith("place-hold") and answer.startswith("hold "):
            self.holders[answer.split()[1]] = self.names[parts[0]]
        elif name == "check-out" and answer.startswith("loan "):
            self.loans[answer.split()[1]] = parts[1]
            self.borrowers[parts[1]] = parts[0]
        elif name in ("check-in", "missing") and answer.startswith("fine "):
            self.owed[self.borrowers.get(parts[0])] = self.owing(parts[0], answer)
        elif name in ("pay", "waive", "charge", "pay-at") and answer.startswith("owed "):
            self.owed[parts[0]] = int(answer.split()[1])
        ready = re.search(r"ready (\d+) at \d+ until (\S+)", answer)
        if ready:
            self.untils[ready[1]] = ready[2]

    def owing(self, copy, answer):
        """What the last borrower of a copy owes once a fine or a price came to it, in cents."""
        return self.owed.get(self.borrowers.get(copy), 0) + sum(map(int, re.findall(r"(?:fine|price) (\d+)", answer)))

    def placed(self, place):
        """What the clerk is told of a place to which a copy goes."""
        words = place.split()
        if words[0] == "shelf":
            return f"To the shelf, {BRANCHES[words[1]]}."
        if words[0] == "ready":
            return f"Ready for {self.holders[words[1]]}, hold {words[1]}, at {BRANCHES[words[3]]} until {words[5]}."
        return f"In transit to {BRANCHES[words[1]]}, for {self.holders[words[3]]}, hold {words[3]}." if len(words) > 2 else f"In transit to {BRANCHES[words[1]]}."


def refused(answer):
    number = re.fullmatch(r"refused (\d+)", answer)
    return number and REFUSALS[number[1]]


FORMS = [
    (r"ok", lambda: "Done."),
    (r"loan (\d+) due (\S+)", lambda loan, due: f"Loan {loan}, due {due}."),
    (r"hold (\d+)", lambda hold: f"Hold {hold} is placed."),
    (r"owed (\d+)", lambda owed: f"Still owed: {dollars(owed)}."),
    (r"fine (\d+) price (\d+)", lambda fine, price: f"Fine {dollars(fine)}, price {dollars(price)}."),
    (r"transit (\d+)", lambda branch: f"In transit to {BRANCHES[branch]}."),
    (r"patron (\d+) owed (\d+) name (.*)\nkind (\d+)(?:\nbarcode (.*))?",
     lambda patron, owed, name, kind, barcode: f"Patron {patron}, {name}: kind {kind}, owes {dollars(owed)}."
     + (f" Barcode {barcode}." if barcode else "")),
    (r"(copy|patron) (\d+)", lambda of, number: f"This is the barcode of {of} {number}."),
]
OF_BRANCH = ("pulls", "shelf", "overdue", "transits", "till-at")
LISTED = (*OF_BRANCH, "debts", "account", "till", "missing-copies", "loans", "rules", "find-patrons", "find-titles")


def typed(line):
    """A line of the program as it is typed on the page: amounts as they are shown there."""
    name, *words = re.findall(r"'[^']*'|\S+", line)
    of_one = dict.fromkeys(("pay", "waive", "charge", "pay-at"), [1])
    at = {"kind": [3], "rule": [4, 5], "acquire": [4], "amend-copy": [2], **of_one}.get(name, [])
    return " ".join([name, *(dollars(word) if place in at else word for place, word in enumerate(words))])


def shown(line):
    """What the desk's page shows for a line of the program, titles and names aside."""
    for form, made in FORMS:
        found = re.fullmatch(form, line)
        if found:
            return made(*found.groups())
    return refused(line)


def page_shown(answer, branch, day):
    """What is told of a patron's page, with what is ready at the branch and what is overdue on the library's day."""
    first, *rest = answer.split("\n")
    patron, owed, name = re.fullmatch(r"patron (\d+) owed (\d+) name (.*)", first).groups()
    loans, holds = (sum(it.startswith(kind) for it in rest) for kind in ("loan ", "hold "))
    told = f"Patron {patron}, {name}: {loans} on loan, {holds} on hold, owes {dollars(owed)}."
    ready = len(re.findall(rf"^hold \d+ at {branch} ready ", answer, re.M))
    late = sum(due < day for due in re.findall(r"^loan \d+ due (\S+)", answer, re.M))
    told += f" {ready} holds are ready here." if ready > 1 else " 1 hold is ready here." if ready else ""
    return told + (f" {late} loans are overdue." if late > 1 else " 1 loan is overdue." if late else "")


def of_account(line, day, sort, cents, at, what, text):
    """A row of an account. What the day has paid with no place is paid at the counter of the page, which is Main."""
    at = "1" if sort == "payment" and at is None else at
    place = f" at {BRANCHES[at]}" if at else ""
    return f"{line} {day} {sort}{place} {dollars(cents)} {what or text or ''}".strip()


def cells(question, answer, names):
    """The rows that a list shows for an answer; some have the names of patrons beside their numbers."""
    def with_name(before, patron, *them):
        return " ".join([*before.split(), patron, names[patron], *(it for it in them if it)])

    forms = {
        "pulls": (r"hold (\d+) copy (\d+) title \d+ (.*)", lambda hold, copy, text: f"{copy} {text} {hold}"),
        "transits": (r"copy (\d+) for (\d+) title \d+ (.*)", lambda copy, hold, text: f"{copy} {text} {hold}"),
        "shelf": (r" *(\d+ +\d+) +(\d+) (\S+) (.*)", with_name),
        "overdue": (r" *(\d+) +(\d+) +(\d+) (\S+) +(\d+) (.*)", with_name),
        "debts": (r"patron (\d+) owed (\d+) name (.*)", lambda patron, owed, name: f"{patron} {name} {dollars(owed)}"),
        "account": (r"line (\d+) (\S+) (\w+) (\d+)(?: at (\d+))?(?: for (.*))?(?: loan \d+ title \d+ (.*))?", of_account),
        "till": (r"(\w+) +(\d+)", lambda sort, cents: f"{sort} {dollars(cents)}"),
        "missing-copies": (r"copy (\d+) home (\d+) title (\d+) (.*)", lambda copy, home, title, text: f"{copy} {text} {title} {BRANCHES[home]}"),
        "loans": (r"loan (\d+) patron (\d+) made (\S+) due (\S+)(?: ended (\S+))?", with_name),
        "rules": (r"rule \d+ (\d+) period (\d+) renewals (\d+) rate (\d+) cap (\d+) grace (\d+)", lambda kind, *them: " ".join([kind, *them[:2], dollars(them[2]), dollars(them[3]), them[4]])),
        "find-patrons": (r"patron (\d+) owed (\d+) name (.*)", lambda patron, owed, name: f"{patron} {name} {dollars(owed)}"),
        "find-titles": (r"title (\d+) (.*)", lambda title, text: f"{title} {text}"),
    }
    form, made = forms["till" if question == "till-at" else question]
    lines = answer.split("\n")
    headless = lines[1:] if question in ("shelf", "overdue", "account", "till", "till-at") else lines
    return [made(*re.fullmatch(form, line).groups()) for line in headless if line != "end"]


def standing(place):
    """What a list shows of the place of a copy."""
    lent = re.fullmatch(r"loan (\d+) due (\S+) patron \d+ (.*)", place)
    if lent:
        return f"On loan to {lent[3]}, due {lent[2]}."
    forms = {"shelf": "On the shelf, {}.", "transit": "In transit to {}."}
    kind, *branch = place.split()[:2]
    return forms[kind].format(BRANCHES[branch[0]]) if kind in forms else f"{place.capitalize()}."


class Clerk:
    """Does the lines of the day as a clerk does: by scans where there is a mode for them, by the lists where they are
    asked, and else by words."""

    def __init__(self, driver, base):
        self.driver, self.base, self.known, self.desk = driver, base, Known(), None

    def at(self, branch):
        """The desk of a branch."""
        if self.desk is None or self.branch != branch:
            self.desk, self.branch = Desk(self.driver, self.base, branch), branch
            need("the head", self.desk.it("place").text.split(", ")[:2], ["Town library", BRANCHES[branch]])
        return self.desk

    def told(self, what, one):
        need(what, one, self.desk.told())
        self.desk.go_on()
        need("the next scan goes to its line", self.desk.focus(), "scan")

    def visit(self, mode, patron, branch):
        desk = self.at(branch)
        desk.mode(mode)
        if desk.it("next").is_displayed():
            desk.it("next").click()
        return desk.scan(patron)

    def scanned(self, line, label, title, name, answer):
        """What is told of a scan that was sent."""
        if refused(answer) and line.startswith("check-out"):
            until(f"where the copy of {line} is", lambda: self.desk.told().startswith(f"{label}: {refused(answer)} {title}: "))
            return self.desk.go_on()
        done = self.done(line, title, name, answer)
        return self.told(f"scanned {line}", f"{label}: {refused(answer)}" if refused(answer) else done)

    def done(self, line, title, name, answer):
        """What is told of an accepted scan, for whom and of which title."""
        lent, held, owed = (re.fullmatch(it, answer) for it in (r"loan \d+ due (\S+)", r"hold (\d+)", r"owed (\d+)"))
        if lent and name:
            return f"{title} {'renewed for' if line.startswith('renew') else 'lent to'} {name}, due {lent[1]}."
        if held:
            return f"Hold {held[1]} on {title} is placed for {name}."
        return f"{name} still owes {dollars(owed[1])}." if owed else f"{title}: {shown(answer)}"

    def check_out(self, line, answer, patron, copy, branch):
        if patron not in self.known.names:
            self.visit("check-out", patron, branch)
            return self.told(line, f"patron {patron}: {refused(answer)}")
        self.visit("check-out", patron, branch)
        self.desk.scan(f"C{copy}")
        return self.scanned(line, f"copy {copy}, patron {patron}", self.known.of_copy[copy], self.known.names[patron], answer)

    def check_in(self, line, answer, copy, branch):
        desk = self.at(branch)
        desk.mode("check-in")
        desk.scan(copy)
        fine, place = re.fullmatch(r"fine (\d+) (.*)", answer).groups()
        owed = f"Fine: {dollars(fine)}. {self.known.names.get(self.known.borrowers.get(copy))} owes {dollars(self.known.owing(copy, answer))} now."
        self.told(line, f"{self.known.of_copy[copy]}: {self.known.placed(place)} " + ("No fine." if fine == "0" else owed))
        need("a slip where the copy goes to a hold or a branch", desk.it("slips").is_displayed(), not place.startswith("shelf"))
        if not place.startswith("shelf"):
            held = re.search(r"(?:ready|for) (\d+)", place)
            need("who is on the slip", held is None or self.known.holders[held[1]] in desk.it("slip-list").text, True)
            desk.it("put-away").click()

    def place_hold(self, line, answer, patron, title, branch):
        self.visit("place-hold", patron, branch)
        self.desk.scan(title)
        self.scanned(line, f"title {title}, patron {patron}", self.known.of_title[title], self.known.names[patron], answer)

    def pay(self, line, answer, patron, cents):
        self.visit("pay", patron, self.branch)
        self.desk.scan(dollars(cents))
        if answer == "refused 60" and int(cents) > 0:
            return self.told(line, f"{dollars(cents)} paid, patron {patron}: That is more than is owed ({dollars(self.known.owed.get(patron, 0))}).")
        return self.scanned(line, f"{dollars(cents)} paid, patron {patron}", None, self.known.names[patron], answer)

    def renew(self, line, answer, loan):
        copy = self.known.loans[loan]
        self.desk.mode("renew")
        self.desk.scan(f"C{copy}")
        self.scanned(line, f"copy {copy}", self.known.of_copy[copy], None, answer)

    def page(self, line, answer, patron):
        self.visit("check-out", patron, self.branch)
        self.told(line, page_shown(answer, self.branch, self.known.day))
        holds = re.findall(r"^hold (\d+) at (\d+) ready title \d+ (.*)$", answer, re.M)
        lines = [f"{text}, hold {hold}, ready at {BRANCHES[branch]} until {self.known.untils[hold]}" for hold, branch, text in holds]
        until("until when holds are ready", lambda: [it for it in self.desk.items("patron-lines") if ", ready at " in it] == lines)

    def listed(self, line, answer, question, *parts):
        """A question that has a list: by its button, at the desk of its branch."""
        desk = self.at(parts[0]) if question in OF_BRANCH else self.desk
        if question in ("till", "till-at"):
            self.driver.execute_script("arguments[0].value = arguments[1]", desk.it("till-day"), parts[-1])
            desk.press(question)
        elif question in ("account", "loans"):
            desk.type(*(("looked-patron", f"P{parts[0]}") if question == "account" else ("looked", f"C{parts[0]}")))
            desk.press(question)
        elif question == "rules":
            desk.type("ruled", parts[0])
            desk.it("ruled").send_keys(Keys.ENTER)
        elif question.startswith("find-"):
            desk.type(f"sought-{question[5:-1]}", " ".join(parts[1:]).strip("'"))
            desk.press(question)
        else:
            desk.press(question)
        found = cells(question, answer, self.known.names)
        until("the list is answered", lambda: desk.it("list-told").text != "Sending …")
        if question in ("shelf", "overdue", "loans"):
            until("the names have come", lambda: desk.items("list-rows") == found, 10)
        rows = desk.items("list-rows")
        # a list on the page begins at its beginning, so of an account that is asked for from a line on it shows the
        # lines before too
        need(line, rows[-len(found):] if question == "account" and parts[-1] != "0" else rows, found)

    def copy(self, line, answer, copy):
        self.desk.type("looked", copy)
        self.desk.it("looked").send_keys(Keys.ENTER)
        until("a copy", lambda: len(self.desk.items("list-rows")) == 1)
        home, price, title, text, place = re.fullmatch(r"copy \d+ home (\d+) kind \d+ price (\d+) title (\d+) (.*)\n(.*)", answer).groups()
        until("this copy", lambda: self.desk.it("list-head").text == f"Copy {copy}")
        need(line, self.desk.items("list-rows"), [f"{copy} {text} {title} {BRANCHES[home]} {dollars(price)} {standing(place)}"])

    def words(self, line, answer):
        desk = self.at(self.desk and self.branch or "1")
        told, owed = desk.words(typed(line)), re.fullmatch(r"owed (\d+)", answer)
        # of the patron at the desk it is said with the name
        need(line, shown(answer) in told or bool(owed and f" still owes {dollars(owed[1])}." in told), True)
        desk.go_on()

    def does(self, line, answer):
        name, *parts = line.split()
        if name in LISTED:
            self.listed(line, answer, name, *parts)
        elif name in ("check-out", "check-in", "place-hold", "pay", "renew", "page", "copy"):
            getattr(self, name.replace("-", "_"))(line, answer, *parts)
        else:
            self.words(line, answer)
        self.known.learn(line, answer)


def clerk(driver, base):
    """The day, whole: setting up, the counter, the lists of the morning, money, and the till."""
    lines = [(line, answer) for line, answer in day() if not line.startswith(SET_UP)]
    need("lines of the day", len(lines) > 45, True)
    hands = Clerk(driver, base)
    for line, answer in lines:
        if line.startswith("check-out 3 40") and "40" not in hands.known.of_copy:
            for row in ("acquire 30 300 1 1 1500 'Maps, Old and New'", "acquire 31 300 1 2 1500 'Maps, Old and New'", "acquire 40 400 1 1 700 'Winter Bees'"):
                hands.does(row, "ok")
        hands.does(line, answer)
    desk = hands.desk
    need("words that are none", desk.words("check-out 1"), "Words after check-out: 1 instead of 3. PATRON COPY BRANCH")
    need("no name is empty", [it for it in desk.names() if not it[1]], [])
    need("320 pixels", desk.fits(320), True)
    every_number(driver, desk)


def every_number(driver, desk):
    """Each refusal and each fault is shown in the words of the page's texts; here the answers are made in the
    browser."""
    numbers = re.findall(r"^\| (\d+) \|", outside.document("RULES.md"), re.M)
    need("the numbers that have words", sorted(REFUSALS), sorted(numbers))
    for number, meant in {**REFUSALS, "81": "The key is wrong, or may not do this."}.items():
        name, status = ("fault", 503) if int(number) >= 90 else ("refusal", 403 if number == "81" else 409)
        driver.execute_script(f"window.fetch = async () => new Response(JSON.stringify({{{name}: {number}}}), {{status: {status}}})")
        text = f"Fault {number}: {meant} Send it again later; it will be done only once." if name == "fault" else meant
        need(f"number {number}", desk.words("renew 1"), text)
        need(f"whether {number} can be sent again", desk.it("again").is_displayed(), name == "fault")
        desk.go_on()
    driver.refresh()


def killed(driver, base, serving):
    """The program is killed before a check-out reaches it, and started again: there is one loan."""
    desk = Desk(driver, base, 2)
    desk.scan("3")
    serving.kill()
    desk.mark()
    desk.keys("20", Keys.ENTER)
    until("not known", lambda: desk.told().startswith("No connection"))
    driver.refresh()
    until("not known after it was loaded anew", lambda: desk.told().startswith("No connection"))
    desk.mark()
    serving.start()
    until("an answer", desk.is_noted, 60)
    need("the loan", desk.told()[:19], "Salt Roads lent to ")


def lending(driver, base, serving, place):
    """The desk of a clerk who lends alone opens, lends and takes in."""
    outside.write(f"{place}/desk.keys", f"keeper desk {DESK_KEY}\nkiosk lending kioskkey0001\n")
    os.chmod(f"{place}/desk.keys", 0o600)
    serving.kill()
    serving.start(f"@{place}/desk.keys")
    desk = Desk(driver, base, None)
    desk.sign_in(1, "kioskkey0001")
    until("the desk is open", lambda: desk.it("desk").is_displayed())
    desk.mode("check-in")
    need("what Ann has comes in", desk.scan("C11"), "Rivers of the North: To the shelf, Main. No fine.")
    desk.mode("check-out")
    desk.scan("P1")
    need("and is lent to her again", desk.scan("C11")[:31], "Rivers of the North lent to Ann")


def strangers(driver, base):
    """From an address that may not ask a desk nginx answers by itself, in its own words."""
    page = Desk(driver, base, None)
    page.sign_in(1, DESK_KEY)
    until("its status is told", lambda: "(status 403)" in page.told() and page.is_wrong())
    need("it stays closed", page.it("desk").is_displayed(), False)


def patron(driver, base, serving):
    """Ann renews, places a hold and cancels it, by the keyboard alone; then the program is killed while a renewal is
    on its way."""
    page = Page(driver, f"{base}/pages/patron.html", "My library card")
    keyboard = ActionChains(driver)
    keyboard.send_keys(Keys.TAB, "1", Keys.TAB, "cardkey99999", Keys.ENTER).perform()
    until("a wrong key is told", lambda: page.told() == REFUSALS["81"])
    need("no page for a wrong key", page.it("page").is_displayed(), False)
    page.type("number", "1")
    page.type("card-key", "cardkey00001")
    page.keys(Keys.ENTER)
    until("the page", lambda: page.it("page").is_displayed())
    need("the name", (page.it("name").text, page.it("owed").text), ("Ann Bell", "Nothing is owed."))
    need("where the key stands", (DESK_KEY in driver.current_url, "cardkey" in driver.current_url), (False, False))
    # from the name on by tab to the button of the loan
    page.keys(Keys.TAB)
    need("the first button", driver.switch_to.active_element.get_attribute("aria-label"), "Renew Rivers of the North")
    page.keys(Keys.ENTER)
    until("renewed", lambda: page.told().startswith("Loan 5, due "))
    until("no renewal is left", lambda: "no renewal left" in page.it("loans").text)
    need("no button where none is left", driver.find_elements(By.CSS_SELECTOR, "#loans button"), [])
    page.type("title", "999")
    page.type("branch", "1")
    page.keys(Keys.ENTER)
    until("refused", lambda: page.told() == REFUSALS["12"] and page.is_wrong())
    need("the title stays", page.it("title").get_attribute("value"), "999")
    page.type("title", "400")
    page.keys(Keys.ENTER)
    until("a hold", lambda: page.told() == "Hold 4 is placed." and not page.is_wrong())
    until("the hold", lambda: page.it("holds").text.replace("\n", " ") == "Wintering Bees waiting, to be picked up at Main Cancel")
    need("no name is empty", [it for it in page.names() if not it[1]], [])
    need("320 pixels", page.fits(320), True)
    # the program is killed, and what is asked for meanwhile is sent again under its key
    serving.kill()
    button = driver.find_element(By.CSS_SELECTOR, "#holds button")
    button.click()
    button.click()
    until("not known", lambda: page.told().startswith("No connection"))
    driver.refresh()
    until("not known after it was loaded anew", lambda: page.told().startswith("No connection"))
    serving.start()
    until("cancelled", lambda: page.told() == "Done.", 60)
    until("no hold", lambda: page.it("holds").text == "No holds.")
    # a hold from today on, and one from a day to come
    place_from(page, "300", "2", "03252026")
    until("no day to come", lambda: page.told() == REFUSALS["23"])
    place_from(page, "300", "harbour", "04012026")
    until("a hold from a day on", lambda: page.told() == "Hold 5 is placed.")
    until("its day", lambda: page.it("holds").text.replace("\n", " ") == "Maps, Old and New waiting from 2026-04-01, to be picked up at Harbour Cancel")
    until("the fields are empty again", lambda: (page.it("title").get_attribute("value"), page.it("from").get_attribute("value")) == ("", ""))
    return page


def place_from(page, title, branch, on):
    """Asks for a hold from a day on, which is typed as the month, the day and the year."""
    page.type("title", title)
    page.type("branch", branch)
    page.it("from").send_keys(on)
    page.it("from").send_keys(Keys.ENTER)


def look(driver, name, tall):
    """Writes the pictures of a page, as wide as a desk's screen and as a telephone's. Their heights are given."""
    for wide, height, end in ((1280, tall[0], ""), (360, tall[1], "-360")):
        driver.execute_cdp_cmd("Emulation.setDeviceMetricsOverride", {"width": wide, "height": height, "deviceScaleFactor": 1, "mobile": wide < 1000})
        driver.execute_script("document.activeElement.blur(); window.scrollTo(0, 0)")
        with open(f"{TOP}/docs/{name}{end}.png", "wb") as file:
            file.write(driver.get_screenshot_as_png())
    driver.execute_cdp_cmd("Emulation.clearDeviceMetricsOverride", {})


# what each answer of a server says, of a page and of the desk, and how long it may be kept
SAID = {"content-security-policy": "default-src 'self'; frame-ancestors 'none'; base-uri 'none'; form-action 'self'",
        "x-content-type-options": "nosniff", "referrer-policy": "no-referrer",
        "strict-transport-security": "max-age=31536000"}
KEPT = {"/pages/desk.js": "no-cache", "/pages/desk.html": "no-cache", "/patrons/1": "no-store", "/nowhere": "no-store"}


def header(base):
    for path, kept in KEPT.items():
        told = outside.run("curl", "-s", "-k", "-D", "-", "-o", os.devnull, f"{base}{path}").stdout.lower()
        fields = dict(line.split(": ", 1) for line in told.splitlines() if ": " in line)
        said = {name: fields.get(name) for name in (*SAID, "cache-control")}
        need(f"what is said of {path}", said, {**SAID, "cache-control": kept})
        if path.endswith(".js"):
            need("a module's type", "javascript" in fields["content-type"], True)
    begin = outside.run("curl", "-s", "-k", "-o", os.devnull, "-w", "%{http_code} %{redirect_url}", f"{base}/").stdout
    need("the first page", begin.startswith("302 ") and begin.endswith("/pages/patron.html"), True)


def quick(driver, base):
    """With 400 ms for each answer and nothing kept from before, a page can be used after a second and a half. Of three
    times the shortest counts, for the machine may be busy."""
    driver.execute_cdp_cmd("Network.enable", {})
    driver.execute_cdp_cmd("Network.emulateNetworkConditions", {"offline": False, "latency": 400, "downloadThroughput": -1, "uploadThroughput": -1})

    def loads(name):
        driver.execute_cdp_cmd("Network.clearBrowserCache", {})
        driver.get(f"{base}/pages/{name}.html")
        return driver.execute_script("""return [performance.getEntriesByType('navigation')[0].domContentLoadedEventEnd,
            performance.getEntriesByType('resource').filter((it) => it.responseStatus !== 200).map((it) => it.name)]""")

    for name in ("desk", "patron"):
        tries = [loads(name) for _ in range(3)]
        took, others = min(it for it, _ in tries), [it for _, them in tries for it in them]
        need(f"{name}.html at 400 ms, after {took:.0f} ms", (took <= 1_500, others), (True, []))
        print(f"browser: {name}.html can be used after {took:.0f} ms, at 400 ms an answer", flush=True)
    driver.execute_cdp_cmd("Network.disable", {})


def slow_body(base):
    """A body that doesn't come is cut after ten seconds."""
    host, port = base.partition("://")[2].split(":")
    plain = socket.create_connection((host, int(port)), timeout=30)
    sent = ssl._create_unverified_context().wrap_socket(plain) if base.startswith("https") else plain
    began = time.monotonic()
    sent.sendall(f"POST /patrons/1/holds HTTP/1.1\r\nHost: {host}\r\nCard-Key: cardkey00001\r\nRequest-Key: slow\r\nContent-Length: 60\r\n\r\n{{".encode())
    with contextlib.suppress(ConnectionResetError):
        while sent.recv(4096):
            pass
    need("a slow body is cut", 5 < time.monotonic() - began < 25, True)
    sent.close()


def town(place):
    """The pages are installed, and the town gives its branches their names; its library has its first day and its
    branches."""
    outside.need("install", outside.run(f"{TOP}/install", place).returncode == 0)
    path = f"{place}/share/circ/pages/texts.js"
    with open(path, encoding="utf-8") as file:
        text = file.read()
    outside.need("a table of branches", "BRANCHES = {}" in text)
    outside.write(path, text.replace("BRANCHES = {}", "BRANCHES = " + json.dumps(BRANCHES)))
    for at, (line, answer) in enumerate(found for found in day() if found[0].startswith(SET_UP)):
        told = outside.run(outside.PROGRAM, "file", f"{place}/town.db", f"first-{at}", *line.split())
        outside.need(line, told.stdout == f"{answer}\n", told.stdout)


def borrowed(driver, base, pictures):
    """Ann borrows again, and has a receipt."""
    desk = Desk(driver, base, 1)
    desk.scan("P1")
    need("Ann borrows again", desk.scan("C11")[:28], "Rivers of the North lent to ")
    until("her receipt", lambda: len(desk.items("receipt")) == 1)
    need("what is on it", re.fullmatch(r"Rivers of the North, due \d{4}-\d\d-\d\d", desk.items("receipt")[0]) is not None, True)
    desk.press("debts")
    until("who owes for the days after the till", lambda: desk.items("list-rows") == ["3 Cy Dünn 0.40"])
    if pictures:
        look(driver, "desk-page", (860, 1400))


def tried(behind, pictures):
    with tempfile.TemporaryDirectory() as place:
        os.chmod(place, 0o755)
        town(place)
        serving = Serving(place)
        serving.start()
        driver = browser()
        try:
            with behind(place, serving.port) as base:
                header(base)
                slow_body(base)
                clerk(driver, base)
                borrowed(driver, base, pictures)
                page = patron(driver, base, serving)
                need("a look at the page", page.it("page").is_displayed(), True)
                if pictures:
                    look(driver, "patron-page", (900, 1120))
                killed(driver, base, serving)
                lending(driver, base, serving, place)
                need("what the browser complains of", complaints(driver), [])
            with behind(place, serving.port) as base, limits.LIMITED[behind.__name__](place):
                quick(driver, base)
                limits.guesser(driver, base)
            if behind is behind_nginx:
                with behind_nginx(place, serving.port) as base:
                    limits.many_desks(base)
                with behind_nginx(place, serving.port, allowed="") as base:
                    strangers(driver, base)
            else:
                limits.no_key_is_logged(place)
            by_names(driver, behind, place, Serving(place, "names.db"))
        finally:
            driver.quit()
            serving.kill()
        need("the hold was cancelled once", serving.rows("SELECT count(*) FROM kept WHERE text = 'cancel-hold 4'"), [(1,)])
        need("the hold from a day on", serving.rows("SELECT text, reply FROM kept WHERE caller = 1 AND text LIKE 'place-hold-from%'"), [("place-hold-from 1 300 2 2026-04-01", "hold 5")])
        need("there is one loan of the copy", serving.rows("SELECT count(*) FROM loans3 WHERE copy = 20 AND ended IS NULL"), [(1,)])
        need("an audit", outside.run(outside.PROGRAM, "audit", serving.path).stdout, "sound\n")


def main():
    for behind in (behind_nginx, behind_caddy):
        tried(behind, "--pictures" in sys.argv and behind is behind_nginx)
    print(f"a clerk's day and a patron's in {json.dumps(version())}, behind nginx and behind Caddy: {counts['compared']} compared, none differs")


def version():
    return outside.run("chromium", "--version").stdout.strip()


if __name__ == "__main__":
    try:
        main()
    except (Failed, outside.Failed) as failed:
        sys.exit(f"browser: {failed}")
