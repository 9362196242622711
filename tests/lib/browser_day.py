"""A day at a counter by names and labels: nothing is typed that stands neither on the screen nor on the thing at hand.
It is done in Chromium before the program that serves."""

import datetime
import subprocess
import time

from selenium.webdriver.common.by import By
from selenium.webdriver.common.keys import Keys

from lib.browsing import Desk, need, rows, until
from lib.runs import PROGRAM

TODAY = datetime.date.today()
BEFORE = TODAY - datetime.timedelta(30)
CARD = {"Ann Bell": "20000000000001", "Bo Carr": "20000000000002"}
NEW_CARD = "20000000000004"
LABEL = {"Rivers of the North": "30000100000010", "Salt Roads": "30000100000020",
         "Night Ferries": "30000100000030", "Winter Bees": "30000100000040"}


def set_up(path):
    """A library with labels on all that there is, in which Bo has had Salt Roads for too long."""
    lines = [f"begin-day {BEFORE}", "branch 1 5 Main", "kind 1 5 5 5000", "rule 1 1 14 1 20 100"]
    for number, (name, card) in enumerate(CARD.items(), 1):
        lines += [f"patron {number} 1 cardkey0000{number} {name}", f"patron-barcode {number} {card}"]
    for number, (title, label) in enumerate(LABEL.items(), 1):
        lines += [f"acquire {10 * number} {100 * number} 1 1 1200 {title}", f"copy-barcode {10 * number} {label}"]
    for at, line in enumerate([*lines, "check-out 2 20 1", f"begin-day {TODAY}"]):
        name, *parts = line.split()
        many = {"branch": 3, "patron": 4, "acquire": 6}.get(name)
        words = [name, *parts] if many is None else [name, *parts[: many - 1], " ".join(parts[many - 1:])]
        ran = subprocess.run([PROGRAM, "file", path, f"d{at}", *words], capture_output=True, text=True, check=False)
        need(line, ran.returncode, 0)


class Hands:
    """What a clerk does: finds a name, scans a label, presses a button, fills in a form, says yes."""

    def __init__(self, driver, base):
        self.driver, self.desk = driver, Desk(driver, base, 1)

    def finds(self, letters, text):
        """Types letters into the line, and takes what is found by Enter."""
        self.desk.keys(letters)
        until(f"{text} is found", lambda: self.desk.items("found") == [text])
        self.desk.keys(Keys.ENTER)
        until(f"{text} is taken", lambda: self.desk.it("scan").get_attribute("value") == "")

    def begins(self, task):
        """Begins a task with nobody at the desk."""
        self.driver.execute_script("scrollTo(0, 0)")
        if self.desk.it("next").is_displayed():
            self.desk.it("next").click()
        self.desk.mode(task)

    def presses(self, name, within=""):
        self.driver.execute_script("scrollTo(0, 0)")
        self.desk.shown(self.driver.find_element(By.CSS_SELECTOR, f'{within} [aria-label="{name}"]')).click()

    def fills(self, command, **values):
        form = self.desk.shown(self.desk.it(f"form-{command}"))
        if form.get_attribute("open") is None:
            form.find_element(By.TAG_NAME, "summary").click()
        for part, text in values.items():
            self.desk.type(f"{command}-{part.replace('_', '-')}", text)
        form.find_element(By.CSS_SELECTOR, "form > button").click()

    def makes_a_key(self, command):
        self.desk.it(f"form-{command}").find_element(By.CSS_SELECTOR, ".field button").click()
        return self.desk.it(f"{command}-card-key").get_attribute("value")

    def says_yes(self, question):
        until(question, lambda: self.desk.told() == question and self.desk.it("again").is_displayed())
        time.sleep(0.7)
        self.desk.it("again").click()
        until(f"after {question}", lambda: not self.desk.it("queue").is_displayed())

    def is_told(self, text):
        until(text, lambda: text in self.desk.told())


def day_by_names(driver, base):
    """A patron is enrolled, a forgotten card lent to, a late book returned and its fine paid, a hold placed, pulled and
    given a slip, a book lost, a card key lost, a misspelled name corrected, and the counter's till counted."""
    hands = Hands(driver, base)
    desk, due = hands.desk, TODAY + datetime.timedelta(14)
    # a new reader, whose card has its number and its label
    desk.tab("patrons")
    form = desk.shown(desk.it("form-patron"))
    form.find_element(By.TAG_NAME, "summary").click()
    key = hands.makes_a_key("patron")
    hands.fills("patron", patron="3", kind="1", name="Ida Jo")
    until("she has a key", lambda: f"Card key of patron 3: {key}" in form.text)
    hands.fills("patron-barcode", patron="3", barcode="20000000000003")
    hands.is_told("Done.")
    # a forgotten card: found by name, lent to by a label
    hands.begins("check-out")
    hands.finds("bell", "Ann Bell, patron 1: owes 0.00")
    hands.is_told("Ann Bell")
    desk.scan(LABEL["Rivers of the North"])
    hands.is_told(f"Rivers of the North lent to Ann Bell, due {due}.")
    # a late return, whose fine names who owes it, and is paid by the card
    hands.begins("check-in")
    desk.keys(LABEL["Salt Roads"], Keys.ENTER)
    hands.is_told("Bo Carr owes 1.00 now")
    desk.go_on()
    hands.begins("pay")
    desk.scan(CARD["Bo Carr"])
    desk.keys("1.00", Keys.ENTER)
    hands.is_told("Bo Carr still owes 0.00")
    # a hold by name and title; pulled from the shelf, it gives a slip
    hands.begins("place-hold")
    hands.finds("ida", "Ida Jo, patron 3: owes 0.00")
    hands.finds("ferr", "Night Ferries, title 300")
    hands.is_told("Night Ferries")
    desk.press("pulls")
    until("what is to be pulled", lambda: len(rows(desk)) == 1 and "Night Ferries" in rows(desk)[0])
    hands.begins("check-in")
    desk.keys(LABEL["Night Ferries"], Keys.ENTER)
    hands.is_told("Ready for Ida Jo")
    need("its slip", [it[:6] for it in desk.items("slip-list")], ["Ida Jo"])
    desk.go_on()
    # a lost book, by its label's row in the list of copies
    hands.begins("check-out")
    hands.finds("carr", "Bo Carr, patron 2: owes 0.00")
    desk.scan(LABEL["Winter Bees"])
    desk.type("looked", LABEL["Winter Bees"])
    desk.press("copy")
    until("the copy", lambda: len(rows(desk)) == 1 and "Winter Bees" in rows(desk)[0])
    hands.presses("Missing: Winter Bees")
    hands.says_yes("Report Winter Bees, copy 40, as missing? "
                   "Bo Carr will owe its price of 12.00, and a fine if it is late.")
    # a lost card key, and a name that was misspelled
    hands.begins("check-out")
    hands.finds("ida", "Ida Jo, patron 3: owes 0.00")
    hands.presses("New card key: Ida Jo", "#patron-actions")
    new_key = hands.makes_a_key("card-key")
    hands.fills("card-key")
    hands.says_yes(desk.told())
    # the new card has a label of its own, which is scanned
    hands.presses("New barcode: Ida Jo", "#patron-actions")
    hands.fills("patron-barcode", barcode=NEW_CARD)
    hands.says_yes(f"Give Ida Jo the barcode {NEW_CARD}? The old one, 20000000000003, will no longer be good.")
    hands.begins("check-out")
    desk.scan(NEW_CARD)
    hands.is_told("Ida Jo")
    hands.presses("Amend: Ida Jo", "#patron-actions")
    until("her kind is known", lambda: desk.it("amend-patron-kind").get_attribute("value") == "1")
    hands.fills("amend-patron", name="Ida Joe")
    until("her name", lambda: desk.it("patron-head").text.startswith("Ida Joe"))
    # the evening's till
    desk.press("till-at")
    until("the till of this counter", lambda: desk.it("list-head").text == f"Till of Main, {TODAY}")
    sums = [it.text for it in desk.it("list-rows").find_elements(By.TAG_NAME, "tr")]
    need("what is in it", sums, ["payments 1.00", "charges 0.00"])
    return key, new_key


def by_names(driver, behind, place, serving):
    """The day, and what it leaves in the library."""
    set_up(serving.path)
    serving.start()
    try:
        with behind(place, serving.port) as base:
            key, new_key = day_by_names(driver, base)
    finally:
        serving.kill()
    need("another key", key != new_key, True)
    for what, text, wanted in (
        ("her row", "SELECT name, card_key FROM patrons WHERE patron = 3", [("Ida Joe", new_key)]),
        ("what is owed", "SELECT owed FROM patrons ORDER BY patron", [(0,), (1200,), (0,)]),
        ("what was paid, and where", "SELECT patron, amount, branch FROM lines JOIN notes USING (line)", [(2, 100, 1)]),
        ("the hold is ready", "SELECT patron, title, state FROM holds2", [(3, 300, 1)]),
        ("the lost copy", "SELECT copy FROM copies WHERE condition = 1", [(40,)]),
    ):
        need(what, serving.rows(text), wanted)
    audit = subprocess.run([PROGRAM, "audit", serving.path], capture_output=True, text=True, check=False)
    need("an audit", audit.stdout, "sound\n")
