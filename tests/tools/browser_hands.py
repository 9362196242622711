#!/usr/bin/python3
"""The pages in Chromium as fast as the fastest hand, before a server whose answers are slow, odd or none, as the test
makes them. It is no part of the gate: `tests/tools/outside` runs it, with what it needs from the system's packages.

    tests/tools/browser_hands.py
"""

import os
import sys
import threading
import time

from selenium.webdriver.common.action_chains import ActionChains
from selenium.webdriver.common.by import By
from selenium.webdriver.common.keys import Keys

from room import TOP
from lib import browser_views as views
from lib.browsing import Desk, Failed, Page, browser, complaints, counts, enter, need, rows, until
from lib.fake_desk import NOTHING, PAGE, FakeDesk, answers, refusal, reply

CARD_ASKED = "Scan the card, or type the patron's number or a part of the name."


def fast_scans(driver, fake):
    """A card and two copies are scanned before the first answer comes, and copies come in as fast as keys can be
    sent."""
    desk = Desk(driver, fake.url, 1)
    late = threading.Event()
    fake.says(answers({"page 4": reply(PAGE["4"], late), "check-out 4 31": reply("loan 1 due 2026-03-09"), "check-out 4 32": reply("loan 2 due 2026-03-09")}, 0.4))
    desk.keys("4", Keys.ENTER, "31", Keys.ENTER, "32", Keys.ENTER)
    need("the line is empty at once", desk.it("scan").get_attribute("value"), "")
    need("what waits is shown", desk.items("waiting"), ["patron 4 (sending)", "copy 31, patron 4", "copy 32, patron 4"])
    late.set()
    until("both are lent", lambda: "Loan 2" in desk.told())
    need("what was sent", [it for it in fake.words() if it.startswith("check-out")], ["check-out 4 31 1", "check-out 4 32 1"])
    until("nothing waits", lambda: not desk.it("queue").is_displayed())
    desk.mode("check-in")
    fake.says(answers({"check-in": reply("fine 0 shelf 1")}, 0.2))
    desk.keys(*[key for scan in ("10", "1", "1", "2", "3") for key in (scan, Keys.ENTER)])
    until("all came in", lambda: len([it for it in fake.words() if it.startswith("check-in")]) == 5)
    need("each by itself", [it for it in fake.words() if it.startswith("check-in")], [f"check-in {it} 1" for it in (10, 1, 1, 2, 3)])


def refused_scans(driver, fake):
    """A refusal stops what waits, loudly; the clerk sends it on or throws it away."""
    desk = Desk(driver, fake.url, 1)
    driver.execute_script("window.notes = 0; const start = OscillatorNode.prototype.start; OscillatorNode.prototype.start = function (at) { window.notes += 1; return start.call(this, at); }")
    fake.says(answers({"check-in 2": refusal(13), "check-in 5": refusal(13), "copy 2": refusal(13), "copy 5": refusal(13), "check-in": reply("fine 0 shelf 1")}, 0.1))
    desk.mode("check-in")
    desk.keys("1", Keys.ENTER, "2", Keys.ENTER, "3", Keys.ENTER, "4", Keys.ENTER)
    until("a refusal", lambda: desk.told() == "copy 2: There is no such copy.")
    need("it looks like one, and is heard", (desk.is_wrong(), driver.execute_script("return window.notes") > 0), (True, True))
    until("a screen reader is told at once", lambda: desk.it("spoken-now").get_attribute("textContent") == "copy 2: There is no such copy.")
    until("what waits stays", lambda: desk.items("waiting") == ["copy 3", "copy 4"])
    desk.keys("6", Keys.ENTER)
    need("what is scanned meanwhile waits too", (desk.items("waiting"), [it for it in fake.words() if it.startswith("check-in")]), (["copy 3", "copy 4", "copy 6"], ["check-in 1 1", "check-in 2 1"]))
    desk.it("send-on").click()
    need("the next scan goes to its line", desk.focus(), "scan")
    until("it goes on", lambda: "check-in 6 1" in fake.words())
    # a second click comes too soon for anybody to have read the second refusal
    desk.keys("2", Keys.ENTER, "5", Keys.ENTER, "9", Keys.ENTER)
    until("the first refusal", lambda: desk.items("waiting") == ["copy 5", "copy 9"] and desk.is_wrong())
    time.sleep(0.7)
    twice = "const it = document.getElementById('send-on'); it.click(); setTimeout(() => it.click(), 450)"
    driver.execute_script(twice)
    until("the second refusal", lambda: desk.told() == "copy 5: There is no such copy.")
    time.sleep(0.3)
    need("it is passed over by nobody", (desk.items("waiting"), "check-in 9 1" in fake.words()), (["copy 9"], False))
    time.sleep(0.7)
    desk.it("send-on").click()
    until("the rest", lambda: "check-in 9 1" in fake.words())
    # without the sound, and thrown away
    desk.field("sound").click()
    driver.execute_script("window.notes = 0")
    desk.keys("5", Keys.ENTER, "7", Keys.ENTER)
    until("a refusal", lambda: desk.is_wrong() and desk.items("waiting") == ["copy 7"])
    need("no sound", driver.execute_script("return window.notes"), 0)
    desk.it("throw-away").click()
    desk.keys("8", Keys.ENTER)
    until("what comes later is sent", lambda: "check-in 8 1" in fake.words())
    need("what was thrown away isn't", "check-in 7 1" in fake.words(), False)
    desk.field("sound").click()


def unread_answers(driver, fake):
    """An answer that came and isn't understood is told with its status; only where none came the same is sent again,
    under its key."""
    desk = Desk(driver, fake.url, 1)
    desk.mode("check-in")
    fake.says(answers({"check-in": [(0.0, 403, "<html>403 Forbidden</html>"), NOTHING, (0.0, 502, "<html>"), reply("fine 0 shelf 1")]}))
    desk.keys("1", Keys.ENTER)
    until("it is told", lambda: "(status 403)" in desk.told() and desk.is_wrong())
    need("it is asked once", len(fake.sent), 1)
    desk.it("again").click()
    until("in the end it came in", lambda: desk.told() == "Tides: To the shelf, branch 1. No fine.")
    checked = [key for what, key in fake.sent if what.startswith("check-in")]
    need("under one key", (len(checked), len(set(checked))), (4, 1))
    fake.says(answers({"page 9": reply("patron 9 owed 0 name Ida\u2028Jo")}))
    desk.mode("check-out")
    desk.keys("9", Keys.ENTER)
    until("a name with any character", lambda: "Jo" in desk.told() and not desk.is_wrong())


def receipts(driver, fake):
    """What is printed is the receipt of the patron at the desk, and nothing of anybody else."""
    desk = Desk(driver, fake.url, 1)
    ann = "patron 1 owed 40 name Ann Bell\nloan 5 due 2026-03-09 renewals 1 title 100 Rivers of the North"
    fake.says(answers({"page 1": reply(ann), "check-out 1 10": reply("loan 5 due 2026-03-09"), "pay 1": reply("owed 40"), "pay 2": reply("owed 0"), "patron 2": reply("ok")}))
    desk.keys("1", Keys.ENTER, "10", Keys.ENTER)
    for words in ("pay 1 0.60", "pay 2 0.30", "patron 2 1 cardkey00002 'Bo Carr'"):
        desk.type("words", words)
        desk.field("words").send_keys(Keys.ENTER)
    until("all is done", lambda: "patron 2 1 … Bo Carr: Done." in desk.items("last"))
    rows = ["Rivers of the North, due 2026-03-09", "Paid 0.60, still owed 0.40"]
    need("the receipt", desk.items("receipt"), rows)
    driver.execute_cdp_cmd("Emulation.setEmulatedMedia", {"media": "print"})
    head = f"Ann Bell, {time.strftime('%Y-%m-%d')}, branch 1"
    sheet = ["Receipt", "Town library", head, "\n".join(rows), "Owed: 0.40."]
    need("what is printed", driver.execute_script("return document.body.innerText").split("\n\n"), sheet)
    driver.execute_cdp_cmd("Emulation.setEmulatedMedia", {"media": ""})
    need("no card key is shown or kept", "cardkey" in driver.page_source + str(desk.stored()), False)


def sign_in(driver, fake, number="1"):
    page = Page(driver, f"{fake.url}/pages/patron.html", "My library card")
    enter(page, number)
    until("the page", lambda: page.it("page").is_displayed())
    return page


def signed_out(driver, fake):
    """Whoever signs out leaves nothing, and the next patron sees nothing of the last one's."""
    late = threading.Event()
    fake.says(answers({"GET /patrons/1": reply(PAGE["1"]), "GET /patrons/4": reply(PAGE["4"], 0.3), "POST /patrons/1/holds": refusal(12, late)}))
    page = sign_in(driver, fake)
    page.type("title", "999")
    page.type("branch", "1")
    page.keys(Keys.ENTER)
    until("it is sent", lambda: any(it.startswith("POST") for it in fake.words()))
    page.it("sign-out").click()
    need("it is told that it isn't known", (page.told().startswith("Signed out. Your last request had no answer yet"), page.is_wrong()), (True, True))
    need("what is kept, and what stands in the fields", (page.stored(), page.it("title").get_attribute("value")), ({}, ""))
    enter(page, "4")
    until("the next patron", lambda: page.it("name").text == "Di Eck")
    late.set()
    time.sleep(0.5)
    need("nothing of the last one's", (page.told(), page.it("name").text), ("", "Di Eck"))
    # a request without an answer isn't sent any more, either
    fake.says(answers({"POST /patrons/4/holds": NOTHING, "GET /patrons/4": reply(PAGE["4"])}))
    page.type("title", "100")
    page.type("branch", "1")
    page.keys(Keys.ENTER)
    until("not known", lambda: page.told().startswith("No connection"))
    page.it("sign-out").click()
    asked = len(fake.sent)
    time.sleep(1.5)
    need("it is asked no more", (len(fake.sent), page.stored()), (asked, {}))
    # and so at the desk
    desk = Desk(driver, fake.url, 1)
    late = threading.Event()
    fake.says(answers({"check-in 1": reply("fine 0 shelf 1", late)}))
    desk.mode("check-in")
    desk.keys("1", Keys.ENTER, "2", Keys.ENTER)
    desk.it("sign-out").click()
    need("what may have been done, and what wasn't", desk.told(), "Signed out. It is not known whether this was carried out: copy 1. This was not sent: copy 2.")
    late.set()
    time.sleep(0.5)
    need("nothing is kept, sent or shown any more", (desk.stored(), fake.words(), desk.items("last")), ({}, ["check-in 1 1"], []))


def telephone(driver, fake):
    """A patron at a telephone: what was answered is on the screen, refusals look like refusals, and a double click
    acts once."""
    loans = "".join(f"\nloan {it} due 2026-03-09 renewals {it % 2} title {it} Title {it}" for it in range(1, 13))
    fake.says(answers({"GET /patrons/1": reply(PAGE["1"] + loans), "POST /patrons/1/loans": reply("loan 11 due 2026-03-16"), "POST /patrons/1/holds": [refusal(12), reply("hold 3")]}))
    page = sign_in(driver, fake)
    page.width(360)
    buttons = driver.find_elements("css selector", "#loans button")
    need("a button for each loan with a renewal left", [it.get_attribute("aria-label") for it in buttons], [f"Renew Title {it}" for it in range(1, 13, 2)])
    driver.execute_script("arguments[0].scrollIntoView({block: 'end'})", buttons[-1])
    ActionChains(driver).double_click(buttons[-1]).perform()
    until("renewed", lambda: page.told() == "Loan 11, due 2026-03-16.")
    time.sleep(0.8)
    need("it is renewed once", [it for it in fake.words() if it.startswith("POST")], ["POST /patrons/1/loans/11/renew"])
    need("it is on the screen", is_on_screen(driver, "told"), True)
    need("what is done doesn't look like a refusal", page.is_wrong(), False)
    page.type("title", "999")
    page.type("branch", "1")
    page.keys(Keys.ENTER)
    until("refused", lambda: page.told() == "There is no such title.")
    need("it looks like a refusal, is on the screen, and the title stays", (page.is_wrong(), is_on_screen(driver, "told"), page.it("title").get_attribute("value")), (True, True, "999"))
    page.it("title").submit()
    until("a hold", lambda: page.told() == "Hold 3 is placed.")
    until("the title is cleared", lambda: page.it("title").get_attribute("value") == "")
    driver.execute_cdp_cmd("Emulation.clearDeviceMetricsOverride", {})


def is_on_screen(driver, name):
    return driver.execute_script("const it = document.getElementById(arguments[0]).getBoundingClientRect(); return it.height > 0 && it.top >= 0 && it.bottom <= innerHeight", name)


def opening(driver, fake):
    """The desk opens with a right key and a known branch alone, and shows where it is."""
    page = Desk(driver, fake.url, 1)
    until("where and when", lambda: page.it("place").text == f"Town library, branch 1, {fake.day}")
    page.it("sign-out").click()
    need("a closed desk is nowhere", page.it("place").text, "")
    unread, towns = (0.0, 403, "<html>"), reply("branch 1 pickup 5 week ooooooc name Main\nbranch 70 pickup 3 week coooooc name Harbour\nend")
    not_read = "This page can't read the answer (status 403). It is not known whether the request was carried out."
    for answer, told in (({"today": refusal(81)}, "The key is wrong, or may not do this."), ({"branches 0": towns}, "There is no such branch."), ({"today": unread}, not_read), ({"branches 0": unread}, not_read)):
        fake.says(answers(answer))
        page.sign_in(7, "deskkey00009")
        until(f"{told} {answer}", lambda: page.told() == told and page.is_wrong())
        need("it stays closed, and keeps nothing", (page.it("desk").is_displayed(), page.stored()), (False, {}))
    fake.says(answers({}))
    for branch, key in ((1, "Schlüssel"), ("x", "deskkey00001")):
        page.sign_in(branch, key)
        until("what isn't in its form isn't sent", lambda: page.told().startswith("This should be") and fake.sent == [])
    today = [NOTHING, NOTHING, reply(f"today {fake.day}")]
    fake.says(answers({"today": today, "branches 0": refusal(81)}))
    page.sign_in(2, "deskkey00001")
    until("no answer is told", lambda: page.told() == "No connection. We keep trying.")
    until("it opens once there is one", lambda: page.it("desk").is_displayed())
    need("the branch, which a clerk who lends alone may not ask for, and nothing else that such a clerk may not", (page.it("place").text.split(", ")[1], fake.sent), ("branch 2", []))


def scanners(driver, fake):
    """Whatever a scanner sends at the end of a scan, none is glued to the next, none is lost, and no patron is
    ended."""
    desk = Desk(driver, fake.url, 1)
    fake.says(answers({"check-out": reply("loan 1 due 2026-03-09"), "check-in": reply("fine 0 shelf 1")}))
    desk.keys("P4", Keys.ENTER, Keys.ENTER, "C1", Keys.ENTER)
    keys = ActionChains(driver)
    for copy, ends in ((2, (Keys.ENTER, Keys.ENTER)), (3, (Keys.TAB,)), (4, (Keys.ENTER, Keys.TAB)), (5, (Keys.ENTER, "lf")), (6, ("lf",)), (7, (Keys.TAB, Keys.ENTER)), (8, (Keys.TAB,)), (9, (Keys.ENTER,))):
        keys.send_keys(f"C{copy}" if copy % 2 else str(copy))
        for end in ends:
            if end == "lf":
                keys.key_down(Keys.CONTROL).send_keys("j").key_up(Keys.CONTROL)
            else:
                keys.send_keys(end)
    keys.perform()
    until("nine copies", lambda: len([it for it in fake.words() if it.startswith("check-out")]) == 9)
    need("each by itself, for one patron", [it for it in fake.words() if it.startswith("check-out")], [f"check-out 4 {it} 1" for it in range(1, 10)])
    driver.execute_script("const data = new DataTransfer(); data.setData('text', '20\\r\\n21\\n'); document.getElementById('scan').dispatchEvent(new ClipboardEvent('paste', {clipboardData: data, cancelable: true}))")
    until("what is put in together", lambda: "check-out 4 21 1" in fake.words() and "check-out 4 20 1" in fake.words())
    # the card of another patron, and then labels of both: whose they are is asked in their turn
    fake.says(answers({"page 5": reply("patron 5 owed 0 name Ed Fox"), "check-out": reply("loan 1 due 2026-03-09"),
                       "find-barcode 20000000000005": reply("patron 5", 0.3),
                       "find-barcode 30000100000030": reply("copy 30")}))
    desk.keys("20000000000005", Keys.ENTER, "30000100000030", Keys.ENTER, "31", Keys.ENTER)
    need("until then they are as they were scanned", desk.items("waiting")[1:],
         ["30000100000030, patron 4", "copy 31, patron 4"])
    until("a card at the panel of another patron", lambda: "check-out 5 31 1" in fake.words())
    need("each for the new one", [it for it in fake.words() if it.startswith("check-out")],
         ["check-out 5 30 1", "check-out 5 31 1"])
    until("whose panel is shown", lambda: desk.it("patron-head").text.startswith("Ed Fox"))
    desk.keys("20000000000009", Keys.ENTER)
    until("nobody's label", lambda: desk.told() == "20000000000009, patron 5: Nothing has this barcode.")
    desk.go_on()
    fake.says(answers({}))
    desk.it("next").click()
    need("a patron is wanted", desk.it("asked").text, CARD_ASKED)
    desk.keys("C20", Keys.ENTER)
    until("a copy in the place of a card", lambda: desk.told() == "C20: This is a copy, but a patron's card is expected.")
    need("nothing is sent", fake.sent, [])
    desk.go_on()
    desk.keys("99", Keys.ENTER)
    until("a refused patron", lambda: desk.is_wrong() and desk.told().startswith("patron 99: "))
    need("why", desk.told(), "patron 99: There is no such copy.")
    need("isn't the current one", desk.it("asked").text, CARD_ASKED)


def hands_at_the_desk(driver, fake):
    """Wherever the hands of a clerk were, the next scan goes to its line, and much money is taken once the clerk says
    so."""
    desk = Desk(driver, fake.url, 1)
    fake.says(answers({"check-in": reply("fine 0 shelf 1"), "pay-at": reply("owed 0")}))
    ActionChains(driver).key_down(Keys.ALT).send_keys("2").key_up(Keys.ALT).perform()
    need("the focus after Alt and 2", desk.focus(), "scan")
    ActionChains(driver).send_keys("11", Keys.ENTER).key_down(Keys.ALT).send_keys("1").send_keys("2").key_up(Keys.ALT).send_keys("16", Keys.ENTER).perform()
    until("scans after Alt and 2", lambda: [it for it in fake.words() if it.startswith("check-in")] == ["check-in 11 1", "check-in 16 1"])
    driver.find_element("css selector", "input[value=check-in]").send_keys(Keys.ARROW_LEFT)
    need("by the arrows one goes on", driver.switch_to.active_element.get_attribute("value"), "check-out")
    desk.keys(Keys.ARROW_RIGHT)
    ActionChains(driver).send_keys("12", Keys.ENTER).perform()
    until("a scan while a mode has the focus", lambda: "check-in 12 1" in fake.words())
    until("it is told", lambda: desk.told() == "Tides: To the shelf, branch 1. No fine.")
    # text that is selected stays so, and a scan goes to its line nevertheless
    told = desk.it("told")
    ActionChains(driver).move_to_element_with_offset(told, -told.size["width"] // 2 + 15, 0).click_and_hold().move_by_offset(90, 0).release().perform()
    need("text is selected", driver.execute_script("return getSelection().toString() !== ''"), True)
    ActionChains(driver).send_keys("13", Keys.ENTER).perform()
    until("a scan after that", lambda: "check-in 13 1" in fake.words())
    # words that are being typed aren't torn apart by an answer
    late = threading.Event()
    fake.says(answers({"check-in": reply("fine 0 shelf 1", late), "pay-at": reply("owed 0")}))
    desk.keys("14", Keys.ENTER)
    desk.field("words").send_keys("check-")
    late.set()
    until("an answer meanwhile", lambda: "copy 14" not in desk.items("waiting") and any("check-in 14 1" in it for it in desk.items("last")))
    desk.keys("in 15 1")
    need("what is typed stands together", (desk.focus(), desk.it("words").get_attribute("value")), ("words", "check-in 15 1"))
    desk.it("words").clear()
    # money
    desk.mode("pay")
    desk.keys("4", Keys.ENTER, "60.00", Keys.ENTER, "0.50", Keys.ENTER)
    until("much money", lambda: desk.told() == "Take 60.00 from Di Eck?")
    need("nothing is paid yet, and a scanner's Enter pays nothing", (desk.focus(), [it for it in fake.words() if it.startswith("pay")]), ("scan", []))
    desk.keys(Keys.ENTER)
    desk.it("again").click()
    until("both are paid", lambda: [it for it in fake.words() if it.startswith("pay")] == ["pay-at 4 6000 1", "pay-at 4 50 1"])
    desk.keys("12345", Keys.ENTER)
    until("a number is no amount", lambda: desk.told() == "12345, patron 4: This should be an amount such as 2.50.")
    need("it isn't sent", len([it for it in fake.words() if it.startswith("pay")]), 2)


def loaded_anew(driver, fake):
    """A tab that is loaded anew has the patron and the mode that were there, and nobody after Next patron."""
    desk = Desk(driver, fake.url, 1)
    fake.says(answers({"pay-at": reply("owed 0"), "check-out": reply("loan 1 due 2026-03-09")}))

    def again():
        driver.refresh()
        until("the desk is open", lambda: desk.it("desk").is_displayed())
        return driver.execute_script("return document.querySelector('input[name=mode]:checked').value"), desk.it("asked").text

    desk.keys("4", Keys.ENTER)
    until("its page", lambda: desk.it("patron").is_displayed())
    desk.mode("pay")
    need("while paying", again(), ("pay", "Di Eck, patron 4: type the amount paid, such as 2.50."))
    desk.keys("0.50", Keys.ENTER)
    until("it is paid", lambda: "pay-at 4 50 1" in fake.words())
    desk.mode("renew")
    need("while renewing", again(), ("renew", "Scan a copy to renew."))
    desk.it("next").click()
    need("nobody after Next patron", again(), ("renew", "Scan a copy to renew."))
    desk.mode("check-out")
    need("nor in the next mode", again(), ("check-out", CARD_ASKED))
    desk.keys("1", Keys.ENTER)
    until("the next page", lambda: "page 1" in fake.words() and desk.it("patron").is_displayed())
    desk.mode("check-in")
    need("in Check-in nobody", again(), ("check-in", "Scan a copy to check in."))
    need("nothing is lent", [it for it in fake.words() if it.startswith("check-out")], [])


def nobody_stays(driver, fake):
    """Nothing of a patron stays on the screen after Next patron, in Check-in and where the next card isn't known, also
    of answers that come later."""
    bo = "patron 2 owed 40 name Bo Carr\nloan 2 due 2026-03-09 renewals 0 title 200 Salt Roads"
    late = [threading.Event() for _ in range(3)]
    fake.says(answers({"page 2": reply(bo), "page 9": refusal(11), "check-out": reply("loan 2 due 2026-03-09"),
                       "account 2": reply("patron 2 owed 40 name Bo Carr\nline 1 2026-03-17 fine 40 loan 1 title 200 Salt Roads\nend")}))
    desk = Desk(driver, fake.url, 1)

    def is_free():
        text = driver.execute_script("return document.body.innerText")
        return [it for it in ("Bo Carr", "Salt Roads", "0.40", "patron 2", "Patron 2") if it in text]

    def visit():
        desk.mode("check-out")
        desk.keys("2", Keys.ENTER, "20", Keys.ENTER)
    visit()
    until("it is lent", lambda: "Salt Roads" in desk.told())
    desk.type("looked-patron", "P2")
    desk.press("account")
    until("the account", lambda: len(rows(desk)) == 1)
    driver.find_element(By.CSS_SELECTOR, '[aria-label="New card key: Bo Carr"]').click()
    driver.find_element(By.CSS_SELECTOR, "#form-card-key .field button").click()
    need("a form of this patron, with a key that is made", (desk.it("card-key-patron").get_attribute("value"), len(desk.it("card-key-card-key").get_attribute("value"))), ("2", 12))
    desk.it("next").click()
    need("nor in a form", [desk.it(f"card-key-{it}").get_attribute("value") for it in ("patron", "card-key")], ["", ""])
    need("after Next patron", (is_free(), [desk.it(it).is_displayed() for it in ("patron", "visit", "list-paper")], desk.it("looked-patron").get_attribute("value"), desk.focus()), ([], [False] * 3, "", "scan"))
    desk.keys("9", Keys.ENTER)
    until("a card that isn't known", lambda: desk.told() == "patron 9: There is no such patron.")
    need("nobody", (is_free(), desk.it("patron").is_displayed()), ([], False))
    desk.go_on()
    # a refusal of the last scan goes with its patron, and the next card is sent at once
    fake.says(answers({"page 2": reply(bo), "check-out": refusal(36), "copy 20": reply("copy 20 home 1 kind 1 price 1200 title 200 Salt Roads\nloan 9 due 2026-03-09 patron 8 Cy Dunn")}))
    visit()
    until("a refusal", lambda: desk.told().endswith("On loan to Cy Dunn, due 2026-03-09."))
    time.sleep(0.7)
    desk.it("next").click()
    need("after Next patron", (is_free(), desk.told(), desk.it("stopped").is_displayed()), ([], "", False))
    desk.keys("1", Keys.ENTER)
    until("the next card", lambda: desk.it("patron").is_displayed() and desk.it("patron-head").text.startswith("Ann Bell"))
    desk.it("next").click()
    fake.says(answers({"page 2": reply(bo), "check-out": reply("loan 2 due 2026-03-09")}))
    visit()
    until("it is lent", lambda: "Salt Roads" in desk.told())
    fake.says(answers({"account 1": reply("patron 1 owed 40 name Bo Carr\nend", late[2]), "page 2": reply(bo), "check-out": [reply("loan 2 due 2026-03-09", it) for it in late]}))
    desk.type("looked-patron", "P1")
    desk.press("account")
    until("the account is asked for", lambda: "account 1 0" in fake.words())
    desk.it("next").click()
    late[2].set()
    time.sleep(0.3)
    need("what is looked up and answered later", is_free(), [])
    for at, leave in enumerate((lambda: desk.it("next").click(), lambda: desk.mode("check-in"))):
        visit()
        until("it is being lent", lambda: len([it for it in fake.words() if it.startswith("check-out")]) == at + 1)
        leave()
        late[at].set()
        until("it is lent", lambda: not desk.it("queue").is_displayed())
        need("what is answered later", is_free(), [])


def panel_of_now(driver, fake):
    """The panel of the patron is of now after each command that changes it, scanned or typed, by fast hands before
    slow answers."""
    desk = Desk(driver, fake.url, 1)
    lines = {"loan": "loan 1 due 2026-03-09 renewals 1 title 200 Salt Roads", "hold": "hold 7 at 1 waiting title 300 Maps"}

    def answer(what):
        if what == "page 1":
            return reply("\n".join(["patron 1 owed 0 name Ann Bell", *lines.values()]), 0.05)
        if what == "check-in 20 1":
            lines.pop("loan")
        elif what == "cancel-hold 7":
            lines.pop("hold")
        elif what == "check-out 1 21 1":
            lines["next"] = "loan 2 due 2026-03-16 renewals 1 title 400 Winter Bees"
        elif what.startswith("amend-title"):
            lines["next"] = "loan 2 due 2026-03-16 renewals 1 title 400 Bees"
        else:
            return answers({})(what)
        return reply({"check-in": "fine 0 shelf 1", "check-out": "loan 2 due 2026-03-16"}.get(what.split()[0], "ok"), 0.05)
    fake.says(answer)
    desk.keys("1", Keys.ENTER)
    until("her page", lambda: len(desk.items("patron-lines")) == 2)
    for words in ("check-in 20 1", "cancel-hold 7"):
        desk.field("words").send_keys(words, Keys.ENTER)
    until("nothing is left", lambda: "cancel-hold 7" in fake.words() and desk.items("patron-lines") == [])
    desk.keys("21", Keys.ENTER)
    until("what is of now", lambda: desk.items("patron-lines") == ["Winter Bees, loan 2, due 2026-03-16, 1 renewal left"])
    desk.field("words").send_keys("amend-title 400 Bees", Keys.ENTER)
    until("the title of now", lambda: desk.items("patron-lines") == ["Bees, loan 2, due 2026-03-16, 1 renewal left"])


def library_day(driver, fake):
    """The day at the head, on receipts and on lists is the library's, loudly where it isn't the machine's."""
    machine, fake.day = fake.day, "2026-03-02"
    desk = Desk(driver, fake.url, 1)
    fake.says(answers({"begin-day": reply("ok"), "pulls": reply("hold 1 copy 11 title 7 Tides\nend")}))
    until("the library's day", lambda: desk.it("place").text == "Town library, branch 1, 2026-03-02")

    def looks():
        return driver.execute_script("const it = getComputedStyle(document.getElementById('place')); return [it.color, parseFloat(it.fontSize) > 20]")
    need("it is loud", (desk.it("other-day").text, looks()), (f"The library's day is 2026-03-02, but this machine's date is {machine}.", ["rgb(164, 0, 0)", True]))
    need("the day of the till", desk.it("till-day").get_attribute("value"), "2026-03-02")
    desk.keys("1", Keys.ENTER)
    until("the receipt", lambda: desk.it("receipt-head").text == "Ann Bell, 2026-03-02, branch 1")
    desk.press("pulls")
    until("a list", lambda: desk.it("list-place").text == "branch 1, 2026-03-02")
    need("320 pixels", desk.fits(320), True)
    fake.day = machine
    desk.type("words", f"begin-day {machine}")
    desk.field("words").send_keys(Keys.ENTER)
    until("the day that was begun", lambda: desk.it("place").text == f"Town library, branch 1, {machine}")
    need("it isn't loud", (desk.it("other-day").text, looks()[1]), ("", False))


def names(driver, fake):
    """Names and titles stand by themselves, also from right to left; long ones break, and numbers and days in columns
    don't."""
    sara, long, most = "שרה לוי 42", "W" * 120, 4294967295
    page = f"patron 1 owed 40 name {sara}\nloan 5 due 2026-03-09 renewals 1 title 100 {long}\nhold {most} at 1 waiting from 2026-04-01 title 300 {sara}"
    fake.says(answers({"page 1": reply(page), "check-out 1 10": reply("loan 5 due 2026-03-09"), "check-in 20": reply("fine 0 ready 7 at 1 until 2026-03-07"),
                       "copy 20": reply(f"copy 20 home 1 kind 1 price 1200 title 200 {long}\nready 7 at 1 until 2026-03-07 patron 1 {sara}"),
                       "overdue": reply(f"      loan  patron    copy due         late title\n{most} {most} {most} 2026-03-09     7 {long}\nend"),
                       "GET /patrons/1": reply(page)}))
    desk = Desk(driver, fake.url, 1)

    def alone(within):
        return driver.execute_script("return [...document.querySelectorAll(arguments[0] + ' bdi')].map((it) => it.textContent)", within)
    desk.keys("1", Keys.ENTER, "10", Keys.ENTER)
    until("it is lent", lambda: len(desk.items("receipt")) == 1)
    need("what stands by itself", [alone(it) for it in ("#told", "#patron-head", "#patron-lines", "#receipt-head", "#receipt")], [[long, sara], [sara], [long, sara], [sara], [long]])
    need("what is last", alone("#last")[:2], [long, sara])
    need("320 pixels with what is told", desk.fits(320), True)
    desk.field("words").send_keys("check-in 20 1", Keys.ENTER)
    until("a slip", lambda: desk.it("slips").is_displayed())
    need("what stands by itself on a slip", alone("#slip-list"), [sara, long])
    desk.press("overdue")
    until("a row", lambda: len(rows(desk)) == 1)
    need("what stands by itself in a list", alone("#list-rows"), [long])
    for pixels in (320, 900):
        need(f"{pixels} pixels", desk.fits(pixels), True)
        desk.width(pixels)
        lines = driver.execute_script("return [...document.querySelectorAll('#list-rows td:not(.actions)')].map((it) => { const of = document.createRange(); of.selectNodeContents(it); return [it.innerText, new Set([...of.getClientRects()].map((at) => at.top)).size]; })")
        need("numbers and days don't break", [it for it, many in lines if many > 1], [long])
        driver.execute_cdp_cmd("Emulation.clearDeviceMetricsOverride", {})
    need("no name is empty", [it for it in desk.names() if not it[1]], [])
    patron = sign_in(driver, fake)
    need("what stands by itself at the patron's", [alone(it) for it in ("#name", "#loans", "#holds")], [[sara], [long], [sara]])
    need("320 pixels for the patron", patron.fits(320), True)


def next_patron(driver, fake):
    """Next patron counts always: right after another one, while scans wait, where the page moves under the mouse, with
    something left in the line, and from another field."""
    late = threading.Event()
    slow = {"check-out 1 31": reply("loan 1 due 2026-03-09"), "check-out 4 32": reply("loan 2 due 2026-03-09"), "check-out 1 33": refusal(36, late), "check-out 4 34": reply("loan 3 due 2026-03-09")}
    fake.says(answers(slow, 0.3))
    desk = Desk(driver, fake.url, 1)

    def alt_n(keys):
        return keys.key_down(Keys.ALT).send_keys("n").key_up(Keys.ALT)

    def lent():
        return [it for it in fake.words() if it.startswith(("page", "check-out"))]
    # two patrons within half a second, before the first answer
    keys = alt_n(ActionChains(driver).send_keys("1", Keys.ENTER, "31", Keys.ENTER))
    alt_n(keys.send_keys("4", Keys.ENTER, "32", Keys.ENTER)).perform()
    need("a patron is wanted", (desk.it("asked").text, desk.focus()), (CARD_ASKED, "scan"))
    until("all is sent", lambda: lent() == ["page 1", "check-out 1 31 1", "page 1", "page 4", "check-out 4 32 1", "page 4"] and not desk.it("queue").is_displayed())
    # a refusal comes between pressing and letting go
    fake.says(answers(slow))
    desk.keys("1", Keys.ENTER, "33", Keys.ENTER)
    until("it is sent", lambda: "check-out 1 33 1" in fake.words())
    before = desk.it("next").rect["y"]
    ActionChains(driver).click_and_hold(desk.it("next")).perform()
    late.set()
    until("a refusal", lambda: desk.is_wrong())
    ActionChains(driver).release().perform()
    need("it counts", (desk.it("asked").text, desk.focus(), desk.it("patron").is_displayed()), (CARD_ASKED, "scan", False))
    need("what stopped the rest stays", desk.told().startswith("copy 33, patron 1: Another patron is waiting for this title."), True)
    desk.go_on()
    # what is left in the line isn't glued to the next card
    desk.keys("4", Keys.ENTER, "34")
    need("a refusal moved nothing", desk.it("next").rect["y"], before)
    desk.it("next").click()
    need("it is told", (desk.told(), desk.is_wrong(), desk.it("scan").get_attribute("value")), ("This was not sent: 34.", True, ""))
    desk.keys("1", Keys.ENTER)
    until("the next one", lambda: lent()[-1] == "page 1" and desk.it("patron").is_displayed())
    need("nothing was lent meanwhile", [it for it in fake.words() if it.startswith("check-out 4")], [])
    # from another field, and by the keyboard alone
    desk.field("words").send_keys("check-")
    alt_n(ActionChains(driver)).perform()
    need("from another field", (desk.it("asked").text, desk.focus(), desk.it("words").get_attribute("value")),
         (CARD_ASKED, "scan", "check-"))
    desk.keys("4", Keys.ENTER, Keys.TAB)
    desk.keys(Keys.TAB)
    need("the button has the focus", desk.focus(), "next")
    desk.keys(Keys.ENTER)
    need("by Enter", (desk.it("asked").text, desk.focus()), (CARD_ASKED, "scan"))


def closed_pages(driver, fake):
    """Who closes the page while scans wait is asked first, and what waited is there again at the next sign-in on this
    machine, with a question."""
    first, desk = driver.current_window_handle, Desk(driver, fake.url, None)
    driver.switch_to.new_window("tab")
    late = threading.Event()
    fake.says(answers({"check-in 11": reply("fine 0 shelf 1", late), "check-in": reply("fine 0 shelf 1")}))
    driver.get(f"{fake.url}/pages/desk.html")
    desk.sign_in(1, "deskkey00001")
    until("it is open", lambda: desk.it("desk").is_displayed())

    def asks():
        return driver.execute_script("const it = new Event('beforeunload', {cancelable: true}); window.dispatchEvent(it); return it.defaultPrevented")
    need("nothing waits", asks(), False)
    desk.mode("check-in")
    desk.keys("10", Keys.ENTER)
    until("it came in", lambda: "To the shelf" in desk.told() and not desk.it("queue").is_displayed())
    need("nothing waits any more", asks(), False)
    desk.keys("11", Keys.ENTER, "12", Keys.ENTER, "13", Keys.ENTER)
    need("it is asked", asks(), True)
    key, second = next(key for what, key in fake.sent if what == "check-in 11 1"), driver.current_window_handle
    driver.switch_to.window(first)
    desk.sign_in(1, "deskkey00001")
    until("a desk beside it is open", lambda: desk.it("desk").is_displayed())
    time.sleep(0.2)
    need("what waits in an open tab stays there", desk.items("waiting"), [])
    desk.it("sign-out").click()
    driver.switch_to.window(second)
    driver.close()
    driver.switch_to.window(first)
    late.set()
    fake.says(answers({"check-in": reply("fine 0 shelf 1")}))
    desk.sign_in(1, "deskkey00001")
    until("what waited is there", lambda: desk.items("waiting") == ["copy 11", "copy 12", "copy 13"])
    need("with a question", (desk.told(), desk.is_wrong(), desk.it("send-on").is_displayed(), desk.it("throw-away").is_displayed()), ("These were waiting when the page was closed on this machine. Are they to be sent?", True, True, True))
    need("nothing is sent yet", [it for it in fake.words() if it.startswith("check-in")], [])
    desk.it("send-on").click()
    until("all came in", lambda: [it for it in fake.words() if it.startswith("check-in")] == ["check-in 11 1", "check-in 12 1", "check-in 13 1"])
    need("under its key", key in fake.keys(), True)
    until("nothing waits", lambda: not desk.it("queue").is_displayed())
    kept = sorted(driver.execute_script("return Object.keys(localStorage)"))
    need("and nothing of it is kept", kept, ["circ.branch", "circ.branches"])


def keys_anywhere(driver, fake):
    """Keys go to the line for scans from anywhere but a field that the clerk is in; after a refusal the focus is on
    it, and it is never under what is told."""
    desk, late = Desk(driver, fake.url, 1), [threading.Event() for _ in range(3)]
    many = "\n".join(f"hold {it} copy {it + 100} title {it} Title {it}" for it in range(1, 61))
    wide = "W" * 120
    fake.says(answers({"pulls": reply(f"{many}\nend"), "transits": refusal(10, 0.2), "check-in 2": [refusal(33, it) for it in late], "check-in": reply("fine 0 shelf 1"),
                       "copy 2": reply(f"copy 2 home 1 kind 1 price 100 title 7 {wide}\nready 7 at 1 until 2026-03-07 patron 1 {wide}")}))
    desk.mode("check-in")

    def click(value):
        desk.press(value)

    def is_seen():
        """The line is whole on the screen, and nothing lies over it."""
        return driver.execute_script("""const it = document.getElementById('scan'), at = it.getBoundingClientRect();
            return at.top >= 0 && at.bottom <= innerHeight && [2, at.height / 2, at.height - 2].every((y) => document.elementFromPoint(at.left + at.width / 2, at.top + y) === it);""")
    # a refusal comes while a button has the focus, and the page is scrolled
    for pixels, height in ((900, 600), (360, 480)):
        desk.width(pixels, height)
        desk.keys("2", Keys.ENTER)
        until("it is sent", lambda: fake.words().count("check-in 2 1") == (1 if pixels == 900 else 2))
        click("pulls")
        until("many rows", lambda: len(rows(desk)) == 60)
        driver.execute_script("document.getElementById('list-rows').lastElementChild.scrollIntoView()")
        need("a button has the focus", desk.focus(), "")
        late[0 if pixels == 900 else 1].set()
        until("a refusal", lambda: desk.is_wrong() and wide in desk.told())
        need("the focus is back on the line, which is seen", (desk.focus(), is_seen()), ("scan", True))
        for far in (150, 300, 0):
            driver.execute_script("window.scrollTo(0, arguments[0])", far)
            desk.keys("7")
            need(f"what is typed is seen from {far} pixels on", is_seen(), True)
        desk.it("scan").clear()
        need("what is told is on the screen too", is_on_screen(driver, "told"), True)
        desk.go_on()
    driver.execute_cdp_cmd("Emulation.clearDeviceMetricsOverride", {})
    click("transits")
    need("the button", desk.focus(), "")
    until("a refused list", lambda: desk.it("list-told").text == "There is no such branch.")
    need("the focus after it", desk.focus(), "scan")
    # put in, and corrected and ended, from anywhere
    click("pulls")
    ActionChains(driver).send_keys("31").perform()
    click("pulls")
    driver.execute_script("document.activeElement.blur()")
    ActionChains(driver).send_keys(Keys.BACKSPACE).send_keys("2").perform()
    driver.execute_script("document.activeElement.blur()")
    ActionChains(driver).send_keys(Keys.ENTER).perform()
    until("it is sent", lambda: "check-in 32 1" in fake.words())
    driver.execute_script("document.activeElement.blur(); const data = new DataTransfer(); data.setData('text', '40\\r\\n41'); document.body.dispatchEvent(new ClipboardEvent('paste', {clipboardData: data, cancelable: true, bubbles: true}))")
    until("what is put in anywhere", lambda: "check-in 40 1" in fake.words() and "check-in 41 1" in fake.words())
    # a field that the clerk is in keeps what is typed, also after a refusal
    desk.keys("2", Keys.ENTER)
    desk.field("words").send_keys("check-")
    late[2].set()
    until("a refusal", lambda: desk.is_wrong() and wide in desk.told())
    desk.keys("in 50 1")
    need("what is typed stands together", (desk.focus(), desk.it("words").get_attribute("value")), ("words", "check-in 50 1"))


def misread(driver, fake):
    """A line that isn't understood is told with its word, isn't sent and stays in its field; a scan that comes after
    it goes to its line once the clerk leaves the field."""
    desk = Desk(driver, fake.url, 1)
    fake.says(answers({"check-out": reply("loan 1 due 2026-03-09")}))
    for line, told in (("chek-out 1 10 1", "Unknown command chek-out; the field offers them all."), ("check-out 1 x 1", "copy must be a number up to 4294967295, without a leading zero: x"),
                       ("check-out 1", "Words after check-out: 1 instead of 3. PATRON COPY BRANCH")):
        desk.type("words", line)
        desk.keys(Keys.ENTER)
        need("what is wrong", (desk.told(), desk.is_wrong()), (told, True))
        need("the line stays, and is gone on with", (desk.it("words").get_attribute("value"), desk.focus(), fake.sent), (line, "words", []))
    desk.keys(" 10 1", Keys.ENTER)
    until("it is understood in the end", lambda: fake.words()[:1] == ["check-out 1 10 1"])
    need("the field is empty", (desk.it("words").get_attribute("value"), desk.focus()), ("", "scan"))


def printed(driver, button):
    """The text that is printed by the button of this name."""
    return paper(driver, driver.find_element("id", button))


def paper(driver, button):
    """The text that is printed by a button, after how often something was printed since the page was loaded."""
    driver.execute_script("window.print = () => { window.prints = (window.prints ?? 0) + 1; }")
    button.click()
    driver.execute_cdp_cmd("Emulation.setEmulatedMedia", {"media": "print"})
    text = driver.execute_script("return window.prints + '\\n' + document.body.innerText").replace("\t", " ")
    driver.execute_cdp_cmd("Emulation.setEmulatedMedia", {"media": ""})
    return [line.strip() for line in text.split("\n") if line.strip()]


def lists(driver, fake):
    """Lists of the branch are shown, go on where there is more, and are printed; a copy, a title and an account are
    looked up, and settings are shown."""
    desk = Desk(driver, fake.url, 1)
    many = "\n".join(f"hold {it} copy {it + 100} title {it} Title {it}" for it in range(1, 101))
    late = threading.Event()
    fake.says(answers({"pulls 1 0": [reply(f"{many}\nafter 100"), reply(f"{many}\nafter 100", late)], "pulls 1 100": reply("hold 101 copy 201 title 101 Last\nend"), "debts 0": reply("end"), "transits": refusal(10),
                       "copy 20": reply("copy 20 home 2 kind 1 price 1200 title 200 Salt Roads\nloan 2 due 2026-03-09 patron 2 Bo Carr"),
                       "missing-copies 0": reply("copy 30 home 1 title 300 Night Ferries\nend"), "loans 20 0": reply("loan 2 patron 2 made 2026-03-02 due 2026-03-09\nend"), "account 2 0": (0.0, 403, "<html>"),
                       "branches 0": reply("branch 1 pickup 5 week ooooooc name Main\nend"), "closed-days 1 0": reply("end"), "rules 2 0": refusal(17),
                       "overdue": reply("what")}))
    desk.press("pulls")
    until("a hundred rows", lambda: len(rows(desk)) == 100)
    need("more is offered", desk.it("more").is_displayed(), True)
    desk.it("more").click()
    until("the rest", lambda: len(rows(desk)) == 101)
    need("first and last", (rows(desk)[0], rows(desk)[-1], desk.it("more").is_displayed()), ("101 Title 1 1", "201 Last 101", False))
    paper = printed(driver, "print-list")
    need("what is printed", (paper[0], paper[1:4], paper[-1], len(paper)), ("1", ["Pull list", f"branch 1, {time.strftime('%Y-%m-%d')}", "Copy Title Hold"], "201 Last 101", 105))
    # by a click on a column's head the rows are sorted by it, by a second one downwards, and so they are saved
    heads = lambda: driver.find_elements(By.CSS_SELECTOR, "#list-columns th button")
    heads()[0].click()
    need("upwards", (rows(desk)[0], driver.switch_to.active_element.text), ("101 Title 1 1", "Copy"))
    heads()[0].click()
    need("downwards", (rows(desk)[0], rows(desk)[-1]), ("201 Last 101", "101 Title 1 1"))
    need("what is said of it", [it.get_attribute("aria-sort") for it in driver.find_elements(By.CSS_SELECTOR, "#list-columns th:not(.actions)")], ["descending", None, None])
    driver.execute_script("window.saved = []; const make = URL.createObjectURL; URL.createObjectURL = (blob) => { blob.text().then((text) => window.saved.push(text)); return make.call(URL, blob); }; "
                          "document.addEventListener('click', (event) => event.target.download && window.saved.push(event.target.download))")
    desk.it("save-list").click()
    until("it is saved", lambda: driver.execute_script("return window.saved.length") >= 1)
    saved = [it for it in driver.execute_script("return window.saved") if it.startswith("Copy")]
    need("what is saved", [it.split("\r\n")[:2] for it in saved], [["Copy,Title,Hold", "201,Last,101"]])
    # two lists are asked for, and the first is answered last
    for value in ("pulls", "debts"):
        desk.press(value)
    until("none, in one line", lambda: desk.it("list-told").text == "Patrons who owe, all branches: There are none.")
    late.set()
    time.sleep(0.5)
    need("the list that was asked for last, without a table",
         (desk.it("list-told").text, desk.it("list-paper").is_displayed(), rows(desk)),
         ("Patrons who owe, all branches: There are none.", False, []))
    for value, told in (("transits", "There is no such branch."), ("overdue", "This page can't read the answer (status 200). It is not known whether the request was carried out.")):
        desk.press(value)
        until(told, lambda: desk.it("list-told").text == told)
    desk.type("looked", "C20")
    desk.it("looked").send_keys(Keys.ENTER)
    until("a copy", lambda: rows(desk) == ["20 Salt Roads 200 branch 2 12.00 On loan to Bo Carr, due 2026-03-09."])
    desk.press("loans")
    until("its loans", lambda: rows(desk) == ["2 2 2026-03-02 2026-03-09"])
    desk.press("missing-copies")
    until("the missing copies", lambda: rows(desk) == ["30 Night Ferries 300 branch 1"])
    desk.type("looked", "P2")
    desk.press("copy")
    need("a card is no copy", desk.it("list-told").text, "This is a patron's card, but a copy is expected.")
    desk.type("looked-patron", "P2")
    desk.press("account")
    until("an answer that isn't understood", lambda: "(status 403)" in desk.it("list-told").text)
    desk.press("branches")
    until("branches", lambda: rows(desk) == ["1 Main Sun 5"])
    desk.press("closed-days")
    until("none of the branch that they are of", lambda: desk.it("list-told").text == "Days closed singly, branch 1: There are none.")
    desk.type("ruled", "2")
    desk.it("ruled").send_keys(Keys.ENTER)
    until("no such kind", lambda: desk.it("list-told").text == "There is no such kind of patron.")
    need("no name is empty, and it fits a telephone", ([it for it in desk.names() if not it[1]], desk.fits(320)), ([], True))
    desk.it("sign-out").click()
    need("nothing of it stays", rows(desk), [])


def past_their_day(driver, fake):
    """Ready holds that are past their day have a button each, and one for all; each is unshelved once."""
    desk = Desk(driver, fake.url, 1)
    row = "{:>10} {:>7} {:>7} {:<10} {}"
    lines = [row.format("hold", "copy", "patron", "until", "title")] + [row.format(hold, 10 + hold, 1, until, "Tides") for hold, until in ((1, "2026-01-02"), (2, "2999-01-02"), (3, "2026-01-03"), (4, "2026-01-04"))]
    fake.says(answers({"shelf 1 0": reply("\n".join([*lines, "end"])), "unshelve": reply("shelf 1")}))
    desk.press("shelf")
    until("the hold shelf", lambda: len(rows(desk)) == 4)
    buttons = lambda: [[it.text for it in row.find_elements(By.TAG_NAME, "button")] for row in driver.find_elements(By.CSS_SELECTOR, "#list-rows tr")]
    expired, other, done = ["Serve", "Unshelve"], ["Serve", "Cancel"], ["Serve"]
    need("who is past", buttons(), [expired, other, expired, expired])
    need("all", (desk.it("unshelve-all").is_displayed(), desk.it("unshelve-all").text), (True, "Unshelve all 3 past their day"))
    driver.find_elements(By.CSS_SELECTOR, "#list-rows button")[5].click()
    until("it is unshelved", lambda: "unshelve 3" in fake.words())
    need("its button is gone", buttons(), [expired, other, done, expired])
    desk.it("unshelve-all").click()
    until("so are the others", lambda: [it for it in fake.words() if it.startswith("unshelve")] == ["unshelve 3", "unshelve 1", "unshelve 4"])
    need("no button of these is left", buttons(), [done, other, done, done])
    need("nor one for all", desk.it("unshelve-all").is_displayed(), False)


def slips(driver, fake):
    """What came in for a hold or another branch has a slip, one to a page, and each scan tells its title and for
    whom."""
    desk = Desk(driver, fake.url, 1)
    fake.says(answers({"check-in 20": reply("fine 0 ready 1 at 1 until 2026-03-07"), "copy 20": reply("copy 20 home 2 kind 1 price 1200 title 200 Salt Roads\nready 1 at 1 until 2026-03-07 patron 2 Bo Carr"),
                       "check-in 11": reply("fine 0 transit 2 for 2"), "copy 11": reply("copy 11 home 1 kind 1 price 2500 title 100 Rivers of the North\ntransit 2 for 2 patron 3 Cy Dunn"),
                       "check-in": reply("fine 0 shelf 1")}, 0.1))
    desk.mode("check-in")
    desk.keys("20", Keys.ENTER, "11", Keys.ENTER, "12", Keys.ENTER)
    until("a book for the shelf", lambda: desk.told() == "Tides: To the shelf, branch 1. No fine.")
    need("what each was told", desk.items("last")[1:], ["check-in 11 1: Rivers of the North: In transit to branch 2, for Cy Dunn, hold 2. No fine.",
                                                       "check-in 20 1: Salt Roads: Ready for Bo Carr, hold 1, at branch 1 until 2026-03-07. No fine."])
    town, ready = "Town library", "Ready at branch 1 until 2026-03-07"
    both = [["Bo Carr", "Patron 2", "Salt Roads", ready, "Hold 1", "Copy 20", town],
            ["To branch 2", "Cy Dunn", "Patron 3", "Rivers of the North", "Hold 2", "Copy 11", town]]
    need("the slips", printed(driver, "print-slips"), ["1", *both[0], *both[1]])
    # both outlive a reload, and so does what was told; and each can be printed by itself
    notes = desk.items("last")
    driver.refresh()
    until("the slips are there again", lambda: desk.it("slips").is_displayed())
    need("what was told is there again", desk.items("last"), notes)
    need("the slips again", printed(driver, "print-slips"), ["1", *both[0], *both[1]])
    for at, slip in enumerate(both, 1):
        button = driver.find_element(By.CSS_SELECTOR, f"#slip-list article:nth-child({at}) button")
        need("one slip", paper(driver, button), [str(at + 1), *slip])
    desk.it("put-away").click()
    need("they are put away", desk.it("slips").is_displayed(), False)
    # the patron's page, with until
    fake.says(answers({"page 2": reply("patron 2 owed 0 name Bo Carr\nhold 7 at 2 ready title 200 Salt Roads"), "shelf 2 6": reply("      hold    copy  patron until      title\n         7      20       2 2026-03-07 Salt Roads\nend")}))
    desk.mode("check-out")
    desk.keys("2", Keys.ENTER)
    until("until when", lambda: desk.items("patron-lines") == ["Salt Roads, hold 7, ready at branch 2 until 2026-03-07"])
    need("who", desk.it("patron-head").text, "Bo Carr, patron 2: owes 0.00")


def another_day(driver, fake):
    """A day that isn't the machine's is begun by a typed yes alone; for an amount the same button has no field."""
    desk = Desk(driver, fake.url, 1)
    fake.says(answers({"begin-day": reply("ok"), "pay-at": reply("owed 0")}))
    desk.type("words", "begin-day 2190-12-31")
    desk.field("words").send_keys(Keys.ENTER)
    until("it is asked", lambda: desk.is_wrong() and desk.told().endswith("To begin 2190-12-31, type yes. If not, go on without it."))
    need("the next scan goes to its line", desk.focus(), "scan")
    need("the button", desk.it("again").text, "Begin 2190-12-31")
    desk.it("again").click()
    desk.type("typed", "no")
    time.sleep(0.7)  # a click right after another one counts for none
    desk.it("typed").send_keys(Keys.ENTER)
    time.sleep(0.7)
    need("nothing is sent", (fake.words(), desk.it("typed").is_displayed()), ([], True))
    desk.type("typed", "yes")
    desk.it("typed").send_keys(Keys.ENTER)
    until("it is begun", lambda: desk.told() == "Done." and fake.words() == ["begin-day 2190-12-31"])
    need("the field is gone", desk.it("typed").is_displayed(), False)
    desk.mode("pay")
    desk.keys("4", Keys.ENTER, "50.01", Keys.ENTER)
    until("an amount is asked about", lambda: desk.it("again").is_displayed() and desk.it("again").text == "Take 50.01")
    need("no field", (desk.it("typed").is_displayed(), desk.it("typed").get_attribute("value")), (False, ""))
    time.sleep(0.7)
    desk.it("again").click()
    until("it is paid", lambda: "pay-at 4 5001 1" in fake.words())
    need("320 pixels", desk.fits(320), True)


PARTS = (views.tabs, views.searching, views.acting, views.alerts, views.returns, views.names_in_lists,
         views.two_columns,
         views.labels_and_charges, views.labels_in_forms, views.lends_alone, views.left_alone,
         views.icon, views.on_paper, views.german, views.for_everybody, views.patrons_page, views.calendar_of_year, lists, past_their_day,
         slips, fast_scans, refused_scans,
         unread_answers, receipts, signed_out, telephone, opening, scanners, hands_at_the_desk, another_day,
         loaded_anew, nobody_stays, panel_of_now, library_day, names, next_patron, closed_pages,
         keys_anywhere, misread)


def main():
    chosen = [part for part in PARTS if part.__name__ in sys.argv[1:]] or PARTS
    driver, fake = browser(), FakeDesk(os.path.join(TOP, "pages"))
    try:
        for part in chosen:
            fake.says(answers({}))
            part(driver, fake)
            need(f"what the browser complains of in {part.__name__}", complaints(driver), [])
    finally:
        driver.quit()
    print(f"the pages in Chromium by fast hands: {counts['compared']} compared, none differs")


if __name__ == "__main__":
    try:
        main()
    except Failed as failed:
        sys.exit(f"browser_hands: {failed}")
