"""What the pages show, in Chromium before a server that answers as each part says: tabs, searches, forms and buttons,
languages, what everybody needs, and the patron's page. They are run by `tests/tools/browser_hands.py`."""

import base64
import re
import threading
import time

from selenium.webdriver.common.action_chains import ActionChains
from selenium.webdriver.common.by import By
from selenium.webdriver.common.keys import Keys

from lib.browsing import Desk, Page, enter, need, rows, until
from lib.fake_desk import PAGE, answers, refusal, reply


def tabs(driver, fake):
    """One panel is shown, and the arrow keys choose among them; a scan goes to its line from each, and what is asked
    in one stays there."""
    desk = Desk(driver, fake.url, 1)
    fake.says(answers({"check-in": reply("fine 0 shelf 1"), "pulls": reply("hold 1 copy 11 title 7 Tides\nend")}))
    panels = ["circulation", "lists", "patrons", "catalogue", "settings"]

    def state():
        """The panels that are shown, those whose tab is chosen, and those whose tab the tab key reaches."""
        return driver.execute_script("""const tabs = [...document.querySelectorAll('[role=tablist] > [role=tab]')], of = (those) => those.map((it) => it.getAttribute('aria-controls'));
            return [[...document.querySelectorAll('[role=tabpanel]')].filter((it) => it.checkVisibility()).map((it) => it.id), of(tabs.filter((it) => it.ariaSelected === 'true')), of(tabs.filter((it) => it.tabIndex === 0))];""")
    need("first of all", state(), [["circulation"]] * 3)
    desk.tab("circulation")
    for key, name in ((Keys.ARROW_RIGHT, "lists"), (Keys.END, "settings"), (Keys.ARROW_RIGHT, "circulation"), (Keys.ARROW_LEFT, "settings"), (Keys.HOME, "circulation")):
        desk.keys(key)
        need(name, (state(), desk.focus()), ([[name]] * 3, f"tab-{name}"))
    need("each panel has the name of its tab", sorted((it["role"]["value"], it["name"]["value"]) for it in driver.execute_cdp_cmd("Accessibility.getFullAXTree", {})["nodes"] if it["role"]["value"] in ("tab", "tabpanel")),
         [*(("tab", it) for it in ("Catalogue", "Circulation", "Lists", "Patron", "Settings")), ("tabpanel", "Circulation")])
    desk.mode("check-in")
    for copy, panel in enumerate(panels, 10):
        desk.tab(panel)
        need("no name is empty, and it fits a telephone", ([it for it in desk.names() if not it[1]], desk.fits(320)), ([], True))
        desk.keys(str(copy))
        need("the focus is on the line", desk.focus(), "scan")
        desk.keys(Keys.ENTER)
        until(f"a scan in {panel}", lambda: f"check-in {copy} 1" in fake.words())
        need("the panel stays", state()[0], [panel])
    desk.press("pulls")
    until("a list", lambda: rows(desk) == ["11 Tides 1"])
    desk.tab("patrons")
    need("it isn't here", desk.it("list-paper").is_displayed(), False)
    desk.type("looked-patron", "x")
    desk.press("account")
    need("what is wrong is told here, without the list", (desk.it("list-told").text[:14], desk.it("list-told").is_displayed(), desk.it("list-paper").is_displayed()), ("This should be", True, False))
    desk.keys("x")
    desk.it("scan").clear()
    desk.keys("20", Keys.ENTER)
    until("a scan", lambda: "check-in 20 1" in fake.words() and not desk.it("queue").is_displayed())
    need("the list doesn't come here by it", (desk.it("list-told").text[:14], desk.it("list-paper").is_displayed()), ("This should be", False))
    desk.it("sign-out").click()
    need("nothing can be scanned, nor anybody sign out", [desk.it(it).is_displayed() for it in ("scanning", "desk", "sign-out")], [False] * 3)


def searching(driver, fake):
    """Letters in the line search for patrons, or for titles in Hold; the last answer is shown, and the arrow keys and
    Enter choose."""
    desk, late = Desk(driver, fake.url, 1), threading.Event()
    fake.says(answers({"find-patrons 0 be": reply("end", late), "find-patrons 0 bell": reply("patron 1 owed 40 name Ann Bell\npatron 4 owed 0 name Di Bell\nafter 4"), "find-patrons 4 bell": reply("patron 9 owed 0 name Zoë Bell\nend"),
                       "find-patrons 0 eck": reply("patron 4 owed 0 name Di Eck\nend"), "find-patrons 0 zz": reply("end"), "find-patrons 0 ann": refusal(81), "find-titles 0 riv": reply("title 100 Rivers of the North\nend"),
                       "page 1": reply(PAGE["1"]), "place-hold": reply("hold 7")}))

    def state():
        """Whether there is a list, what is chosen in it, and what is told of it."""
        chosen = driver.execute_script("const it = document.getElementById('scan'), at = document.getElementById(it.getAttribute('aria-activedescendant')); return [it.ariaExpanded, at && at.ariaSelected, at && at.innerText]")
        return [*chosen, desk.it("found-told").text]
    desk.keys("be")
    until("the first letters", lambda: fake.words() == ["find-patrons 0 be"])
    desk.keys("ll")
    until("who is found", lambda: desk.items("found") == ["Ann Bell, patron 1: owes 0.40", "Di Bell, patron 4: owes 0.00", "More"])
    late.set()
    time.sleep(0.3)
    need("the last answer", (len(desk.items("found")), fake.words()), (3, ["find-patrons 0 be", "find-patrons 0 bell"]))
    need("nothing is chosen yet", state(), ["true", None, None, "2 found. Choose one by the arrow keys and Enter."])
    need("it fits a telephone", desk.fits(320), True)
    desk.keys(Keys.ARROW_UP)
    need("round to the last one", state()[2], "More")
    desk.keys(Keys.ENTER)
    until("the next part, whose first one is chosen", lambda: state()[:3] == ["true", "true", "Zoë Bell, patron 9: owes 0.00"])
    desk.keys(Keys.ARROW_DOWN)
    need("round to the first one", state()[2], "Ann Bell, patron 1: owes 0.40")
    desk.keys(Keys.ENTER)
    until("her page", lambda: desk.it("patron").is_displayed() and desk.told().startswith("Patron 1, Ann Bell"))
    need("the line is empty, and no list is there", (desk.it("scan").get_attribute("value"), state(), desk.focus()), ("", ["false", None, None, ""], "scan"))
    # a title, of which there is one, and which is chosen by Enter alone
    desk.mode("place-hold")
    desk.keys("riv")
    until("the title", lambda: state()[:3] == ["true", "true", "Rivers of the North, title 100"])
    desk.keys(Keys.ENTER)
    until("a hold", lambda: "place-hold 1 100 1" in fake.words())
    # Enter before the pause searches at once, and what is scanned next takes the place of the letters
    desk.it("next").click()
    desk.mode("check-out")
    for text, told in (("zz", "Nothing is found by zz."), ("ann", "The key is wrong, or may not do this.")):
        desk.keys(text, Keys.ENTER)
        until(told, lambda: desk.it("found-told").text == told)
    desk.keys("P4", Keys.ENTER)
    until("the next card", lambda: desk.it("patron").is_displayed() and desk.told().startswith("Patron 4, Di Eck"))
    # by a mouse, and Escape ends it
    desk.it("next").click()
    desk.keys("bell")
    until("who is found", lambda: len(desk.items("found")) == 3)
    desk.keys(Keys.ESCAPE)
    need("it is over, and the letters stay", (state(), desk.it("scan").get_attribute("value")), (["false", None, None, ""], "bell"))
    desk.it("scan").clear()
    desk.keys("eck")
    until("who is found", lambda: desk.items("found") == ["Di Eck, patron 4: owes 0.00"])
    driver.find_element(By.ID, "found-0").click()
    until("his page", lambda: desk.it("patron").is_displayed() and desk.it("patron-head").text.startswith("Di Eck"))
    # a copy is never searched for
    desk.keys("riv", Keys.ENTER)
    until("no barcode", lambda: desk.told() == "riv, patron 4: Nothing has this barcode." and desk.is_wrong())
    need("nothing is asked", [it for it in fake.words() if it.endswith(" riv")], ["find-titles 0 riv"])


def acting(driver, fake):
    """What can be done with a row or with what the patron has is done by its button; what can't be undone is asked
    about first, and a form is filled in and tells what is wrong at its field."""
    desk = Desk(driver, fake.url, 1)
    carr, roads = "patron 2 owed 1300 name Bo Carr", "copy 20 home 1 kind 1 price 1200 title 200 Salt Roads"
    fake.says(answers({"page 2": reply(f"{carr}\nloan 5 due 2026-03-09 renewals 1 title 200 Salt Roads\nhold 7 at 1 waiting title 300 Maps"), "renew 5": reply("loan 5 due 2026-03-16"), "cancel-hold 7": reply("ok"),
                       "borrower 2": reply(f"{carr}\nkind 3"), "debts 0": reply(f"{carr}\nend"), "account 2": reply(f"{carr}\nend"), "waive 2": reply("owed 0"), "amend-patron": [refusal(17), reply("ok")], "patron 9": reply("ok"),
                       "copy 20": reply(f"{roads}\nloan 5 due 2026-03-09 patron 2 Bo Carr"), "missing 20": reply("fine 0 price 1200"), "loans 20": reply("loan 5 patron 2 made 2026-03-02 due 2026-03-09\nend"),
                       "acquire": [refusal(20), reply("ok")], "close-day": reply("ok"), "week": reply("ok"), "closed-days 2": reply("day 2026-12-24\nend"), "open-day": reply("ok"),
                       "branches 0": reply("branch 1 pickup 5 week ooooooc name Main\nbranch 2 pickup 3 week coooooc name Harbour\nend")}))
    desk.it("sign-out").click()
    desk.sign_in("1", "deskkey00001")
    until("the names of the branches", lambda: desk.it("place").text.split(", ")[1:2] == ["Main"])

    def press(name):
        """Presses the button of this name, as a screen reader hears it."""
        desk.shown(driver.find_element(By.CSS_SELECTOR, f'[aria-label="{name}"]')).click()

    def field(name):
        return desk.shown(desk.it(name))

    def fill(command, **values):
        form = desk.shown(desk.it(f"form-{command}"))
        if form.get_attribute("open") is None:
            form.find_element(By.TAG_NAME, "summary").click()
        for part, text in values.items():
            field = desk.it(f"{command}-{part.replace('_', '-')}")
            if field.tag_name == "select":
                field.send_keys(text)
            else:
                field.clear()
                field.send_keys(text)
        form.find_element(By.CSS_SELECTOR, "form > button").click()

    def problems(command):
        return [it.text for it in desk.it(f"form-{command}").find_elements(By.CLASS_NAME, "problem") if it.text]
    # the patron's panel
    desk.keys("2", Keys.ENTER)
    until("the page", lambda: len(desk.items("patron-lines")) == 2)
    press("Renew: Salt Roads")
    until("it is renewed at once", lambda: "renew 5" in fake.words())
    need("the focus", desk.focus(), "scan")
    press("Cancel: Maps")
    until("it is asked about", lambda: desk.told() == "Cancel the hold of Bo Carr on Maps?" and desk.it("again").text == "Cancel the hold")
    need("nothing is sent yet, and a scanner's Enter sends nothing", (desk.focus(), desk.it("send-on").text, "cancel-hold 7" in fake.words()), ("scan", "Don't", False))
    desk.keys(Keys.ENTER)
    desk.it("send-on").click()
    until("it isn't done", lambda: not desk.it("queue").is_displayed())
    press("Cancel: Maps")
    until("it is asked about again", lambda: desk.it("again").is_displayed())
    time.sleep(0.7)
    desk.it("again").click()
    until("it is cancelled", lambda: fake.words().count("cancel-hold 7") == 1)
    until("nothing waits", lambda: not desk.it("queue").is_displayed())
    # who owes: a form is filled in, and what it says is asked about with name and sum
    desk.press("debts")
    until("a row", lambda: rows(desk) == ["2 Bo Carr 13.00"])
    driver.find_element(By.CSS_SELECTOR, '#list-rows [aria-label="Waive: Bo Carr"]').click()
    need("the form", (desk.it("patrons").is_displayed(), desk.it("waive-patron").get_attribute("value"), desk.it("waive-amount").get_attribute("value")), (True, "2", "13.00"))
    fill("waive", amount="2")
    need("what is wrong is told at its field, which has the focus", (problems("waive"), desk.focus(), desk.it("waive-amount").get_attribute("aria-invalid")), (["This should be an amount such as 2.50."], "waive-amount", "true"))
    fill("waive", amount="13.00")
    until("it is asked about", lambda: desk.told() == "Waive 13.00 for Bo Carr?")
    time.sleep(0.7)
    desk.it("again").click()
    until("it is waived", lambda: "waive 2 1300" in fake.words())
    until("the form is empty again", lambda: desk.it("waive-patron").get_attribute("value") == "")
    driver.execute_script("scrollTo(0, 0)")
    driver.find_element(By.CSS_SELECTOR, '#patron-actions [aria-label="Amend: Bo Carr"]').click()
    until("the kind is known too", lambda: desk.it("amend-patron-kind").get_attribute("value") == "3")
    fill("amend-patron", name="Bo Özil")
    until("a refusal stands at its field", lambda: problems("amend-patron") == ["There is no such kind of patron."])
    need("it is told too, and what was typed stays", (desk.told(), desk.it("amend-patron-name").get_attribute("value")), ("There is no such kind of patron.", "Bo Özil"))
    fill("amend-patron", kind="1")
    until("it is amended", lambda: "amend-patron 2 1 Bo Özil" in fake.words())
    until("nothing is wrong any more", lambda: problems("amend-patron") == [] and desk.it("amend-patron-name").get_attribute("value") == "")
    # a card key that was given can be read until the next patron comes, and is kept nowhere
    fill("patron", patron="9", kind="1", name="Ida Jo")
    need("a key is wanted", problems("patron"), ["This should be 8 to 32 letters and digits."])
    driver.find_element(By.CSS_SELECTOR, "#form-patron .field button").click()
    made = desk.it("patron-card-key").get_attribute("value")
    fill("patron")
    until("it is given", lambda: f"patron 9 1 {made} Ida Jo" in fake.words() and desk.it("form-patron").find_element(By.CLASS_NAME, "given").text == f"Card key of patron 9: {made}")
    need("the form is empty, and the key is kept nowhere", (desk.it("patron-card-key").get_attribute("value"), made in str(desk.stored()), made in str(desk.items("last"))), ("", False, False))
    driver.execute_script("scrollTo(0, 0)")
    desk.it("next").click()
    need("it is gone", made in driver.execute_script("return document.body.innerText"), False)
    # a copy: looked up, reported as missing with what it costs
    desk.type("looked", "C20")
    desk.press("copy")
    until("the copy", lambda: rows(desk) == ["20 Salt Roads 200 Main 12.00 On loan to Bo Carr, due 2026-03-09."])
    press("Missing: Salt Roads")
    until("what it costs", lambda: desk.told() == "Report Salt Roads, copy 20, as missing? Bo Carr will owe its price of 12.00, and a fine if it is late.")
    time.sleep(0.7)
    desk.it("again").click()
    until("it is reported", lambda: "missing 20" in fake.words())
    until("nothing waits", lambda: not desk.it("queue").is_displayed())
    fill("acquire", copy="21", title="200", kind="1", home="Harbour", price="12.00", text="Salt Roads")
    until("a number in use", lambda: problems("acquire") == ["This number is already in use with different details."])
    fill("acquire", copy="22")
    until("it is acquired, at a branch that was chosen by its name", lambda: "acquire 22 200 1 2 1200 Salt Roads" in fake.words())
    # the keeper's
    desk.tab("settings")
    fill("close-day", branch="Harbour", day="12242026")
    until("a day is closed", lambda: "close-day 2 2026-12-24" in fake.words())
    desk.press("branches")
    until("the branches", lambda: len(rows(desk)) == 2)
    driver.find_element(By.CSS_SELECTOR, '#list-rows tr:nth-child(2) [aria-label="Week: Harbour"]').click()
    desk.it("week-mask").find_elements(By.TAG_NAME, "input")[6].click()
    fill("week")
    until("its week", lambda: "week 2 cooooocc" not in fake.words() and "week 2 cooooo" + "o" in fake.words())
    press("Closed days to come: Harbour")
    until("its closed days", lambda: rows(desk) == ["2026-12-24"])
    press("Open on this day: 2026-12-24")
    until("it is opened", lambda: "open-day 2 2026-12-24" in fake.words())
    need("no name is empty, and it fits a telephone", ([it for it in desk.names() if not it[1]], desk.fits(320)), ([], True))
    # the machine remembers its branch by its name
    desk.it("sign-out").click()
    need("the forms are closed and empty", (driver.find_elements(By.CSS_SELECTOR, "details[open]"), desk.it("acquire-copy").get_attribute("value")), ([], ""))
    need("the branch, by its name", desk.it("branch").get_attribute("value"), "Main")
    desk.type("desk-key", "deskkey00001")
    desk.type("branch", "harbour")
    desk.keys(Keys.ENTER)
    until("another branch, by its name", lambda: desk.it("place").text.split(", ")[1:2] == ["Harbour"])


def icon(driver, fake):
    """Both pages have an icon that the browser may show, and no browser asks for another."""
    for name, title in (("patron", "My library card"), ("desk", "Circulation desk")):
        page = Page(driver, f"{fake.url}/pages/{name}.html", title)
        fake.files.clear()
        driver.refresh()
        until("the texts", lambda: page.it("sign-in").is_displayed())
        size = driver.execute_async_script("""const icon = new Image();
            for (const sign of ['load', 'error']) icon.addEventListener(sign, () => arguments[0](icon.naturalWidth));
            icon.src = document.querySelector('link[rel=icon]').href;""")
        need(f"the icon of {name} is shown", size > 0, True)
        time.sleep(0.5)
        need(f"another file of {name}", [it for it in fake.files if not it.startswith("/pages/")], [])


def on_paper(driver, fake):
    """Slips and receipts are printed black on white also where the system is dark, with no button; each slip has a
    sheet of its own, and its first line is the largest."""
    ready = "ready {0} at 1 until 2026-03-07"
    fake.says(answers({f"check-in {it}": reply(f"fine 0 {ready.format(it)}") for it in (1, 2, 3)} | {
        f"copy {it}": reply(f"copy {it} home 1 kind 1 price 100 title 7 Tides\n{ready.format(it)} patron 5 Jo Bell")
        for it in (1, 2, 3)} | {"page 1": reply(f"{PAGE['1']}\nloan 5 due 2026-03-09 renewals 1 title 7 Tides")}))
    desk = Desk(driver, fake.url, 1)
    driver.execute_script("window.print = () => {}")
    desk.keys("1", Keys.ENTER)
    until("a receipt", lambda: desk.it("receipt-owed").text == "Nothing is owed.")
    need("the library's name stands at the head of the screen alone", desk.it("receipt-town").is_displayed(), False)
    dark = {"media": "print", "features": [{"name": "prefers-color-scheme", "value": "dark"}]}
    seen = """const shown = [...document.querySelectorAll('body *')].filter((it) => it.checkVisibility());
        const hasText = (it) => [...it.childNodes].some((node) => node.nodeType === 3 && node.data.trim());
        const printed = shown.filter(hasText), colours = printed.map((it) => getComputedStyle(it).color);
        const pressed = shown.filter((it) => ['BUTTON', 'INPUT'].includes(it.tagName));
        return [[...new Set(colours)], getComputedStyle(document.body).backgroundColor, pressed.length,
            printed.map((it) => it.innerText)];"""

    def printed(button):
        """The colours, the buttons, the texts and the sheets of what a button prints."""
        desk.shown(button).click()
        driver.execute_cdp_cmd("Emulation.setEmulatedMedia", dark)
        found = driver.execute_script(seen)
        driver.execute_cdp_cmd("Emulation.setEmulatedMedia", {"media": "", "features": []})
        sheets = base64.b64decode(driver.execute_cdp_cmd("Page.printToPDF", {})["data"])
        return *found, len(re.findall(rb"/Type\s*/Page\b", sheets))
    black = (["rgb(0, 0, 0)"], "rgb(255, 255, 255)", 0)
    need("a receipt", printed(desk.it("print-receipt"))[:3], black)
    need("its sheet", printed(desk.it("print-receipt"))[4], 1)
    desk.mode("check-in")
    desk.keys("1", Keys.ENTER, "2", Keys.ENTER, "3", Keys.ENTER)
    until("three slips", lambda: len(driver.find_elements(By.CSS_SELECTOR, "#slip-list article")) == 3)
    *look, texts, sheets = printed(desk.it("print-slips"))
    need("the slips", (tuple(look), sheets, texts.count("Jo Bell")), (black, 3, 3))
    for at in (1, 2, 3):
        button = driver.find_element(By.CSS_SELECTOR, f"#slip-list article:nth-child({at}) button")
        *look, texts, sheets = printed(button)
        need("one slip", (tuple(look), sheets, texts[0], f"Hold {at}" in texts), (black, 1, "Jo Bell", True))
    need("all of them again", printed(desk.it("print-slips"))[4], 3)
    driver.execute_cdp_cmd("Emulation.setEmulatedMedia", {"media": "print"})
    sizes = driver.execute_script("""return [...document.querySelectorAll('#slip-list article:last-child p')]
        .map((it) => parseFloat(getComputedStyle(it).fontSize))""")
    driver.execute_cdp_cmd("Emulation.setEmulatedMedia", {"media": ""})
    need("the first line is the largest", sizes[0] > 2 * max(sizes[1:]), True)


def german(driver, fake):
    """A browser that asks for German has the pages in German, and their language is told."""
    agent = driver.execute_script("return navigator.userAgent")
    driver.execute_cdp_cmd("Network.setUserAgentOverride", {"userAgent": agent, "acceptLanguage": "de-AT,de,en"})
    try:
        desk = Page(driver, f"{fake.url}/pages/desk.html", "Ausleihtheke")
        desk.type("desk-key", "deskkey00001")
        desk.type("branch", "1")
        desk.keys(Keys.ENTER)
        until("the desk is open", lambda: desk.it("desk").is_displayed())
        need("its language", driver.execute_script("return document.documentElement.lang"), "de")
        desk.keys("P4", Keys.ENTER)
        until("what is told", lambda: desk.told() == "Person 4, Di Eck: 0 ausgeliehen, 0 vorgemerkt, schuldet 0.00.")
        need("the tabs", [it.text for it in driver.find_elements(By.CSS_SELECTOR, "[role=tab]")], ["Ausleihe", "Listen", "Person", "Katalog", "Einstellungen"])
        need("no name is empty, and it fits a telephone", ([it for it in desk.names() if not it[1]], desk.fits(320)), ([], True))
        desk.it("sign-out").click()
        page = Page(driver, f"{fake.url}/pages/patron.html", "Mein Bibliotheksausweis")
        need("the patron's page", (page.it("sign-in").text.split("\n")[0], driver.execute_script("return document.documentElement.lang")), ("Ausweisnummer", "de"))
    finally:
        driver.execute_cdp_cmd("Network.setUserAgentOverride", {"userAgent": agent, "acceptLanguage": "en-US,en"})


def for_everybody(driver, fake):
    """One place speaks what can wait and one what can't, once a scan; whatever is pressed is large enough, and where
    the focus is is seen."""
    desk = Desk(driver, fake.url, 1)
    slow = {"check-in 1": reply("fine 0 shelf 1"), "check-in 2": refusal(13), "copy 2": refusal(13), "check-in 3": reply("fine 0 ready 7 at 1 until 2026-03-07"), "check-in 4": reply("fine 0 shelf 1"),
            "copy 3": reply("copy 3 home 1 kind 1 price 100 title 7 Tides\nready 7 at 1 until 2026-03-07 patron 1 Ann Bell", 0.1), "page 1": reply("patron 1 owed 40 name Ann Bell\nloan 5 due 2026-03-09 renewals 1 title 7 Tides\nhold 7 at 1 waiting title 8 Maps"),
            "debts 0": reply("end"), "find-patrons 0 bell": reply("patron 1 owed 40 name Ann Bell\nend"), "pulls": reply("hold 1 copy 11 title 7 Tides\nend")}
    fake.says(answers(slow, 0.1))
    need("what speaks", driver.execute_script("return [...document.querySelectorAll('[aria-live], [role=status], [role=alert], output')].map((it) => it.ariaLive)"), ["polite", "assertive"])
    driver.execute_script("window.spoken = []; for (const it of document.querySelectorAll('[aria-live]')) new MutationObserver(() => window.spoken.push([it.ariaLive, it.textContent.trim()])).observe(it, {childList: true})")
    desk.mode("check-in")
    desk.keys("1", Keys.ENTER, "4", Keys.ENTER, "3", Keys.ENTER, "2", Keys.ENTER)
    until("a refusal", lambda: desk.told() == "copy 2: There is no such copy." and desk.it("stopped").is_displayed())
    shelf = "Tides: To the shelf, branch 1. No fine."
    need("each scan once, and the same text again", driver.execute_script("return window.spoken"), [["polite", shelf], ["polite", shelf], ["assertive", "Tides: Ready for Ann Bell, hold 7, at branch 1 until 2026-03-07. No fine."], ["assertive", "copy 2: There is no such copy."]])
    desk.go_on()
    desk.mode("check-out")
    driver.execute_script("window.spoken.length = 0")
    desk.keys("bell")
    until("what is found is spoken, too", lambda: driver.execute_script("return window.spoken") == [["polite", "1 found. Choose one by the arrow keys and Enter."]])
    desk.keys(Keys.ENTER)
    until("the page", lambda: desk.it("patron").is_displayed())
    desk.press("debts")
    none = ["polite", "Patrons who owe, all branches: There are none."]
    until("an empty list is spoken", lambda: driver.execute_script("return window.spoken").count(none) == 1)
    # what is pressed or chosen, in each tab, on a telephone and on a desk
    small = """return [...document.querySelectorAll('button, select, summary, input, [role=option]')].filter((it) => it.checkVisibility()).map((it) => it.closest('label') && ['radio', 'checkbox'].includes(it.type) ? it.closest('label') : it)
        .filter((it) => { const at = it.getBoundingClientRect(); return at.height < 44 || at.width < 44; }).map((it) => it.outerHTML.slice(0, 90))"""
    unseen = """const found = []; for (const it of document.querySelectorAll('button, select, summary, input')) { if (!it.checkVisibility()) continue; it.focus({focusVisible: true});
        const of = getComputedStyle(it); if (document.activeElement === it && (of.outlineStyle !== 'solid' || parseFloat(of.outlineWidth) < 3)) found.push(it.outerHTML.slice(0, 90)); } return found"""
    for panel in ("circulation", "lists", "patrons", "catalogue", "settings"):
        desk.tab(panel)
        if panel == "lists":
            desk.press("pulls")
            until("a list", lambda: len(rows(desk)) == 1)
        driver.execute_script("for (const it of document.querySelectorAll('details')) it.open = it.checkVisibility()")
        for pixels in (360, 1280):
            desk.width(pixels, 900)
            need(f"what is too small in {panel} at {pixels} pixels", driver.execute_script(small), [])
        need(f"what doesn't show that it has the focus in {panel}", driver.execute_script(unseen), [])
        need(f"forms with more than one button that stands out in {panel}", driver.execute_script("""const isLoud = (it) => it.checkVisibility() && getComputedStyle(it).backgroundColor === getComputedStyle(document.body).color;
            return [...document.querySelectorAll('form')].filter((form) => [...form.querySelectorAll('button')].filter(isLoud).length > 1).map((form) => form.id)"""), [])
    need("headings in order", driver.execute_script("return [...document.querySelectorAll('h1, h2, h3, h4')].map((it) => it.tagName).filter((it, at, all) => at > 0 && Number(it[1]) > Number(all[at - 1][1]) + 1)"), [])
    driver.execute_cdp_cmd("Emulation.clearDeviceMetricsOverride", {})
    # dark where the system is
    driver.execute_cdp_cmd("Emulation.setEmulatedMedia", {"features": [{"name": "prefers-color-scheme", "value": "dark"}]})
    need("dark", driver.execute_script("const it = getComputedStyle(document.body); return [it.color, it.backgroundColor]"), ["rgb(242, 242, 242)", "rgb(22, 22, 22)"])
    driver.execute_cdp_cmd("Emulation.setEmulatedMedia", {"features": []})


def patrons_page(driver, fake):
    """A patron comes from a catalogue with a title, renews all, keeps the focus, and saves the due days; password
    managers know the fields."""
    left = {"11": 1, "12": 1, "13": 0, "14": 2}
    late = threading.Event()

    def answer(what):
        if what == "GET /patrons/1":
            return reply("\n".join([PAGE["1"], *(f"loan {loan} due 2026-03-09 renewals {renewals} title {loan} Title {loan}" for loan, renewals in left.items())]), 0.05)
        if what == "POST /patrons/1/loans/12/renew":
            return refusal(36, 0.05)
        if what == "POST /patrons/1/loans/11/renew" and not late.is_set():
            late.wait(30)
        loan = what.split("/")[4] if "/loans/" in what else None
        if loan:
            left[loan] -= 1
            return reply(f"loan {loan} due 2026-03-16")
        return reply("hold 7")
    fake.says(answer)
    page = Page(driver, f"{fake.url}/pages/patron.html#hold=300", "My library card")
    need("what a password manager fills in", [page.it(it).get_attribute("autocomplete") for it in ("number", "card-key")], ["username", "current-password"])
    need("what speaks", driver.execute_script("return [...document.querySelectorAll('[aria-live], [role=status], [role=alert], output')].map((it) => it.ariaLive)"), ["polite", "assertive"])
    enter(page, "C1")
    need("a copy is no card", page.told(), "This is a copy, but a patron's card is expected.")
    page.type("number", "20000000000001")
    page.it("number").send_keys(Keys.ENTER)
    need("nor is a barcode read there", (page.told().rpartition("; ")[2], fake.words()),
         ("a barcode is read at the desk alone.", []))
    page.type("number", "p1")
    page.it("number").send_keys(Keys.ENTER)
    until("the page", lambda: page.it("page").is_displayed())
    need("the title of the catalogue, and the focus", (page.it("title").get_attribute("value"), page.focus()), ("300", "branch"))
    page.keys("x", Keys.ENTER)
    need("no branch", page.told(), "This should be the name of a branch, or its number.")
    page.type("branch", "1")
    page.keys(Keys.ENTER)
    until("a hold", lambda: any(it.startswith('POST /patrons/1/holds {"branch":1,"title":300}') for it in fake.words()))
    until("it is told", lambda: page.told() == "Hold 7 is placed.")
    until("the address asks for it no more", lambda: "#" not in driver.current_url)
    driver.execute_script("location.hash = '#hold=x'")
    driver.execute_script("location.hash = '#hold=400'")
    until("another title", lambda: page.it("title").get_attribute("value") == "400")
    # the focus stays where its button is, and goes to the head of the list where it is gone
    button = lambda loan: driver.find_element(By.CSS_SELECTOR, f'[data-path="/loans/{loan}/renew"]')
    button(14).send_keys(Keys.ENTER)
    until("renewed", lambda: page.told() == "Loan 14, due 2026-03-16." and left["14"] == 1)
    until("the same button", lambda: driver.execute_script("return document.activeElement.dataset.path") == "/loans/14/renew")
    time.sleep(0.7)
    driver.execute_script("window.spoken = []; for (const it of document.querySelectorAll('[aria-live]')) new MutationObserver(() => window.spoken.push([it.ariaLive, it.textContent.trim()])).observe(it, {childList: true})")
    page.it("renew-all").click()
    until("the first one", lambda: "POST /patrons/1/loans/11/renew" in fake.words())
    late.set()
    until("all that can be", lambda: page.told() == "2 of 3 renewed. Title 12: Another patron is waiting for this title.")
    need("once each, and no other", [it.split("/")[4] for it in fake.words() if "/loans/" in it], ["14", "11", "12", "14"])
    need("it is spoken once", driver.execute_script("return window.spoken"), [["assertive", "2 of 3 renewed. Title 12: Another patron is waiting for this title."]])
    until("one is left, so there is no button for all", lambda: not page.it("renew-all").is_displayed())
    need("the focus", page.focus(), "loans-head")
    left["12"] = 0
    time.sleep(0.7)
    button(12).send_keys(Keys.ENTER)
    until("a refusal, and no button any more", lambda: driver.find_elements(By.CSS_SELECTOR, "#loans button") == [])
    until("the head of the list", lambda: page.focus() == "loans-head")
    # the due days
    driver.execute_script("window.saved = []; const make = URL.createObjectURL; URL.createObjectURL = (blob) => { blob.text().then((text) => window.saved.push(blob.type, text)); return make.call(URL, blob); }")
    page.it("save-days").click()
    until("it is saved", lambda: len(driver.execute_script("return window.saved")) == 2)
    kind, text = driver.execute_script("return window.saved")
    need("what is saved", (kind, text.count("BEGIN:VEVENT"), "DTSTART;VALUE=DATE:20260309\r\nSUMMARY:Due: Title 13\r\n" in text), ("text/calendar;charset=utf-8", 4, True))
    for pixels in (360, 1280):
        page.width(pixels, 900)
        need(f"what is too small at {pixels} pixels", driver.execute_script("""
            const small = ({height, width}) => height < 44 || width < 44;
            return [...document.querySelectorAll('button, input')].filter((it) => it.checkVisibility())
                .filter((it) => small(it.getBoundingClientRect())).map((it) => it.outerHTML)"""), [])
    need("what doesn't show that it has the focus", driver.execute_script("""
        document.activeElement.blur();
        const isSeen = (it) => { it.focus({focusVisible: true}); const of = getComputedStyle(it);
            return of.outlineStyle === 'solid' && parseFloat(of.outlineWidth) >= 3; };
        return [...document.querySelectorAll('button, input')].filter((it) => it.checkVisibility() && !isSeen(it))
            .map((it) => it.outerHTML)"""), [])
    need("headings in order", [it.tag_name for it in driver.find_elements(By.CSS_SELECTOR, "h1, h2, h3, h4")],
         ["h1", "h2", "h3", "h3", "h3"])
    need("forms with more than one button that stands out", driver.execute_script("""
        return [...document.forms].filter((form) => form.querySelectorAll('button:not([type=button])').length > 1)
            .map((form) => form.id)"""), [])
    driver.execute_cdp_cmd("Emulation.clearDeviceMetricsOverride", {})
    need("320 pixels", page.fits(320), True)
    page.it("sign-out").click()
    need("nothing is kept", (page.stored(), page.it("loans").text, "#" in driver.current_url), ({}, "", False))


def calendar_of_year(driver, fake):
    """A year of a branch: a day to come is closed by a press and opened by another one, and keeps the focus; days that
    are over, or closed each week, can't be pressed."""
    closed, fake.day = ["2027-12-24"], "2027-11-30"

    def answer(what):
        if what == "branches 0":
            return reply("branch 1 pickup 5 week ooooooc name Main\nbranch 2 pickup 3 week coooooo name Harbour\nend")
        if what.startswith("closed-days 2"):
            return reply("\n".join([*(f"day {it}" for it in sorted(closed)), "end"]))
        if what.startswith("close-day 2"):
            closed.append(what.split()[2])
        elif what.startswith("open-day 2"):
            closed.remove(what.split()[2])
        else:
            return answers({})(what)
        return reply("ok")
    fake.says(answer)
    desk = Desk(driver, fake.url, 1)
    until("the names of the branches", lambda: desk.it("place").text.split(", ")[1:2] == ["Main"])
    desk.field("year-branch").send_keys("Harbour")
    driver.find_element(By.CSS_SELECTOR, "#year-of button").click()
    until("the year", lambda: desk.it("year").is_displayed())
    months = driver.find_elements(By.CSS_SELECTOR, "#year-months caption")
    need("its months", (desk.it("year-head").text, len(months), months[0].text, months[-1].text), ("Calendar of Harbour", 12, "November 2027", "October 2028"))
    day = lambda text: driver.find_element(By.CSS_SELECTOR, f"#year-months [data-day='{text}']")
    states = lambda *texts: [tuple(it) for it in driver.execute_script("return arguments[0].map((it) => document.querySelector(`#year-months [data-day='${it}']`)).map((it) => [it.ariaLabel, it.ariaPressed])", texts)]
    need("a closed day and an open one", states("2027-12-24", "2027-12-25"), [("2027-12-24: closed", "true"), ("2027-12-25: open", "false")])
    need("what can't be pressed: what is over, and each Monday", [len(driver.find_elements(By.CSS_SELECTOR, f"#year-months .{it}")) for it in ("over", "weekly")], [30, 48])
    need("no day is pressed that is over", driver.find_elements(By.CSS_SELECTOR, "#year-months [data-day='2027-11-30'], #year-months [data-day='2027-12-06']"), [])
    day("2027-12-25").send_keys(Keys.ENTER)
    until("it is closed", lambda: states("2027-12-25") == [("2027-12-25: closed", "true")])
    need("the focus stays", driver.execute_script("return document.activeElement.dataset.day"), "2027-12-25")
    day("2027-12-24").click()
    until("another one is opened", lambda: states("2027-12-24") == [("2027-12-24: open", "false")])
    need("what was sent", [it for it in fake.words() if "-day " in it], ["close-day 2 2027-12-25", "open-day 2 2027-12-24"])
    desk.keys("7")
    need("keys go to the line", desk.focus(), "scan")
    for pixels in (360, 1280):
        desk.width(pixels, 900)
        need(f"days that are too small at {pixels} pixels", driver.execute_script("return [...document.querySelectorAll('#year-months button')].filter((it) => { const at = it.getBoundingClientRect(); return at.width < 44 || at.height < 44; }).length"), 0)
    driver.execute_cdp_cmd("Emulation.clearDeviceMetricsOverride", {})
    need("no name is empty, and it fits a telephone", ([it for it in desk.names() if not it[1]], desk.fits(360)), ([], True))
    fake.day = time.strftime("%Y-%m-%d")


def alerts(driver, fake):
    """What is ready for a patron at this branch, and what is overdue, is told with the page and stands in the panel
    as it is now."""
    page = "patron 2 owed 0 name Bo Carr"
    loan, held = "loan 5 due 2026-03-09 renewals 1 title 7 Tides", "hold 7 at 1 ready title 8 Maps"
    other = "hold 9 at 2 ready title 9 Bees"
    fake.says(answers({"page 2": [reply("\n".join([page, loan, held, other])), reply("\n".join([page, loan, other]))],
                       "check-out 2 20": reply("loan 6 due 2999-01-02")}))
    desk = Desk(driver, fake.url, 1)
    driver.execute_script("""window.spoken = []; for (const it of document.querySelectorAll('[aria-live]'))
        new MutationObserver(() => window.spoken.push(it.textContent.trim())).observe(it, {childList: true})""")
    alert, panel = "1 hold is ready here. 1 loan is overdue.", lambda: desk.it("patron-alerts").text
    desk.keys("2", Keys.ENTER)
    until("it is told", lambda: desk.told() == f"Patron 2, Bo Carr: 1 on loan, 2 on hold, owes 0.00. {alert}")
    need("in the panel too", panel(), alert)
    need("what stands out in it", driver.execute_script(
        "return [...document.querySelectorAll('#patron-lines li > span')].map((it) => it.className)"), ["late", "ready", "ready"])
    until("it is spoken once", lambda: driver.execute_script("return window.spoken") == [desk.told()])
    desk.keys("20", Keys.ENTER)
    until("what is ready is taken", lambda: panel() == "1 loan is overdue.")
    driver.refresh()
    until("it is there again", lambda: panel() == "1 loan is overdue.")
    desk.it("next").click()
    need("nothing of it stays", (desk.it("patron-alerts").is_displayed(), alert in driver.page_source), (False, False))


def returns(driver, fake):
    """A return with a fine, for a hold or for another branch looks and sounds unlike a plain one, and is told until
    the next scan."""
    places = {"10": ("fine 0 shelf 1", "shelf 1", False), "11": ("fine 0 ready 7 at 1 until 2999-01-02", "shelf 1",
                                                                 True),
              "12": ("fine 0 transit 2", "transit 2", True), "13": ("fine 20 shelf 1", "shelf 1", True)}
    fake.says(answers({f"{name} {copy}": reply(answer if name == "check-in" else f"{row} {copy} {rest}\n{place}")
                       for copy, (answer, place, _) in places.items() for name in ("check-in", "copy")
                       for row, rest in [("copy", "home 1 kind 1 price 100 title 7 Tides")]}
                      | {"loans 13": reply("loan 5 patron 2 made 2026-03-02 due 2026-03-09 ended 2026-03-10\nend"),
                         "borrower 2": reply("patron 2 owed 20 name Bo Carr\nkind 1")}))
    desk = Desk(driver, fake.url, 1)
    desk.mode("check-in")
    driver.execute_script("""window.notes = []; const start = OscillatorNode.prototype.start;
        OscillatorNode.prototype.start = function (at) {
            window.notes.push([this.type, this.frequency.value]); return start.call(this, at); };""")

    def look():
        return driver.execute_script("""const of = getComputedStyle(document.getElementById('told')), heard = window.notes;
            window.notes = []; return [of.borderTopWidth !== '0px', of.borderLeftColor, heard];""")
    for copy in ("10", "11", "12", "13", "10"):
        is_special = places[copy][2]
        told = desk.scan(copy)
        chime = [["sine", 660], ["sine", 880]] if is_special else []
        until(f"copy {copy} is served", lambda: not desk.it("queue").is_displayed())
        need(f"how {copy} looks and sounds", look(), [is_special,
                                                      "rgb(122, 75, 0)" if is_special else "rgb(0, 92, 46)", chime])
        time.sleep(0.5)
        need("it stays", (desk.told(), look()[0]), (told, is_special))
    desk.scan("99")
    need("a refusal is something else", look(), [False, "rgb(164, 0, 0)", [["square", 220]] * 2])


def two_columns(driver, fake):
    """From 1,000 pixels on the person stands beside the work, also where the page is scrolled; below that all is in one
    column."""
    many = "\n".join(f"hold {it} copy {it + 100} title {it} Title {it}" for it in range(1, 61))
    fake.says(answers({"check-in 20": reply("fine 0 ready 1 at 1 until 2999-01-02"), "pulls": reply(f"{many}\nend"),
                       "page 2": reply("patron 2 owed 40 name Bo Carr\nhold 7 at 1 ready title 8 Maps")}))
    desk = Desk(driver, fake.url, 1)
    desk.mode("check-in")
    desk.scan("20")
    until("a slip", lambda: desk.it("slips").is_displayed())
    desk.mode("check-out")
    desk.scan("2")
    until("a person", lambda: desk.it("patron").is_displayed())
    desk.press("pulls")
    until("a long page", lambda: len(rows(desk)) == 60)
    edges = """return [...arguments].map((id) => document.getElementById(id).getBoundingClientRect())
        .map(({left, right, top}) => [left, right, top])"""
    for pixels, is_beside in ((360, False), (999, False), (1000, True), (1280, True)):
        desk.width(pixels, 700)
        driver.execute_script("scrollTo(0, 0)")
        (left, right, top), *work = driver.execute_script(edges, "person", "scanning", "told", "modes", "slips",
                                                          "tabs", "list-table")
        need(f"who is beside the work at {pixels} pixels", [it[1] <= left for it in work], [is_beside] * 6)
        need("each is on the screen", (right <= pixels, max(it[1] for it in work) <= pixels), (True, True))
        driver.execute_script("document.getElementById('list-rows').lastElementChild.scrollIntoView()")
        top = driver.execute_script(edges, "person")[0][2]
        need(f"whether who it is stays in sight at {pixels} pixels", 0 <= top < 350, is_beside)
    driver.execute_cdp_cmd("Emulation.clearDeviceMetricsOverride", {})


def names_in_lists(driver, fake):
    """Overdue loans, the hold shelf and who waits have the names of the patrons, each asked for once. They come after
    the rows, whose buttons stay; the list is sorted, saved and printed with them."""
    late = threading.Event()
    row = "{:>10} {:>7} {:>7} 2026-03-09     7 Tides"
    overdue = ["      loan  patron    copy due         late title",
               *(row.format(*of) for of in ((1, 4, 11), (2, 2, 12), (3, 4, 13))), "end"]
    shelf = ["      hold    copy  patron until      title", "         7      20       2 2999-01-02 Maps", "end"]
    fake.says(answers({"overdue 1 0": reply("\n".join(overdue)), "shelf 1 0": reply("\n".join(shelf)),
                       "borrower 4": reply("patron 4 owed 0 name Di Eck\nkind 1", late),
                       "borrower 2": reply("patron 2 owed 0 name Bo Carr\nkind 1"),
                       "page 2": reply("patron 2 owed 0 name Bo Carr"), "missing": reply("fine 0 price 100")}))
    desk = Desk(driver, fake.url, 1)
    desk.press("overdue")
    both = [f"{loan} {patron} {10 + loan} 2026-03-09 7 Tides"
            for loan, patron in ((1, "4 Di Eck"), (2, "2 Bo Carr"), (3, "4 Di Eck"))]
    until("a name", lambda: rows(desk) == [it.replace(" Di Eck", "") for it in both])
    button = driver.find_element(By.CSS_SELECTOR, "#list-rows tr:first-child button:last-child")
    ActionChains(driver).click_and_hold(button).perform()
    late.set()
    until("the other one", lambda: rows(desk) == both)
    ActionChains(driver).release().perform()
    until("the button was pressed", lambda: desk.told().startswith("Report Tides, copy 11, as missing?"))
    desk.go_on()
    asked = sorted(it for it in fake.words() if it.startswith("borrower"))
    need("each is asked for once", asked, ["borrower 2", "borrower 4"])
    every = "return [...document.querySelectorAll(arguments[0])].map((it) => it[arguments[1]])"
    need("names stand by themselves", driver.execute_script(every, "#list-rows bdi", "textContent"),
         ["Di Eck", "Tides", "Bo Carr", "Tides", "Di Eck", "Tides"])
    need("of what the heads are", driver.execute_script(every, "#list-columns th", "scope"), ["col"] * 8)
    driver.find_elements(By.CSS_SELECTOR, "#list-columns th button")[2].click()
    need("by name", rows(desk), [both[1], both[0], both[2]])
    driver.execute_script("""window.saved = []; const make = URL.createObjectURL; URL.createObjectURL = (blob) => {
        blob.text().then((text) => window.saved.push(text)); return make.call(URL, blob); }""")
    desk.it("save-list").click()
    until("it is saved", lambda: len(driver.execute_script("return window.saved")) == 1)
    need("what is saved", driver.execute_script("return window.saved")[0].split("\r\n")[:2],
         ["Loan,Patron,Name,Copy,Due,Days late,Title", "2,2,Bo Carr,12,2026-03-09,7,Tides"])
    desk.press("shelf")
    until("the hold shelf", lambda: rows(desk) == ["7 20 2 Bo Carr 2999-01-02 Maps"])
    need("it fits a telephone", desk.fits(320), True)
    driver.find_element(By.CSS_SELECTOR, "#list-rows button").click()
    until("who comes for it", lambda: desk.it("patron-head").text.startswith("Bo Carr"))


def left_alone(driver, fake):
    """After ten minutes a patron is signed out, and a desk covered until its key is typed; what waits is sent below
    the cover, and nothing is shown, pressed or taken there, also after a reload."""
    ahead = "const now = Date.now; Date.now = () => now() + 600000"
    fake.says(answers({"GET /patrons/1": reply(PAGE["1"])}))
    page = Page(driver, f"{fake.url}/pages/patron.html", "My library card")
    enter(page, "1")
    until("the page", lambda: page.it("page").is_displayed())
    page.type("title", "999")
    need("nothing yet", driver.execute_script(f"{ahead} - 5000"), None)
    time.sleep(1.5)
    need("nearly ten minutes", page.it("page").is_displayed(), True)
    driver.execute_script(f"{{ {ahead}; }}")
    until("it is signed out", lambda: page.told() == "Signed out, for nothing was done here for 10 minutes.")
    need("nothing stays", (page.it("page").is_displayed(), page.stored(), page.it("name").text), (False, {}, ""))
    need("not in the fields, either", page.it("title").get_attribute("value"), "")
    # the desk
    late = threading.Event()
    fake.says(answers({"check-in 11": reply("fine 0 shelf 1", late), "check-in": reply("fine 0 shelf 1"),
                       "check-in 13": refusal(13)}))
    desk = Desk(driver, fake.url, 1)
    desk.tab("patrons")
    driver.execute_script("document.querySelector('#form-patron').open = true")
    desk.type("patron-name", "Ida Jo")
    desk.mode("check-in")
    desk.keys("11", Keys.ENTER, "12", Keys.ENTER, "2")

    line = ("Nothing was done here for 10 minutes. What waits is still sent. The desk key opens the page again; "
            "another clerk signs out first.")
    driver.execute_script(ahead)
    until("it is covered", lambda: desk.it("cover-told").text == line)
    need("nothing else is shown", (desk.it("main").is_displayed(), sorted(desk.names()), desk.focus()),
         (False, [("button", "Go on"), ("button", "Sign out for another clerk"), ("textbox", "Desk key")],
          "cover-key"))
    need("it fits a telephone", desk.fits(320), True)
    late.set()
    came = lambda: [it for it in fake.words() if it.startswith("check-in")]
    until("what waits is sent", lambda: came() == ["check-in 11 1", "check-in 12 1"])
    for key in ("C14", "deskkey00002", ""):
        desk.keys(key, Keys.ENTER)
        left = desk.it("cover-key").get_attribute("value")
        need("it stays covered", (desk.it("main").is_displayed(), left), (False, ""))
    need("it is told", desk.it("cover-told").text, "The desk was not opened with this key.")
    driver.execute_script("""document.activeElement.blur();
        const clipboardData = new DataTransfer(), how = {clipboardData, cancelable: true, bubbles: true};
        clipboardData.setData('text', '40\\r\\n41');
        document.body.dispatchEvent(new ClipboardEvent('paste', how));""")
    for key in ("1", "n", "t"):
        ActionChains(driver).key_down(Keys.ALT).send_keys(key).key_up(Keys.ALT).perform()
    ActionChains(driver).send_keys("13", Keys.ENTER).perform()
    again = driver.execute_cdp_cmd("Page.addScriptToEvaluateOnNewDocument", {"source": ahead})["identifier"]
    driver.refresh()
    until("it is covered again", lambda: desk.it("cover").is_displayed() and desk.it("cover-told").text == line)
    driver.execute_cdp_cmd("Page.removeScriptToEvaluateOnNewDocument", {"identifier": again})
    desk.keys("deskkey00001", Keys.ENTER)
    until("it is open again", lambda: desk.it("desk").is_displayed() and not desk.it("cover").is_displayed())
    mode = driver.execute_script("return document.querySelector('input[name=mode]:checked').value")
    need("the mode, the focus, and nothing was taken meanwhile", (mode, desk.focus(), came()),
         ("check-in", "scan", ["check-in 11 1", "check-in 12 1"]))
    desk.keys("15", Keys.ENTER)
    until("a scan", lambda: "check-in 15 1" in fake.words())
    time.sleep(1.5)
    need("it stays open", desk.it("desk").is_displayed(), True)
    left_to_another(driver, fake, desk)


def left_to_another(driver, fake, desk):
    """A covered desk is left to another clerk: what waits is kept for the one who scanned it, and nothing of it is
    shown or sent meanwhile."""
    driver.execute_script("window.confirm = () => true; Date.now = (now => () => now() + 1200000)(Date.now)")
    never = threading.Event()
    fake.says(answers({"check-in 16": reply("fine 0 shelf 1", never), "check-in": reply("fine 0 shelf 1")}))
    until("it is covered", lambda: desk.it("cover").is_displayed())
    desk.keys("deskkey00001", Keys.ENTER)
    until("it is open", lambda: desk.it("desk").is_displayed())
    desk.keys("16", Keys.ENTER, "17", Keys.ENTER)
    until("the first is on its way", lambda: fake.words() == ["check-in 16 1"])
    driver.execute_script("Date.now = (now => () => now() + 1200000)(Date.now)")
    until("it is covered again", lambda: desk.it("cover").is_displayed())
    desk.it("cover-leave").click()
    until("it is left", lambda: desk.told().startswith("Signed out. What was waiting is kept on this machine"))
    need("for the next one to sign in",
         (desk.it("cover").is_displayed(), desk.it("desk").is_displayed(), desk.stored(), desk.focus()),
         (False, False, {}, "desk-key"))
    desk.sign_in("1", "deskkey00002")
    until("another clerk", lambda: desk.it("desk").is_displayed())
    need("has nothing of it", (desk.it("queue").is_displayed(), fake.words()), (False, ["check-in 16 1"]))
    never.set()
    desk.it("sign-out").click()
    desk.sign_in("1", "deskkey00001")
    until("the first clerk is asked", lambda: desk.items("waiting") == ["copy 16", "copy 17"])
    desk.it("send-on").click()
    until("both come in", lambda: desk.told().startswith("Tides: To the shelf") and "check-in 17 1" in fake.words())
    need("the first one under its key", len({key for what, key in fake.sent if what == "check-in 16 1"}), 1)


def labels_and_charges(driver, fake):
    """A charge and a barcode are entered by forms that open from a panel and tell what is wrong at their fields; a
    till is headed as what it is, and a label that is looked up finds its copy."""
    desk, day = Desk(driver, fake.url, 1), fake.day
    carr, roads = "patron 2 owed 0 name Bo Carr", "copy 20 home 1 kind 1 price 1200 title 200 Salt Roads\nshelf 1"
    fake.says(answers({"page 2": reply(carr), "borrower 2": reply(f"{carr}\nkind 1"), "charge 2": reply("owed 250"),
                       "patron-barcode 2": [refusal(26), reply("ok")], "find-barcode 30000100000020": reply("copy 20"),
                       "copy 20": reply(f"{roads}\nbarcode 30000100000020"), "drop-barcode": reply("ok"),
                       f"till-at 1 {day}": reply(f"till {day} at 1\npayments 100\ncharges 250"),
                       f"till {day}": reply(f"till {day}\nfines 0\nprices 0\npayments 300\nwaivers 0\ncharges 250")}))

    def press(name):
        desk.shown(driver.find_element(By.CSS_SELECTOR, f'[aria-label="{name}"]')).click()

    def submit(command):
        desk.it(f"form-{command}").find_element(By.CSS_SELECTOR, "form > button").click()

    def confirm(question, words):
        until(question, lambda: desk.told() == question and desk.it("again").is_displayed())
        need("nothing is sent yet", words in fake.words(), False)
        time.sleep(0.7)
        desk.it("again").click()
        until(words, lambda: words in fake.words() and not desk.it("queue").is_displayed())
    desk.keys("2", Keys.ENTER)
    until("the panel", lambda: desk.it("patron").is_displayed())
    press("Charge: Bo Carr")
    need("the form, with the patron and the branch of the desk",
         [desk.it(f"charge-{it}").get_attribute("value") for it in ("patron", "amount", "branch", "text")], ["2", "", "1", ""])
    need("what is filled in next", desk.focus(), "charge-amount")
    names = [it for it in desk.names() if it[1] == "What it is for"]
    need("what a screen reader hears", names, [("textbox", "What it is for")])
    desk.type("charge-amount", "250")
    desk.type("charge-text", "Photocopies")
    submit("charge")
    need("at the field", desk.it("charge-amount-problem").text, "This should be an amount such as 2.50, up to 10000.00.")
    desk.type("charge-amount", "2.50")
    submit("charge")
    confirm("Charge Bo Carr 2.50 for Photocopies?", "charge 2 250 1 Photocopies")
    until("the receipt", lambda: desk.items("receipt") == ["Photocopies: 2.50 charged at branch 1, now owed 2.50"])
    # a first barcode is sent at once, and one that something else has is told at its field
    press("New barcode: Bo Carr")
    for barcode, problem in (("A-1", "This should be 1 to 24 letters and digits."),
                             ("A1", "Another copy or patron has this barcode."), ("A2", "")):
        desk.type("patron-barcode-barcode", barcode)
        submit("patron-barcode")
        until(f"{barcode} at the field", lambda: desk.it("patron-barcode-barcode-problem").text == problem)
    until("it is given", lambda: "patron-barcode 2 A2" in fake.words())
    # both tills
    desk.go_on()
    for question, head, place, sums in (
        ("till-at", f"Till of branch 1, {day}", f"branch 1, {day}", ["payments 1.00", "charges 2.50"]),
        ("till", f"Till of all branches, {day}", f"Town library, {day}",
         ["fines 0.00", "prices 0.00", "payments 3.00", "waivers 0.00", "charges 2.50"]),
    ):
        desk.press(question)
        until(head, lambda: desk.it("list-head").text == head)
        shown = [it.text for it in desk.it("list-rows").find_elements(By.TAG_NAME, "tr")]
        need("its place and its sums", (desk.it("list-place").text, shown), (place, sums))
    # a label that is looked up
    desk.type("looked", "30000100000020")
    desk.press("copy")
    until("the copy with its label", lambda: "30000100000020" in desk.it("list-rows").text)
    press("Drop the barcode: Salt Roads")
    confirm("Drop the barcode 30000100000020 of Salt Roads?", "drop-barcode 30000100000020")


def labels_in_forms(driver, fake):
    """A label can be scanned into a form in the place of a number; one that is something else's is told at its field,
    and what the page filled in isn't looked up."""
    roads, late = "copy 20 home 1 kind 1 price 1200 title 200 Salt Roads\nshelf 1", threading.Event()
    asked = []
    carr = "patron 2 owed 130 name Bo Carr"
    table = answers({"find-barcode 30000100000020": reply("copy 20"), "copy 20": reply(roads),
                     "find-barcode 30": refusal(18, late), "copy 30": reply(roads.replace("copy 20", "copy 30")),
                     "find-barcode 20000000000002": reply("patron 2"), "missing 30": reply("fine 0 price 0"),
                     "debts 0": reply(f"{carr}\nend"), "borrower 2": reply(f"{carr}\nkind 1")})

    def answer(what):
        asked.extend([what] if what.startswith("find-barcode") else [])
        return table(what)
    fake.says(answer)
    desk = Desk(driver, fake.url, 1)
    desk.tab("catalogue")
    form = desk.it("form-missing")
    form.find_element(By.TAG_NAME, "summary").click()
    for label, problem in (("20000000000002", "This is a patron's card, but a copy is expected."),
                           ("30000100000099", "Nothing has this barcode."),
                           ("", "This should be a number from 1 to 9999999, or a scanned label.")):
        desk.type("missing-copy", label)
        desk.it("missing-copy").send_keys(Keys.ENTER)
        until(problem, lambda: desk.it("missing-copy-problem").text == problem)
        need("the focus stays", desk.focus(), "missing-copy")
    # a label, and then a number by somebody who is in a hurry
    for text, number, keys in (("30000100000020", "20", [Keys.ENTER]), ("30", "30", [Keys.ENTER, Keys.ENTER])):
        desk.type("missing-copy", text)
        desk.keys(*keys)
        time.sleep(0.3)
        late.set()
        question = f"Report Salt Roads, copy {number}, as missing?"
        until(question, lambda: desk.told() == question)
        need("its number", desk.it("missing-copy").get_attribute("value"), number)
        time.sleep(0.3)
        need("it is asked about once", desk.items("waiting"), [])
        if number == "20":
            desk.go_on()
            late.clear()
    time.sleep(0.7)
    desk.it("again").click()
    until("it is reported", lambda: "missing 30" in fake.words() and not desk.it("queue").is_displayed())
    need("and the other one isn't", "missing 20" in fake.words(), False)
    need("and the form is empty", desk.it("missing-copy").get_attribute("value"), "")
    # a card in the place of a patron, whose amount is still to be typed
    desk.tab("patrons")
    form = desk.it("form-waive")
    form.find_element(By.TAG_NAME, "summary").click()
    desk.type("waive-patron", "20000000000002")
    desk.keys(Keys.ENTER)
    until("the next field", lambda: desk.focus() == "waive-amount")
    need("the patron", desk.it("waive-patron").get_attribute("value"), "2")
    # what a row fills in is no label
    desk.press("debts")
    until("a row", lambda: len(rows(desk)) == 1)
    asked.clear()
    driver.find_element(By.CSS_SELECTOR, '#list-rows [aria-label="Waive: Bo Carr"]').click()
    form.find_element(By.CSS_SELECTOR, "form > button").click()
    until("it is asked about", lambda: desk.told() == "Waive 1.30 for Bo Carr?")
    need("nothing is looked up", asked, [])


def lends_alone(driver, fake):
    """A return with a fine doesn't stop the scans of a clerk who lends alone, and tells who owes it, also after a
    reload."""
    roads = "copy 20 home 1 kind 1 price 1200 title 200 Salt Roads"
    lent, back = reply(f"{roads}\nloan 5 due 2026-03-09 patron 2 Bo Carr"), reply(f"{roads}\nshelf 1")
    told = "Salt Roads: To the shelf, branch 1. Fine: 0.20. Bo Carr owes 1.30 now."
    fake.says(answers({"branches 0": refusal(81), "loans": refusal(81), "account": refusal(81),
                       "borrower 2": reply("patron 2 owed 130 name Bo Carr\nkind 1"),
                       "copy 20": [lent, back, lent, back], "check-in 20": reply("fine 20 shelf 1"),
                       "check-in 21": reply("fine 20 shelf 1"), "check-in": reply("fine 0 shelf 1")}))
    desk = Desk(driver, fake.url, 1)
    desk.mode("check-in")
    for again in (False, True):
        if again:
            driver.refresh()
            until("the desk is open again", lambda: desk.it("desk").is_displayed())
        desk.keys("20", Keys.ENTER, "21", Keys.ENTER, "22", Keys.ENTER)
        until("all are in", lambda: desk.told() == "Tides: To the shelf, branch 1. No fine.")
        fined = "check-in 21 1: Tides: To the shelf, branch 1. Fine: 0.20."
        need("who owes, and a fine of nobody known", desk.items("last")[1:3], [fined, f"check-in 20 1: {told}"])
        need("nothing stands still", desk.it("queue").is_displayed(), False)
