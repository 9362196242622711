"""Chromium before the pages: what the tests in a browser have in common. It needs selenium and a driver, which
tests/tools/outside installs."""

import time

from selenium import webdriver
from selenium.webdriver.chrome.service import Service
from selenium.webdriver.common.by import By
from selenium.webdriver.common.keys import Keys

DESK_KEY = "deskkey00001"
counts = {"compared": 0}


class Failed(Exception):
    """Something isn't as it should be."""


def need(what, one, other):
    counts["compared"] += 1
    if one != other:
        raise Failed(f"{what}: {one!r} is not {other!r}")


def until(what, holds, seconds=30):
    """Waits for a state."""
    counts["compared"] += 1
    for _ in range(seconds * 20):
        if holds():
            return
        time.sleep(0.05)
    raise Failed(f"never: {what}")


def browser():
    options = webdriver.ChromeOptions()
    for it in ("--headless=new", "--no-sandbox", "--disable-gpu", "--ignore-certificate-errors", "--window-size=900,1000"):
        options.add_argument(it)
    options.set_capability("goog:loggingPrefs", {"browser": "ALL"})
    return webdriver.Chrome(service=Service("/usr/bin/chromedriver"), options=options)


def complaints(driver):
    """What the browser says of the header of the pages, and of errors in their scripts."""
    return [it["message"] for it in driver.get_log("browser") if "Content Security" in it["message"] or "Uncaught" in it["message"]]


class Page:
    """What both pages have: a place where answers are told."""

    def __init__(self, driver, url, title):
        self.driver = driver
        # what is kept is cleared where no page is at work, or it would be kept again
        driver.get(f"{url.rpartition('/')[0]}/style.css")
        driver.execute_script("sessionStorage.clear(); localStorage.clear()")
        driver.get(url)
        until("the texts", lambda: driver.title == title)

    def it(self, name):
        return self.driver.find_element(By.ID, name)

    def told(self):
        return self.it("told").text

    def is_wrong(self):
        return "wrong" in self.it("told").get_attribute("class").split()

    def type(self, name, text):
        self.it(name).clear()
        self.it(name).send_keys(text)

    def keys(self, *keys):
        """Keys for whatever has the focus, one after another with no wait."""
        self.driver.switch_to.active_element.send_keys(*keys)

    def focus(self):
        return self.driver.switch_to.active_element.get_attribute("id")

    def items(self, name):
        """The texts of a list, without its buttons."""
        return self.driver.execute_script("""const without = (text, button) => text.slice(0, text.lastIndexOf(button.innerText)) + text.slice(text.lastIndexOf(button.innerText) + button.innerText.length);
            return [...document.getElementById(arguments[0]).children].map((it) => [...it.querySelectorAll('button')].reverse().reduce(without, it.innerText).replace(/\\s+/g, ' ').trim())""", name)

    def stored(self):
        """What the session of the tab keeps."""
        return self.driver.execute_script("return {...sessionStorage}")

    def names(self):
        """The names that a screen reader hears for fields and buttons, those shown."""
        tree = self.driver.execute_cdp_cmd("Accessibility.getFullAXTree", {})["nodes"]
        roles = ("textbox", "button", "radio", "combobox", "checkbox")
        return [(it["role"]["value"], it.get("name", {}).get("value", "")) for it in tree if not it.get("ignored") and it["role"]["value"] in roles]

    def width(self, pixels, height=640):
        self.driver.execute_cdp_cmd("Emulation.setDeviceMetricsOverride", {"width": pixels, "height": height, "deviceScaleFactor": 1, "mobile": False})

    def fits(self, pixels):
        """At so many pixels nothing stands out at the side."""
        self.width(pixels)
        wide = self.driver.execute_script("return document.documentElement.scrollWidth")
        self.driver.execute_cdp_cmd("Emulation.clearDeviceMetricsOverride", {})
        return wide <= pixels


class Desk(Page):
    """A desk of a branch; a closed one where there is no branch."""

    def __init__(self, driver, base, branch):
        super().__init__(driver, f"{base}/pages/desk.html", "Circulation desk")
        if branch is not None:
            self.sign_in(branch, DESK_KEY)
            until("the desk is open", lambda: self.it("desk").is_displayed())

    def sign_in(self, branch, key):
        self.type("desk-key", key)
        self.type("branch", str(branch))
        self.it("branch").send_keys(Keys.ENTER)

    def tab(self, panel):
        """Chooses the tab of a panel."""
        self.driver.execute_script("window.scrollTo(0, 0)")
        self.driver.find_element(By.CSS_SELECTOR, f"[aria-controls={panel}]").click()

    def shown(self, found):
        """An element, whose tab is chosen."""
        panel = self.driver.execute_script("return arguments[0].closest('[role=tabpanel]')?.id ?? null", found)
        if panel is not None and not self.it(panel).is_displayed():
            self.tab(panel)
        return found

    def field(self, name):
        return self.shown(self.it(name))

    def press(self, value):
        """Presses the button by which something is asked."""
        self.shown(self.driver.find_element(By.CSS_SELECTOR, f"[role=tabpanel] button[value={value}]")).click()

    def type(self, name, text):
        self.field(name)
        super().type(name, text)

    def mark(self):
        """Marks what was noted last, so that the next note is told from it."""
        self.driver.execute_script("const it = document.getElementById('last').firstElementChild; if (it) it.dataset.seen = 'yes'")

    def is_noted(self):
        return self.driver.execute_script("const it = document.getElementById('last').firstElementChild; return Boolean(it && !it.dataset.seen)")

    def words(self, line):
        """Sends words, and gives what is told of them in the end. A day that isn't the machine's is confirmed."""
        self.mark()
        self.type("words", line)
        self.it("words").send_keys(Keys.ENTER)
        if line.startswith("begin-day "):
            until(f"a yes to {line}", lambda: self.it("typed").is_displayed())
            self.type("typed", "yes")
            self.it("typed").send_keys(Keys.ENTER)
        until(line, lambda: self.is_noted() or (self.is_wrong() and self.it("words").get_attribute("value") == line))
        return self.told()

    def scan(self, text):
        """Scans into whatever has the focus, and gives what is told of it in the end."""
        self.mark()
        self.keys(text, Keys.ENTER)
        until(text, self.is_noted)
        return self.told()

    def mode(self, value):
        # what is told stands at the top, above whatever is scrolled below it
        self.driver.execute_script("window.scrollTo(0, 0)")
        self.driver.find_element(By.CSS_SELECTOR, f"input[value={value}]").click()

    def go_on(self):
        """Lets the queue go on where it stands still; a click right after another is passed over."""
        for _ in range(20):
            if not self.it("send-on").is_displayed():
                return
            self.it("send-on").click()
            time.sleep(0.1)
        raise Failed("never: the queue goes on")


def rows(desk):
    """The rows of the list that is shown."""
    return desk.items("list-rows")


def enter(page, number):
    """Signs a patron in."""
    page.type("number", number)
    page.type("card-key", f"cardkey0000{number}")
    page.keys(Keys.ENTER)
