"""Who guesses keys at a server before the web: nginx by itself, and Caddy with Debian's fail2ban and the files of
docs/operations. They are tried by tests/tools/browser.py."""

import contextlib
import os
import shutil
import socket
import ssl
import stat
import subprocess
import threading
import time

from selenium.webdriver.common.keys import Keys

from room import TOP
from lib.browsing import DESK_KEY, Desk, Page, need, until
from lib.examples import here

TOO_MANY = "Too many requests at once. Nothing was done: wait a minute and try again."
SENDING = "Sending …"
# so many seconds is an address left alone in the tests, and not a minute
BANNED = 6


@contextlib.contextmanager
def fail2ban(place):
    """Debian's fail2ban with the files of docs/operations beside its own. It bans the machine itself too, and for a
    few seconds."""
    conf = f"{place}/fail2ban"
    shutil.copytree("/etc/fail2ban", conf)
    os.remove(f"{conf}/jail.d/defaults-debian.conf")
    for kind in ("action", "filter", "jail"):
        with open(f"{TOP}/docs/operations/fail2ban/{kind}.d/circ.conf", encoding="utf-8") as file:
            text = here(file.read(), place)
        with open(f"{conf}/{kind}.d/circ.conf", "w", encoding="utf-8") as file:
            file.write(text.replace("bantime = 1m\n", f"bantime = {BANNED}s\nignoreself = false\n"))
    with open(f"{conf}/fail2ban.local", "w", encoding="utf-8") as file:
        file.write(f"[Definition]\ndbfile = {place}/fail2ban.sqlite3\n")
    words = ["fail2ban-server", "-xf", "-c", conf, "-s", f"{place}/fail2ban.sock", "-p", f"{place}/fail2ban.pid",
             "--logtarget", f"{place}/fail2ban.log", "start"]
    with open(f"{place}/fail2ban.err", "ab") as told:
        server = subprocess.Popen(words, stdout=told, stderr=told)
    limited = f"{place}/limited"
    try:
        until("fail2ban is ready", lambda: os.path.isdir(limited))
        yield
        need("anybody may look for an address", stat.S_IMODE(os.stat(limited).st_mode), 0o755)
    finally:
        server.terminate()
        server.wait()
    need("who is left when it ends", os.listdir(limited), [])


LIMITED = {"behind_nginx": lambda place: contextlib.nullcontext(), "behind_caddy": fail2ban}


def guesses(base, route, many):
    """The statuses that so many wrong keys are answered with, one after another."""
    body = ("-d", '["today"]') if route == "/desk" else ()
    fixed = ("-s", "-k", "--http1.1", "-o", os.devnull, "-w", "%{http_code}\n", "-H", "Request-Key: g", *body)
    asked = []
    for at in range(many):
        key = f"wrongkey{at:04}"
        asked += ["--next", *fixed, "-H", f"Card-Key: {key}", "-H", f"Desk-Key: {key}", base + route]
    told = subprocess.run(["curl", *asked[1:]], capture_output=True, text=True, timeout=120, check=False)
    return told.stdout.split()


class Guessing:
    """Goes on guessing as long as it is asked to."""

    def __init__(self, base, route, many):
        self.told, self.is_over = [], threading.Event()
        self.thread = threading.Thread(target=self.goes_on, args=(base, route, many), daemon=True)

    def goes_on(self, *what):
        while not self.is_over.is_set():
            self.told += guesses(*what)

    def __enter__(self):
        self.thread.start()
        until("a guesser is limited", lambda: "429" in self.told)
        return self

    def __exit__(self, *_):
        self.is_over.set()
        self.thread.join()


def asked_once(page, asks):
    """Asks until it is told that there are too many requests; then nothing is sent again by itself."""
    page.driver.execute_script("""window.asked = 0; const send = window.fetch;
        window.fetch = (...what) => { window.asked += 1; return send(...what); };""")
    for _ in range(20):
        asks()
        if page.told().endswith(TOO_MANY):
            break
    need("it is told in words, and looks wrong", (page.told()[-len(TOO_MANY):], page.is_wrong()), (TOO_MANY, True))
    asked = page.driver.execute_script("return window.asked")
    time.sleep(2.5)
    need("it isn't repeated", (asked > 0, page.driver.execute_script("return window.asked")), (True, asked))


def patron_asks(page):
    """A patron signs in by a wrong key."""
    page.type("number", "1")
    page.type("card-key", "cardkey99999")
    page.keys(Keys.ENTER)
    until("an answer", lambda: page.told() not in ("", SENDING))


def desk_asks(desk):
    """A clerk scans a copy that nobody has."""
    desk.go_on()
    desk.scan("99")


def guesses_at(page, base, route, many, asks):
    """Guesses at a route while a page asks once."""
    with Guessing(base, route, many) as guessing:
        asked_once(page, lambda: asks(page))
    need(f"what a guesser is told at {route}", ({*guessing.told}, guessing.told[0]), ({"403", "429"}, "403"))


def is_sent_again(desk):
    """Whether what a clerk sends again by a click is taken."""
    if desk.it("again").is_displayed():
        desk.it("again").click()
        time.sleep(1)
    return desk.told() == "copy 99: There is no such copy."


def guesser(driver, base):
    """Who guesses keys is soon answered with 429 on both routes, also with a right key, and not for ever. The pages
    say so and send nothing again by themselves; what a clerk scanned isn't lost."""
    desk = Desk(driver, base, 1)
    desk.mode("check-in")
    guesses_at(desk, base, "/desk", 400, desk_asks)
    need("the scan is still there", desk.it("again").is_displayed(), True)
    until("it is sent by the clerk's word", lambda: is_sent_again(desk))
    desk.go_on()
    page = Page(driver, f"{base}/pages/patron.html", "My library card")
    guesses_at(page, base, "/patrons/1", 60, patron_asks)
    until("and later", lambda: guesses(base, "/patrons/1", 1) == ["403"])


@contextlib.contextmanager
def open_requests(base, many):
    """So many requests to a desk from one address, whose bodies are still to come."""
    host, port = base.removeprefix("https://").split(":")
    context = ssl._create_unverified_context()
    fields = {"Host": host, "Desk-Key": DESK_KEY, "Request-Key": "slow", "Content-Length": 9}
    head = "POST /desk HTTP/1.1\r\n" + "".join(f"{name}: {value}\r\n" for name, value in fields.items()) + "\r\n"
    with contextlib.ExitStack() as stack:
        for _ in range(many):
            plain = stack.enter_context(socket.create_connection((host, int(port)), timeout=30))
            stack.enter_context(context.wrap_socket(plain)).sendall(head.encode())
        time.sleep(0.5)
        yield


def many_desks(base):
    """Several desks behind one address aren't too many for nginx; far more are."""
    asked = ("curl", "-s", "-k", "-o", os.devnull, "-w", "%{http_code}", "-H", f"Desk-Key: {DESK_KEY}",
             "-H", "Request-Key: q", "-d", '["today"]', f"{base}/desk")
    for many, status in ((40, "200"), (70, "429")):
        with open_requests(base, many):
            told = subprocess.run(asked, capture_output=True, text=True, timeout=60, check=False).stdout
            need(f"an answer beside {many} others", told, status)


def no_key_is_logged(place):
    """What Caddy writes has no key, also where circ gives no answer."""
    for name in ("caddy.log", "caddy.err"):
        with open(f"{place}/{name}", encoding="utf-8") as file:
            text = file.read()
        need(f"{name} has what was asked", "/patrons/1" in text, True)
        need(f"keys in {name}", [it for it in ("cardkey", "wrongkey", DESK_KEY, "Request-Key") if it in text], [])
