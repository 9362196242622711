"""A server before the pages in tests: it hands out the pages with the header of docs/operations, and answers what they
ask as a test says."""

import json
import os
import threading
import time
from http.server import BaseHTTPRequestHandler, ThreadingHTTPServer

TYPES = {".html": "text/html; charset=utf-8", ".js": "text/javascript", ".css": "text/css",
         ".svg": "image/svg+xml"}


def reply(text, seconds=0.0):
    return seconds, 200, json.dumps({"reply": text})


def refusal(number, seconds=0.0):
    return seconds, 403 if number == 81 else 409, json.dumps({"refusal": number})


def fault(number, seconds=0.0):
    return seconds, 503, json.dumps({"fault": number})


UNKNOWN = (0.0, 404, json.dumps({"status": 404}))
BRANCHES = "branch 1 pickup 5 week ooooooc name branch 1\nbranch 2 pickup 5 week ooooooc name branch 2\nend"
NOTHING = None  # the connection is closed with no answer
PAGE = {"1": "patron 1 owed 0 name Ann Bell", "4": "patron 4 owed 0 name Di Eck"}


def answers(table, seconds=0.0):
    """Answers by the words that a request begins with; each list is used up to its last, which stays."""
    left = {words: list(found) if isinstance(found, list) else [found] for words, found in table.items()}

    def answer(what):
        for words, found in left.items():
            if what == words or what.startswith((f"{words} ", f"{words}/")):
                told = found.pop(0) if len(found) > 1 else found[0]
                return (told[0] or seconds, *told[1:]) if told else NOTHING
        if what == "today":
            return UNKNOWN
        if what == "branches 0":
            return reply(BRANCHES)
        if what.startswith("find-barcode "):
            return refusal(18)
        if what.startswith("shelf "):
            return reply("      hold    copy  patron until      title\nend", seconds)
        if what.startswith("copy "):
            return reply(f"copy {what.split()[1]} home 1 kind 1 price 100 title 7 Tides\nshelf 1", seconds)
        if what.startswith("page ") and what.split()[1] in PAGE:
            return reply(PAGE[what.split()[1]], seconds)
        return refusal(13, seconds)
    return answer


class FakeDesk:
    """`answer(what)` gives a time, a status and a body for the words of a desk's request, or for the method and the
    path of a patron's; `sent` is what came. A time is in seconds, or an event that is waited for. The library's day
    and its branches are asked at any time, and whose a barcode is before each scan, so they aren't among what came;
    the day is answered where a test doesn't."""

    def __init__(self, pages):
        self.files = []  # the paths of files that were asked for
        self.day, self.pages, self.sent, self.answer = time.strftime("%Y-%m-%d"), pages, [], lambda what: UNKNOWN
        handler = type("Handler", (Handler,), {"fake": self})
        self.server = ThreadingHTTPServer(("127.0.0.1", 0), handler)
        self.url = f"http://127.0.0.1:{self.server.server_address[1]}"
        threading.Thread(target=self.server.serve_forever, daemon=True).start()

    def says(self, answer):
        """From now on this is answered, and what was sent before is forgotten."""
        self.sent.clear()
        self.answer = answer

    def words(self):
        return [what for what, _ in self.sent]

    def keys(self):
        return [key for _, key in self.sent]


class Handler(BaseHTTPRequestHandler):
    fake = None

    def do_GET(self):
        if self.path.startswith("/patrons/"):
            return self.asked(f"GET {self.path}")
        self.fake.files.append(self.path)
        if not self.path.startswith("/pages/"):
            return self.tell(404, b"", "text/html")
        name = os.path.basename(self.path)
        with open(os.path.join(self.fake.pages, name), "rb") as file:
            return self.tell(200, file.read(), TYPES[os.path.splitext(name)[1]])

    def do_POST(self):
        body = self.rfile.read(int(self.headers["Content-Length"] or 0)).decode()
        self.asked(" ".join(json.loads(body)) if self.path == "/desk" else f"POST {self.path} {body}".strip())

    def asked(self, what):
        if what not in ("today", "branches 0") and not what.startswith("find-barcode "):
            self.fake.sent.append((what, self.headers["Request-Key"]))
        answer = self.fake.answer(what)
        if what == "today" and answer == UNKNOWN:
            answer = reply(f"today {self.fake.day}")
        if answer is NOTHING:
            self.close_connection = True
            return
        if isinstance(answer[0], threading.Event):
            answer[0].wait(30)
        else:
            time.sleep(answer[0])
        self.tell(answer[1], answer[2].encode(), "application/json")

    def tell(self, status, body, kind):
        try:
            self.send_response(status)
            self.send_header("Content-Type", kind)
            self.send_header("Content-Length", str(len(body)))
            self.send_header("Content-Security-Policy", "default-src 'self'")
            self.send_header("Cache-Control", "no-store")
            self.end_headers()
            self.wfile.write(body)
        except ConnectionError:
            pass  # the page has left meanwhile

    def log_message(self, *_):
        pass
