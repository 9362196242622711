"""A program that serves the web, what it is asked, and a library for it: what the tests of the web have in common."""

import atexit
import functools
import http.client
import json
import os
import random
import re
import socket
import subprocess
import tempfile
import time

from lib.checking import check, need
from lib.messages import makes_library, message
from lib.runs import GROUND, IN_MEMORY, PROGRAM, say
from reference.outer_forms import read_keys

DESK_KEY = "deskkey00001"
ANN, BO = {"Card-Key": "cardkey00001"}, {"Card-Key": "cardkey00002"}
ANNS_PAGE = b'{"reply":"patron 1 owed 0 name Ann Bell"}'
PAGE_OF_ANN = b"GET /patrons/1 HTTP/1.1\r\nCard-Key: cardkey00001\r\n\r\n"


def free_port():
    """A port that nobody listens on. It is below those that connections get, so none of these takes it meanwhile."""
    while True:
        port = random.randrange(10_000, 32_768)
        with socket.socket() as found:
            try:
                found.bind(("127.0.0.1", port))
                return port
            except OSError:
                pass


PORTS = 20  # so many are tried, since another process may take one before the program does


def started(words_for, **how):
    """The program run by the words for a port, the port, and the first line that it printed. Where another process
    took that port meanwhile, the next one is tried."""
    for _ in range(PORTS):
        port = free_port()
        # not buffered here, so that what follows the first line is still there to be read
        run = subprocess.Popen([PROGRAM, *words_for(port)], bufsize=0, **{"stdout": subprocess.PIPE, "stderr": subprocess.PIPE, **how})
        # none is left behind where a test fails
        atexit.register(run.kill)
        first = run.stdout.readline().decode()
        if first != "fault network\n":
            break
        run.communicate(timeout=60)
    return run, port, first


class Serving:
    """The program serving a file for so many connections; at the end it has printed just these lines and has this
    status. Its workers serve as many each, so at the end the spare ones ask for nowhere: were they fewer or more, that
    would fail. No answer tells a key of the desk or a card key. Where there are clerks they are put in a file of keys
    beside the library, or they are those of the file that is named."""

    def __init__(self, path, connections, after="", status=0, workers=1, clerks=None, **how):
        self.after, self.status, self.how, self.heard = after, status, how, []
        file = clerks if clerks is None or isinstance(clerks, str) else put_keys(f"{path}.keys", clerks)
        self.keys = [DESK_KEY] if file is None else keys_in(file)
        desk_key = DESK_KEY if file is None else f"@{file}"
        each = -(-connections // workers)
        self.spare = each * workers - connections
        self.words_for = lambda port: ["serve", path, str(port), str(workers), str(each), desk_key]

    def __enter__(self):
        self.made = makes_library(self.words_for(1))
        self.run, self.port, first = started(self.words_for, **self.how)
        self.words = self.words_for(self.port)
        try:
            need("the first line", first, f"listening on {self.port}\n")
        except BaseException:
            self.end()
            raise
        return self

    def __exit__(self, kind, error, trace):
        try:
            if not kind:
                for _ in range(self.spare):
                    self.answers("GET", "/nowhere", {}, None, 404, b'{"status":404}')
                out, err = self.run.communicate(timeout=120)
                fault = re.search(r"^fault (\d+)$", self.after, re.M)
                said = message(self.words, self.after, made=self.made, closed=int(fault[1]) if fault else None)
                check("what it printed", (out.decode(), err, self.run.returncode), (self.after, said, self.status))
                check("keys in answers", [key for key in (*self.keys, "cardkey", "newkey") if key.encode() in b"\n".join(self.heard)], [])
        finally:
            self.end()

    def end(self):
        """Ends the program, if it is still there."""
        self.run.kill()
        self.run.wait()

    def ask(self, method, target, fields=None, body=None):
        """The status, the body and the fields of an answer, by http.client. One that is cut within its head is
        none."""
        connection = http.client.HTTPConnection("127.0.0.1", self.port, timeout=60)
        connection.request(method, target, body, fields or {})
        answer = connection.getresponse()
        given = answer.status, answer.read(), dict(answer.getheaders())
        connection.close()
        # a head that is cut has no such field, or one with nothing in it
        if given[2].get("Content-Length") != str(len(given[1])):
            raise http.client.IncompleteRead(given[1])
        self.heard += [given[1], str(given[2]).encode()]
        return given

    def answers(self, method, target, fields, body, status, answer):
        """Asks, and compares the answer."""
        found = self.ask(method, target, fields, body)
        check(f"{method} {target} {fields} {body}", found[:2], (status, answer))
        size = str(len(answer))
        wanted = {"Content-Type": "application/json", "Content-Length": size, "Connection": "close"}
        check(f"its fields {target}", {name: found[2].get(name) for name in wanted}, wanted)
        return found[2]

    def desk(self, key, words, shown=None):
        """What the desk is answered, by http.client; with the first of its keys where none is shown."""
        fields = {"Desk-Key": shown or self.keys[0], "Request-Key": key}
        return self.ask("POST", "/desk", fields, json.dumps(words))[:2]

    def curl(self, target, *options):
        """The status and the body of an answer, by curl."""
        url = f"http://127.0.0.1:{self.port}{target}"
        run = subprocess.run(["curl", "-s", "-m", "60", "-w", "\n%{http_code}", *options, url], capture_output=True, timeout=90)
        check(f"curl {target}", run.returncode, 0)
        body, _, status = run.stdout.rpartition(b"\n")
        self.heard.append(body)
        return int(status), body

    def raw(self, *pieces, pause=0.002):
        """All the bytes that pieces of a request are answered."""
        with socket.create_connection(("127.0.0.1", self.port), timeout=120) as peer:
            peer.setsockopt(socket.IPPROTO_TCP, socket.TCP_NODELAY, 1)
            for piece in pieces:
                peer.sendall(piece)
                time.sleep(pause)
            peer.shutdown(socket.SHUT_WR)
            self.heard.append(everything(peer))
            return self.heard[-1]


def put_keys(path, clerks, mode=0o600):
    """Writes a file of keys, of bytes or of clerks, and gives its path."""
    with open(path, "wb") as file:
        file.write(clerks if isinstance(clerks, bytes) else "".join(f"{name} {role} {key}\n" for name, role, key in clerks).encode())
    os.chmod(path, mode)
    return path


def keys_in(path):
    """The keys of a file of keys."""
    with open(path, "rb") as file:
        return [key for _, _, key in read_keys(file.read())[0]]


def everything(peer):
    """All that a peer sends up to its end."""
    found = b""
    while more := peer.recv(4096):
        found += more
    return found


def answer(status, body, allow=""):
    """The bytes of an answer."""
    return (f"HTTP/1.1 {status}\r\n{allow}Content-Type: application/json\r\nContent-Length: {len(body)}\r\n"
            f"Connection: close\r\n\r\n").encode() + body


def told(line):
    """The status and the body of the answer that tells a line of the desk."""
    if line.startswith("refused "):
        return 403 if line == "refused 81" else 409, f'{{"refusal":{line.split()[1]}}}'.encode()
    return 200, json.dumps({"reply": line}, ensure_ascii=False, separators=(",", ":")).encode()


def body_of_hold(words):
    """The body by which a patron asks for the hold of these words."""
    _, _, title, branch, *days = words
    return json.dumps({"branch": int(branch), **{"from": day for day in days}, "title": int(title)}).encode()


def by_patron(patron, card_key, key, words):
    """The method, the target, the fields and the body by which a patron asks for what these words say: by the route of
    patrons that is for them, else by the desk's, which the card key doesn't open."""
    fields, own = {"Card-Key": card_key, "Request-Key": key}, f"/patrons/{patron}"
    if words[0] == "page":
        return "GET", f"/patrons/{words[1]}", {"Card-Key": card_key}, None
    if words[0] in ("place-hold", "place-hold-from"):
        return "POST", f"/patrons/{words[1]}/holds", fields, body_of_hold(words)
    if words[0] in ("cancel-hold", "renew"):
        return "POST", f"{own}/holds/{words[1]}/cancel" if words[0] == "cancel-hold" else f"{own}/loans/{words[1]}/renew", fields, None
    return "POST", "/desk", fields, json.dumps(words).encode()


@functools.cache
def ground():
    """The bytes of the small library, which the program makes once for a script."""
    with tempfile.TemporaryDirectory(dir=IN_MEMORY) as folder:
        path = os.path.join(folder, "ground.db")
        say(path, GROUND)
        # a log with less has no page
        check("the log of the small library", os.path.exists(f"{path}-wal") and os.path.getsize(f"{path}-wal") >= 512,
              False)
        with open(path, "rb") as file:
            return file.read()


def a_library(folder, name):
    """The small library that all begin with."""
    path = os.path.join(folder, name)
    with open(path, "wb") as file:
        file.write(ground())
    return path


HOLD = b'{"branch":1,"title":100}'
FAILED = answer("400 Bad Request", b'{"status":400}')


def hold_with(body, length=None, key=b"h1"):
    """Bo's request for a hold with this body."""
    size = str(len(body) if length is None else length).encode()
    return (b"POST /patrons/2/holds HTTP/1.1\r\nCard-Key: cardkey00002\r\nRequest-Key: " + key + b"\r\nContent-Length: " + size + b"\r\n\r\n" + body)


def is_let_go(peer):
    """Whether the other end of a connection has let go of it, and sent nothing."""
    peer.setblocking(False)
    try:
        return peer.recv(1, socket.MSG_PEEK) == b""
    except BlockingIOError:
        return False
    finally:
        peer.settimeout(120)
