"""The program serving a library over loopback, and the tools that ask it, as the scripts beside this one measure
it."""

import importlib.machinery
import importlib.util
import json
import os
import re
import signal
import socket
import subprocess
import sys
import tempfile

TOP = os.path.dirname(os.path.dirname(os.path.abspath(__file__)))
# the one built in this checkout, or else the one in bin
PROGRAM = subprocess.run([f"{TOP}/tools/program"], stdout=subprocess.PIPE, text=True, check=True).stdout.strip()
KEY = "deskkey00001"
# of one that asks for nothing that there is
NOWHERE = b"GET /nowhere HTTP/1.1\r\n\r\n"


def need_disk(folder):
    """Ends where a folder is in memory, in which no sync takes anything."""
    kind = subprocess.run(["stat", "-f", "-c", "%T", folder], stdout=subprocess.PIPE, text=True, check=True).stdout.strip()
    if kind in ("tmpfs", "ramfs"):
        sys.exit(f"bench: {folder} is in memory; TMPDIR is to name a folder on a disk")


def script(name):
    """A script beside this one, as a module."""
    loader = importlib.machinery.SourceFileLoader(f"bench_{name}", f"{TOP}/bench/{name}")
    module = importlib.util.module_from_spec(importlib.util.spec_from_loader(loader.name, loader))
    loader.exec_module(module)
    return module


def begin_library(path, lines):
    """Has the program begin a library with these commands."""
    for at, words in enumerate(lines):
        subprocess.run([PROGRAM, "file", path, f"g{at}", *words.split()], check=True, stdout=subprocess.DEVNULL)


def free_port():
    """A port on which nobody listens."""
    with socket.socket() as found:
        found.bind(("127.0.0.1", 0))
        return found.getsockname()[1]


def one_run(*words):
    """How long one run takes, in seconds, and the most memory that it holds, in MB."""
    run = subprocess.run([f"{TOP}/tests/tools/measured", os.devnull, PROGRAM, *words], stdout=subprocess.PIPE, check=True)
    took, most, status = run.stdout.split()
    if int(status):
        sys.exit(f"bench: {words} ended with {status}")
    return float(took), int(most) / 1024


def desk_request(key, words):
    """The bytes of a request of the desk."""
    body = json.dumps(words)
    return f"POST /desk HTTP/1.1\r\nDesk-Key: {KEY}\r\nRequest-Key: {key}\r\nContent-Length: {len(body)}\r\n\r\n{body}".encode()


def said(answer):
    """The reply that the bytes of an answer tell, or else their body."""
    body = answer.partition(b"\r\n\r\n")[2]
    return json.loads(body or b"{}").get("reply", body.decode())


def ab(url, at_once, seconds, card, beside=None):
    """Requests a second of one target with a card key, each a connection of its own, and the 99th percentile of a
    request in milliseconds, by ab: for so many seconds, or as long as another run lasts."""
    with tempfile.NamedTemporaryFile("r") as file:
        words = ["ab", "-q", "-l", "-t", str(seconds), "-n", "1000000", "-c", str(at_once), "-e", file.name, "-H", f"Card-Key: {card}", url]
        run = subprocess.Popen(words, stdout=subprocess.PIPE, stderr=subprocess.PIPE, text=True)
        if beside:
            beside.wait()
            run.send_signal(signal.SIGINT)
        told, failed = run.communicate()
        found = re.search(r"^99,([\d.]+)", file.read(), re.MULTILINE)
    if not found:
        sys.exit(f"bench: pages were not measured:\n{told}{failed}")
    if "Non-2xx" in told and not url.endswith("/nowhere"):
        sys.exit(f"bench: pages were refused:\n{told}")
    return float(re.search(r"Requests per second:\s+([\d.]+)", told)[1]), float(found[1])


def posted(run):
    """How much wrk posted, and how much a second, each of it accepted."""
    told, _ = run.communicate()
    if run.returncode or "Non-2xx" in told or "Socket errors" in told:
        sys.exit(f"bench: requests were refused:\n{told}")
    return int(re.search(r"(\d+) requests in", told)[1]), float(re.search(r"Requests/sec:\s+([\d.]+)", told)[1])


class Serving:
    """The program serving a library: with so many workers, each of which answers so many connections, under another
    program where one is named, and with a file of keys where that is."""

    def __init__(self, path, workers, each=1_000_000, before=(), key=KEY):
        self.port = free_port()
        self.path, self.url = path, f"http://127.0.0.1:{self.port}"
        words = [*before, PROGRAM, "serve", path, str(self.port), str(workers), str(each), key]
        # a session of its own, so that at the end both programs are killed
        self.run = subprocess.Popen(words, stdout=subprocess.PIPE, start_new_session=True)
        if not self.run.stdout.readline().startswith(b"listening on"):
            sys.exit("bench: the program does not serve")

    def __enter__(self):
        return self

    def __exit__(self, *_):
        if self.run.poll() is None:
            os.killpg(self.run.pid, signal.SIGKILL)
        self.run.wait()

    def answer(self, request):
        """The bytes that answer those of a request, over a connection of its own."""
        with socket.create_connection(("127.0.0.1", self.port)) as connection:
            connection.sendall(request)
            return b"".join(iter(lambda: connection.recv(65_536), b""))

    def ended(self):
        """Waits until the program has ended, as it does once all connections are answered."""
        if self.run.wait():
            sys.exit(f"bench: the program ended with {self.run.returncode}")

    def wrk(self, script_text, at_once, seconds):
        """Has wrk begin to post by a script, each request over a connection of its own, for so many seconds."""
        name = f"{self.path}.lua"
        with open(name, "w", encoding="utf-8") as file:
            file.write(script_text)
        words = ["wrk", "-t1", f"-c{at_once}", f"-d{seconds}s", "-s", name, self.url]
        return subprocess.Popen(words, stdout=subprocess.PIPE, text=True)

    def held(self):
        """The memory that the process holds, in KiB."""
        with open(f"/proc/{self.run.pid}/status", encoding="utf-8") as file:
            return int(re.search(r"VmRSS:\s+(\d+)", file.read())[1])
