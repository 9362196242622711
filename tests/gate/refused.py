#!/usr/bin/env python3
"""The program where it is refused memory, or room on the disk: it ends with `fault 90` or `fault 91`, what was told is
there and nothing else, and it goes on once there is more.

    tests/gate/refused.py            a fixed sample of the places where it is refused
    tests/gate/refused.py --all      each of them

One request for memory is refused by a library of C (tests/data/refuse.c) that is loaded into the program first: of
scripts on a library in memory (a test of crates/desk_tests), of runs on files, and of a program that serves; one
thread of that; and limits of time on its sockets. Limits of the system on memory and on the size of files refuse all
from some place on.
"""

import http.client
import json
import os
import resource
import shutil
import signal
import socket
import subprocess
import sys
import tempfile
import time
from collections import Counter
from concurrent.futures import ThreadPoolExecutor

from room import TOP
from lib.checking import check, need, part, run_script
from lib.messages import DISK, FREE, message
from lib.runs import GROUND, HEADER, PROGRAM, rows, say, the_rows_are, whole
from lib.serving import ANNS_PAGE, DESK_KEY, PAGE_OF_ANN, answer, everything, put_keys, started
from reference.desk_rules import Library
from migrate import DONE, HOLDS, led_up, schema_of, stages, with_many_rows

STEP = 64 * 1024
PAGE = 4096  # bytes of a page of a library's file
SAMPLE = 24  # how many limits of the system are tried where not each is
TESTS = f"{TOP}/crates/desk_tests/out/desk_tests_tests"
SCRIPTS = "refusals::scripts_go_on_after_refused_memory"
FAILED = 101  # the status of a test that fails
FOUND_WRONG = (b"wrong", b"an answer")  # what it tells then, but where it had no memory itself


def under(words, kind, limit, **how):
    """One run under a limit. SIGXFSZ is ignored, as a supervisor of services has it, so that a write past the limit
    fails and doesn't kill."""

    def before():
        signal.signal(signal.SIGXFSZ, signal.SIG_IGN)
        resource.setrlimit(kind, (limit, limit))

    return subprocess.run([PROGRAM, *words], preexec_fn=before, capture_output=True, timeout=300, check=False, **how)


def copied(path, to):
    for end in ("", "-wal"):
        if os.path.exists(path + end):
            shutil.copy(path + end, to + end)
        elif os.path.exists(to + end):
            os.remove(to + end)


class Refusing:
    """The library that refuses one request for memory, built, with the file in which it counts them."""

    def __init__(self, folder):
        self.library, self.file = os.path.join(folder, "refuse.so"), os.path.join(folder, "count")
        subprocess.run(["cc", "-O2", "-shared", "-fPIC", "-o", self.library, f"{TOP}/tests/data/refuse.c"], check=True)

    def how(self, number):
        """The environment of a run of which this request is refused; none for 0."""
        with open(self.file, "wb") as file:
            file.write(bytes(16))
        return {**os.environ, "LD_PRELOAD": self.library, "REFUSE": str(number), "COUNT": self.file}

    def run(self, words, number):
        return subprocess.run(words, env=self.how(number), capture_output=True, timeout=300, check=False)

    def count(self):
        """How many requests for memory there were."""
        with open(self.file, "rb") as file:
            return int.from_bytes(file.read(8), sys.byteorder)

    def refuse_first_thread(self):
        """Refuses every request for memory of the program's first thread from now on."""
        with open(self.file, "r+b") as file:
            file.seek(8)
            file.write(b"\1")


def places(count, many, everything):
    """Which requests for memory are refused, of so many: each, or some of them all over the run."""
    step = 1 if everything else max(1, count // many)
    return range(1 + step // 2, count + 1, step)


def scripts_in_memory(refusing, everything):
    """Scripts on libraries in memory: a request that is refused memory leaves every row as it was, and is answered
    when it is asked again; at the end the rows are the same. The test compares, and prints them."""
    if not os.path.isfile(TESTS):
        subprocess.run(["rt", "test"], cwd=f"{TOP}/crates/desk_tests", stdin=subprocess.DEVNULL, stdout=subprocess.DEVNULL, stderr=subprocess.DEVNULL, check=False)
    plain = refusing.run([TESTS, SCRIPTS], 0)
    check("the scripts, with memory", (plain.returncode, plain.stdout.count(b"|ok|") > 80, plain.stderr), (0, True, b"refused: 0\n"))
    count, told = refusing.count(), Counter()

    def one(number):
        return number, subprocess.run([TESTS, SCRIPTS], env={**os.environ, "LD_PRELOAD": refusing.library, "REFUSE": str(number)}, capture_output=True, timeout=300, check=False)

    with ThreadPoolExecutor(os.cpu_count()) as pool:
        for number, run in pool.map(one, places(count, 300, everything)):
            # the test's own work had no memory, or the rows are the same, be it a request's of the desk that was
            # refused or nobody's who noticed
            own = "the test's own" if run.returncode == FAILED and not any(it in run.stderr for it in FOUND_WRONG) and plain.stdout.startswith(run.stdout) else ""
            ends = {(0, plain.stdout, b"refused: 1\n"): "a request's of the desk, asked again", (0, plain.stdout, b"refused: 0\n"): "nobody's"}
            what = own or ends.get((run.returncode, run.stdout, run.stderr), "")
            check(f"the end of the scripts, request {number} refused: {what or run}", what != "", True)
            told[what] += 1
    check("requests of the desk were refused memory", told["a request's of the desk, asked again"] > 50, True)
    print(f"refused: {told.total()} of {count} requests for memory of the scripts: {dict(told)}")


def one_request_in_a_file(folder, refusing, everything):
    """Runs on a file: where one request for memory is refused the run is answered all the same, or ends with a fault,
    and then the rows are those before it; sent again it acts once."""
    base, path = os.path.join(folder, "ground.db"), os.path.join(folder, "one.db")
    say(base, GROUND + [("a1", ["place-hold", "2", "100", "1"], "hold 1"), ("a2", ["check-out", "2", "11", "1"], "loan 1 due 2026-03-09")])
    before, told = whole(base), Counter()
    for words, line in ((["check-in", "11", "2"], "fine 0 transit 1"), (["place-hold", "3", "100", "2"], "hold 2"), (["place-hold-from", "3", "100", "2", "2026-03-05"], "hold 2"),
                        (["grace", "1", "1", "2"], "ok"), (["renew", "1"], "loan 1 due 2026-03-16"), (["page", "2"], None),
                        (["copy", "11"], None), (["copies", "100", "0"], None), (["pulls", "1", "0"], None), (["account", "2", "0"], None)):
        run_words = ["file", path, "k1", *words]
        copied(base, path)
        plain = refusing.run([PROGRAM, *run_words], 0)
        check(f"{words}", (plain.returncode, line in (None, plain.stdout.decode()[:-1])), (0, True))
        after = whole(path)
        # the first ones, too, which are for the words of the run
        for number in sorted({*range(1, 9), *places(refusing.count(), 40, everything)}):
            copied(base, path)
            run = refusing.run([PROGRAM, *run_words], number)
            where, found = f"{words}, request {number} refused", (run.stdout, run.returncode, whole(path))
            # a fault leaves the rows before the request, or with it where it came at the end
            ends = [(plain.stdout, 0, after), *((f"fault {fault}\n".encode(), 3, left) for fault in (90, 91) for left in (before, after))]
            check(f"the end of {where}: {found[:2]}", found in ends, True)
            told[run.stdout.decode().strip() if run.returncode else "none"] += 1
            again = subprocess.run([PROGRAM, *run_words], capture_output=True, timeout=300, check=False)
            check(f"again after {where}", (again.returncode, again.stdout), (0, plain.stdout))
            check(f"the rows then, {where}", whole(path), after)
    check("both faults came", told["fault 90"] > 0 and told["fault 91"] > 0, True)
    print(f"refused: one request for memory of a run: {dict(told)}")


def ends_of(base):
    """How a migration of a library may end where it is refused something: the line, the status and the rows, which are
    the newest or, after a fault, those that some of the steps leave."""
    *earlier, last = stages(whole(base))
    return [(f"{DONE}\n", 0, last), *((f"fault {fault}\n", 3, left) for fault in (90, 91) for left in earlier)]


def schema_left(path):
    """The schema that the file is of, for a count."""
    return f"schema {rows(path, 'SELECT schema FROM meta')[0][0]}"


def one_request_of_a_migration(folder, refusing, everything):
    """A migration of which one request for memory is refused: it is made all the same, or ends with a fault and leaves
    the rows of before or of a whole step; run again it is made."""
    for name in HOLDS:
        base, path, told = with_many_rows(os.path.join(folder, f"{name}.db"), name), os.path.join(folder, "migrated.db"), Counter()
        words, ends, after = ["migrate", path], ends_of(base), led_up(whole(base))
        copied(base, path)
        plain = refusing.run([PROGRAM, *words], 0)
        check("the migration, with memory", (plain.stdout.decode(), plain.returncode, whole(path)), ends[0])
        for number in places(refusing.count(), 80, everything):
            copied(base, path)
            run = refusing.run([PROGRAM, *words], number)
            where, found = f"the migration of {name}, request {number} refused", (run.stdout.decode(), run.returncode, whole(path))
            check(f"the end of {where}: {found[:2]}", found in ends, True)
            told[f"{found[0].strip()}, left {schema_left(path)}"] += 1
            again = subprocess.run([PROGRAM, *words], capture_output=True, timeout=300, check=False)
            check(f"again after {where}", (again.returncode, again.stdout.decode(), whole(path)), (0, f"{DONE}\n", after))
        left = {it.split(", left ")[1] for it in told if it.startswith("fault")}
        check("migrations were refused memory at each step", left, {f"schema {schema_of(it)}" for it in stages(whole(base))[:-1]})
        print(f"refused: one request for memory of a migration of {name}: {dict(told)}")


def end_of(run, port):
    """What a program that serves still prints and its status, once its last connections are taken up by clients that
    ask for nothing."""
    began = time.monotonic()
    while run.poll() is None and time.monotonic() - began < 120:
        try:
            socket.create_connection(("127.0.0.1", port), timeout=60).close()
        except OSError:
            time.sleep(0.05)
    out, _ = run.communicate(timeout=60)
    return out.decode().splitlines(), run.returncode


NO_ANSWER = "fault network\n"


def fault_answers(*numbers):
    return [f'{{"fault":{it}}}\n' for it in numbers]


class RefusedWeb:
    """A program that serves two workers with three connections each, of which one request for memory is refused, and
    what it answered to the requests."""

    def __init__(self, refusing, base, path, number, requests):
        self.number, self.requests, self.answers, self.met = number, requests, [], None

        def words_for(port):
            copied(base, path)
            return ["serve", path, str(port), "2", "3", DESK_KEY]

        run, port, self.first = started(words_for, env=refusing.how(number))
        self.begun = before = refusing.count()
        if self.first == f"listening on {port}\n":
            for key, words, _ in requests:
                sent = subprocess.run([PROGRAM, "send", str(port), DESK_KEY, key, *words], capture_output=True, timeout=120, check=False)
                now = refusing.count()
                if before < number <= now:
                    self.met = len(self.answers)
                self.answers.append(sent.stdout.decode())
                before = now
        self.lines, self.status = end_of(run, port)
        self.is_closed = self.lines in (["fault 90"], ["fault 91"])

    def ends(self):
        """How it may end: its first line, whether it answered, the lines after that, and the status."""
        answered, printed = bool(self.answers), (self.lines, self.status)
        if not answered:
            return self.first in ("fault 90\n", "fault 91\n", "fault 92\n") and printed == ([], 3)
        return printed in (([], 0), (["fault 90"], 3), (["fault 91"], 3), (["fault threads"], 3))

    def due(self, plain, page_before):
        """What each request may be answered: its reply, save the one at which memory was refused, and those after it
        where that closed the web, or a thread less has none for the last. A page is the one with the first request's
        row, if that got its reply."""
        found = []
        for at, ((_, words, _), wanted) in enumerate(zip(self.requests, plain)):
            is_page, is_met = words[0] == "page", at == self.met
            pages = [wanted] if self.answers[:1] == plain[:1] else [wanted, page_before]
            right = pages if is_page else [wanted]
            if self.lines == ["fault threads"]:
                found.append([NO_ANSWER] if at == 3 else right)
            elif is_met:
                found.append(right + fault_answers(90, 91, 92) + [NO_ANSWER])
            elif self.is_closed and (self.met is None or at > self.met) and not is_page:
                found.append(fault_answers(92))
            else:
                found.append(right)
        return found


def one_request_of_the_web(folder, refusing, everything):
    """A program that serves, of which one request for memory is refused: what is sent is answered with its reply. Only
    the request at which that memory was wanted is told a fault, or gets no answer; where the fault closed the web,
    what is submitted later is told 92, and the program ends with that fault; else it ends as ever. After a restart
    each is sent again under its key, and all is there once."""
    base, path, told = os.path.join(folder, "ground.db"), os.path.join(folder, "web.db"), Counter()
    requests = [("s0", ["check-out", "1", "10", "1"], '{"reply":"loan 2 due 2026-03-09"}\n'), ("s1", ["place-hold", "3", "200", "1"], '{"reply":"hold 2"}\n'),
                ("s2", ["page", "1"], None), ("s3", ["acquire", "77", "700", "1", "1", "900", "Tall Ships"], '{"reply":"ok"}\n')]
    page_before = '{"reply":"patron 1 owed 0 name Ann Bell"}\n'
    calm = RefusedWeb(refusing, base, path, 0, requests)
    plain, count = calm.answers, refusing.count()
    check("what is answered", [wanted in (None, found) for (_, _, wanted), found in zip(requests, plain)], [True] * len(requests))
    check("the end of the web", (calm.lines, calm.status), ([], 0))
    after = whole(path)
    for number in [*places(calm.begun, 20, everything), *(calm.begun + it for it in places(count - calm.begun, 60, everything))]:
        web, where = RefusedWeb(refusing, base, path, number, requests), f"the web, request {number} refused"
        check(f"the end of {where}: {web.first} {web.lines} {web.status}", web.ends(), True)
        told["no web" if not web.answers else " ".join(web.lines) or "the web went on"] += 1
        for (key, words, _), found, due in zip(requests, web.answers, web.due(plain, page_before)):
            check(f"{key} {words}, {where}, {web.met} {web.lines}: {found!r} is not of {due}", found in due, True)
            told["replies" if found.startswith('{"reply":') else found.strip()] += 1
        for (key, words, _), wanted in zip(requests, plain):
            again = subprocess.run([PROGRAM, "file", path, key, *words], capture_output=True, timeout=60, check=False).stdout.decode()
            check(f"{key} {words} after {where}", json.dumps({"reply": again[:-1]}, ensure_ascii=False, separators=(",", ":")) + "\n", wanted)
        check(f"the rows after {where}", whole(path), after)
    print(f"refused: one request for memory of the web: {dict(told)}")
    closed = told["fault 90"] + told["fault 91"]
    check("the web wasn't opened, was closed and went on", min(told["no web"], closed, told["the web went on"]) > 0, True)
    check("requests were told 90 or 91, and later ones 92", (told['{"fault":90}'] + told['{"fault":91}'] > 0, told['{"fault":92}'] > 0), (True, True))


def routes_without_memory(folder, refusing):
    """A worker makes its routes for its first connection, and again for the next where there was no memory. Each
    request for memory of the first two connections is refused once: that one is told 90, or its page where the program
    can do without, and never nothing; the others get their page. The first has more to be refused, the routes."""
    path, due, told = os.path.join(folder, "routes.db"), {answer("200 OK", ANNS_PAGE): "page", answer("503 Service Unavailable", b'{"fault":90}'): "90"}, Counter()
    say(path, GROUND)

    def looks(number):
        run, port, first = started(lambda port: ["serve", path, str(port), "1", "3", DESK_KEY], env=refusing.how(number))
        need(f"the port, request {number} refused", first, f"listening on {port}\n")
        counts, found = [refusing.count()], []
        for _ in range(3):
            try:
                with socket.create_connection(("127.0.0.1", port), timeout=60) as peer:
                    peer.sendall(PAGE_OF_ANN)
                    found.append(due.get(everything(peer), "another answer, or none"))
            except ConnectionError:
                found.append("refused, or reset")
            counts.append(refusing.count())
        return counts, found, end_of(run, port)

    (begun, first, second, _), found, end = looks(0)
    check("the pages, with memory", (found, end), (["page"] * 3, ([], 0)))
    for number in range(begun + 1, second + 1):
        _, found, end = looks(number)
        if end == (["fault threads"], 3):
            continue
        at = int(number > first)
        told[at] += found[at] == "90"
        check(f"the pages, request {number} refused: {found} {end}", (found[at] in due.values(), found[:at] + found[at + 1 :], end), (True, ["page"] * 2, ([], 0)))
    check(f"more was told 90 where the routes were to be made: {dict(told)}", told[0] > told[1] > 0, True)
    print(f"refused: memory of a worker's first two connections: {second - begun} requests, told 90 at {told[0]} and {told[1]}")


def a_board_that_cannot_grow(folder, refusing):
    """A check-out that is committed while the board finds no memory for it: it is told 92, and so is what is submitted
    later; a page is as before; and a new program answers its key with the kept reply, of one loan. Each request for
    memory of the check-out is refused, the last one first, until that is met."""
    base, path = os.path.join(folder, "board_ground.db"), os.path.join(folder, "board.db")
    say(base, GROUND)
    lent, page = '{"reply":"loan 1 due 2026-03-09"}\n', '{"reply":"patron 2 owed 0 name Bo Carr"}\n'
    requests = [("c1", ["check-out", "1", "10", "1"], lent), ("c2", ["acquire", "77", "700", "1", "1", "900", "Tall Ships"], None), ("c3", ["page", "2"], page)]
    calm = RefusedWeb(refusing, base, path, 0, requests[:1])
    check("the check-out, with memory", calm.answers, [lent])
    met = 0
    for number in range(refusing.count(), calm.begun, -1):
        web = RefusedWeb(refusing, base, path, number, requests)
        if web.met != 0 or web.answers[0] != fault_answers(92)[0]:
            continue
        met += 1
        where = f"the board, request {number} refused"
        check(f"what is told, {where}", web.answers, [*fault_answers(92, 92), page])
        check(f"the end, {where}", (web.is_closed, web.status), (True, 3))
        again = RefusedWeb(refusing, path, path + ".new", 0, requests)
        check(f"what a new program answers, {where}", again.answers, [lent, '{"reply":"ok"}\n', page])
        check(f"the loans, {where}", rows(path + ".new", "SELECT COUNT(*) FROM loans3"), [(1,)])
        if met == 3:
            break
    check("the board could not grow after a commit", met > 0, True)


def keys_without_memory(folder, refusing):
    """A file of keys that is read while a request for memory is refused is told as 90 and never as a bad one, and no
    library is made then; with memory all goes on, up to the port that is taken or on which nobody listens."""
    path, absent, told = os.path.join(folder, "desk.keys"), os.path.join(folder, "absent.db"), Counter()
    put_keys(path, [(f"{at:04}{'n' * 12}", "desk", f"{at:04}{'k' * 28}") for at in range(99)])
    with socket.socket() as taken:
        taken.bind(("127.0.0.1", 0))
        port, most = str(taken.getsockname()[1]), 0
        for words in (["send", port, f"@{path}", "q", "today"], ["serve", absent, port, "1", "1", f"@{path}"]):
            plain = refusing.run([PROGRAM, *words], 0)
            check(f"{words[0]}, with memory", (plain.stdout, plain.returncode), (b"fault network\n", 3))
            # what a run that serves asks for later is for the library's file, which other parts refuse
            most = most or refusing.count()
            for number in range(1, most + 1):
                for end in ("", "-wal"):
                    if os.path.exists(absent + end):
                        os.remove(absent + end)
                run = refusing.run([PROGRAM, *words], number)
                ends = [(f"fault {it}\n".encode(), 3) for it in ("90", "network", *["91"] * (words[0] == "serve" and os.path.exists(absent)))]
                check(f"{words[0]}, request {number} refused: {run.stdout}", (run.stdout, run.returncode) in ends, True)
                told[words[0], run.stdout.decode().strip(), os.path.exists(absent)] += 1
    check("the file was read without memory", (told["send", "fault 90", False] > 0, told["serve", "fault 90", False] > 0), (True, True))
    print(f"refused: one request for memory while a file of keys is read: {dict(told)}")


def missing_threads(folder, refusing):
    """A program that serves with so many workers, of which one gets no thread: it leaves at once, the others serve
    their connections, and a line tells it at the end."""
    base, path = os.path.join(folder, "ground.db"), os.path.join(folder, "threads.db")
    for workers in (1, 2, 8):
        for missing in sorted({1, workers}):
            copied(base, path)
            where, how = f"thread {missing} of {workers} missing", {**refusing.how(0), "THREAD": str(missing)}
            run, port, first = started(lambda port: ["serve", path, str(port), str(workers), "2", DESK_KEY], env=how)
            need(f"the port, {where}", first, f"listening on {port}\n")
            for at in range(2 * (workers - 1)):
                words = ["acquire", str(800 + at), "700", "1", "1", "900", "Tall Ships"]
                sent = subprocess.run([PROGRAM, "send", str(port), DESK_KEY, f"t{at}", *words], capture_output=True, timeout=60, check=False)
                check(f"request {at}, {where}", sent.stdout.decode(), '{"reply":"ok"}\n')
            out, _ = run.communicate(timeout=60)
            check(f"the end, {where}", (out.decode(), run.returncode), ("fault threads\n", 3))
            check(f"the rows, {where}", rows(path, "SELECT COUNT(*) FROM copies WHERE copy >= 800"), [(2 * (workers - 1),)])


def sockets_without_a_limit(folder, refusing):
    """A program that serves, where a socket takes no limit of time for reading, or none for writing: such a client
    could hold up a worker for ever, so it gets no answer, nothing is done for it, and it counts as one of the
    connections."""
    base, path = os.path.join(folder, "ground.db"), os.path.join(folder, "limits.db")
    for name in ("SO_RCVTIMEO", "SO_SNDTIMEO"):
        copied(base, path)
        where, before, how = f"{name} refused", whole(base), {**refusing.how(0), "OPTION": str(getattr(socket, name))}
        run, port, first = started(lambda port: ["serve", path, str(port), "1", "2", DESK_KEY], env=how)
        need(f"the port, {where}", first, f"listening on {port}\n")
        for key in ("l1", "l2"):
            sent = subprocess.run([PROGRAM, "send", str(port), DESK_KEY, key, "branch", "3", "5", "Hill"], capture_output=True, timeout=60, check=False)
            check(f"request {key}, {where}", (sent.stdout.decode(), sent.returncode), (NO_ANSWER, 3))
        out, _ = run.communicate(timeout=60)
        check(f"the end, {where}", (out.decode(), run.returncode), ("", 0))
        check(f"the rows, {where}", whole(path), before)


def begins(limit):
    """Whether the system can begin a run under this limit of memory at all: one that opens nothing says that its words
    are not understood."""
    return under(["nothing"], resource.RLIMIT_AS, limit).stdout == b"words not understood\n"


def least(holds, low, high, step=STEP):
    """The least multiple of a step between the two for which something holds, which goes on to hold above it."""
    while high - low > step:
        middle = (low + high) // 2 // step * step
        low, high = (low, middle) if holds(middle) else (middle, high)
    return high


def chosen(limits, everything):
    return limits if everything else limits[:: max(1, len(limits) // SAMPLE)]


def memory(folder, everything):
    """`file` and `import` under falling limits of memory, from one that is ample down to one under which the program
    can't begin."""
    base, path, copies = (os.path.join(folder, it) for it in ("base.db", "small.db", "copies.csv"))
    say(base, GROUND)
    books = "".join(f"{copy},500,Maps of the North,1,1,1500,end\n" for copy in range(1000, 1300))
    with open(copies, "w", encoding="utf-8") as file:
        file.write(HEADER + books)
    before = whole(base)
    whole_runs = {"file": (["file", path, "k1", "check-out", "1", "10", "1"], "loan 1 due 2026-03-09\n", 0),
                  "import": (["import", path, copies], "".join(f"row {n} ok\n" for n in range(1, 301)) + "accepted 300 refused 0\n", 0)}
    lowest = least(begins, STEP, 2**31)
    told = Counter()
    for name, (words, lines, status) in whole_runs.items():

        def is_done(limit):
            copied(base, path)
            return under(words, resource.RLIMIT_AS, limit).returncode == status

        enough = least(is_done, lowest, 2**31)
        for limit in chosen(range(lowest, enough + 4 * STEP, STEP), everything):
            copied(base, path)
            run = under(words, resource.RLIMIT_AS, limit)
            out, where = run.stdout.decode(), f"{name} under {limit} bytes of memory"
            done = out.count(" ok\n")
            # the whole, or the lines of some rows and a fault; nothing is there but what was told
            front = "".join(f"row {n} ok\n" for n in range(1, done + 1))
            faults = {text: fault for fault in ("fault 90", "fault 91") for text in (f"{fault}\n", f"{front}{fault}\naccepted {done} refused 0\n")}
            check(f"the end of {where}: {run}", (out, run.returncode) in [(lines, status), *((text, 3) for text in faults)], True)
            found = whole(path)
            others = {**found, **{table: before[table] for table in ("copies", "titles", "kept", "loans3", "meta")}}
            check(f"the other rows after {where}", others, before)
            is_lent = out == lines and name == "file"
            more = [len(found[table]) - len(before[table]) for table in ("copies", "titles", "kept", "loans3")]
            check(f"the rows after {where}", (more, found["meta"] != before["meta"]), ([done, int(done > 0), done + is_lent, int(is_lent)], is_lent))
            told[faults.get(out, "the whole")] += 1
            again = subprocess.run([PROGRAM, *words], capture_output=True, timeout=300, check=False)
            check(f"again after {where}", (again.stdout.decode(), again.returncode), (lines, status))
    check("runs were refused memory", told["fault 90"] + told["fault 91"] > 4, True)
    print(f"refused: memory: {dict(told)}")


def acquiring(n):
    """The words that acquire a copy, of a title of its own with nearly as many letters as one may have."""
    return ["acquire", str(2000 + n), str(2000 + n), "1", "1", "900", f"A title of number {n}" + " and so on" * 8]


def acquired(port, numbers):
    """What is answered to requests that acquire copies."""
    answers = []
    for n in numbers:
        connection = http.client.HTTPConnection("127.0.0.1", port, timeout=120)
        try:
            connection.request("POST", "/desk", json.dumps(acquiring(n)), {"Desk-Key": DESK_KEY, "Request-Key": f"s{n}"})
            answers.append(connection.getresponse().read().decode() + "\n")
        except (OSError, http.client.HTTPException):
            answers.append(NO_ANSWER)
        finally:
            connection.close()
    return answers


OK = '{"reply":"ok"}\n'


def are_right(answers, lines, status, where):
    """Each answer is the one that is due or a fault, or there is none; once a fault closed the web all are told 92;
    and the program ends with that fault, or as ever."""
    told = [it for it in lines if it != "fault threads"]
    check(f"the end of {where}: {lines}", (told in ([], ["fault 90"], ["fault 91"]), lines.count("fault threads") < 2, status), (True, True, 3 if lines else 0))
    others = [it for it in answers if it not in (OK, NO_ANSWER, *fault_answers(90, 91, 92))]
    check(f"other answers of {where}", others, [])
    first = next((at for at, it in enumerate(answers) if it in fault_answers(92)), len(answers))
    check(f"what comes after 92, {where}", [it for it in answers[first:] if it not in (NO_ANSWER, *fault_answers(92))], [])


def are_repeated(path, answers, where):
    """What got a reply is there, and nothing that wasn't asked for; and all is answered under the same keys, by a
    program with memory, and is there once."""
    copies = [copy for (copy,) in rows(path, "SELECT copy FROM copies WHERE copy >= 2000 ORDER BY copy")]
    told = [2000 + n for n, it in enumerate(answers) if it == OK]
    check(f"what was told is there, {where}", [it for it in told if it not in copies], [])
    run, port, first = started(lambda port: ["serve", path, str(port), "1", str(len(answers)), DESK_KEY])
    need(f"the port after {where}", first, f"listening on {port}\n")
    check(f"the same keys after {where}", acquired(port, range(len(answers))), [OK] * len(answers))
    check(f"the end after {where}", end_of(run, port), ([], 0))
    copies = [copy for (copy,) in rows(path, "SELECT copy FROM copies WHERE copy >= 2000 ORDER BY copy")]
    check(f"each is there once after {where}", copies, [2000 + n for n in range(len(answers))])


def serving_memory(folder, everything):
    """`serve` under falling limits of memory: it listens, or ends with a fault; where it listens each answer is the
    one that is due, or a fault. What got a reply is there, and all is answered afterwards under the same keys."""
    base, path = os.path.join(folder, "base.db"), os.path.join(folder, "served.db")
    lowest, told = least(begins, STEP, 2**31), Counter()

    def serve(limit):
        def words_for(port):
            copied(base, path)
            return ["serve", path, str(port), "2", "4", DESK_KEY]

        run, port, first = started(words_for, preexec_fn=lambda: resource.setrlimit(resource.RLIMIT_AS, (limit, limit)))
        answers = acquired(port, range(8)) if first == f"listening on {port}\n" else None
        return first, answers, *end_of(run, port)

    enough = least(lambda limit: serve(limit)[1:] == ([OK] * 8, [], 0), lowest, 2**31)
    for limit in chosen(range(lowest, enough + 4 * STEP, STEP), everything):
        first, answers, lines, status = serve(limit)
        where = f"serve under {limit} bytes of memory"
        if answers is None:
            check(f"the end of {where}: {first}", (first in ("fault 90\n", "fault 91\n", "fault 92\n"), lines, status), (True, [], 3))
        else:
            are_right(answers, lines, status, where)
        told.update([f"no web, {first.strip()}"] if answers is None else map(str.strip, answers))
        are_repeated(path, answers or [NO_ANSWER] * 8, where)
    check("the web was not opened, and was opened", (any(it.startswith("no web") for it in told), told[OK.strip()] > 0), (True, True))
    print(f"refused: memory of the web: {dict(told)}")


def refused_after_listening(folder, refusing):
    """A program that serves, and whose desk gets no more memory once a question and so many requests were answered:
    the next request is told the fault, each later one 92, pages stay, and the program ends with the fault. Afterwards
    all is answered under the same keys."""
    base, path, told = os.path.join(folder, "base.db"), os.path.join(folder, "grown.db"), Counter()

    def words_for(port):
        copied(base, path)
        return ["serve", path, str(port), "2", "100", DESK_KEY]

    for count in (0, 1, 2, 16, 40):
        run, port, first = started(words_for, env=refusing.how(0))
        where = f"a desk that gets no more memory after {count}"
        need(f"the port of {where}", first, f"listening on {port}\n")
        # the port is told before there are threads: the first one makes them, and is the desk's once it answers
        asked = subprocess.run([PROGRAM, "send", str(port), DESK_KEY, "q1", "copy", "99"], capture_output=True, timeout=120, check=False)
        check(f"a question first, {where}", (asked.stdout, asked.returncode), (b'{"refusal":13}\n', 2))
        answers = acquired(port, range(count))
        check(f"what comes before that, {where}", answers, [OK] * count)
        refusing.refuse_first_thread()
        answers += acquired(port, range(count, count + 24))
        check(f"the fault of {where}: {answers[count]}", answers[count] in fault_answers(90, 91), True)
        check(f"what comes after it, {where}", answers[count + 1 :], fault_answers(92) * 23)
        page = subprocess.run([PROGRAM, "send", str(port), DESK_KEY, "p1", "page", "1"], capture_output=True, timeout=120, check=False)
        check(f"a page after {where}", page.stdout, b'{"reply":"patron 1 owed 0 name Ann Bell"}\n')
        lines, status = end_of(run, port)
        check(f"the end of {where}", ([f'{{"fault":{it.split()[-1]}}}\n' for it in lines], status), ([answers[count]], 3))
        are_repeated(path, answers, where)
        told[answers[count].strip()] += 1
    print(f"refused: memory of the desk while the web is served: {dict(told)}")


def said_on_a_full_disk(words, out):
    """What may be said where the files may not grow past a limit: the file opens once more, or that fails too."""
    said = message(words, out)
    return said, said.replace(FREE.encode(), DISK.encode())


def disk(folder, everything):
    """`import` where the files may not grow past a limit: the rows that were told are there, and no other; taken in
    again without the limit the file is whole."""
    base, path, copies, library = os.path.join(folder, "base.db"), os.path.join(folder, "full.db"), os.path.join(folder, "books.csv"), Library()
    for key, words, _ in GROUND:
        library.handle(key, words)
    books = [(3000 + n, 900 + n, f"Volume {n} of a long row of books", 1, 1 + n % 2, 50 * n) for n in range(200)]
    with open(copies, "w", encoding="utf-8") as file:
        file.write(HEADER + "".join(",".join(map(str, it)) + ",end\n" for it in books))
    lines, size = library.take_in(books), os.path.getsize(base)
    hits = 0
    for limit in chosen(range(size, size + 4 * 2**20, 16 * 1024), everything):
        copied(base, path)
        run = under(["import", path, copies], resource.RLIMIT_FSIZE, limit)
        out = run.stdout.decode()
        check(f"what is said at {limit}", run.stderr in said_on_a_full_disk(["import", path, copies], out), True)
        done = out.count(" ok\n")
        front = "".join(f"row {n} ok\n" for n in range(1, done + 1))
        ends = [(lines, 0), (f"{front}fault 91\naccepted {done} refused 0\n", 3), ("fault 91\n", 3)]
        check(f"the end at {limit}", (out, run.returncode) in ends, True)
        hits += 0 < done < 200
        found = rows(path, "SELECT copy FROM copies WHERE copy >= 3000 ORDER BY copy")
        check(f"the rows at {limit}", [it for (it,) in found], [it[0] for it in books[:done]])
        again = subprocess.run([PROGRAM, "import", path, copies], capture_output=True, timeout=300, check=False)
        check(f"again at {limit}", (again.stdout.decode(), again.returncode), (lines, 0))
        the_rows_are(path, library)
    check("limits hit the middle of the file", hits > 2, True)
    print(f"refused: disk: {hits} limits hit the middle of a copies file")


def disk_of_a_migration(folder, everything):
    """A migration where the files may not grow past a limit: it is made, or told as 91 and the rows of before or of a
    whole step are there; without the limit it is made."""
    for name in HOLDS:
        base, path, told = os.path.join(folder, f"{name}.db"), os.path.join(folder, "narrow.db"), Counter()
        words, ends, size = ["migrate", path], [it for it in ends_of(base) if it[0] != "fault 90\n"], os.path.getsize(base)

        def is_made(limit):
            copied(base, path)
            return under(words, resource.RLIMIT_FSIZE, limit).returncode == 0

        enough = least(is_made, 0, 4 * size, PAGE)
        for limit in chosen(range(PAGE, enough + enough // 2, PAGE), everything):
            copied(base, path)
            run = under(words, resource.RLIMIT_FSIZE, limit)
            out, found = run.stdout.decode(), whole(path)
            check(f"the end at {limit}: {out}", (out, run.returncode, found) in ends, True)
            check(f"what is said at {limit}", run.stderr in said_on_a_full_disk(words, out), True)
            told[f"{out.strip()}, left {schema_left(path)}"] += 1
            again = subprocess.run([PROGRAM, *words], capture_output=True, timeout=300, check=False)
            check(f"again at {limit}", (again.stdout.decode(), again.returncode, whole(path)), ends[0])
        check("limits were met and not met", min(sum(many for it, many in told.items() if it.startswith(begin)) for begin in ("fault 91", DONE)) > 2, True)
        print(f"refused: disk of a migration of {name}: {dict(told)}")


def main():
    everything = "--all" in sys.argv
    with tempfile.TemporaryDirectory() as folder:
        refusing = Refusing(folder)
        part(scripts_in_memory, refusing, everything)
        part(one_request_in_a_file, folder, refusing, everything)
        part(one_request_of_a_migration, folder, refusing, everything)
        part(one_request_of_the_web, folder, refusing, everything)
        part(routes_without_memory, folder, refusing)
        part(a_board_that_cannot_grow, folder, refusing)
        part(keys_without_memory, folder, refusing)
        part(missing_threads, folder, refusing)
        part(sockets_without_a_limit, folder, refusing)
        part(memory, folder, everything)
        part(serving_memory, folder, everything)
        part(refused_after_listening, folder, refusing)
        part(disk, folder, everything)
        part(disk_of_a_migration, folder, everything)


if __name__ == "__main__":
    run_script(main)
