"""Says of changed definitions whether a worked row or a random history notices them: each is tried in a process of its
own, which begins with what is known of the others."""

import gc
import json
import os
import resource
import threading
import time
import traceback

from lib.antt.histories import histories
from lib.antt.rows import rows
from lib.antt.values import Stuck, shown

LONGEST, LARGEST = 12, 2 << 30  # seconds of a processor and bytes for one change
STACK = 1 << 29
MEASURED = "Rattle.model."
# What a change comes to: who noticed it, nobody, or that it came to no end here.
ROWS, HISTORIES, NOBODY, UNJUDGED = "rows", "histories", "nobody", "unjudged"


def deeply(work, *given):
    """What work gives that goes deep: a list of thousands of days is gone through step by step."""
    made = []

    def run():
        try:
            made.append((work(*given), None))
        except BaseException as error:  # told where it was started
            made.append((None, error))

    before = threading.stack_size(STACK)
    it = threading.Thread(target=run)
    it.start()
    it.join()
    threading.stack_size(before)
    if made[0][1] is not None:
        raise made[0][1]
    return made[0][0]


def pairs(watch, running):
    """What one row or history compares."""
    return [watch.both(running)] if hasattr(watch, "sides") else watch.both(running)


def differs(watch, running):
    """The first two values that differ in a row or a history; None if there are none."""
    return next(((found, wanted) for found, wanted in pairs(watch, running) if found != wanted), None)


class Judge:
    """The rows and histories, and what each of them goes through."""

    def __init__(self, program, running, places):
        self.program, self.running, self.places = program, running, places
        self.watches = [(ROWS, it) for it in rows(program)] + [(HISTORIES, it) for it in histories(program)]
        self.wrong, self.costs, self.seen = [], [], {}
        for at, (_, watch) in enumerate(self.watches):
            self.try_alone(at, watch)
        for its in self.seen.values():
            its.sort(key=lambda at: (self.watches[at][0] != ROWS, self.costs[at]))
        running.given = {it for it in running.names if running.takes_functions(it)}
        for _, watch in self.watches:  # so that those that are tried begin with what all of these keep
            differs(watch, running)
        gc.collect()
        gc.disable()
        gc.freeze()

    def try_alone(self, at, watch):
        """What a row or history goes through, and how long it takes."""
        self.running.forget()
        began = time.process_time()
        values = differs(watch, self.running)
        self.costs.append(time.process_time() - began)
        if values:
            self.wrong.append(f"{watch}: {self.two(values)}")
        for key in self.running.used():
            self.seen.setdefault(key, []).append(at)

    def two(self, values):
        return " for ".join(shown(it)[:300] for it in values)

    def watching(self, key):
        """The rows and histories that go through a definition, those that take the least time first."""
        return self.seen.get(key, ()) if key.module.startswith(MEASURED) else sorted(range(len(self.watches)), key=lambda at: self.costs[at])

    def verdicts(self, changes, tell=lambda change, verdict: None):
        """What each change comes to, with who noticed it."""
        found = Forks(self.places).all(range(len(changes)), lambda at: self.verdict(changes[at]), lambda at, verdict: tell(changes[at], verdict))
        return [found[at] for at in range(len(changes))]

    def verdict(self, change):
        key = change.definition.key
        try:
            self.running.change(key, change.clauses())
            for at in self.watching(key):
                sort, watch = self.watches[at]
                values = differs(watch, self.running)
                if values:
                    return sort, f"{watch}: {self.two(values)}"[:2000]
        except (RecursionError, MemoryError):
            return UNJUDGED, "too deep"
        except Stuck as error:
            return UNJUDGED, f"no case of {error}"
        except Exception:
            return UNJUDGED, traceback.format_exc()[-600:]
        return NOBODY, ""


class Forks:
    """Works things out in processes of their own, so many at a time."""

    def __init__(self, places):
        self.places, self.running, self.found = places, {}, {}

    def all(self, things, work, tell=lambda at, made: None):
        """What work gives of each thing; of one whose process was ended, that it is unjudged."""
        for at in things:
            if len(self.running) >= self.places:
                self.one_ends(tell)
            self.begin(at, work)
        while self.running:
            self.one_ends(tell)
        return self.found

    def begin(self, at, work):
        reading, writing = os.pipe()
        pid = os.fork()
        if pid == 0:
            os.close(reading)
            resource.setrlimit(resource.RLIMIT_CPU, (LONGEST, LONGEST))
            resource.setrlimit(resource.RLIMIT_AS, (LARGEST, LARGEST))
            made = json.dumps(work(at)).encode()
            while made:
                made = made[os.write(writing, made) :]
            os._exit(0)
        os.close(writing)
        self.running[pid] = at, reading

    def one_ends(self, tell):
        """Reads what the next process that ends made: little enough that it waits for no reader."""
        pid, _ = os.waitpid(-1, 0)
        at, reading = self.running.pop(pid)
        with os.fdopen(reading, "rb") as it:
            made = it.read()
        self.found[at] = json.loads(made) if made else (UNJUDGED, "its process was ended")
        tell(at, self.found[at])
