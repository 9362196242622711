"""Tries changed bodies of a crate: many by one check, each alone, and on the whole crate. What tests/tools/edits and
tests/tools/mutants have in common."""

import os
import re
import shutil
import subprocess
import tempfile
import time
from concurrent.futures import FIRST_COMPLETED, ThreadPoolExecutor, wait

from lib.gate_libraries import PARTS, check_of
from lib.renaming import clause_of
from room import TOP

# What a check of a crate may take of the machine's memory, in bytes.
MEMORY = 4_000_000_000
# In so many rounds a change may follow from others.
ROUNDS = 3
# So many seconds are between two looks at what may be begun.
PAUSE = 2

# What a try of a change comes to.
REFUSED, FOLLOWS, PROVED, BAD, NAMES, UNSURE = "refused", "follows", "proved", "bad", "names", "unsure"


class Change:
    """A changed body: the lines that it puts in place of a crate's own, by path and number; the function that it
    changes; the one whose contract refuses it, where it changes what stands in no body; what a round said of its
    function; and whether its proof by hand was given other names (lib/renaming.py). Where the function can stand
    twice, and the change is in it alone: its file with its first and its last line, and the number of the second one
    in a check."""

    def __init__(self, name):
        self.name, self.function, self.by, self.lines, self.said, self.is_renamed = name, None, None, {}, None, False
        self.twice, self.number = None, None

    def put(self, path, was, now):
        """Takes this text in place of that of a file; both have as many lines."""
        pairs = zip(was.split("\n"), now.split("\n"))
        self.lines.update({(path, at): new for at, (old, new) in enumerate(pairs) if old != new})

    def let_stand_twice(self, every):
        """Finds among a crate's bodies the one that the change is in."""
        for it in every:
            if it.function == self.function and it.lines and all(path == it.path and it.lines[0] <= at <= it.lines[1] for path, at in self.lines):
                self.twice = it.path, *it.lines

    def second(self, text):
        """The lines of the changed function under a second name, with an empty one before them."""
        path, first, last = self.twice
        lines = [self.lines.get((path, at), text[at]) for at in range(first, last + 1)]
        name = self.function.rpartition("::")[2]
        return ["", *re.sub(rf"\bfn {name}\b", f"fn {name}_twice{self.number}", "\n".join(lines), count=1).split("\n")]

    def copy_proof(self, room):
        """Gives the second function the proof by hand of the first, in a copy of the crate."""
        path, second = (f"proofs/{it.replace('::', '/')}" for it in (self.function, self.tried))
        if not os.path.isdir(f"{room}/{path}"):
            return
        os.makedirs(f"{room}/{second}")
        for name in os.listdir(f"{room}/{path}"):
            with open(f"{room}/{path}/{name}", encoding="utf-8") as it:
                text = it.read().split("\n")
            lines = (self.lines.get((f"{path}/{name}", at), line) for at, line in enumerate(text))
            with open(f"{room}/{second}/{name}", "w", encoding="utf-8") as it:
                it.write("\n".join(lines).replace(f".{path.replace('/', '.')}.", f".{second.replace('/', '.')}."))

    @property
    def tried(self):
        """The function that a check tries: the changed one, or the second one beside it."""
        return f"{self.function}_twice{self.number}" if self.number else self.function


# What a check says of a closure that is proved: it may only be called where what it asks is given.
ASKING = "proved where its callers give what it asks"


class Check:
    """What a check said: of each function of the crate its outcome, and which have a goal of their own that isn't
    proved."""

    def __init__(self, crate, status, text):
        self.status, self.text = status, text
        told = re.findall(rf"^fn {crate}::(\S+): (.*?)(?:, may [a-z]+)?$", text, re.M)
        self.told = {function: "proved" if said == ASKING else said for function, said in told}
        lines = text.rstrip("\n").split("\n")
        self.ended = bool(re.match(r"only=\d+ proved=|logic=(not-)?proved", lines[-1]))
        self.unknown = re.findall(r"has no function `(\S+)`", text)
        # what was not checked, by what it waits for
        waits = re.findall(r"declarations? that depends? on `([^`]+)`, which was [a-z ]+, (?:was|were) not checked: (.*)$", text, re.M)
        self.waits = {name: first for first, names in waits for name in names.split(", ")}
        self.is_proved = status == 0 and lines[-1].startswith("logic=proved")
        # of each function the goals that neither a proof by hand answers nor the search
        self.open, found = {}, []
        for goal, name in re.findall(rf"^note: \S+: it is not proved that .*? \(`(\S+?)`\)|^fn {crate}::(\S+): ", text, re.M):
            found.append(goal)
            if name:
                self.open[name], found = [it for it in found if it], []
        self.errors, self.places = {}, set()
        for place, line, said in re.findall(r"^(?:\./)?(\S+?):(\d+):\d+: error(.*)$", text, re.M):
            self.errors.setdefault(place, []).append(said)
            self.places.add((place, int(line) - 1))

    def own(self, function, is_renamed=False):
        """What the check says of a function whose body a change is in. Where its proof was given other names, it
        counts for nothing that a type can't be determined."""
        told = self.told.get(function, "")
        if told == "proved":
            return PROVED
        folder = f"proofs/{function.replace('::', '/')}/"
        said = [it for place, its in self.errors.items() if place.startswith(folder) for it in its]
        is_settled = lambda it: not is_of_names(it) and not (is_renamed and re.search("determined|give that argument|unsolved", it))
        if any(is_settled(it) or self.is_of_lemma(it) for it in said) or "`search` did not prove" in told:
            return REFUSED
        if said:
            return REFUSED if self.has_open(function, said) else NAMES
        return FOLLOWS if "it calls `" in told else UNSURE

    def has_open(self, function, said):
        """Whether a goal of the function is open that was never answered by hand: one of a clause of which no answer
        is missing for its name alone."""
        missing = {clause_of(name) for it in said for name in re.findall(r"has no `(\S+?)`", it)}
        return any(clause_of(goal) not in missing for goal in self.open.get(function, []))

    def is_of_lemma(self, said):
        """Whether an error says that a proof waits for a lemma that is rejected for what it says, as one of a text
        that a change is in."""
        found = re.search(r"depends? on `([^`]+)`, which was not admitted", said)
        name, seen = found and found[1], set()
        while name in self.waits and name not in seen:
            seen.add(name)
            name = self.waits[name]
        return any(it.startswith(f": `{name}`:") and not is_of_names(it) for its in self.errors.values() for it in its)

    def is_read(self):
        """Whether the crate was read and found well typed."""
        return not any(place.startswith(("src/", "specs/")) for place in self.errors)

    def any(self):
        """What a check that didn't prove the crate says, whichever function it says it of."""
        said = [it for its in self.errors.values() for it in its]
        return REFUSED if not said or any(not is_of_names(it) for it in said) else NAMES

    def whole(self, change):
        """What a check of the whole crate says of the one change in it."""
        if not self.ended or not self.is_read():
            return BAD if "error[" in self.text or self.errors else UNSURE
        if self.is_proved:
            return PROVED
        if change.function or change.by:
            kind = self.own(change.function or change.by)
            return FOLLOWS if kind == PROVED else kind
        return self.any()


def is_of_names(said):
    """Whether an error says that a proof names what isn't there."""
    return bool(re.search(r"has no field `(?!\d)|\(nearest: |is not in scope|has no `|was not admitted", said))


class Crate:
    """A crate whose bodies are changed, and the command that checks it."""

    def __init__(self, name, listed, gate, tools):
        self.name, self.folder = name, f"{TOP}/crates/{name}"
        self.found = (name, listed, gate, tools)
        self.words, _ = check_of(*self.found)
        # so much memory has to be free before a check begins, where other work goes on beside it
        self.room = 0
        # where checks of the whole crate keep what they found
        self.kept = f"{gate}/crates/{name}/out/incremental"
        self.size = sum(os.path.getsize(f"{at}/{it}") for part in PARTS for at, _, its in os.walk(f"{self.folder}/{part}") for it in its)

    @property
    def missing(self):
        """The libraries below it that aren't there."""
        return check_of(*self.found)[1]

    def check(self, changes, only=(), kept=None, prefix="edits-"):
        """Checks a copy of the crate with these changes, and of it only these functions, if there are any; over what
        earlier checks kept, if that is given."""
        await_memory(self.room)
        with tempfile.TemporaryDirectory(prefix=prefix) as room:
            for part in PARTS:
                if os.path.isdir(f"{self.folder}/{part}"):
                    shutil.copytree(f"{self.folder}/{part}", f"{room}/{part}")
            lines = {place: text for change in changes if not change.number for place, text in change.lines.items()}
            doubled = [it for it in changes if it.number]
            for path in {path for path, _ in lines} | {it.twice[0] for it in doubled}:
                with open(f"{room}/{path}", encoding="utf-8") as it:
                    text = it.read().split("\n")
                after = {}
                for change in (it for it in doubled if it.twice[0] == path):
                    after.setdefault(change.twice[2], []).extend(change.second(text))
                with open(f"{room}/{path}", "w", encoding="utf-8") as it:
                    it.write("\n".join(one for at, line in enumerate(text) for one in (lines.get((path, at), line), *after.get(at, ()))))
            for change in doubled:
                change.copy_proof(room)
            words = [*self.words, *(["--incremental", kept] if kept else []), *[it for name in only for it in ("--only", name)]]
            how = {"cwd": room, "stdin": subprocess.DEVNULL, "stdout": subprocess.PIPE, "stderr": subprocess.STDOUT}
            ran = subprocess.run(words, encoding="utf-8", errors="replace", **how)
        return Check(self.name, ran.returncode, ran.stdout)


class Trial:
    """The tries of one crate's changes: what they came to, and what failed. Whoever tries says what each outcome
    means, by `settle`."""

    prefix = "edits-"

    def __init__(self, crate, tell):
        self.crate, self.tell, self.found, self.failures = crate, tell, {}, []
        self.room = tempfile.mkdtemp(prefix=f"{self.prefix}kept-")

    def settle(self, change, kind, how):
        """Takes what the tries of a change came to."""
        raise NotImplementedError

    def not_there(self, change):
        """Takes a change of a function that the crate doesn't have."""
        raise NotImplementedError

    def fail(self, text):
        self.failures.append(text)
        self.tell(text)

    def end(self):
        """Removes what the checks kept."""
        shutil.rmtree(self.room, ignore_errors=True)

    def check(self, changes, only=()):
        """A check over what the checks before it kept."""
        return self.crate.check(changes, only, self.room, self.prefix)

    def rounds(self, waiting, alone):
        """Tries changes that name their functions, round by round, and adds to alone those that are to be tried
        alone."""
        for _ in range(ROUNDS):
            later = []
            while waiting:
                taken, waiting = one_round(waiting)
                later += self.round(taken, alone)
            waiting = later
        alone += waiting

    def round(self, taken, alone):
        """Tries these changes at once, and returns those that only follow from others."""
        check = self.check(taken, [it.tried for it in taken])
        unknown = [it for it in taken if it.tried in check.unknown]
        for change in unknown:
            self.not_there(change)
        if unknown:
            left = [it for it in taken if it not in unknown]
            return self.round(left, alone) if left else []
        if not check.ended and len(taken) > 1:
            # one of them is not well typed, or is too much: halves find it
            half = len(taken) // 2
            return self.round(taken[:half], alone) + self.round(taken[half:], alone)
        if not check.ended:
            taken[0].number = None
            alone += taken
            return []
        changed, later = {it.tried for it in taken}, []
        for function in sorted(check.told.keys() - changed):
            if check.told[function] != "proved" and check.own(function) != FOLLOWS:
                self.fail(f"{self.crate.name}: {function} is not proved, and no change is in it: {check.told[function]}")
        for change in taken:
            kind = change.said = check.own(change.tried, change.is_renamed)
            if kind == FOLLOWS:
                later.append(change)
            elif kind == REFUSED:
                self.settle(change, kind, f"in its own function, with {len(taken) - 1} others")
            elif kind == NAMES:
                self.named(change, check)
            else:
                alone.append(change)
            change.number = None
        return later

    def named(self, change, _check):
        """Takes a change that a check refuses only because a proof by hand names what it took away."""
        self.settle(change, NAMES, "in its own function")

    def alone(self, change, by):
        """Tries a change alone: what the function `by` says of it, if one is given and it refuses it, and else what
        the whole crate says; and how that was found."""
        check = self.check([change], [by]) if by else None
        if check and check.ended and check.own(by) == REFUSED:
            return REFUSED, f"alone, by {by}"
        return self.check([change]).whole(change), "alone, on the whole crate"


def one_round(changes, can_double=True):
    """Splits changes into those of one round, and the rest. What can stand twice does, if that is wanted. Of the
    others a round has at most one a function, and none on another's lines."""
    taken, left, functions, lines = [], [], set(), set()
    for change in changes:
        change.number = len(taken) + 1 if can_double and change.twice else None
        if change.number:
            taken.append(change)
        elif change.function in functions or lines & change.lines.keys():
            left.append(change)
        else:
            taken.append(change)
            functions.add(change.function)
            lines |= change.lines.keys()
    return taken, left


def free():
    """The memory that is free, in bytes."""
    with open("/proc/meminfo", encoding="utf-8") as it:
        return int(re.search(r"MemAvailable:\s+(\d+)", it.read())[1]) * 1024


def await_memory(least):
    """Waits until so much memory is free, for half an hour at most."""
    end = time.monotonic() + 1800
    while free() < least and time.monotonic() < end:
        time.sleep(PAUSE)


def places():
    """How many checks may run beside each other, by processors and free memory."""
    return max(1, min(len(os.sched_getaffinity(0)), free() // MEMORY))


def in_turn(trials, places, is_ready, work):
    """Has each trial worked at once it is ready and memory is free, in their order where several are ready: side by
    side as many as there are places just then."""
    left, running = list(trials), set()
    with ThreadPoolExecutor(len(left) or 1) as pool:
        while left or running:
            for trial in [it for it in left if is_ready(it)]:
                if len(running) < places() and (not running or free() >= MEMORY):
                    left.remove(trial)
                    running.add(pool.submit(work, trial))
            done, running = wait(running, timeout=PAUSE, return_when=FIRST_COMPLETED) if running else (time.sleep(PAUSE) or set(), set())
            for it in done:
                it.result()
