#!/usr/bin/env python3
"""Installs the program under a place of its own and uses it from there.

    tests/gate/installed.py
"""

import os
import re
import resource
import shutil
import signal
import socket
import subprocess
import tempfile
import time
from contextlib import contextmanager

from room import TOP
from lib.checking import check, part, run_script

COMPLETION = "share/bash-completion/completions/circ"
TOOLS = ["circ-backup", "circ-copies", "circ-create", "circ-day", "circ-enrol", "circ-export", "circ-forget", "circ-label", "circ-move-in", "circ-restore", "circ-sip2", "circ-tell", "circ-watch"]
FILES = ["bin/circ", *(f"bin/{it}" for it in TOOLS), "share/circ/circ_client.py", "share/circ/circ_tool.py", "share/man/man1/circ.1", *(f"share/man/man1/{it}.1" for it in TOOLS), COMPLETION,
         *(f"share/circ/pages/{name}" for name in sorted(os.listdir(os.path.join(TOP, "pages"))))]


def run(*words, **more):
    return subprocess.run(words, capture_output=True, text=True, timeout=120, **more)


def unit_of(name):
    with open(os.path.join(TOP, "docs", "operations", name), encoding="utf-8") as file:
        return file.read()


def words_of(unit, prefix, port, keys):
    """The words of a tool that a unit runs, the installed one, with a port and a file of keys of the test's own."""
    line = re.search(r"^ExecStart=(/usr/local/bin/circ-.*)$", unit, re.M)[1]
    check("the file of keys of the unit", line.count(" @/etc/circ/desk.keys"), 1)
    return [it.replace("/usr/local", prefix).replace("8080", port).replace("/etc/circ/desk.keys", keys) for it in line.split(" ")]


def put(place, name, text):
    path = os.path.join(place, name)
    with open(path, "w", encoding="utf-8") as file:
        file.write(text)
    os.chmod(path, 0o640)
    return path


def keys_in(place):
    """The file of keys of the desks in a place, and what is in it."""
    return put(place, "desk.keys", "keeper desk deskkey00001\nann desk annkey000001\n")


def without_key():
    return {it: os.environ[it] for it in os.environ if it != "DESKKEY"}


def command(place, name, text):
    """Another command in the place of the system's, for who has this folder first on the path."""
    os.makedirs(place, exist_ok=True)
    with open(os.path.join(place, name), "w", encoding="utf-8") as file:
        file.write(f"#!/bin/sh\n{text}\n")
    os.chmod(file.name, 0o755)


class Morning:
    """What the unit of the morning runs, with a clock of the test's own."""

    def __init__(self, prefix, place, port):
        self.unit, self.clock, self.port = unit_of("circ-day.service"), os.path.join(place, "clock"), port
        self.words = words_of(self.unit, prefix, port, keys_in(place))

    def number(self, name):
        """A number of the unit; of a span it is the seconds."""
        found = re.search(rf"^{name}=(\d+)(h?)$", self.unit, re.M)
        return int(found[1]) * (3600 if found[2] else 1)

    def begins(self, day, *words, **around):
        """Runs it where the clock shows this day, with these words in the place of the unit's where there are any."""
        command(self.clock, "date", f'[ "$*" != +%F ] || {{ echo {day}; exit; }}\nexec /bin/date "$@"')
        return subprocess.Popen([self.words[0], *(words or self.words[1:])], stdout=subprocess.PIPE, stderr=subprocess.STDOUT, text=True, env={**without_key(), "PATH": f"{self.clock}:{os.environ['PATH']}", **around})


@contextmanager
def desk(prefix, path, port, **how):
    """The installed program serving a library, until the end, also where a check fails."""
    key = how.pop("key", f"@{keys_in(os.path.dirname(path))}")
    with subprocess.Popen([f"{prefix}/bin/circ", "serve", path, port, "2", "100000", key], stdout=subprocess.PIPE, text=True, **how) as serving:
        try:
            check("the desk serves", serving.stdout.readline(), f"listening on {port}\n")
            yield serving
        finally:
            serving.kill()


def ended(run):
    out, _ = run.communicate(timeout=120)
    return run.returncode, out


FORWARD = """circ-day: the library's day is {0} and the clock's is {1}, which isn't the day after it; \
where {1} is right, type: circ send {2} @{3} day-{1} begin-day {1}
"""
BACK = """circ-day: the library's day is {0} and the clock's is {1}, which is before it; \
where the clock is wrong, type: timedatectl set-ntp true, and where the library is, type: circ-restore BACKUP, with the newest backup from before {0}
"""
# the library's day, the clock's, the library's after it, and what is told
DAYS = [
    ("2026-03-01", "2026-03-02", "2026-03-02", (0, "")),
    ("2026-03-02", "2026-03-02", "2026-03-02", (0, "")),
    ("2026-03-02", "2026-03-04", "2026-03-02", (1, FORWARD)),
    ("2026-03-02", "2062-03-03", "2026-03-02", (1, FORWARD)),
    ("2026-03-02", "2026-03-01", "2026-03-02", (1, BACK)),
    ("2026-03-02", "1970-01-01", "2026-03-02", (1, BACK)),
    ("2026-10-31", "2026-11-01", "2026-11-01", (0, "")),
    ("2026-12-31", "2027-01-01", "2027-01-01", (0, "")),
    ("2027-02-28", "2027-03-01", "2027-03-01", (0, "")),
    ("2028-02-28", "2028-03-01", "2028-02-28", (1, FORWARD)),
    ("2028-02-28", "2028-02-29", "2028-02-29", (0, "")),
]


def days(prefix, place):
    """The morning begins the day after the library's and no other, whatever the clock shows; each on a library of its
    own."""
    path, port = os.path.join(place, "days.db"), free_port()
    morning = Morning(prefix, place, port)
    check("a library that never had a day", run(f"{prefix}/bin/circ", "file", path, "g1", "branch", "1", "5", "Main").stdout, "ok\n")
    for at, (before, clock, after, (status, told)) in enumerate((("2000-01-01", "2026-03-01", "2000-01-01", (1, FORWARD)), *DAYS)):
        if at:
            path = os.path.join(place, f"days{at}.db")
            run(f"{prefix}/bin/circ", "file", path, "g1", "begin-day", before)
        with desk(prefix, path, port):
            keys = keys_in(place)
            check(f"the clock's {clock} after {before}", ended(morning.begins(clock)), (status, told.format(before, clock, port, keys)))
            today = run(f"{prefix}/bin/circ", "send", port, f"@{keys}", "q", "today").stdout
            check(f"today after the clock's {clock} and {before}", today, f'{{"reply":"today {after}"}}\n')
            if told == FORWARD:
                typed = FORWARD.rpartition("type: ")[2].format(before, clock, port, keys).replace("circ send", f'"{prefix}/bin/circ" send')
                check("what is to be typed", run("sh", "-c", typed).stdout, '{"reply":"ok"}\n')


def answering(place, prefix, *answers, words=None, **around):
    """A tool's words, the morning's where none are given, with another `circ` beside the tool, which gives these
    answers one after another; and what that was asked."""
    folder, told = os.path.join(place, "answering"), os.path.join(place, "answering", "told")
    shutil.rmtree(folder, ignore_errors=True)
    lines = "".join(f"[ $n != {at} ] || echo '{it}'\n" for at, it in enumerate(answers, 1))
    command(folder, "circ", f'echo "$@" >>"{told}"\nn=$(wc -l <"{told}")\n{lines}')
    morning = Morning(prefix, place, "8080")
    morning.words = [shutil.copy((words or morning.words)[0], folder), *(words or morning.words)[1:]]
    result = ended(morning.begins("2026-03-03", **around))
    with open(told, encoding="utf-8") as file:
        return result, [" ".join(it.split()[4:]) for it in file]


def refused_days(prefix, place):
    """A refused day is no failure where another desk began that very day meanwhile, and else it is."""
    yesterday, today, later = (f'{{"reply":"today 2026-03-0{it}"}}' for it in "234")
    refused = '{"refusal":23}'
    asked = ["today", "begin-day 2026-03-03", "today"]
    says = "circ-day: the desk on port 8080 doesn't begin 2026-03-03: {}\n"
    check("another desk began it", answering(place, prefix, yesterday, refused, today), ((0, ""), asked))
    check("another desk began another", answering(place, prefix, yesterday, refused, later), ((1, says.format(refused)), asked))
    check("it is refused for nothing", answering(place, prefix, yesterday, refused, yesterday), ((1, says.format(refused)), asked))
    check("a closed desk", answering(place, prefix, yesterday, '{"fault":92}'), ((3, says.format('{"fault":92}')), asked[:2]))
    means = """'; echo 'circ: the disk is full' >&2; true '"""
    meant = says.format('{"fault":91}\ncirc: the disk is full')
    check("a full disk, with what it means", answering(place, prefix, yesterday, '{"fault":91}' + means), ((3, meant), asked[:2]))
    check("no answer to it", answering(place, prefix, yesterday), ((3, says.format("no answer")), asked[:2]))
    check("a desk that tells no day", answering(place, prefix, '{"fault":92}'), ((3, "circ-day: the desk on port 8080 doesn't tell its day: {\"fault\":92}\n"), asked[:1]))


def mornings(prefix, place):
    """The day begins before a program that serves two seconds later, once. The unit begins again where no answer came,
    and not where somebody has to decide; it comes after the clock is set."""
    path = os.path.join(place, "morning.db")
    port = free_port()
    morning = Morning(prefix, place, port)
    command(morning.clock, "sleep", f'echo "$@" >>"{place}/slept"')
    check("nobody listens", ended(morning.begins("2026-03-03")), (3, f"circ-day: the desk on port {port} doesn't tell its day: fault network\n"))
    with open(f"{place}/slept", encoding="utf-8") as file:
        check("how often it asks", file.read().splitlines(), ["1"] * 59)
    os.remove(f"{morning.clock}/sleep")
    check("the day of the library", run(f"{prefix}/bin/circ", "file", path, "g1", "begin-day", "2026-03-02").stdout, "ok\n")
    first = morning.begins("2026-03-03")
    time.sleep(2)
    check("it waits", first.poll(), None)
    with desk(prefix, path, port):
        check("the day is begun", ended(first), (0, ""))
        check("and begun once", ended(morning.begins("2026-03-03")), (0, ""))
        check("it is today", run(f"{prefix}/bin/circ", "send", port, f"@{keys_in(place)}", "q", "today").stdout, '{"reply":"today 2026-03-03"}\n')
        others = put(place, "others.keys", "keeper desk deskkey00002\nann desk deskkey00001\n")
        told = f"circ-day: the desk on port {port} doesn't know the first key of {others}; where the file was changed, type: systemctl restart circ\n"
        check("another first key", ended(morning.begins("2026-03-04", port, f"@{others}")), (1, told))
        for what in (put(place, "bad.keys", "keeper desk short\n"), os.path.join(place, "absent.keys"), place):
            told = f"circ-day: {what} can't be read, or is no file of keys: circ send {port} @{what} q today says why\n"
            check("bad keys", ended(morning.begins("2026-03-04", port, f"@{what}")), (1, told))
    for words in ((), (port,), ("", f"@{others}"), (port, "@"), (port, "deskkey00001"), (port, f"@{others}", "x")):
        told = run(morning.words[0], *words, env=without_key())
        check(f"the words {words}", (told.returncode, told.stderr), (4, "usage: circ-day PORT @KEYFILE\n"))
    # the unit starts again for an hour even where each try fails at once, and no try is too late to count
    burst, pause, longest = morning.number("StartLimitBurst"), morning.number("RestartSec"), morning.number("TimeoutStartSec")
    check("for how long it is started again", (burst * pause >= 3600, burst * (pause + longest) <= morning.number("StartLimitIntervalSec")), (True, True))
    check("what starts the desk, or ends with it", [it for it in re.findall(r"^(?:Requires|Wants|BindsTo|PartOf)=(.*)$", morning.unit, re.M) if "circ" in it], [])
    wanted = ("Restart=on-failure", "RestartPreventExitStatus=1 4", "Type=oneshot", "Wants=time-sync.target", "After=circ.service time-sync.target")
    check("when it is", [it for it in wanted if f"\n{it}\n" not in morning.unit], [])
    check("no refusal is a success of the unit", "SuccessExitStatus" in morning.unit, False)


def units(prefix, place):
    """The units are accepted by systemd, where it is there."""
    if shutil.which("systemd-analyze") is None:
        print("installed: the units were not verified, since there is no systemd-analyze")
        return
    os.symlink(prefix, f"{place}/local")
    os.mkdir(f"{place}/units")
    names = [it for it in os.listdir(f"{TOP}/docs/operations") if it.endswith((".service", ".timer"))]
    for name in names:
        with open(f"{place}/units/{name}", "w", encoding="utf-8") as file:
            file.write(unit_of(name).replace("/usr/local", f"{place}/local").replace("User=circ", "User=root").replace("Group=circ", "Group=root").replace("Groups=circ", "Groups=root"))
    told = run("systemd-analyze", "verify", *(f"{place}/units/{it}" for it in names))
    check("systemd-analyze verify", (told.returncode, [it for it in told.stderr.splitlines() if "circ" in it]), (0, []))


class Watch:
    """What the unit of the watch runs, for some seconds, with a `systemctl` that notes what it is told, tells the
    state of the service, and does what the test wants on a restart."""

    def __init__(self, prefix, place, seconds="1"):
        self.place, self.port, self.mark = os.path.join(place, "watch"), free_port(), os.path.join(place, "watch", "restarted")
        os.makedirs(self.place, exist_ok=True)
        keys = keys_in(place)
        *words, mark, _ = words_of(unit_of("circ-watch.service"), prefix, self.port, keys)
        check("the words of the watch", (words[1:], mark), ([self.port, f"@{keys}", "circ.service"], "/run/circ-watch/restarted"))
        self.words = [*words, self.mark, seconds]
        self.prepares()

    def prepares(self, state="active", restart=":"):
        text = f'echo "$1" >>"{self.place}/calls"\ncase $* in\n"is-active circ.service") echo {state} ;;\n"restart circ.service") {restart} ;;\n"reset-failed circ.service") ;;\n*) exit 9 ;;\nesac'
        command(self.place, "systemctl", text)

    def looks(self, *keys, **around):
        """The status of a look, what it says, and what was done beside asking for the state; with other words for the
        keys where they are given."""
        words = [*self.words[:2], *(keys if keys or around else self.words[2:3]), *self.words[3:]]
        ran = run(*words, env={**without_key(), "PATH": f"{self.place}:{os.environ['PATH']}", **around})
        calls = os.path.join(self.place, "calls")
        told = open(calls, encoding="utf-8").read().split() if os.path.exists(calls) else []
        if told:
            os.remove(calls)
        return ran.returncode, ran.stdout + ran.stderr, [it for it in told if it != "is-active"]


ANEW = ["reset-failed", "restart"]


def didnt(port, first, then=None):
    """What is said of a desk that doesn't answer: at first, and at each look after it."""
    if then is None:
        return f"circ-watch: the desk on port {port} still doesn't answer: {first}\n"
    return f"circ-watch: the desk on port {port} didn't answer ({first}), and doesn't after circ.service was restarted: {then}\n"


def silent(prefix, place):
    """Nobody listens: the service is restarted once, unless somebody stopped it, and each look fails until the desk
    answers, of a library that has no branch. A desk that is late is waited for."""
    watch, path, none = Watch(prefix, place), os.path.join(place, "silent.db"), "fault network"
    for state in ("inactive", "deactivating"):
        watch.prepares(state)
        check(f"a service that is {state}", (watch.looks(), os.path.exists(watch.mark)), ((0, "", []), False))
    watch.prepares("failed")
    check("one that failed", watch.looks(), (3, didnt(watch.port, none, none), ANEW))
    check("the next look", watch.looks(), (3, didnt(watch.port, none), []))
    watch.prepares("active")
    check("and the one after it", watch.looks(), (3, didnt(watch.port, none), []))
    check("the day of the library", run(f"{prefix}/bin/circ", "file", path, "g1", "begin-day", "2026-03-02").stdout, "ok\n")
    with desk(prefix, path, watch.port):
        check("it answers again", (watch.looks(), os.path.exists(watch.mark)), ((0, "", []), False))
        others = put(place, "others.keys", "keeper desk deskkey00002\nann desk deskkey00001\n")
        check("another first key", watch.looks(f"@{others}"), (3, didnt(watch.port, '{"refusal":81}', '{"refusal":81}'), ANEW))
        check("the right one", watch.looks(), (0, "", []))
        for what in (put(place, "bad.keys", "keeper desk deskkey00001"), os.path.join(place, "absent.keys")):
            told = f"circ-watch: {what} can't be read, or is no file of keys: circ send {watch.port} @{what} q today says why\n"
            check("bad keys restart nothing", (watch.looks(f"@{what}"), os.path.exists(watch.mark)), ((3, told, []), False))
    watch.prepares(restart="exit 1")
    check("a restart that fails", watch.looks(), (3, f"circ-watch: the desk on port {watch.port} didn't answer ({none}), and circ.service can't be restarted\n", ANEW))
    os.remove(watch.mark)
    serve = f'"{prefix}/bin/circ" serve "{path}" {watch.port} 1 1000 @{keys_in(place)} >/dev/null 2>&1 & echo $! >"{place}/pid"'
    watch.prepares(restart=serve)
    mended = f"circ-watch: the desk on port {watch.port} didn't answer ({none}), and does since circ.service was restarted\n"
    watch.words[-1] = "10"
    try:
        check("a restart that helps", (watch.looks(), os.path.exists(watch.mark)), ((0, mended, ANEW), False))
        check("after it", watch.looks(), (0, "", []))
    finally:
        with open(f"{place}/pid", encoding="utf-8") as file:
            os.kill(int(file.read()), signal.SIGKILL)
    late = Watch(prefix, os.path.join(place, "late"), "20")
    looking = subprocess.Popen(late.words, stdout=subprocess.PIPE, stderr=subprocess.STDOUT, text=True, env={**without_key(), "PATH": f"{late.place}:{os.environ['PATH']}"})
    time.sleep(2)
    with desk(prefix, path, late.port):
        check("a desk that is late", ended(looking), (0, ""))
    check("it is waited for", set(open(f"{late.place}/calls", encoding="utf-8").read().split()), {"is-active"})
    hung = Watch(prefix, os.path.join(place, "hung"), "1")
    with socket.create_server(("127.0.0.1", int(hung.port))):
        check("a desk that hangs", hung.looks(), (3, didnt(hung.port, "no answer", "no answer"), ANEW))
    asked = answering(place, prefix, '{"reply":"today 2026-03-02"}', words=[*watch.words[:1], "8080", watch.words[2], "circ.service", watch.mark, "1"])
    check("what it asks", asked, ((0, ""), ["today"]))
    for words in ((), watch.words[1:-1], [*watch.words[1:], "x"], [*watch.words[1:-1], ""], ["", *watch.words[2:]], [watch.words[1], "@", *watch.words[3:]], [watch.words[1], *watch.words[3:]]):
        told = run(watch.words[0], *words, env=without_key())
        check(f"the words {words}", (told.returncode, told.stderr), (4, "usage: circ-watch PORT @KEYFILE SERVICE MARK SECONDS\n"))


def of_before(prefix, place):
    """The units of a version without files of keys have the desk's key in the environment: what they run goes on, and
    no key stands in a command line."""
    path, port, around = os.path.join(place, "before.db"), free_port(), {"DESKKEY": "deskkey00001"}
    morning, watch = Morning(prefix, place, port), Watch(prefix, os.path.join(place, "of before"))
    watch.words[1] = port
    check("the day of the library", run(f"{prefix}/bin/circ", "file", path, "g1", "begin-day", "2026-03-02").stdout, "ok\n")
    typed = FORWARD.replace("circ send {2} @{3}", '. /etc/circ/desk.key && circ send {2} "$DESKKEY"')
    with desk(prefix, path, port, key="deskkey00001"):
        check("the day is begun", ended(morning.begins("2026-03-03", port, **around)), (0, ""))
        check("another is not", ended(morning.begins("2026-03-05", port, **around)), (1, typed.format("2026-03-03", "2026-03-05", port)))
        check("another key", ended(morning.begins("2026-03-04", port, DESKKEY="deskkey00002")), (1, f"circ-day: the desk on port {port} has another key than this\n"))
        check("a look", watch.looks(**around), (0, "", []))
        check("a look with another key", watch.looks(DESKKEY="deskkey00002"), (3, didnt(port, '{"refusal":81}', '{"refusal":81}'), ANEW))
    today = '{"reply":"today 2026-03-03"}'
    answering(place, prefix, today, words=[morning.words[0], port], **around)
    with open(os.path.join(place, "answering", "told"), encoding="utf-8") as file:
        check("what stands in the list of processes", file.read(), f"send {port} @/dev/stdin q today\n")
    answering(place, prefix, today, words=[watch.words[0], port, "circ.service", watch.mark, "1"], **around)
    with open(os.path.join(place, "answering", "told"), encoding="utf-8") as file:
        check("and of the watch", file.read(), f"send {port} @/dev/stdin q today\n")
    for words in ((), ("",), (port, "x")):
        told = run(morning.words[0], *words, env={**os.environ, **around})
        check(f"the words {words}", (told.returncode, told.stderr), (4, "usage: circ-day PORT @KEYFILE\n"))


def typed_on_the_page(heading, begin, end):
    """The lines that docs/OPERATIONS.md shows under a heading, from one that begins so to one that does."""
    with open(os.path.join(TOP, "docs", "OPERATIONS.md"), encoding="utf-8") as file:
        lines = [it.strip() for it in file.read().partition(f"\n{heading}\n")[2].splitlines() if it.startswith("    ")]
    first = next(at for at, it in enumerate(lines) if it.startswith(begin))
    return lines[first : next(at for at, it in enumerate(lines) if at >= first and it.startswith(end)) + 1]


def made_by_hand(prefix, place):
    """The file of keys as docs/OPERATIONS.md has it made without the package, and made of the one key of before: its
    mode, and that a desk opens by it. Owners are not given here, and `chgrp` and `systemctl` note what they are
    told."""
    stubs, notes = os.path.join(place, "stubs"), os.path.join(place, "notes")
    for name in ("chgrp", "systemctl"):
        command(stubs, name, f'echo "{name} $*" >>"{notes}"')
    for what, lines, form in (
        ("a new one", typed_on_the_page("## Setting up", "install -d -m 750", "printf "), "keeper desk [A-Za-z0-9]{32}\n"),
        ("of the one key", typed_on_the_page("### From one key to clerks", ". /etc/circ/desk.key", "rm "), "keeper desk chosenbytown1\n"),
    ):
        machine = os.path.join(place, what)
        os.makedirs(os.path.join(machine, "etc", "systemd", "system"))
        if what != "a new one":
            os.makedirs(os.path.join(machine, "etc", "circ"), 0o700)
            put(os.path.join(machine, "etc", "circ"), "desk.key", "DESKKEY=chosenbytown1\n")
        text = "\n".join(it.replace("-o root -g circ ", "") for it in lines).replace("/etc/", "$MACHINE/etc/").replace("$MACHINE", f"'{machine}'")
        told = run("sh", "-euc", text, cwd=TOP, env={**os.environ, "PATH": f"{stubs}:{os.environ['PATH']}"})
        check(f"what is typed for {what}", (told.returncode, told.stdout, told.stderr), (0, "", ""))
        keys = os.path.join(machine, "etc", "circ", "desk.keys")
        with open(keys, encoding="utf-8") as file:
            check(f"the file of keys, {what}", bool(re.fullmatch(form, file.read())), True)
        check(f"who may read it, {what}", [oct(os.stat(it).st_mode & 0o7777) for it in (os.path.dirname(keys), keys)], [oct(0o750), oct(0o640)])
        check(f"what is beside it, {what}", os.listdir(os.path.dirname(keys)), ["desk.keys"])
        port = free_port()
        with desk(prefix, os.path.join(place, "by_hand.db"), port, key=f"@{keys}", stderr=subprocess.DEVNULL):
            check(f"the desk, {what}", run(f"{prefix}/bin/circ", "send", port, f"@{keys}", "q", "branches", "0").stdout, '{"reply":"end"}\n')
    units = os.listdir(os.path.join(machine, "etc", "systemd", "system"))
    check("the units", sorted(units), sorted(it for it in os.listdir(f"{TOP}/docs/operations") if it.endswith((".service", ".timer"))))
    with open(notes, encoding="utf-8") as file:
        check("what is called", file.read().splitlines(), [f"chgrp circ {machine}/etc/circ", "systemctl daemon-reload", "systemctl restart circ"])


def no_key_in_a_unit():
    """No key stands in a command line of a unit, and each that needs one names its file, which its user may read by
    the group: self-service machines have one of their own."""
    files = {**dict.fromkeys(("circ.service", "circ-day.service", "circ-watch.service"), ["/etc/circ/desk.keys"]), "circ-sip2.service": ["/etc/circ/kiosk.keys"]}
    for name in (it for it in os.listdir(f"{TOP}/docs/operations") if it.endswith(".service")):
        unit = unit_of(name)
        named = re.findall(r"@(/\S+)", "\n".join(re.findall(r"^Exec\w+=.*$", unit, re.M)))
        check(f"the file of keys of {name}", named, files.get(name, []))
        check(f"keys in {name}", "DESKKEY" in unit, False)
        may_read = {"circ.service": "\nGroup=circ\n", **dict.fromkeys(("circ-day.service", "circ-sip2.service"), "\nSupplementaryGroups=circ\n")}
        check(f"who reads them in {name}", may_read.get(name, "") in unit, True)


def watched(prefix, place):
    """A full disk closes the desk: that is told at once, and the watch restarts the service then, and not before."""
    path, watch = os.path.join(place, "watched.db"), Watch(prefix, place)

    def send(key, *words):
        return run(f"{prefix}/bin/circ", "send", watch.port, f"@{keys_in(place)}", key, *words).stdout

    for at, words in enumerate(("begin-day 2026-03-02", "branch 1 5 Main", "kind 1 5 5 500", "rule 1 1 6 1 20 100")):
        check(words, run(f"{prefix}/bin/circ", "file", path, f"g{at}", *words.split()).stdout, "ok\n")

    def narrow():
        signal.signal(signal.SIGXFSZ, signal.SIG_IGN)
        resource.setrlimit(resource.RLIMIT_FSIZE, (os.path.getsize(path) + 65_536,) * 2)

    with desk(prefix, path, watch.port, stderr=subprocess.PIPE, preexec_fn=narrow) as serving:
        check("an open desk", watch.looks(), (0, "", []))
        lines = []
        while len(lines) < 5000 and (not lines or lines[-1] == '{"reply":"ok"}\n'):
            lines.append(send(f"a{len(lines)}", "acquire", str(len(lines) + 1), "1", "1", "1", "100", "Maps"))
        check("the fault that closes it", lines[-1], '{"fault":91}\n')
        said = [serving.stderr.readline() for _ in range(2)]
        check("what is said while it serves", (said[0].startswith("circ: the desk is closed: the database failed"), "fault 92" in said[1], serving.poll()), (True, True, None))
        check("a request after it", send("b", "branch", "2", "5", "Harbour"), '{"fault":92}\n')
        check("a page after it", send("p", "page", "1"), '{"refusal":11}\n')
        closed = '{"fault":92}'
        check("a closed desk", watch.looks(), (3, didnt(watch.port, closed, closed), ANEW))
        check("it is restarted once", watch.looks(), (3, didnt(watch.port, closed), []))


def told_of(prefix, place):
    """What fails is told in a line, and by a mail where MAILTO is set, once an hour for each unit; each unit that can
    fail calls for that, and what tells has no other to call."""
    there, kept = os.path.join(place, "post"), os.path.join(place, "mailed")
    os.mkdir(kept)
    sent = os.path.join(place, "sent")
    command(there, "journalctl", 'echo "journal of $2"')
    command(there, "sendmail", f'echo "$*" >>"{sent}"\ncat >>"{sent}"')
    tool, host = f"{prefix}/bin/circ-tell", run("uname", "-n").stdout.strip()

    def tells(unit, to="keeper@library.example", path=f"{there}:{os.environ['PATH']}"):
        told = run(tool, unit, kept, env={**{it: os.environ[it] for it in os.environ if it != "MAILTO"}, **({"MAILTO": to} if to else {}), "PATH": path})
        mail = open(sent, encoding="utf-8").read() if os.path.exists(sent) else ""
        if mail:
            os.remove(sent)
        return told.returncode, told.stdout, told.stderr, mail

    def line(unit):
        return f"{unit} failed on {host}: journalctl -u {unit} says why\n"

    def mail(unit):
        fields = f"To: keeper@library.example\nSubject: {unit} failed\nAuto-Submitted: auto-generated\nContent-Type: text/plain; charset=UTF-8\n"
        return f"-i -t\n{fields}\n{line(unit)}\njournal of {unit}\n"

    day, watch = "circ-day.service", "circ-watch.service"
    check("without MAILTO", tells(day, ""), (0, line(day), "", ""))
    check("with it", tells(day), (0, line(day), "", mail(day)))
    check("once more within the hour", tells(day), (0, line(day), "", ""))
    check("another unit", tells(watch), (0, line(watch), "", mail(watch)))
    before = time.time() - 3700
    os.utime(os.path.join(kept, day), (before, before))
    check("an hour later", tells(day), (0, line(day), "", mail(day)))
    os.utime(os.path.join(kept, day), (before, before))
    command(there, "sendmail", "cat >/dev/null\nexit 75")
    check("a mail that isn't taken", tells(day), (3, line(day), "circ-tell: sendmail took no mail for keeper@library.example\n", ""))
    command(there, "sendmail", f'echo "$*" >>"{sent}"\ncat >>"{sent}"')
    check("it is sent the next time", tells(day), (0, line(day), "", mail(day)))
    for name in ("basename", "uname", "find"):
        os.symlink(shutil.which(name), f"{there}/{name}")
    os.remove(f"{there}/sendmail")
    os.remove(os.path.join(kept, day))
    check("no sendmail", tells(day, path=there), (3, line(day), "circ-tell: MAILTO is set, and there is no command sendmail on the path\n", ""))
    for words in ((), (day,), ("", kept), ("../key", kept), ("-x", kept), ("a b", kept), (day, ""), (day, kept, "x")):
        told = run(tool, *words)
        check(f"the words {words}", (told.returncode, told.stderr), (4, "usage: circ-tell UNIT FOLDER\n"))
    services = [it for it in os.listdir(f"{TOP}/docs/operations") if it.endswith(".service")]
    calls = {it: re.findall(r"^OnFailure=(.*)$", unit_of(it), re.M) for it in services}
    check("what each unit calls for", calls, {it: [] if it == "circ-tell@.service" else ["circ-tell@%n.service"] for it in services})
    tells_with = re.findall(r"^(?:ExecStart|EnvironmentFile)=(.*)$", unit_of("circ-tell@.service"), re.M)
    check("what tells", tells_with, ["-/etc/circ/mail", "/usr/local/bin/circ-tell %i /run/circ-tell"])


def by_links(place):
    """The launcher by symbolic links: by whole names and by others, through a linked folder, and one after another."""
    launcher, there = os.path.join(TOP, "circ"), os.path.join(place, "links")
    os.makedirs(os.path.join(there, "deep", "folder"))
    links = {
        "whole": launcher,
        "relative": os.path.relpath(launcher, there),
        "of a link": "relative",
        "folder": os.path.join("deep", "folder"),
        os.path.join("deep", "folder", "back"): os.path.join("..", "..", "of a link"),
    }
    for name, target in links.items():
        os.symlink(target, os.path.join(there, name))
    made = f"circ: {place}/linked.db: there was no library; a new one was made\n"
    for name in ("whole", "relative", "of a link", os.path.join("deep", "folder", "back"), os.path.join("folder", "back")):
        told = run(os.path.join(there, name), "file", f"{place}/linked.db", "g1", "begin-day", "2026-03-02", cwd=place)
        check(f"the launcher by the link {name}", (told.returncode, told.stdout, told.stderr), (0, "ok\n", made if name == "whole" else ""))
    # through a linked folder, whose .. is that of the folder to which it leads
    os.symlink(os.path.join(TOP, "tools"), os.path.join(there, "tools"))
    for tool in (["program"], ["page", "backup"]):
        direct, linked = (run(os.path.join(it, "tools", tool[0]), *tool[1:]) for it in (TOP, there))
        check(f"{tool[0]} by a linked folder", (linked.returncode, linked.stdout, linked.stderr), (0, direct.stdout, ""))
    told = run("sh", "-c", 'cd "$0" && ./relative file "$1" g1 begin-day 2026-03-02', there, f"{place}/linked.db")
    check("the launcher by a link in this folder", (told.returncode, told.stdout), (0, "ok\n"))
    told = run("sh", "-c", 'PATH="$0:$PATH"; relative file "$1" g1 begin-day 2026-03-02', there, f"{place}/linked.db")
    check("the launcher by a link on the path", (told.returncode, told.stdout), (0, "ok\n"))


def over_a_running_program(install, prefix, place):
    """A program that serves goes on while another is installed over it, and nothing is left beside the files."""
    port = free_port()
    with subprocess.Popen([f"{prefix}/bin/circ", "serve", f"{place}/running.db", port, "1", "9", "deskkey00001"], stdout=subprocess.PIPE, text=True) as serving:
        check("it serves", serving.stdout.readline(), f"listening on {port}\n")
        before = os.stat(f"{prefix}/bin/circ").st_ino
        done = run(install, prefix)
        check("what install says over a running program", (done.returncode, done.stdout.splitlines(), done.stderr), (0, [f"{prefix}/{path}" for path in FILES], ""))
        check("another file is there", os.stat(f"{prefix}/bin/circ").st_ino != before, True)
        told = run(f"{prefix}/bin/circ", "send", port, "deskkey00001", "g1", "begin-day", "2026-03-02")
        check("the one that runs answers the new one", (told.returncode, told.stdout), (0, '{"reply":"ok"}\n'))
        serving.kill()
    check("the files after it", files_in(prefix), sorted(FILES))


def asked_for_help(prefix):
    """Each program tells its usage and its version on standard output, with status 0, and needs no other word."""
    version = run(f"{prefix}/bin/circ", "--version").stdout
    check("the version of circ", bool(re.fullmatch(r"circ \d+\.\d+\.\d+, schema \d+\n", version)), True)
    for name in (os.path.basename(it) for it in FILES if it.startswith("bin/")):
        plain = run(f"{prefix}/bin/{name}")
        usage = plain.stderr.splitlines()[0]
        for word in ("-h", "--help"):
            told = run(f"{prefix}/bin/{name}", word)
            check(f"{name} {word}", (told.returncode, told.stderr, told.stdout.splitlines()[0]), (0, "", usage))
            check(f"{name} {word} tells more than its usage", len(told.stdout.splitlines()) > 1, True)
        told = run(f"{prefix}/bin/{name}", "--version")
        check(f"{name} --version", (told.returncode, told.stdout, told.stderr), (0, version, ""))


def files_in(prefix):
    return sorted(os.path.relpath(os.path.join(at, name), prefix) for at, _, names in os.walk(prefix) for name in names)


def free_port():
    with socket.socket() as found:
        found.bind(("127.0.0.1", 0))
        return str(found.getsockname()[1])


def main():
    install = os.path.join(TOP, "install")
    with tempfile.TemporaryDirectory() as place:
        prefix = os.path.join(place, "under a name with spaces")
        done = run(install, prefix)
        check("what install says", (done.returncode, done.stdout.splitlines()), (0, [f"{prefix}/{path}" for path in FILES]))
        check("the files that are there", files_in(prefix), sorted(FILES))
        told = run(f"{prefix}/bin/circ", "file", f"{place}/town.db", "g1", "begin-day", "2026-03-02", cwd=place)
        check("the installed program", (told.returncode, told.stdout), (0, "ok\n"))
        patrons = os.path.join(place, "patrons.csv")
        with open(patrons, "w", encoding="utf-8") as file:
            file.write("patron,kind,card-key,name\n1,1,cardkey00001,Ann Bell\n")
        port = free_port()
        keys = f"@{keys_in(place)}"
        serve = [f"{prefix}/bin/circ", "serve", f"{place}/town.db", port, "1", "1", keys]
        with subprocess.Popen(serve, stdout=subprocess.PIPE, text=True) as serving:
            check("the installed program serves", serving.stdout.readline(), f"listening on {port}\n")
            told = run(f"{prefix}/bin/circ-enrol", port, keys, patrons, f"{place}/refused.csv", cwd=place)
            serving.kill()
        refused = "row 1 refused 17: unknown kind of patron (patron-1)\naccepted 0 refused 1\n"
        check("a list of patrons, with the meaning of the installed manual page", (told.returncode, told.stdout, told.stderr), (2, refused, ""))
        told = run(f"{prefix}/bin/circ-enrol")
        check("how it is written", (told.returncode, told.stderr), (4, "usage: circ-enrol PORT DESKKEY|@KEYFILE LIST REFUSED\n"))
        # on the path is another circ, which finds nothing sound
        os.symlink("/bin/false", f"{place}/circ")
        told = run(f"{prefix}/bin/circ-backup", "--no-service", f"{place}/town.db", f"{place}/backups", "3", cwd=place, env={**os.environ, "PATH": f"{place}:{os.environ['PATH']}"})
        made = [f"{place}/backups/{name}" for name in os.listdir(f"{place}/backups")]
        check("a backup by the installed program", (told.returncode, told.stdout.splitlines(), told.stderr), (0, made, ""))
        check("there is one", len(made), 1)
        told = run(f"{prefix}/bin/circ-backup")
        check("how that is written", (told.returncode, told.stderr), (4, "usage: circ-backup [--service NAME | --no-service] [--no-audit] [--fewer] LIBRARY FOLDER KEEP\n"))
        again = run(install, prefix)
        check("a second time", (again.returncode, again.stdout), (0, done.stdout))
        source = f'source "{prefix}/{COMPLETION}"; COMP_WORDS=("{prefix}/bin/circ" file town.db k1 unsh); COMP_CWORD=4; _circ; echo "${{COMPREPLY[*]}}"'
        check("the completion", run("bash", "-c", source).stdout, "unshelve unshelve-cancelled\n")
        source = f'source "{prefix}/{COMPLETION}"; COMP_WORDS=("{prefix}/bin/circ" send 8080 deskkey00001 k1 pl); COMP_CWORD=5; _circ; echo "${{COMPREPLY[*]}}"'
        check("the completion of a word that is sent", run("bash", "-c", source).stdout, "place-hold place-hold-from\n")
        source = f'source "{prefix}/{COMPLETION}"; COMP_WORDS=("{prefix}/bin/circ" file town.db k1 gr); COMP_CWORD=4; _circ; echo "${{COMPREPLY[*]}}"'
        check("the completion of one command alone", run("bash", "-c", source).stdout, "grace\n")
        source = f'source "{prefix}/{COMPLETION}"; COMP_WORDS=("{prefix}/bin/circ" send 8080 deskkey00001 k1 cop); COMP_CWORD=5; _circ; echo "${{COMPREPLY[*]}}"'
        check("the completion of a question", run("bash", "-c", source).stdout, "copy-barcode copy copies\n")
        for at, words in ((6, f"serve town.db 8080 1 1 @{place}/des"), (3, f"send 8080 @{place}/des")):
            source = f'source "{prefix}/{COMPLETION}"; COMP_WORDS=("{prefix}/bin/circ" {words}); COMP_CWORD={at}; _circ; echo "${{COMPREPLY[*]}}"'
            check(f"the completion of {words}", run("bash", "-c", source).stdout, f"@{place}/desk.keys\n")
        source = f'source "{prefix}/{COMPLETION}"; COMP_WORDS=("{prefix}/bin/circ" mig); COMP_CWORD=1; _circ; echo "${{COMPREPLY[*]}}"'
        check("the completion of a run", run("bash", "-c", source).stdout, "migrate\n")
        part(over_a_running_program, install, prefix, place)
        part(by_links, place)
        part(mornings, prefix, place)
        part(days, prefix, place)
        part(refused_days, prefix, place)
        part(units, prefix, place)
        part(no_key_in_a_unit)
        part(made_by_hand, prefix, place)
        part(asked_for_help, prefix)
        part(of_before, prefix, place)
        part(silent, prefix, place)
        part(watched, prefix, place)
        part(told_of, prefix, place)
        file = os.path.join(place, "file")
        open(file, "w", encoding="utf-8").close()
        check("a place that can't be", run(install, f"{file}/below").returncode, 1)
    check("no place", run(install).returncode, 4)


if __name__ == "__main__":
    run_script(main)
