#!/usr/bin/env python3
"""Runs `circ serve` and `circ send` with a file of keys: which files are good, whom each clerk's key lets in, and
whose hand each accepted request was.

    tests/gate/clerks.py

Which line of a file is wrong, and the answers of single requests, are worked out by hand from docs/RULES.md. Clerks
who come at once are compared with `desk_rules`: each answer has to be that of the rules at some place of the list that
the file kept, after what was answered before it and before what was sent later.
"""

import os
import pickle
import random
import re
import shutil
import socket
import sqlite3
import subprocess
import tempfile
import threading
import time
from collections import Counter
from concurrent.futures import ThreadPoolExecutor
from contextlib import closing

from room import TOP
from lib import runs
from lib.checking import check, part, run_script
from lib.messages import NOT_UNDERSTOOD, message
from lib.program import program
from lib.questions import every_question
from lib.random_histories import Clerk
from lib.runs import GROUND, circ, rows
from lib.serving import ANNS_PAGE, DESK_KEY, Serving, a_library, by_patron, free_port, put_keys, started, told
from reference.desk_rules import ONLY_ASK, Library
from reference.outer_forms import WORDS, read_keys, said
from stories import stories_of

PROGRAM = program()
ANN, BO, KIOSK = ("ann", "desk", "annkey000001"), ("bo", "desk", "bokey0000001"), ("kiosk", "lending", "kioskkey0001")
CLERKS = [ANN, BO, KIOSK]
MAY = ("check-out", "check-in", "renew", "page", "copy", "borrower", "find-barcode",
       "today")  # what a lending clerk may send
KEYS = (*(key for _, _, key in CLERKS), DESK_KEY)
A_LINE = b"ann desk annkey000001\n"
BO_LINE = b"bo desk bokey0000001\n"


def lines_of(count, begin=1):
    """So many good lines."""
    return b"".join(b"clerk%d desk clerkkey%04d\n" % (at, at) for at in range(begin, begin + count))


LONGEST = [(f"{at:04}{'n' * 12}", ("desk", "lending")[at % 2], f"{at:04}{'K' * 28}") for at in range(99)]
GOOD = {
    "one clerk": A_LINE,
    "a lending clerk alone": b"kiosk lending kioskkey0001\n",
    "the shortest": b"a desk 12345678\n",
    "99 of the longest": "".join(f"{' '.join(it)}\n" for it in LONGEST).encode(),
    "names and keys of digits and of capitals": b"1 desk 00000000\nA lending AAAAAAAA\na desk aaaaaaaa\n",
    "a name that is a role, and one that is another's key": b"desk lending lending1\nlending desk deskdesk\nlending1 desk lending2\n",
    "a key that is another's with more": A_LINE + b"bo desk annkey0000011\n",
}
# each file, and its first wrong line
BAD = {
    "an empty one": (b"", 1),
    "a newline alone": (b"\n", 1),
    "no newline at the end": (b"ann desk annkey000001", 1),
    "none at the end of the last of three": (A_LINE + BO_LINE + b"cy desk cykey0000001", 3),
    "an empty line at the end": (A_LINE + b"\n", 2),
    "an empty line between": (A_LINE + b"\n" + BO_LINE, 2),
    "two spaces": (b"ann  desk annkey000001\n", 1),
    "two spaces before the key": (b"ann desk  annkey000001\n", 1),
    "a space before": (A_LINE + b" bo desk bokey0000001\n", 2),
    "a space after": (b"ann desk annkey000001 \n", 1),
    "a space alone": (b" \n", 1),
    "tabs": (b"ann\tdesk\tannkey000001\n", 1),
    "another role": (b"ann clerk annkey000001\n", 1),
    "a role in capitals": (b"ann Desk annkey000001\n", 1),
    "a beginning of a role": (b"ann des annkey000001\n", 1),
    "a role with more": (b"ann desks annkey000001\n", 1),
    "no role": (b"ann annkey000001\n", 1),
    "no name": (b" desk annkey000001\n", 1),
    "no key": (b"ann desk\n", 1),
    "no key behind a space": (b"ann desk \n", 1),
    "a fourth word": (b"ann desk annkey000001 2026\n", 1),
    "a short key": (b"ann desk annkey\n", 1),
    "a key of 7": (b"ann desk 1234567\n", 1),
    "a key of 33": (b"ann desk " + b"k" * 33 + b"\n", 1),
    "a key with a hyphen": (b"ann desk annkey-00001\n", 1),
    "a key with a slash": (b"ann desk annkey/00001\n", 1),
    "a key in quotes": (b'ann desk "annkey000001"\n', 1),
    "a name of 17": (b"n" * 17 + b" desk annkey000001\n", 1),
    "a name with a hyphen": (b"ann-bell desk annkey000001\n", 1),
    "a name with a slash": (b"ann/bell desk annkey000001\n", 1),
    "a name with a point": (b"a.bell desk annkey000001\n", 1),
    "a letter with a mark": ("z\u00f3e desk annkey000001\n".encode(), 1),
    "digits of another script": ("ann desk annkey00000\u0661\n".encode(), 1),
    "a name twice": (A_LINE + b"ann desk bokey0000001\n", 2),
    "a name twice, in two roles": (A_LINE + BO_LINE + b"ann lending annkey000002\n", 3),
    "a key twice": (A_LINE + b"bo desk annkey000001\n", 2),
    "a key twice, in two roles": (A_LINE + b"kiosk lending kioskkey0001\nbo desk kioskkey0001\n", 3),
    "the same line twice": (A_LINE + BO_LINE + A_LINE, 3),
    "two wrong lines": (A_LINE + b"bo\n" + b"cy\n", 2),
    "a name twice before a wrong line": (A_LINE + b"ann desk bokey0000001\ncy\n", 2),
    "a wrong line before a name twice": (b"cy\n" + A_LINE + A_LINE, 1),
    "a remark": (b"# clerks\n" + A_LINE, 1),
    "a remark at the end": (A_LINE + b"# clerks\n", 2),
    "a remark behind a line": (b"ann desk annkey000001 # of Main\n", 1),
    "CR LF": (A_LINE.replace(b"\n", b"\r\n"), 1),
    "CR LF at the last of two": (A_LINE + BO_LINE.replace(b"\n", b"\r\n"), 2),
    "CR alone": ((A_LINE + BO_LINE).replace(b"\n", b"\r"), 1),
    "a form feed between": (A_LINE[:-1] + b"\f" + BO_LINE, 1),
    "a byte order mark": (b"\xef\xbb\xbf" + A_LINE, 1),
    "UTF-16": (A_LINE.decode().encode("utf-16"), 1),
    "NUL": (A_LINE + b"bo desk bokey\x000000001\n", 2),
    "NUL at the end": (A_LINE + b"\x00", 2),
    "NUL behind the key": (b"ann desk annkey000001\x00\n", 1),
    "no UTF-8": (A_LINE + b"bo desk bokey\xff0000001\n", 2),
    "no UTF-8 in a name": (b"\xc3 desk annkey000001\n", 1),
    "a half letter at the end": (A_LINE + b"\xe2\x82", 2),
    "a file of the other kind": (b"DESKKEY=annkey000001\n", 1),
    "a key alone": (b"annkey000001\n", 1),
    "100 lines": (lines_of(100), 100),
    "99 lines, and an empty one": (lines_of(99) + b"\n", 100),
    "99 lines, and a beginning of one": (lines_of(99) + b"x", 100),
    "99 lines, the last without a newline": (lines_of(99)[:-1], 99),
    "100 lines, the 40th wrong": (lines_of(39) + b"x\n" + lines_of(60, 40), 40),
    "99 lines, the last with the first's key": (lines_of(98) + b"last desk clerkkey0001\n", 99),
    "10 MB of lines": (lines_of(99) + b"".join(b"name%d desk manykeys%07d\n" % (at, at) for at in range(340_000)), 100),
    "10 MB of one letter": (b"a" * 10_000_000, 1),
    "10 MB of newlines": (b"\n" * 10_000_000, 1),
    "10 MB of NUL behind a good line": (A_LINE + bytes(10_000_000), 2),
    "10 MB of a key": (b"ann desk " + b"k" * 10_000_000 + b"\n", 1),
    "10 MB of bytes by chance": (random.Random(28).randbytes(10_000_000), 1),
}


def tried(words, lines, status, keys=KEYS, **how):
    """A run of these words, which ends by itself: its lines, its status, what it says, and that no key is told."""
    run = subprocess.run([PROGRAM, *words], capture_output=True, timeout=60, check=False, **how)
    wanted = message(words, lines)
    check(f"{words}", (run.stdout.decode(), run.stderr, run.returncode), (lines, wanted, status))
    check(f"keys that are told by {words}", [key for key in keys if key.encode() in run.stdout + run.stderr], [])


def refused_keys(place, path, keys=KEYS, **how):
    """`serve` and `send` tell that these are no keys, and neither makes a library nor looks at the port."""
    absent = os.path.join(place, "absent.db")
    with socket.create_server(("127.0.0.1", 0)) as taken:
        port = str(taken.getsockname()[1])
        tried(["serve", absent, port, "1", "1", f"@{path}"], "fault keys\n", 3, keys, **how)
        tried(["send", port, f"@{path}", "s1", "today"], "fault keys\n", 3, keys, **how)
    check("no library is made", os.path.exists(absent), False)


def bad_files(place):
    """Each bad file: its first wrong line is told, of itself nothing."""
    path = os.path.join(place, "bad.keys")
    for what, (text, line) in BAD.items():
        check(f"the rules at {what}", read_keys(text)[1], line)
        # also one that others may read is told as bad alone
        put_keys(path, text, 0o644 if "twice" in what else 0o600)
        check(f"what is said of {what}", f"circ: {path}: line {line}: wanted is NAME ROLE KEY, ".encode() in message(["send", "1", f"@{path}", "s1", "today"], "fault keys\n"), True)
        refused_keys(place, path)


def as_nobody():
    """The program as another user runs it, where the tests may become one."""
    return {} if os.getuid() else {"user": 65534, "group": 65534, "extra_groups": []}


def no_files(place):
    """What can't be read: an absent file, a folder, one of another user, a link that leads nowhere."""
    folder = os.path.join(place, "a folder")
    os.mkdir(folder)
    for name in ("absent.keys", "a folder", os.path.join("absent", "desk.keys"), "dangling", "round"):
        path = os.path.join(place, name)
        if name in ("dangling", "round"):
            os.symlink({"dangling": "nowhere", "round": "round"}[name], path)
        check("what is said of it", f"circ: {path}: the file can't be read\n".encode() in message(["send", "1", f"@{path}", "s1", "today"], "fault keys\n"), True)
        refused_keys(place, path)
    tried(["send", "1", "@" + "x" * 300, "s1", "today"], "fault keys\n", 3)
    # where another user's folder can be entered, but the file not read
    room = os.path.join(place, "of another")
    os.mkdir(room, 0o755)
    os.chmod(place, 0o755)
    path, copied = put_keys(os.path.join(room, "desk.keys"), CLERKS, 0o000), shutil.copy(PROGRAM, os.path.join(room, "circ"))
    for words in (["serve", os.path.join(room, "absent.db"), "1", "1", "1", f"@{path}"], ["send", "1", f"@{path}", "s1", "today"]):
        run = subprocess.run([copied, *words], capture_output=True, timeout=60, check=False, **as_nobody())
        wanted = f"circ: {path}: the file can't be read\ncirc: the file of keys can't be read, or a line of it isn't NAME ROLE KEY\n"
        check(f"a file of another user, {words[0]}", (run.stdout, run.stderr.decode(), run.returncode), (b"fault keys\n", wanted, 3))


def words_of_keys(place):
    """What is no word for a key, and which words come before the file is read."""
    path, bad = put_keys(os.path.join(place, "words.keys"), CLERKS), put_keys(os.path.join(place, "words_bad.keys"), b"")
    absent, port = os.path.join(place, "absent.db"), str(free_port())
    for word in ("@", "", "short", "deskkey-0001", f"deskkey00001@{path}"):
        tried(["serve", absent, port, "1", "1", word], NOT_UNDERSTOOD, 4)
        tried(["send", port, word, "s1", "today"], NOT_UNDERSTOOD, 4)
    for keys in (path, bad):
        for words in (["serve", absent, "0", "1", "1", f"@{keys}"], ["serve", absent, port, "9", "1", f"@{keys}"], ["serve", absent, port, "1", "0", f"@{keys}"], ["serve", absent, port, "1", "1", f"@{keys}", "more"],
                      ["serve", absent, port, "1", f"@{keys}"], ["send", "0", f"@{keys}", "s1", "today"], ["send", port, f"@{keys}", "s 1", "today"], ["send", port, f"@{keys}", "s1"], ["send", port, f"@{keys}", "ann/s1", "today"],
                      ["file", absent, f"@{keys}", "today"]):
            tried(words, NOT_UNDERSTOOD, 4)
    # a word of the command that isn't understood is the desk's to tell, so the file is read before; nobody listens on
    # this port, and nobody else takes it
    with socket.socket() as taken:
        taken.bind(("127.0.0.1", 0))
        tried(["send", str(taken.getsockname()[1]), f"@{path}", "s1", "today", "1"], "fault network\n", 3)
    check("no library is made", os.path.exists(absent), False)


def good_files(place):
    """Each good file: its clerks are let in, each by the own key."""
    path = a_library(place, "good.db")
    for what, text in GOOD.items():
        clerks, wrong = read_keys(text)
        check(f"the rules at {what}", wrong, None)
        keys = put_keys(os.path.join(place, "good.keys"), text)
        with Serving(path, len(clerks) + 1, clerks=keys) as serving:
            for name, role, key in clerks:
                check(f"{name}, {role}, of {what}", serving.desk("q", ["page", "1"], key)[1], ANNS_PAGE)
            check(f"another key, {what}", serving.desk("q", ["page", "1"], "otherkey0001"), (403, b'{"refusal":81}'))
    # as a link, by a name with blanks, marks and an at sign, from the folder where it is, and through a pipe
    keys = put_keys(os.path.join(place, "@a keyfile \u00fc"), CLERKS)
    os.symlink(keys, os.path.join(place, "a link"))
    with Serving(path, 4, clerks=os.path.join(place, "a link")) as serving:
        for word, how in ((f"@{keys}", {}), ("@@a keyfile \u00fc", {"cwd": place}), ("@/dev/stdin", {"stdin": open(keys, "rb")}), ("@/dev/stdin", {"input": open(keys, "rb").read()})):
            run = subprocess.run([PROGRAM, "send", str(serving.port), word, "q", "today"], capture_output=True, timeout=60, check=False, **how)
            check(f"{word} {list(how)}", (run.stdout, run.stderr, run.returncode), (b'{"reply":"today 2026-03-02"}\n', b"", 0))


def as_shown(place):
    """The file of keys of docs/USING.md, and the two runs that it shows with it."""
    with open(os.path.join(TOP, "docs", "USING.md"), encoding="utf-8") as file:
        page = file.read().partition("\n### Keys of clerks\n")[2].partition("\n## ")[0]
    shown, *typed = [[line.strip() for line in block.splitlines()] for block in re.findall(r"((?:^    .*\n)+)", page, re.M)]
    typed = [line for block in typed for line in block]
    folder = os.path.join(place, "shown")
    os.mkdir(folder)
    a_library(folder, "day.db")
    clerks, wrong = read_keys(put_keys_of(folder, shown))
    check("the clerks that are shown", (clerks, wrong), (CLERKS, None))
    check("what is typed", [line.split()[:2] for line in typed], [["./circ", "serve"], ["./circ", "send"]])
    words = typed[0].split()
    run, port, first = started(lambda port: [str(port) if it == "8080" else it for it in words[1:]], cwd=folder)
    try:
        check("it serves", first, f"listening on {port}\n")
        sent_ = subprocess.run([PROGRAM, *(str(port) if it == "8080" else it for it in typed[1].split()[1:])], capture_output=True, timeout=60, check=False, cwd=folder)
        check(typed[1], (sent_.stdout, sent_.stderr, sent_.returncode), (b'{"reply":"end"}\n', b"", 0))
    finally:
        run.kill()
        run.communicate()


def put_keys_of(folder, lines):
    """Writes the file of keys that a page shows, and gives its bytes."""
    text = "".join(f"{line}\n" for line in lines).encode()
    put_keys(os.path.join(folder, "desk.keys"), text)
    return text


def who_may_read(place):
    """A good file that all other users may read is told in a line, and all is as ever."""
    path = a_library(place, "modes.db")
    for mode in (0o600, 0o640, 0o660, 0o400, 0o711, 0o602, 0o644, 0o604, 0o444, 0o664):
        keys = put_keys(os.path.join(place, f"mode {mode:o}"), CLERKS, mode)
        with Serving(path, 1, clerks=keys) as serving:
            words = ["send", str(serving.port), f"@{keys}", "q", "today"]
            tried(words, '{"reply":"today 2026-03-02"}\n', 0)
        line = f"circ: {keys}: other users may read these keys: take that from them with chmod o-r\n".encode()
        check(f"what is said with the mode {mode:o}", message(words, '{"reply":"today 2026-03-02"}\n'), line if mode & 4 else b"")
        # before what is said of a new library, or of a port that is taken
        with socket.create_server(("127.0.0.1", 0)) as taken:
            port = str(taken.getsockname()[1])
            words = ["serve", os.path.join(place, f"{mode:o}.db"), port, "1", "1", f"@{keys}"]
            run = subprocess.run([PROGRAM, *words], capture_output=True, timeout=60, check=False)
            check(f"a port that is taken, {mode:o}", (run.stdout, run.stderr, run.returncode), (b"fault network\n", message(words, "fault network\n", made=True), 3))


# The key that is shown, the request's own, the words, the answer, and under which key it is kept then.
WORKED = [
    (ANN[2], "c1", "check-out 2 11 1", "loan 1 due 2026-03-09", "ann/c1"),
    (ANN[2], "d1", "begin-day 2026-03-17", "ok", "ann/d1"),
    (KIOSK[2], "i1", "check-in 11 1", "fine 100 shelf 1", "kiosk/i1"),
    (ANN[2], "r1", "pay 2 10", "owed 90", "ann/r1"),
    (BO[2], "r1", "pay 2 10", "owed 80", "bo/r1"),
    (ANN[2], "r1", "pay 2 10", "owed 90", "ann/r1"),
    (ANN[2], "r1", "pay 2 11", "refused 80", "ann/r1"),
    (BO[2], "r1", "pay 2 10", "owed 80", "bo/r1"),
    (KIOSK[2], "q", "borrower 3", "patron 3 owed 0 name Cy Dunn\nkind 1", None),
    (KIOSK[2], "k1", "check-in 11 1", "fine 0 shelf 1", "kiosk/k1"),
    (KIOSK[2], "k2", "waive 2 1", "refused 81", None),
    (KIOSK[2], "k3", "find-patrons 0 ann", "refused 81", None),
    (DESK_KEY, "q", "today", "refused 81", None),
    # the kiosk may not even where it would be refused, or another one's reply is kept under that name of a request
    (KIOSK[2], "r1", "pay 2 10", "refused 81", None),
    (KIOSK[2], "k4", "waive 9 1", "refused 81", None),
    (KIOSK[2], "k5", "check-out 9 10 1", "refused 11", None),
    (BO[2], "k1", "check-in 11 1", "fine 0 shelf 1", "bo/k1"),
    # neither another's key nor nearly the own
    ("cardkey00001", "q", "today", "refused 81", None),
    ("ANNKEY000001", "q", "today", "refused 81", None),
    ("annkey0000011", "q", "today", "refused 81", None),
    ("annkey00000", "q", "today", "refused 81", None),
    ("bnnkey000001", "q", "today", "refused 81", None),
    (ANN[2], "k" * 40, "kind 2 1 1 0", "ok", "ann/" + "k" * 40),
]


def worked(place):
    """The worked requests of clerks, and under which keys they are kept."""
    path, library = a_library(place, "worked.db"), Library()
    for key, words, _ in GROUND:
        library.handle(key, words)
    with Serving(path, len(WORKED) + 2, clerks=CLERKS, workers=2) as serving:
        for shown, key, text, answer, kept in WORKED:
            words = text.split()
            check(f"{key} {words} by the rules", said(library, CLERKS, None, shown, key, words), answer)
            check(f"{key} {words}", serving.desk(key, words, shown), told(answer))
            if kept:
                check(f"{kept} is kept", runs.rows_now(path, f"SELECT text FROM kept WHERE caller = 0 AND key = '{kept}'"), [(library.kept[0, kept][0],)])
        # a clerk's key opens no patron's page, and words that aren't understood are told before any key is looked at
        check("a clerk's key as a card key", serving.ask("GET", "/patrons/1", {"Card-Key": ANN[2], "Desk-Key": ANN[2]})[:2], (403, b'{"refusal":81}'))
        check("words that aren't understood", serving.desk("k9", ["waive", "01", "1"], "otherkey0001"), (400, b'{"status":400}'))
    runs.the_rows_are(path, library)
    names = [key.partition("/")[0] for (key,) in rows(path, "SELECT key FROM kept WHERE key LIKE '%/%' ORDER BY rowid")]
    check("whose hand each was", names, ["ann", "ann", "kiosk", "ann", "bo", "kiosk", "bo", "ann"])


# What clerks send after the story of barcodes and counters: the key that is shown, the request's own, the words and the
# answer.
AT_COUNTERS = [
    (ANN[2], "r1", "pay-at 2 10 1", "owed 3090"),
    (BO[2], "r1", "pay-at 2 10 1", "owed 3080"),
    (ANN[2], "r1", "pay-at 2 10 1", "owed 3090"),
    (ANN[2], "r1", "pay-at 2 11 1", "refused 80"),
    (KIOSK[2], "q1", "find-barcode a1", "copy 10"),
    (KIOSK[2], "q2", "borrower 3", "patron 3 owed 600 name Cy Dunn\nkind 1\nbarcode 30000100000010"),
    (KIOSK[2], "q3", "check-in 12 1", "fine 0 shelf 1"),
    (KIOSK[2], "q4", "waive 2 1", "refused 81"),
    (KIOSK[2], "q5", "find-patrons 0 ann", "refused 81"),
    (KIOSK[2], "q6", "pay-at 2 10 1", "refused 81"),
    (KIOSK[2], "q7", "charge 2 10 1 Copies", "refused 81"),
    (KIOSK[2], "q8", "till-at 1 2026-03-17", "refused 81"),
    (KIOSK[2], "q9", "drop-barcode a1", "refused 81"),
    (DESK_KEY, "s1", "today", "refused 81"),
]


def counted_at(place, is_sent):
    """The story of barcodes and counters, its desk's requests posted to eight workers, or sent by `circ send`: the
    library that it leaves, and the same by the rules."""
    path, library = a_library(place, f"counters{is_sent:d}.db"), Library()
    for key, words, _ in GROUND:
        library.handle(key, words)
    (story,) = stories_of(os.path.join(TOP, "tests", "data", "stories", "labels.txt"))
    asked = [(step, key, words) for step in story.steps for key,
             words in step.requests() if step.answer != ["words not understood"]]
    with Serving(path, len(asked), workers=8) as serving:
        for step, key, words in asked:
            line = step.by_rules(library, key, words)
            if step.patron is not None:
                found = serving.ask(*by_patron(step.patron, step.card_key, key, words))[:2]
                check(f"{key} {words}", found, told(line))
            elif is_sent:
                tried(["send", str(serving.port), DESK_KEY, key, *words], told(line)[1].decode() + "\n", runs.status_of(line))
            else:
                check(f"{key} {words}", serving.desk(key, words), told(line))
    return path, library


def at_counters(place):
    """The worked requests of clerks at counters, on the library that the story of barcodes and counters leaves,
    whichever way its requests came."""
    other, by_rules = counted_at(place, True)
    runs.the_rows_are(other, by_rules)
    path, library = counted_at(place, False)
    with Serving(path, len(AT_COUNTERS) + 1, clerks=CLERKS, workers=8) as serving:
        for shown, key, text, answer in AT_COUNTERS:
            words = text.split()
            check(f"{key} {words} by the rules", said(library, CLERKS, None, shown, key, words), answer)
            check(f"{key} {words}", serving.desk(key, words, shown), told(answer))
        tried(["send", str(serving.port), f"@{path}.keys", "s1", "today"], '{"reply":"today 2026-03-17"}\n', 0)
    runs.the_rows_are(path, library)
    kept = rows(path, "SELECT key, reply FROM kept WHERE text = 'pay-at 2 10 1' ORDER BY rowid")
    check("whose hand each payment was", kept, [("ann/r1", "owed 3090"), ("bo/r1", "owed 3080")])


def sent(place):
    """`circ send @FILE` uses the key of the first line, whoever stands there and whatever file the desk has."""
    path, library = a_library(place, "sent.db"), Library()
    for key, words, _ in GROUND:
        library.handle(key, words)
    files = {name: put_keys(os.path.join(place, f"sent {name}.keys"), it) for name, it in {
        "ann": [ANN], "kiosk": [KIOSK, ANN], "bo": [BO, ANN, KIOSK], "other": [("ann", "desk", "otherkey0001"), BO], "99": [BO, *LONGEST[1:]]}.items()}
    turns = [
        ("kiosk", "s1", "today"), ("ann", "s1", "check-out 1 10 1"), ("bo", "s1", "check-in 10 1"), ("kiosk", "s1", "check-out 1 10 1"), ("kiosk", "s2", "waive 1 1"), ("kiosk", "s2", "place-hold 1 100 1"), ("ann", "s1", "check-out 1 10 1"),
        ("ann", "s1", "check-out 1 11 1"), ("other", "s3", "today"), ("99", "s4", "pay 1 1"), ("bo", "s5", "kind 2 1 1 0"),
    ]
    keys = {"ann": ANN[2], "kiosk": KIOSK[2], "bo": BO[2], "other": "otherkey0001", "99": BO[2]}
    with Serving(path, len(turns) + 1, clerks=CLERKS) as serving:
        for name, key, text in turns:
            words = text.split()
            status, body = told(said(library, CLERKS, None, keys[name], key, words))
            tried(["send", str(serving.port), f"@{files[name]}", key, *words], body.decode() + "\n", 0 if status == 200 else 2, (*keys.values(),))
        tried(["send", str(serving.port), ANN[2], "s6", "week", "1", "ooooooo"], told(said(library, CLERKS, None, ANN[2], "s6", ["week", "1", "ooooooo"]))[1].decode() + "\n", 0)
    runs.the_rows_are(path, library)


# Words for each command and question, which are accepted in their turn where anybody may send them.
EACH = [it.split() for it in (
    "begin-day 2026-03-03", "branch 3 5 Hill", "week 2 ooooooo", "close-day 1 2026-12-24", "open-day 1 2026-12-24", "kind 2 2 2 500", "rule 2 1 6 1 20 100", "grace 2 1 1", "patron 4 1 cardkey00004 Di", "acquire 12 100 1 1 2500 Rivers",
    "card-key 1 newkey000001", "amend-patron 1 1 Ann", "amend-branch 1 5 Main", "amend-title 100 Rivers", "amend-copy 10 1 2400", "rehome 30 2", "check-out 1 10 1", "renew 1", "check-in 10 1", "place-hold 2 200 1", "place-hold-from 3 100 1 2026-12-24",
    "cancel-hold 1", "unshelve 2", "unshelve-cancelled 2", "missing 11", "withdraw 11", "charge 1 10 1 Copies",
    "pay 1 1", "waive 1 1", "pay-at 1 1 1",
    "copy-barcode 10 c10", "patron-barcode 1 p1", "drop-barcode p1", "page 1")]
EACH += every_question(P="1", C="10", B="1", T="100", K="1", N="2026-03-02", A="0", F="rivers", W="c10")


def lending(place):
    """A lending clerk sends every command and question, each before and after a clerk of the desk does: it is answered
    as the rules say, and what it may not send changes nothing, whatever was kept before."""
    path, library, told_of = a_library(place, "lending.db"), Library(), Counter()
    for key, words, _ in GROUND:
        library.handle(key, words)
    check("every command and question is tried", sorted(it[0] for it in EACH), sorted(WORDS))
    with Serving(path, 3 * len(EACH), clerks=CLERKS) as serving:
        for words in EACH:
            for _, role, key in (KIOSK, ANN, KIOSK):
                line = said(library, CLERKS, None, key, f"e-{words[0]}", words)
                told_of[role, line == "refused 81", line.startswith("refused")] += 1
                check(f"{words} by {role}: {line!r}", serving.desk(f"e-{words[0]}", words, key), told(line))
                check(f"{words} by {role} is 81 just where it may not", line == "refused 81", role == "lending" and words[0] not in MAY)
    runs.the_rows_are(path, library)
    check("most was accepted at the desk", told_of["desk", False, False] > 40, True)
    check("how often lending was refused as a lending clerk's", told_of["lending", True, True], 2 * (len(WORDS) - len(MAY)))
    check("what is kept of it", sorted(key for (key,) in rows(path, "SELECT key FROM kept WHERE key LIKE 'kiosk/%'")), ["kiosk/e-check-in", "kiosk/e-check-out", "kiosk/e-renew"])


def over_the_years(place):
    """One library under one file of keys after another, under a bare key and by `circ file`: a name stays one
    person's, also with another key or another role; who isn't in the file any more is nobody; and keys of requests
    meet just where the name is the same."""
    path, library = a_library(place, "years.db"), Library()
    for key, words, _ in GROUND:
        library.handle(key, words)
    late = [("ann", "lending", "annkey000002"), ("cy", "desk", BO[2])]
    years = [
        (DESK_KEY, [(DESK_KEY, "y1", "kind 2 1 1 0"), (DESK_KEY, "ann-y1", "kind 2 2 2 0"), (ANN[2], "y2", "kind 2 3 3 0")]),
        (CLERKS, [(ANN[2], "y1", "kind 2 1 1 0"), (ANN[2], "y1", "kind 2 9 9 0"), (BO[2], "y1", "kind 2 9 9 0"), (DESK_KEY, "y1", "kind 2 1 1 0"), (ANN[2], "y2", "check-out 1 10 1"), (ANN[2], "y3", "pay 1 1")]),
        (late, [(ANN[2], "y1", "kind 2 1 1 0"), ("annkey000002", "y1", "kind 2 1 1 0"), ("annkey000002", "y2", "check-out 1 10 1"), ("annkey000002", "y2", "check-out 1 11 1"), (BO[2], "y1", "kind 2 4 4 0"), (KIOSK[2], "y4", "today")]),
        (DESK_KEY, [(DESK_KEY, "y1", "kind 2 1 1 0"), (DESK_KEY, "y1", "kind 2 4 4 0"), (ANN[2], "y2", "check-out 1 10 1"), (DESK_KEY, "y2", "check-out 1 11 1")]),
        ([("bo", "desk", "annkey000002")], [("annkey000002", "y1", "kind 2 9 9 0"), ("annkey000002", "y1", "kind 2 1 1 0"), (BO[2], "y1", "kind 2 9 9 0")]),
    ]
    for at, (clerks, turns) in enumerate(years):
        with Serving(path, len(turns), clerks=None if clerks == DESK_KEY else clerks) as serving:
            for shown, key, text in turns:
                words = text.split()
                check(f"year {at}, {key} {words}", serving.desk(key, words, shown), told(said(library, clerks, None, shown, key, words)))
        for key, words in ((f"f{at}", ["kind", "2", "5", str(at), "0"]), ("y1", ["kind", "2", "1", "1", "0"])):
            line = library.handle(key, words)
            check(f"year {at}, {key} by words", circ(["file", path, key, *words]), (line, runs.status_of(line)))
    kept = {key for (key,) in rows(path, "SELECT key FROM kept WHERE key LIKE '%y_'")}
    check("what is kept", kept, {"y1", "ann-y1", "ann/y1", "bo/y1", "ann/y2", "cy/y1", "y2"})
    runs.the_rows_are(path, library)


def read_once(place):
    """The file is read at the start: what it has later, or that it is gone, changes nothing for a desk that serves."""
    path = a_library(place, "once.db")
    with Serving(path, 6, clerks=[ANN, KIOSK]) as serving:
        keys = path + ".keys"
        with open(f"/proc/{serving.run.pid}/cmdline", "rb") as file:
            listed = file.read()
        check("the words in the list of processes", [it for it in (keys.encode(), *(key.encode() for key in KEYS)) if it in listed], [keys.encode()])
        for what in (b"", f"{' '.join(BO)}\n".encode(), None):
            os.remove(keys) if what is None else put_keys(keys, what)
            check("who was there is let in", serving.desk("q", ["page", "1"], ANN[2])[1], ANNS_PAGE)
            check("who came isn't", serving.desk("q", ["page", "1"], BO[2]), (403, b'{"refusal":81}'))
        put_keys(keys, [ANN, KIOSK])


# Who sends, under which key and what, on two days; a patron's number stands for the patron.
HANDS = [
    (ANN, "a1", "check-out 1 10 1", "loan 1 due 2026-03-09"), (BO, "a1", "check-out 2 11 1", "loan 2 due 2026-03-09"), (1, "p1", "place-hold 1 200 1", "hold 1"), (BO, "b2", "place-hold 3 300 1", "hold 2"),
    (BO, "b3", "place-hold-from 2 200 1 2026-05-02", "hold 3"), (1, "r1", "renew 1", "loan 1 due 2026-03-16"), (ANN, "d1", "begin-day 2026-03-25", "ok"), (KIOSK, "i1", "check-in 10 1", "fine 100 shelf 1"),
    (ANN, "m1", "missing 11", "fine 100 price 2500"), (ANN, "m2", "pay 1 10", "owed 90"), (BO, "m2", "pay 1 10", "owed 80"), (BO, "w1", "waive 1 10", "owed 70"), (ANN, "m3", "pay 1 20", "owed 50"), (ANN, "m4", "pay 2 10", "owed 2590"),
    (BO, "m5", "pay 1 10", "owed 40"), (ANN, "w2", "waive 1 10", "owed 30"), (KIOSK, "k1", "check-out 1 10 1", "loan 3 due 2026-03-31"), (ANN, "i2", "check-in 10 1", "fine 0 shelf 1"),
    (ANN, "q1", "charge 1 10 1 Photocopies", "owed 40"), (BO, "q2", "charge 1 10 1 Photocopies", "owed 50"),
    (ANN, "q3", "charge 1 10 1 Card", "owed 60"), (BO, "q4", "charge 1 10 2 Photocopies", "owed 70"),
    (ANN, "q5", "pay-at 1 10 1", "owed 60"), (BO, "q6", "pay-at 1 10 2", "owed 50"),
    (ANN, "q7", "pay-at 1 10 2", "owed 40"), (BO, "q8", "pay 1 10", "owed 30"),
]
# What each query of docs/OPERATIONS.md tells of each number.
TOLD = {
    ("loan 7", "loan {}"): {1: (0, "ann/a1", "check-out 1 10 1"), 2: (0, "bo/a1", "check-out 2 11 1"), 3: (0, "kiosk/k1", "check-out 1 10 1"), 4: (0, "f1", "check-out 3 10 1"), 5: None},
    ("loan = 7", "loan = {}"): {1: (0, "kiosk/i1", "check-in 10 1"), 2: (0, "ann/m1", "missing 11"), 3: (0, "ann/i2", "check-in 10 1"), 4: None, 5: None},
    ("'hold 3'", "'hold {}'"): {1: (1, "p1", "place-hold 1 200 1"), 2: (0, "bo/b2", "place-hold 3 300 1"), 3: (0, "bo/b3", "place-hold-from 2 200 1 2026-05-02"), 4: None},
    ("= 12", "= {}"): {1: None, 2: None, 3: None, 4: (0, "ann/m2", "pay 1 10"), 5: (0, "bo/m2", "pay 1 10"), 6: (0, "bo/w1", "waive 1 10"), 7: (0, "ann/m3", "pay 1 20"), 8: (0, "ann/m4", "pay 2 10"), 9: (0, "bo/m5", "pay 1 10"),
                       10: (0, "ann/w2", "waive 1 10"),
                       11: (0, "ann/q1", "charge 1 10 1 Photocopies"), 12: (0, "bo/q2", "charge 1 10 1 Photocopies"),
                       13: (0, "ann/q3", "charge 1 10 1 Card"), 14: (0, "bo/q4", "charge 1 10 2 Photocopies"),
                       15: (0, "ann/q5", "pay-at 1 10 1"), 16: (0, "bo/q6", "pay-at 1 10 2"),
                       17: (0, "ann/q7", "pay-at 1 10 2"), 18: (0, "bo/q8", "pay 1 10"), 19: None},
}


def who_did_it(place):
    """The queries of docs/OPERATIONS.md, on a backup: whose hand a loan, its end, a hold, a payment, a waiver and a
    charge was."""
    path = a_library(place, "who.db")
    with Serving(path, len(HANDS), clerks=CLERKS) as serving:
        for who, key, text, answer in HANDS:
            words = text.split()
            found = serving.desk(key, words, who[2]) if isinstance(who, tuple) else serving.ask(*by_patron(who, f"cardkey{who:05}", key, words))[:2]
            check(f"{key} {words}", found, told(answer))
    check("a loan by the file", circ(["file", path, "f1", "check-out", "3", "10", "1"]), ("loan 4 due 2026-03-31", 0))
    around = {**os.environ, "PATH": f"{TOP}:{os.environ['PATH']}"}
    made = subprocess.run([os.path.join(TOP, "tools", "backup"), "--no-service", path, os.path.join(place, "backups"), "14"], capture_output=True, text=True, timeout=60, check=False, env=around)
    check("a backup", (made.returncode, made.stderr), (0, ""))
    with open(os.path.join(TOP, "docs", "OPERATIONS.md"), encoding="utf-8") as file:
        page = file.read().partition("\n### Who did it\n")[2].partition("\n## ")[0]
    opened = re.search(r"^    sqlite3 '(file:)\S+(\?\S+)'$", page, re.M)
    queries = re.findall(r"^    (SELECT .*?);$", page, re.M | re.S)
    check("how many queries there are", len(queries), len(TOLD))
    with closing(sqlite3.connect(f"{opened[1]}{made.stdout.strip()}/who.db{opened[2]}", uri=True)) as conn:
        for query, ((shown, form), wanted) in zip(queries, TOLD.items()):
            check(f"the number of {query}", query.count(shown) > 0, True)
            for number, hand in wanted.items():
                asked = query.replace("loan 7 ", f"loan {number} ").replace(shown, form.format(number))
                check(f"{asked}", conn.execute(asked).fetchall(), [hand] * (hand is not None))


TURNS = 110  # of each clerk


class Hand:
    """What one clerk sends: new requests, some under keys that others use too, own ones again, those of others again,
    and other requests under own keys."""

    def __init__(self, clerk, number, shared, seed):
        self.name, self.role, self.key = clerk
        self.rng, self.shared, self.own, self.at = random.Random(f"{seed} {number}"), shared, [], 0

    def words(self):
        clerk = Clerk(self.rng, self.shared.shadow)
        words = clerk.question() if self.rng.random() < 0.2 else clerk.request()
        while self.role == "lending" and words[0] not in MAY and self.rng.random() < 0.8:
            words = self.rng.choice([clerk.request(), clerk.request(), ["borrower", "1"], ["today"], ["page", "2"], ["copy", "10"]])
        return words

    def turn(self):
        """What is sent next: the key, the words, and what sort it is of."""
        with self.shared.lock:
            sort, used = self.rng.random(), {key for key, _ in self.own}
            others = [it for name, it in self.shared.sent if name != self.name and it[0] not in used]
            if sort < 0.18 and self.own:
                return *self.rng.choice(self.own), "own again"
            if sort < 0.36 and others:
                return *self.rng.choice(others[-40:]), "another's"
            if sort < 0.42 and self.own:
                return self.rng.choice(self.own)[0], self.words(), "own key"
            self.at += 1
            return self.rng.choice((f"k{self.at}", f"{self.name}-{self.at}")), self.words(), "new"


class Shared:
    """What the clerks know of one another: what was sent, which keys were asked with and which were answered as
    accepted, in the order in which it was, and about how the library is."""

    def __init__(self, library):
        self.lock, self.shadow, self.sent, self.asked, self.accepted = threading.Lock(), library, [], [], []

    def ask(self, serving, hand, key, words, sort):
        """One request: who sent it and what, its answer, how many had been accepted before it was sent, and how many
        had been asked when it was answered."""
        with self.lock:
            before = len(self.accepted)
            self.asked.append(f"{hand.name}/{key}")
        found = serving.desk(key, words, hand.key)
        with self.lock:
            self.sent.append((hand.name, (key, words)))
            hand.own.append((key, words))
            if found[0] == 200 and words[0] not in ONLY_ASK:
                self.accepted.append(f"{hand.name}/{key}")
                self.shadow.handle(f"{hand.name}/{key}", words)
            return hand, key, words, sort, found, before, len(self.asked)

    def window(self, order, before, after):
        """The first and the last place of the list of what was kept at which a request may have been answered: after
        all that was accepted before it, and before all that was asked after it."""
        place, there = {key: at for at, key in enumerate(order, 1)}, {*self.asked[:after]}
        first = max((place.get(key, 0) for key in self.accepted[:before]), default=0)
        return first, next((at for at, key in enumerate(order) if key not in there), len(order))


def fits(library, clerks, it, sorts):
    """Whether the answer to a request is that of the rules in this state of the library; it is counted then."""
    hand, key, words, sort, found, *_ = it
    full = 0, f"{hand.name}/{key}"
    is_kept = full in library.kept
    line = said(library if is_kept else pickle.loads(pickle.dumps(library)), clerks, None, hand.key, key, words)
    if told(line) != found:
        return False
    sorts[sort, line if line in ("refused 80", "refused 81") else "refused" if line.startswith("refused") else "asked" if words[0] in ONLY_ASK else "kept" if is_kept else "accepted"] += 1
    return True


def at_once(place, clerks, workers, seed):
    """Clerks at work at once. Each answer is that of the rules at a place of the one list of what was kept, and the
    file tells whose hand each accepted request was. How often each sort of request had each sort of end."""
    path, library, sorts = a_library(place, f"at_once_{workers}.db"), Library(), Counter()
    for key, words, _ in GROUND:
        library.handle(key, words)
    shared = Shared(pickle.loads(pickle.dumps(library)))
    hands = [Hand(clerk, number, shared, seed) for number, clerk in enumerate(clerks)]
    with Serving(path, TURNS * len(hands), workers=workers, clerks=clerks) as serving, ThreadPoolExecutor(len(hands)) as pool:
        work = [pool.submit(lambda hand=hand: [shared.ask(serving, hand, *hand.turn()) for _ in range(TURNS)]) for hand in hands]
        asked = [it for made in work for it in made.result()]
    kept = [it for it in rows(path, "SELECT caller, key, text, reply FROM kept ORDER BY rowid") if it[:2] not in library.kept]
    order = [key for _, key, _, _ in kept]
    sent_by = {(f"{hand.name}/{key}", " ".join(words)): words for hand, key, words, *_ in asked}
    waiting = [(*shared.window(order, *it[5:]), it) for it in asked]
    for at, (caller, key, text, reply) in enumerate([*kept, (0, "", "", "")]):
        begun = [it for it in waiting if it[0] <= at]
        done = [it for it in begun if fits(library, clerks, it[2], sorts)]
        waiting = [it for it in waiting if it not in done]
        for first, last, it in [it for it in begun if it[1] == at and it not in done]:
            check(f"{it[0].name} {it[1]} {it[2]} from place {first} to {last}, seed {seed}", it[4], "an answer of the rules")
            waiting.remove((first, last, it))
        if key:
            words = sent_by.get((key, text))
            check(f"{key} {text} was sent by that clerk, seed {seed}", (caller, words is not None), (0, True))
            check(f"{key} {text}, seed {seed}", reply, library.handle(key, words or text.split()))
    check(f"each answer has its place, seed {seed}", [it[2][1:5] for it in waiting], [])
    runs.the_rows_are(path, library)
    whose(path, asked, seed)
    return sorts


def whose(path, asked, seed):
    """The table of what is kept tells by its keys whose hand each accepted request was."""
    table = {tuple(key.split("/")): text for key, text in rows(path, "SELECT key, text FROM kept WHERE caller = 0 AND instr(key, '/') > 0")}
    accepted = {(hand.name, key): " ".join(words) for hand, key, words, _, found, *_ in asked if found[0] == 200 and words[0] not in ONLY_ASK}
    check(f"each accepted request is its clerk's, seed {seed}", table, accepted)
    counted = dict(rows(path, "SELECT substr(key, 1, instr(key, '/') - 1) AS clerk, count(*) FROM kept WHERE instr(key, '/') > 0 GROUP BY clerk"))
    check(f"how many of each clerk, seed {seed}", counted, Counter(name for name, _ in accepted))


def all_at_once(place):
    """Two clerks before two workers, three before three, and four before four."""
    four, seed, sorts, began = [*CLERKS, ("dee", "desk", "deekey000001")], random.randrange(10**9), Counter(), time.monotonic()
    for clerks, workers in ((four[:2], 2), (four[:3], 3), (four, 4)):
        sorts += at_once(place, clerks, workers, seed)
    print(f"clerks: {sum(sorts.values())} requests by the seed {seed} in {time.monotonic() - began:.0f} seconds: " + ", ".join(f"{many} {sort} {end}" for (sort, end), many in sorted(sorts.items())))
    wanted = [("own again", "kept"), ("another's", "accepted"), ("own key", "refused 80"), ("new", "refused 81"), ("new", "accepted"), ("new", "refused"), ("new", "asked")]
    check("own requests again got the kept reply, those of others were new ones, and so on", [it for it in wanted if sorts[it] < 3], [])


def main():
    with tempfile.TemporaryDirectory() as place:
        part(bad_files, place)
        part(no_files, place)
        part(words_of_keys, place)
        part(good_files, place)
        part(as_shown, place)
        part(who_may_read, place)
        part(worked, place)
        part(at_counters, place)
        part(sent, place)
        part(lending, place)
        part(over_the_years, place)
        part(read_once, place)
        part(who_did_it, place)
        part(all_at_once, place)


if __name__ == "__main__":
    run_script(main)
