#!/usr/bin/env python3
"""Runs `tools/enrol` on lists of patrons, good, refused and bad ones, before the program that serves, and before
others that answer wrongly or not at all.

    tests/gate/enrol.py

Expected lines and rows are worked out by hand from docs/RULES.md and docs/USING.md.
"""

import csv
import os
import pty
import signal
import socket
import subprocess
import tempfile
import threading
import time
from contextlib import contextmanager

from room import TOP
from lib.checking import check, need, part, run_script
from lib.messages import told_refusal
from lib.runs import IN_MEMORY, LONGEST_RUN, PROGRAM, circ, digest, rows, rows_now, say
from lib.serving import DESK_KEY, a_library, everything, started

ENROL = os.path.join(TOP, "tools", "enrol")
HEADER = "patron,kind,card-key,name\n"
WRONG_KEY = "deskkey00002"
CLERKS_KEYS = ["annkey000001", "bokey0000001", "kioskkey0001"]
ANN, BO, KIOSK = (f"{name} {role} {key}\n" for (name, role), key in zip((("ann", "desk"), ("bo", "desk"), ("kiosk", "lending")), CLERKS_KEYS))
MANY, SOME = 2_000, 1_500

# A list, as a spreadsheet may write it, and the patrons that it has.
TOWN = HEADER + """\
50,1,cardkey00050,"Bell, Ann"
51,1,cardkey00051,J\u00f3n "Jo" \u00deor

52,1,cardkey00052,"Bo ""Red"" Carr"
"""
PATRONS = [(50, 1, "cardkey00050", "Bell, Ann"), (51, 1, "cardkey00051", 'J\u00f3n "Jo" \u00deor'), (52, 1, "cardkey00052", 'Bo "Red" Carr')]


def patrons(path):
    """The patrons of a library above the three that all libraries of the tests have."""
    return rows_now(path, "SELECT patron, kind, card_key, name FROM patrons WHERE patron > 3 ORDER BY patron")


@contextmanager
def a_desk(path, key=DESK_KEY):
    """A program that serves a library, and is killed at the end: it has answered no one knows how many."""
    run, port, first = started(lambda port: ["serve", path, str(port), "2", "1000000", key])
    try:
        check("the desk serves", first, f"listening on {port}\n")
        yield run, str(port)
    finally:
        run.kill()
        run.communicate()


@contextmanager
def one_who_answers(answer):
    """A port on which each connection is answered by these bytes, whatever it asks, and closed; or by nothing, and
    held, where there are none."""
    held = []
    with socket.create_server(("127.0.0.1", 0)) as listening:
        def serve():
            while True:
                try:
                    peer, _ = listening.accept()
                except OSError:
                    return
                if answer is None:
                    held.append(peer)
                    continue
                with peer:
                    # whole with its body, which ends in the list's end
                    asked = b""
                    while not asked.endswith(b"]"):
                        asked += peer.recv(4096)
                    peer.sendall(answer)
                    peer.shutdown(socket.SHUT_WR)
                    everything(peer)

        thread = threading.Thread(target=serve, daemon=True)
        thread.start()
        yield str(listening.getsockname()[1])
        listening.shutdown(socket.SHUT_RDWR)
        thread.join()
    for peer in held:
        peer.close()


def begun(*words, **how):
    return subprocess.Popen([ENROL, *words], **{"stdout": subprocess.PIPE, "stderr": subprocess.PIPE, **how})


def enrolled(*words):
    """What a run prints, what it says on standard error, and its status. No card key and no key of a desk is told,
    whatever goes wrong."""
    with begun(*words) as run:
        out, err = (it.decode() for it in run.communicate(timeout=LONGEST_RUN))
    check("keys that are told", [it for it in ("cardkey", DESK_KEY, WRONG_KEY, *CLERKS_KEYS) if it in out + err], [])
    return out, err, run.returncode


def put(folder, name, text):
    path = os.path.join(folder, name)
    with open(path, "wb") as file:
        file.write(text if isinstance(text, bytes) else text.encode())
    return path


def said(*lines):
    return "".join(f"enrol: {line}\n" for line in lines)


def good_lists(folder):
    """A list in each form that a copies file may have, enrolled twice: the patrons are there, each once, and no file
    of refused rows is made."""
    forms = {
        "as it is": TOWN.encode(),
        "with a byte order mark": TOWN.encode("utf-8-sig"),
        "with CR LF": TOWN.replace("\n", "\r\n").encode(),
        "with CR": TOWN.replace("\n", "\r").encode(),
    }
    refused = os.path.join(folder, "refused.csv")
    for at, (what, text) in enumerate(forms.items()):
        path, listed = a_library(folder, f"good{at}.db"), put(folder, "good.csv", text)
        with a_desk(path) as (_, port):
            for turn in ("first", "second"):
                check(f"a list {what}, the {turn} time", enrolled(port, DESK_KEY, listed, refused), ("accepted 3 refused 0\n", "", 0))
            sent = circ(["send", port, DESK_KEY, "q", "account", "52", "0"])
            check(f"the desk is asked, {what}", sent, ('{"reply":"patron 52 owed 0 name Bo \\"Red\\" Carr\\nend"}', 0))
            check(f"a list with no row, {what}", enrolled(port, DESK_KEY, put(folder, "none.csv", HEADER), refused), ("accepted 0 refused 0\n", "", 0))
        check(f"the patrons of a list {what}", patrons(path), PATRONS)
        keys = rows_now(path, "SELECT key FROM kept WHERE key LIKE 'patron%' ORDER BY key")
        check(f"their keys, {what}", keys, [("patron-50",), ("patron-51",), ("patron-52",)])
    check("no file of refused rows", os.path.exists(refused), False)


def refused_rows(folder):
    """Rows that the desk refuses are told at the end and stand in a file of the list's form, and the others are
    accepted. Once they are mended there they are accepted too, under the same keys."""
    path, refused, again = a_library(folder, "refused.db"), os.path.join(folder, "rest.csv"), os.path.join(folder, "rest2.csv")
    listed = put(folder, "mixed.csv", "\ufeff" + TOWN + """\
53,9,cardkey00053,"Dunn, Cy"
54,1,cardkey00054,Eve Fox
0,1,cardkey00055,Guy Hay
10000000,1,cardkey00056,Ida Jay
51,1,cardkey00051,Another Name
1,1,cardkey00001,Another Ann
""")
    told = """\
row 4 refused 17: unknown kind of patron (patron-53)
row 6 refused 21: a number is out of its limits, or the branch has 400 single closed days (patron-0)
row 7 refused 21: a number is out of its limits, or the branch has 400 single closed days (patron-10000000)
row 8 refused 80: the key was already used for another request (patron-51)
row 9 refused 20: already exists with different details (patron-1)
accepted 4 refused 5
"""
    rest = """\
53,9,cardkey00053,"Dunn, Cy"
0,1,cardkey00055,Guy Hay
10000000,1,cardkey00056,Ida Jay
51,1,cardkey00051,Another Name
1,1,cardkey00001,Another Ann
"""
    with a_desk(path) as (_, port):
        check("a list with refused rows", enrolled(port, DESK_KEY, listed, refused), (told, "", 2))
        check("their file", open(refused, "rb").read(), ("\ufeff" + HEADER + rest).encode())
        check("who may read it", os.stat(refused).st_mode & 0o777, 0o600)
        check("the accepted ones", patrons(path), [*PATRONS, (54, 1, "cardkey00054", "Eve Fox")])
        before, kept = digest(refused), rows_now(path, "SELECT count(*) FROM kept")
        for what, words in (("a second time with the file there", (listed, refused)), ("the list in the place of the file", (refused, listed))):
            check(what, enrolled(port, DESK_KEY, *words), ("", said(f"{words[1]} is there already, and is not written over"), 3))
        check("the file stays, and nothing was sent", (digest(refused), rows_now(path, "SELECT count(*) FROM kept")), (before, kept))
        check("a second time with another file", enrolled(port, DESK_KEY, listed, again), (told, "", 2))
        check("the same file", digest(again), before)
        os.remove(again)
        for wrong, right in (("53,9", "53,1"), ("\n0,", "\n55,"), ("10000000,", "56,"), ("51,1", "57,1")):
            rest = rest.replace(wrong, right)
        mended = put(folder, "mended.csv", "\ufeff" + HEADER + rest)
        check("a mended file", enrolled(port, DESK_KEY, mended, again),
              ("row 5 refused 20: already exists with different details (patron-1)\naccepted 4 refused 1\n", "", 2))
        check("what is left", open(again, "rb").read(), ("\ufeff" + HEADER + "1,1,cardkey00001,Another Ann\n").encode())
    check("the patrons after it", patrons(path), [
        *PATRONS, (53, 1, "cardkey00053", "Dunn, Cy"), (54, 1, "cardkey00054", "Eve Fox"), (55, 1, "cardkey00055", "Guy Hay"),
        (56, 1, "cardkey00056", "Ida Jay"), (57, 1, "cardkey00051", "Another Name"),
    ])
    check("the patron that was there", rows(path, "SELECT name FROM patrons WHERE patron = 1"), [("Ann Bell",)])


WITH_BARCODES = HEADER.replace("\n", ",barcode\n")
LABELLED = WITH_BARCODES + """\
50,1,cardkey00050,"Bell, Ann",20000000000050
51,1,cardkey00051,J\u00f3n \u00deor,
52,1,cardkey00052,Bo Carr,0052
53,1,cardkey00053,Cy Dunn,a
"""


def with_barcodes(folder):
    """A list with barcodes gives them to the patrons that have one there. A row whose barcode is refused is told by
    that request's key; once the barcode is corrected the row is accepted, and each barcode was given once."""
    path, refused, again = a_library(folder,
                                     "labelled.db"), os.path.join(folder,
                                                                  "taken.csv"), os.path.join(folder, "taken2.csv")
    say(path, [("b1", ["copy-barcode", "10", "a"], "ok")])
    with a_desk(path) as (_, port):
        told = f"row 4 {told_refusal(26)} (patron-barcode-53)\naccepted 3 refused 1\n"
        check("a list with barcodes", enrolled(port, DESK_KEY, put(folder, "labelled.csv", LABELLED), refused),
              (told, "", 2))
        check("its file", open(refused, encoding="utf-8").read(), WITH_BARCODES + "53,1,cardkey00053,Cy Dunn,a\n")
        mended = put(folder, "labelled2.csv", LABELLED.replace("Dunn,a", "Dunn,A"))
        for turn in ("first", "second"):
            check(f"the mended list, the {turn} time", enrolled(port, DESK_KEY, mended, again),
                  ("accepted 4 refused 0\n", "", 0))
        for barcode in (" ", "1-2", "1" * 25, "\u0665", "1 2"):
            listed = put(folder, "bad.csv", WITH_BARCODES + f"60,1,cardkey00060,Di Eck,{barcode}\n")
            bad = said(f"{listed}: row 1 is bad: its barcode is not 1 to 24 ASCII letters and digits",
                       "nothing was sent")
            check(f"the barcode {barcode!r}", enrolled(port, DESK_KEY, listed, again), ("", bad, 4))
    check("the barcodes", rows_now(path, "SELECT number, barcode FROM barcodes WHERE sort = 0 ORDER BY number"),
          [(50, "20000000000050"), (52, "0052"), (53, "A")])
    keys = rows_now(path, "SELECT key, text FROM kept WHERE key LIKE 'patron-barcode%' ORDER BY key")
    check("their keys", keys, [(f"patron-barcode-{at}", f"patron-barcode {at} {it}") for at,
                               it in ((50, "20000000000050"), (52, "0052"), (53, "A"))])


ROW = "50,1,cardkey00050,Ann Bell\n"
NO_HEADER = "its first line is not patron,kind,card-key,name or patron,kind,card-key,name,barcode"
NO_NAME = "its name is not 1 to 120 bytes in one line, with no space at either end and no hyphen before it"
NO_KEY = "its card key is not 8 to 32 ASCII letters and digits"
WHOLE_LISTS = [
    ("nothing", b"", f": {NO_HEADER}"),
    ("another header", b"number,kind,card-key,name\n" + ROW.encode(), f": {NO_HEADER}"),
    ("no header", ROW.encode(), f": {NO_HEADER}"),
    ("a column more", HEADER.replace("\n", ",town\n").encode() + ROW.encode(), f": {NO_HEADER}"),
    ("semicolons", (HEADER + ROW).replace(",", ";").encode(), f": {NO_HEADER}"),
    ("Latin-1", (HEADER + ROW + "51,1,cardkey00051,J\u00f3n\n").encode("latin-1"), " is not UTF-8: line 3"),
    ("UTF-16", (HEADER + ROW).encode("utf-16"), " is not UTF-8: line 1"),
    ("a last line that is cut", (HEADER + ROW)[:-3].encode(), ": its last line has no end, so it may be cut; nothing was sent"),
]
BAD_ROWS = [
    ("three fields", "51,1,cardkey00051", "it has 3 fields, not 4"),
    ("five fields", "51,1,cardkey00051,Bo,Carr", "it has 5 fields, not 4"),
    ("no number", "x51,1,cardkey00051,Bo Carr", "its patron is no number"),
    ("an empty number", ",1,cardkey00051,Bo Carr", "its patron is no number"),
    ("a zero before", "051,1,cardkey00051,Bo Carr", "its patron is no number"),
    ("a space before", " 51,1,cardkey00051,Bo Carr", "its patron is no number"),
    ("digits of other scripts", "\u0665\u0661,1,cardkey00051,Bo Carr", "its patron is no number"),
    ("a number too large", "4294967296,1,cardkey00051,Bo Carr", "its patron is no number"),
    ("a kind that is none", "51,adult,cardkey00051,Bo Carr", "its kind is no number"),
    ("a card key too short", "51,1,cardkey,Bo Carr", NO_KEY),
    ("a card key too long", f"51,1,{'c' * 33},Bo Carr", NO_KEY),
    ("a card key with a hyphen", "51,1,cardkey-0051,Bo Carr", NO_KEY),
    ("no name", "51,1,cardkey00051,", NO_NAME),
    ("a name too long", "51,1,cardkey00051," + "\u00f3" * 60 + "x", NO_NAME),
    ("a space after a name", "51,1,cardkey00051,Bo Carr ", NO_NAME),
    ("a tab in a name", "51,1,cardkey00051,Bo\tCarr", NO_NAME),
    ("a hyphen before a name", "51,1,cardkey00051,-Bo Carr", NO_NAME),
    ("a quote that is never closed", '51,1,cardkey00051,"Bo Carr', NO_NAME),
]


def bad_lists(folder):
    """A list with a fault of its form is told in a line, and nothing of it is sent, the good row before the bad one
    neither."""
    path, refused = a_library(folder, "bad.db"), os.path.join(folder, "of_bad.csv")
    with a_desk(path) as (_, port):
        for what, text, wanted in WHOLE_LISTS:
            listed = put(folder, "bad.csv", text)
            check(what, enrolled(port, DESK_KEY, listed, refused), ("", said(f"{listed}{wanted}"), 4))
        for what, row, wanted in BAD_ROWS:
            listed = put(folder, "bad.csv", HEADER + ROW + row + "\n")
            check(what, enrolled(port, DESK_KEY, listed, refused), ("", said(f"{listed}: row 2 is bad: {wanted}", "nothing was sent"), 4))
        listed = put(folder, "bad.csv", HEADER + "x,1,cardkey00051,Bo Carr\n" * 25)
        many = [f"{listed}: row {at} is bad: its patron is no number" for at in range(1, 21)]
        check("many bad rows", enrolled(port, DESK_KEY, listed, refused), ("", said(*many, f"{listed}: 5 rows more are bad", "nothing was sent"), 4))
        listed, absent = put(folder, "list.csv", HEADER + ROW), os.path.join(folder, "absent", "list.csv")
        none = "No such file or directory"
        check("no list", enrolled(port, DESK_KEY, absent, refused), ("", said(f"{absent} can't be read: {none}"), 3))
        check("a folder for a list", enrolled(port, DESK_KEY, folder, refused), ("", said(f"{folder} can't be read: Is a directory"), 3))
        check("no folder for the refused rows", enrolled(port, DESK_KEY, listed, absent), ("", said(f"{absent} can't be written: {none}"), 3))
        wrong = ("accepted 0 refused 0\n", said("refused 81: wrong key, or not allowed for this caller"), 2)
        check("another desk's key", enrolled(port, WRONG_KEY, listed, refused), wrong)
        check("a key that is none", enrolled(port, "short", listed, refused), ("", said("the desk's key is not 8 to 32 ASCII letters and digits"), 4))
        for none in ("0", "65536", "x", "-1"):
            check(f"the port {none}", enrolled(none, DESK_KEY, listed, refused), ("", said("the port is no number from 1 to 65535"), 4))
        for words in ((), (port, DESK_KEY, listed), (port, DESK_KEY, listed, ""), (port, DESK_KEY, listed, refused, refused)):
            check(f"the words {words}", enrolled(*words), ("", "usage: enrol PORT DESKKEY|@KEYFILE LIST REFUSED\n", 4))
        check("no patron is there", patrons(path), [])
        # the same rows without their faults are good: the longest name and keys, and the first and last numbers
        longest = [(4, 1, "c" * 8, "\u00f3" * 60), (9_999_999, 1, "C" * 32, "x")]
        listed = put(folder, "good.csv", HEADER + "".join(",".join(map(str, row)) + "\n" for row in longest))
        check("rows at the limits", enrolled(port, DESK_KEY, listed, refused), ("accepted 2 refused 0\n", "", 0))
        check("they are there", patrons(path), longest)
    check("no file of refused rows", os.path.exists(refused), False)


NO_FILE = "No such file or directory"
BAD_KEYS = ["", "\n", ANN[:-1], ANN.replace(" ", "  "), ANN.replace("desk", "clerk"), ANN + ANN.replace("ann", "bo", 1), ANN + ANN.replace("annkey", "bokey0"), ANN.replace("\n", "\r\n"), ANN + "\n", f"# clerks\n{ANN}", ANN + "bo desk bokey\n",
            "".join(f"clerk{at} desk clerkkey{at:04}\n" for at in range(100)), ANN + "x" * 9_000_000, DESK_KEY]


def by_clerks(folder):
    """A list is enrolled with the first key of a file of keys, and the rows are that clerk's; a lending clerk, and a
    clerk whom the desk doesn't know, enrol nobody."""
    path, listed, refused = a_library(folder, "clerks.db"), put(folder, "clerks.csv", TOWN), os.path.join(folder, "of_clerks.csv")
    keys = lambda text: f"@{put(folder, 'clerks.keys', text)}"
    wrong = ("accepted 0 refused 0\n", said("refused 81: wrong key, or not allowed for this caller"), 2)
    with a_desk(path, f"@{put(folder, 'desk.keys', ANN + BO + KIOSK)}") as (_, port):
        for text in BAD_KEYS:
            word = keys(text)
            check(f"the bad file of keys {text[:60]!r}", enrolled(port, word, listed, refused), ("", said(f"{word[1:]} is no file of keys: circ send says which line is wrong"), 3))
        for absent, why in ((os.path.join(folder, "absent.keys"), NO_FILE), (folder, "Is a directory")):
            check(f"no file of keys: {why}", enrolled(port, f"@{absent}", listed, refused), ("", said(f"{absent} can't be read: {why}"), 3))
        check("no name of a file", enrolled(port, "@", listed, refused), ("", said("the desk's key is not 8 to 32 ASCII letters and digits"), 4))
        check("a lending clerk", enrolled(port, keys(KIOSK + ANN), listed, refused), wrong)
        check("a clerk whom the desk doesn't know", enrolled(port, keys("cy desk cykey0000001\n" + ANN), listed, refused), wrong)
        check("a key alone that is no clerk's", enrolled(port, DESK_KEY, listed, refused), wrong)
        check("no patron is there", patrons(path), [])
        for text in (BO + ANN, "bo desk bokey0000001\n"):
            check("the first clerk's key", enrolled(port, keys(text), listed, refused), ("accepted 3 refused 0\n", "", 0))
        many = "".join(f"clerk{at} desk clerkkey{at:04}\n" for at in range(98))
        check("a file of 99 clerks", enrolled(port, keys(ANN + many), listed, refused), ("accepted 3 refused 0\n", "", 0))
        check("a clerk's key alone", enrolled(port, CLERKS_KEYS[0], listed, refused), ("accepted 3 refused 0\n", "", 0))
    check("the patrons", patrons(path), PATRONS)
    check("whose hands", rows_now(path, "SELECT key FROM kept WHERE key LIKE '%patron-%' ORDER BY rowid"), [(f"{name}/patron-{at}",) for name in ("bo", "ann") for at in (50, 51, 52)])
    check("no file of refused rows", os.path.exists(refused), False)


def http_answer(status, body):
    return f"HTTP/1.1 {status} X\r\nContent-Type: application/json\r\nContent-Length: {len(body)}\r\nConnection: close\r\n\r\n{body}".encode()


NO_ANSWER = "no answer came from the desk on port {}: run the same again when it serves"
NO_DESK = "what answers on port {} is no desk"
ANSWERS = [
    ("an end at once", b"", NO_ANSWER, 3),
    ("half an answer", http_answer(200, '{"reply":"ok"}')[:-3], NO_ANSWER, 3),
    ("no HTTP", b"220 mail.example ESMTP\r\n", NO_ANSWER, 3),
    ("a page", http_answer(200, "<p>Welcome</p>"), NO_DESK, 3),
    ("another reply", http_answer(200, '{"reply":"loan 1 due 2026-03-09"}'), NO_DESK, 3),
    ("a list", http_answer(409, "[80]"), NO_DESK, 3),
    ("another number", http_answer(409, '{"refusal":"80"}'), NO_DESK, 3),
    ("nowhere", http_answer(404, '{"status":404}'), NO_DESK, 3),
    ("no request", http_answer(400, '{"status":400}'), "the desk does not understand the row of patron 50", 4),
    ("a fault", http_answer(503, '{"fault":92}'), "fault 92: the desk is closed; run the same again when that is fixed", 3),
    ("a fault of no meaning", http_answer(503, '{"fault":99}'), "fault 99; run the same again when that is fixed", 3),
]


def others_that_answer(folder):
    """Nobody, and others than the desk, on its port: each is told in a line, and no row is taken for accepted."""
    listed, refused = put(folder, "ann.csv", HEADER + ROW), os.path.join(folder, "of_others.csv")
    nothing = "accepted 0 refused 0\n"
    with socket.socket() as taken:
        taken.bind(("127.0.0.1", 0))
        port = str(taken.getsockname()[1])
        check("nobody listens", enrolled(port, DESK_KEY, listed, refused), (nothing, said(NO_ANSWER.format(port)), 3))
    for what, answer, wanted, status in ANSWERS:
        with one_who_answers(answer) as port:
            check(what, enrolled(port, DESK_KEY, listed, refused), (nothing, said(wanted.format(port)), status))
    # beside the manual page, as in the repository, numbers have their meanings; by itself the tool tells the number
    # alone
    alone = put(folder, "enrol", open(ENROL, "rb").read())
    os.chmod(alone, 0o755)
    for name in ("circ_client.py", "circ_tool.py"):
        put(folder, name, open(os.path.join(TOP, "tools", name), "rb").read())
    with one_who_answers(http_answer(409, '{"refusal":17}')) as port:
        told = "row 1 refused 17: unknown kind of patron (patron-50)\naccepted 0 refused 1\n"
        check("a refusal with its meaning", enrolled(port, DESK_KEY, listed, refused), (told, "", 2))
        os.remove(refused)
        run = subprocess.run([alone, port, DESK_KEY, listed, refused], capture_output=True, text=True,
                             timeout=LONGEST_RUN, check=False)
        check("without the manual page", (run.stdout, run.stderr, run.returncode), ("row 1 refused 17 (patron-50)\naccepted 0 refused 1\n", "", 2))
        os.remove(refused)
        with open("/dev/full", "w", encoding="utf-8") as full, begun(port, DESK_KEY, listed, refused, stdout=full) as run:
            check("a standard output that takes no more", (run.communicate(timeout=LONGEST_RUN)[1].decode(),
                                                           run.returncode), (said("standard output can't be written"), 3))
        check("the refused row is in its file", open(refused, encoding="utf-8").read(), HEADER + ROW)


def town(folder, name, count):
    """A list of so many patrons, and their rows."""
    people = [(1000 + at, 1, f"cardkey{at:05}", f"Patron {at}, of the {at % 7}th street") for at in range(count)]
    path = os.path.join(folder, name)
    with open(path, "w", encoding="utf-8", newline="") as file:
        csv.writer(file).writerows([HEADER.strip().split(","), *people])
    return path, people


def is_enrolled(port, patron):
    """Whether the desk knows a patron."""
    return subprocess.run([PROGRAM, "send", port, DESK_KEY, "q", "page", str(patron)], capture_output=True,
                          timeout=LONGEST_RUN, check=False).returncode == 0


def wait_for(port, patron, run):
    """Waits until the desk knows a patron, whom a run enrols."""
    while not is_enrolled(port, patron):
        need("the run is at work", run.poll(), None)
        time.sleep(0.02)


def each_once(path, people):
    check("each patron once", patrons(path), people)
    check("each key once", rows_now(path, "SELECT count(*), count(DISTINCT key) FROM kept WHERE key LIKE 'patron-%'"), [(len(people), len(people))])
    check("the audit", circ(["audit", path]), ("sound", 0))


def killed_in_the_middle(folder):
    """Many rows, killed in the middle: the first of them are there, and after the same run again each is there
    once."""
    path, (listed, people), refused = a_library(folder, "town.db"), town(folder, "town.csv", MANY), os.path.join(folder, "of_town.csv")
    with a_desk(path) as (_, port):
        with begun(port, DESK_KEY, listed, refused) as run:
            wait_for(port, people[MANY // 4][0], run)
            run.kill()
            check("what it told when it was killed", (run.communicate(), run.returncode), ((b"", b""), -signal.SIGKILL))
        found = patrons(path)
        check("a beginning of the list", (found, MANY // 4 < len(found) < MANY), (people[: len(found)], True))
        check("the same run again", enrolled(port, DESK_KEY, listed, refused), (f"accepted {MANY} refused 0\n", "", 0))
        check("the last one, at the desk", circ(["send", port, DESK_KEY, "q", "account", str(people[-1][0]), "0"]),
              (f'{{"reply":"patron {people[-1][0]} owed 0 name {people[-1][3]}\\nend"}}', 0))
    each_once(path, people)


def other_stops(folder):
    """The desk is killed; and the run is interrupted at a terminal, which is shown how far it is. Each is told in a
    line, and after the same run again each patron is there once."""
    path, (listed, people), refused = a_library(folder, "stopped.db"), town(folder, "stopped.csv", SOME), os.path.join(folder, "of_stopped.csv")
    with a_desk(path) as (desk, port):
        with begun(port, DESK_KEY, listed, refused) as run:
            wait_for(port, people[SOME // 4][0], run)
            desk.kill()
            out, err = (it.decode() for it in run.communicate(timeout=LONGEST_RUN))
        check("the desk is killed", (err, run.returncode), (said(NO_ANSWER.format(port)), 3))
    found = patrons(path)
    check("what was accepted is there", found[: int(out.split()[1])], people[: int(out.split()[1])])
    check("a quarter at least, and one unanswered at most", SOME // 4 < int(out.split()[1]) <= len(found) <= int(out.split()[1]) + 1 < SOME, True)
    with a_desk(path) as (_, port):
        seen, terminal = pty.openpty()
        shown = bytearray()
        with begun(port, DESK_KEY, listed, refused, stderr=terminal) as run:
            os.close(terminal)
            while shown.count(b"\r") < 6:
                shown += os.read(seen, 4096)
            run.send_signal(signal.SIGINT)
            out = run.communicate(timeout=LONGEST_RUN)[0].decode()
        try:
            while more := os.read(seen, 4096):
                shown += more
        except OSError:
            pass  # the terminal's other end is closed
        os.close(seen)
        lines = shown.decode().replace("\033[K", "").split("\r")
        check("it is interrupted", (run.returncode, out.endswith(" refused 0\n")), (130, True))
        check("how far it is", [it for it in lines[:-2] if it and not it.endswith(f" of {SOME} rows")], [])
        check("it told more than once", len(lines) > 4, True)
        check("its last line", lines[-2:], ["enrol: stopped: run the same again", "\n"])
        check("the same run again", enrolled(port, DESK_KEY, listed, refused), (f"accepted {SOME} refused 0\n", "", 0))
    each_once(path, people)


def main():
    with tempfile.TemporaryDirectory(dir=IN_MEMORY) as folder:
        # one that takes a connection and says nothing is waited for as long as the tool waits, beside the other tests
        listed = put(folder, "waiting.csv", HEADER + ROW)
        with one_who_answers(None) as port, begun(port, DESK_KEY, listed, os.path.join(folder, "of_waiting.csv")) as waiting:
            part(good_lists, folder)
            part(refused_rows, folder)
            part(with_barcodes, folder)
            part(bad_lists, folder)
            part(by_clerks, folder)
            part(others_that_answer, folder)
            part(killed_in_the_middle, folder)
            part(other_stops, folder)
            out, err = (it.decode() for it in waiting.communicate(timeout=LONGEST_RUN))
            check("one that answers nothing", (out, err, waiting.returncode), ("accepted 0 refused 0\n", said(NO_ANSWER.format(port)), 3))


if __name__ == "__main__":
    run_script(main)
