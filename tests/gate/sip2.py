#!/usr/bin/env python3
"""Runs `tools/sip2` before a program that serves, and speaks as self-service machines do: each message, right and
wrong, with wrong checksums, again under its number, many machines at once, and while the desk is away.

    tests/gate/sip2.py

The checksums of the first messages are those of the protocol's own examples. Expected answers are worked out by hand
from docs/RULES.md and the protocol.
"""

import os
import re
import socket
import subprocess
import sys
import tempfile
import threading
import time
from contextlib import contextmanager

from room import TOP
from lib.checking import check, part, run_script
from lib.runs import IN_MEMORY, LONGEST_RUN, rows_now, say
from lib.serving import a_library, put_keys, started

SIP2 = os.path.join(TOP, "tools", "sip2")
DATE = "20260302    101500"
CLERKS = [("kiosk", "lending", "kioskkey0001"), ("ann", "desk", "annkey000001")]
USAGE = "usage: sip2 PORT @KEYFILE BRANCH ADDRESS:LISTEN LOGINS\n"
MACHINES = 8


def checksum(text):
    return f"{-sum(text.encode()) & 0xFFFF:04X}"


def numbered(text, number):
    """A message with its number and its checksum."""
    text = f"{text}AY{number}AZ"
    return text + checksum(text)


class Machine:
    """A machine's connection, logged in unless it isn't wanted."""

    def __init__(self, port, login="93" + "00CNgate|COopensesame|"):
        self.peer, self.number = socket.create_connection(("127.0.0.1", port), timeout=120), 0
        self.file = self.peer.makefile("rb")
        if login:
            check("the login", self.says(login), "941")

    def sends(self, line):
        """What a line is answered, as it comes; nothing where the connection is closed."""
        self.peer.sendall(line.encode() + b"\r")
        return self.file.readline().decode().rstrip("\r\n")

    def says(self, text):
        """What a message is answered, without the number and the checksum, which are compared; a date is shown as
        such."""
        self.number = (self.number + 1) % 10
        told = self.sends(numbered(text, self.number))
        body, mark, end = told.rpartition(f"AY{self.number}AZ")
        check(f"the end of the answer to {text}", (mark != "", end), (True, checksum(body + mark)))
        return re.sub(r"\d{8}    \d{6}", "DATE", body)

    def close(self):
        self.file.close()
        self.peer.close()


def check_out(patron, copy, may_renew="N"):
    return f"11{may_renew}N{DATE}{DATE}AOtown|AA{patron}|AB{copy}|AC|"


def check_in(copy):
    return f"09N{DATE}{DATE}APhere|AOtown|AB{copy}|AC|"


def renew(patron, copy):
    return f"29NN{DATE}{DATE}AOtown|AA{patron}|AB{copy}|"


def status(patron, password=""):
    return f"23001{DATE}AOtown|AA{patron}|AC|{password}"


def information(patron, summary, password=""):
    return f"63001{DATE}{summary}AOtown|AA{patron}|AC|{password}"


def item(copy):
    return f"17{DATE}AOtown|AB{copy}|AC|"


@contextmanager
def bridge(port, keys, logins, branch="1"):
    """The tool before a desk on a port, and its own port."""
    with subprocess.Popen([sys.executable, SIP2, str(port), f"@{keys}", branch, "127.0.0.1:0", logins], stdout=subprocess.PIPE, text=True) as run:
        try:
            yield int(re.fullmatch(r"listening on 127\.0\.0\.1:(\d+)\n", run.stdout.readline())[1])
        finally:
            run.terminate()
            check("its end", run.wait(timeout=30), 0)


def a_desk(path, keys, port=None):
    """The program that serves a library, and its port."""
    run, port, first = started(lambda own: ["serve", path, str(port or own), "4", "1000000", f"@{keys}"])
    check("the desk serves", first.startswith("listening on"), True)
    return run, port


def files(folder):
    logins = os.path.join(folder, "logins")
    with open(logins, "w", encoding="utf-8") as file:
        file.write("gate opensesame\ndoor sesame2\n")
    return put_keys(os.path.join(folder, "desk.keys"), CLERKS), logins


def protocol(port):
    """The protocol's own examples; logins; what has no form."""
    machine = Machine(port, None)
    check("the checksums of the protocol's examples", [checksum(it) for it in ("941AY3AZ", "9900302.00AY1AZ", "97AZ", "96AZ")], ["FDFA", "FCA5", "FEF5", "FEF6"])
    check("a wrong password", machine.says("9300CNgate|COopen|"), "940")
    check("an unknown name", machine.says("9300CNnobody|CO|"), "940")
    check("a right one", machine.sends("9300CNgate|COopensesame|AY3AZ" + checksum("9300CNgate|COopensesame|AY3AZ")), "941AY3AZFDFA")
    check("the status", re.sub(r"\d{8}    \d{6}", "DATE", machine.sends("9900302.00AY1AZFCA5")).partition("AY")[0], "98YYYYNN200003DATE2.00AO|BXYYYNYYYYYNYNNNYN|")
    last = machine.sends(numbered(item("C10"), 4))
    check("the last answer again", machine.sends("97AZFEF5"), last)
    check("a wrong checksum", machine.sends("9900302.00AY1AZFCA6"), "96AZFEF6")
    check("no checksum where there is a number", machine.sends("9900302.00AY1"), "96AZFEF6")
    check("without numbers", machine.sends("9300CNdoor|COsesame2|"), "941")
    check("a message in pieces", [machine.peer.sendall(it) for it in (b"9900302.00A", b"Y1AZFC", b"A5\r\n")] and machine.file.readline()[:8], b"98YYYYNN")
    check("the end of a session", machine.says(f"35{DATE}AOtown|AA1|AC|AD|"), "36YDATEAOtown|AA1|")
    for line in ("01NDATE", "", "xx", item("C10")):
        other = Machine(port, None)
        other.peer.sendall(b"\r\n")
        check(f"{line!r} before a login has no answer", other.sends(line or "??"), "")
        other.close()
    check("an unknown message after one", machine.sends("01N"), "")
    machine.close()


def circulation(port, path):
    """Copies are lent, renewed and come in, or the machine shows why not."""
    machine = Machine(port)
    check("a check-out", machine.says(check_out("P1", "C10")), "121NUYDATEAOtown|AAP1|ABC10|AJRivers of the North|AH2026-03-09|AFDue 2026-03-09.|")
    check("the same copy again", machine.says(check_out("1", "10")), "120NUNDATEAOtown|AA1|AB10|AJRivers of the North|AH|AFThis item is on loan.|")
    check("the same copy, renewed", machine.says(check_out("1", "10", "Y")), "121YUYDATEAOtown|AA1|AB10|AJRivers of the North|AH2026-03-16|AFDue 2026-03-16.|")
    check("for another patron", machine.says(check_out("2", "10", "Y")), "120NUNDATEAOtown|AA2|AB10|AJRivers of the North|AH|AFThis item is on loan.|")
    check("no renewal is left", machine.says(renew("1", "10")), "300NUNDATEAOtown|AA1|AB10|AJRivers of the North|AH|AFNo renewals are left.|")
    check("another's loan", machine.says(renew("2", "10")), "300NUNDATEAOtown|AA2|AB10|AJRivers of the North|AH|AFThis item is not on loan to you.|")
    check("another branch's copy", machine.says(check_out("1", "20")), "120NUNDATEAOtown|AA1|AB20|AJ|AH|AFThis item belongs to another branch. Please ask the staff.|")
    for patron, copy, says in (("9", "11", "This card is unknown."), ("C1", "11", "This card is unknown."), ("", "11", "This card is unknown."), ("1", "99", "This item is unknown."), ("1", "P11", "This item is unknown.")):
        check(f"{copy} for {patron}", machine.says(check_out(patron, copy)), f"120NUNDATEAOtown|AA{patron}|AB{copy}|AJ|AH|AF{says}|")
    check("it comes in", machine.says(check_in("C10")), "101YUNDATEAOtown|ABC10|AQ1|AJRivers of the North|AF|")
    check("an unknown one", machine.says(check_in("C99")), "100NUYDATEAOtown|ABC99|AQ|AFThis item is unknown.|")
    check("one of another branch", machine.says(check_in("20")), "101YUYDATEAOtown|AB20|AQ2|AJSalt Roads|CV04|CT2|AFGoes to another branch.|")
    check("the loans", rows_now(path, "SELECT loan, copy, patron, ended IS NULL FROM loans3"), [(1, 10, 1, 0)])
    machine.close()


def holds_and_fines(port, desk):
    """A copy for a hold goes to the hold shelf, a late one has a fine, and a page is counted."""
    machine = Machine(port)
    check("a check-out", machine.says(check_out("2", "11"))[:3], "121")
    for words in ("place-hold 3 100 1", "place-hold 1 100 2", "begin-day 2026-03-11"):
        check(words, desk(*words.split())[0], 200)
    check("the copy on its shelf is for the first", desk("check-in", "10", "1")[1], '{"reply":"fine 0 ready 1 at 1 until 2026-03-16"}')
    check("a late copy, for a hold elsewhere", machine.says(check_in("11")), "101YUYDATEAOtown|AB11|AQ1|AJRivers of the North|CV02|CT2|AFFine 0.40. Goes to another branch for a hold.|")
    check("who it is kept for takes it", machine.says(check_out("3", "10")), "121NUYDATEAOtown|AA3|AB10|AJRivers of the North|AH2026-03-17|AFDue 2026-03-17.|")
    check("the status of a patron", machine.says(status("2")), f"24{' ' * 14}000DATEAOtown|AA2|AEBo Carr|BLY|CQN|BV0.40|")
    check("with the card key", machine.says(status("2", "ADcardkey00002|")), f"24{' ' * 14}000DATEAOtown|AA2|AEBo Carr|BLY|CQY|BV0.40|")
    check("with another", machine.says(status("2", "ADcardkey00001|")), f"24{' ' * 14}000DATEAOtown|AA2|AEBo Carr|BLY|CQN|BV0.40|")
    check("of nobody", machine.says(status("9")), f"24Y{' ' * 13}000DATEAOtown|AA9|AE|BLN|CQN|AFThis card is unknown.|")
    check("information", machine.says(information("3", "  Y       ")), f"64{' ' * 14}000DATE000000000001000000000000AOtown|AA3|AECy Dunn|BLY|CQN|BV0.00|AURivers of the North|")
    check("a hold that travels is not there yet", machine.says(information("1", "     Y    ")), f"64{' ' * 14}000DATE000000000000000000000001AOtown|AA1|AEAnn Bell|BLY|CQN|BV0.00|CDRivers of the North|")
    check("information of nobody", machine.says(information("9", "YYYYYY    ")), f"64Y{' ' * 13}000DATE000000000000000000000000AOtown|AA9|AE|BLN|CQN|AFThis card is unknown.|")
    check("it is there", desk("check-in", "11", "2")[1], '{"reply":"fine 0 ready 2 at 2 until 2026-03-14"}')
    check("an item on loan", machine.says(item("10")), "18040001DATEAB10|AJRivers of the North|AH2026-03-17|AQ1|")
    for copy, answer in (("11", "18080001DATEAB11|AJRivers of the North|AQ1|"), ("20", "18100001DATEAB20|AJSalt Roads|AQ2|"), ("30", "18030001DATEAB30|AJNight Ferries|AQ1|"), ("99", "18010001DATEAB99|AJ|AFThis item is unknown.|")):
        check(f"item {copy}", machine.says(item(copy)), answer)
    check("overdue, once a day has begun", desk("begin-day", "2026-03-19")[0], 200)
    check("what is overdue", machine.says(information("3", " Y        ")), f"64{' ' * 14}000DATE000000010001000000000000AOtown|AA3|AECy Dunn|BLY|CQN|BV0.00|ATRivers of the North|")
    check("missing", (desk("missing", "30")[0], machine.says(item("30"))), (200, "18130001DATEAB30|AJNight Ferries|AQ1|"))
    check("a title with a bar", desk("acquire", "60", "600", "1", "1", "100", "This | That")[0], 200)
    check("stands in one field", machine.says(item("60")), "18030001DATEAB60|AJThis / That|AQ1|")
    machine.close()


def by_barcodes(port, desk):
    """A label is looked up as a barcode first, and a thing without one is known by its number. A barcode that is a
    number too names what has it, and never the thing of that number."""
    for words in (("copy-barcode", "30", "30000100000030"), ("patron-barcode", "1", "20000000000001"),
                  ("copy-barcode", "60", "31"), ("patron-barcode", "3", "30"), ("copy-barcode", "20", "C60")):
        check(f"{words}", desk(*words)[0], 200)
    machine = Machine(port)
    check("an item by its barcode", machine.says(item("30000100000030")),
          "18130001DATEAB30000100000030|AJNight Ferries|AQ1|")
    check("the same by its number", machine.says(item("C30")), "18130001DATEABC30|AJNight Ferries|AQ1|")
    check("a barcode that is a number", machine.says(item("31")), "18030001DATEAB31|AJThis / That|AQ1|")
    check("a number that is a patron's barcode", machine.says(item("30")),
          "18010001DATEAB30|AJ|AFThis item is unknown.|")
    check("a number with its prefix that is a barcode", machine.says(item("C60")),
          "18100001DATEABC60|AJSalt Roads|AQ2|")
    check("a patron by the barcode", machine.says(status("20000000000001")),
          f"24{' ' * 14}000DATEAOtown|AA20000000000001|AEAnn Bell|BLY|CQN|BV0.00|")
    check("with the card key", machine.says(status("20000000000001", "ADcardkey00001|")).partition("|BL")[2],
          "Y|CQY|BV0.00|")
    check("a copy's barcode for a patron", machine.says(status("30000100000030")),
          f"24Y{' ' * 13}000DATEAOtown|AA30000100000030|AE|BLN|CQN|AFThis card is unknown.|")
    check("no such barcode", machine.says(status("20000000000002")),
          f"24Y{' ' * 13}000DATEAOtown|AA20000000000002|AE|BLN|CQN|AFThis card is unknown.|")
    check("a check-out", machine.says(check_out("20000000000001", "31"))[:6], "121NUY")
    check("and a check-in", machine.says(check_in("31"))[:6], "101YUN")
    machine.close()


def again(port, path):
    """A message that comes again under its number acts once."""
    machine = Machine(port)
    line, before = numbered(check_out("3", "60"), 7), rows_now(path, "SELECT count(*) FROM kept")
    first = machine.sends(line)
    check("the answers", (first[:3], [machine.sends(line) for _ in range(3)]), ("121", [first] * 3))
    check("how often it acted", rows_now(path, "SELECT count(*) FROM kept"), [(before[0][0] + 1,)])
    machine.close()


def many(port, desk):
    """Machines at once, each with copies of its own: every answer is its own."""
    for at in range(MACHINES * 3):
        check("a copy", desk("acquire", str(1000 + at), "1000", "1", "1", "100", "Many")[0], 200)
    for at in range(MACHINES):
        check("a patron", desk("patron", str(100 + at), "1", f"cardkey{at:05}", f"Patron {at}")[0], 200)
    told = []

    def work(at):
        machine = Machine(port)
        for copy in range(1000 + 3 * at, 1003 + 3 * at):
            told.append((machine.says(check_out(100 + at, copy))[:3], machine.says(information(100 + at, "          "))[31:35], machine.says(check_in(copy))[:3]))
        machine.close()

    threads = [threading.Thread(target=work, args=(at,)) for at in range(MACHINES)]
    for it in threads:
        it.start()
    for it in threads:
        it.join()
    check("each machine's answers", told, [("121", "0001", "101")] * 3 * MACHINES)


def while_away(port, path, keys, serving):
    """While the desk is away a message waits, and acts once when it is there again."""
    run, own = serving
    machine = Machine(port)
    run.kill()
    run.communicate()
    found = []
    asking = threading.Thread(target=lambda: found.append(machine.says(check_out("2", "60"))[:3]))
    check("the copy is lent", rows_now(path, "SELECT patron FROM loans3 WHERE copy = 60 AND ended IS NULL"), [(3,)])
    asking.start()
    time.sleep(1)
    run, _ = a_desk(path, keys, own)
    asking.join()
    check("it is answered", found, ["120"])
    machine.close()
    return run


def bad(folder, keys, logins):
    """Wrong words and files."""
    def told(*words):
        run = subprocess.run([sys.executable, SIP2, *words], capture_output=True, text=True, timeout=LONGEST_RUN,
                             check=False)
        return run.returncode, run.stdout, run.stderr

    for words in ((), ("8080", f"@{keys}", "1", "127.0.0.1:0"), ("0", f"@{keys}", "1", "127.0.0.1:0", logins), ("8080", keys, "1", "127.0.0.1:0", logins), ("8080", f"@{keys}", "x", "127.0.0.1:0", logins),
                  ("8080", f"@{keys}", "1", "6001", logins), ("8080", f"@{keys}", "1", "127.0.0.1:65536", logins), ("8080", f"@{keys}", "1", "127.0.0.1:0", logins, "x")):
        check(f"the words {words}", told(*words), (4, "", USAGE))
    absent = os.path.join(folder, "absent")
    for text in ("", "gate\n", "gate a b\n", "gate a\ngate b\n", "gate a|b\n"):
        wrong = os.path.join(folder, "wrong")
        with open(wrong, "w", encoding="utf-8") as file:
            file.write(text)
        line = f"sip2: {wrong} is no file of logins: each line is a name and a password with one space between them, and no name stands twice\n"
        check(f"the logins {text!r}", told("8080", f"@{keys}", "1", "127.0.0.1:0", wrong), (3, "", line))
        check(f"the keys {text!r}", told("8080", f"@{wrong}", "1", "127.0.0.1:0", logins), (3, "", f"sip2: {wrong} is no file of keys: circ send says which line is wrong\n"))
    check("no file", told("8080", f"@{keys}", "1", "127.0.0.1:0", absent), (3, "", f"sip2: {absent} can't be read: No such file or directory\n"))
    with socket.create_server(("127.0.0.1", 0)) as taken:
        listen = f"127.0.0.1:{taken.getsockname()[1]}"
        check("a taken port", told("8080", f"@{keys}", "1", listen, logins), (3, "", f"sip2: {listen} can't be had: Address already in use\n"))


def main():
    with tempfile.TemporaryDirectory(dir=IN_MEMORY) as folder:
        path, (keys, logins) = a_library(folder, "town.db"), files(folder)
        run, own = a_desk(path, keys)
        count = iter(range(1000))

        def desk(*words):
            told = subprocess.run([f"{TOP}/circ", "send", str(own), "@/dev/stdin", f"d{next(count)}", *words],
                                  input="ann desk annkey000001\n", capture_output=True, text=True, timeout=LONGEST_RUN,
                                  check=False)
            return {0: 200}.get(told.returncode, told.returncode), told.stdout.rstrip("\n")

        with bridge(own, keys, logins) as port:
            part(protocol, port)
            part(circulation, port, path)
            part(holds_and_fines, port, desk)
            part(by_barcodes, port, desk)
            part(again, port, path)
            part(many, port, desk)
            run = while_away(port, path, keys, (run, own))
        run.kill()
        run.communicate()
        part(bad, folder, keys, logins)
        say(path, [("e1", ["branch", "3", "5", "Hill"], "ok")])


if __name__ == "__main__":
    run_script(main)
