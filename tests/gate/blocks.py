#!/usr/bin/env python3
"""Types each block of README.md, docs/USING.md and docs/OPERATIONS.md as it stands: once in a checkout, with what
`./install` makes of it, and once with the package and its own copies of these pages.

    tests/gate/blocks.py

A block is what a page shows between two blank lines and four columns from its edge. It is typed at a shell that ends
at the first failure, is put into the file that the page speaks of, or is typed at the prompt that the page speaks of.
The places of the machine (/etc, /usr, /var) are those of a folder, 8080 and 6001 are ports that nobody has, and
VERSION and the name of a backup, which stand for what differs, get a value. What wants root, systemd or an
installation is done by tests/lib/stand_ins.py. A block that nothing here types fails the test, and so does one that is
looked for and isn't there.
"""

import os
import re
import shutil
import signal
import socket
import subprocess
import tempfile
import time
from contextlib import contextmanager, suppress

from room import TOP
from lib.checking import check, need, none, part, run_script
from lib.runs import type_page
from lib.serving import free_port
from lib.stand_ins import Machine, Unit, below, heeds_signals

CHECKOUT = ("CHANGES.md", "README.md", "bin", "circ", "crates/circ_cli/out", "demo", "docs", "install", "package",
            "pages", "tools")
STAMP = r"town\.db-\d{4}-\d\d-\d\dT\d\d-\d\d-\d\dZ"
DAY = r"\d{4}-\d\d-\d\d"
TODAY = rf'\{{"reply":"today {DAY}"\}}\n'
STARTED = ("circ.service", "circ-day.timer", "circ-watch.timer", "circ-backup.timer")
MADE = r".*: there was no library; a new one was made\n"
LENT = "ok\n" * 6 + "loan 1 due 2026-03-09\n"
TOWN = {
    "borrowers": "borrowernumber,cardnumber,surname,firstname,branchcode,categorycode\n"
                 "7,20000000000007,Bell,Ann,MAIN,ADULT\n",
    "items": "itemnumber,biblionumber,barcode,homebranch,itype,title,author,replacementprice,itemlost,withdrawn\n"
             "10,100,30000000000010,MAIN,BK,Rivers,,25.00,0,0\n11,100,,MAIN,BK,Rivers,,25.00,0,0\n",
    "issues": "borrowernumber,itemnumber,branchcode,issuedate,date_due,renewals_count\n"
              "7,10,MAIN,2026-03-01 10:00:00,2026-03-15 23:59:00,0\n",
    "reserves": "reserve_id,borrowernumber,biblionumber,branchcode,priority,found,itemnumber,reservedate,suspend,"
                "suspend_until\n",
    "accountlines": "accountlines_id,borrowernumber,date,description,amountoutstanding,branchcode\n"
                    "1,7,2026-02-01,Overdue,1.50,MAIN\n",
}
TABLE = """\
day 2026-03-02
branch MAIN 1 5 Main
patrons ADULT 1 5 5 500
copies BK 1
rule 1 1 28 2 20 1000 0
week 1 ooooooo
"""


def read(path):
    with open(path, encoding="utf-8") as file:
        return file.read()


def write(path, text, mode=0o600):
    with open(path, "w", encoding="utf-8") as file:
        file.write(text)
    os.chmod(path, mode)


class Page:
    """The blocks of a page, each of which is taken once."""

    def __init__(self, path):
        self.name = os.path.basename(path)
        found = re.findall(r"(?<=\n\n)(?:    .*\n)+(?=\n|\Z)", read(path))
        self.left = [re.sub("^    ", "", it, flags=re.M) for it in found]
        self.count = len(self.left)

    def block(self, words):
        """The block that has these words."""
        found = [it for it in self.left if words in it]
        need(f"how many blocks of {self.name} have {words!r}", len(found), 1)
        self.left.remove(found[0])
        return found[0]

    def leaves(self, *reasons):
        """The blocks that aren't for this way of installation, and no others, are left: the words of each, and why."""
        for words, _ in reasons:
            self.block(words)
        none(f"a block of {self.name} that nothing here types", self.left)


class Typing:
    """Whoever types the blocks: in a folder, at a machine."""

    def __init__(self, place, name, library):
        self.folder, self.ports = os.path.join(place, name, "town"), (str(free_port()), str(free_port()))
        os.makedirs(self.folder)
        self.machine = Machine(os.path.join(place, name, "machine"), self.ports)
        self.version = re.search(r"^## ([^,]+),", read(f"{TOP}/CHANGES.md"), re.M)[1]
        self.backup, self.sent = "none", 0
        shutil.copy(library, f"{self.folder}/day.db")

    def at(self, path):
        """A place of the machine."""
        return self.machine.folder + path

    def own(self, block):
        """A block with the machine's places and ports, and with a value for what it leaves open."""
        block = re.sub(r"\b8080\b", self.ports[0], block).replace("VERSION", self.version)
        return below(re.sub(rf"/var/backups/circ/{STAMP}", self.backup, block), self.machine.folder)

    def begun(self, block, **how):
        words = ["sh", "-euc", self.own(block)]
        return subprocess.Popen(words, stdout=subprocess.PIPE, text=True, cwd=self.folder, env=self.machine.env, **how)

    def types(self, block, wanted="", said="", at_prompt=""):
        """Types a block, and what is typed at its prompt: its output has one form, and standard error the other."""
        with self.begun(block, stdin=subprocess.PIPE, stderr=subprocess.PIPE) as run:
            out, err = run.communicate(at_prompt, timeout=120)
        told = [found if re.fullmatch(form, found) else form for form, found in ((wanted, out), (said, err))]
        check(f"what is typed:\n{block}", (run.returncode, out, err), (0, *told))
        return out

    @contextmanager
    def going_on(self, block):
        """Types a block that goes on, and ends it with all that it started. It heeds Ctrl-C, also where the test is
        run in the background."""
        with self.begun(block, start_new_session=True, preexec_fn=heeds_signals) as run:
            try:
                yield run
            finally:
                with suppress(ProcessLookupError):
                    os.killpg(run.pid, signal.SIGKILL)

    @contextmanager
    def serving(self, block):
        """Types a block that serves, until the end of what is typed meanwhile."""
        with self.going_on(block) as run:
            check(f"what is typed:\n{block}", run.stdout.readline(), f"listening on {self.ports[0]}\n")
            yield

    def answers(self):
        """Whether somebody listens on the desk's port."""
        with socket.socket() as found:
            return found.connect_ex(("127.0.0.1", int(self.ports[0]))) == 0

    def sends(self, words, reply=r'\{"reply":"ok"\}\n'):
        """Sends words to the desk as somebody writes them; one that was started just now is waited for."""
        self.sent += 1
        end = time.monotonic() + 20
        while not self.answers() and time.monotonic() < end:
            time.sleep(0.05)
        return self.types(f"circ send 8080 @/etc/circ/desk.keys s{self.sent} {words}", reply)

    def is_up(self):
        """The units work, and so does the desk."""
        states = [Unit(it, self.machine.env).is_active() for it in STARTED]
        check("the units that are started", states, ["active"] * len(STARTED))
        self.sends("today", TODAY)


def shown(page, typing):
    """README.md: the first run, the demo until Ctrl-C, and the first day. The whole test isn't typed: it runs this."""
    first, demo, test = page.block("./demo").splitlines()
    typing.types(first, "ok\n", MADE)
    with typing.going_on(f"exec {demo}") as run:
        lines = [run.stdout.readline() for _ in range(3)]
        os.killpg(run.pid, signal.SIGINT)
        rest, _ = run.communicate(timeout=60)
    says = [word in line for word, line in zip(("/pages/desk.html", "/pages/patron.html", "Ctrl-C ends it"), lines)]
    check("what the demo says", (says, rest, run.returncode), ([True] * 3, "", 0))
    check("the whole test", (test, os.access(f"{TOP}/{test}", os.X_OK)), ("./test", True))
    typing.types(page.block("k1 check-out"), LENT)
    page.leaves()


def used(page, typing, circ):
    """docs/USING.md, over the library of README.md, and over the one that the day at the desk leaves."""
    found = r"today 2026-03-02\npatron 1 (?:.*\n)*.*Rivers of the North\nend\n(?:ok\n){6}"
    typing.types(page.block("find-patrons 0 'bell an'"), found)
    typing.types(page.block("q branches 0"), r"branch 1 .*Main Hall\nend\nend\nkind 1 .*\nend\nrule 1 1 .*\nend\n")
    typing.types(page.block("q missing-copies 0"), r"end\nloan 1 .*\nend\n")
    typing.types(page.block("report town.db overdue 1"), r"(?:.*\n)*sound\nschema 4\n")
    write(f"{typing.folder}/copies.csv", page.block("copy,title,text"))
    typing.types(f"{circ} import day.db copies.csv", "row 1 ok\nrow 2 ok\naccepted 2 refused 0\n")
    with typing.serving(page.block("day.db 8080 4 250 deskkey00001")):
        asked = page.block("\ncurl ")
        # without what curl shows of its work, and a line for each answer
        lines = re.sub("^curl ", r"curl -sf -m 60 -w '\\n' ", asked, flags=re.M)
        typing.types(lines, r'(?:\{"reply":".*"\}\n){%d}' % asked.count("curl "))
        typing.types(page.block("find-patrons 0 'carr bo'"), r'(?:\{"reply":".*"\}\n){2}\{"reply":"ok"\}\n')
    write(f"{typing.folder}/desk.keys", page.block("ann desk "))
    with typing.serving(page.block("day.db 8080 4 250 @desk.keys")):
        typing.types(page.block("send 8080 @desk.keys"), r'\{"reply":".*"\}\n')
    # a list of a town that has a kind of patrons and none of these yet
    typing.types(f"{circ} file new.db 1 begin-day 2026-03-02\n{circ} file new.db 2 kind 1 5 5 500", "ok\nok\n", MADE)
    with typing.serving(f"{circ} serve new.db 8080 1 250 @desk.keys"):
        write(f"{typing.folder}/patrons.csv", page.block("patron,kind,card-key,name"))
        typing.types(page.block("patrons.csv refused.csv"), "accepted 2 refused 0\n")
    typing.types(page.block("--no-service town.db backups"), rf"backups/{STAMP}\n")
    page.leaves()


def kept(page, typing, installs, upgrade, *others):
    """docs/OPERATIONS.md from the installation on, with a patron who leaves at the end. The upgrade is typed as this
    way of installation has it."""
    library, made = typing.at("/var/lib/circ/town.db"), rf"{typing.at('/var/backups/circ')}/{STAMP}\n"
    typing.types(page.block(installs), rf"(?:.*\n)*{library}: a new library, whose day is {DAY}\n")
    typing.is_up()
    for words in ("kind 1 5 5 500", "branch 1 5 Main", "patron 4 1 cardkey00004 'Ann Bell'"):
        typing.sends(words)
    part(moved_in, page, typing)
    part(new_clerk, page, typing)
    part(self_service, page, typing)
    for other in others:
        part(other, page, typing)
    typing.backup = typing.types(page.block("circ-backup /var/lib"), made).strip()
    typing.is_up()
    opens = page.block("sqlite3 'file:")
    for words in ("reply LIKE 'loan 7", "place-hold", "CASE sort", "FROM loans3 GROUP BY"):
        typing.types(opens, at_prompt=page.block(words))
    typing.sends("kind 2 1 1 100")
    at_home(typing)
    aside = rf"{typing.at('/var/lib/circ/aside')}/{STAMP}"
    restored = rf"{library} is restored from {typing.backup}\nwhat was there is in {aside}\n"
    typing.types(page.block("circ-restore /var"), restored)
    typing.is_up()
    typing.sends("kinds 0", r'\{"reply":"kind 1 [^"]*500\\nend"\}\n')
    for line in page.block("amend-patron 4").splitlines():
        typing.sends(line)
    typing.types(page.block("circ-forget"), rf"{made}3 requests and 0 texts were removed\n")
    typing.is_up()
    typing.types(upgrade(page.block("circ migrate")), r"(?:.*\n)*schema 4\n")
    typing.is_up()
    line, included = page.block("proxy_set_header Desk-Key"), "include /etc/circ/health.key;"
    nginx = read(f"{TOP}/docs/operations/nginx.conf")
    check("the file that nginx includes", (line, included in nginx), ("proxy_set_header Desk-Key KEY;\n", True))


def at_home(typing):
    """The one tool that names a place of the machine by itself names this machine's."""
    path = shutil.which("circ-restore", path=typing.machine.env["PATH"])
    text = read(path)
    check("the place that it names", text.count("\nlibrary=/var/lib/circ/town.db\n"), 1)
    write(path, text.replace("\nlibrary=/var", f"\nlibrary={typing.at('/var')}"), 0o755)


def moved_in(page, typing):
    """A town of Koha moves into a new library and gets a label; then the library of before is back."""
    folder, moved = typing.at("/var/lib/circ"), "1 patrons, 2 copies, 1 loans, 0 holds, 1 debts; 0 rows are told\n"
    os.makedirs(f"{typing.folder}/koha")
    for name, text in TOWN.items():
        write(f"{typing.folder}/koha/{name}.csv", text)
    reads = page.block("circ-move-in koha\n")
    typing.types(reads, "koha/table.txt is made: fill it in\n")
    write(f"{typing.folder}/koha/table.txt", TABLE)
    typing.types(reads, moved)
    typing.types("systemctl stop circ")
    os.rename(folder, f"{folder}.before")
    os.mkdir(folder)
    typing.types(page.block("circ-create /var/lib/circ/town.db 2024"), rf"{folder}/town\.db: a new library, whose day is 2024-01-01\n{moved}")
    write(f"{typing.folder}/labels.csv", "copy,barcode\n11,0011\n")
    typing.types(page.block("circ-label"), "accepted 1 refused 0\n")
    typing.sends("find-barcode 0011", r'\{"reply":"copy 11"\}\n')
    typing.types("systemctl stop circ\ncirc audit /var/lib/circ/town.db", "sound\n")
    shutil.rmtree(folder)
    os.rename(f"{folder}.before", folder)
    typing.types("systemctl start circ")
    typing.is_up()


def new_clerk(page, typing):
    """A clerk gets a key, and the desk knows it once it was started again."""
    key = typing.types(page.block("head -c 16"), "[A-Za-z0-9]{16}")
    with open(typing.at("/etc/circ/desk.keys"), "a", encoding="utf-8") as file:
        file.write(f"ann desk {key}\n")
    write(f"{typing.folder}/own.keys", f"ann desk {key}\n")
    typing.types(page.block("q today\nsystemctl restart circ"), TODAY)
    typing.is_up()
    typing.types("circ send 8080 @own.keys q today", TODAY)


def self_service(page, typing):
    """A self-service machine signs in at the service."""
    write(typing.at("/etc/circ/kiosk.keys"), read(typing.at("/etc/circ/desk.keys")).splitlines(True)[0])
    write(typing.at("/etc/circ/sip2.logins"), "gate opensesame\n")
    typing.types(page.block("circ-sip2.service"))
    for _ in range(100):
        try:
            with socket.create_connection(("127.0.0.1", int(typing.ports[1])), timeout=10) as gate:
                gate.sendall(b"9300CNgate|COopensesame|\r")
                check("it signs in", gate.recv(100)[:3], b"941")
            break
        except ConnectionRefusedError:
            time.sleep(0.1)
    else:
        check("somebody listens", False, True)
    Unit("circ-sip2.service", typing.machine.env).stops()


def of_one_key(page, typing):
    """A machine of an older version, which has one key."""
    keys, older = typing.at("/etc/circ/desk.keys"), typing.at("/etc/circ/desk.key")
    os.chmod(typing.at("/etc/circ"), 0o700)
    write(older, "DESKKEY=chosenbytown1\n")
    typing.types(page.block(". /etc/circ/desk.key"))
    check("the keys", (read(keys), os.path.exists(older)), ("keeper desk chosenbytown1\n", False))
    typing.is_up()


def of_before(page, typing):
    """What `./install` left goes, and what the package has stays."""
    places = ("/etc/systemd/system/circ.service", "/etc/systemd/system/circ-day.timer", "/usr/local/bin/circ-day")
    for path in places:
        own = path.replace("/etc/", "/usr/lib/").replace("/usr/local/", "/usr/")
        shutil.copy(typing.at(own), typing.at(path))
    typing.types(page.block("rm /etc/systemd"))
    left = [it for it in (*places, "/usr/bin/circ", "/usr/bin/circ-day") if os.path.exists(typing.at(it))]
    check("what is left", (left, typing.answers()), (["/usr/bin/circ", "/usr/bin/circ-day"], False))


def in_a_checkout(place, library):
    typing = Typing(place, "checkout", library)
    for name in CHECKOUT:
        source, there = f"{TOP}/{name}", f"{typing.folder}/{name}"
        if os.path.isdir(source):
            shutil.copytree(source, there)
        elif os.path.exists(source):
            shutil.copy2(source, there)
    pages = [Page(f"{typing.folder}/{it}") for it in ("README.md", "docs/USING.md", "docs/OPERATIONS.md")]
    try:
        part(shown, pages[0], typing)
        part(used, pages[1], typing, "./circ")
        part(kept, pages[2], typing, "./install /usr/local\nuseradd", str, of_one_key)
        typing.types(pages[2].block("rm /etc/systemd"))
        left = [it for at in ("/etc/systemd/system", "/usr/local/bin") for it in os.listdir(typing.at(at))]
        check("what is left of it", (left, typing.answers()), ([], False))
        pages[2].leaves(("apt install", "it is the package's"))
    finally:
        typing.machine.ends()
    return sum(it.count for it in pages)


def with_the_package(place, library):
    typing = Typing(place, "package", library)
    made = subprocess.run([f"{TOP}/package", typing.folder], capture_output=True, text=True, timeout=120, check=False)
    need("the package", (made.returncode, made.stderr), (0, ""))
    subprocess.run(["dpkg-deb", "-x", made.stdout.strip(), f"{place}/unpacked"], check=True)
    pages = [Page(f"{place}/unpacked/usr/share/doc/circ/{it}.md") for it in ("USING", "OPERATIONS")]

    def upgrade(block):
        return block.replace("./install /usr/local", "apt install ./circ_VERSION_amd64.deb")

    try:
        part(kept, pages[1], typing, "apt install", upgrade)
        part(of_before, pages[1], typing)
        without = "./install /usr/local\nuseradd"
        pages[1].leaves((without, "it is without the package"), (". /etc/circ/desk.key", "the package does it itself"))
        # the library of README.md, which the package doesn't have
        readme = Page(f"{TOP}/README.md")
        first = readme.block("./demo").splitlines()[0].replace("./circ", "circ")
        typing.types(first, "ok\n", MADE)
        typing.types(readme.block("k1 check-out").replace("./circ", "circ"), LENT)
        part(used, pages[0], typing, "circ")
    finally:
        typing.machine.ends()
    return sum(it.count for it in pages)


def main():
    with tempfile.TemporaryDirectory() as place:
        type_page(place, "DAY-AT-THE-DESK.md", 30)
        counts = [part(way, place, f"{place}/day.db") for way in (in_a_checkout, with_the_package)]
    print(f"blocks: {counts[0]} in a checkout, {counts[1]} with the package")


if __name__ == "__main__":
    run_script(main)
