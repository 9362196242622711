#!/usr/bin/env python3
"""Makes the Debian package, twice, and looks at what is in it; then runs its maintainer scripts in a place of their
own.

    tests/gate/package.py

Both packages have the same bytes. Their files, modes, owners and dates, the fields of the control file and the sums
are those that stand here, and each file is the repository's, with the places of the package where units and examples
name one. The scripts are run by `sh` with the system's commands that they call replaced, which note what they are
told; a real installation is tried by tests/tools/outside.
"""

import datetime
import gzip
import hashlib
import io
import os
import re
import shutil
import subprocess
import sys
import tarfile
import tempfile

from room import TOP
from lib.checking import check, part, run_script
from lib.fake_desk import FakeDesk, refusal
from lib.program import program as found
from reference.outer_forms import read_keys

UNITS = ["circ-backup.service", "circ-backup.timer", "circ-day.service", "circ-day.timer", "circ-sip2.service", "circ-tell@.service", "circ-watch.service", "circ-watch.timer", "circ.service"]
EXAMPLES = ["Caddyfile", "nginx.conf", *(f"fail2ban/{kind}.d/circ.conf" for kind in ("action", "filter", "jail"))]
# each file of the package, and the one of the repository that it is made of
PLAIN = {
    "usr/share/bash-completion/completions/circ": "docs/circ.bash",
    "usr/share/doc/circ/copyright": "tools/deb/copyright",
    "usr/share/circ/circ_client.py": "tools/circ_client.py",
    "usr/share/circ/circ_tool.py": "tools/circ_tool.py",
    "usr/share/doc/circ/openapi.yaml": "docs/openapi.yaml",
    "usr/share/doc/circ/replies.json": "docs/replies.json",
    "usr/share/doc/circ/schema.sql": "docs/schema.sql",
    "usr/share/lintian/overrides/circ": "tools/deb/lintian-overrides",
    **{f"usr/share/circ/pages/{name}": f"pages/{name}" for name in sorted(os.listdir(os.path.join(TOP, "pages")))},
}
PACKED = {"usr/share/man/man1/circ.1.gz": "docs/circ.1", "usr/share/doc/circ/changelog.gz": "CHANGES.md"}
DOCUMENTS = {f"usr/share/doc/circ/{name}.md": f"docs/{name}.md" for name in ("OPERATIONS", "USING", "RULES")}
PLACED = {
    **{f"usr/lib/systemd/system/{name}": f"docs/operations/{name}" for name in UNITS},
    **{f"usr/share/doc/circ/examples/{name}": f"docs/operations/{name}" for name in EXAMPLES},
}
TOOLS = {f"usr/bin/circ-{name}": f"tools/{name}" for name in ("backup", "copies", "create", "day", "enrol", "export", "forget", "label", "move-in", "restore", "sip2", "tell", "watch")}
PAGES = {f"usr/share/man/man1/{os.path.basename(path)}.1.gz": path for path in TOOLS}
MODES = {**dict.fromkeys([*PLAIN, *PACKED, *PLACED, *DOCUMENTS, *PAGES], 0o644), **dict.fromkeys(["usr/bin/circ", *TOOLS], 0o755)}
SCRIPTS = ["postinst", "postrm", "prerm"]
DESCRIPTION = "circulation desk of a town library with branches"
USAGE = "usage: ./package [FOLDER]\n"
ANOTHER_DATE = 1_600_000_000
# what stands in for the system's commands, and notes how it was called
STUB = '#!/bin/sh\necho "$(basename "$0") $*" >>"$NOTES"\n'
STUBS = {"adduser": "", "chgrp": "", "deb-systemd-helper": "exit 1", "deb-systemd-invoke": "", "find": "", "getent": "exit 2", "id": "echo 100", "install": 'for it; do :; done; mkdir -p "$it"', "stat": 'case $2 in "%U") echo circ ;; *) echo "root:circ 750" ;; esac', "systemctl": "", "userdel": ""}


def run(*words, **more):
    return subprocess.run(words, **{"capture_output": True, "text": True, "timeout": 60, **more})


def read(path):
    with open(path, "rb") as file:
        return file.read()


def write(path, text, mode=0o644):
    with open(path, "w", encoding="utf-8") as file:
        file.write(text)
    os.chmod(path, mode)


def text_of(path):
    return read(os.path.join(TOP, path)).decode()


def as_packed(text):
    """A document with the places and the commands of the package."""
    text = text.replace("/usr/local/share/", "/usr/share/").replace("`./circ ", "`circ ").replace("\n    ./circ ", "\n    circ ")
    for path, source in TOOLS.items():
        text = text.replace(f"\n    {source} ", f"\n    {os.path.basename(path)} ")
    return text


def archive(package, part):
    """The members of a part of the package: of `--fsys-tarfile` or `--ctrl-tarfile`."""
    with tarfile.open(fileobj=io.BytesIO(run("dpkg-deb", part, package, text=False).stdout)) as tar:
        return {it.name.removeprefix("./"): (it, tar.extractfile(it).read() if it.isfile() else None) for it in tar.getmembers()}


def folders_of(paths):
    """The folders that files stand in, and those above them."""
    found = {"."}
    for path in paths:
        while path := os.path.dirname(path):
            found.add(path)
    return found


def needed(program):
    """The packages that a program needs, by another tool than `./package` asks: the libraries that it names, and the
    newest version of the C library among its symbols that aren't weak."""
    libraries = re.findall(r"NEEDED +(\S+)", run("objdump", "-p", program).stdout)
    symbols = [line for line in run("objdump", "-T", program).stdout.splitlines() if " w " not in line]
    versions = [tuple(map(int, it.split("."))) for it in re.findall(r"GLIBC_([0-9.]+)\b", "\n".join(symbols))]
    least = [f"libc6 (>= {'.'.join(map(str, max(versions)))})"] if versions else []
    return ", ".join([*least, *["libgcc-s1"][: "libgcc_s.so.1" in libraries], "adduser", "python3 (>= 3.9)"])


def last_commit(form):
    return run("git", "-c", "safe.directory=*", "-C", TOP, "log", "-1", f"--format={form}", check=True).stdout.strip()


def date_of(has_git):
    """When the sources are of: the last commit where there is git, and else the day of the manual page."""
    if has_git:
        return int(last_commit("%ct"))
    day = datetime.datetime.strptime(re.search(r"^\.Dd (.*)$", text_of("docs/circ.1"), re.M)[1], "%B %d, %Y")
    return int(day.replace(tzinfo=datetime.timezone.utc).timestamp())


def contents(package, date):
    """Files, folders, modes, owners and dates."""
    found = archive(package, "--fsys-tarfile")
    wanted = {**MODES, **dict.fromkeys(folders_of(MODES), 0o755)}
    check("the files and folders", sorted(found), sorted(wanted))
    for path, (it, _) in sorted(found.items()):
        check(f"mode, owners and date of {path}", (oct(it.mode), it.uid, it.gid, it.uname, it.gname, it.mtime), (oct(wanted.get(path, 0)), 0, 0, "root", "root", date))
    files = {path: body for path, (it, body) in found.items() if it.isfile()}
    check("what isn't a file or a folder", [path for path, (it, _) in found.items() if not it.isfile() and not it.isdir()], [])
    control = archive(package, "--ctrl-tarfile")
    check("the files of the control part", sorted(control), [".", "control", "md5sums", *SCRIPTS])
    for path, (it, _) in control.items():
        mode = 0o755 if path in (".", *SCRIPTS) else 0o644
        check(f"mode, owners and date of {path} for dpkg", (oct(it.mode), it.uid, it.gid, it.mtime), (oct(mode), 0, 0, date))
    sums = "".join(f"{hashlib.md5(body).hexdigest()}  {path}\n" for path, body in sorted(files.items()))
    check("the sums", control["md5sums"][1].decode(), sums)
    for name in SCRIPTS:
        check(name, control[name][1], read(os.path.join(TOP, "tools", "deb", name)))
    return files


def fields(package, files, program):
    """The control file. Whom to ask stands in a file of its own, so whoever commits changes nothing of it."""
    maintainer = text_of("tools/deb/maintainer").removesuffix("\n")
    check("the maintainer", bool(re.fullmatch(r"[\w. -]+ <[\w.+-]+@[\w.-]+>", maintainer)), True)
    found = run("dpkg-deb", "-f", package).stdout
    lines = dict(line.split(": ", 1) for line in found.splitlines() if not line.startswith(" "))
    size = sum(-(-len(body) // 1024) for body in files.values()) + len(folders_of(files)) - 1
    version = re.search(r"^## (\S+),", text_of("CHANGES.md"), re.M)[1]
    wanted = {"Package": "circ", "Version": version, "Section": "misc", "Priority": "optional", "Architecture": "amd64", "Maintainer": maintainer, "Installed-Size": str(size), "Depends": needed(program), "Description": DESCRIPTION}
    check("the control fields", lines, wanted)
    check("lines that are too long for a terminal", [line for line in found.splitlines() if line.startswith(" ") and len(line) > 80], [])


def as_in_the_repository(place, package, program):
    """Each file, unpacked."""
    root = os.path.join(place, "unpacked")
    check("it is unpacked", run("dpkg-deb", "-x", package, root).returncode, 0)
    check("the program", read(f"{root}/usr/bin/circ"), read(program))
    for path, source in PLAIN.items():
        check(path, read(f"{root}/{path}"), read(f"{TOP}/{source}"))
    for path, source in PACKED.items():
        check(path, gzip.decompress(read(f"{root}/{path}")), read(f"{TOP}/{source}"))
    named = []
    for path, source in PLACED.items():
        body, own = read(f"{root}/{path}").decode(), text_of(source)
        check(path, body, own.replace("/usr/local/bin/", "/usr/bin/").replace("/usr/local/share/", "/usr/share/"))
        check(f"places in {path}", "/usr/local" in body, False)
        named += re.findall(r"/usr/(?:bin|share)/circ[\w-]*", body)
    check("what the units and examples name", sorted(set(named)), ["/usr/bin/circ", "/usr/bin/circ-backup", "/usr/bin/circ-create", "/usr/bin/circ-day", "/usr/bin/circ-sip2", "/usr/bin/circ-tell", "/usr/bin/circ-watch", "/usr/share/circ"])
    check("what of that isn't there", [it for it in named if not os.path.exists(f"{root}{it}")], [])
    for path, source in TOOLS.items():
        check(path, read(f"{root}/{path}").decode(), text_of(source).replace("#!/usr/bin/env python3", "#!/usr/bin/python3", 1))
    for path, source in DOCUMENTS.items():
        check(path, read(f"{root}/{path}").decode(), as_packed(text_of(source)))
    for path, program_path in PAGES.items():
        told, page = run(f"{root}/{program_path}", "--help").stdout.split(), gzip.decompress(read(f"{root}/{path}")).decode()
        check(f"the words of {path} that --help tells", [it for it in told if it != "usage:" and it not in page.split()], [])
    copyright_lines = text_of("tools/deb/copyright").splitlines()
    check("the licence is told in one line", (len(copyright_lines), "No licence of it is granted yet" in copyright_lines[0]), (1, True))
    # a refused row is told with its meaning, which is in the packed manual page
    desk = FakeDesk(os.path.join(TOP, "pages"))
    desk.says(lambda what: refusal(17))
    write(f"{place}/patrons.csv", "patron,kind,card-key,name\n1,1,cardkey00001,Ann Bell\n")
    write(f"{place}/desk.keys", "keeper desk deskkey00001\n", 0o600)
    told = run(sys.executable, f"{root}/usr/bin/circ-enrol", desk.url.rpartition(":")[2], f"@{place}/desk.keys", f"{place}/patrons.csv", f"{place}/refused.csv")
    check("a list of patrons by the unpacked tool", (told.returncode, told.stdout, told.stderr), (2, "row 1 refused 17: unknown kind of patron (patron-1)\naccepted 0 refused 1\n", ""))
    told = run(sys.executable, f"{root}/usr/bin/circ-backup")
    check("how the unpacked backup is written", (told.returncode, told.stderr), (4, "usage: circ-backup [--service NAME | --no-service] [--no-audit] [--fewer] LIBRARY FOLDER KEEP\n"))


class Machine:
    """A place that the maintainer scripts take for the machine."""

    def __init__(self, place, name, has_systemd=True):
        self.root, self.stubs = os.path.join(place, name), os.path.join(place, f"{name} commands")
        os.makedirs(f"{self.root}/etc")
        os.makedirs(f"{self.root}/var/lib")
        os.makedirs(self.stubs)
        if has_systemd:
            os.makedirs(f"{self.root}/run/systemd/system")
        for stub, does in STUBS.items():
            self.command(stub, does)
        self.keys, self.older, self.library = (f"{self.root}/{it}" for it in ("etc/circ/desk.keys", "etc/circ/desk.key", "var/lib/circ"))

    def command(self, name, does):
        write(f"{self.stubs}/{name}", f"{STUB}{does}\n", 0o755)

    def runs(self, script, *words):
        """The status and what is told, and which commands of the system were called."""
        path, notes = f"{self.root}/script", f"{self.root}/notes"
        write(path, re.sub(r"(?<![\w/])/(?=etc/circ|var/lib/circ|run/systemd)", f"{self.root}/", text_of(f"tools/deb/{script}")))
        write(notes, "")
        told = run("sh", path, *words, env={**os.environ, "PATH": f"{self.stubs}:{os.environ['PATH']}", "NOTES": notes})
        return (told.returncode, told.stdout, told.stderr), read(notes).decode().replace(self.root, "").splitlines()


def older_keys(place):
    """The one key of an older version goes on as the first of the file of keys, and its folder may be entered by the
    group; a file in which there is none gets a new key, and a link that leads nowhere stays."""
    moved = "circ: {0}/etc/circ/desk.keys has the key of {0}/etc/circ/desk.key now, as that of keeper\n"
    for at, (older, wanted) in enumerate((("DESKKEY=chosenbytown1\n", "chosenbytown1"), ('# of the town\nDESKKEY="chosenbytown2"\n', "chosenbytown2"), ("DESKKEY='chosenbytown3' \n", "chosenbytown3"), ("DESKKEY=short\n", None),
                                          (f"DESKKEY={'k' * 33}\n", None), ("DESKKEY=a key of a town\n", None), ("\n", None))):
        machine = Machine(place, f"older{at}")
        os.makedirs(os.path.dirname(machine.older), 0o700)
        write(machine.older, older, 0o600)
        machine.command("stat", "echo root:root 700")
        told, calls = machine.runs("postinst", "configure", "0.13.0")
        check(f"an older version's {older!r}", told, (0, moved.format(machine.root) if wanted else "", ""))
        check("its folder", ([it for it in calls if it.startswith("chgrp")], oct(os.stat(os.path.dirname(machine.keys)).st_mode & 0o7777)), (["chgrp circ /etc/circ", "chgrp circ /etc/circ/desk.keys.new"], oct(0o750)))
        found = read(machine.keys).decode()
        check("the file of keys", bool(re.fullmatch(f"keeper desk {wanted or '[A-Za-z0-9]{32}'}\n", found)) and read_keys(found.encode())[1] is None, True)
        check("the older file stays", read(machine.older).decode(), older)
    machine = Machine(place, "linked")
    os.makedirs(os.path.dirname(machine.keys))
    os.symlink("/mnt/desk.keys", machine.keys)
    check("a link that leads nowhere", (machine.runs("postinst", "configure", "0.1")[0], os.readlink(machine.keys)), ((0, "", ""), "/mnt/desk.keys"))


def scripts(place):
    """What the maintainer scripts do, beside what systemd's own helpers make of the units."""
    for name in SCRIPTS:
        told = run("sh", "-n", os.path.join(TOP, "tools", "deb", name))
        check(f"sh -n of {name}", (told.returncode, told.stderr), (0, ""))
    units = ("circ.service", "circ-day.timer", "circ-watch.timer", "circ-backup.timer")
    reload, again = "systemctl --system daemon-reload", f"deb-systemd-invoke try-restart {' '.join(units)}"
    quiet = (0, "", "")

    def helper(calls):
        return [it.removeprefix("deb-systemd-helper ") for it in calls if it.startswith("deb-systemd-helper ")]

    def without_helper(calls):
        return [it for it in calls if not it.startswith("deb-systemd-helper ")]

    machine = Machine(place, "machine")
    told, calls = machine.runs("postinst", "configure", "")
    check("the first installation", told, quiet)
    check("what it calls", without_helper(calls), ["getent passwd circ", "adduser --system --group --quiet --home /var/lib/circ --no-create-home circ", "install -d -m 700 -o circ -g circ /var/lib/circ", "install -d -m 750 -o root -g circ /etc/circ", "chgrp circ /etc/circ/desk.keys.new", reload])
    check("no unit is enabled", helper(calls), [f"{verb} {unit}" for unit in units for verb in ("debian-installed", "update-state")])
    key = read(machine.keys)
    check("a key of a legal form", bool(re.fullmatch(b"keeper desk [A-Za-z0-9]{32}\n", key)), True)
    check("a file of keys by the rules", read_keys(key)[1], None)
    check("its mode, and what is beside it", (oct(os.stat(machine.keys).st_mode & 0o7777), os.listdir(os.path.dirname(machine.keys))), (oct(0o640), ["desk.keys"]))
    machine.command("getent", "")
    machine.command("deb-systemd-helper", "")
    told, calls = machine.runs("postinst", "configure", "0.1")
    check("an upgrade", (told, without_helper(calls)), (quiet, ["getent passwd circ", "id -u circ", "stat -c %U /var/lib/circ", "stat -c %U:%G %a /etc/circ", reload, again]))
    verbs = ("debian-installed", "--quiet was-enabled", "enable", "update-state")
    check("the units that were enabled are so again", helper(calls), [f"{verb} {unit}" for unit in units for verb in verbs])
    check("the keys after it", read(machine.keys), key)
    write(machine.keys, "ann desk chosenbytown1\n")
    check("an upgrade with other keys", machine.runs("postinst", "configure", "0.1")[0], quiet)
    check("those keys after it", read(machine.keys), b"ann desk chosenbytown1\n")
    machine.command("stat", "echo root")
    _, calls = machine.runs("postinst", "configure", "")
    check("a library that a purge left", [it for it in calls if it.startswith("find ")], ["find /var/lib/circ -user root -exec chown -h circ:circ {} +"])
    machine.command("id", "echo 1000")
    check("a person of that name", machine.runs("postinst", "configure", "")[0], (1, "", "circ: there is a user circ already, who is no user of the system\n"))

    other = Machine(place, "other", has_systemd=False)
    told, calls = other.runs("postinst", "configure", "")
    check("without systemd", (told, [it for it in calls if it.startswith(("systemctl ", "deb-systemd-invoke "))]), (quiet, []))
    check("another machine has another key", read(other.keys) != key, True)
    older_keys(place)
    for script, word in (("prerm", "remove"), ("postrm", "remove")):
        check(f"{script} without systemd", other.runs(script, word), (quiet, []))

    stops = ["deb-systemd-invoke stop circ-day.timer circ-watch.timer circ-backup.timer circ-day.service circ-watch.service circ-backup.service", "deb-systemd-invoke stop circ.service"]
    check("before a removal", machine.runs("prerm", "remove"), (quiet, stops))
    check("before an upgrade", machine.runs("prerm", "upgrade", "9.9"), (quiet, []))
    check("after a removal", machine.runs("postrm", "remove"), (quiet, [reload]))
    check("what a removal leaves", (os.path.isfile(machine.keys), os.path.isdir(machine.library)), (True, True))
    write(machine.older, "DESKKEY=chosenbytown1\n")

    write(f"{machine.library}/town.db", "a library")
    stays, links = f"circ: {machine.library} stays, with the library\n", f"deb-systemd-helper purge {' '.join(units)}"
    check("a purge, with a person of that name", machine.runs("postrm", "purge"), ((0, stays, ""), [links, "id -u circ"]))
    check("the keys are gone, with their folder", os.path.exists(os.path.dirname(machine.keys)), False)
    machine.command("id", "echo 100")
    check("a purge with a library", machine.runs("postrm", "purge"), ((0, stays, ""), [links, "id -u circ", "find /var/lib/circ -user circ -exec chown -h root:root {} +", "userdel circ"]))
    check("the library stays", read(f"{machine.library}/town.db"), b"a library")
    write(f"{other.root}/etc/circ/notes", "of the town")
    check("a purge without a library", other.runs("postrm", "purge"), (quiet, [links, "id -u circ", "userdel circ"]))
    check("what it leaves", (os.listdir(f"{other.root}/etc/circ"), os.path.exists(other.library)), (["notes"], False))
    other.command("id", "exit 1")
    check("a second purge", other.runs("postrm", "purge")[0], quiet)


def without_git(place, files, name):
    """A copy of the sources that git knows nothing of, with a small program in the other's place, which tells its
    version alone; then what is wrong with such a copy is told in a line."""
    copy = os.path.join(place, "copy")
    for path in ("tools", "docs", "pages"):
        shutil.copytree(os.path.join(TOP, path), os.path.join(copy, path))
    for path in ("package", "CHANGES.md"):
        shutil.copy2(os.path.join(TOP, path), copy)

    def of_program(path):
        write(f"{copy}/tools/program", f"#!/bin/sh\necho '{path}'\n", 0o755)

    def refuses(what, line, *words, **more):
        told = run(f"{copy}/package", *words, cwd=place, **more)
        check(what, (told.returncode, told.stdout, told.stderr), (1, "", f"{line}\n"))

    heading, small = re.search(r"^## (.*)$", text_of("CHANGES.md"), re.M)[1], f"{copy}/small"
    tells = f'#include <stdio.h>\nint town(void);\nint main(void) {{ fprintf(stderr, "circ {heading}\\n"); return town(); }}\n'
    write(f"{copy}/main.c", tells)
    write(f"{copy}/town.c", "int town(void) { return 4; }\n")
    made = [run("cc", "-o", "small", "main.c", "town.c", cwd=copy), run("cc", "-shared", "-Wl,-soname,libtown.so", "-o", "libtown.so", "town.c", cwd=copy),
            run("cc", "-o", "linked", "main.c", "./libtown.so", "-Wl,-rpath,$ORIGIN", cwd=copy)]
    check("cc", [it.returncode for it in made], [0, 0, 0])

    of_program(small)
    told = run(f"{copy}/package", "copy", cwd=place)
    check("a package without git", (told.returncode, told.stdout, told.stderr), (0, f"copy/{name}\n", ""))
    found = contents(f"{copy}/{name}", date_of(False))
    check("its files", found, {**files, "usr/bin/circ": read(small)})
    fields(f"{copy}/{name}", found, small)
    told = run(f"{copy}/package", "copy", cwd=place, env={**os.environ, "SOURCE_DATE_EPOCH": str(ANOTHER_DATE)})
    contents(f"{copy}/{name}", ANOTHER_DATE)
    refuses("a date that is none", "package: SOURCE_DATE_EPOCH is no number of seconds: today", env={**os.environ, "SOURCE_DATE_EPOCH": "today"})

    os.makedirs(f"{place}/taken/{name}")
    refuses("a place that is taken", f"package: could not write taken/{name}", "taken")
    check("what is left there", os.listdir(f"{place}/taken"), [name])
    refuses("no folder", "package: there is no folder nowhere", "nowhere")
    refuses("a file in the place of a folder", "package: there is no folder copy/CHANGES.md", "copy/CHANGES.md")

    write(f"{copy}/script", f'#!/bin/sh\necho "circ {heading}" >&2\n', 0o755)
    of_program(f"{copy}/script")
    refuses("a program that is a script", f"package: {copy}/script is no program for amd64")
    of_program(f"{copy}/linked")
    refuses("a library of no package that is known", "package: the program needs libtown.so, and it isn't known which package has that")
    write(f"{copy}/tools/program", "#!/bin/sh\necho 'circ: there is no program' >&2\nexit 1\n", 0o755)
    refuses("no program", "circ: there is no program")
    of_program(small)
    write(f"{copy}/CHANGES.md", "# Changes\n\n## 99.1, schema 3\n")
    refuses("a program of another version", f"package: CHANGES.md begins with 99.1, schema 3, and {small} says that it is: circ {heading}")
    write(f"{copy}/CHANGES.md", "# Changes\n\n## Soon\n\n## 99.1, schema 3\n")
    refuses("a heading without a version", "package: the first heading of CHANGES.md has no version and schema")


def main():
    os.environ.pop("SOURCE_DATE_EPOCH", None)
    package, program = os.path.join(TOP, "package"), found()
    name = f"circ_{re.search(r'^## ([^,]+),', text_of('CHANGES.md'), re.M)[1]}_amd64.deb"
    with tempfile.TemporaryDirectory() as place:
        here, there = os.path.join(place, "here"), os.path.join(place, "a folder with spaces")
        os.mkdir(here)
        os.mkdir(there)
        done = run(package, cwd=here)
        check("what package says", (done.returncode, done.stdout, done.stderr), (0, f"./{name}\n", ""))
        # at another time, by another user's habits, over one that is there
        os.mkdir(f"{place}/handed down", 0o2777)
        os.chmod(f"{place}/handed down", 0o2777)
        write(f"{there}/{name}", "an older one")
        done = run(package, there, cwd="/", umask=0o077, env={**os.environ, "TZ": "Asia/Tokyo", "LC_ALL": "C.UTF-8", "TMPDIR": f"{place}/handed down"})
        check("what it says with a folder", (done.returncode, done.stdout, done.stderr), (0, f"{there}/{name}\n", ""))
        check("the same bytes", hashlib.sha256(read(f"{here}/{name}")).hexdigest(), hashlib.sha256(read(f"{there}/{name}")).hexdigest())
        check("who may read them", [oct(os.stat(f"{it}/{name}").st_mode & 0o7777) for it in (here, there)], [oct(0o644)] * 2)
        check("nothing beside them", (os.listdir(here), os.listdir(there), os.listdir(f"{place}/handed down")), ([name], [name], []))
        has_git = os.path.exists(os.path.join(TOP, ".git"))
        files = contents(f"{here}/{name}", date_of(has_git))
        part(fields, f"{here}/{name}", files, program)
        part(as_in_the_repository, place, f"{here}/{name}", program)
        part(without_git, place, files, name)
        part(scripts, place)
        for words in ([""], ["-x"], ["--help"], [here, there]):
            told = run(package, *words, cwd=place)
            check(f"the words {words}", (told.returncode, told.stdout, told.stderr), (4, "", USAGE))


if __name__ == "__main__":
    run_script(main)
