"""What the programs beside circ have in common: how they end, what they tell of themselves, how they read lists, and
how they send the rows of a list to a desk that serves."""

import csv
import functools
import gzip
import io
import os
import re
import shutil
import subprocess
import sys
import tempfile
import time
import zlib

from circ_client import BadKeys, Desk, Fault, NoAnswer, NoDesk, NotUnderstood, Refused, first_key, is_key

NAME = os.path.basename(sys.argv[0])  # `circ-enrol` where it is installed
REFUSED, FAULT, BAD, STOPPED = 2, 3, 4, 130
LARGEST_WORD = 4_294_967_295  # of the words that are numbers
LONGEST_BARCODE = 24
LONGEST_TEXT = 120  # bytes of a name or of the text of a title
CUT = "…"
TOLD_ROWS = 20  # so many bad rows are told
MARK = "\ufeff"
WRONG_KEY = 81


class Ended(Exception):
    """The run ends before its work is done: the status, and what is said of it, line by line."""

    def __init__(self, status, *lines):
        super().__init__(*lines)
        self.status, self.lines = status, lines


def program():
    """The program circ: the one beside this one, else the one on the path, else that of the checkout; None where there
    is none."""
    here = os.path.dirname(os.path.realpath(sys.argv[0]))
    if os.access(os.path.join(here, "circ"), os.X_OK):
        return os.path.join(here, "circ")
    launcher = os.path.join(os.path.dirname(here), "circ")
    is_checkout = os.path.isfile(os.path.join(here, "program")) and os.access(launcher, os.X_OK)
    return shutil.which("circ") or (launcher if is_checkout else None)


def told_of_itself(words, usage, says):
    """The status where a run only asks for the help or the version; None for any other."""
    if words[:1] in (["-h"], ["--help"]):
        print(f"{usage}\n{says}")
        return 0
    if words[:1] == ["--version"]:
        return subprocess.run([program() or "circ", "--version"], check=False).returncode
    return None


def main(run, usage, says):
    """Runs a program on its words, tells what ended it on standard error, and gives its status."""
    words = sys.argv[1:]
    try:
        status = told_of_itself(words, usage, says)
        return run(words) if status is None else status
    except Ended as end:
        for line in end.lines:
            print(line if line == usage else f"{NAME}: {line}", file=sys.stderr)
        return end.status


def main_of_sender(run, usage, says):
    """The same for one that sends rows to a desk: also where it was stopped, or nobody takes what it prints."""
    try:
        return main(run, usage, says)
    except KeyboardInterrupt:
        print(f"{NAME}: stopped: run the same again", file=sys.stderr)
        return STOPPED
    except OSError:
        print(f"{NAME}: standard output can't be written", file=sys.stderr)
        # else Python tells it once more at its end
        os.dup2(os.open(os.devnull, os.O_WRONLY), sys.stdout.fileno())
        return FAULT


# ---- words


def is_number(text):
    return bool(re.fullmatch("0|[1-9][0-9]{0,9}", text)) and int(text) <= LARGEST_WORD


def is_barcode(text):
    return bool(re.fullmatch(f"[A-Za-z0-9]{{1,{LONGEST_BARCODE}}}", text))


def cut(text):
    """A text that is cut at a word where it is too long for a name or a title."""
    if len(text.encode()) <= LONGEST_TEXT:
        return text
    kept = text.encode()[: LONGEST_TEXT - len(CUT.encode())].decode(errors="ignore")
    return (kept.rpartition(" ")[0] if " " in kept else kept).rstrip(" ,;:.-") + CUT


def port_of(word):
    if not is_number(word) or not 0 < int(word) < 65_536:
        raise Ended(BAD, "the port is no number from 1 to 65535")
    return int(word)


def key_of(word):
    """The key of the desk that a word is, or that stands first in the file of keys that it names. Nothing of the file
    is told."""
    if not word.startswith("@") or word == "@":
        if not is_key(word):
            raise Ended(BAD, "the desk's key is not 8 to 32 ASCII letters and digits")
        return word
    try:
        return first_key(word[1:])
    except OSError as fault:
        raise Ended(FAULT, f"{word[1:]} can't be read: {fault.strerror}") from None
    except BadKeys:
        raise Ended(FAULT, f"{word[1:]} is no file of keys: circ send says which line is wrong") from None


# ---- lists


def read_bytes(path):
    try:
        with open(path, "rb") as file:
            return file.read()
    except OSError as fault:
        raise Ended(FAULT, f"{path} can't be read: {fault.strerror}") from None


def decoded(data):
    """The text of a spreadsheet's list, by its marks and bytes."""
    if data[:2] in (b"\xff\xfe", b"\xfe\xff"):
        return data.decode("utf-16")
    try:
        return data.decode("utf-8-sig")
    except UnicodeDecodeError:
        return data.decode("cp1252")


def records(path):
    """The records of a spreadsheet's list, each with the line that it ends at; a blank line is none."""
    try:
        text = decoded(read_bytes(path))
    except UnicodeDecodeError:
        raise Ended(BAD, f"{path} is not UTF-8, UTF-16 or Windows-1252") from None
    head = text.partition("\n")[0]
    parts = max(",;\t", key=head.count)
    csv.field_size_limit(2**31 - 1)
    reader = csv.reader(io.StringIO(text, newline=""), delimiter=parts, strict=True)
    try:
        return [(reader.line_num, [it.strip() for it in row]) for row in reader if any(it.strip() for it in row)]
    except csv.Error as fault:
        raise Ended(BAD, f"{path}: line {reader.line_num}: {fault}; a quote may not be closed") from None


def read_list(path, headers, fault_of):
    """The header of a list, which is one of these, its rows, and whether it has a byte order mark. `fault_of` says
    what is wrong with the form of a row, or None; where one is bad the run ends."""
    try:
        text = read_bytes(path).decode()
    except UnicodeDecodeError as fault:
        raise Ended(BAD, f"{path} is not UTF-8: line {fault.object.count(bytes([10]), 0, fault.start) + 1}") from None
    has_mark = text.startswith(MARK)
    csv.field_size_limit(2**31 - 1)  # a quote that is never closed makes one long field, which is told as any bad one
    try:
        lines = csv.reader(io.StringIO(text.removeprefix(MARK), newline=""))
        header, *rows = [row for row in lines if row] or [[]]
    except csv.Error as fault:
        raise Ended(BAD, f"{path} is no list of comma-separated values: {fault}") from None
    if header not in headers:
        raise Ended(BAD, f"{path}: its first line is not {' or '.join(','.join(it) for it in headers)}")
    faults = [f"it has {len(it)} fields, not {len(header)}" if len(it) != len(header) else fault_of(it) for it in rows]
    bad = [f"{path}: row {at} is bad: {fault}" for at, fault in enumerate(faults, 1) if fault]
    if bad:
        more = [f"{path}: {len(bad) - TOLD_ROWS} rows more are bad"] * (len(bad) > TOLD_ROWS)
        raise Ended(BAD, *bad[:TOLD_ROWS], *more, "nothing was sent")
    if not text.endswith(("\n", "\r")):
        raise Ended(BAD, f"{path}: its last line has no end, so it may be cut; nothing was sent")
    return header, rows, has_mark


def need_room(path):
    """Ends the run where a new file can't be made."""
    if os.path.lexists(path):
        raise Ended(FAULT, f"{path} is there already, and is not written over")
    try:
        with tempfile.TemporaryFile(dir=os.path.dirname(path) or "."):
            pass
    except OSError as fault:
        raise Ended(FAULT, f"{path} can't be written: {fault.strerror}") from None


def write_list(path, rows, has_mark=False, mode=0o600):
    """Makes a list, whole or not at all. It is its owner's alone, since it may have card keys, unless it has another
    mode."""
    made = None
    try:
        handle, made = tempfile.mkstemp(dir=os.path.dirname(path) or ".")
        with open(handle, "w", encoding="utf-8-sig" if has_mark else "utf-8", newline="") as file:
            csv.writer(file, lineterminator="\n").writerows(rows)
            file.flush()
            os.fsync(file.fileno())
        os.chmod(made, mode)
        os.rename(made, path)
    except OSError as fault:
        if made and os.path.exists(made):
            os.remove(made)
        raise Ended(FAULT, f"{path} can't be written: {fault.strerror}") from None


# ---- rows that are sent


@functools.cache
def meanings():
    """What the numbers of refusals and faults mean, by the manual page: in the repository, or where `./install` or the
    package put it. Where it isn't there none is known."""
    top = os.path.dirname(os.path.dirname(os.path.realpath(sys.argv[0])))
    page = "share/man/man1/circ.1"
    for path, opens in (("docs/circ.1", open), (page, open), (f"{page}.gz", gzip.open)):
        try:
            with opens(os.path.join(top, path), "rt", encoding="utf-8") as file:
                told = file.read().partition(".Sh DIAGNOSTICS")[2]
        except (OSError, ValueError, EOFError, zlib.error):
            continue
        found = re.findall(r"^\.It (\d+)\n((?:[^.].*\n)+)", told, re.M)
        return {int(number): " ".join(text.split()) for number, text in found}
    return {}


def with_meaning(word, number):
    """The number of a refusal or a fault, and what it means where that is known."""
    text = meanings().get(number)
    return f"{word} {number}: {text}" if text else f"{word} {number}"


def send(desk, what, key, *words):
    """The reply to a request of a row, or None and the number of its refusal. Whatever would come to the next row too
    ends the run."""
    try:
        return desk.ask(*words, key=key), None
    except Refused as refusal:
        if refusal.number == WRONG_KEY:
            raise Ended(REFUSED, with_meaning("refused", refusal.number)) from None
        return None, refusal.number
    except Fault as fault:
        told = with_meaning("fault", fault.number)
        raise Ended(FAULT, f"{told}; run the same again when that is fixed") from None
    except NotUnderstood:
        raise Ended(BAD, f"the desk does not understand {what}") from None
    except NoAnswer:
        told = f"no answer came from the desk on port {desk.port}"
        raise Ended(FAULT, f"{told}: run the same again when it serves") from None
    except NoDesk:
        raise no_desk(desk) from None


def no_desk(desk):
    return Ended(FAULT, f"what answers on port {desk.port} is no desk")


def give(desk, what, key, *words):
    """Sends a request of a row that is answered by `ok`: None where it was accepted, else the number of its
    refusal."""
    reply, number = send(desk, what, key, *words)
    if number is None and reply != "ok":
        raise no_desk(desk)
    return number


class Progress:
    """Shows on a terminal, in one line that is written over, how far a run is."""

    def __init__(self):
        self.shown = 0.0

    def tell(self, line):
        if time.monotonic() - self.shown > 0.1:
            self.shown = time.monotonic()
            self.write(line)

    def write(self, line=""):
        if sys.stderr.isatty():
            print(f"\r{line}\033[K", end="", file=sys.stderr, flush=True)


def send_rows(rows, give_row, keep):
    """Sends each row, by a function that gives None where it was accepted, else the number of a refusal and the key
    that it came to. The refused rows are kept by another; then, whatever ended it, each is told, and how many there
    were. Gives the status of the run."""
    accepted, refused, progress = 0, [], Progress()
    try:
        for at, row in enumerate(rows, 1):
            progress.tell(f"{at - 1} of {len(rows)} rows")
            found = give_row(row)
            if found is None:
                accepted += 1
            else:
                refused.append((at, row, *found))
        if refused:
            keep([row for _, row, _, _ in refused])
    finally:
        progress.write()
        for at, _, number, key in refused:
            print(f"row {at} {with_meaning('refused', number)} ({key})")
        print(f"accepted {accepted} refused {len(refused)}", flush=True)
    return REFUSED if refused else 0


def send_list(words, usage, headers, fault_of, give_row):
    """The status of a run on the words PORT DESKKEY|@KEYFILE LIST REFUSED, which came to its end: each row of LIST is
    given to the desk, and the refused ones are put into the new file REFUSED."""
    if len(words) != 4 or not all(words):
        raise Ended(BAD, usage)
    port, key, path, path_of_refused = words
    desk = Desk(port_of(port), key_of(key))
    header, rows, has_mark = read_list(path, headers, fault_of)
    need_room(path_of_refused)
    keep = lambda refused: write_list(path_of_refused, [header, *refused], has_mark)
    return send_rows(rows, lambda row: give_row(desk, row), keep)
