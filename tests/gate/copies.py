#!/usr/bin/env python3
"""Runs `tools/copies` on lists as spreadsheets write them, and has the program take in what it makes; then on bad
ones, of which each row is told with its cause.

    tests/gate/copies.py
"""

import os
import subprocess
import sys
import tempfile

from room import TOP
from lib.checking import check, part, run_script
from lib.runs import GROUND, PROGRAM, rows_now, say

COPIES = os.path.join(TOP, "tools", "copies")
HEADER = "copy,title,text,kind,home,price,end\n"
PLAIN = HEADER + '50,500,"Maps, Old and New",1,1,1500,end\n51,501,"The ""Winter"" Bees",1,2,25,end\n52,502,M\u00e4rchen,2,1,0,end\n'
ROWS = [("50", "500", "Maps, Old and New", "1", "1", "15.00"), ("51", "501", 'The "Winter" Bees', "1", "2", "0.25"), ("52", "502", "M\u00e4rchen", "2", "1", "0")]
LONG = "A " + "very " * 24 + "long title that nobody can read"


def copies(*words):
    told = subprocess.run([sys.executable, COPIES, *words], capture_output=True, text=True, timeout=60, check=False)
    return told.returncode, told.stdout, told.stderr


def list_of(rows, parts=",", names=("copy", "title", "text", "kind", "home", "price"), comma="."):
    """A list as a spreadsheet writes it."""
    quoted = lambda it: '"' + it.replace('"', '""') + '"' if any(mark in it for mark in '",;\t\n') else it
    order = [("copy", "title", "text", "kind", "home", "price").index(it) if it in ("copy", "title", "text", "kind", "home", "price") else None for it in names]
    lines = [parts.join(names)] + [parts.join("x" if at is None else quoted(row[at].replace(".", comma) if at == 5 else row[at]) for at in order) for row in rows]
    return "\r\n".join(lines) + "\r\n"


def put(folder, name, data):
    path = os.path.join(folder, name)
    with open(path, "wb") as file:
        file.write(data if isinstance(data, bytes) else data.encode())
    return path


def spreadsheets(folder):
    """However the list is written, the same file is made, and the program takes it in."""
    mixed = ("price", "shelfmark", "text", "home", "kind", "copy", "title")
    lists = {
        "commas": list_of(ROWS).encode(), "semicolons": list_of(ROWS, ";", comma=",").encode(), "tabs": list_of(ROWS, "\t").encode(), "a mark": list_of(ROWS).encode("utf-8-sig"), "utf-16": list_of(ROWS, "\t").encode("utf-16"),
        "windows": list_of(ROWS, ";", comma=",").encode("cp1252"), "another order": list_of(ROWS, ";", mixed).encode(), "capitals": list_of(ROWS).replace("copy,title", "Copy,TITLE").encode(),
        "blank lines": list_of(ROWS).replace("\r\n", "\r\n\r\n").encode(), "unix": list_of(ROWS).replace("\r\n", "\n").encode(),
        "cents": HEADER.replace("price", "cents").encode() + PLAIN.partition("\n")[2].encode(),
    }
    for name, data in lists.items():
        path, made = put(folder, f"{name}.csv", data), os.path.join(folder, f"{name}.made")
        check(f"looked at: {name}", copies(path), (0, "3 copies\n", ""))
        check(f"made: {name}", copies(path, made), (0, "3 copies\n", ""))
        with open(made, encoding="utf-8", newline="") as file:
            check(f"what is made: {name}", file.read(), PLAIN)
    library = os.path.join(folder, "town.db")
    say(library, GROUND)
    told = subprocess.run([PROGRAM, "import", library, os.path.join(folder, "windows.made")], capture_output=True, text=True, timeout=60, check=False)
    check("it is taken in", (told.returncode, told.stdout), (0, "row 1 ok\nrow 2 ok\nrow 3 ok\naccepted 3 refused 0\n"))
    check("the copies", rows_now(library, "SELECT copy, price, text FROM copies JOIN titles USING (title) WHERE copy >= 50"), [(50, 1500, "Maps, Old and New"), (51, 25, 'The "Winter" Bees'), (52, 0, "M\u00e4rchen")])


def long_texts(folder):
    """A text that is too long is cut at a word, and told."""
    for text, cut in ((LONG, "A " + "very " * 22 + "very…"), ("\u00e4" * 61, "\u00e4" * 58 + "…"), ("x" * 121, "x" * 117 + "…"), ("x" * 120, None), ("y" * 110 + ", " + "z" * 20, "y" * 110 + "…")):
        path, made = put(folder, "long.csv", list_of([("1", "1", text, "1", "1", "1")])), os.path.join(folder, "long.made")
        check(f"a text of {len(text.encode())} bytes", copies(path, made), (0, "1 copies\n", f"copies: {path}: line 2: its text is cut to {cut}\n" if cut else ""))
        with open(made, encoding="utf-8") as file:
            check("what it became", (cut or text) in file.read(), True)
        os.remove(made)


def bad(folder):
    """Each bad row is told with its cause, and nothing is made."""
    made = os.path.join(folder, "bad.made")

    def told(text, *lines):
        path = put(folder, "bad.csv", text)
        check(f"{text!r}", (copies(path, made), os.path.exists(made)), ((4, "", "".join(f"copies: {it.format(path)}\n" for it in lines)), False))

    row = ("60", "600", "Tides", "1", "1", "9.00")
    number = "its {} is no number from 1 to {}: {}"
    wrong = [(0, "0", number.format("copy", 9999999, "0")), (0, "012", number.format("copy", 9999999, "012")), (0, "", number.format("copy", 9999999, "nothing")), (1, "10000000", number.format("title", 9999999, "10000000")),
             (3, "100", number.format("kind", 99, "100")), (4, "one", number.format("home", 99, "one")), (2, "", "its text is empty, or has a control character or a line end"),
             (2, "a\x07b", "its text is empty, or has a control character or a line end"), (5, "9.5", "its price is no amount up to 10000.00: 9.5"), (5, "-1", "its price is no amount up to 10000.00: -1"),
             (5, "10000.01", "its price is no amount up to 10000.00: 10000.01"), (5, "", "its price is no amount up to 10000.00: nothing")]
    for at, value, why in wrong:
        told(list_of([(*row[:at], value, *row[at + 1 :])]), f"{{}}: line 2: {why}", "nothing was made")
    told(list_of([row, ("61", "600", "Tide", *row[3:]), ("60", "600", *row[2:]), ("62", "x", *row[2:])]), "{}: line 3: title 600 has another text in line 2", "{}: line 4: copy 60 stands in line 2 too",
         "{}: line 5: its title is no number from 1 to 9999999: x", "nothing was made")
    told("copy,title,text,kind,home,price\n60,600,Tides\n", "{}: line 2: it has 3 fields", "nothing was made")
    told("copy;title;text;kind\n", "{}: its first line has no column home, price")
    told("", "{}: its first line has no column copy, title, text, kind, home, price")
    told('copy,title,text,kind,home,price\n60,600,"Tides,1,1,9.00\n', "{}: line 2: unexpected end of data; a quote may not be closed")
    told(b"copy,title,text,kind,home,price\n60,600,\x81,1,1,9.00\n", "{} is not UTF-8, UTF-16 or Windows-1252")
    absent = os.path.join(folder, "absent.csv")
    check("no list", copies(absent), (3, "", f"copies: {absent} can't be read: No such file or directory\n"))
    path = put(folder, "good.csv", list_of([row]))
    check("a file that is there", copies(path, path), (3, "", f"copies: {path} is there already, and is not written over\n"))
    for words in ((), ("",), (path, made, "x"), (path, "")):
        check(f"the words {words}", copies(*words), (4, "", "usage: copies LIST [MADE]\n"))
    many = put(folder, "many.csv", list_of([(str(at), "1", "T", "1", "1", "1") for at in range(1, 100_002)]))
    check("too many rows", copies(many), (4, "", f"copies: {many}: it has 100001 rows, and a copies file has at most 100000\ncopies: nothing was made\n"))


def main():
    for tried in (spreadsheets, long_texts, bad):
        with tempfile.TemporaryDirectory() as folder:
            part(tried, folder)


if __name__ == "__main__":
    run_script(main)
