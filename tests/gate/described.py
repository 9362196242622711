#!/usr/bin/env python3
"""What programs are told of the desk, compared with the desk: docs/replies.json with each answer of the stories,
docs/openapi.yaml with what the program that serves answers, and docs/schema.sql with the tables of a new library.

    tests/gate/described.py

The answers of the stories are compared with the program by tests/gate/stories.py. Each route of the web is asked for
each status that is described, and each answer has the form that is described.
"""

import json
import re
import sqlite3
import subprocess
import tempfile
from contextlib import closing

import yaml

from room import TOP
from lib.checking import check, need, part, run_script
from lib.runs import write
from lib.serving import ANN, DESK_KEY, Serving, a_library
from stories import stories_of, story_paths

# what a word of a form in capitals stands for
VALUES = {"DAY": r"\d{4}-\d\d-\d\d", "MASK": "[oc]{7}", "NAME": ".+", "TEXT": ".+", "BARCODE": "[A-Za-z0-9]{1,24}"}
ALWAYS = {80, 81}  # a key and a caller are checked before a command is
ENDS = r"end|after \d+"
MOST_BODY = 65_536
# pages are shown of memory, so that only want of memory is told there, which tests/gate/refused.py brings about
NOT_ASKED = {("get", "/patrons/{patron}", "503")}


def read(path):
    with open(f"{TOP}/{path}", encoding="utf-8") as file:
        return file.read()


class Forms:
    """What docs/replies.json says of answers."""

    def __init__(self):
        told = json.loads(read("docs/replies.json"))
        self.commands, self.places, self.shown = {it["name"]: it for it in told["commands"]}, told["places"], told["shown"]
        self.refusals = {int(it) for it in told["refusals"]}
        # the place of a copy in a list is as it is shown of the copy, without the patron
        self.list_places = [it.partition(" patron")[0] for it in self.shown["copy"][1]]

    def pattern(self, form, places):
        """The lines that have a form."""
        place = "|".join(self.pattern(it, []) for it in places)
        return " ".join(f"(?:{place})" if it == "PLACE" else VALUES.get(it) or (r"\d+" if re.fullmatch("[A-Z]", it) else re.escape(it)) for it in form.split())

    def fits(self, line, forms, places=()):
        return any(re.fullmatch(self.pattern(it, places), line) for it in forms)

    def is_list(self, command, lines):
        """Whether the lines are a list: its head, rows and an end. Lists like a report have no form of their own
        rows."""
        *rows, end = lines
        if not command["list"]["rows"]:
            return bool(re.fullmatch(ENDS, end))
        if command["list"]["head"]:
            head, *rows = rows or [""]
            if not self.fits(head, command["list"]["head"]):
                return False
        return all(self.fits(it, command["list"]["rows"], self.list_places) for it in rows) and bool(re.fullmatch(ENDS, end))

    def has_form(self, name, lines):
        """Whether the lines are a reply to the command of this name, as it is described."""
        command = self.commands[name]
        if isinstance(command["reply"], list):
            return len(lines) == 1 and self.fits(lines[0], command["reply"], self.places)
        if command["reply"] == "list":
            return self.is_list(command, lines)
        if command["reply"] == "report":
            return bool(re.fullmatch(r"till \d{4}-\d\d-\d\d(?: at \d+)?",
                                     lines[0])) and all(re.fullmatch(r"[a-z]+ +\d+", it) for it in lines[1:])
        first, others, *last = self.shown[command["reply"]]
        # a page has any number of further lines, the others have one, and where there is a barcode a third
        if command["reply"] == "page":
            return self.fits(lines[0], first) and all(self.fits(it, others) for it in lines[1:])
        return 2 <= len(lines) <= 3 and all(self.fits(it, forms) for it, forms in zip(lines, [first, others, *last]))


def stories():
    """Each answer of the stories is a refusal that is listed, or has the form that is described; and each listed
    refusal, but for a few, comes there."""
    forms, met, told = Forms(), set(), 0
    for step in (step for path in story_paths([]) for story in stories_of(path) for step in story.steps if step.kind == "request"):
        for _, (name, *_) in step.requests():
            if name not in forms.commands or step.answer[0] in ("words not understood",) or step.answer[0].startswith("fault "):
                continue
            refused = re.fullmatch(r"refused (\d+)", step.answer[0])
            if refused:
                number = int(refused[1])
                check(f"{step.place}: {name} is refused {number}", number in ALWAYS or number in forms.commands[name]["refusals"], True)
                met.add((name, number))
            else:
                check(f"{step.place}: {name} {step.answer}", forms.has_form(name, step.answer), True)
                told += 1
    listed = {(name, number) for name, it in forms.commands.items() for number in it["refusals"]}
    check("enough replies were compared", told > 900, True)
    check("refusals without a meaning", {number for _, number in listed} - forms.refusals, set())
    check("refusals that come in no story", listed - met, set())
    print(f"described: {told} replies of the stories have their form, {len(listed)} refusals came")


def has_schema(value, schema, schemas):
    """Whether a value is as a schema of the document says, which uses few words of that language."""
    if "$ref" in schema:
        return has_schema(value, schemas[schema["$ref"].rpartition("/")[2]], schemas)
    if schema["type"] == "object":
        return isinstance(value, dict) and set(schema["required"]) <= set(value) <= set(schema["properties"]) and all(has_schema(value[it], schema["properties"][it], schemas) for it in value)
    if schema["type"] == "integer":
        return type(value) is int and schema.get("minimum", value) <= value <= schema.get("maximum", value) and value in schema.get("enum", [value])
    return isinstance(value, str) and value in schema.get("enum", [value])


def requests():
    """What each route is asked for each status: the method, the target, the fields and the body."""
    desk = {"Desk-Key": DESK_KEY, "Request-Key": "d1"}
    keyed = {**ANN, "Request-Key": "k1"}
    routes = {
        ("get", "/patrons/{patron}"): ("/patrons/1", "/patrons/x", ANN, None, {}),
        ("post", "/patrons/{patron}/holds"): ("/patrons/1/holds", "/patrons/x/holds", keyed, '{"branch":1,"title":200}', {"409": '{"branch":9,"title":200}'}),
        ("post", "/patrons/{patron}/holds/{hold}/cancel"): ("/patrons/1/holds/1/cancel", "/patrons/1/holds/x/cancel", {**keyed, "Request-Key": "k2"}, None, {"409": "/patrons/1/holds/9/cancel"}),
        ("post", "/patrons/{patron}/loans/{loan}/renew"): ("/patrons/1/loans/1/renew", "/patrons/1/loans/x/renew", {**keyed, "Request-Key": "k3"}, None, {"409": "/patrons/1/loans/9/renew"}),
        ("post", "/desk"): ("/desk", "/desks", desk, '["today"]', {"409": '["page","9"]'}),
    }
    for (method, route), (target, nowhere, fields, body, refused) in routes.items():
        key = "Desk-Key" if route == "/desk" else "Card-Key"
        another = refused.get("409", "")
        yield method, route, "200", (method, target, fields, body)
        yield method, route, "400", (method, target, fields, "x")
        yield method, route, "403", (method, target, {**fields, key: "wrongkey0001"}, body)
        yield method, route, "404", (method, nowhere, fields, body)
        yield method, route, "405", ("put", target, fields, body)
        if another:
            yield method, route, "409", (method, another if another.startswith("/") else target, {**fields, "Request-Key": "r1"}, body if another.startswith("/") else another)
        yield method, route, "413", (method, target, fields, "x" * (MOST_BODY + 1))
        yield method, route, "503", (method, target, {**fields, "Request-Key": "f1"}, body if route != "/desk" else '["check-out","1","20","2"]')


def answers(document, serving, method, route, status, request):
    """Asks, and compares the answer with what is described of this status."""
    method, target, fields, body = request
    found = serving.ask(method.upper(), target, fields, body)
    what = f"{method} {target} for {status}"
    if not check(what, str(found[0]), status):
        return
    responses, components = document["paths"].get(route, {}), document["components"]
    response = components["responses"][responses[request_method(document, route)]["responses"][status]["$ref"].rpartition("/")[2]]
    schema = response["content"][found[2]["Content-Type"]]["schema"]
    check(f"the body of {what}: {found[1]}", has_schema(json.loads(found[1]), schema, components["schemas"]), True)
    for name, field in response.get("headers", {}).items():
        check(f"the field {name} of {what}", has_schema(found[2].get(name), field["schema"], components["schemas"]), True)


def request_method(document, route):
    (method,) = document["paths"][route]
    return method


def served():
    """Each route gives each status that is described, and nothing that isn't; what is described is asked for."""
    document = yaml.safe_load(read("docs/openapi.yaml"))
    described = {(method, route, status) for route, methods in document["paths"].items() for method, it in methods.items() for status in it["responses"]}
    asked = list(requests())
    # a number that isn't one makes no other route of the desk's, which has none
    asked = [it for it in asked if it[:3] != ("post", "/desk", "404") and it[:3] not in NOT_ASKED]
    need("what is described is asked for", {it[:3] for it in asked}, described - NOT_ASKED)
    with tempfile.TemporaryDirectory() as folder:
        path = a_library(folder, "described.db")
        calm, faults = [it for it in asked if it[2] != "503"], [it for it in asked if it[2] == "503"]
        # the desk's fault comes first, since it closes the desk for the others
        faults.sort(key=lambda it: it[1] != "/desk")
        with Serving(path, 1 + len(calm)) as serving:
            check("a loan", serving.desk("l1", ["check-out", "1", "10", "1"])[0], 200)
            for it in calm:
                answers(document, serving, *it)
        write(path, "UPDATE copies SET price = 2000000 WHERE copy = 20")
        with Serving(path, len(faults), after="fault 93\n", status=3) as serving:
            for it in faults:
                answers(document, serving, *it)


def is_new():
    """The file of replies is what the tables give."""
    told = subprocess.run([f"{TOP}/tests/tools/replies", "--check"], capture_output=True, text=True, check=False)
    check("docs/replies.json", (told.returncode, told.stderr), (0, ""))


def tables():
    """The tables and indexes that are described are those of a new library, in their order, and each column that may be
    NULL says when it is, but for those of the tables that are empty."""
    text = read("docs/schema.sql")
    statements = [" ".join(it.split()) for it in re.sub("--.*", "", text).split(";")]
    wanted = [it.replace("( ", "(").replace(" )", ")") for it in statements if it.strip()]
    with tempfile.TemporaryDirectory() as folder:
        path = a_library(folder, "tables.db")
        with closing(sqlite3.connect(path)) as db:
            rows = db.execute("SELECT sql FROM sqlite_schema WHERE sql IS NOT NULL ORDER BY rowid")
            found = [text for (text,) in rows]
    check("docs/schema.sql", wanted, found)
    empty = re.findall(r"-- [^\n]* Empty: [^\n]*\nCREATE TABLE (\w+)", text)
    check("tables that are described as empty", empty, ["rules", "loans", "holds"])
    for name, columns in re.findall(r"CREATE TABLE (\w+) \(\n(.*?)\n\) STRICT", text, flags=re.S):
        lines = [line.partition("--") for line in columns.split("\n")]
        silent = [it for it, _, words in lines if not re.search("NOT NULL|KEY", it) and "NULL" not in words]
        if name not in empty:
            check(f"columns of {name} that may be NULL and don't say when", silent, [])


def main():
    part(is_new)
    part(tables)
    part(stories)
    part(served)


if __name__ == "__main__":
    run_script(main)
