"""Proofs by hand under the names of a changed body. A proof names the paths, calls and values of its function, and a
changed body has others: a turned condition makes `then-not-le` of `then-le`. So that such a proof can still say
whether a clause holds, each name that is gone is replaced by the nearest one that the check tells. If there is none,
as of a call that was dropped, the fact is left to the search: then the clause stands or falls with that fact, which
the search names if it isn't proved."""

import re
from difflib import SequenceMatcher

# How alike two names have to be, from 0 to 1.
LIKENESS = 0.5
NAME = r"[\w-]"
# The parts of a path that leads to a fact, and not to a value.
FACTS = {"ensures", "requires", "condition", "true", "false", "is", "invariant"}
# What ends a term that stands outside brackets.
ENDS = re.compile(r"[,;∙⨾⨟×]|\bin\b")
# What stands for a fact that no name leads to.
SEARCH = "(search Rattle.std.proofs.Common.rules)"
BRACKETS = {"(": ")", "{": "}", "[": "]"}


class Missing:
    """A name that a check didn't find: where it stands, what it was, and the names that could stand there."""

    def __init__(self, path, line, name, is_goal, others):
        self.path, self.line, self.name, self.is_goal, self.others = path, line, name, is_goal, others


def missing_names(text, tried, function):
    """The names that a check's text misses in the proof by hand of the function that it tried, each with those that
    the check tells in its place, and where they stand in the proof of the function itself."""
    folder, own = (f"proofs/{it.replace('::', '/')}/" for it in (tried, function))
    asked = goals_asked(text)
    found = []
    for path, line, said in re.findall(r"^(?:\./)?(proofs/\S+?):(\d+):\d+: error: (.*(?:\n  .*)*)", text, re.M):
        if not path.startswith(folder):
            continue
        goal = re.search(r"`goal\.(\S+?)`: module `\S+` has no `\1`", said)
        field = re.search(r"has no field `(\S+?)`", said)
        if goal:
            found.append(Missing(own + path[len(folder) :], int(line) - 1, goal[1], True, asked.get(goal[1], ())))
        elif field:
            named = re.search(r"the fields that can be named here are (.*)", said)
            found.append(Missing(own + path[len(folder) :], int(line) - 1, field[1], False, re.findall(r"`(\S+?)`", named[1]) if named else ()))
    return found


def goals_asked(text):
    """The goals that the check asks for, by each name that it doesn't have."""
    told = re.findall(r"^help: `\w+` has no `(\S+?)`(?:; rattle asks for|: the names here are) (.*?)(?:; .*)?$", text, re.M)
    return {name: re.findall(r"`(\S+?)`", names) for name, names in told}


def clause_of(goal):
    """The clause of a goal, by its name: what is required or given, and the label, if it has one."""
    return re.search(r"-requires\b", goal) is not None, goal.partition("-clause-")[2]


def nearest(name, others):
    """The one of these names that is most like a name; none if no one is."""
    parts = re.split("(-)", name)
    likeness = {other: SequenceMatcher(None, parts, re.split("(-)", other), False).ratio() for other in others}
    best = max(sorted(likeness), key=likeness.get, default=None)
    return best if best and likeness[best] >= LIKENESS else None


def is_same(name, other):
    """Whether two names can be of one thing in two bodies: of what comes by a condition, turned or not, of a loop, or
    of the same call or value, at another place among several."""
    one, two = ([part for part in it.split("-") if part != "not" and not part.isdigit()] for it in (name, other))
    return one == two or any(word in one and word in two for word in ("then", "else", "if", "loop"))


def answers(text):
    """The goals that a file of answers has."""
    return set(re.findall(r"^(?:abbrev )?(?:pub )?(\S+) : goal\.", text, re.M))


def block_of(lines, at):
    """The first line of the declaration that a line stands in, and the one past its last: empty lines are around it.
    What was taken out of it leaves a blank on each line."""
    first = at
    while first > 0 and lines[first - 1]:
        first -= 1
    last = at
    while last < len(lines) and lines[last]:
        last += 1
    return first, last


def replaced(name, other, text):
    """A text with a whole name for another one."""
    return re.sub(rf"(?<!{NAME}){re.escape(name)}(?!{NAME})", other, text)


def renamed(texts, missing):
    """The texts of a proof by hand with other names for those that are missing, or with a search where there is none.
    An answer of a goal that is asked for no more is left out."""
    texts = dict(texts)
    for it in missing:
        text = texts[it.path]
        lines = text.split("\n")
        first, last = block_of(lines, it.line)
        block = "\n".join(lines[first:last])
        if it.is_goal:
            left = [goal for goal in it.others if goal not in answers(text) and clause_of(goal) == clause_of(it.name) and is_same(it.name, goal)]
            other = nearest(it.name, left)
            block = replaced(it.name, other, block) if other else "\n" * (last - first - 1)
        else:
            used = set(re.findall(rf"\.({NAME}+)", block))
            other = nearest(it.name, [field for field in it.others if field not in used and is_same(it.name, field)])
            block = re.sub(rf"\.{re.escape(it.name)}(?!{NAME})", f".{other}", block) if other else searched(it.name, block)
        lines[first:last] = block.split("\n")
        texts[it.path] = "\n".join(lines)
    return texts


def searched(name, block):
    """A declaration in which a search stands for each fact that a path with this name leads to, and what such a fact
    is applied to; and `_` for each value."""
    block = without(re.compile(rf"(?<![\w.-])[\w']+(?:\.{NAME}+)*\.{re.escape(name)}(?:\.{NAME}+)*(?!{NAME})"), block)
    # a local name of such a fact has no type of its own
    local = re.compile(rf"\blet (\w+) = {re.escape(SEARCH)} in\b")
    found = local.search(block)
    while found:
        block = block[: found.start()] + block[found.end() :]
        block = without(re.compile(rf"(?<![\w.-]){found[1]}(?:\.{NAME}+)*(?!{NAME})"), block, True)
        found = local.search(block)
    return block


def without(path, block, are_facts=False):
    """The same for the paths that a pattern finds."""
    at = path.search(block)
    while at:
        is_fact = are_facts or FACTS.intersection(at[0].split("."))
        start, end = at.span()
        if is_fact and is_head(block, start):
            end = end_of(block, end)
            # a part of what the fact gives is a fact as well
            more = re.match(rf"\)(?:\.{NAME}+)+", block[end:])
            if more and block[start - 1] == "(":
                start, end = start - 1, end + more.end()
                end = end_of(block, end) if is_head(block, start) else end
            end = start + len(block[start:end].rstrip())
        before = re.search(r"\s*[∙⨾⨟]\s*\Z", block[:start])
        after = re.match(r"\s*[∙⨾⨟]\s*", block[end:])
        chained = is_fact and (other_of_two(block, start, end) or other_of_two(block, *bracketed(block, start, end)))
        # in a chain of facts there is one less
        if chained:
            start, end, other = chained
        elif is_fact and (before or after):
            start, end, other = (before.start(), end, "") if before else (start, end + after.end(), "")
        else:
            other = SEARCH if is_fact else "_"
        block = block[:start] + other + "\n " * block.count("\n", start, end) + block[end:]
        at = path.search(block)
    return block


def other_of_two(block, start, end):
    """Where a fact is one of the last two arguments of a lemma that puts two facts together, whose name ends in
    `then`: where this application begins and ends, and the other fact."""
    last = end_of(block, end)
    first, atoms = start_of(block, start), []
    at = first
    while at < last:
        if block[at].isspace():
            at += 1
            continue
        ended = at
        while ended < last and not block[ended].isspace():
            ended = closing_of(block, ended) + 1 if block[ended] in BRACKETS else ended + 1
        atoms.append((at, ended))
        at = ended
    texts = [block[slice(*it)] for it in atoms]
    if len(texts) < 3 or not texts[0].endswith("then") or (start, end) not in atoms[-2:]:
        return None
    return first, atoms[-1][1], texts[-1] if atoms[-2] == (start, end) else texts[-2]


def bracketed(block, start, end):
    """Where the brackets begin and end in which a fact is an argument."""
    first, last = start_of(block, start) - 1, end_of(block, end)
    return (first, last + 1) if first >= 0 and last < len(block) and block[first] == "(" and block[last] == ")" else (start, end)


def closing_of(block, at):
    """The place of the bracket that closes the one at a place."""
    depth = 0
    for here in range(at, len(block)):
        depth += (block[here] in BRACKETS) - (block[here] in BRACKETS.values())
        if depth == 0:
            return here
    return len(block) - 1


def start_of(block, at):
    """Where the application begins that a place is in."""
    depth = 0
    while at > 0:
        mark = block[at - 1]
        if mark in BRACKETS.values():
            depth += 1
        elif mark in BRACKETS:
            if depth == 0:
                break
            depth -= 1
        elif depth == 0 and (mark in ",;=∙⨾⨟×" or re.search(r"(?:\bin|\bλ[^.]*\.)\s\Z", block[:at])):
            break
        at -= 1
    return at + len(block[at:]) - len(block[at:].lstrip())


def is_head(block, at):
    """Whether a term begins at a place that others can be the arguments of: it follows a bracket, a sign or an arrow,
    and no other term."""
    before = block[:at].rstrip()
    return bool(re.search(r"(?:[({\[,;=.∙⨾⨟×]|\bin)$", before))


def end_of(block, at):
    """Where the application ends that goes on at a place."""
    depth = 0
    while at < len(block):
        if block[at] in BRACKETS:
            depth += 1
        elif block[at] in BRACKETS.values():
            if depth == 0:
                return at
            depth -= 1
        elif depth == 0 and ENDS.match(block, at):
            return at
        at += 1
    return at
