#!/usr/bin/env python3
"""The definitions of the desk's words, computed on random histories, beside the rules in plain Python.

    tests/gate/definitions.py GATE [--seed N] [HISTORIES]      over the libraries that `rt ci` left in GATE/crates/*/out, a copy of the repository

A history is 25 requests of the desk, of all commands but `page`, after those that make a small library; in eight of
the histories a question comes after each second one. Loans end late in them, within their grace days and past these.
What each is answered is worked out by `tests/reference/desk_rules.py`, which shares nothing with the definitions; that
the definitions give the same answers is a lemma, which the prover computes in a copy of the crate `model`. A history
that takes it more steps than a lemma may have is computed again as far as its first half. One lemma more has a wrong
answer, and has to be rejected.
"""

import json
import os
import random
import re
import shutil
import subprocess
import sys
import tempfile
from collections import Counter

from room import TOP
from lib.checking import check, run_script
from lib.gate_libraries import PARTS, check_of, kit, libraries
from lib.random_histories import REQUESTS, as_term, has_rows, history, shown_in
from reference.desk_rules import CORRECTIONS, QUESTIONS

HISTORIES = 40
ASKED = 8  # in so many of them a question comes after each second request: what it is answered takes the prover a second
DRAWN = 10  # so many histories with questions are drawn for one that is computed
IMPORTS = """-- Random histories, and what the rules in plain Python answer.
use Rattle.std.specs.Prelude.{◌≡◌, [], ◌∷◌, true, false, refl, Some, None}
use Rattle.std.specs.Fmt.{digits}
use Rattle.std.specs.Str.{chars, encode_utf8_all}
use lib.Utf8.{encode}
use Rattle.finding.specs.Finding.{fold, folded, begins_with, occurs_in, words, finds}
use Rattle.calendar.specs.Days.{day_text, civil_of}
use Rattle.terms.specs.declared.command.Command.TheVariants.{SetCardKey, AmendPatron, AmendBranch, AmendTitle, AmendCopy, Rehome}
use Rattle.terms.specs.declared.command.Command.TheVariants.{CopyBarcode, PatronBarcode, DropBarcode, Charge, PayAt}
use Rattle.terms.specs.declared.command.Command.TheVariants.{BeginDay, Branch, Week, CloseDay, OpenDay, Kind, Rule, Grace, Patron, Acquire, CheckOut, CheckIn, Renew, PlaceHold, CancelHold, Unshelve, UnshelveCancelled, Missing, Withdraw, Pay, Waive, Ask}
use Rattle.terms.specs.declared.question.Question.TheVariants as question
use Rattle.terms.specs.Texts.{reply_text, reply_words, routed_words}
use Rattle.model.proofs.Rows.{closed_in, desk, Gives, gives, ground}
use Rattle.std.specs.Prelude.{codes}
"""


def asked_histories(rng):
    """Histories with questions, of more that are drawn: first those in which the most questions are shown rows that
    were shown none before."""
    drawn, taken, left = [history(rng, True) for _ in range(DRAWN * ASKED)], [], set(QUESTIONS)
    for _ in range(ASKED):
        best = max(drawn, key=lambda asked: len(left & shown_in(asked)))
        drawn.remove(best)
        taken.append(best)
        left -= shown_in(best)
    return taken


def missed(histories):
    """The corrections that are accepted in none of the histories."""
    accepted = {words[0] for its in histories for words, answer in its if answer == "ok"}
    return [name for name in CORRECTIONS if name not in accepted]


def drawn(rng, many):
    """So many histories, drawn again until each correction is accepted in one of them if they are all."""
    asked = asked_histories(rng)
    for _ in range(DRAWN):
        histories = (asked + [history(rng, False) for _ in range(many - ASKED)])[:many]
        if many < HISTORIES or not missed(histories):
            break
    return histories


def lemma(name, asked):
    commands = " ∷ ".join(as_term(words) for words, _ in asked)
    answers = " ∷ ".join(json.dumps(answer, ensure_ascii=False) for _, answer in asked)
    return f"""
{name} : Gives ground
    (desk ({commands} ∷ []))
    ({answers} ∷ [])
unfolding digits reply_text reply_words routed_words day_text civil_of fold folded begins_with occurs_in words finds chars encode
{name} = gives refl
"""


def lemmas_of(histories):
    """That the definitions answer each history so, by its number, and one lemma with a wrong last answer."""
    lemmas = [(f"history_{at}", asked) for at, asked in histories]
    *before, (words, answer) = lemmas[-1][1]
    return [lemma(*it) for it in [*lemmas, ("wrong_answer", [*before, (words, f"{answer}0")])]]


def errors_of(words, lemmas):
    """The lemmas that a check of a copy of the crate with them rejects, those that it gives up as they take too many
    steps, and whether it came to an end."""
    with tempfile.TemporaryDirectory(prefix="definitions-") as room:
        for part in PARTS:
            shutil.copytree(f"{TOP}/crates/model/{part}", f"{room}/{part}")
        with open(f"{room}/proofs/Lib.antt", "a", encoding="utf-8") as it:
            it.write("mod RandomHistories\n")
        with open(f"{room}/proofs/RandomHistories.antt", "w", encoding="utf-8") as it:
            it.write(IMPORTS + "".join(lemmas))
        ran = subprocess.run(words, cwd=room, stdin=subprocess.DEVNULL, stdout=subprocess.PIPE, stderr=subprocess.STDOUT, encoding="utf-8", errors="replace", check=False)
    ended = re.search(r"^logic=(?:proved|not-proved)", ran.stdout, re.M)
    errors = re.findall(r"RandomHistories\.antt:\d+:\d+: error: `?(\w*)(.*)", ran.stdout)
    long = {name for name, why in errors if "stopped at the step limit" in why}
    return {name for name, _ in errors} - long, long, bool(ended), ran.stdout


def main(words):
    seed = random.randrange(1_000_000)
    if "--seed" in words:
        at = words.index("--seed")
        seed = int(words[at + 1])
        del words[at : at + 2]
    if not words or words[0].startswith("-"):
        sys.exit(__doc__)
    many = int(words[1]) if len(words) > 1 else HISTORIES
    command, missing = check_of("model", libraries(), os.path.abspath(words[0]), kit())
    if missing:
        sys.exit(f"the libraries {' '.join(missing)} are not there")
    rng = random.Random(seed)
    histories = drawn(rng, many)
    rejected, long, ended, told = errors_of(command, lemmas_of(enumerate(histories)))
    if long:
        halves = [(at, asked[: len(asked) // 2]) for at, asked in enumerate(histories) if f"history_{at}" in long]
        early, still_long, ended, told_again = errors_of(command, lemmas_of(halves))
        rejected, told = rejected | early | still_long, told + told_again
    differ = sorted(rejected - {"wrong_answer"})
    asked = {words[0] for its in histories for words, _ in its}
    refused = {answer for its in histories for _, answer in its if answer.startswith("refused")}
    shown = Counter(words[0] for its in histories for words, answer in its if words[0] in QUESTIONS and has_rows(words, answer))
    fines = sum(answer.startswith("fine ") and not answer.startswith("fine 0 ") for its in histories for _, answer in its)
    if not ended or "wrong_answer" not in rejected or differ:
        print(told[-6000:])
    seldom = [name for name in QUESTIONS if not shown[name]] if many >= ASKED else []
    print(f"definitions: {many} histories of {REQUESTS} requests by the seed {seed}, with questions in {min(many, ASKED)}, {len(asked)} commands, {len(refused)} refusals and {fines} fines among them, "
          f"{shown.total()} questions that were shown rows: {len(differ)} differ, {len(long)} computed as far as their half{', no rows for ' * bool(seldom)}{', '.join(seldom)}")
    check("the check came to its end", bool(ended), True)
    check("the wrong answer is rejected", "wrong_answer" in rejected, True)
    check("each question was shown rows", seldom, [])
    check("each correction was accepted", missed(histories) if many == HISTORIES else [], [])
    for at in range(many):
        check(f"history {at} is answered so by the definitions", f"history_{at}" in differ, False)


if __name__ == "__main__":
    run_script(main, sys.argv[1:])
