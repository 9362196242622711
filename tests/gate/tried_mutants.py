#!/usr/bin/env python3
"""Tries what makes wrong bodies by chance: on a crate of four functions, of which one claims little and one nothing,
what `tests/tools/mutants` tells.

    tests/gate/tried_mutants.py

Wrong bodies of the function whose contract says all have to be refused, and those of the one that claims little to be
told as left and to fail the run, unless they stand in the file of known ones. The one that claims nothing is left out.
Before that: when a check refuses a body by a clause, and when by a name only, and what is made of a proof that names
what is gone.
"""

import os
import re
import shutil
import subprocess
import tempfile

from room import TOP
from lib.checking import check, run_script
from lib.renaming import missing_names, renamed
from lib.trying import NAMES, REFUSED, Check

SOURCE = """//! Numbers after a number.
#![tactic(auto)]

ghost use Rattle.std.specs.Prelude.{◌+◌, ◌≡◌, ◌≤◌, MatchBool};

/// How far the next number is.
const STEP: u8 = 1;

/// The next number.
pub fn next(n: u8) -> u8
    requires { n ≤ 100 }
    ensures { result ≡ n + 1 }
{
    n + STEP
}

/// Some small number.
pub fn small() -> u8
    ensures { result ≤ 100 }
{
    7
}

/// One, if it is wanted.
pub fn one_if(wanted: bool) -> u8
    ensures { MatchBool wanted (result ≡ 1) (result ≡ 0) }
{
    if wanted { 1 } else { 0 }
}

/// Any number.
pub fn any() -> u8 {
    7
}
"""

# A proof by hand of `one_if`, whose names are others where its condition is turned.
PROOF = """use Rattle.std.proofs.Common.{rules}
use Rattle.numbers.proofs.one_if.Goals as goal

pub returns-then-wanted : goal.returns-then-wanted
returns-then-wanted c = search rules

pub returns-else-wanted : goal.returns-else-wanted
returns-else-wanted c = search rules
"""

# What a check says of a body of which a proof by hand answers the clause `whole`, under a name that it has no more;
# and the search the clause `sound`.
SAID = """./proofs/least/Answers.antt:5:55: error: `returns-then-le-clause-whole`: `goal.returns-then-le-clause-whole`: module `Goals` has no `returns-then-le-clause-whole`
fn numbers::next: proved
note: src/lib.rt:9:1: it is not proved that what the function ensures holds when it returns (`returns-then-ge-clause-{clause}`)
fn numbers::least: not proved
only=2 proved=1
"""

# A proof by hand of a function that was turned about and lost a call, and what a check says of the names that are
# gone.
ANSWERS = """use Rattle.std.proofs.Common.{arith}
use Rattle.numbers.proofs.most.Goals as goal

pub returns-then-le : goal.returns-then-le
returns-then-le c = omega (arith, c.if-le.true)

pub returns-in_err-small : goal.returns-in_err-small
returns-in_err-small c = c.in_err-small.ensures

pub returns : goal.returns
returns c =
    let least = c.in_ok-small.ensures.least in
    at_most c.small.new.self.now (c.in_ok-small.ensures.sound (omega arith)).first (step least.kept c.args.n)

pub returns-clause-kept : goal.returns-clause-kept
returns-clause-kept c = kept_then c.args.n (λ n. n) (widened c.in_ok-small.ensures.kept) (c.other.ensures ∙ c.in_ok-small.ensures.same)
"""
NO_GOAL = "./proofs/most/Answers.antt:{line}:20: error: `{name}`: `goal.{name}`: module `Rattle.numbers.proofs.most.Goals` has no `{name}` that can be named from here\n"
NO_FIELD = """./proofs/most/Answers.antt:{line}:20: error: `returns`: record `Rattle.numbers.proofs.most.Lts.After` has no field `{name}` (nearest: .args)
  the fields that can be named here are `before`, `if-not-le`, `in_ok-other`, `args`
"""
ASKED = "help: `Goals` has no `{name}`; rattle asks for `returns-then-not-le`, `returns`; a `use` line of it can name these places: `Start`\n"
LOST = (
    NO_GOAL.format(line=4, name="returns-then-le") + NO_FIELD.format(line=12, name="in_ok-small") + ASKED.format(name="returns-then-le"),
    NO_GOAL.format(line=7, name="returns-in_err-small") + NO_FIELD.format(line=13, name="small") + ASKED.format(name="returns-in_err-small"),
    NO_FIELD.format(line=5, name="if-le") + NO_FIELD.format(line=16, name="in_ok-small"),
)
NAMED_ANEW = """use Rattle.std.proofs.Common.{arith}
use Rattle.numbers.proofs.most.Goals as goal

pub returns-then-not-le : goal.returns-then-not-le
returns-then-not-le c = omega (arith, c.if-not-le.true)




pub returns : goal.returns
returns c =
    
    at_most _ (search Rattle.std.proofs.Common.rules) (step (search Rattle.std.proofs.Common.rules) c.args.n)

pub returns-clause-kept : goal.returns-clause-kept
returns-clause-kept c = (c.other.ensures)
"""


def named_anew():
    """The proof of `most` under the names that three checks tell, one after the other."""
    texts = {"proofs/most/Answers.antt": ANSWERS}
    for said in LOST:
        texts = renamed(texts, missing_names(said, "most", "most"))
    return texts["proofs/most/Answers.antt"]


def write(path, text):
    with open(path, "w", encoding="utf-8") as it:
        it.write(text)


def told(room):
    """What `tests/tools/mutants` says of six wrong bodies of the crate, and its status."""
    how = {"stdout": subprocess.PIPE, "stderr": subprocess.STDOUT, "encoding": "utf-8"}
    ran = subprocess.run([f"{room}/tests/tools/mutants", room, "--seed", "1", "--count", "6", "numbers"], check=False, **how)
    return ran.stdout, ran.returncode


def main():
    check("a clause that the search doesn't find", Check("numbers", 1, SAID.format(clause="sound")).own("least"), REFUSED)
    check("a clause whose answer has another name", Check("numbers", 1, SAID.format(clause="whole")).own("least"), NAMES)
    check("a proof under the names of a changed body", named_anew(), NAMED_ANEW)
    with tempfile.TemporaryDirectory(prefix="tried-mutants-") as room:
        for folder in ("lib", "tools"):
            shutil.copytree(f"{TOP}/tests/{folder}", f"{room}/tests/{folder}")
        os.makedirs(f"{room}/tests/data")
        os.makedirs(f"{room}/crates/numbers/src")
        write(f"{room}/crates.txt", "numbers:\n")
        write(f"{room}/crates/numbers/src/lib.rt", SOURCE)
        os.makedirs(f"{room}/crates/numbers/proofs/one_if")
        write(f"{room}/crates/numbers/proofs/one_if/Answers.antt", PROOF)
        write(f"{room}/tests/data/mutants_left.txt", "# None.\n")
        text, status = told(room)
        left = re.findall(r"^mutants: LEFT: \S+ small, number: `(.*)` => `(.*)` \(alone, on the whole crate\)$", text, re.M)
        check("two bodies of `small` are left", len(left), 2)
        check("two bodies of `next` are refused", len(re.findall(r"^mutants: refused .* next, ", text, re.M)), 2)
        check("a turned condition is refused by a proof under new names", len(re.findall(r"^mutants: refused .*, its proof by hand under new names: .* one_if, boolean: ", text, re.M)), 1)
        check("the table has them", re.findall(r"^(seed 1|numbers|all) +(.*)$", text, re.M), [("seed 1", "tried  refused  by a name only  left  unsure"), *((it, "6        4               0     2       0") for it in ("numbers", "all"))])
        check("`any` is left out", "no contract says what they give: any\n" in text and not re.search(r"crates/\S+ any, ", text), True)
        check("the run fails", status == 1 and text.endswith("\n4 passed, 2 failed\n"), True)
        write(f"{room}/tests/data/mutants_left.txt", "\n\n".join(f"numbers small\n- {before}\n+ {after}\noutside: it claims little" for before, after in left) + "\n")
        known, status = told(room)
        check("known ones don't fail", status == 0 and known.endswith("\n6 passed, 0 failed\n"), True)
        check("the same seed makes the same ones", sorted(re.findall("`(.*)` => `(.*)`", known)) == sorted(set(re.findall("`(.*)` => `(.*)`", text))), True)
        write(f"{room}/tests/data/mutants_left.txt", "numbers small\n- 7\n+ 8\nso it is\n")
        text, status = told(room)
        check("a known one without a reason is none", status == 1 and "is not read" in text, True)


if __name__ == "__main__":
    run_script(main)
