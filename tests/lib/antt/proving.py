"""Asks the prover of a changed definition: whether the crate is still proved with it."""

import os
import re
import shutil
import subprocess
import tempfile

from lib.gate_libraries import PARTS, check_of, kit, libraries

# What a check with a change comes to: a law isn't proved, all is proved, the change has no type, or a worked row
# differs that didn't differ in Python.
LAW, PROVED, ILL_TYPED, ROW, UNSURE = "law", "proved", "ill-typed", "a row", "unsure"


class Prover:
    """Checks copies of a crate over the libraries that the gate left."""

    def __init__(self, program, gate):
        self.program, self.gate = program, gate

    def judge(self, change):
        """What a check of the crate of a change comes to with it, and what it says first."""
        crate = change.definition.module.name.split(".")[1]
        words, missing = check_of(crate, libraries(), self.gate, kit())
        if missing:
            return UNSURE, f"the libraries {' '.join(missing)} are not there"
        with tempfile.TemporaryDirectory(prefix="definitions-") as room:
            for part in PARTS:
                shutil.copytree(f"{self.program.top}/crates/{crate}/{part}", f"{room}/{part}")
            with open(f"{room}/{os.path.relpath(change.definition.module.path, f'{self.program.top}/crates/{crate}')}", "w", encoding="utf-8") as it:
                it.write(change.file_text())
            kept = f"{self.gate}/crates/{crate}/out/incremental"
            if os.path.isdir(kept):
                shutil.copytree(kept, f"{room}/kept")
                words += ["--incremental", f"{room}/kept"]
            ran = subprocess.run(words, cwd=room, stdin=subprocess.DEVNULL, stdout=subprocess.PIPE, stderr=subprocess.STDOUT, encoding="utf-8", errors="replace", check=False)
        return self.said(ran.stdout)

    def said(self, text):
        errors = re.findall(r"^\./(specs|proofs)/([\w/]+)\.antt:\d+:\d+: error: (.*)", text, re.M)
        if any(sort == "specs" for sort, _, _ in errors):
            return ILL_TYPED, next(f"{file}: {what}" for sort, file, what in errors if sort == "specs")[:200]
        if re.search(r"^logic=proved", text, re.M):
            return PROVED, ""
        if not re.search(r"^logic=not-proved", text, re.M):
            return UNSURE, text[-300:]
        laws = [f"{file}: {what}" for _, file, what in errors if not file.startswith("Rows")]
        if laws or not errors:
            return LAW, (laws or [re.search(r"^note: .*|^fn .*: not proved", text, re.M)[0]])[0][:160]
        return ROW, f"{errors[0][1]}: {errors[0][2]}"[:160]
