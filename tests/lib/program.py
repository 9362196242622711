"""Where the program is that the tests run."""

import os
import subprocess

from room import TOP


def program():
    """The path of the program: the one built in this checkout, or else the one in bin. Empty where there is none,
    which standard error tells."""
    return subprocess.run([os.path.join(TOP, "tools", "program")], stdout=subprocess.PIPE, text=True, check=False).stdout.strip()
