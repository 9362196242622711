"""The way from a script of this room to the others, wherever it is started from: with this `lib` and `reference` can
be imported."""

import os
import sys

sys.path.insert(1, os.path.dirname(os.path.dirname(os.path.abspath(__file__))))

from lib.rooms import TOP

__all__ = ["TOP"]
