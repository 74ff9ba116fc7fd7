"""Which program is tried: the one that ./lolamon starts, unless the variable LOLAMON names another."""
from __future__ import annotations

import os

from terminal_parts.harness import LOLAMON

PROGRAM = os.path.abspath(os.environ.get("LOLAMON") or LOLAMON)
