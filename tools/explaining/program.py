"""Where the tools that stand beside lolamon find it, and how they ask it about a specification."""
from __future__ import annotations

import os
import shutil
import subprocess
from typing import List, Optional

from commands.failures import NoProgram
from explaining.folders import CHECKOUT, TOOLS, is_checkout

BUILT = ("bin/x86_64-linux/lolamon", "crates/lolamon/out/lolamon")


def find_program() -> str:
    """The file that starts lolamon: the variable LOLAMON's, that of the checkout, or the one installed with the tool."""
    named = os.environ.get("LOLAMON")
    if named:
        found = shutil.which(named)
        if not found:
            raise NoProgram(f"the variable LOLAMON names no program: '{named}'")
        return found
    beside = os.path.join(CHECKOUT if is_checkout(CHECKOUT) else TOOLS, "lolamon")
    if not os.access(beside, os.X_OK):
        raise NoProgram(f"there is no program {beside}")
    return beside


def files_of(program: str) -> List[str]:
    """The files that decide what the program does: itself, and of a checkout those that its ./lolamon starts."""
    top = os.path.dirname(program)
    built = [os.path.join(top, name) for name in BUILT] if is_checkout(top) else []
    return [name for name in [program, *built] if os.path.isfile(name)]


def analyse(path: str, text: Optional[bytes] = None) -> "subprocess.CompletedProcess[bytes]":
    """What `lolamon analyse` tells of a specification, or of its text where the file cannot be read twice."""
    words, handed = (["--", path], b"") if text is None else (["/dev/stdin"], text)
    program = find_program()
    try:
        return subprocess.run([program, "analyse", *words], input=handed, stdout=subprocess.PIPE,
                              env={**os.environ, "LOLAMON_PLAIN": "1"})
    except OSError as failure:
        raise NoProgram(f"{program} cannot be started: {failure.strerror}") from None
