"""The table of codes: what each one means, and which section of the documents tells more."""
from __future__ import annotations

import os
from typing import Dict, NamedTuple

from explaining.folders import TOOLS


class Message(NamedTuple):
    """One line of the table."""

    name: str
    sentence: str
    section: str


def read_messages() -> Dict[str, Message]:
    """The messages by their codes, such as `E6` and `kind 3`."""
    with open(os.path.join(TOOLS, "messages.tsv"), encoding="utf-8") as file:
        lines = [line.rstrip("\n").split("\t") for line in file][1:]
    return {code: Message(*rest) for code, *rest in lines}
