"""Where the parts of lolamon stand: in a checkout, or where it is installed."""
from __future__ import annotations

import os

TOOLS = os.path.dirname(os.path.dirname(os.path.realpath(__file__)))
CHECKOUT = os.path.dirname(TOOLS)


def is_checkout(folder: str) -> bool:
    return os.path.isfile(os.path.join(folder, "crates.txt"))


def documents() -> str:
    """The folder that docs/ stands in: the checkout, or where an installation has documents."""
    return CHECKOUT if is_checkout(CHECKOUT) else os.path.join(TOOLS, "..", "..", "share", "doc", "lolamon")
