"""Follows the relative links of a document."""

from pathlib import Path

from .markdown import Document, anchors, read_document
from .tally import Tally


def heading_is_there(path: Path, anchor: str) -> bool:
    return anchor in anchors(read_document(path.read_text(encoding="utf-8")).headings)


def check_links(name: str, document: Document, checkout: Path, tally: Tally) -> None:
    """Each link to a file leads to one of the checkout, and where it names a heading, to a heading of that file."""
    for line, target in document.links:
        if "://" in target or target.startswith("mailto:"):
            continue
        file, _, anchor = target.partition("#")
        path = (checkout / name).parent / file if file else checkout / name
        inside = path.resolve().is_relative_to(checkout)
        where = f"{name}:{line}"
        there = tally.expect(inside and path.exists(), where, f"a file or folder of the checkout: {target}", "none")
        if there and anchor:
            tally.expect(path.is_file() and heading_is_there(path, anchor), where, f"a heading for {target}", "none")
