"""Reads what the checks need of a Markdown document: its fenced blocks, its headings and its links.

A fenced block begins with three backquotes at the start of a line, behind which may stand the block's language, and
ends with three backquotes. A comment of one line directly above a block is the block's note. Markdown knows more forms
of blocks; lines that would begin one of these are noted as odd.
"""

import re
from dataclasses import dataclass, field

FENCE = "```"
NOTE = re.compile(r"<!-- (.+) -->$")
HEADING = re.compile(r"#{1,6} +(.+?) *#*$")
INLINE_CODE = re.compile(r"`[^`]*`")
ODD = re.compile(r" +```|````| *~~~| {4}|\t")
LINK = re.compile(r"\[[^\]]*\]\(([^()\s]+)\)")


@dataclass
class Block:
    """A fenced block: the line of its opening fence, from 1, and what stands directly above it and in it."""

    line: int
    language: str
    note: str
    text: str
    prose: str


@dataclass
class Document:
    blocks: list[Block] = field(default_factory=list)
    headings: list[str] = field(default_factory=list)
    links: list[tuple[int, str]] = field(default_factory=list)
    odd_lines: list[tuple[int, str]] = field(default_factory=list)
    open_fence: int = 0


def read_document(text: str) -> Document:
    """What stands in the document. Where a block has no end, open_fence is the line on which it begins."""
    document = Document()
    block: Block | None = None
    prose: list[str] = []
    for number, line in enumerate(text.splitlines(), start=1):
        if block is not None:
            if line == FENCE:
                document.blocks.append(block)
                block = None
            else:
                block.text += line + "\n"
        elif line.startswith(FENCE):
            note = NOTE.match(prose[-1]) if prose else None
            block = Block(number, line[len(FENCE):].strip(), note[1] if note else "", "", "\n".join(prose))
            prose = []
        else:
            prose.append(line)
            read_prose(number, line, document)
    if block is not None:
        document.open_fence = block.line
    return document


def read_prose(number: int, line: str, document: Document) -> None:
    heading = HEADING.match(line)
    if heading:
        document.headings.append(heading[1])
    if ODD.match(line):
        document.odd_lines.append((number, line))
    for target in LINK.findall(INLINE_CODE.sub("", line)):
        document.links.append((number, target))


def anchors(headings: list[str]) -> set[str]:
    """The anchors that GitHub makes of a document's headings: a repeated one gets -1, -2 and so on."""
    found: dict[str, int] = {}
    names: set[str] = set()
    for heading in headings:
        words = re.sub(r"[^\w\- ]", "", heading.lower()).replace(" ", "-")
        repeated = found.get(words, 0)
        found[words] = repeated + 1
        names.add(f"{words}-{repeated}" if repeated else words)
    return names
