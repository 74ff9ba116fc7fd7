"""Compares the table of codes, tools/messages.tsv, with the documents that define the codes and explain them."""

import re
from dataclasses import dataclass
from pathlib import Path

from .links import heading_is_there
from .markdown import read_document
from .tally import Tally

TABLE = "tools/messages.tsv"
ERRORS = "docs/errors.md"
COLUMNS = "code\tname\tsentence\tsection"
REFUSALS = [f"E{number}" for number in (*range(1, 20), 21)]
KINDS = [f"kind {number}" for number in range(1, 9)]
FAULTS = [f"fault {number}" for number in range(1, 4)]
STATUSES = [f"status {number}" for number in range(10)]

REFUSAL_ROW = re.compile(r"^\| (E\d+) (\w+) \|", re.MULTILINE)
KIND_ROW = re.compile(r"^\| (\d+) (\w+) \|", re.MULTILINE)
STATUS_ROW = re.compile(r"^\| (\d+) \|(.*)\|$", re.MULTILINE)


@dataclass
class Message:
    code: str
    name: str
    sentence: str
    section: str


def read_table(text: str, tally: Tally) -> list[Message]:
    lines = text.split("\n")
    tally.expect(lines[0] == COLUMNS, TABLE, f"the columns {COLUMNS!r}", repr(lines[0]))
    tally.expect(lines[-1] == "", TABLE, "a line feed at the end", repr(lines[-1]))
    messages: list[Message] = []
    for number, line in enumerate(lines[1:-1], start=2):
        fields = line.split("\t")
        if tally.expect(len(fields) == 4 and all(fields), f"{TABLE}:{number}", "four fields", repr(fields)):
            messages.append(Message(*fields))
    return messages


def check_table(messages: list[Message], checkout: Path, tally: Tally) -> None:
    """The table has each code once, in order; each sentence is one; each section is a heading of its file."""
    codes = [message.code for message in messages]
    wanted = REFUSALS + KINDS + FAULTS + STATUSES
    tally.expect(codes == wanted, TABLE, f"the codes {wanted}", str(codes))
    for message in messages:
        where = f"{TABLE}, {message.code}"
        tally.expect(message.sentence.endswith("."), where, "a full stop at the end", message.sentence)
        file, _, anchor = message.section.partition("#")
        there = (checkout / file).is_file() and heading_is_there(checkout / file, anchor)
        tally.expect(there, where, f"a heading for {message.section}", "none")


def compare_names(what: str, told: list[tuple[str, str]], messages: list[Message], sort: str, tally: Tally) -> None:
    """The codes of one sort and their names are the same in the table and in the document, and no code comes twice."""
    names = dict(told)
    tally.expect(len(names) == len(told), what, "each code once", str([code for code, _ in told]))
    wanted = {message.code: message.name for message in messages if message.code.startswith(sort)}
    for code in sorted(wanted.keys() | names.keys()):
        tally.expect(names.get(code) == wanted.get(code), f"{what}, {code}",
                     f"the name that {TABLE} has: {wanted.get(code)}", str(names.get(code)))


def part_below(text: str, heading: str) -> str:
    """What stands below a heading, up to the next one."""
    found = re.search(rf"^#+ {re.escape(heading)}$\n(.*?)(?=^#+ |\Z)", text, re.MULTILINE | re.DOTALL)
    return found[1] if found else ""


def check_definitions(language: str, formats: str, messages: list[Message], tally: Tally) -> None:
    """The documents that define the codes have the same ones as the table, with the same names."""
    compare_names("docs/language.md, tables of codes", REFUSAL_ROW.findall(language), messages, "E", tally)
    kinds = [(f"kind {number}", name) for number, name in KIND_ROW.findall(part_below(formats, "Malformed lines"))]
    compare_names("docs/formats.md, table of kinds", kinds, messages, "kind", tally)
    end_lines = STATUS_ROW.findall(part_below(formats, "The end line, on standard output"))
    rows = {f"status {number}": row for number, row in reversed(end_lines)}
    for message in messages:
        sort, _, number = message.code.partition(" ")
        if sort == "fault":
            beside = re.compile(rf"\b{number}\b\W+{message.name}\b|\b{message.name}\b\W+{number}\b")
            there = beside.search(formats) or beside.search(language)
            tally.expect(there is not None, message.code, f"docs/formats.md to name {number} {message.name}", "nothing")
        elif sort == "status":
            row = rows.get(message.code, "")
            tally.expect(re.search(rf"\b{message.name}\b", row) is not None, message.code,
                         f"a row of docs/formats.md's table of statuses with '{message.name}'", row or "no such row")


def check_explanations(errors: str, messages: list[Message], tally: Tally) -> None:
    """docs/errors.md has a heading for each code, such as "E11 NotImplied", "kind 3 BadTime" and "status 7", and below
    it the sentence that the table has."""
    headings = read_document(errors).headings
    for message in messages:
        wanted = message.code if message.code.startswith("status") else f"{message.code} {message.name}"
        found = [heading for heading in headings if heading == wanted or heading.startswith(wanted + " ")]
        if tally.expect(len(found) == 1, ERRORS, f"one heading that begins with '{wanted}'", str(found)):
            below = " ".join(part_below(errors, found[0]).split())
            tally.expect(message.sentence in below, f"{ERRORS}, {wanted}", message.sentence, "no such sentence")


def check_messages(checkout: Path, tally: Tally) -> None:
    table = checkout / TABLE
    if not tally.expect(table.is_file(), TABLE, "the table of codes", "no such file"):
        return
    messages = read_table(table.read_text(encoding="utf-8"), tally)
    check_table(messages, checkout, tally)
    language = (checkout / "docs/language.md").read_text(encoding="utf-8")
    formats = (checkout / "docs/formats.md").read_text(encoding="utf-8")
    check_definitions(language, formats, messages, tally)
    errors = checkout / ERRORS
    if tally.expect(errors.is_file(), ERRORS, "a page that explains each code", "no such file"):
        check_explanations(errors.read_text(encoding="utf-8"), messages, tally)
