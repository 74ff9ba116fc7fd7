"""Executes the blocks of a document, in order, in one temporary folder, and compares what came with what is shown.

What is to be done with a block is told by its language and by the comment directly above it:

    <!-- file: NAME -->       the block is the whole file NAME; it is written into the folder
    <!-- part of: NAME -->    the block's lines stand in NAME, as it is in the folder by then
    <!-- not run: REASON -->  nothing is done with the block
    language console          the block's commands are run, and their transcript is the block

A document that is strict has no other blocks. All blocks of a document share the folder, in which ./lolamon, the tools
beside it and examples/ are those of the checkout; "lolamon" without a folder is the same program.
"""

import difflib
import tempfile
from pathlib import Path

from .markdown import Block, Document
from .tally import Tally
from .transcripts import failed_in_silence, read_commands, run_commands

# What the commands of documents find in their folder, beside tools and what the document's own blocks write there.
LENT = ("lolamon", "examples")


class BlockRunner:
    """Executes the blocks of one document."""

    def __init__(self, name: str, folder: Path, statuses: Path, strict: bool, tally: Tally) -> None:
        self.name = name
        self.folder = folder
        self.statuses = statuses
        self.strict = strict
        self.tally = tally

    def run_block(self, block: Block) -> None:
        kind, _, rest = block.note.partition(": ")
        where = f"{self.name}:{block.line}"
        if kind == "file":
            self.write_file(block, rest, where)
        elif kind == "part of":
            self.compare_part(block, rest, where)
        elif kind == "not run":
            self.tally.expect(rest != "", where, "a reason why the block is not run", "none")
        elif block.language == "console":
            self.run_console(block, where)
        elif self.strict:
            self.tally.expect(False, where, "a console block, or a comment above that says what the block is",
                              f"language '{block.language}', comment '{block.note}'")

    def write_file(self, block: Block, file: str, where: str) -> None:
        plain = file not in LENT and file == Path(file).name and file != ""
        if self.tally.expect(plain, where, "the name of a file, without a folder", file):
            (self.folder / file).write_text(block.text)
            self.tally.expect(f"`{file}`" in block.prose, where, f"the text above to name `{file}`", "it does not")

    def compare_part(self, block: Block, file: str, where: str) -> None:
        path = self.folder / file
        whole = path.read_text() if path.is_file() else ""
        self.tally.expect(("\n" + block.text) in ("\n" + whole) and block.text != "", where,
                          f"these lines to stand in {file}", whole or "no such file")

    def run_console(self, block: Block, where: str) -> None:
        commands = read_commands(block.text)
        if not self.tally.expect(commands != [], where, "a line that begins with '$ '", "none"):
            return
        came = run_commands(commands, self.folder, self.statuses)
        self.tally.expect(not came.timed_out, where, "an end within a minute", "none")
        self.tally.expect(came.text == block.text, where, "what the block shows", difference(block.text, came.text))
        silent = failed_in_silence(commands, came.statuses)
        self.tally.expect(silent == [], where, "each failure to be shown, by an end line or by '$ echo $?'",
                          ", ".join(silent))


def difference(expected: str, came: str) -> str:
    lines = difflib.unified_diff(expected.splitlines(), came.splitlines(), "shown", "came", n=2, lineterm="")
    return "\n".join(lines) or "another line end at the end"


def run_blocks(name: str, document: Document, checkout: Path, strict: bool, tally: Tally) -> None:
    """Executes all blocks of a document in a folder of its own, which is removed afterwards."""
    with tempfile.TemporaryDirectory(prefix="lolamon-documents-") as made:
        folder = Path(made, "folder")
        folder.mkdir()
        for lent in [*map(checkout.joinpath, LENT), *checkout.glob("tools/lolamon-*")]:
            (folder / lent.name).symlink_to(lent)
        runner = BlockRunner(name, folder, Path(made, "statuses"), strict, tally)
        for block in document.blocks:
            runner.run_block(block)
    for number, line in document.odd_lines if strict else []:
        tally.expect(False, f"{name}:{number}", "blocks to begin with three backquotes at the start of a line", line)
