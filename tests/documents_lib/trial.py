"""Tries the execution of blocks itself: on a right document, and on copies that are each spoilt in one place."""

import io
from pathlib import Path

from .blocks import run_blocks
from .markdown import read_document
from .tally import Tally

RIGHT = """\
# A document

`one.txt` has two lines:

<!-- file: one.txt -->
```
first
second
```

The second is:

<!-- part of: one.txt -->
```
second
```

<!-- not run: it is only shown -->
```sh
rm one.txt
```

```console
$ cat one.txt
first
second
$ cat none.txt 2>trace.txt
$ echo $?
1
$ printf '%s\\n' \\
> third
third
```
"""

# What is spoilt, what stands in the right document, and what stands there instead.
SPOILT = (
    ("an output", "> third\nthird\n", "> third\nanother\n"),
    ("an output that goes on", "> third\nthird\n", "> third\nthird\nfourth\n"),
    ("a blank at the end of a line", "$ cat one.txt\nfirst\n", "$ cat one.txt\nfirst \n"),
    ("a command", "$ cat one.txt\n", "$ head -n 1 one.txt\n"),
    ("a block of commands without a command", "```console\n", "```console\n```\n\n```console\n"),
    ("a status", "$ echo $?\n1\n", "$ echo $?\n0\n"),
    ("a failure that is not shown", "$ echo $?\n1\n", ""),
    ("a file", "```\nfirst\nsecond\n", "```\nfirst\nthird\nsecond\n"),
    ("a file that the text does not name", "`one.txt`", "It"),
    ("a file in another folder", "# A document\n", "# A document\n\n`../x`\n\n<!-- file: ../x -->\n```\n```\n"),
    ("a part of a file", "```\nsecond\n", "```\nsecond line\n"),
    ("a part of no file", "part of: one.txt", "part of: two.txt"),
    ("a block without a reason", "it is only shown", ""),
    ("a block that is not marked", "<!-- not run: it is only shown -->\n", ""),
    ("a block that is indented", "```sh\nrm one.txt\n```\n", "  ```sh\n  rm one.txt\n  ```\n"),
)


def failures(text: str, checkout: Path) -> tuple[int, str]:
    complaints = io.StringIO()
    tally = Tally(complaints)
    run_blocks("trial", read_document(text), checkout, True, tally)
    return tally.failed, complaints.getvalue()


def try_blocks(checkout: Path, tally: Tally) -> None:
    failed, told = failures(RIGHT, checkout)
    tally.expect(failed == 0, "trial of a right document", "no failure", told)
    for what, right, spoilt in SPOILT:
        tally.expect(RIGHT.count(right) == 1, f"trial of {what}", "one place to spoil", str(RIGHT.count(right)))
        failed, _ = failures(RIGHT.replace(right, spoilt), checkout)
        tally.expect(failed > 0, f"trial of {what}", "a failure", "none")
    cut = read_document(RIGHT[:-len("```\n")])
    tally.expect(cut.open_fence > 0, "trial of a block without its end", "the line of its beginning", "none")
