"""How words are read: exactly as the program reads them, and with a reason where they are no command."""
from __future__ import annotations

import os
import subprocess
import sys

from terminal_parts.harness import CHECKOUT, LOLAMON, Checks, on_terminal, write

sys.path.insert(0, os.path.join(CHECKOUT, "tools"))
from explaining.words import NotACommand, read_command  # noqa: E402

COMMANDS = [
    "run s f", "run - -", "run -- s f", "run s -- f", "run s f -- f", "run -- -s -f", "run --in-turns s f",
    "run s --in-turns f",
    "run s f --in-turns", "run --show outputs s f", "run --show=triggers s f",
    "run --workers 64 s --start 1.5 f --in-turns",
    "run --intake queue s f", "run s --intake=lock f", "run --in-turns s f --intake queue",
    "run --workers=01 s f", "run --start .5 s f", "run --start 7. s f", "run --start 4000000000 s f",
    "run --start 4000000000.0000000009 s f", "run --start=007 s f", "run s" + " f" * 64,
    f"run --start {'0' * 5000}7 s f", f"run --start 7.{'0' * 5000} s f",
    "analyse s", "analyse -- -s", "analyse -",
    "replay s t v", "replay --show outputs --start=1.5 s t v", "replay s t v --start 0", "replay --show=triggers s t v --start 0",
    "replay -- -s -t -v", "replay s t -- v", "replay s t v --",
    "run --resume t s f", "run --resume=t s f", "run s --resume=-t f", "run s f --in-turns --resume t", "run --resume= s f",
    "run --resume t --show=outputs --workers 2 --intake queue s f",
    "snapshot s f", "snapshot --start 1.5 s f g", "snapshot --resume t s f", "snapshot s --resume=t f", "snapshot s f --start=0",
    "snapshot -- -s -f", "snapshot s" + " f" * 64,
]
NO_COMMANDS = {  # with a piece of the reason
    "": "no command was given",
    "Run s f": "there is no command 'Run'",
    "resume s f f": "there is no command 'resume'",
    "replay": "behind 'replay' stand three names",
    "replay s t": "behind 'replay' stand three names",
    "replay s t v v": "behind 'replay' stand three names",
    "replay --workers 1 s t v": "there is no option '--workers' here",
    "replay --in-turns s t v": "there is no option '--in-turns' here",
    "replay --intake lock s t v": "there is no option '--intake' here",
    "replay s --show outputs t v": "an option stands between two names, before 't'",
    "replay s t --show=outputs v": "an option stands between two names, before 'v'",
    "replay --start 0 s t v --start 0": "the option --start comes twice",
    "replay --show all s t v": "the value of --show is 'triggers' or 'outputs', and not 'all'",
    "run --resume t --start 0 s f": "--start and --resume stand in one command",
    "run --start=0 s f --resume=t": "--start and --resume stand in one command",
    "run --resume t --resume=t s f": "the option --resume comes twice",
    "run --resume -t s f": "behind --resume stands its value: the name of a saved state",
    "run s f --resume": "behind --resume stands its value: the name of a saved state",
    "replay --resume s t v v": "there is no option '--resume' here",
    "analyse --resume t s": "there is no option '--resume' here",
    "snapshot": "a specification and of a source file are missing",
    "snapshot s": "behind the specification 's' the name of a source file is missing",
    "snapshot s" + " f" * 65: "these are 65 sources, and 64 at most can be read",
    "snapshot --show outputs s f": "there is no option '--show' here",
    "snapshot --workers 1 s f": "there is no option '--workers' here",
    "snapshot --in-turns s f": "there is no option '--in-turns' here",
    "snapshot --intake=lock s f": "there is no option '--intake=lock' here",
    "snapshot --start 0 --resume t s f": "--start and --resume stand in one command",
    "snapshot s f --start 0 f": "an option stands between two sources, before 'f'",
    "run": "a specification and of a source file are missing",
    "run s": "behind the specification 's' the name of a source file is missing",
    "run s" + " f" * 65: "these are 65 sources, and 64 at most can be read",
    "run --quick s f": "there is no option '--quick' here",
    "run --show-outputs s f": "there is no option '--show-outputs' here",
    "run -s f": "there is no option '-s' here",
    "run --in-turns=yes s f": "there is no option '--in-turns=yes' here",
    "run --in-turns --in-turns s f": "the option --in-turns comes twice",
    "run --show=outputs --show outputs s f": "the option --show comes twice",
    "run s f --in-turns f": "an option stands between two sources, before 'f'",
    "run s f --in-turns -- f": "an option stands between two sources, before 'f'",
    "run --show all s f": "the value of --show is 'triggers' or 'outputs', and not 'all'",
    "run --show= s f": "the value of --show is 'triggers' or 'outputs', and not ''",
    "run --intake all s f": "the value of --intake is 'lock' or 'queue', and not 'all'",
    "run --intake= s f": "the value of --intake is 'lock' or 'queue', and not ''",
    "run s f --intake": "behind --intake stands its value: 'lock' or 'queue'",
    "run --intake lock --intake queue s f": "the option --intake comes twice",
    "run --workers 0 s f": "the value of --workers is a number from 1 to 64, and not '0'",
    "run --workers 65 s f": "and not '65'",
    "run --workers 001 s f": "and not '001'",
    "run --workers +1 s f": "and not '+1'",
    "run --workers -- s f": "behind --workers stands its value",
    "run s f --workers": "behind --workers stands its value",
    "run --start -1 s f": "behind --start stands its value: a time in seconds",
    "run --start=-1 s f": "the value of --start is a time in seconds",
    "run --start 1e3 s f": "and not '1e3'",
    "run --start . s f": "and not '.'",
    f"run --start {'9' * 5000} s f": "the value of --start is a time in seconds",
    "run --start 4000000000.000000001 s f": "and not '4000000000.000000001'",
    "analyse": "the name of a specification is missing",
    "analyse s f": "'f' is too much",
    "analyse --show outputs s": "there is no option '--show' here",
    "drill 1 1": "three numbers: NUMBER ROWS WORKERS",
    "drill 2147483647 1 1": "NUMBER is a number from 0 to 2147483646, and not '2147483647'",
    "drill 00000000001 1 1": "NUMBER is a number",
    "drill 1 0 1": "ROWS is a number from 1 to 1000000, and not '0'",
    "drill 1 1000001 1": "ROWS is a number",
    "drill 1 1 65": "WORKERS is a number from 1 to 64, and not '65'",
    "drill --in-turns 1 1 1": "there is no option '--in-turns' here",
}


def status(words: list[str]) -> int:
    """The program's status; no file of these names is there, so that of a run is 6 where the words are a command."""
    return subprocess.run([LOLAMON, *words], capture_output=True).returncode


def test_words_that_are_a_command(checks: Checks) -> None:
    for words in COMMANDS:
        checks.same(f"status of {words}", 6, status(words.split()))
        try:
            read_command(words.split())
            checks.note(True, words, "", "")
        except NotACommand as reason:
            checks.same(f"reading of {words}", "a command", f"no command: {reason}")
    command = read_command("run --start=1 s --in-turns -- -f g".split())
    checks.same("names", ("s", ["-f", "g"]), (command.specification, command.sources))
    checks.same("options", {"--start": "1", "--in-turns": ""}, command.options)
    checks.same("a drill", 0, status(["drill", "0", "1", "1"]))
    checks.same("reading of a drill", "drill", read_command(["drill", "0000000000", "0000001", "01"]).name)


def test_words_that_are_none(checks: Checks) -> None:
    for words, piece in NO_COMMANDS.items():
        checks.same(f"status of {words}", 2, status(words.split()))
        try:
            read_command(words.split())
            checks.same(f"reading of {words}", "no command", "a command")
        except NotACommand as reason:
            checks.has(f"reason of {words}", piece, str(reason))


def test_the_reason_is_told(checks: Checks) -> None:
    told = on_terminal("run", "--workers", "0", "s", "f").terminal
    checks.has("value", "These words are no command: the value of --workers is a number from 1 to 64, and not", told)
    told = on_terminal("run", "s", "f", "--\x1b[2J").terminal
    checks.has("escape", "there is no option '--\\x1b[2J' here", told)
    write("-s", "input a: Int64\n")
    write("f", "time,a\n")
    told = on_terminal("run", "--", "-s", "f").terminal
    checks.same("names behind --", "= done accepted 0 late 0 steps 0 lines 0\n", told)
