"""Runs a console block in a shell and gives the transcript that comes, in the form in which the block has it.

In a console block a line that begins with "$ " is a command, and lines below it that begin with "> " continue it. All
other lines are what the commands write: standard output and standard error, in the order in which they come.
"""

import os
import shlex
import signal
import subprocess
from dataclasses import dataclass
from pathlib import Path

SECONDS = 60

# Writes the status of the command before to the file STATUSES and the next prompt to the transcript, and keeps the
# status, so that "echo $?" gives what a person would see.
TELL = """\
tell() {
    local status=$?
    echo "$status" >>"$STATUSES"
    if [ $# -gt 0 ]; then printf '%s\\n' "$1"; fi
    return "$status"
}
"""


@dataclass
class Command:
    """A command as the block shows it, with the prompts; as the shell gets it, without; and the last line below it."""

    shown: str
    script: str
    last_line: str = ""


@dataclass
class Transcript:
    text: str
    statuses: list[int]
    timed_out: bool


def read_commands(text: str) -> list[Command]:
    commands: list[Command] = []
    may_go_on = False
    for line in text.splitlines():
        if line.startswith("$ "):
            commands.append(Command(line, line[2:]))
            may_go_on = True
        elif may_go_on and line.startswith("> "):
            commands[-1].shown += "\n" + line
            commands[-1].script += "\n" + line[2:]
        else:
            may_go_on = False
            if commands:
                commands[-1].last_line = line
    return commands


def failed_in_silence(commands: list[Command], statuses: list[int]) -> list[str]:
    """The commands with a status that is not 0, where neither an end line tells it nor the command behind shows it."""
    silent: list[str] = []
    for number, (command, status) in enumerate(zip(commands, statuses)):
        shown = number + 1 < len(commands) and commands[number + 1].script == "echo $?"
        if status != 0 and not shown and not command.last_line.startswith("= "):
            silent.append(f"{command.shown} (status {status})")
    return silent


def run_commands(commands: list[Command], folder: Path, statuses: Path) -> Transcript:
    """Runs the commands in one shell in the folder, which is also the first place where programs are looked for."""
    script = TELL
    for command in commands:
        script += f"tell {shlex.quote(command.shown)}\n{command.script}\n"
    script += "tell\n"
    statuses.write_text("")
    environment = dict(os.environ, PATH=f"{folder}:{os.environ['PATH']}", LC_ALL="C.UTF-8", STATUSES=str(statuses))
    shell = subprocess.Popen(
        ["bash", "-c", script], cwd=folder, env=environment, start_new_session=True,
        stdin=subprocess.DEVNULL, stdout=subprocess.PIPE, stderr=subprocess.STDOUT)
    timed_out = False
    try:
        written, _ = shell.communicate(timeout=SECONDS)
    except KeyboardInterrupt:
        os.killpg(shell.pid, signal.SIGKILL)
        raise
    except subprocess.TimeoutExpired:
        os.killpg(shell.pid, signal.SIGKILL)
        written, _ = shell.communicate()
        timed_out = True
    told = [int(status) for status in statuses.read_text().split()]
    return Transcript(written.decode("utf-8", "backslashreplace"), told[1:], timed_out)
