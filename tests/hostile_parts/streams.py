"""Devices, folders, readers that have gone or are slow, and descriptors that are closed or do not block."""
from __future__ import annotations

import fcntl
import os
import resource
import subprocess
import threading
import time

from hostile_parts.runs import Came, expect, remove, run
from terminal_parts.harness import LOLAMON, LONGEST_RUN, Checks, write

SPEC = 'input a: Int64\noutput b: Int64 := a + 1\ntrigger b > 2 "high"\n'
TRACE = "0,1,0.000000000,A,1\n0,2,1.000000000,A,2\n"
VERDICTS = '1.000000000 trigger_1 "high"\n= done accepted 2 late 0 steps 2 lines 1\n'
PAGE = 4096  # bytes, the least that a pipe has room for
ENDS = {  # commands whose status is none of a write, and stays where the end line cannot be written
    2: ["run", "sum.lola"],
    3: ["run", "unknown.lola", "good.csv"],
    6: ["run", "sum.lola", "none.csv"],
}


def write_files() -> list[str]:
    """Files of runs; the words of one that ends well."""
    remove("none.csv")
    write("unknown.lola", "output b := c\n")
    return ["run", write("sum.lola", SPEC), write("good.csv", "time,a\n0,1\n1,2\n")]


def test_devices_and_folders(checks: Checks) -> None:
    good = write_files()
    os.makedirs("folder", exist_ok=True)
    expect(checks, "a folder as a source", run("run", "sum.lola", "folder"), 6, "= unreadable source 0\n")
    expect(checks, "a folder as the second source", run("run", "--in-turns", *good[1:], "folder"), 6,
           VERDICTS.splitlines(True)[0] + "= unreadable source 1\n", TRACE)
    expect(checks, "a folder as a specification", run("run", "folder", "good.csv"), 6, "= unreadable specification\n")
    expect(checks, "/dev/null as a source", run("run", "sum.lola", "/dev/null"), 4, "= malformed source 0 row 0 kind 1 BadHeading\n")
    expect(checks, "/dev/null as a specification", run("run", "/dev/null", "good.csv"), 0, "= done accepted 2 late 0 steps 2 lines 0\n",
           "0,1,0.000000000,A\n0,2,1.000000000,A\n")
    for device in ("/dev/zero", "/dev/full"):
        expect(checks, f"{device} as a source", run("run", "sum.lola", device), 4, "= malformed source 0 row 0 kind 7 RowTooLong\n")
        expect(checks, f"{device} as a specification", run("analyse", device), 3, "= refused E1 TooLong at 1048576\n")
    expect(checks, "a name with line feeds", run("run", "sum.lola", "no\nsuch\nfile"), 6, "= unreadable source 0\n")
    os.symlink("loop", remove("loop") if not os.path.islink("loop") else "loop2")
    expect(checks, "a link to itself", run("run", "sum.lola", "loop"), 6, "= unreadable source 0\n")
    expect(checks, "words that are no UTF-8", run("run", "sum.lola", os.fsdecode(b"\xff.csv")), 2, "= usage\n")


def test_full_devices(checks: Checks) -> None:
    good = write_files()
    with open("/dev/full", "wb") as full:
        expect(checks, "a full output", run(*good, stdout=full), 7, "", TRACE)
        expect(checks, "a full trace", run(*good, stderr=full), 7, "")
        expect(checks, "both full", run(*good, stdout=full, stderr=full), 7, "")
        expect(checks, "an analysis into a full output", run("analyse", "sum.lola", stdout=full), 7, "")
        for status, words in ENDS.items():
            expect(checks, f"{words} into a full output", run(*words, stdout=full), status, "")


def test_files_that_may_not_grow(checks: Checks) -> None:
    """An output or a trace that takes so many bytes and no more: they are a front. A fault that was met before the write that failed is the end."""
    good = write_files()
    faulty = ["run", "--show", "outputs", "--start", "0",
              write("held.lola", "input a: Int64\noutput n: Int64 @1Hz := a.hold(or: 0)\noutput c: Int64 := a + 1")]
    verdict, greatest = "1.000000000 n = 0\n", 2**63 - 1
    at_once = [*faulty, write("at_once.csv", f"time,a\n2,{greatest}\n")]
    behind = [*faulty, write("behind.csv", f"time,a\n1.5,1\n2,{greatest}\n")]
    for stream, size, words, status, out, trace in (
            ("stderr", 25, good, 7, "", TRACE[:25]), ("stdout", 5, good, 7, VERDICTS[:5], TRACE),
            ("stdout", len(verdict), at_once, 5, verdict, f"0,1,2.000000000,A,{greatest}\n"),
            ("stdout", 0, behind, 7, "", "0,1,1.500000000,A,1\n")):
        with open("limited", "wb+") as file:
            came = run(*words, **{stream: file}, restore_signals=False, preexec_fn=lambda size=size: resource.setrlimit(resource.RLIMIT_FSIZE, (size, size)))
            file.seek(0)
            came = came._replace(**{"out" if stream == "stdout" else "trace": file.read()})
        expect(checks, f"{stream} of {size} bytes, {words}", came, status, out, trace)


def closed_pipe() -> int:
    """The end of a pipe that nobody reads."""
    reading, writing = os.pipe()
    os.close(reading)
    return writing


def test_readers_that_have_gone(checks: Checks) -> None:
    """Whether or not a caller has SIGPIPE ignored."""
    good = write_files()
    for restored in (True, False):
        writing = closed_pipe()
        came = run(*good, stdout=writing, restore_signals=restored)
        expect(checks, f"an output that nobody reads, {restored}", came, 7, "", TRACE)
        expect(checks, f"a trace that nobody reads, {restored}", run(*good, stderr=writing, restore_signals=restored), 7, "")
        for status, words in ENDS.items():
            expect(checks, f"{words} that nobody reads, {restored}", run(*words, stdout=writing, restore_signals=restored), status, "")
        os.close(writing)


def test_a_reader_that_goes_away(checks: Checks) -> None:
    """A reader that takes some lines of many: what it got is a front, and the status is 7."""
    rows = 50_000
    write("many.csv", "time,a\n" + "".join(f"{n},1\n" for n in range(rows)))
    write("each.lola", "input a: Int64\noutput b: Int64 := a\n")
    words = [LOLAMON, "run", "--show", "outputs", "each.lola", "many.csv"]
    whole = {"stdout": "".join(f"{n}.000000000 b = 1\n" for n in range(rows)), "stderr": "".join(f"0,{n + 1},{n}.000000000,A,1\n" for n in range(rows))}
    for read, other in (("stdout", "stderr"), ("stderr", "stdout")):
        with open("other", "wb") as file, subprocess.Popen(words, **{read: subprocess.PIPE, other: file}) as started:
            reader = getattr(started, read)
            came = reader.read(2000)
            reader.close()
            status = started.wait(LONGEST_RUN)
        with open("other", "rb") as file:
            rest = file.read()
        fronts = whole[read].encode().startswith(came), whole[other].encode().startswith(rest)
        checks.same(f"a reader of {read} that goes away", (7, (True, True), 2000), (status, fronts, len(came)))


class SlowReader:
    """A pipe of one page whose writing end does not block, and a reader that sleeps at first and then between its reads, so that the pipe is full."""

    def __init__(self, first_sleep: float) -> None:
        self.reading, self.writing = os.pipe()
        os.set_blocking(self.writing, False)
        fcntl.fcntl(self.writing, fcntl.F_SETPIPE_SZ, PAGE)
        self.first_sleep = first_sleep
        self.came = b""
        self.thread = threading.Thread(target=self.read)
        self.thread.start()

    def read(self) -> None:
        time.sleep(self.first_sleep)
        while piece := os.read(self.reading, PAGE):
            self.came += piece
            time.sleep(0.001)

    def end(self) -> bytes:
        """All that came, once the caller's writing end was the last one."""
        os.close(self.writing)
        self.thread.join(LONGEST_RUN)
        os.close(self.reading)
        return self.came


def test_pipes_that_do_not_block(checks: Checks) -> None:
    """A writer of a full pipe is told to come again, where another program has set that: all bytes arrive all the same."""
    rows = 2000
    words = ["run", "--show", "outputs", write("each.lola", "input a: Int64\noutput b: Int64 := a\n"),
             write("many.csv", "time,a\n" + "".join(f"{n},1\n" for n in range(rows)))]
    out = "".join(f"{n}.000000000 b = 1\n" for n in range(rows)) + f"= done accepted {rows} late 0 steps {rows} lines {rows}\n"
    trace = "".join(f"0,{n + 1},{n}.000000000,A,1\n" for n in range(rows))
    for way in ([], ["--in-turns"]):
        readers = SlowReader(0.2), SlowReader(0.1)
        came = run(*words[:1], *way, *words[1:], stdout=readers[0].writing, stderr=readers[1].writing)
        texts = [reader.end() for reader in readers]
        expect(checks, f"both pipes {way}", came._replace(out=texts[0], trace=texts[1]), 0, out, trace)
    reader = SlowReader(0.2)
    came = run(*words, stdout=reader.writing, stderr=reader.writing)
    text = reader.end()
    lines = text.decode().splitlines(True)
    checks.same("one pipe for both", (0, out, trace), (came.status, "".join(line for line in lines if "," not in line),
                                                       "".join(line for line in lines if "," in line)))


def test_a_reader_of_a_full_pipe_goes_away(checks: Checks) -> None:
    """Nothing is waited for any more once nobody can read it."""
    good = write_files()
    for stream, out, trace in (("stdout", "", TRACE), ("stderr", "", "")):
        reading, writing = os.pipe()
        os.set_blocking(writing, False)
        os.write(writing, b"x" * fcntl.fcntl(writing, fcntl.F_GETPIPE_SZ))
        begun = time.monotonic()
        gone = threading.Timer(0.1, os.close, [reading])
        gone.start()
        expect(checks, f"the reader of {stream} goes away", run(*good, **{stream: writing}), 7, out, trace)
        checks.same(f"{stream} was waited for until then", True, time.monotonic() - begun >= 0.1)
        gone.join()
        os.close(writing)


def test_a_source_that_does_not_block(checks: Checks) -> None:
    """The reading end of standard input does not block; `/dev/stdin` is opened anew, and its reads wait for the bytes."""
    good = write_files()
    reading, writing = os.pipe()
    os.set_blocking(reading, False)

    def feed() -> None:
        for piece in (b"time,a\n0", b",1\n1,", b"2\n"):
            time.sleep(0.05)
            os.write(writing, piece)
        os.close(writing)

    feeding = threading.Thread(target=feed)
    feeding.start()
    came = run(*good[:2], "/dev/stdin", stdin=reading)
    feeding.join()
    os.close(reading)
    expect(checks, "a pipe that does not block as a source", came, 0, VERDICTS, TRACE)


def closing(words: list[str], *places: int) -> Came:
    """A run with these descriptors closed."""
    shut = " ".join(f"{place}<&-" if place == 0 else f"{place}>&-" for place in places)
    ended = subprocess.run(["sh", "-c", f'exec "$0" "$@" {shut}', LOLAMON, *words], capture_output=True, timeout=LONGEST_RUN, check=False)
    return Came(ended.returncode, ended.stdout, ended.stderr)


def test_closed_descriptors(checks: Checks) -> None:
    """A write to a closed descriptor fails; a file that is opened may get its number, and nothing may be written to that."""
    good = write_files()
    expect(checks, "a closed input", closing(good, 0), 0, VERDICTS, TRACE)
    expect(checks, "a closed output", closing(good, 1), 7, "", TRACE)
    expect(checks, "a closed trace", closing(good, 2), 7, "")
    expect(checks, "all closed", closing(good, 0, 1, 2), 7, "")
    expect(checks, "an analysis with a closed output", closing(["analyse", "sum.lola"], 1), 7, "")
    expect(checks, "a heading alone with a closed trace", closing(["run", "sum.lola", write("heading.csv", "time,a\n")], 2), 0,
           "= done accepted 0 late 0 steps 0 lines 0\n")
    for status, words in ENDS.items():
        expect(checks, f"{words} with a closed output", closing(words, 1), status, "")
    with open("good.csv", "rb") as file:
        checks.same("the source is as it was", b"time,a\n0,1\n1,2\n", file.read())
