"""Random inputs of each tool: words, specifications, sources, verdicts, traces, results and places, right ones and spoilt ones.

An input is made in the current folder, and all of it comes of one number, so that it can be made again.
"""
from __future__ import annotations

import json
import os
import random
import re
from functools import lru_cache
from typing import Any, Callable, Dict, List, NamedTuple, Sequence

from terminal_parts.harness import CHECKOUT, LOLAMON, stand_in, write
from tool_parts.loaded import FILE, FULL, NOBODY, Given, content
from tool_parts.spoilt import KINDS, PIECES, spoilt, with_other_lines, with_pieces

SIGNS = [b'"', b"/*", b"*/", b"//", b"\n", b"\r", b"\x00", b"\xff", "€".encode(), b"(" * 400, b")", b"9" * 30, b"-", b".", b":=", b"@", b"",
         b"input ", b"output ", b"trigger ", b"close ", b"x" * 3000]  # of specifications; no rate, since a run with one may be long
LINE_PIECES = [b"", b"\n", b"\r", b'"', b"\\", b"\xff", b"\x00", b" = ", b"\n= ", b"(", b",", b"-", b"#", b"9" * 30, b"0" * 5000, b"\x1b[1m",
               "\u2028".encode(), "é".encode()]  # of verdicts and traces
NUMBERS = ["0", "1", "2", "17", "34", "300", "-1", "9" * 18, "9" * 20, "9" * 400, "9" * 5000, "²", "٣", "1.5", "0x1"]
TIMES = ["0", "1", "1.25", "8"]
ODD_TIMES = ["4000000000", "4000000000.1", "1772359200.000000001", "-1", "1e3", "", ".", "9" * 5000, "0." + "0" * 5000]
ODD = ["", "-", "--", "-x", ".", "..", "x=1", "a=", "=a", "a+b,c", "a(1", "no such file", "none/x", "\udcff", "\x1b[31m", "a\nb", "%s", "{}", "é€",
       "x" * 300, "x" * 5000, "/dev/null", "--help", *NUMBERS, *ODD_TIMES]
LOGS = ["a.csv", "b c.csv", "logs/d.csv", "é.csv", "\udcff.csv", "\x1b[1m.csv", "\u2028.csv", "e", "x" * 200]
ENDS = ["= done accepted 3 late 1 steps 3 lines 2", "= usage", "= refused {code} {name} at {number}",
        "= malformed source {number} row {number} kind {number} {name}", "= fault {name} {number} {name} at {time}", "= unreadable specification", "= unreadable source {number}", "= done", "= nonsense", "= ", "="]
CODES = ["E1", "E6", "E12", "E99", "E", "kind 3", "\udcff"]
NAMES = ["Unknown", "BadTime", "DivZero", "trigger_1", "trigger_99", "b", "x" * 5000, "a b", "é"]
REPORT = b"stream 0 a Int64 pacing a layer 0 kept 1\nstream 1 b Int64 spawn a layer 1 pacing 1/3Hz layer 2 kept 2\nwindow 0 in b onto a over 5.000000000 " \
         b"panes 5\nstream 2 trigger_1 Bool pacing a layer 1 kept 1\n= done streams 3 windows 1\n"


BUILT = [os.path.join(CHECKOUT, name) for name in ("bin/x86_64-linux/lolamon", "crates/lolamon/out/lolamon")]
# The program itself, which starts sooner than by way of ./lolamon.
PROGRAM = os.path.abspath(os.environ.get("LOLAMON") or max(filter(os.path.isfile, BUILT), key=os.path.getmtime, default=LOLAMON))


class Example(NamedTuple):
    """A specification with sources, and what a run of it wrote."""

    specification: bytes
    sources: List[bytes]
    trace: bytes
    verdicts: bytes

    def has_deadlines(self) -> bool:
        return re.search(rb"Hz|Global|Local", self.specification) is not None


@lru_cache(maxsize=None)
def examples() -> List[Example]:
    """The examples of this repository, and the specification of spoilt sources, which has none of its own."""
    found = [Example(KINDS.encode(), [], b"", b"")]
    for name in sorted(os.listdir(os.path.join(CHECKOUT, "examples"))):
        folder = os.path.join(CHECKOUT, "examples", name)
        if os.path.isdir(folder):
            contents = {file: content(os.path.join(folder, file)) for file in sorted(os.listdir(folder))}
            sources = [data for file, data in contents.items() if file.endswith(".csv")]
            found.append(Example(contents[f"{name}.lola"], sources, contents["trace.txt"], contents["verdicts.txt"]))
    return found


class Maker:
    """Makes the input of a number for a tool, whose options its manual has."""

    def __init__(self, tool: str, manual: str, number: int) -> None:
        self.dice = random.Random(f"{tool} {number}")
        self.tool = tool
        self.options = sorted(set(re.findall(r"--[a-z]+(?:-[a-z]+)*", manual)))
        self.example = self.dice.choice(examples())
        self.handed = b""

    def given(self) -> Given:
        words = MAKERS[self.tool](self)
        output = self.dice.choice([FILE] * 16 + [FULL, NOBODY])
        return Given(words, self.handed, output, self.dice.choice(["utf-8"] * 8 + ["latin-1", "ascii"]), self.variables())

    def is_so(self, chance: float) -> bool:
        return self.dice.random() < chance

    def some(self, *chosen: List[str]) -> List[str]:
        """The words of some options."""
        return [word for words in chosen if self.is_so(0.2) for word in words]

    def variables(self) -> Dict[str, str]:
        """Mostly the program, and sometimes what is none, or one that writes nonsense."""
        if self.is_so(0.9):
            return {"LOLAMON": PROGRAM}
        if self.is_so(0.5):
            return {"LOLAMON": self.dice.choice(["/none", ".", "s.lola", "\udcff", "true", "false", "cat"])}
        write("report", with_other_lines(self.dice, with_pieces(self.dice, REPORT, LINE_PIECES)))
        ends = self.dice.choice(["exit 0", "exit 0", "exit 3", "exit 8", "exit 77", "kill -9 $$", "echo x >&2"])
        return {"LOLAMON": stand_in("program", f"cat report\n{ends}")}

    # Files

    def perhaps_spoilt(self, data: bytes, pieces: Sequence[bytes]) -> bytes:
        data = with_pieces(self.dice, data, pieces) if self.is_so(0.6) else data
        return with_other_lines(self.dice, data) if self.is_so(0.3) else data

    def specification(self) -> str:
        if self.is_so(0.02):
            return self.dice.choice(["none.lola", ".", "/dev/null", "/dev/zero"])
        text = self.example.specification if self.is_so(0.6) else self.perhaps_spoilt(self.example.specification, SIGNS)
        return write(self.dice.choice(["s.lola"] * 8 + ["é.lola", "\udcff.lola", "\x1b.lola", "a b.lola"]), text)

    def without_deadlines(self) -> str:
        """The specification of an example whose runs are short, whatever their sources are."""
        while self.example.has_deadlines():
            self.example = self.dice.choice(examples())
        return self.specification()

    def source(self) -> bytes:
        data = spoilt(self.dice) if not self.example.sources or self.is_so(0.1) else self.dice.choice(self.example.sources)
        way = self.dice.randrange(12)
        if way == 0:
            data = data.replace(b",", b";").replace(b".", self.dice.choice([b".", b","]))
        elif way == 1:
            data = data.decode("utf-8", "replace").encode(self.dice.choice(["utf-16", "utf-32", "utf-8-sig"]))
        elif way == 2:
            data = data.replace(b"\n", self.dice.choice([b"\r", b"\r\n", b"\n\n", b""]))
        elif way == 3:
            data = data * self.dice.choice([0, 2, 40])
        return self.perhaps_spoilt(data, PIECES)

    def sources(self, most: int) -> List[str]:
        return [write(f"{number}.csv", self.source()) for number in range(self.dice.randint(1, most))]

    def time(self) -> str:
        return self.dice.choice(TIMES if self.is_so(0.8) else ODD_TIMES)

    def column(self) -> str:
        """A name that may be a column's."""
        names = [name.decode("utf-8", "replace") for data in self.example.sources for name in data.split(b"\n")[0].split(b",")]
        return self.dice.choice([*names, "a", "d", "time", "none", ""])

    def lines(self, name: str, right: bytes) -> str:
        """A file of verdicts or of a trace."""
        return write(name, self.perhaps_spoilt(right, LINE_PIECES))

    def verdicts(self, name: str) -> str:
        body, _, end = self.example.verdicts.rstrip(b"\n").rpartition(b"\n")
        end = end if self.is_so(0.7) else self.end_line()
        return self.lines(name, body + b"\n" + end + b"\n")

    def end_line(self) -> bytes:
        line = self.dice.choice(ENDS)
        while "{" in line:
            kind = line.partition("{")[2].partition("}")[0]
            value = {"code": CODES, "name": NAMES, "number": NUMBERS, "time": ODD_TIMES}[kind]
            line = line.replace(f"{{{kind}}}", self.dice.choice(value), 1)
        return line.encode("utf-8", "surrogateescape")

    # Results of a batch

    def results(self) -> str:
        """A folder of results."""
        names = self.dice.sample(LOGS, self.dice.randrange(5))
        os.mkdir("kept")
        for name in names:
            folder = os.path.join("kept", name)
            os.makedirs(folder)
            write(f"{folder}/result.json", self.result(name))
            for file in ("verdicts.txt", "trace.txt"):
                if self.is_so(0.8):
                    write(f"{folder}/{file}", "")
        listed = "".join(name + "\n" for name in [*names, *self.dice.sample([*LOGS, "..", ".", "", "a\0b", "../../x"], self.dice.randrange(3))])
        if self.is_so(0.9):
            data = listed.encode("utf-8", "surrogateescape")
            write("kept/logs.txt", with_other_lines(self.dice, data) if self.is_so(0.3) else data)
        if self.is_so(0.05):
            os.mkdir(f"kept/{self.dice.choice(['summary.csv', 'left.txt', 'result.json'])}")
        return "kept"

    def result(self, name: str) -> bytes:
        """What is kept of a log, some of whose values are others."""
        kept: Dict[str, Any] = {
            "log": name, "files": [name], "specification": "s.lola", "options": ["run"], "sizes": [1, 2], "trigger_names": ["trigger_1"],
            "status": 0, "end": "done accepted 3 late 1 steps 3 lines 2", "accepted": 3, "late": 1, "triggers": {"trigger_1": [2, "1.000000000", "high"]}}
        for _ in range(self.dice.randrange(3)):
            kept[self.dice.choice(list(kept))] = self.odd_value()
        if self.is_so(0.3):
            found = self.dice.choice([[self.odd_value(), "1.0", "x"], self.odd_value()])
            kept["triggers"] = {self.dice.choice(["trigger_1", "trigger_2", "é", "\udcff", "\ud800", ""]): found}
        data = json.dumps(kept, ensure_ascii=self.is_so(0.8)).encode("utf-8", "surrogatepass")
        return with_pieces(self.dice, data, LINE_PIECES) if self.is_so(0.3) else data

    def odd_value(self) -> Any:
        return self.dice.choice([None, True, 0, -1, 6, 8, 70, -9, 10**30, 1.5, float("inf"), float("nan"), "", "x", "1", "9" * 5000, "\ud800", "\x1b",
                                 "a\nb", [], {}, [[]], ["x"], {"a": [1, 2, 3]}])

    # Words

    def wrong(self, words: Sequence[str]) -> List[str]:
        """Words of which some are left out, doubled, exchanged or spoilt, with others among them."""
        found = list(words)
        for _ in range(self.dice.choice([0, 0, 0, 0, 1, 1, 2, 4])):
            at = self.dice.randint(0, len(found))
            way = self.dice.randrange(5)
            if way == 0 and self.options:
                found.insert(at, self.dice.choice(self.options) + (f"={self.dice.choice(ODD)}" if self.is_so(0.3) else ""))
            elif way == 1:
                found.insert(at, self.dice.choice(ODD))
            elif way == 2:
                del found[at:at + 1]
            elif way == 3 and found:
                found.insert(at, self.dice.choice(found))
            elif found:
                at = self.dice.randrange(len(found))
                found[at] = self.spoilt_word(found[at])
        return found

    def spoilt_word(self, word: str) -> str:
        """A word with other signs in it. It leads to no place outside of this folder."""
        data = with_pieces(self.dice, os.fsencode(word), [b"-", b"=", b"\xff", b" ", b"\n", b"0", b"..", b"x", b""])
        other = os.fsdecode(data)
        return word if re.search(r"(^|=)/", other) else other

    # Tools

    def for_batch(self) -> List[str]:
        specification = self.without_deadlines()
        logs = self.logs()
        if self.is_so(0.1):
            return self.wrong([*self.some(["--fail-on", self.trigger()]), "--collect", self.results()])
        if self.is_so(0.05):
            return self.wrong(["--commands", self.dice.choice(["slurm", "parallel"]), "--results", self.results(), specification, *logs])
        options = self.some(["--jobs", self.dice.choice(["1", "2", "128", "0"])], ["--fail-on", self.trigger()], ["--part"])
        if self.is_so(0.4):
            options += ["--results", self.results()]
        return self.wrong([*options, *self.options_of_batches(), specification, *logs])

    def for_collect(self) -> List[str]:
        return self.wrong([*self.some(["--fail-on", self.trigger()], ["--fail-on", "any"]), self.results()])

    def for_spread(self) -> List[str]:
        specification = self.without_deadlines()
        return self.wrong([self.dice.choice(["slurm", "parallel"]), "--results", self.results(), *self.options_of_batches(), specification, *self.logs()])

    def logs(self) -> List[str]:
        """Logs of the names that some results have; a folder of them, or names on standard input."""
        os.mkdir("logs")
        names = self.dice.sample(LOGS, self.dice.choice([1, 1, 2, 3]))
        for name in names:
            write(name, self.source())
        if self.is_so(0.2):
            self.handed = with_other_lines(self.dice, "".join(name + "\n" for name in names).encode("utf-8", "surrogateescape"))
            return ["-"]
        return [*names, *self.dice.choice([[]] * 6 + [["logs"], ["none.csv"], ["kept"]])]

    def options_of_batches(self) -> List[str]:
        return self.some(["--join"], ["--show", "outputs"], ["--start", self.time()], ["--in-turns"], ["--workers", "2"])

    def trigger(self) -> str:
        return self.dice.choice(["any", "trigger_1", "trigger_2", "high", "the battery is low", "", "\udcff"])

    def for_doctor(self) -> List[str]:
        specification = self.specification()
        if self.is_so(0.25):
            return self.wrong(["--fix", self.dice.choice(["o.csv", "-", "none/o", "/dev/full"]), *self.ways_to_mend(), specification, *self.sources(1)])
        return self.wrong([*self.options_of_runs(), specification, *self.sources(3), *self.from_input()])

    def for_estimate(self) -> List[str]:
        return self.wrong([*self.options_of_runs(), self.specification(), *self.sources(3), *self.from_input()])

    def for_mend(self) -> List[str]:
        out = self.some(["--out", self.dice.choice(["o.csv", "o.csv", "-", "none/o", "/dev/full", "s.lola", "0.csv"])])
        return self.wrong([*out, *self.ways_to_mend(), self.specification(), *(self.from_input() or self.sources(1))])

    def options_of_runs(self) -> List[str]:
        return self.some(["--start", self.time()], ["--in-turns"])

    def from_input(self) -> List[str]:
        """Sometimes a source on standard input."""
        if self.is_so(0.9):
            return []
        self.handed = self.source()
        return ["-"]

    def ways_to_mend(self) -> List[str]:
        scale = f"{self.column()}={self.dice.choice(['0', '1', '3', '18', '1', '19', '-1', ''])}"
        return self.some(["--sort"], ["--scale", scale], ["--thousands", self.column()], ["--rename", f"{self.column()}={self.column()}"],
                         ["--unit", self.dice.choice(["s", "ms", "us", "ns", "h"])])

    def for_table(self) -> List[str]:
        verdicts = self.verdicts("v.txt")
        if self.is_so(0.3):
            write("table.csv", with_pieces(self.dice, b'time,stream,parameters,value\n0.000000000,a,,1\n1.000000000,b,"x,""y""",2\n', LINE_PIECES))
            return self.wrong(["--compare", verdicts, self.dice.choice([self.verdicts("w.txt"), "table.csv", verdicts])])
        words = self.some(["--numbers"], [self.dice.choice(["--long", "--wide", "--json"])])
        if self.is_so(0.3):
            self.handed = content(verdicts)
            return self.wrong(words + self.dice.choice([[], ["-"]]))
        return self.wrong([*words, verdicts])

    def for_plot(self) -> List[str]:
        words = [*self.options_of_pictures(), self.specification(), self.lines("t.txt", self.example.trace), self.verdicts("v.txt")]
        if self.is_so(0.1):
            self.handed = content(words[-1])
            words[-1] = "-"
        return self.wrong(words)

    def for_overlay(self) -> List[str]:
        names = self.dice.sample(["v.txt", "w.txt", "é.txt", "\udcff.txt", "\x1b.txt"], self.dice.randint(1, 3))
        return self.wrong([*self.some(["--from-start"]), *self.options_of_pictures(), self.specification(), *map(self.verdicts, names)])

    def options_of_pictures(self) -> List[str]:
        return self.some(["--out", self.dice.choice(["o.html", "o.html", "é.HTML", "none/o.html", "o.gif", "s.lola"])], ["--from", self.time()],
                         ["--to", self.time()], ["--streams", self.streams()])

    def streams(self) -> str:
        names = [self.column(), "mean", "sinks", "last", "clearance", 'a("x")', 'b(1,"y")', "trigger_1", "a(", ""]
        return self.dice.choice([",", ",", "+", ""]).join(self.dice.choice(names) for _ in range(self.dice.randint(1, 3)))

    def for_tick(self) -> List[str]:
        """Whatever stands before it, the last word ends it soon."""
        lengths = ["1ms", "0.5s", "10Hz", "1d", "3mHz", "0s", "1.s", "9" * 30 + "s", *ODD_TIMES]
        words = self.some(["--rate", self.dice.choice(lengths)], ["--behind", self.dice.choice(lengths)], ["--for", self.dice.choice(lengths)],
                          ["--from", self.time()], ["--pid", self.dice.choice(["1", str(os.getpid()), "999999999", *NUMBERS])])
        return [*self.wrong(words), "--for=2ms"]

    def for_where(self) -> List[str]:
        specification = self.specification()
        if self.is_so(0.2):
            return self.wrong(["--check", specification])
        self.handed = content(self.verdicts("v.txt"))
        place = self.dice.choice([[str(self.dice.randrange(400))], [f"= refused E6 Unknown at {self.dice.randrange(400)}"], [self.dice.choice(NUMBERS)],
                                  [os.fsdecode(self.end_line())], ["-"], []])
        return self.wrong([specification, *place])

    def for_explain(self) -> List[str]:
        trace = self.lines("t.txt", self.example.trace)
        self.handed = content(trace) + content(self.verdicts("v.txt"))
        return self.wrong(self.command())

    def command(self) -> List[str]:
        """Words of the program."""
        if self.is_so(0.2):
            return ["analyse", self.without_deadlines()]
        options = self.some(["--show", "outputs"], ["--start", self.time()], ["--in-turns"], ["--workers", "2"])
        return ["run", *options, self.without_deadlines(), *self.sources(2)]

    def for_wrapped(self) -> List[str]:
        """Words of the program behind it, for what runs it where standard error is a terminal."""
        return [self.dice.choice([PROGRAM] * 9 + ["/none"]), *self.wrong(self.command())]


MAKERS: Dict[str, Callable[[Maker], List[str]]] = {
    "explain": Maker.for_wrapped, "lolamon-batch": Maker.for_batch, "lolamon-collect": Maker.for_collect, "lolamon-doctor": Maker.for_doctor,
    "lolamon-estimate": Maker.for_estimate, "lolamon-explain": Maker.for_explain, "lolamon-mend": Maker.for_mend, "lolamon-overlay": Maker.for_overlay,
    "lolamon-plot": Maker.for_plot, "lolamon-spread": Maker.for_spread, "lolamon-table": Maker.for_table, "lolamon-tick": Maker.for_tick,
    "lolamon-where": Maker.for_where}
