"""A small evaluator of specifications, written from the rules of docs/language.md and apart from the program: whole lists of values, one
step after another, each question asked on demand. It knows numbers of the kind Int64, and no windows."""

from typing import NamedTuple, Optional

NANOSECONDS = 10**9
LEAST, GREATEST = -(2**63), 2**63 - 1
OVERFLOW, DIVISION = (1, "Overflow"), (2, "DivZero")


class Rate(NamedTuple):
    """So many periods in so many seconds."""

    periods: int
    seconds: int

    def deadlines_after(self, offset: int) -> int:
        """The first deadline above an offset, as an offset from where the rate counts from."""
        number = max(offset * self.periods // (self.seconds * NANOSECONDS), 0)
        while number < 1 or number * self.seconds * NANOSECONDS // self.periods <= offset:
            number += 1
        return number * self.seconds * NANOSECONDS // self.periods

    def has_deadline(self, offset: int) -> bool:
        return offset > 0 and self.deadlines_after(offset - 1) == offset


class Pacing(NamedTuple):
    """An input's name, or a rate that counts from the start or from the birth of an instance."""

    sort: str
    input: str = ""
    rate: Optional[Rate] = None


class Clause(NamedTuple):
    pacing: Pacing
    when: Optional[tuple]
    with_: tuple = ()


class Stream(NamedTuple):
    name: str
    parameters: int
    spawn: Optional[Clause]
    eval: Optional[Clause]
    close: Optional[Clause]


class Fault(Exception):
    """The run ends: a stream's name, a kind and a time."""


class NoValue(Exception):
    """An expression has no value: it is missing, poisoned, or has a fault of its own."""

    def __init__(self, outcome):
        super().__init__(outcome)
        self.outcome = outcome


MISSING, POISON = ("missing",), ("poison",)


def value_of(outcome):
    if outcome[0] != "value":
        raise NoValue(outcome)
    return outcome[1]


class Instance:
    def __init__(self, parameters, born):
        self.parameters = parameters
        self.born = born
        self.values = []


class Run:
    """A run of streams, the inputs first; rows are pairs of a stamp and the fields by name."""

    def __init__(self, streams, start):
        self.streams = streams
        self.numbers = {stream.name: number for number, stream in enumerate(streams)}
        self.given_start = start
        self.living = [[] if stream.spawn else [Instance((), None)] for stream in streams]
        self.lines = []
        self.steps = self.accepted = self.late = 0
        self.merged = start or 0
        self.passed = None  # the last moment whose deadlines are run, once a row was accepted

    # when clauses are active

    def is_active(self, pacing, born):
        if pacing.sort == "input":
            return self.fields is not None and self.fields.get(pacing.input) is not None
        counted = self.start if pacing.sort == "global" else born
        return self.fields is None and pacing.rate.has_deadline(self.time - counted)

    def next_deadline(self, above):
        """The first moment above another at which a clause is due."""
        found = []
        for stream, instances in zip(self.streams, self.living):
            for clause in (stream.spawn, stream.eval, stream.close):
                if clause is None or clause.pacing.sort == "input":
                    continue
                births = [self.start] if clause.pacing.sort == "global" else [each.born for each in instances]
                found += [born + clause.pacing.rate.deadlines_after(above - born) for born in births]
        return min(found, default=None)

    # what expressions come to

    def evaluate(self, expression, parameters):
        word = expression[0]
        if word == "literal":
            return expression[1]
        if word == "parameter":
            return parameters[expression[1]]
        if word == "if":
            return self.evaluate(expression[2 if self.evaluate(expression[1], parameters) else 3], parameters)
        if word in ("get", "hold", "offset"):
            return self.read(expression, parameters)
        return self.operate(word, self.evaluate(expression[1], parameters), self.evaluate(expression[2], parameters))

    def operate(self, sign, left, right):
        if sign in ("<", "<=", "==", "!="):
            return {"<": left < right, "<=": left <= right, "==": left == right, "!=": left != right}[sign]
        if sign in ("/", "%") and right == 0:
            raise NoValue(("fault", DIVISION))
        if sign in ("/", "%"):
            quotient = abs(left) // abs(right) * (1 if (left < 0) == (right < 0) else -1)
            result = quotient if sign == "/" else left - quotient * right
        else:
            result = {"+": left + right, "-": left - right, "*": left * right}[sign]
        if not LEAST <= result <= GREATEST:
            raise NoValue(("fault", OVERFLOW))
        return result

    def read(self, expression, parameters):
        """An access with its default, which is evaluated where nothing is found."""
        word, name, arguments, places, default = expression
        number = self.numbers[name]
        found = tuple(self.evaluate(argument, parameters) for argument in arguments)
        outcome = self.look_up(word, number, found, places)
        if outcome == MISSING:
            return self.evaluate(default, parameters)
        return value_of(outcome)

    def look_up(self, word, number, parameters, places):
        if word == "offset":
            instance = next((each for each in self.living[number] if each.parameters == parameters), None)
            return ("value", instance.values[-places]) if instance and len(instance.values) >= places else MISSING
        if self.spawned(number)[0] == "bad":
            return POISON
        instance = next((each for each in self.instances(number) if each.parameters == parameters), None)
        if instance is None:
            return MISSING
        outcome = self.outcome(number, instance)
        if outcome[0] == "fault":
            return POISON
        if outcome == MISSING and word == "hold" and instance.values:
            return ("value", instance.values[-1])
        return outcome

    # what spawn and eval clauses come to in this step, on demand

    def spawned(self, number):
        if number not in self.spawns:
            self.spawns[number] = self.spawn_now(number)
        return self.spawns[number]

    def spawn_now(self, number):
        clause = self.streams[number].spawn
        if clause is None or not self.is_active(clause.pacing, None):
            return ("idle",)
        try:
            if clause.when is not None and not self.evaluate(clause.when, ()):
                return ("idle",)
            parameters = tuple(self.evaluate(each, ()) for each in clause.with_)
        except NoValue as none:
            return ("idle",) if none.outcome == MISSING else ("bad", none.outcome)
        if any(each.parameters == parameters for each in self.living[number]):
            return ("idle",)
        return ("born", Instance(parameters, self.time))

    def instances(self, number):
        spawned = self.spawned(number)
        return self.living[number] + ([spawned[1]] if spawned[0] == "born" else [])

    def outcome(self, number, instance):
        key = (number, instance.parameters)
        if key not in self.outcomes:
            self.outcomes[key] = self.outcome_now(number, instance)
        return self.outcomes[key]

    def outcome_now(self, number, instance):
        stream = self.streams[number]
        if stream.eval is None:
            field = (self.fields or {}).get(stream.name)
            return MISSING if field is None else ("value", field)
        if self.spawned(number)[0] == "bad" or not self.is_active(stream.eval.pacing, instance.born):
            return MISSING
        try:
            if stream.eval.when is not None and not self.evaluate(stream.eval.when, instance.parameters):
                return MISSING
            return ("value", self.evaluate(stream.eval.with_[0], instance.parameters))
        except NoValue as none:
            return none.outcome

    # steps

    def fail_where_faulty(self, outcomes_of):
        for number, stream in enumerate(self.streams):
            kinds = [outcome[1] for outcome in outcomes_of(number) if outcome[0] == "fault"]
            if kinds:
                raise Fault(stream.name, min(kinds), self.time)

    def own_outcomes(self, number):
        spawned = self.spawned(number)
        if spawned[0] == "bad" and spawned[1][0] == "fault":
            return [spawned[1]]
        return [self.outcome(number, instance) for instance in self.instances(number)]

    def condition(self, number, instance):
        clause = self.streams[number].close
        if clause is None or not self.is_active(clause.pacing, instance.born):
            return MISSING
        try:
            return ("value", self.evaluate(clause.when, instance.parameters))
        except NoValue as none:
            return none.outcome

    def step(self, time, fields):
        self.time, self.fields, self.spawns, self.outcomes = time, fields, {}, {}
        self.fail_where_faulty(self.own_outcomes)
        conditions = [[self.condition(number, each) for each in self.instances(number)] for number in range(len(self.streams))]
        self.fail_where_faulty(lambda number: conditions[number])
        self.steps += 1
        for number, stream in enumerate(self.streams):
            instances = self.instances(number)
            for instance in instances:
                outcome = self.outcome(number, instance)
                if outcome[0] == "value":
                    instance.values.append(outcome[1])
                    if stream.eval is not None:
                        arguments = f"({','.join(map(str, instance.parameters))})" if instance.parameters else ""
                        self.lines.append(f"{shown_time(time)} {stream.name}{arguments} = {outcome[1]}")
            self.living[number] = [each for each, condition in zip(instances, conditions[number]) if condition != ("value", True)]

    def run_deadlines(self, passed, limit):
        """Runs the deadlines above one moment and below another, and answers the last moment that is passed then."""
        while (due := self.next_deadline(passed)) is not None and due < limit:
            self.step(due, None)
            passed = due
        return passed

    def take(self, rows):
        """Takes rows, behind those taken before, and leaves the deadlines at the last stamp."""
        for stamp, fields in rows:
            if stamp < self.merged:
                self.late += 1
                continue
            if self.passed is None:
                self.start = stamp if self.given_start is None else self.given_start
                self.passed = self.start
            self.accepted, self.merged = self.accepted + 1, stamp
            self.passed = max(self.run_deadlines(self.passed, stamp), stamp - 1)
            self.step(stamp, fields)

    def over(self, rows):
        """The lines of a run over rows, and its last line."""
        try:
            self.take(rows)
            if self.passed is not None:
                self.run_deadlines(self.passed, self.merged + 1)
        except Fault as fault:
            name, (number, kind), time = fault.args
            return self.lines, f"= fault {name} {number} {kind} at {shown_time(time)}"
        return self.lines, f"= done accepted {self.accepted} late {self.late} steps {self.steps} lines {len(self.lines)}"


def shown_time(time):
    return f"{time // NANOSECONDS}.{time % NANOSECONDS:09d}"
