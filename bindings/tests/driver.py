"""The driver's protocol (crates/driver/src/main.rt) through the Python module. For each session NAME.in that is named, the answers go to
NAME.python. Use: driver.py NAME.in ..
"""
import ctypes
import pathlib
import re
import sys
from ctypes import c_size_t, c_uint32, c_uint64
from itertools import chain

import benchplan
from benchplan import TASKS, Refused

TYPES = 8
PAIRS = TASKS * TYPES
LINE_TOO_LONG, MOST_TIMES, LONGEST_LIST, MOST_ROOM, MOST_RECORDS = 1024, 80, 79, 2000, 80


# What lies behind the words of plan, constraint and state, with each number as an array.


class PlanFields(ctypes.Structure):
    _fields_ = [
        ("types", c_size_t * 1),
        ("units", c_uint32 * TYPES),
        ("tasks", c_size_t * 1),
        ("best", c_uint32 * PAIRS),
        ("worst", c_uint32 * PAIRS),
        ("predecessors", c_uint64 * TASKS),
        ("deadlines", c_uint32 * TASKS),
        ("releases", c_uint32 * TASKS),
    ]


class ConstraintFields(ctypes.Structure):
    _fields_ = [("length", c_size_t * 1), ("task", c_size_t * TASKS), ("type", c_size_t * TASKS)]


class StateFields(ctypes.Structure):
    _fields_ = [
        ("plan", PlanFields),
        ("constraint", ConstraintFields),
        ("instant", c_uint32 * 1),
        ("started", c_size_t * 1),
        ("finished", c_uint64 * 1),
        ("starts", c_uint32 * TASKS),
        ("finishes", c_uint32 * TASKS),
    ]


PLAN_PARTS = {0: "types", 1: "units", 2: "tasks", 3: "best", 4: "worst", 5: "predecessors", 14: "deadlines", 15: "releases"}
CONSTRAINT_PARTS = {6: "length", 7: "task", 8: "type"}
STATE_PARTS = {9: "instant", 10: "started", 11: "finished", 12: "starts", 13: "finishes"}


class Bad(Exception):
    """A line that is no command."""


def field(digits):
    if not re.fullmatch(rb"[0-9]{1,20}", digits) or int(digits) >= 2**64:
        raise Bad
    return int(digits)


def tasks_of(word):
    return {task for task in range(TASKS) if word >> task & 1}


def set_of(tasks):
    return sum(1 << task for task in tasks)


def each(starts, finishes):
    return chain.from_iterable(zip(starts, finishes))


def times_of(values):
    if any(value >= 2**32 for value in values):
        raise Bad
    return values


def array_of(part, plan, constraint, state=None):
    """The array of a part of plan, constraint or state."""
    for parts, holder in (PLAN_PARTS, plan), (CONSTRAINT_PARTS, constraint), (STATE_PARTS, state):
        if part in parts and holder is not None:
            return getattr(holder, parts[part])
    raise Bad


def put(array, index, value):
    if index >= len(array) or array._type_ is c_uint32 and value >= 2**32:
        raise Bad
    array[index] = value


class Session:
    """What is kept, and the lines that were answered."""

    def __init__(self, text):
        self.lines, self.records = [], []
        self.plan = benchplan.Plan(benchplan._Plan(), benchplan._Constraint())
        self.state = benchplan.State(benchplan._State())
        self.answer("read", lambda: self.keep(benchplan.read(text)), 0)

    def keep(self, plan):
        self.plan = plan
        return ()

    def fields(self):
        return PlanFields.from_buffer(self.plan._plan), ConstraintFields.from_buffer(self.plan._constraint)

    def state_fields(self):
        return StateFields.from_buffer(self.state._state)

    def say(self, word, *numbers):
        self.lines.append("\t".join([word, *map(str, numbers)]).encode())

    def answer(self, word, call, zeros):
        """A line for a call: accepted, or its refusal, number and place, and zeros."""
        try:
            self.say(word, 0, 0, *call())
            return True
        except Refused as refusal:
            self.say(word, refusal.number, refusal.place, *[0] * zeros)
            return False

    def command(self, line):
        letter, *fields = line.split(b"\t")
        try:
            if len(line) >= LINE_TOO_LONG or letter not in COMMANDS:
                raise Bad
            count, do = COMMANDS[letter]
            values = [field(digits) for digits in fields]
            if len(values) not in count:
                raise Bad
            do(self, *values)
        except Bad:
            self.say("bad")

    def check(self):
        self.answer("check", lambda: self.plan.check() or (), 0)

    def bound(self):
        self.answer("bound", lambda: [self.plan.bound().response], 1)

    def simulate(self, *times):
        times_of(times)

        def call():
            run = self.plan.simulate(times)
            return run.response, *each(run.starts, run.finishes)

        self.answer("simulate", call, 1 + 2 * TASKS)

    def margins(self):
        def call():
            margins = self.plan.margins()
            return int(margins.any), margins.least, margins.task, *margins.slacks

        self.answer("margins", call, 3 + TASKS)

    def keep_state(self, state, started):
        self.state = state
        return [set_of(started)]

    def start(self):
        if not self.answer("start", lambda: self.keep_state(*self.plan.start()), 1):
            self.state = benchplan.State(benchplan._State())

    def tick(self, report):
        self.answer("tick", lambda: self.keep_state(*self.state.tick(tasks_of(report))), 1)

    def query(self):
        s = self.state_fields()
        self.say("state", *s.instant, *s.started, *s.finished, *each(s.starts, s.finishes))

    def timetable(self, room, *times):
        times_of(times)
        self.table(room, lambda: self.plan.timetable(times, room))

    def worst_timetable(self, room):
        self.table(room, lambda: self.plan.worst_timetable(room))

    def table(self, room, call):
        if room > MOST_ROOM:
            raise Bad
        written = []
        self.answer("timetable", lambda: written.append(call()) or [len(written[0])], 1)
        self.lines.append(b"".join(written).ljust(room, b"#"))

    def replay(self, *reports):
        def call():
            replayed = self.plan.replay(map(tasks_of, reports))
            ticks = ((tick.number, tick.place, set_of(tick.started)) for tick in replayed.ticks)
            return set_of(replayed.started), *chain.from_iterable(ticks)

        self.answer("replay", call, 1)

    def put_record(self, *record):
        if len(self.records) == MOST_RECORDS:
            raise Bad
        self.records.append(times_of(record))
        self.say("put")

    def order(self, word, call):
        """The order of the plan that a call gives, which is kept."""

        def constraint():
            self.plan = call()
            c = self.fields()[1]
            return *c.length, *each(c.task, c.type)

        self.answer(word, constraint, 1 + 2 * TASKS)

    def adopt(self):
        self.order("adopt", lambda: self.plan.adopt(self.records))
        self.records = []

    def propose(self):
        self.order("propose", self.plan.propose)

    def put_plan(self, part, index, value):
        put(array_of(part, *self.fields()), index, value)
        self.say("put")

    def put_state(self, part, index, value):
        s = self.state_fields()
        put(array_of(part, s.plan, s.constraint, s), index, value)
        self.say("put")


# How many fields a command may have, and what it does.
COMMANDS = {
    b"K": ([0], Session.check),
    b"B": ([0], Session.bound),
    b"M": (range(MOST_TIMES + 1), Session.simulate),
    b"D": ([0], Session.margins),
    b"S": ([0], Session.start),
    b"T": ([1], Session.tick),
    b"Q": ([0], Session.query),
    b"W": ([1], Session.worst_timetable),
    b"Y": (range(1, LONGEST_LIST + 2), Session.timetable),
    b"Z": (range(LONGEST_LIST + 1), Session.replay),
    b"E": ([4], Session.put_record),
    b"L": ([0], Session.adopt),
    b"H": ([0], Session.propose),
    b"P": ([3], Session.put_plan),
    b"R": ([3], Session.put_state),
}


def answers_to(session):
    head, _, rest = session.partition(b"\n")
    try:
        count = field(head)
    except Bad:
        return [b"bad"]
    kept = Session(rest[:count])
    lines = rest[count:].split(b"\n")
    for line in lines if lines[-1] else lines[:-1]:
        kept.command(line)
    return kept.lines


for name in map(pathlib.Path, sys.argv[1:]):
    name.with_suffix(".python").write_bytes(b"\n".join(answers_to(name.read_bytes())) + b"\n")
