"""The verified dispatcher for programs in Python: include/benchplan.h by ctypes, with the standard library alone.

    import benchplan
    plan = benchplan.read(open("examples/plan-a.txt", "rb").read())
    print(plan.bound().response)
    state, begin = plan.start()
    state, begin = state.tick({0})

For a text without C lines, `benchplan.read(text).propose()` is the plan with an order. A refusal is the exception Refused, with `number`,
`place` and the user guide's sentence. Plans and states never change: a refused tick leaves the caller with the state that it had. Build the
shared object with ./build-library. Where it is not in this checkout's target/lib, the environment variable BENCHPLAN_LIBRARY is its path.
"""
import ctypes
import operator
import os
import pathlib
from collections import namedtuple
from ctypes import POINTER, byref, c_bool, c_int64, c_size_t, c_uint8, c_uint32, c_uint64

VERSION = 800
TASKS = 64
TIMETABLE_MOST = 1456
ANSWER_MOST = 1456

SENTENCES = {
    1: "the text has more than 32,768 bytes",
    2: "not one of the six line forms",
    3: "a number out of range: type above 7, count 0 or above 8, task above 63, time or deadline 0 or above 1,000,000, not-before instant above 1,000,000",
    4: "worst below best, or an arrow from a task to itself",
    5: "a kind of line after a later kind",
    6: "a U type that is not the next, a T type without U line, an A, D, N or C task without T line",
    7: "a pair of task and type, an arrow, or the D, N or C line of a task for the second time",
    8: "the plan breaks a rule",
    9: "the order does not name every task once",
    10: "a task is to run on a type that it cannot use, or that the plan does not have",
    11: "a task stands before one that it waits for",
    12: "the state is not one that start and tick make; among others its instant is above 65,000,000, or is that with a task unfinished, or a task has started before its not-before instant",
    13: "all tasks are finished",
    14: "a reported task is not running",
    16: "a running task is not reported and has now run its worst time",
    17: "the count of times is not the number of tasks",
    18: "a time is 0 or above the worst of the chosen type",
    19: "a lent buffer is too short",
    20: "a schedule does not have one record for each task",
    21: "a record has a type that its task cannot use or that the plan does not have, or its finish is not its start plus the worst time",
    22: "a record starts before a task that it waits for has finished, before its not-before instant, or when all units of its type are held",
    23: "the arrows lead from a task back to itself",
}


class Refused(Exception):
    """A refusal: its number, its place, and the user guide's sentence for the number."""

    def __init__(self, number, place):
        super().__init__(number, place)
        self.number, self.place, self.sentence = number, place, SENTENCES[number]

    def __str__(self):
        return f"refused {self.number} at {self.place}: {self.sentence}"


# The structs of benchplan.h, field by field.


class _Plan(ctypes.Structure):
    _fields_ = [("words", c_uint64 * 646)]


class _Constraint(ctypes.Structure):
    _fields_ = [("length", c_size_t), ("task", c_size_t * TASKS), ("unit_type", c_size_t * TASKS)]


class _State(ctypes.Structure):
    _fields_ = [("words", c_uint64 * 842)]


_VERDICT = [("number", c_uint32), ("place", c_size_t)]


class _Text(ctypes.Structure):
    _fields_ = _VERDICT + [("plan", _Plan), ("constraint", _Constraint)]


class _Verdict(ctypes.Structure):
    _fields_ = _VERDICT


class _Run(ctypes.Structure):
    _fields_ = _VERDICT + [("response", c_uint32), ("starts", c_uint32 * TASKS), ("finishes", c_uint32 * TASKS)]


class _Written(ctypes.Structure):
    _fields_ = _VERDICT + [("written", c_size_t)]


class _Slacks(ctypes.Structure):
    _fields_ = _VERDICT + [("any", c_bool), ("least", c_int64), ("task", c_size_t), ("slacks", c_int64 * TASKS)]


class _Ticked(ctypes.Structure):
    _fields_ = _VERDICT + [("started", c_uint64), ("state", _State)]


class _Record(ctypes.Structure):
    _fields_ = [("task", c_uint32), ("unit_type", c_uint32), ("start", c_uint32), ("finish", c_uint32)]


class _Adoption(ctypes.Structure):
    _fields_ = _VERDICT + [("constraint", _Constraint)]


class _Proposal(ctypes.Structure):
    _fields_ = _VERDICT + [("constraint", _Constraint)]


_BYTES = [POINTER(c_uint8), c_size_t]
_TIMES = [POINTER(c_uint32), c_size_t]
_SETS = [POINTER(c_uint64), c_size_t]
_PLACES = [POINTER(c_size_t), c_size_t]
_RECORDS = [POINTER(_Record), c_size_t]
_PLAN = [_Plan, _Constraint]
_CALLS = {
    "bench_read": (_Text, _BYTES),
    "bench_check": (_Verdict, _PLAN),
    "bench_simulate": (_Run, _PLAN + _TIMES),
    "bench_bound": (_Run, _PLAN),
    "bench_timetable": (_Written, _PLAN + _TIMES + _BYTES),
    "bench_worst_timetable": (_Written, _PLAN + _BYTES),
    "bench_margins": (_Slacks, _PLAN),
    "bench_adopt": (_Adoption, [_Plan] + _RECORDS),
    "bench_propose": (_Proposal, [_Plan]),
    "bench_start": (_Ticked, _PLAN),
    "bench_tick": (_Ticked, [_State, c_uint64]),
    "bench_replay": (_Ticked, _PLAN + _SETS + _TIMES + _PLACES + _SETS),
    "bench_answer": (c_size_t, _BYTES + [POINTER(c_uint8 * ANSWER_MOST)]),
}


def _load():
    """The shared object of this module's version: structs may differ from one version to the next, and the version is in its name."""
    here = pathlib.Path(__file__).resolve().parent
    path = pathlib.Path(os.environ.get("BENCHPLAN_LIBRARY") or here / f"../../target/lib/libbenchplan.so.{VERSION}").resolve()
    if not path.exists():
        raise ImportError(f"{path} is not there: ./build-library builds it, or set BENCHPLAN_LIBRARY to its path")
    if path.suffix != f".{VERSION}":
        raise ImportError(f"{path} is not version {VERSION} of the library: its name must end in .so.{VERSION}")
    library = ctypes.CDLL(str(path))
    for name, (reply, arguments) in _CALLS.items():
        call = getattr(library, name)
        call.restype, call.argtypes = reply, arguments
    return library


_library = _load()


def _accepted(reply):
    if reply.number:
        raise Refused(reply.number, reply.place)
    return reply


def _lent(kind, values):
    """An array with its length, as the library takes them; never NULL."""
    return (kind * max(1, len(values)))(*values), len(values)


def _lent_text(text):
    """The same for bytes."""
    text = bytes(memoryview(text))
    return (c_uint8 * (len(text) + 1)).from_buffer_copy(text + b"\0"), len(text)


def _lent_times(times):
    """The same for times. One that does not fit 32 bits goes to the nearest end of them, where 18 refuses it, too."""
    return _lent(c_uint32, [min(max(time, 0), 0xFFFFFFFF) for time in times])


def _lent_records(records):
    """The same for records of a schedule. No number is cut off: one that does not fit 32 bits does not reach the library."""
    lent = []
    for record in records:
        try:
            lent.append(Record(*map(operator.index, record)))
        except TypeError:
            raise TypeError(f"not a record of four whole numbers: {record!r}") from None
        if not all(0 <= number <= 0xFFFFFFFF for number in lent[-1]):
            raise ValueError(f"a number is not from 0 to {0xFFFFFFFF}: {lent[-1]}")
    return _lent(_Record, lent)


def _set_of(tasks):
    """Tasks as a word, bit t for task t."""
    word = 0
    for task in tasks:
        if not 0 <= task < TASKS:
            raise ValueError(f"no task has the number {task}")
        word |= 1 << task
    return word


def _tasks_of(word):
    return frozenset(task for task in range(word.bit_length()) if word >> task & 1)


Run = namedtuple("Run", "response starts finishes")
Margins = namedtuple("Margins", "any least task slacks")
Record = namedtuple("Record", "task unit_type start finish")
Ticked = namedtuple("Ticked", "number place started")
Replayed = namedtuple("Replayed", "started ticks state")


def read(text):
    """The plan of a text (bytes), with its constraint; 1 to 7."""
    reply = _accepted(_library.bench_read(*_lent_text(text)))
    return Plan(reply.plan, reply.constraint)


def answer(text):
    """The bytes that ./benchplan prints for a text (bytes): its timetable of worst times, or the line of its refusal."""
    buffer = (c_uint8 * ANSWER_MOST)()
    written = _library.bench_answer(*_lent_text(text), byref(buffer))
    return bytes(buffer[:written])


class Plan:
    """A plan with its constraint, as `read`, `adopt` and `propose` give it. Every call but `adopt` and `propose` may refuse with 8 to 11, as
    `check` does."""

    def __init__(self, plan, constraint):
        self._plan, self._constraint = plan, constraint

    @property
    def order(self):
        """The task and the type of each C line, in their order."""
        c = self._constraint
        return list(zip(c.task, c.unit_type))[: c.length]

    def check(self):
        """Nothing, or 8 to 11."""
        _accepted(_library.bench_check(self._plan, self._constraint))

    def simulate(self, times):
        """The run with these times, one for each task, by task number; 17, 18."""
        return _run(_library.bench_simulate(self._plan, self._constraint, *_lent_times(times)))

    def bound(self):
        """The run with worst times: its response is the bound."""
        return _run(_library.bench_bound(self._plan, self._constraint))

    def timetable(self, times, room=TIMETABLE_MOST):
        """The timetable (bytes) of the run with these times; 17, 18, and 19 if it needs more than `room` bytes."""
        buffer, length = _lent_text(bytes(room))
        call = _library.bench_timetable
        return _written(call(self._plan, self._constraint, *_lent_times(times), buffer, length), buffer)

    def worst_timetable(self, room=TIMETABLE_MOST):
        """The timetable (bytes) of the run with worst times; 19 if it needs more than `room` bytes."""
        buffer, length = _lent_text(bytes(room))
        return _written(_library.bench_worst_timetable(self._plan, self._constraint, buffer, length), buffer)

    def margins(self):
        """What is to spare of each deadline with worst times, by task number; the least, and its task, if `any` task has a deadline."""
        reply = _accepted(_library.bench_margins(self._plan, self._constraint))
        return Margins(reply.any, reply.least, reply.task, list(reply.slacks))

    def adopt(self, records):
        """The same plan with the order of a schedule that was worked out elsewhere: for each task one record of task, type, start and finish, four
        whole numbers from 0 to 4294967295 (ValueError); 20, 21, 22, and no other but 8. The check takes the plan that comes back, and its bound
        is at most the records' greatest finish."""
        reply = _accepted(_library.bench_adopt(self._plan, *_lent_records(records)))
        return Plan(self._plan, reply.constraint)

    def propose(self):
        """The same plan with an order that the library works out itself, from the plan alone: the C lines of its text play no part, and there need be
        none; 23, and no other but 8. The check takes the plan that comes back, and its bound is at most the greatest finish of the schedule from
        which the order comes."""
        reply = _accepted(_library.bench_propose(self._plan))
        return Plan(self._plan, reply.constraint)

    def start(self):
        """The state at instant 0, and the set of tasks to begin, which is empty if the first waits for its not-before instant: tick on."""
        reply = _accepted(_library.bench_start(self._plan, self._constraint))
        return State(reply.state), _tasks_of(reply.started)

    def replay(self, reports):
        """Start and a tick for each report: the tasks that start began, what each tick answered, and the last state."""
        words, count = _lent(c_uint64, [_set_of(report) for report in reports])
        numbers, places, sets = (_lent(kind, [0] * count) for kind in (c_uint32, c_size_t, c_uint64))
        call = _library.bench_replay
        reply = _accepted(call(self._plan, self._constraint, words, count, *numbers, *places, *sets))
        ticks = zip(numbers[0][:count], places[0][:count], map(_tasks_of, sets[0][:count]))
        return Replayed(_tasks_of(reply.started), [Ticked(*tick) for tick in ticks], State(reply.state))


class State:
    """A run state, as `start` and `tick` give it."""

    def __init__(self, state):
        self._state = state

    def tick(self, report):
        """The state one instant on, with the reported tasks finished, and the set of tasks to begin; the first of 12, 13, 16, 14 that applies.
        The set may be empty while nothing runs, if the next task waits for its not-before instant: tick on."""
        reply = _accepted(_library.bench_tick(self._state, _set_of(report)))
        return State(reply.state), _tasks_of(reply.started)


def _run(reply):
    _accepted(reply)
    return Run(reply.response, list(reply.starts), list(reply.finishes))


def _written(reply, buffer):
    return bytes(buffer[: _accepted(reply).written])
