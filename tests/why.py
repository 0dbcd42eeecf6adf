"""Random plans: what `show why` prints is held against a look at the run of worst times (plans.py). Use: why.py SEED COUNT."""
import random
import sys
from collections import Counter
from dataclasses import replace

from plans import LATEST_RELEASE, MOST_TASKS, plan_of, random_plan, row_of_tasks, text_of, worst_run
from programs import Wrong, examples, fail, hold, numbered, run, same_lines, stop

# What a long test must have met.
CASES = ["nothing", "task", "tasks", "the unit", "both units", "all units", "several freed", "order", "order alone", "link by order", "several last"]
CASES += ["N line alone", "N line and task", "N line and unit", "N line and order", "N line of 0", "N line that has come", "chain from an N line"]
CASES += ["chain from an N line, first link idle", "chain from an N line, past the order", "link past an N line"]


class Look:
    """A plan's run, and what held each task one instant before its start."""

    def __init__(self, plan):
        self.plan = plan
        self.starts, self.finishes = worst_run(plan)
        self.response = max(self.finishes.values())
        self.seen = Counter()
        digits = len(str(self.response))
        self.widths = [max(len(head), digits) for head in ("start", "finish", "adds")]

    def awaited(self, task):
        """The tasks it waits for that were not finished one instant before."""
        return {u for u in self.plan.waits[task] if self.finishes[u] > self.starts[task] - 1}

    def freeing(self, task):
        """If every unit of its type was taken one instant before: the tasks that had one and have it no longer."""
        start, kind = self.starts[task], self.plan.chosen[task]
        users = [u for u in self.plan.order if self.plan.chosen[u] == kind]
        taken = {u for u in users if self.starts[u] <= start - 1 < self.finishes[u]}
        return {u for u in taken if self.finishes[u] <= start} if len(taken) == self.plan.units[kind] else set()

    def released(self, task):
        """Whether its not-before instant had not come one instant before."""
        return self.plan.release(task) > self.starts[task] - 1

    def behind(self, task):
        """The task just before it in the order, if that had not started one instant before."""
        k = self.plan.order.index(task)
        before = set(self.plan.order[k - 1 : k])
        return {u for u in before if self.starts[u] > self.starts[task] - 1}

    def reasons(self, task):
        awaited, freeing, released, behind = self.awaited(task), self.freeing(task), self.released(task), self.behind(task)
        kind = self.plan.chosen[task]
        units = self.plan.units[kind]
        if self.starts[task] == 0:
            self.seen["nothing"] += 1
            return "nothing"
        reasons = []
        if awaited:
            reasons.append(f"{numbered('task', awaited)}, which it waits for")
        if freeing and units == 1:
            reasons.append(f"the unit of type {kind}, which {numbered('task', freeing)} had")
        elif freeing:
            every = "both" if units == 2 else f"all {units}"
            reasons.append(f"{every} units of type {kind}, taken until {numbered('task', freeing)} finished")
        if released:
            reasons.append(f"its N line: not before {self.plan.release(task)}")
        if behind:
            reasons.append(f"the order: {numbered('task', behind)}, just before it, starts only then")
        self.note(awaited, freeing, behind, units)
        self.note_release(task, awaited, freeing, released, behind)
        return "; ".join(reasons)

    def note_release(self, task, awaited, freeing, released, behind):
        self.seen["order alone"] += bool(behind) and not (awaited or freeing or released)
        self.seen["N line alone"] += released and not (awaited or freeing or behind)
        self.seen["N line and task"] += released and bool(awaited)
        self.seen["N line and unit"] += released and bool(freeing)
        self.seen["N line and order"] += released and bool(behind)
        self.seen["N line of 0"] += self.plan.releases.get(task) == 0
        self.seen["N line that has come"] += 0 < self.plan.release(task) < self.starts[task]

    def note(self, awaited, freeing, behind, units):
        self.seen["task"] += len(awaited) == 1
        self.seen["tasks"] += len(awaited) > 1
        self.seen["the unit"] += units == 1 and len(freeing) > 0
        self.seen["both units"] += units == 2 and len(freeing) > 0
        self.seen["all units"] += units > 2 and len(freeing) > 0
        self.seen["several freed"] += len(freeing) > 1
        self.seen["order"] += len(behind) > 0

    def chain(self):
        """From the first task in the order that finishes last back to a start at 0, or to a not-before instant that held a task: of each link
        its task, start, finish, what it adds to R, and how it hangs on the one before."""
        task = next(t for t in self.plan.order if self.finishes[t] == self.response)
        adds, links = self.finishes[task] - self.starts[task], []
        while not self.begins(task):
            cause, words, is_idle = self.cause(task)
            links.insert(0, (task, self.starts[task], self.finishes[task], adds, words))
            self.seen["link by order"] += is_idle
            self.seen["link past an N line"] += self.released(task)
            adds = 0 if is_idle else self.finishes[cause] - self.starts[cause]
            task = cause
        return [*self.first_links(task, adds), *links]

    def begins(self, task):
        """Whether a chain begins with a task: it starts at 0, or its not-before instant and no finish of another task held it."""
        is_held = self.awaited(task) or self.freeing(task)
        return self.starts[task] == 0 or self.released(task) and not is_held

    def first_links(self, task, adds):
        """The link of the task with which the chain begins, and before it the time until its not-before instant, if that held it."""
        start, finish = self.starts[task], self.finishes[task]
        if start == 0:
            return [(task, start, finish, adds, "starts at once")]
        self.seen["chain from an N line"] += 1
        self.seen["chain from an N line, first link idle"] += adds == 0
        self.seen["chain from an N line, past the order"] += bool(self.behind(task))
        until = "N", 0, start, start, f"task {task} may not start before {start}"
        return [until, (task, start, finish, adds, "starts at its not-before instant")]

    def cause(self, task):
        """The task before it in the chain, the words for that, and whether the two only start together."""
        awaited, freeing = self.awaited(task), self.freeing(task)
        held = awaited or freeing or self.behind(task)
        hold(held, f"the test found nothing that held task {task}")
        cause = next(t for t in self.plan.order if t in held)
        if awaited:
            return cause, f"waits for task {cause}", False
        if freeing:
            kind = self.plan.chosen[task]
            unit = "the unit" if self.plan.units[kind] == 1 else "a unit"
            return cause, f"gets {unit} of type {kind} from task {cause}", False
        return cause, f"starts with task {cause}, which comes before it in the order", True

    def table(self):
        """The rows, a line for each task."""
        start, finish, _ = self.widths
        yield f"task  type  {'start':>{start}}  {'finish':>{finish}}  held until its start by"
        for t in self.plan.order:
            instants = f"{self.starts[t]:>{start}}  {self.finishes[t]:>{finish}}"
            yield f"{t:>4}  {self.plan.chosen[t]:>4}  {instants}  {self.reasons(t)}"

    def chain_table(self):
        """The line about R, and the chain with its sum."""
        start, finish, add = self.widths
        last = [t for t in self.plan.order if self.finishes[t] == self.response]
        makes = "it" if len(last) == 1 else f"task {last[0]} finish then"
        self.seen["several last"] += len(last) > 1
        yield f"R is {self.response}, the finish of {numbered('task', last)}. The chain of tasks that makes {makes}:"
        yield f"task  {'start':>{start}}  {'finish':>{finish}}  {'adds':>{add}}"
        for t, begin, end, adds, words in self.chain():
            yield f"{t:>4}  {begin:>{start}}  {end:>{finish}}  {adds:>{add}}  {words}"
        yield f"   R  {'':>{start}}  {'':>{finish}}  {self.response:>{add}}"


def chain_holds(printed, look):
    """By the printed numbers alone: the chain starts at 0, each link begins where the one before ends or begins, and the sum is R."""
    rows = [list(map(int, line.split()[1:4])) for line in printed[len(look.plan.order) + 4 : -1]]
    hold(rows[0][0] == 0 and rows[-1][1] == look.response, "the chain does not lead from 0 to R")
    hold(sum(adds for *_, adds in rows) == look.response, "the sum of what the links add is not R")
    for k, ((start, _, adds), (later, *_)) in enumerate(zip(rows, rows[1:]), 2):
        hold(start + adds == later, f"link {k} of the chain does not start where the link before it leads")


def check(text, seen):
    look = Look(plan_of(text))
    printed = run("show", "why", text=text).decode(errors="replace").split("\n")
    same_lines(printed, [*look.table(), "", *look.chain_table(), ""])
    chain_holds(printed[:-1], look)
    seen.update(look.seen)
    return look.response


def fixed():
    """Texts with a name, and the R that is known of some."""
    yield "64 tasks on one unit", text_of(row_of_tasks(MOST_TASKS, 1, 1_000_000)), 64_000_000
    yield "64 tasks on 8 units", text_of(row_of_tasks(MOST_TASKS, 8, 1_000_000)), 8_000_000
    yield "one task", text_of(row_of_tasks(1, 1, 1)), 1
    yield "one task on 8 units", text_of(row_of_tasks(1, 8, 1_000_000)), 1_000_000
    yield "one task, not before the latest instant", text_of(replace(row_of_tasks(1, 1, 1), releases={0: LATEST_RELEASE})), 1_000_001
    late = replace(row_of_tasks(MOST_TASKS, 1, 1_000_000), releases=dict.fromkeys(range(MOST_TASKS), LATEST_RELEASE))
    yield "64 tasks on one unit, not before the latest instant", text_of(late), 65_000_000
    two = replace(row_of_tasks(2, 2, 1), times={(0, 0): (1, 1), (1, 0): (1, 3)})
    yield "two tasks, the first not before 20", text_of(replace(two, releases={0: 20})), 23
    yield "two tasks, both not before 20", text_of(replace(two, releases={0: 20, 1: 20})), 23
    yield from ((*example, None) for example in examples())


def main(seed, count):
    seen, checked = Counter(), 0
    rng = random.Random(seed)
    drawn = ((f"seed {seed}, plan {k}", text_of(random_plan(rng), rng), None) for k in range(count))
    for source in fixed(), drawn:
        for case, text, known in source:
            try:
                response = check(text, seen)
                hold(known in (None, response), f"R is {response}, not {known}")
            except Wrong as wrong:
                stop("why", case, text, wrong)
            checked += 1
    missing = [case for case in CASES if not seen[case]]
    if count >= 100 and missing:
        fail("why", f"seed {seed}: no plan with {', '.join(missing)}")
    print(f"shown: {checked} tables of why as they should be")


main(*map(int, sys.argv[1:]))
