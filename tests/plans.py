"""Random bench plans, their text, and their run of worst times: by docs/RULES.md alone, not by the product's code."""
from dataclasses import dataclass, field, replace

MOST_TASKS, MOST_TYPES, MOST_UNITS, LONGEST_TIME, LATEST_RELEASE, MOST_BYTES = 64, 8, 8, 1_000_000, 1_000_000, 32_768


@dataclass
class Plan:
    """A plan and its constraint (rules 1.1 to 2.8)."""

    units: list  # how many, by type
    times: dict  # best and worst time, by task and type
    waits: dict  # the set of tasks that a task waits for, by task
    order: list  # the tasks
    chosen: dict  # the type, by task
    deadlines: dict = field(default_factory=dict)  # the instant, by task
    releases: dict = field(default_factory=dict)  # the not-before instant, by task; 0 may be written, too

    def worst(self, task):
        return self.times[task, self.chosen[task]][1]

    def release(self, task):
        return self.releases.get(task, 0)


def random_units(rng):
    types = rng.randint(1, rng.choice([1, 3, MOST_TYPES]))
    return [rng.choice([1, 1, 1, 2, 2, 3, rng.randint(1, MOST_UNITS)]) for _ in range(types)]


def random_times(rng, tasks, types, longest):
    """Each task can use some types. Times that are often the longest make many finishes fall together."""
    times = {}
    for task in range(tasks):
        for kind in rng.sample(range(types), rng.randint(1, types)):
            worst = rng.choice([longest, rng.randint(1, longest)])
            times[task, kind] = rng.randint(1, worst), worst
    return times


def random_waits(rng, order):
    """Arrows between some pairs of tasks, from the earlier in the order to the later."""
    density = rng.choice([0, 0.02, 0.1, 0.3, 0.8])
    return {task: {u for u in order[:k] if rng.random() < density} for k, task in enumerate(order)}


def with_releases(rng, plan):
    """The plan with not-before instants of some tasks: 0, their starts without them, one finish for all, any instant, or some of each."""
    starts, finishes = worst_run(plan)
    common, last = rng.choice(sorted(finishes.values())), max(finishes.values())
    some = rng.sample(plan.order, rng.choice([0, 0, 1, rng.randint(0, len(plan.order))]))
    sorts = rng.choice([[0], [1], [2], [2], [3], [0, 1, 2, 3]])
    drawn = {task: (0, starts[task], common, rng.randint(0, last))[rng.choice(sorts)] for task in some}
    return replace(plan, releases={task: min(instant, LATEST_RELEASE) for task, instant in drawn.items()})


def random_plan(rng, tasks=None):
    """A plan that is accepted, with so many tasks."""
    tasks = tasks or rng.choice([1, 2, 3, 5, 8, 13, 20, 40, rng.randint(1, MOST_TASKS), MOST_TASKS])
    units = random_units(rng)
    times = random_times(rng, tasks, len(units), rng.choice([1, 2, 3, 10, 100, LONGEST_TIME]))
    order = rng.sample(range(tasks), tasks)
    chosen = {task: rng.choice([kind for t, kind in times if t == task]) for task in order}
    due = rng.sample(range(tasks), rng.choice([0, 0, rng.randint(0, tasks)]))
    deadlines = {task: rng.randint(1, LONGEST_TIME) for task in due}
    return with_releases(rng, Plan(units, times, random_waits(rng, order), order, chosen, deadlines))


def row_of_tasks(tasks, units, time):
    """One type, and tasks without arrows that all take this time."""
    every = range(tasks)
    return Plan([units], {(t, 0): (1, time) for t in every}, {t: set() for t in every}, list(every), {t: 0 for t in every})


def text_of(plan, rng=None):
    """The plan text (rules 3.1 to 3.15). With rng the T, A, D and N lines stand in any order, which changes nothing."""
    kinds = [
        [("U", kind, count) for kind, count in enumerate(plan.units)],
        [("T", *pair, *plan.times[pair]) for pair in sorted(plan.times)],
        [("A", before, task) for task in sorted(plan.waits) for before in sorted(plan.waits[task])],
        [("D", task, plan.deadlines[task]) for task in sorted(plan.deadlines)],
        [("N", task, plan.releases[task]) for task in sorted(plan.releases)],
        [("C", task, plan.chosen[task]) for task in plan.order],
    ]
    for lines in kinds[1:5] if rng else []:
        rng.shuffle(lines)
    return "".join("\t".join(map(str, line)) + "\n" for lines in kinds for line in lines).encode()


def plan_of(text):
    """The plan of a text that is accepted."""
    plan = Plan([], {}, {}, [], {})
    for line in text.decode().splitlines():
        letter, *fields = line.split("\t")
        a, b, *times = map(int, fields)
        if letter == "U":
            plan.units.append(b)
        elif letter == "T":
            plan.times[a, b] = tuple(times)
            plan.waits.setdefault(a, set())
        elif letter == "A":
            plan.waits[b].add(a)
        elif letter == "D":
            plan.deadlines[a] = b
        elif letter == "N":
            plan.releases[a] = b
        else:
            plan.order.append(a)
            plan.chosen[a] = b
    return plan


def may_start(plan, task, finishes, at):
    """Whether its not-before instant has come, and rules 4.8 and 4.9 hold; the tasks that have started are those with a finish."""
    running = {t for t, finish in finishes.items() if finish > at}
    users = [t for t in running if plan.chosen[t] == plan.chosen[task]]
    is_free = len(users) < plan.units[plan.chosen[task]]
    return plan.release(task) <= at and plan.waits[task] <= finishes.keys() - running and is_free


def worst_run(plan):
    """The start and the finish of each task if every task takes its worst time (rules 4.3 to 4.7).

    The walk of an instant at which no task finishes and no not-before instant comes would start nothing, so the next instant is the
    next of these.
    """
    starts, finishes, at = {}, {}, 0
    waiting = list(plan.order)
    while waiting:
        while waiting and may_start(plan, waiting[0], finishes, at):
            task = waiting.pop(0)
            starts[task], finishes[task] = at, at + plan.worst(task)
        at = min(instant for instant in (*finishes.values(), *plan.releases.values()) if instant > at)
    return starts, finishes
