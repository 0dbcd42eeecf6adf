"""Orders that propose gives for random plans and the examples: they are the same whatever C lines the text has, and the plan with them is taken by
benchplan. Use: proposals.py SEED COUNT."""
import random
import sys
from dataclasses import replace

from plans import LATEST_RELEASE, LONGEST_TIME, MOST_TASKS, MOST_UNITS, plan_of, random_plan, row_of_tasks, text_of
from programs import TOP, Wrong, fail, hold, run, stop, with_proposal, without_order


def response(text):
    """R of a text, which must be taken."""
    lines = run("benchplan", text=text).splitlines()
    hold(lines and lines[-1].startswith(b"R\t"), f"benchplan gives {lines[-1:]}")
    return int(lines[-1].split()[1])


def other_orders(rng, text):
    """The plan without order, with a part of that of the text, with it backwards, and with the proposed one."""
    bare = without_order(text)
    lines = text.removeprefix(bare).splitlines(keepends=True)
    yield bare
    yield bare + b"".join(rng.sample(lines, len(lines) // 2))
    yield bare + b"".join(lines[::-1])
    yield with_proposal(text)


def check(text, rng):
    """Gives R of the text's own order, if it has one, and of the proposed one."""
    proposed = run("propose", text=text)
    for other in other_orders(rng, text):
        hold(run("propose", text=other) == proposed, f"the order in the text changes what is proposed:\n{other.decode()}")
        hold(run("show", "unproposed", text=other) == b"", "an order is proposed, and `show unproposed` says why not")
    new = with_proposal(text)
    plan = plan_of(new)
    hold(sorted(plan.order) == sorted(plan.waits), f"there is not one C line for each task: {plan.order}")
    return None if text == without_order(text) else response(text), response(new)


def fixed():
    """Texts with a name, and the R that is known of some. No example has a better order than the proposed one."""
    late = replace(row_of_tasks(MOST_TASKS, 1, LONGEST_TIME), releases=dict.fromkeys(range(MOST_TASKS), LATEST_RELEASE))
    yield "64 tasks on one unit, not before the latest instant", text_of(late), 65_000_000
    yield "64 tasks on 8 units", text_of(row_of_tasks(MOST_TASKS, MOST_UNITS, LONGEST_TIME)), 8_000_000
    full = row_of_tasks(MOST_TASKS, MOST_UNITS, 1)
    yield "every arrow", text_of(replace(full, waits={task: set(range(task)) for task in full.order})), 64
    yield "one task", text_of(row_of_tasks(1, 1, 1)), 1
    for path in sorted(TOP.glob("examples/*.txt")):
        yield path.name, path.read_bytes(), None


def main(seed, count):
    rng = random.Random(seed)
    drawn = ((f"seed {seed}, plan {k}", text_of(random_plan(rng), rng), None) for k in range(count))
    checked, shorter, longer = 0, 0, 0
    for source in fixed(), drawn:
        for case, text, known in source:
            try:
                own, proposed = check(text, rng)
                hold(known in (None, proposed), f"R is {proposed}, not {known}")
                hold(case.startswith("seed") or own is None or proposed <= own, f"R is {own}, and with the proposed order {proposed}")
            except Wrong as wrong:
                stop("proposals", case, text, wrong)
            checked += 1
            shorter += own is not None and proposed < own
            longer += own is not None and proposed > own
    if count >= 100 and not shorter:
        fail("proposals", f"seed {seed}: no proposed order has a lower R than the one in the text")
    print(f"shown: {checked} proposed orders taken; R is lower than with the order in the text for {shorter}, higher for {longer}")


main(*map(int, sys.argv[1:]))
