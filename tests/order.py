"""What the explanation of refusals 11 and 23 must be: the order, and the circle if the arrows lead in one; the circle alone. And what the advice
makes of the text."""
import re
from dataclasses import replace

from plans import plan_of
from programs import hold, numbered, opening, quoted, refusal, same_lines

CIRCLE = re.compile(r"(the|besides, other) arrows lead in a circle, so that no order is right: (\d+(?: → \d+)+)")
TURNED = "; or, if it should be the other way round, exchange the two numbers of the A line"
REMEDY = re.compile(rf"  move line (\d+) down, below line (\d+){TURNED}")
AGAINST = " (against the order)"
MARKED = re.compile(r"  line (\d+): .*" + re.escape(AGAINST))
QUOTED = re.compile(r"  line (\d+): A.*")


def has_circle(waits):
    """Takes away tasks that wait for none that is left, as long as there are such; what is left has a circle."""
    left = set(waits)
    while free := {task for task in left if not waits[task] & left}:
        left -= free
    return bool(left)


def way_round(waits, task):
    """How many arrows the shortest circle through a task has; 0 if it is on none."""
    reached, new, length = set(), {task}, 0
    while new := {a for b in new for a in waits[b]} - reached:
        reached |= new
        length += 1
        if task in new:
            return length
    return 0


def place_of(text, letter, *numbers):
    """The line of this letter with these first numbers."""
    front = "\t".join(map(str, (letter, *numbers))).encode() + b"\t"
    return next(k for k, line in enumerate(text.split(b"\n"), 1) if (line + b"\t").startswith(front))


def refused(plan):
    """The first position whose task waits for tasks that stand later, the task, and these."""
    for position, task in enumerate(plan.order):
        if later := plan.waits[task] - set(plan.order[:position]):
            return position, task, later


def first_lines(text, position, task, later):
    """What is said of the refused task, with its line and those of the tasks that stand later."""
    stand = "stands" if len(later) == 1 else "stand"
    yield f"{opening(11, position, text)}task {task} waits for {numbered('task', later)}, which {stand} later"
    yield quoted(text, place_of(text, "C", task))
    for other in sorted(later):
        yield quoted(text, place_of(text, "A", other, task))
        yield quoted(text, place_of(text, "C", other))


def remedy(text, task, later):
    last = max(place_of(text, "C", other) for other in later)
    return f"  move line {place_of(text, 'C', task)} down, below line {last}{TURNED}"


def counts(plan):
    """How many arrows go against the order, if it is more than one."""
    standing = {task: k for k, task in enumerate(plan.order)}
    arrows = [(a, b) for b in plan.waits for a in plan.waits[b]]
    against = sum(standing[b] < standing[a] for a, b in arrows)
    if against > 1:
        most = ": are their two numbers exchanged, or is the order reversed?" if 2 * against > len(arrows) else ""
        yield f"  in all {against} of {len(arrows)} arrows go against the order{most}"


def check_steps(plan, task, circle):
    """The tasks of the circle, the first one at its end, too; it is a shortest one through the refused task, if that is on one."""
    first, *others = circle
    names = " → ".join(map(str, circle))
    hold(others[-1] == first and len(set(others)) == len(others), f"this is no circle, or one with repetitions: {names}")
    for a, b in zip(circle, others):
        hold(a in plan.waits.get(b, ()), f"{a} → {b} is no arrow of the plan: {names}")
    hold(first == task or not way_round(plan.waits, task), f"task {task} is on a circle, and this one does not begin at it: {names}")
    hold(len(others) == way_round(plan.waits, first), f"there is a shorter circle through task {first} than {names}")


def arrow_lines(plan, text, circle):
    """The lines of the arrows of a circle; those against the order, if there is one, are marked."""
    standing = {task: k for k, task in enumerate(plan.order)}
    for a, b in zip(circle, circle[1:]):
        is_against = standing.get(b, 0) < standing.get(a, 0)
        yield quoted(text, place_of(text, "A", a, b), AGAINST if is_against else "")


def check_circle(plan, text, task, begin, printed):
    """The line with the circle, which begins so, the advice, and the arrows of the circle; gives its length."""
    is_begun = printed and printed[0].startswith(begin)
    found = CIRCLE.fullmatch(printed[0].removeprefix(begin)) if is_begun else None
    hold(found, f"the arrows lead in a circle, and what follows does not show it: {printed}")
    circle = list(map(int, found[2].split(" → ")))
    hold((found[1] == "the") == (circle[0] == task), f"the circle is that of the refused task, or another one: {printed[0]}")
    check_steps(plan, task, circle)
    advice = "two arrows out" if len(circle) == 3 else "arrows out, or exchange its two numbers"
    same_lines(printed[1:], [f"  take one of these {advice}:", *arrow_lines(plan, text, circle)])
    return len(circle) - 1


def joined(lines):
    return b"".join(line + b"\n" for line in lines)


def followed(text, explanation):
    """The text after the advice: a line moved, as the remedy says; without remedy, the arrows against the order taken out."""
    lines = text.split(b"\n")[:-1]
    if found := next(filter(None, map(REMEDY.fullmatch, explanation)), None):
        line, last = int(found[1]), int(found[2])
        return joined([*lines[: line - 1], *lines[line:last], lines[line - 1], *lines[last:]])
    marked = {int(found[1]) for found in map(MARKED.fullmatch, explanation) if found}
    hold(marked, "there is neither a line to move nor an arrow against the order")
    return joined(line for k, line in enumerate(lines, 1) if k not in marked)


def check_advice(text, explanation, position, task, later):
    """After the advice this task is refused no more, or waits for fewer that stand later. Other tasks may be refused in turn."""
    new = followed(text, explanation)
    is_moved = any(map(REMEDY.fullmatch, explanation))
    only = joined(line for line in new.split(b"\n")[:-1] if line[:1] != b"A" or line.endswith(b"\t%d" % task))
    given = refusal(only)
    is_less = len(later) > 1 and given == (11, position) and refused(plan_of(only))[2] < later
    hold(given == (0, 0) or not is_moved and is_less, f"the advice is followed, and of the arrows to task {task} benchplan gives {given}")


def check(text, position, explanation):
    """All lines of the explanation; gives the length of the circle, 0 if there is none, and whether the refused task is on it."""
    plan = plan_of(text)
    due, task, later = refused(plan)
    hold(position == due, f"benchplan gives 11 at place {position}, not {due}")
    is_on_circle = way_round(plan.waits, task) > 0
    wanted = [*first_lines(text, position, task, later), *([] if is_on_circle else [remedy(text, task, later)]), *counts(plan)]
    same_lines(explanation[: len(wanted)], wanted)
    rest = explanation[len(wanted) :]
    check_advice(text, explanation, position, task, later)
    if has_circle(plan.waits):
        return check_circle(plan, text, task, "  ", rest), is_on_circle
    hold(not rest, f"the arrows lead in no circle, and {rest} follows")
    return 0, False


def check_unproposed(text, explanation):
    """All lines of the explanation of refusal 23: a circle of the lowest task that is on one, and no word of the order; gives its length."""
    plan = replace(plan_of(text), order=[])
    hold(has_circle(plan.waits), f"the arrows lead in no circle, and {explanation} is said")
    lowest = min(task for task in plan.waits if way_round(plan.waits, task))
    return check_circle(plan, text, lowest, opening(23, 0, text), explanation)


def without_arrow(text, explanation, rng):
    """The text after the advice of refusal 23: one of the quoted arrows is taken out."""
    places = [int(found[1]) for found in map(QUOTED.fullmatch, explanation) if found]
    hold(places, "no arrow is quoted")
    out = rng.choice(places)
    return joined(line for k, line in enumerate(text.split(b"\n")[:-1], 1) if k != out)
