"""Random texts that are read but refused with 11: arrows that lead in circles, or an order that is wrong. What `show explain` says of the order and
of a circle must be true, and its advice must lead to a text that is taken. So with `propose` and `show unproposed`: 23 and a circle wherever there
is one, whatever the order, and an order if not. Use: circles.py SEED COUNT."""
import random
import sys
from collections import Counter
from dataclasses import replace

import order
from plans import MOST_TASKS, random_plan, text_of
from programs import Wrong, fail, hold, refusal, run, stop, with_proposal, without_order

# Plans with so many tasks at most are followed until they are taken.
MOST_FOLLOWED = 12
MOST_STEPS = 500


def ring(tasks):
    """The arrows from each task to the next and from the last to the first."""
    return set(zip(tasks, [*tasks[1:], tasks[0]]))


def forward(rng, tasks, density):
    """Some arrows along a list of tasks: they lead in no circle."""
    return {(a, b) for k, b in enumerate(tasks) for a in tasks[:k] if rng.random() < density}


def lone_circle(rng, order, length):
    """One circle, with arrows to it and from it; no other circle, so no shorter way round."""
    tasks = rng.sample(order, len(order))
    members, rest = tasks[:length], tasks[length:]
    cut = rng.randint(0, len(rest))
    density = rng.choice([0.02, 0.1, 0.5])
    tails = forward(rng, rest[:cut] + members + rest[cut:], density) - {(a, b) for a in members for b in members}
    return ring(members) | tails, order


def circle_apart(rng, order, length):
    """A circle, and before it in the order a task that is on none and waits for the last task of the order."""
    early, *others, late = order
    arrows = lone_circle(rng, others, min(length, len(others)))[0] if len(others) > 1 else set()
    tail = {(early, task) for task in others if rng.random() < 0.1}
    return arrows | tail | {(late, early)}, order


def several_circles(rng, order, length):
    """Circles that may touch or cross, and arrows between them."""
    arrows = forward(rng, rng.sample(order, len(order)), rng.choice([0, 0.02, 0.1]))
    for _ in range(rng.randint(2, 4)):
        arrows |= ring(rng.sample(order, rng.randint(2, length)))
    return arrows, order


def no_circle(rng, order, _):
    """Arrows in no circle; the first task of the order has a predecessor."""
    arrows = forward(rng, order, rng.choice([0.02, 0.1, 0.5])) | {(order[0], order[-1])}
    return arrows, [order[-1], *rng.sample(order[:-1], len(order) - 1)]


SHAPES = [lone_circle, circle_apart, several_circles, no_circle]


def random_case(rng, k):
    """The shapes in turn, and the lengths 2 to 64 in turn, each in a plan with at least so many tasks."""
    length = 2 + k // len(SHAPES) % (MOST_TASKS - 1)
    plan = random_plan(rng, rng.choice([length, rng.randint(length, MOST_TASKS)]))
    arrows, order = SHAPES[k % len(SHAPES)](rng, plan.order, length)
    waits = {task: {a for a, b in arrows if b == task} for task in plan.order}
    return replace(plan, waits=waits, order=order)


def explained(text, program="benchplan", word="explain"):
    """The number and the place of the refusal, and the lines of the explanation."""
    output = run("show", word, text=text).decode(errors="replace")
    hold(output.endswith("\n") or not output, "the last line has no newline")
    return *refusal(text, program), output.splitlines()


def unproposed(text):
    """The number and the lines of the explanation, if no order is proposed."""
    number, place, explanation = explained(text, "propose", "unproposed")
    hold((number, place) in ((0, 0), (23, 0)), f"propose gives {number} at {place}")
    hold((number == 0) == (not explanation), f"propose gives {number}, and the explanation is {explanation}")
    return number, explanation


def follow(text):
    """Follows the advice again and again, until the text is taken; gives the number of steps."""
    steps = 0
    number, place, explanation = explained(text)
    while number:
        order.check(text, place, explanation)
        text = order.followed(text, explanation)
        number, place, explanation = explained(text)
        hold(number in (0, 11), f"the advice leads to refusal {number}")
        steps += 1
        hold(steps < MOST_STEPS, f"the advice has been followed {steps} times, and the text is still refused")
    return steps


def break_circles(text, rng):
    """Takes an arrow of the circle out, again and again, until an order is proposed, which must be right; gives the number of steps."""
    steps = 0
    number, explanation = unproposed(text)
    while number:
        order.check_unproposed(text, explanation)
        text = order.without_arrow(text, explanation, rng)
        number, explanation = unproposed(text)
        steps += 1
    given = refusal(with_proposal(text))
    hold(given == (0, 0), f"the proposed order is refused: {given}")
    return steps


def check_proposal(plan, text, rng):
    """The circle, which is told of the text without its order and with a part of it, too; gives its length, 0 if there is none."""
    number, explanation = unproposed(text)
    hold((number == 23) == order.has_circle(plan.waits), f"propose gives {number}")
    bare = without_order(text)
    lines = text.removeprefix(bare).splitlines(keepends=True)
    for other in bare, bare + b"".join(rng.sample(lines, len(lines) // 2)):
        hold(unproposed(other) == (number, explanation), "with another order, or with none, something else is said of the proposal")
    return order.check_unproposed(text, explanation) if number else 0


def check(text, seen):
    number, place, explanation = explained(text)
    hold(number == 11, f"benchplan gives {number}, not 11")
    length, is_on_circle = order.check(text, place, explanation)
    seen[length] += 1
    seen["apart"] += length > 0 and not is_on_circle


def main(seed, count):
    rng = random.Random(seed)
    # What is drawn for the proposals leaves the plans as they are.
    choices = random.Random(seed)
    seen, unproposed_lengths, steps = Counter(), Counter(), 0
    for k in range(count):
        plan = random_case(rng, k)
        text = text_of(plan, rng)
        try:
            check(text, seen)
            unproposed_lengths[check_proposal(plan, text, choices)] += 1
            steps += follow(text) + break_circles(text, choices) if len(plan.order) <= MOST_FOLLOWED else 0
        except Wrong as wrong:
            stop("circles", f"seed {seed}, text {k}", text, wrong)
    missing = [str(case) for case in ["apart", 0, *range(2, MOST_TASKS + 1)] if not seen[case]]
    missing += [f"{length}, without proposal" for length in [0, *range(2, MOST_TASKS + 1)] if not unproposed_lengths[length]]
    if count >= 300 and missing:
        fail("circles", f"seed {seed}: never met: {', '.join(missing)}")
    print(f"shown: {count - seen[0]} circles and {seen[0]} orders without one told as they are; advice followed {steps} times")


main(*map(int, sys.argv[1:]))
