"""What the explanation of refusals 3 to 10 must be, worked out from the text by the rules (docs/RULES.md, chapters 3 and 12), and what its advice
makes of the text."""
import re

from programs import hold, numbered, opening, quoted, refusal

KINDS = "UTADNC"
IN_ORDER = "the order is U, T, A, D, N, C"
TASK = 0, 63, ": tasks are numbered from 0"
TYPE = 0, 7, ": types are numbered from 0"
TIME = 1, 1_000_000, ": take a longer tick"

# The numbers of a line: name, least, most, and what is said of one above that.
NUMBERS = {
    "U": [("type", *TYPE), ("count", 1, 8, "")],
    "T": [("task", *TASK), ("type", *TYPE), ("best time", *TIME), ("worst time", *TIME)],
    "A": [("task", *TASK), ("task", *TASK)],
    "D": [("task", *TASK), ("deadline", *TIME)],
    "N": [("task", *TASK), ("not-before instant", 0, *TIME[1:])],
    "C": [("task", *TASK), ("type", *TYPE)],
}

# How many numbers of a line, from the first, may not come twice together.
ALIKE = {"T": 2, "A": 2, "D": 1, "N": 1, "C": 1}


def records_of(text):
    """By place, the letter and the numbers of each line that has one of the six forms."""
    records = {}
    for place, line in enumerate(text.decode("latin-1").split("\n"), 1):
        letter, *fields = line.split("\t")
        is_form = letter in NUMBERS and len(fields) == len(NUMBERS[letter])
        if is_form and all(re.fullmatch("0|[1-9][0-9]{0,6}", field) for field in fields):
            records[place] = letter, *map(int, fields)
    return records


def first(records, *front):
    """The first line that begins with this letter and these numbers; 0 where there is none."""
    return next((place for place, record in records.items() if record[: len(front)] == front), 0)


def out_of_range(records, place):
    letter, *numbers = records[place]
    told = ["a number is out of its range"]
    for (name, least, most, above), n in zip(NUMBERS[letter], numbers):
        line = f"  {name} {n} is not one of {least} to {most}{above if n > most else ''}"
        if not least <= n <= most and line not in told:
            told.append(line)
    if letter == "D" and numbers[1] == 0:
        told.append("  a task without deadline has no D line")
    return told, [place]


def at_odds(records, place):
    letter, *numbers = records[place]
    if letter == "A":
        return [f"the arrow leads from task {numbers[0]} to itself; take it out"], [place]
    return [f"the worst time, {numbers[3]}, is below the best time, {numbers[2]}; are they exchanged?"], [place]


def first_later(records, place):
    """The first line above of a kind that comes after the kind of this line."""
    kind = KINDS.index(records[place][0])
    return next(p for p in range(1, place) if KINDS.index(records[p][0]) > kind)


def late(records, place):
    letter, later = records[place][0], first_later(records, place)
    is_second = letter == "U" and 0 < first(records, "C") < place
    move = ": does a second plan begin here? A text has one plan. If not, move" if is_second else "; move"
    return [f"{letter} stands behind {records[later][0]}{move} the line up, above line {later}: {IN_ORDER}"], [later, place]


def unknown(records, place):
    letter, *numbers = records[place]
    if letter == "U":
        if earlier := first({p: r for p, r in records.items() if p < place}, "U", numbers[0]):
            return [f"type {numbers[0]} already has its U line: see line {earlier}"], [earlier, place]
        wrong = "is missing above, or this type is wrong: U lines give the types in order, from 0"
        return [f"the U line of type {place - 1} {wrong}"], [place]
    name, own = ("type", "U") if letter == "T" else ("task", "T")
    told = [f"the line names a {name} that has no {own} line above"]
    for n in {"T": numbers[1:2], "A": numbers}.get(letter, numbers[:1]):
        found = first(records, own, n)
        if not 0 < found < place:
            none = "" if first(records, own) else "; the text has none at all"
            below = f" above; it is below, line {found}: {IN_ORDER}" if found else none
            told.append(f"  {name} {n} has no {own} line{below}")
    return told, [place]


def repeated(records, place):
    letter, *numbers = records[place]
    a, b = numbers[:2]
    earlier = first(records, *records[place][: ALIKE[letter] + 1])
    already = {"T": f"has times on type {b}", "D": "has a deadline", "N": "has an N line", "C": "stands in the order"}
    has = "this arrow is already there" if letter == "A" else f"task {a} already {already[letter]}"
    told = [f"{has}: see line {earlier}"]
    without = {t for t in range(64) if first(records, "T", t) and not first(records, "C", t)}
    if letter == "C" and without:
        told.append(f"  no C line yet: {numbered('task', without)}")
    return told, [earlier, place]


def without_line(records, letter):
    """The tasks of the plan without a line of this letter, and the words that say so."""
    tasks = 1 + max((r[1] for r in records.values() if r[0] == "T"), default=-1)
    without = {t for t in range(tasks) if not first(records, letter, t)}
    has = "has" if len(without) == 1 else "have"
    return without, f"{numbered('task', without)} {has} no {letter} line; "


def no_plan(records, _):
    if not records:
        return ["the text is empty"], []
    most = max((r[1] for r in records.values() if r[0] == "T"), default=None)
    if most is None:
        return ["there is no T line, so the plan has no task"], []
    without, lack = without_line(records, "T")
    advice = "are they counted from 1?" if without == {0} else "add what is missing, or number the tasks anew"
    return [f"{lack}tasks are numbered from 0 without a gap to the greatest, {most}: {advice}"], [first(records, "T", most)]


def usable_types(records, task):
    return {r[2] for r in records.values() if r[:2] == ("T", task)}


def missing_choice(records, _):
    without, lack = without_line(records, "C")
    if not any(r[0] == "C" for r in records.values()):
        return ["there are no C lines; the order has one for each task"], []
    told = [lack + "the order has one for each task"]
    for task in sorted(without):
        before = {r[1] for r in records.values() if r[0] == "A" and r[2] == task}
        behind = f" and stands behind {numbered('task', before)}" if before else ""
        told.append(f"  task {task} can use {numbered('type', usable_types(records, task))}{behind}")
    return told, []


def choice(records, position):
    """The place, the task and the type of an entry of the order, and the types that the task can use."""
    place, (_, task, kind) = [(p, r) for p, r in records.items() if r[0] == "C"][position]
    return place, task, kind, usable_types(records, task)


def unusable(records, position):
    place, task, kind, usable = choice(records, position)
    return [f"task {task} has no T line for type {kind}; it can use {numbered('type', usable)}"], [place]


SAYING = {3: out_of_range, 4: at_odds, 5: late, 6: unknown, 7: repeated, 8: no_plan, 9: missing_choice, 10: unusable}


def wanted(text, number, place):
    """The lines of the explanation: sentences, and quoted lines of the text."""
    (sentence, *others), quotes = SAYING[number](records_of(text), place)
    return [opening(number, place, text) + sentence, *others, *(quoted(text, p) for p in quotes)]


def corrected(text, number, place):
    """Texts in which the advice is followed. What stands below a refused line is left out, since it may be refused in turn."""
    records = records_of(text)
    lines = text.split(b"\n")
    head, last = lines[: place - 1], lines[place - 1]
    if number == 4 and records[place][0] == "T":
        letter, task, kind, best, worst = last.split(b"\t")
        yield [*head, b"\t".join([letter, task, kind, worst, best])]
    elif number == 5:
        at = first_later(records, place) - 1
        yield [*head[:at], last, *head[at:]]
    elif number == 7:
        yield head
    elif number == 10:
        at, task, _, usable = choice(records, place)
        yield from ([*lines[: at - 1], b"C\t%d\t%d" % (task, kind), *lines[at:-1]] for kind in usable)


def check_advice(text, number, place):
    """A text that follows the advice is not refused so again."""
    for lines in corrected(text, number, place):
        given = refusal(b"".join(line + b"\n" for line in lines))
        is_gone = given != (number, place) if number == 10 else given[0] != number
        hold(is_gone, f"the advice on refusal {number} at {place} is followed, and benchplan gives {given}")
