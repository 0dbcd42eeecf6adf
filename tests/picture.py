"""Random plans: the picture of `show picture` is held against the run of worst times (plans.py), mark by mark. Use: picture.py SEED COUNT."""
import random
import re
import sys
import xml.etree.ElementTree as ElementTree
from collections import Counter
from dataclasses import replace

from plans import LONGEST_TIME, MOST_TASKS, MOST_TYPES, MOST_UNITS, Plan, plan_of, random_plan, row_of_tasks, text_of, worst_run
from programs import Wrong, examples, fail, hold, listed, run, same_lines, stop

# The sheet, in tenths of a pixel: where the axis begins and ends, and how wide the sheet is.
LEFT, RIGHT, SHEET = 1150, 11150, 11750
MANY_LANES, MANY_ARROWS, MOST_LABELS = 16, 200, 17

# How wide a digit is at most, by the class of a number.
DIGIT = {"at": 70, "inside": 70, "inside small": 58, "below": 64, "flagged": 64, "released": 64}
GAP = {"at": 20, "below": 10, "flagged": 10, "released": 10}

# How high a digit is, and half a line's width, at most.
DIGIT_HEIGHT, HALF_LINE = 80, 8

# What a long test must have met.
CASES = ["met", "late", "beyond", "narrow", "thin", "many lanes", "many arrows", "down", "up", "arc", "no length"]
CASES += ["not before its start", "not before an earlier instant", "not before 0", "not before, and a deadline", "not before, and a number below"]


class Drawn:
    """Where things of a plan's run must be."""

    def __init__(self, plan):
        self.plan = plan
        self.starts, self.finishes = worst_run(plan)
        self.response = max(self.finishes.values())
        self.end = min(max(self.response, *plan.deadlines.values(), 0), 4 * self.response)
        self.lanes = [(kind, unit) for kind, count in enumerate(plan.units) for unit in range(count)]
        self.units = {}
        for task in plan.order:
            self.units[task] = self.lowest_free(task)

    def x(self, instant):
        return LEFT + min(instant, self.end) * (RIGHT - LEFT) // self.end

    def left(self, task):
        return self.x(self.starts[task])

    def right(self, task):
        return self.x(self.finishes[task])

    def lowest_free(self, task):
        """Of the units of its type the lowest that no task before it in the order has at its start."""
        kind, start = self.plan.chosen[task], self.starts[task]
        taken = {unit for u, unit in self.units.items() if self.plan.chosen[u] == kind and self.finishes[u] > start}
        return min(set(range(self.plan.units[kind])) - taken)

    def lane(self, task):
        return self.lanes.index((self.plan.chosen[task], self.units[task]))

    def lane_name(self, lane):
        kind, unit = self.lanes[lane]
        return f"type {kind}" if self.plan.units[kind] == 1 else f"type {kind}, unit {unit}"

    def late_by(self, task):
        return max(0, self.finishes[task] - self.plan.deadlines.get(task, self.finishes[task]))

    def title(self, task):
        """What is said under the pointer."""
        title = f"task {task}, {self.lane_name(self.lane(task))}, {self.starts[task]} to {self.finishes[task]}"
        if waits := self.plan.waits[task]:
            title += f"; waits for {listed(waits)}"
        if instant := self.plan.release(task):
            title += f"; not before {instant}"
        if task in self.plan.deadlines:
            title += f"; deadline {self.plan.deadlines[task]}"
        return title + (f", late by {self.late_by(task)}" if self.late_by(task) else "")


class Sheet:
    """The elements of a picture."""

    def __init__(self, svg):
        try:
            self.root = ElementTree.fromstring(svg)
        except ElementTree.ParseError as wrong:
            raise Wrong(f"this is no XML: {wrong}") from None
        for element in self.root.iter():
            element.tag = element.tag.removeprefix("{http://www.w3.org/2000/svg}")
        self.groups = self.all("g", "task")
        self.tops = sorted(numbers(line, "y1")[0] for name in ("type", "unit") for line in self.all("line", name))
        self.tops.append(max(numbers(line, "y1")[0] for line in self.all("line", "axis")))

    def all(self, tag, name, within=None):
        """The elements with this tag and class."""
        return [e for e in (self.root if within is None else within).iter(tag) if e.get("class") == name]

    def one(self, tag, name, within=None):
        found = self.all(tag, name, within)
        hold(len(found) == 1, f"there are {len(found)} elements {tag} of class {name}, not one")
        return found[0]

    def lane_at(self, top, bottom):
        """The lane that has these heights; None where there is none."""
        return next((k for k, (a, b) in enumerate(zip(self.tops, self.tops[1:])) if a <= top <= bottom <= b), None)


def numbers(element, *names):
    return [int(element.get(name)) for name in names]


def points(path):
    """The points of a path with absolute steps, from the first to the last."""
    values = list(map(int, re.findall(r"\d+", path.get("d"))))
    return list(zip(values[::2], values[1::2]))


def same(what, found, due):
    hold(found == due, f"{what}: {found}, and should be {due}")


def check_ids(sheet):
    """No id is there twice, and those that are named are there."""
    ids = [e.get("id") for e in sheet.root.iter() if e.get("id")]
    hold(len(ids) == len(set(ids)), f"an id is there twice: {ids}")
    named = [use.get("href")[1:] for use in sheet.root.iter("use")] + re.findall(r"url\(#(\w+)\)", sheet.root.find("style").text)
    hold(set(named) <= set(ids), f"named, and not there: {set(named) - set(ids)}")


def check_lanes(sheet, drawn):
    """The names at the left, each in its lane, and as many lanes as units."""
    names = [text for text in sheet.all("text", "lane") if text.text != "ticks"]
    same("the lanes", [text.text for text in names], [drawn.lane_name(lane) for lane in range(len(drawn.lanes))])
    ys = [numbers(text, "y")[0] for text in names]
    same("the lanes of their names", [sheet.lane_at(y, y) for y in ys], list(range(len(names))))
    same("the lanes", len(sheet.tops), len(names) + 1)


def check_axis(sheet, drawn):
    """Instants at even steps of 1, 2 or 5 times a power of ten, each at its place, with a line."""
    times = 1 + (len(drawn.lanes) > MANY_LANES)
    labels = [(int(text.text), *numbers(text, "x")) for text in sheet.all("text", "at")]
    own = labels[: len(labels) // times]
    step = own[1][0] - own[0][0] if len(own) > 1 else 1
    due = list(range(0, drawn.end + 1, step))
    hold(re.fullmatch("[125]0*", str(step)) and len(due) <= MOST_LABELS, f"the step of the axis is {step}, its end {drawn.end}")
    hold(len(due) > min(drawn.end, 6), f"the axis to {drawn.end} has {len(due)} labels")
    same("the labels of the axis", labels, [(instant, drawn.x(instant)) for instant in due] * times)
    same("the lines of the axis", [numbers(line, "x1", "x2") for line in sheet.all("line", "grid")], [[drawn.x(i)] * 2 for i in due])


def check_response(sheet, drawn):
    x = drawn.x(drawn.response)
    line, label = sheet.one("line", "response"), sheet.one("text", "last")
    same("the line of R", numbers(line, "x1", "x2"), [x, x])
    y1, y2 = numbers(line, "y1", "y2")
    hold(y1 < sheet.tops[0] and sheet.tops[-1] < y2, "the line of R does not cross all lanes")
    same("the label of R", [label.text, *numbers(label, "x")], [f"R = {drawn.response}", x])
    same("the title", sheet.root.find("title").text, f"Timetable of worst times, R = {drawn.response}")


def check_bar(sheet, drawn, group, task):
    """The one bar of a task: from its start to its finish, in the lane of its unit; gives its upper and lower end."""
    x, y, width, height = numbers(sheet.one("rect", "bar", group), "x", "y", "width", "height")
    left, right = drawn.left(task), drawn.right(task)
    same(f"the bar of task {task}", [x, x + width], [left, max(right, left + 1)])
    same(f"the lane of task {task}", sheet.lane_at(y, y + height), drawn.lane(task))
    return y, y + height


def check_number(sheet, drawn, group, task, bar):
    """The number of a task, in its bar if it has room, otherwise below it with a line to it."""
    (top, bottom), middle = bar, (drawn.left(task) + drawn.right(task)) // 2
    found = [text for name in ("inside", "inside small", "below") for text in sheet.all("text", name, group)]
    same(f"the number of task {task}", [text.text for text in found], [str(task)])
    x, y = numbers(found[0], "x", "y")
    name = found[0].get("class")
    if name == "below":
        ends = [numbers(line, "x1", "y1", "x2") for line in sheet.all("line", "lead", group)]
        hold([middle, bottom, x] in ends and y > bottom, f"no line leads from the bar of task {task} to its number below")
        return name
    same(f"the number in the bar of task {task}", x, middle)
    hold(top < y < bottom, f"the number of task {task} is not in its bar")
    room = drawn.right(task) - drawn.left(task)
    hold(len(str(task)) * DIGIT[name] <= room + 2, f"the number of task {task} has no room in its bar")
    return name


def check_deadline(sheet, drawn, group, task, bar):
    """The marks of a deadline, and of lateness; none of a task that has none. Gives what it is."""
    deadline, marks = drawn.plan.deadlines.get(task), [path for path in group.iter("path") if path.get("class") != "release"]
    late, over = sheet.all("rect", "late", group), sheet.all("line", "over", group)
    is_late = drawn.late_by(task) > 0
    same(f"the marks of task {task}", [len(marks), len(late), len(over)], [deadline is not None, is_late, is_late])
    same(f"the number at the deadline of task {task}", [t.text for t in sheet.all("text", "flagged", group)], [str(task)] * len(marks))
    if deadline is None:
        return None
    x, is_beyond = drawn.x(deadline), deadline > drawn.end
    shape = "l-75 -40v80z" if is_beyond else "l-40 -75h80z"
    y = bar[0] - (48 if is_beyond else 10)
    mark = [marks[0].get("class"), marks[0].get("d")]
    same(f"the mark of the deadline of task {task}", mark, ["flag" if is_late else "flag met", f"M{x} {y}{shape}"])
    if is_late:
        right, left = drawn.right(task), max(drawn.left(task), x)
        box = numbers(late[0], "x", "y", "width", "height")
        same(f"the late part of task {task}", box, [left, bar[0], max(1, right - left), bar[1] - bar[0]])
        same(f"the lateness of task {task}", numbers(over[0], "x1", "x2"), [x, right])
    return "late" if is_late else "beyond" if is_beyond else "met"


def first_point(path):
    return tuple(map(int, re.findall(r"\d+", path.get("d"))[:2]))


def check_release(sheet, drawn, group, task, bar):
    """The mark of a not-before instant above 0, below the bar in the task's lane, with a line to the number below; none of 0."""
    instant, marks, texts = drawn.plan.release(task), sheet.all("path", "release", group), sheet.all("text", "released", group)
    same(f"the numbers at the not-before instant of task {task}", [text.text for text in texts], [str(task)] * (instant > 0))
    same(f"the marks of the not-before instant of task {task}", len(marks), len(texts))
    if not instant:
        return
    x, top = drawn.x(instant), first_point(marks[0])[1]
    same(f"the mark of the not-before instant of task {task}", marks[0].get("d"), f"M{x + 40} {top}h-40v70h40")
    at, bottom = numbers(texts[0], "x", "y")
    is_below = bar[1] < top and top + 70 < bottom - DIGIT_HEIGHT
    hold(is_below, f"the not-before instant of task {task} is not below its bar, or the number not below that")
    same(f"the lane of the not-before instant of task {task}", sheet.lane_at(top, bottom), drawn.lane(task))
    ends = [numbers(line, "x1", "x2") for line in sheet.all("line", "lead", group) if numbers(line, "y1")[0] > top]
    same(f"the line from the not-before instant of task {task} to its number", ends, [[x, at]])


def check_tasks(sheet, drawn, seen):
    """A group for each task, in the order; gives the bars by task."""
    same_lines([group.find("title").text for group in sheet.groups], [drawn.title(task) for task in drawn.plan.order])
    bars = {}
    for group, task in zip(sheet.groups, drawn.plan.order):
        bars[task] = check_bar(sheet, drawn, group, task)
        seen["narrow"] += check_number(sheet, drawn, group, task, bars[task]) == "below"
        seen["thin"] += drawn.right(task) == drawn.left(task)
        seen[check_deadline(sheet, drawn, group, task, bars[task])] += 1
        check_release(sheet, drawn, group, task, bars[task])
        uses = [use.get("href") for use in group.iter("use")]
        same(f"the arrows to task {task} under the pointer", uses, [f"#to{task}"] if drawn.plan.waits[task] else [])
    same("the bars", len(sheet.all("rect", "bar")), len(bars) + 1)  # one is that of the key
    by_lane = {}
    for task, bar in bars.items():
        same(f"the height of the bar of task {task}", bar, by_lane.setdefault(drawn.lane(task), bar))
    return bars


def check_strokes(sheet, drawn, bars):
    """A line across the lane at each deadline on the axis, and one at each not-before instant, down to its mark."""
    due, opened = Counter(), Counter()
    for task, deadline in drawn.plan.deadlines.items():
        top, bottom = bars[task]
        if deadline <= drawn.end:
            due[drawn.x(deadline), top - 60, drawn.x(deadline), bottom + 40] += 1
    for group, task in zip(sheet.groups, drawn.plan.order):
        for mark in sheet.all("path", "release", group):
            x = drawn.x(drawn.plan.release(task))
            opened[x, bars[task][0], x, first_point(mark)[1]] += 1
    elements = list(sheet.root.iter())
    for name, wanted in ("due", due), ("open", opened):
        lines = sheet.all("line", name)
        same(f"the lines of class {name}", Counter(tuple(numbers(line, "x1", "y1", "x2", "y2")) for line in lines), wanted)
        is_under = all(elements.index(line) < elements.index(sheet.groups[0]) for line in lines)
        hold(is_under, f"a line of class {name} is drawn over bars")


def check_overlaps(sheet, drawn):
    """No two bars of a lane lie on each other; nor do two numbers of a row, and none leaves the room for them."""
    for lane in range(len(drawn.lanes)):
        own = sorted((drawn.starts[t], drawn.finishes[t]) for t in drawn.plan.order if drawn.lane(t) == lane)
        hold(all(a[1] <= b[0] for a, b in zip(own, own[1:])), f"two bars of lane {lane} overlap")
    rows = {}
    for name in GAP:
        for text in sheet.all("text", name):
            x, y = numbers(text, "x", "y")
            half = len(text.text) * DIGIT[name] / 2
            rows.setdefault((name, y), []).append((x - half, x + half, text.text))
    for (name, _), row in rows.items():
        row.sort()
        for (_, right, first), (left, _, second) in zip(row, row[1:]):
            hold(right + GAP[name] <= left, f"the numbers {first} and {second} of class {name} overlap")
        hold(row[0][0] >= LEFT - 250 and row[-1][1] <= SHEET, f"a row of numbers of class {name} leaves its room")


def check_number_orders(sheet, drawn):
    """The numbers at deadlines and at not-before instants stand in each lane in the order of these; of two alike, the lower task first."""
    for name, instants in ("flagged", drawn.plan.deadlines), ("released", drawn.plan.releases):
        rows = {}
        for text in sheet.all("text", name):
            x, y = numbers(text, "x", "y")
            rows.setdefault(y, []).append((x, int(text.text)))
        for row in rows.values():
            tasks = [task for _, task in sorted(row)]
            same(f"the order of numbers of class {name}", tasks, sorted(tasks, key=lambda task: (instants[task], task)))


def box_of(element):
    """From where to where an element with a class lies, from the left to the right and from the top to the bottom."""
    name = element.get("class")
    if element.tag == "rect":
        x, y, width, height = numbers(element, "x", "y", "width", "height")
        return x, x + width, y, y + height
    if element.tag == "line":
        x1, x2, y1, y2 = numbers(element, "x1", "x2", "y1", "y2")
        return min(x1, x2) - HALF_LINE, max(x1, x2) + HALF_LINE, y1, y2
    if element.tag == "text":
        x, y = numbers(element, "x", "y")
        half = len(element.text) * DIGIT[name] // 2
        return x - half, x + half, y - DIGIT_HEIGHT, y
    x, y = first_point(element)
    if name == "release":
        return x - 40 - HALF_LINE, x + HALF_LINE, y - HALF_LINE, y + 70 + HALF_LINE
    return (x - 75, x, y - 40, y + 40) if "v80z" in element.get("d") else (x - 40, x + 40, y - 75, y)


def check_releases_apart(sheet):
    """The marks of not-before instants and their numbers lie on no bar, on no other number, and on no mark of a deadline."""
    marks, texts = sheet.all("path", "release"), sheet.all("text", "released")
    kinds = [("rect", "bar"), ("rect", "late"), ("line", "due"), ("text", "below"), ("text", "flagged"), ("path", "flag"), ("path", "flag met")]
    boxes = [box_of(e) for tag, name in kinds for e in sheet.all(tag, name)]
    for own, others in (marks, boxes + list(map(box_of, texts))), (texts, boxes):
        for e in own:
            left, right, top, bottom = box_of(e)
            on = [box for box in others if left < box[1] and box[0] < right and top < box[3] and box[2] < bottom]
            hold(not on, f"{e.tag} {e.attrib} lies on what lies at {on[:1]}")


def arrow(drawn, bars, before, task):
    """The ends of an arrow, and its case: between the nearest corners of two lanes, or within one from bar to bar, if there is a way to go."""
    (top1, bottom1), (top2, bottom2) = bars[before], bars[task]
    x1, x2 = drawn.right(before), drawn.left(task)
    if top1 < top2:
        return ((x1, bottom1), (x2, top2)), "down"
    if top2 < top1:
        return ((x1, top1), (x2, bottom2)), "up"
    middle = (top1 + bottom1) // 2
    return (((x1, middle), (x2, middle)), "arc") if x1 < x2 else (None, "no length")


def check_arrows(sheet, drawn, bars, seen):
    waits = drawn.plan.waits
    is_many = sum(map(len, waits.values())) > MANY_ARROWS
    seen["many arrows"] += is_many
    arrows = next(g for g in sheet.root.iter("g") if g.get("class") == ("arrows many" if is_many else "arrows"))
    groups = {group.get("id"): group for group in arrows.iter("g") if group is not arrows}
    same("the groups of arrows", sorted(groups), sorted(f"to{task}" for task in waits if waits[task]))
    for task in (task for task in waits if waits[task]):
        wanted = [arrow(drawn, bars, before, task) for before in sorted(waits[task])]
        seen.update(case for _, case in wanted)
        found = [(way[0], way[-1]) for way in map(points, groups[f"to{task}"].iter("path"))]
        same(f"the arrows to task {task}", found, [ends for ends, _ in wanted if ends])


def check_key(sheet, drawn):
    """What the marks mean, as far as there are such marks."""
    deadlines, late = drawn.plan.deadlines, any(map(drawn.late_by, drawn.plan.order))
    due = {
        "task": True,
        "to a task that waits for it": any(drawn.plan.waits.values()),
        "deadline of that task": bool(deadlines),
        "missed": late,
        "after the deadline": late,
        "deadline beyond the axis": any(deadline > drawn.end for deadline in deadlines.values()),
        "not-before instant of that task": any(drawn.plan.releases.values()),
    }
    same("the key", [text.text for text in sheet.all("text", "key")], [words for words, is_there in due.items() if is_there])
    marks = sum(instant > 0 for instant in drawn.plan.releases.values())
    same("the marks of not-before instants, with that of the key", len(sheet.all("path", "release")), marks + (marks > 0))


def check_style(sheet):
    """Every class that elements have is one whose look is said, and only a picture with not-before instants speaks of them."""
    said = set(re.findall(r"\.([a-z]+)", re.sub(r"\{[^}]*\}", "", sheet.root.find("style").text)))
    used = {name for e in sheet.root.iter() for name in e.get("class", "").split()}
    hold(used - {"key"} <= said, f"of these classes no look is said: {used - said}")
    own = {"open", "release", "released"}
    same("the classes of not-before instants", said & own, used & own)


def check_sheet(sheet):
    """Nothing is off the sheet."""
    *corner, width, height = map(int, sheet.root.get("viewBox").split())
    same("the sheet", [*corner, width, *numbers(sheet.root, "width", "height")], [0, 0, SHEET, width // 10, height // 10])
    body = [e for e in sheet.root.iter() if e.get("class") or e.tag == "path" and not e.get("fill")]
    for e in body:
        xs = [int(e.get(name, 0)) for name in ("x", "x1", "x2")] + [int(e.get("x", 0)) + int(e.get("width", 0))]
        ys = [int(e.get(name, 0)) for name in ("y", "y1", "y2")] + [int(e.get("y", 0)) + int(e.get("height", 0))]
        if e.tag == "path":
            way = points(e) if e.get("class") is None else [first_point(e)]
            xs, ys = [x for x, _ in way], [y for _, y in way]
        hold(0 <= min(xs) and max(xs) <= width and 0 <= min(ys) and max(ys) <= height, f"off the sheet: {e.tag} {e.attrib}")


def check_zeros(plan, svg):
    """N lines that all say 0 change no byte."""
    if plan.releases and not any(plan.releases.values()):
        without = run("show", "picture", text=text_of(replace(plan, releases={})))
        hold(svg == without, "the picture is another one without the N lines, which all say 0")


def note_releases(drawn, sheet, seen):
    numbered = {drawn.lane(task) for group, task in zip(sheet.groups, drawn.plan.order) if sheet.all("text", "below", group)}
    for task, instant in drawn.plan.releases.items():
        seen["not before 0"] += instant == 0
        seen["not before its start"] += 0 < instant == drawn.starts[task]
        seen["not before an earlier instant"] += 0 < instant < drawn.starts[task]
        seen["not before, and a deadline"] += instant > 0 and task in drawn.plan.deadlines
        seen["not before, and a number below"] += instant > 0 and drawn.lane(task) in numbered


def check(text, seen):
    drawn = Drawn(plan_of(text))
    svg = run("show", "picture", text=text)
    sheet = Sheet(svg)
    seen["many lanes"] += len(drawn.lanes) > MANY_LANES
    check_ids(sheet)
    check_lanes(sheet, drawn)
    check_axis(sheet, drawn)
    check_response(sheet, drawn)
    bars = check_tasks(sheet, drawn, seen)
    note_releases(drawn, sheet, seen)
    check_strokes(sheet, drawn, bars)
    check_overlaps(sheet, drawn)
    check_number_orders(sheet, drawn)
    check_releases_apart(sheet)
    check_arrows(sheet, drawn, bars, seen)
    check_key(sheet, drawn)
    check_style(sheet)
    check_sheet(sheet)
    check_zeros(drawn.plan, svg)


def varied(rng):
    """A plan with some times of 1 tick, and deadlines near its run, on the same instant, or far off."""
    plan = random_plan(rng)
    share = rng.choice([0, 0, 0.3, 0.9])
    plan = replace(plan, times={pair: (1, 1) if rng.random() < share else times for pair, times in plan.times.items()})
    last = max(worst_run(plan)[1].values())
    far = rng.choice([last, 2 * last, 4 * last, 9 * last, LONGEST_TIME])
    due = rng.sample(plan.order, rng.choice([0, len(plan.order), rng.randint(0, len(plan.order))]))
    common = min(LONGEST_TIME, rng.randint(1, far))
    return replace(plan, deadlines={t: rng.choice([common, min(LONGEST_TIME, rng.randint(1, far))]) for t in due})


def fixed():
    """Texts with a name."""
    full = row_of_tasks(MOST_TASKS, MOST_UNITS, 7)
    kinds = {task: task % MOST_TYPES for task in full.order}
    lanes = Plan([MOST_UNITS] * MOST_TYPES, {(t, k): (1, 1 + t) for t, k in kinds.items()}, full.waits, full.order, kinds, {0: 1, 63: 1})
    yield "64 lanes", text_of(lanes)
    yield "64 tasks on one unit", text_of(row_of_tasks(MOST_TASKS, 1, LONGEST_TIME))
    row = row_of_tasks(MOST_TASKS, 1, 1)
    yield "64 tasks on one unit, all with one deadline", text_of(replace(row, deadlines=dict.fromkeys(row.order, 64)))
    every = dict.fromkeys(row.order, 64)
    yield "64 tasks on one unit, all with one not-before instant and one deadline", text_of(replace(row, deadlines=every, releases=every))
    yield "64 lanes, all with not-before instants", text_of(replace(lanes, releases={task: 1 + task for task in lanes.order}))
    yield "N lines that say 0", text_of(replace(row, releases=dict.fromkeys(row.order, 0)))
    yield "one task", text_of(row_of_tasks(1, 1, 1))
    yield "one task that is late", text_of(replace(row_of_tasks(1, 1, LONGEST_TIME), deadlines={0: 1}))
    yield "every arrow", text_of(replace(full, waits={task: set(range(task)) for task in full.order}))
    yield from examples()


def main(seed, count):
    rng = random.Random(seed)
    seen, checked = Counter(), 0
    drawn = ((f"seed {seed}, plan {k}", text_of(varied(rng), rng)) for k in range(count))
    for source in fixed(), drawn:
        for case, text in source:
            try:
                check(text, seen)
            except Wrong as wrong:
                stop("picture", case, text, wrong)
            checked += 1
    missing = [case for case in CASES if not seen[case]]
    if count >= 100 and missing:
        fail("picture", f"seed {seed}: no picture with {', '.join(missing)}")
    print(f"shown: {checked} pictures as they should be")


main(*map(int, sys.argv[1:]))
