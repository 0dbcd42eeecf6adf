"""Random damage to random plans and to tests/mistakes/plan.txt: `show explain` explains what benchplan refuses and nothing else, `show unproposed`
what propose refuses, `show why` and `show picture` speak of the other texts, and what is printed can be shown on any terminal.
Use: damaged.py SEED COUNT."""
import random
import re
import sys
from collections import Counter
from itertools import chain

import facts
import forms
import order
from plans import MOST_BYTES, plan_of, random_plan, text_of
from programs import TOP, Wrong, fail, hold, opening, quoted, refusal, run, same_lines, stop, with_proposal

PLAN = (TOP / "tests/mistakes/plan.txt").read_bytes()
OTHER_WORDS = [(), *((word,) for word in ["", "x", "-", "e", "explode", "explai", "explained", "Explain", "w", "whynot", "WHY", "pictures", "p"])]
OTHER_WORDS += [("propose",), ("unpropose",), ("unproposed ",)]
EXAMINED_FOR_OTHER_WORDS = 20
LONGEST_LINE = 400
SHOWN = re.compile(rb"(?:[ -~\n]|\xe2\x87\xa5|\xe2\x86\x92)*")

# Bytes that are likelier than others: those of a plan text, and those that editors and spreadsheets leave behind.
LIKELY = [b"\t", b"\n", b" ", b"0", b"1", b"9", b"-", b".", b",", b"#", b"\r", b"\0", b"\xff\xfe", b"\xef\xbb\xbf", b"\xc2\xa0"]
LIKELY += [b"T", b"a", b"N", b"n"]


def some_bytes(rng):
    return rng.choice(LIKELY) if rng.random() < 0.7 else bytes(rng.choices(range(256), k=rng.choice([1, 1, 3, 100])))


def flip(rng, text):
    at = rng.randrange(len(text))
    return text[:at] + bytes([text[at] ^ 1 << rng.randrange(8)]) + text[at + 1 :]


def insert(rng, text):
    at = rng.randint(0, len(text))
    return text[:at] + some_bytes(rng) + text[at:]


def overwrite(rng, text):
    at = rng.randrange(len(text))
    return text[:at] + some_bytes(rng) + text[at + 1 :]


def cut_out(rng, text):
    at = rng.randrange(len(text))
    return text[:at] + text[at + rng.choice([1, 1, 2, 10]) :]


def cut_off(rng, text):
    return text[: rng.randrange(len(text))]


def change_number(rng, text):
    """One number is another one, often just inside or outside a range."""
    number = rng.choice(list(re.finditer(rb"\d+", text)) or [re.match(b"", text)])
    other = rng.choice([0, 1, 7, 8, 9, 63, 64, 1_000_000, 1_000_001, 10_000_000, rng.randint(0, 70)])
    return text[: number.start()] + b"%d" % other + text[number.end() :]


def in_lines(change):
    """A damage to the list of lines."""

    def damage(rng, text):
        lines = text.splitlines(keepends=True)
        change(lines, rng.randrange(len(lines)), rng.randrange(len(lines)))
        return b"".join(lines)

    return damage


def swap_lines(lines, a, b):
    lines[a], lines[b] = lines[b], lines[a]


def swap_neighbours(lines, a, _):
    lines[a - 1], lines[a] = lines[a], lines[a - 1]


def copy_line(lines, a, b):
    lines.insert(b, lines[a])


def delete_line(lines, a, _):
    del lines[a]


def add_release(rng, text):
    """An N line more, where N lines end or anywhere, of any task, often one that has no T line or has an N line already."""
    lines = text.splitlines(keepends=True)
    last = next((k for k, line in enumerate(lines) if line.startswith(b"C")), len(lines))
    numbers = rng.choice([2, 14, rng.randint(0, 70)]), rng.choice([0, 1, 1_000_000, 1_000_001, rng.randint(0, 100)])
    lines.insert(rng.choice([last, last, rng.randint(0, len(lines))]), b"N\t%d\t%d\n" % numbers)
    return b"".join(lines)


def repeat(rng, text):
    """The whole text several times, or its end very often."""
    at = rng.randint(0, len(text))
    return rng.choice([text * rng.choice([2, 50]), text + text[at:] * 50])


LINES = [in_lines(change) for change in (swap_lines, swap_neighbours, swap_neighbours, copy_line, delete_line)]
DAMAGES = [flip, insert, overwrite, cut_out, cut_off, change_number, change_number, add_release, add_release, *LINES, *LINES]


def random_text(rng):
    """A good text, with no, one or a few damages. Few are repeated, since then most are too long."""
    text = PLAN if rng.random() < 0.4 else text_of(random_plan(rng), rng)
    for _ in range(rng.choice([0, 1, 1, 1, 1, 2, 3])):
        text = rng.choice(DAMAGES)(rng, text) if text else text
    return repeat(rng, text) if rng.random() < 0.03 else text


def fixed():
    """A text that is taken, texts at the limits, and texts with a line of each letter that has too few or too many numbers, or a small letter."""
    yield from (PLAN, b"", b"\n", b"\t", b"U", b"\n" * MOST_BYTES, b"\n" * (MOST_BYTES + 1), b"U\t0\t1\n" * 400_000)
    yield b"U" + b"\t1" * (MOST_BYTES // 2 - 1) + b"\n"
    yield b"U\t0\t1\nT\t63\t0\t1\t1\n"
    for letter in facts.KINDS.encode():
        yield from (b"U\t0\t1\n%c%s\n" % (letter, b"\t0" * count) for count in (1, 3, 5))
        yield b"U\t0\t1\n%c\t0\t0\n" % (letter | 32)
    for letters in b".\xff", b"\xff\xff", b"99", b"-x", b"\x01\x7f", b"0 ", b"\t\t":
        yield b"U\t0\t1\nT\t0\t0\t1\t" + letters[:1] + letters[1:] * 100 + b"\n"


def check_explanation(text, word, number, place):
    """Nothing of a text that is taken. Gives what is printed."""
    printed = run("show", word, text=text)
    if number == 0:
        hold(printed == b"", f"the text is taken, and `show {word}` prints {printed[:200]!r}")
        return printed
    hold(printed, f"the text is refused with {number} at {place}, and `show {word}` prints nothing")
    shown = SHOWN.match(printed)[0]
    hold(shown == printed, f"a byte that cannot be shown: {printed[len(shown) - 40 : len(shown) + 40]!r}")
    explanation = printed.decode()
    is_opened = explanation.startswith(opening(number, place, text)) and explanation.endswith("\n")
    hold(is_opened, f"the text is refused with {number} at {place}, and `show {word}` prints:\n{explanation}")
    check_lines(text, number, place, explanation.splitlines())
    return printed


def proposal_due(text, number, place):
    """How propose refuses a text that benchplan refuses so: up to 8 in the same way, then by its arrows alone."""
    if 1 <= number <= 8:
        return number, place
    return (23, 0) if order.has_circle(plan_of(text).waits) else (0, 0)


def check_proposal(text, number, place, explanation):
    """What propose says of a text that benchplan refuses so, with this explanation; gives the number of its refusal."""
    given, due = refusal(text, "propose"), proposal_due(text, number, place)
    hold(given == due, f"propose gives {given}, not {due}")
    if due == (number, place):
        hold(run("show", "unproposed", text=text) == explanation, f"{due} is explained in two ways")
    else:
        check_explanation(text, "unproposed", *due)
    if due == (0, 0):
        again = refusal(with_proposal(text))
        hold(again == (0, 0), f"the proposed order is refused: {again}")
    return due[0]


def others_unformed(text, number):
    """How many lines besides the refused one have none of the six forms, if any has."""
    lines = text.removesuffix(b"\n").count(b"\n") + 1
    others = lines - len(facts.records_of(text)) - 1
    return [f"  lines that are none of the forms, besides this one: {others}"] if number == 2 and others > 0 else []


def check_lines(text, number, place, lines):
    """The lines of an explanation. None is long, unless it names many tasks."""
    if number == 11:
        order.check(text, place, lines)
    elif number == 23:
        order.check_unproposed(text, lines)
    elif number >= 3:
        same_lines(lines, facts.wanted(text, number, place))
        facts.check_advice(text, number, place)
    else:
        end = [quoted(text, max(place, 1)), *others_unformed(text, number)]
        hold(lines[-len(end) :] == end, f"the refused line is not quoted at the end, or the others are not counted: {lines}")
        if number == 2:
            forms.check(text, place, lines[0])
    for line in lines:
        is_list = "→" in line or re.search(r"tasks \d", line)
        hold(is_list or len(line.encode()) <= LONGEST_LINE, f"a line of {len(line.encode())} bytes:\n{line}")


def check(text, is_examined):
    """Gives the numbers of the refusals of benchplan and of propose, and whether an N line is refused."""
    number, place = refusal(text)
    explanation = check_explanation(text, "explain", number, place)
    unproposed = check_proposal(text, number, place, explanation)
    for word in "why", "picture":
        printed = run("show", word, text=text)
        hold((printed == b"") == (number != 0), f"benchplan gives {number}, and `show {word}` prints {len(printed)} bytes")
    for words in OTHER_WORDS if is_examined else []:
        hold(run("show", *words, text=text) == b"", f"show {words} prints something")
    return number, unproposed, 2 <= number <= 7 and text.split(b"\n")[place - 1].startswith(b"N")


def main(seed, count):
    rng = random.Random(seed)
    numbers, unproposed_numbers, at_releases = Counter(), Counter(), Counter()
    texts = chain(fixed(), (random_text(rng) for _ in range(count)))
    for k, text in enumerate(texts):
        try:
            number, unproposed, is_release = check(text, k % EXAMINED_FOR_OTHER_WORDS == 0)
        except Wrong as wrong:
            stop("damaged", f"seed {seed}, text {k}", text, wrong)
        numbers[number] += 1
        unproposed_numbers[unproposed] += 1
        at_releases[number] += is_release
    missing = [str(number) for number in range(12) if not numbers[number]]
    missing += [f"{number} at an N line" for number in (2, 3, 5, 6, 7) if not at_releases[number]]
    missing += [f"{number} of propose" for number in (*range(9), 23) if not unproposed_numbers[number]]
    if count >= 2000 and missing:
        fail("damaged", f"seed {seed}: never met: {', '.join(missing)}")
    print(f"shown: {numbers.total() - numbers[0]} damaged texts explained, and {numbers[0]} that are taken not; {unproposed_numbers[0]} get an order")


main(*map(int, sys.argv[1:]))
