"""The mistakes of tests/mistakes/edits, each made in plan.txt: what benchplan and `show explain` print, and propose and `show unproposed` where they
tell of a circle, must be what the file told has. Use: mistakes.py [--write]; with --write the file told is written anew."""
import os
import subprocess
import sys

from programs import TOP, Wrong, fail, hold, opening, refusal, run

FOLDER = TOP / "tests/mistakes"
TOLD = FOLDER / "told"


def mistakes():
    """The name of each mistake, and the text with it. A text ends before a byte 01."""
    for line in (FOLDER / "edits").read_text().splitlines():
        if line.startswith("#"):
            continue
        name, program = line.split("\t", 1)
        sed = ["sed", program, FOLDER / "plan.txt"]
        done = subprocess.run(sed, capture_output=True, env={**os.environ, "LC_ALL": "C"})
        hold(done.returncode == 0, f"{name}: {done.stderr.decode()}")
        yield name, done.stdout.split(b"\x01")[0]


def explained(name, text, program, word):
    """The number of a program's refusal, and its line with the explanation, which must begin as the line says; nothing of a text that it takes."""
    number, place = refusal(text, program)
    explanation = run("show", word, text=text).decode(errors="replace")
    if number == 0:
        hold(not explanation, f"{name}: {program} takes the text, and `show {word}` prints:\n{explanation}")
        return 0, ""
    hold(explanation.startswith(opening(number, place, text)), f"{name}: {number} at {place} is explained so:\n{explanation}")
    return number, f"refused\t{number}\t{place}\n{explanation}"


def told_of(name, text):
    """The numbers of the refusals, and what is told: the name, benchplan's line with its explanation, and those of propose if it gives 23. Up to 8
    the two say the same; otherwise propose gives 23 or takes the text."""
    number, told = explained(name, text, "benchplan", "explain")
    hold(number, f"{name}: is not refused")
    unproposed, why_not = explained(name, text, "propose", "unproposed")
    is_right = why_not == told if number <= 8 else unproposed in (0, 23)
    hold(is_right, f"{name}: benchplan gives {number}, and of propose is told:\n{why_not}")
    return {number, unproposed}, f"== {name}\n{told}" + (why_not if unproposed == 23 else "")


def sections(told):
    """What is told of each mistake, by its name."""
    return {part.split("\n", 1)[0]: part for part in ("\n" + told).split("\n== ")[1:]}


def differences(told, stored):
    """The mistakes of which something else is told than is stored."""
    now, before = sections(told), sections(stored)
    for name in [*before, *(name for name in now if name not in before)]:
        if now.get(name, "").rstrip("\n") != before.get(name, "").rstrip("\n"):
            yield f"{name}\nstored:\n{before.get(name, '')}\nnow:\n{now.get(name, '')}"


def main(arguments):
    hold(arguments in ([], ["--write"]), "use: mistakes.py [--write]")
    numbers, parts = set(), []
    for name, text in mistakes():
        given, part = told_of(name, text)
        numbers |= given
        parts.append(part)
    missing = {*range(1, 12), 23} - numbers
    hold(not missing, f"no mistake is refused with {sorted(missing)}")
    told = "".join(parts)
    if arguments:
        TOLD.write_text(told)
    stored = TOLD.read_text()
    hold(told == stored, next(differences(told, stored), "the order of the mistakes is another one; --write writes it"))
    print(f"shown: {len(parts)} mistakes, of every refusal from 1 to 11 and 23, explained as stored")


try:
    main(sys.argv[1:])
except Wrong as wrong:
    fail("mistakes", wrong)
