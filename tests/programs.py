"""What the tests of shown texts share: running the programs, and how a test fails. The programs are in the folder PROGRAMS, or target/bin."""
import os
import pathlib
import subprocess
import sys
import tempfile

TOP = pathlib.Path(__file__).resolve().parent.parent
MOST_OF_LINE, MOST_OF_PART = 72, 24
MOST_SECONDS = 20
FOLDER = pathlib.Path(os.environ.get("PROGRAMS", TOP / "target/bin")).resolve()


class Wrong(Exception):
    """A program printed what it should not."""


def hold(condition, message):
    if not condition:
        raise Wrong(message)


def run(name, *words, text):
    """What a program prints about a text. It must end by itself, with status 0 and nothing on standard error."""
    command = [FOLDER / name, *words]
    try:
        done = subprocess.run(command, input=text, capture_output=True, timeout=MOST_SECONDS, close_fds=False)
    except subprocess.TimeoutExpired:
        raise Wrong(f"{name} {' '.join(words)}: not at its end after {MOST_SECONDS} seconds") from None
    if done.returncode != 0 or done.stderr:
        raise Wrong(f"{name} {' '.join(words)}: status {done.returncode}, {done.stderr[:200]!r} on standard error")
    return done.stdout


def refusal(text, program="benchplan"):
    """The number and the place by which a program refuses a text; 0 and 0 if it is taken."""
    answer = run(program, text=text).split()
    hold(answer, f"{program} prints nothing")
    return (int(answer[1]), int(answer[2])) if answer[0] == b"refused" else (0, 0)


def without_order(text):
    """A text that can be read, without its C lines."""
    return b"".join(line for line in text.splitlines(keepends=True) if not line.startswith(b"C"))


def with_proposal(text):
    """The plan of a text with the order that propose gives."""
    return without_order(text) + run("propose", text=text)


def examples():
    """By name, the plan texts of examples/, each with an order: its own, or the proposed one if it has none."""
    for path in sorted(TOP.glob("examples/*.txt")):
        text = path.read_bytes()
        yield path.name, with_proposal(text) if without_order(text) == text else text


def opening(number, place, text):
    """How the explanation of a refusal begins: 2 to 7 are found at a line, 10 and 11 at a position of the order, so at a C line."""
    if 2 <= number <= 7:
        return f"refused {number} at line {place}: "
    if number in (10, 11):
        first = next(k for k, line in enumerate(text.split(b"\n"), 1) if line.startswith(b"C"))
        return f"refused {number} at position {place} of the order, line {first + place}: "
    return f"refused {number}: "


def shown(part, most):
    """Bytes as they are quoted: a tab as an arrow, what cannot be shown by its hexadecimal number, cut where they are more than that."""
    signs = "".join("⇥" if b == 9 else chr(b) if 32 <= b <= 126 else f"<{b:02x}>" for b in part[:most])
    return signs + (" .." if len(part) > most else "")


def quoted(text, place, word=""):
    """The line that quotes a line of the text, with a word behind it."""
    lines = text.split(b"\n")
    hold(0 < place <= len(lines), f"the text has no line {place}, and it is quoted")
    return f"  line {place}: {shown(lines[place - 1], MOST_OF_LINE)}{word}"


def listed(numbers):
    """Numbers as the programs list them: "3", "3, 5 and 8"."""
    *others, last = map(str, sorted(numbers))
    return f"{', '.join(others)} and {last}" if others else last


def numbered(word, numbers):
    """Tasks or types as the programs name them: "task 3", "tasks 3, 5 and 8"."""
    return f"{word}{'s' if len(numbers) > 1 else ''} {listed(numbers)}"


def same_lines(printed, wanted):
    """The lines are these, byte for byte."""
    for k in range(max(len(printed), len(wanted))):
        line = printed[k] if k < len(printed) else "no line"
        due = wanted[k] if k < len(wanted) else "no line"
        hold(line == due, f"line {k + 1} of the output is\n    {line}\nand should be\n    {due}")


def fail(test, message):
    print(f"shown: {test}: {message}: FAILED")
    sys.exit(1)


def stop(test, case, text, wrong):
    """Ends a test with what is wrong, and a file with the text that shows it."""
    with tempfile.NamedTemporaryFile(prefix="shown-", suffix=".txt", delete=False) as file:
        file.write(text)
    fail(test, f"{case}: {wrong}\nthe text is in {file.name}")
