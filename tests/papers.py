"""Holds the papers to the repository: the rules and the map of them, the formal names of the theorems, what the guide prints, and the links.

Use: papers.py. It names what is wrong, and ends with status 1 if anything is.
"""
import os
import re
import subprocess
import sys
from pathlib import Path

from programs import examples

TOP = Path(__file__).resolve().parent.parent
DOCS = TOP / "docs"
CRATES = TOP / "crates"
PROGRAMS = Path(os.environ.get("PROGRAMS", TOP / "target" / "bin")).resolve()
wrong = []


def read(path):
    return path.read_text(encoding="utf-8")


def must(holds, what):
    if not holds:
        wrong.append(what)


def any_file(pattern, words):
    """Whether some file of a pattern has a line that begins so."""
    return any(re.search(words, read(path), re.M) for path in CRATES.glob(pattern))


def is_declared(crate, file, name):
    """A definition of a file in specs/, a struct of src/, or a theorem of proofs/."""
    name = re.escape(name)
    if file == "struct":
        return any_file(f"{crate}/src/*.rt", rf"^pub struct {name}\b")
    if file == "theorem":
        return any_file(f"{crate}/proofs/*.antt", rf"^\s*pub {name} :")
    return any_file(f"{crate}/specs/{file}.antt", rf"^\s*(unfoldable |abbrev )?pub (record |data )?{name}[\s:]")


def rules():
    """The rules by number, each on one line."""
    text = re.sub(r"\n  +", " ", read(DOCS / "RULES.md"))
    found = re.findall(r"^(?:- |\| )\*\*(\d+)\.(\d+)\*\*(.*)$", text, re.M)
    for chapter in {int(c) for c, _, _ in found}:
        numbers = [int(n) for c, n, _ in found if int(c) == chapter]
        must(numbers == list(range(1, len(numbers) + 1)), f"RULES: the numbers of chapter {chapter}")
    return {f"{c}.{n}": rule for c, n, rule in found}


def check_definitions(by_number):
    """Each rule ends with its definitions, and they are there."""
    for number, rule in by_number.items():
        ends = re.findall(r"(?<!\*)\*([^*]+)\*(?!\*)\s*\|?\s*$", rule)
        must(ends, f"RULES {number}: no definition is named")
        for crate, file, names in re.findall(r"(\w+) (\w+) ((?:`[^`]+`(?:, )?)+)", ends[-1] if ends else ""):
            for name in re.findall("`([^`]+)`", names):
                must(is_declared(crate, file, name), f"RULES {number}: there is no {crate} {file} {name}")


def check_map(by_number):
    """Each rule has a row and each row a rule; each edit that is named is there, and each that is there is named."""
    text = read(DOCS / "SPEC-MAP.md")
    rows = [row.split(" | ") for row in re.findall(r"^\| (\d.*) \|$", text, re.M)]
    named = {number for row in rows for number in re.findall(r"\d+\.\d+", row[0])}
    must(named == set(by_number), f"SPEC-MAP and RULES differ in {sorted(named ^ set(by_number))}")
    edits = {path.stem for path in CRATES.glob("*/must-fail/*.edit")}
    known = {path.name for path in CRATES.iterdir()} | edits
    for edit in sorted(edits):
        must(re.search(rf"\b{edit}\b", text), f"SPEC-MAP: the edit {edit} guards no rule")
    for row in rows:
        for word in re.findall(r"\b[a-z]+(?:_[a-z0-9]+)+\b", re.sub("`[^`]*`", "", row[-1])):
            must(word in known, f"SPEC-MAP {row[0]}: there is no edit {word}")


def check_theorems():
    """Each formal name of METHOD is declared somewhere."""
    text = read(DOCS / "METHOD.md")
    theorems = re.split(r"\*\*Theorem \d+ ", text)[1:]
    must(len(theorems) == 15, "METHOD: the theorems")
    for formal in re.findall(r"\*Formal:\*(.*?)\n\n", text, re.S):
        for name in re.findall(r"`(\w+)`", formal):
            if name != "ensures":
                must(any_file("*/*/*.antt", rf"^\s*(unfoldable |abbrev )?pub (record )?{name}[\s:]"), f"METHOD: there is no {name}")


def output(program, text):
    return subprocess.run([PROGRAMS / program[0], *program[1:]], input=text, capture_output=True, check=True, timeout=60).stdout.decode()


def check_schedule(guide):
    """The schedule of the chapter, without the words beside it, is the example; its order and the timetable of that order stand below it."""
    chapter = guide.split("## Schedules from other tools")[1]
    listing, order, timetable = chapter.split("```\n")[1:6:2]
    shown = "".join(line.split()[0].replace("⇥", "\t") + "\n" for line in listing.splitlines())
    must(shown == read(TOP / "examples/schedules/two-cameras.txt"), "guide: the schedule")
    lines = read(TOP / "examples/two-cameras.txt").splitlines(keepends=True)
    plan = "".join(line for line in lines if not line.startswith("C")) + order.replace("⇥", "\t")
    printed = output(["benchplan"], plan.encode())
    must(printed == timetable.replace("⇥", "\t"), "guide: the timetable of the schedule's order")
    last = max(int(line.split()[3]) for line in shown.splitlines())
    bound = printed.split()[-1]
    must(f"`last finish {last}, bound {bound}`" in chapter, "guide: the schedule's last finish and its bound")


def check_guide():
    """What the programs print stands in the guide, with its sign for tabs, and so does each use of the command."""
    guide = read(DOCS / "USER-GUIDE.md")
    must("\t" not in guide, "the guide has a tab that is not its sign")
    for use in re.findall(r"benchplan (?:\w+ )?\[FILE\]", read(TOP / "benchplan")):
        must(f"./{use}" in guide, f"guide: {use}")
    for name, plan in examples():
        shown = output(["benchplan"], plan).replace("\t", "⇥")
        must(name == "deadlines.txt" or shown in guide, f"guide: the timetable of {name}")
    proposed = output(["propose"], (TOP / "examples/three-cores.txt").read_bytes()).replace("\t", "⇥")
    must(proposed in guide, "guide: the order that is proposed for three-cores.txt")
    for plan in ("deadlines.txt", "fluorescence.txt"):
        shown = output(["margins"], (TOP / "examples" / plan).read_bytes()).replace("\t", "⇥")
        must(shown in guide, f"guide: the margins of {plan}")
    for plan in ("two-cameras.txt", "warm-lamp.txt"):
        must(output(["show", "why"], (TOP / "examples" / plan).read_bytes()) in guide, f"guide: why of {plan}")
    check_schedule(guide)
    told = output(["show", "explain"], (CRATES / "show/stdin").read_bytes())
    must("".join(f"benchplan: {line}\n" for line in told.splitlines()) in guide, "guide: the sentence of a refusal")


def check_links():
    for paper in [TOP / "README.md", TOP / "CHANGELOG.md", *sorted(DOCS.rglob("*.md"))]:
        for link in re.findall(r"\]\(([^)#]+)", read(paper)):
            must("://" in link or (paper.parent / link).exists(), f"{paper.name}: there is no {link}")


def main():
    by_number = rules()
    check_definitions(by_number)
    check_map(by_number)
    check_theorems()
    check_guide()
    check_links()
    for what in wrong:
        print(f"papers: {what}")
    print(f"papers: {len(by_number)} rules, {len(wrong)} things wrong")
    sys.exit(1 if wrong else 0)


main()
