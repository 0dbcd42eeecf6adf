"""The header, the Python module and the user guide say the same: version, limits, and a sentence for each refusal. The header's is the guide's
up to the first colon or semicolon. The version is that of the file VERSION, in CITATION.cff and the changelog's newest heading too.
Use: agree.py TOP (with the module on the path).
"""
import pathlib
import re
import sys

import benchplan

top = pathlib.Path(sys.argv[1])
header = (top / "include/benchplan.h").read_text()
guide = (top / "docs/USER-GUIDE.md").read_text().replace("`", "")
version = (top / "VERSION").read_text().rstrip("\n")
citation = (top / "CITATION.cff").read_text()
changelog = (top / "CHANGELOG.md").read_text()

macros = dict(re.findall(r"#define (BENCH\w+) (\d+)", header))
refusals = {int(number): comment for number, comment in re.findall(r"= (\d+),? +/\* (.*?) \*/", header)}
rows = {int(number): cell for number, cell in re.findall(r"^\| (\d+) \| ([^|]*) \|", guide, re.MULTILINE)}
given = set(range(1, 24)) - {15}
major, minor, last = map(int, version.split("."))
packed = str(major * 10000 + minor * 100 + last)
newest = re.search(r"^## .*$", changelog, re.MULTILINE).group()


def shortened(sentence):
    return re.split("[:;]", sentence)[0]


faults = [
    f"{name} is {ours} in the module and {macros.get(macro)} in the header"
    for name, macro, ours in [
        ("TASKS", "BENCH_TASKS", benchplan.TASKS),
        ("TIMETABLE_MOST", "BENCH_TIMETABLE_MOST", benchplan.TIMETABLE_MOST),
        ("ANSWER_MOST", "BENCH_ANSWER_MOST", benchplan.ANSWER_MOST),
    ]
    if macros.get(macro) != str(ours)
]
for where, numbers in ("module", benchplan.SENTENCES), ("header", refusals), ("guide", rows):
    if missing := given - set(numbers):
        faults.append(f"the {where} has no sentence for {sorted(missing)}")
for number, sentence in benchplan.SENTENCES.items():
    if rows.get(number) != sentence:
        faults.append(f"{number}: the module says {sentence!r}, the guide {rows.get(number)!r}")
    if refusals.get(number) != shortened(sentence):
        faults.append(f"{number}: the module says {sentence!r}, the header {refusals.get(number)!r}")
for where, said, wanted in [
    ("header", re.findall(r"#define BENCHPLAN_VERSION (\d+) +/\* ([\d.]+):", header), (packed, version)),
    ("module", [str(benchplan.VERSION)], packed),
    ("guide", re.findall(r"libbenchplan\.so\.(\d+)", guide), packed),
    ("citation", re.findall(r"^version: (.*)$", citation, re.MULTILINE), version),
    ("changelog's newest heading", re.findall(r"\(version (.*)\)$", newest), version),
]:
    if set(said) != {wanted}:
        faults.append(f"VERSION says {version}, and the {where} {said}")
for macro, digits in macros.items():
    if macro in ("BENCH_STACK_MOST", "BENCH_TIMETABLE_MOST", "BENCH_TEXT_MOST") and f"{int(digits):,}" not in guide:
        faults.append(f"the guide does not say {macro}, {int(digits):,}")

print(*faults or ["the header, the module, the guide and the version agree"], sep="\n")
sys.exit(bool(faults))
