"""The places that docs/DESIGN-PASS.md counts: tools/design_places.py ROOT [-v]. With -v each place is named."""
import collections
import pathlib
import re
import sys

ROOT = pathlib.Path(sys.argv[1]) / "crates"
NAMED = "-v" in sys.argv
TEXTS = {f: f.read_text() for f in sorted(ROOT.glob("*/src/**/*.rt"))}
KEPT = set("fn pub let mut while for in if else return match as self Result Ok Err Vec Some None T C S N".split())


def functions():
    """Each function: its file, name, text, and its head up to the clauses or the body."""
    for file, text in TEXTS.items():
        lines = text.split("\n")
        for i, line in enumerate(lines):
            m = re.match(r'^(\s*)(pub )?(extern "C" )?fn (\w+)', line)
            if not m:
                continue
            end = i
            while not lines[end].startswith(m.group(1) + "}"):
                end += 1
            body = "\n".join(lines[i : end + 1])
            head = re.split(r"\n\s*(?:requires|ensures)\b|\{\s*$", body, maxsplit=1, flags=re.M)[0]
            yield file, m.group(4), body, head


FUNCTIONS = list(functions())


def item(file, number):
    """The function, struct, enum or constant that a line stands in or before."""
    text = TEXTS[file].split("\n")
    heads = [(i, m.group(1)) for i, line in enumerate(text, 1) if (m := re.match(r'^\s*(?:pub )?(?:extern "C" )?(?:fn|struct|enum|const) (\w+)', line))]
    if text[number - 1].lstrip().startswith("//"):
        return next((n for i, n in heads if i > number), "")
    return next((n for i, n in reversed(heads) if i <= number), "")


def lines(pattern):
    return [(f, item(f, i), line.strip()) for f, t in TEXTS.items() for i, line in enumerate(t.split("\n"), 1) if re.search(pattern, line)]


def parameters(head):
    found = re.findall(r"\b(?:mut )?(\w+): [^,()]*(?:\([^()]*\)[^,()]*)*", head)
    return [p for p in found if p not in ("out", "buffer", "reader", "writer")]


def shape(body):
    """A function with names numbered, and numbers, texts, sizes and constants left out."""
    t = re.sub(r"//.*", "", body)
    t = re.sub(r"^\s*(requires|ensures).*?(?=^\s*\{$)", "", t, flags=re.M | re.S)
    for pattern, mark in ((r'b?"[^"]*"', "S"), (r"b'[^']*'|\b\d+\b", "N"), (r"\b(u8|u16|u32|u64|usize|i64)\b", "T"), (r"\b[A-Z][A-Z_0-9]+\b", "C")):
        t = re.sub(pattern, mark, t)
    names = {}
    t = re.sub(r"\b[A-Za-z_]\w*\b", lambda m: m.group(0) if m.group(0) in KEPT else names.setdefault(m.group(0), f"v{len(names)}"), t)
    return re.sub(r"\s+", " ", t).replace("pub ", "")


def say(name, places):
    print(f"{len(places):4}  {name}")
    for place in places if NAMED else ():
        print("          ", *(str(x).replace(f"{ROOT}/", "") for x in place))


def by_hand(body):
    short = len(body.split("\n")) <= 12
    return short and re.search(r"if (\w+) <=? (\w+) \{\s*(return )?(\1|\2);?\s*\}", body)


say("1a enums", lines(r"^\s*(pub )?enum "))
say("1b a refusal's number among other fields, or beside a place", lines(r"\bnumber: u32,"))
say("1c fields and parameters that are bool, one a line", lines(r"^\s*(pub )?\w+: bool,$"))
say("1d numbers for kinds: constants, parameters on one line", lines(r"const KIND_|\b(kind|part|number|letter): (u8|u32|u64)\b(?!,$)"))
say("1e comments that name a value for none", lines(r"^\s*//.*(where (there (is|are)|it has|it is) none|for none|where there is no|while none|0 past|; 0 (where|for|past)|answers? 0\b)"))
groups = collections.defaultdict(list)
for f, n, b, h in FUNCTIONS:
    if len(b.split("\n")) >= 5:
        groups[shape(b)].append(f"{f.relative_to(ROOT).parts[0]}::{n}")
twins = sorted((v for v in groups.values() if len(v) > 1), key=len, reverse=True)
say("2  groups of functions that are alike but for names, types, sizes and constants", twins)
print(f"{sum(map(len, twins)):4}   functions in them")
say("3a `while` loops", lines(r"^\s*while "))
say("3b `for` over a range of indices", lines(r"^\s*for \w+ in .*\.\."))
say("4a casts by `as`", lines(r"\bas (u8|u16|u32|u64|usize|i64)\b"))
say("4b the lesser or the greater of two by hand", [(f, n) for f, n, b, h in FUNCTIONS if by_hand(b)])
say("5a functions of six parameters or more, a lent buffer aside", [(f, n) for f, n, b, h in FUNCTIONS if len(parameters(h)) >= 6])
facts = collections.Counter(re.sub(r"\s+", " ", m) for f, n, b, h in FUNCTIONS for m in re.findall(r"requires (?:\w+ )?(\{.*?\})\s*\n", b, re.S))
say("5b facts that three functions or more require", [(k, v) for k, v in facts.items() if v >= 3])
say("6  functions that take an array and how much of it counts", [(f, n) for f, n, b, h in FUNCTIONS if re.search(r"\b(len|count|n): usize", h) and "[" in h])
say("7  functions with a parameter that is bool", [(f, n) for f, n, b, h in FUNCTIONS if re.search(r"\b\w+: bool", h.split("->")[0])])
print(f"{len(FUNCTIONS):4}  functions in {sum(len(t.splitlines()) for t in TEXTS.values())} lines")
