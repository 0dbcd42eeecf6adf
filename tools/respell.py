#!/usr/bin/env python3
"""Brings the repository's own names to snake case, once, after port.py: usage: tools/respell.py [FOLDER]

The names are those that .antt files below crates/*/specs and crates/*/proofs declare, but for the files of a function's proof
(proofs/F/Proof.antt). A name turns if it has a capital behind a small letter or a digit, or a dash: `mayStart` is `may_start`,
`has-past` is `has_past`. What Rattle makes keeps its dashes: names behind a dot in the files of a function's proof, and the names
that only these declare, but for `F-spec`, which is `F_spec`. Types, modules, functions of src/, strings, inputs and outputs keep
their names. Turned are .antt and .rt files, must-fail/*.edit, tests/sentences/*.txt and the code spans of the pages in docs/.
It prints the names that would fall together with another one, and writes nothing then.
"""
import collections
import glob
import os
import re
import sys

WORD = re.compile(r"[^\s(){}.;,@\"«»`\[\]]+")
DECLARED = re.compile(r"^[ \t]*(?:(?:abbrev|unfoldable|pub|record|data)[ \t]+)*([^\s:(){}.,;]+)[ \t]*(?:[({][^\n]*[)}][ \t]*)?:(?!=)", re.M)
CONSTRUCTOR = re.compile(r"^[ \t]*[|]?[ \t]*([a-z][^\s:(){}.,;]*)[ \t]*:", re.M)
PATH = r"(?m)^(?:ghost )?use [\w.+'-]+?(?= as |\.\{|;|$)"
MADE = re.compile(r"(returns|invariant-loop|decreases-loop|loop-(init|preserved|smaller)|tie|goal)(-\d+)?$")


def texts(root, *ends):
    for folder, dirs, files in os.walk(os.path.join(root, "crates")):
        dirs[:] = sorted(d for d in dirs if d not in ("out", "target"))
        for f in sorted(files):
            if f.endswith(ends):
                yield os.path.join(folder, f)


def read(path):
    with open(path, encoding="utf-8") as f:
        return f.read()


def of_function(path):
    return os.path.basename(path) in ("Proof.antt", "Answers.antt", "Invariants.antt")


def bare(text):
    return re.sub(r"--[^\n]*", "", text)


def in_snake_case(name):
    words = re.sub(r"(?<=[a-z0-9])[A-Z]", lambda m: "_" + m[0].lower(), name)
    return re.sub(r"(?<=[\w'₀-₉])-(?=\w)", "_", words)


def turned(text, table, behind_dots=True, dashes=True):
    """The words of the text by the table; with dashes=False only those with capitals."""
    def one(m):
        word = m[0]
        if word not in table or (not dashes and not re.search(r"[a-z0-9][A-Z]", word)):
            return word
        if not behind_dots and m.start() and text[m.start() - 1] == ".":
            return word
        return table[word]
    return WORD.sub(one, text)


def by_parts(text, pattern, inside, outside):
    """`inside` of what fits the pattern, `outside` of the rest."""
    out, at = [], 0
    for m in re.finditer(pattern, text):
        out += [outside(text[at:m.start()]), inside(m[0])]
        at = m.end()
    return "".join(out + [outside(text[at:])])


def antt(text, table, proof=False):
    code = lambda t: by_parts(t, PATH, lambda u: u, lambda u: turned(u, table, behind_dots=not proof))
    said = lambda t: by_parts(t, r"`[^`\n]*`", code, lambda u: turned(u, table, dashes=False))
    return by_parts(text, r"(?m)(?<!\S)--[^\n]*", said, code)


def rt(text, table):
    said = lambda t: by_parts(t, r"`[^`\n]*`", lambda u: turned(u, table), lambda u: turned(u, table, dashes=False))
    code = lambda t: by_parts(t, PATH, lambda u: u, lambda u: turned(u, table))
    return by_parts(text, r'//[^\n]*|b?"(?:[^"\\\n]|\\.)*"', lambda t: said(t) if t.startswith("//") else t, code)


def main(root):
    names, uses = set(), collections.defaultdict(set)
    for path in texts(root, ".antt"):
        text = bare(read(path))
        free = re.sub(PATH, "", text)
        uses[path] = set(WORD.findall(re.sub(r"\.[\w-]+", "", free) if of_function(path) else free))
        if of_function(path):
            continue
        for m in DECLARED.finditer(text):
            names.add(m[1])
    table = {}
    for name in names:
        if MADE.match(name) or not re.match(r"[a-zμ]", name):
            continue
        if in_snake_case(name) != name:
            table[name] = in_snake_case(name)
    for old in sorted(table, key=lambda n: ("-" not in n, n)):
        if "-" in old and (table[old] in names or [n for n in table if "-" not in n and table[n] == table[old]]):
            table[old] += "_lem"
        elif "-" not in old and table[old] in names:
            table[table[old]] = table[old] + "_lem"
    bad = 0
    back = collections.defaultdict(set)
    for old, new in table.items():
        back[new].add(old)
    for new, olds in sorted(back.items()):
        if len(olds) > 1:
            print(f"together: {' '.join(sorted(olds))}: {new}")
            bad += 1
    for path, words in sorted(uses.items()):
        came = collections.defaultdict(list)
        for word in sorted(words):
            came[table.get(word, word)].append(word)
        for new, olds in came.items():
            if len(olds) > 1:
                print(f"together: {os.path.relpath(path, root)}: {' '.join(olds)}: {new}")
                bad += 1
    if bad and "--force" not in sys.argv:
        print(f"{bad} names would fall together; nothing is written")
        return 1
    changed = 0

    def write(path, text):
        nonlocal changed
        if text != read(path):
            changed += 1
            with open(path, "w", encoding="utf-8") as f:
                f.write(text)

    for path in texts(root, ".antt"):
        text = antt(read(path), table, of_function(path))
        if of_function(path):
            text = re.sub(r"(?m)^((?:pub )?)([\w+-]+)-spec(?= (?::|=)|\n)", lambda m: m[1] + m[2].replace("-", "_") + "_spec", text)
        write(path, text)
    for path, word in [(p, w) for p, ws in uses.items() for w in sorted(ws) if w in table and table[w] == w + "_lem" and "-" not in w]:
        print(f"lemma: {os.path.relpath(path, root)}: {word}: {table[word]}")
    plain, table = table, {k: v for k, v in table.items() if "-" in k or re.search(r"[a-z0-9][A-Z]", k)}
    for path in texts(root, ".rt"):
        write(path, rt(read(path), table))
    for path in texts(root, ".edit"):
        lines = read(path).split("\n")
        write(path, "\n".join(rt(l, table) if l.startswith(("old:", "new:")) else turned(l, table, dashes=False) for l in lines))
    for path in sorted(glob.glob(os.path.join(root, "tests/sentences/*.txt"))):
        lines = read(path).split("\n")
        write(path, "\n".join(turned(l, table) if l.startswith(("old:", "new:", "row:")) else l for l in lines))
    for path in sorted(glob.glob(os.path.join(root, "docs/*.md")) + glob.glob(os.path.join(root, "docs/landings/*.md")) + [os.path.join(root, "README.md")]):
        if os.path.exists(path) and os.path.basename(path) != "PORT.md":
            write(path, by_parts(read(path), r"`[^`\n]+`", lambda t: turned(t, table), lambda t: t))
    print(f"{len(table)} names, {changed} files changed")
    return 0


if __name__ == "__main__":
    sys.exit(main(os.path.abspath(next((a for a in sys.argv[1:] if not a.startswith("--")), "."))))
