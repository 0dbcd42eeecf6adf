"""Copies of headers in which two neighbouring fields of one struct are exchanged, each in a folder of its own with all that stands beside it:
the layout test must notice each. Use: swapped.py FOLDER HEADER .. (prints the folders).
"""
import pathlib
import re
import sys

STRUCT = re.compile(r"(typedef struct \{)([^{}]*)(\} (\w+);)")


def fields_of(body):
    """Each field as a declaration of its own."""
    for declaration in filter(None, map(str.strip, body.split(";"))):
        kind, names = declaration.split(None, 1)
        for name in names.split(","):
            yield f"{kind} {name.strip()};"


def swaps_of(text):
    """The name of each exchange, and the text with it."""
    for struct in STRUCT.finditer(text):
        fields = list(fields_of(struct[2]))
        for k in range(len(fields) - 1):
            swapped = fields[:k] + [fields[k + 1], fields[k]] + fields[k + 2 :]
            body = struct[1] + " ".join(swapped) + struct[3]
            yield f"{struct[4]}-{k}", text[: struct.start()] + body + text[struct.end() :]


folder, *headers = map(pathlib.Path, sys.argv[1:])
texts = {header.name: header.read_text() for header in headers}
for name, text in texts.items():
    if len(STRUCT.findall(text)) != text.count("typedef struct"):
        sys.exit(f"{name}: a struct that is not in the form that this script reads")
    for swap, swapped in swaps_of(text):
        place = folder / swap
        place.mkdir(parents=True)
        for other in texts:
            (place / other).write_text(swapped if other == name else texts[other])
        print(place)
