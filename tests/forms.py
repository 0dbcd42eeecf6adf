"""What the sentence of refusal 2 says of a line must be true of it: for each sentence, by how it begins, what the line must be like."""
import re

from programs import MOST_OF_PART, hold, opening, shown

# By the letter of a line, its article and the names of its numbers.
FORMS = {
    b"U": ("a", ["type", "count"]),
    b"T": ("a", ["task", "type", "best", "worst"]),
    b"A": ("an", ["from", "to"]),
    b"D": ("a", ["task", "instant"]),
    b"N": ("an", ["task", "instant"]),
    b"C": ("a", ["task", "type"]),
}
FIELD = re.compile(r'number (\d+) of the line, "([^"]*)", ')
SIGN = re.compile(r'the line has a character that is not plain ASCII, "((?:<[89a-f][0-9a-f]>)+)", ')


def is_comment(line):
    return line.lstrip(b" \t")[:1] in [b"#", b"/", b";", b"%", b"!"] or b"#" in line or b"//" in line


def fields(line):
    return line.split(b"\t")[1:]


def is_utf16(line):
    return line[:2] in (b"\xff\xfe", b"\xfe\xff") or b"\0" in line[:2] and line[:4].count(b"\0") == 2


# By how a sentence begins.
TRUE_OF = {
    "the text is saved as UTF-16": is_utf16,
    "the text begins with a byte order mark": lambda line: line.startswith(b"\xef\xbb\xbf"),
    "the line has a carriage return": lambda line: b"\r" in line,
    "the line has a zero byte": lambda line: b"\0" in line,
    "the sign ⇥ stands for a tab": lambda line: "⇥".encode() in line,
    "the line is blank": lambda line: not line.strip(b" \t"),
    "the line is a comment": is_comment,
    "the line has a comment": is_comment,
    "the line has quotation marks": lambda line: b'"' in line,
    "the line begins with a tab": lambda line: line.startswith(b"\t"),
    "the line begins with a space": lambda line: line.startswith(b" "),
    "the line ends in a space": lambda line: line.endswith(b" "),
    "the line has spaces": lambda line: b" " in line,
    "the letter is a small one; write U, T, A, D, N or C": lambda line: re.match(rb"[utadnc]\t", line),
    "commas or semicolons": lambda line: line[1:2] in (b",", b";"),
    "a line begins with one letter, U, T, A, D, N or C, and a tab; there are no headings": lambda line: re.match(rb"[A-z]{2}", line),
    "a line begins with one of the letters U, T, A, D, N and C, and a tab": lambda line: not re.match(rb"[UTADNC]\t", line),
    "the line ends in a tab": lambda line: line.endswith(b"\t"),
    "the last line does not end": lambda line: len(fields(line)) == len(FORMS[line[:1]][1]),
}


def check_field(line, sentence, found):
    """The field that is quoted is the one that is named, and it is none that rule 3.4 allows."""
    field = b"".join(fields(line)[int(found[1]) - 1 : int(found[1])])
    hold(found[2] == shown(field, MOST_OF_PART), f"the field is {field}, and is quoted so: {found[2]}")
    hold(not re.fullmatch(rb"0|[1-9]\d{0,6}", field), f"{field} is a number, and the sentence is: {sentence}")


def check_counts(line, sentence):
    """Two tabs, and too few or too many numbers; whether the sentence is of these."""
    if found := re.match(r"two tabs stand before number (\d+);", sentence):
        hold(fields(line)[int(found[1]) - 1 : int(found[1])] == [b""], f"number {found[1]} is there: {line}")
    elif found := re.fullmatch(r"an? . line has \d numbers: .*; this one has \d+", sentence):
        article, names = FORMS[line[:1]]
        due = f"{article} {line[:1].decode()} line has {len(names)} numbers: {', '.join(names)}; this one has {len(fields(line))}"
        hold(sentence == due and len(names) != len(fields(line)), f"the line is {line}, and the sentence is: {sentence}")
    return bool(found)


def check(text, place, told):
    sentence = told.removeprefix(opening(2, place, text))
    line = text.split(b"\n")[place - 1]
    if found := FIELD.match(sentence):
        check_field(line, sentence, found)
    elif found := SIGN.match(sentence):
        sign = bytes.fromhex(re.sub("[<>]", "", found[1]))
        hold(sign in line and re.fullmatch(rb"[\x80-\xff][\x80-\xbf]*", sign), f"the character is not that of {line}: {found[1]}")
    elif not check_counts(line, sentence):
        begins = [begin for begin in TRUE_OF if sentence.startswith(begin)]
        hold(begins and TRUE_OF[begins[0]](line), f"the line is {line[:200]}, and the sentence is: {sentence}")
