"""The plan text with the order of a schedule that was worked out elsewhere. A plan text in one file, with C lines or without; in the other a line for
each record: task, type, start and finish, with tabs or blanks between. Writes the text, for ./benchplan, to standard output; says on standard error the
schedule's last finish and the bound, or what is wrong (exit status 1, and nothing is written).
Use: PYTHONPATH=bindings/python python3 examples/python/adopt_schedule.py PLAN SCHEDULE > NEW-PLAN
"""
import sys
import benchplan


def records_of(path):
    """The records, each with its line in the file; a blank line is none."""
    with open(path, encoding="utf-8-sig", errors="replace") as file:
        for line, text in enumerate(file, 1):
            words = text.split()
            if words:
                if len(words) != 4 or not all(word.isascii() and word.isdigit() for word in words):
                    sys.exit(f"{path}, line {line}: not task, type, start and finish: {text.strip()}")
                yield line, benchplan.Record(*map(int, words))


def sentence(refusal, plan_path, schedule_path, listed):
    """What is refused, and where: the plan, the count of records, or a record, which is shown with its line."""
    if refusal.number == 8:
        return f"{plan_path} is {refusal}. ./benchplan {plan_path} says which"
    if refusal.place == len(listed):
        return f"{schedule_path} is {refusal}. It has {len(listed)} records"
    line, record = listed[refusal.place]
    return f"{schedule_path} is {refusal}. Line {line}: {' '.join(map(str, record))}"


def main(plan_path, schedule_path):
    with open(plan_path, "rb") as file:
        text = file.read()
    listed = list(records_of(schedule_path))
    try:
        plan = benchplan.read(text)
    except benchplan.Refused as refusal:
        sys.exit(f"{plan_path} is {refusal}. ./benchplan {plan_path} says why")
    try:
        adopted = plan.adopt(record for line, record in listed)
    except benchplan.Refused as refusal:
        sys.exit(sentence(refusal, plan_path, schedule_path, listed))
    except ValueError as error:
        sys.exit(f"{schedule_path}: {error}")
    print(f"last finish {max(record.finish for line, record in listed)}, bound {adopted.bound().response}", file=sys.stderr)
    kept = (line for line in text.splitlines(keepends=True) if not line.startswith(b"C"))
    sys.stdout.buffer.write(b"".join(kept) + b"".join(b"C\t%d\t%d\n" % entry for entry in adopted.order))


if len(sys.argv) != 3:
    sys.exit("use: adopt_schedule.py PLAN SCHEDULE > NEW-PLAN")
try:
    main(*sys.argv[1:])
except OSError as error:
    sys.exit(f"adopt_schedule.py: {error}")
