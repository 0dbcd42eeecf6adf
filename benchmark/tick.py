"""Ticks from Python, for the benchmark. Takes the words and prints the lines of tick.c; a round takes at least 20 milliseconds.
Use: PYTHONPATH=bindings/python python3 tick.py PLAN REPORTS
"""
import sys
import time
import benchplan

ROUND = 20_000_000


def tasks_of(word):
    return frozenset(task for task in range(64) if word >> task & 1)


def set_of(tasks):
    return sum(1 << task for task in tasks)


def run(plan, reports):
    """Start, and a tick for each report with the state that the tick before gave: number, place and started tasks of each."""
    state, _ = plan.start()
    answers = []
    for report in reports:
        try:
            state, started = state.tick(report)
            answers.append((0, 0, started))
        except benchplan.Refused as refusal:
            answers.append((refusal.number, refusal.place, ()))
    return answers


def one_tick(plan, reports):
    begin = time.perf_counter_ns()
    passed = runs = 0
    while passed < ROUND:
        run(plan, reports)
        runs += 1
        passed = time.perf_counter_ns() - begin
    return passed / runs / len(reports)


def main(plan_path, reports_path):
    with open(plan_path, "rb") as file:
        plan = benchplan.read(file.read())
    with open(reports_path) as file:
        reports = [tasks_of(int(line)) for line in file]
    for number, place, started in run(plan, reports):
        print(number, place, set_of(started), sep="\t")
    print(flush=True)
    for _ in sys.stdin:
        print(f"{one_tick(plan, reports):.1f}", flush=True)


main(*sys.argv[1:])
