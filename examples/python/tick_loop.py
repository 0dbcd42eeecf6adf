"""A tick loop. A plan text in a file; on standard input a line for each tick, with the tasks that have finished since the tick before.
Use: PYTHONPATH=bindings/python python3 examples/python/tick_loop.py PLAN < REPORTS
"""
import sys
import benchplan


def say(instant, begin):
    print(f"instant {instant}: begin", *sorted(begin))


def main(path):
    with open(path, "rb") as file:
        text = file.read()
    try:
        plan = benchplan.read(text)
    except benchplan.Refused as refusal:
        sys.exit(f"the text is refused: {refusal}")
    try:
        state, begin = plan.start()
    except benchplan.Refused as refusal:
        sys.exit(f"the plan is refused: {refusal}")
    instant = 0
    say(instant, begin)
    for line in sys.stdin:
        try:
            state, begin = state.tick({int(word) for word in line.split()})
            instant += 1
            say(instant, begin)
        except ValueError:
            print("no tasks: report again")
        except benchplan.Refused as refusal:
            if refusal.number == 13:
                return print("the run is over")
            if refusal.number == 14:
                print(f"task {refusal.place} is not running: report again")
            elif refusal.number == 16:
                print(f"task {refusal.place} has run its worst time: if it has finished, report again with it, otherwise stop")
            else:
                sys.exit(f"the state was altered: {refusal}")
    sys.exit("no more reports")


if len(sys.argv) != 2:
    sys.exit("use: tick_loop.py PLAN < REPORTS")
main(sys.argv[1])
