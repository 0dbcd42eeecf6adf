"""What the Python module does by itself, before and after the library's calls, on plan A. Use: module.py PLAN (with the module on the path)."""
import sys

import benchplan

text = open(sys.argv[1], "rb").read()
plan = benchplan.read(text)
worst = [2, 3, 4, 3, 2]


def refusal_of(call, *words):
    try:
        call(*words)
    except benchplan.Refused as refusal:
        assert refusal.sentence == benchplan.SENTENCES[refusal.number] and refusal.sentence in str(refusal)
        return refusal.number, refusal.place
    return 0, 0


def raises(error, call, *words):
    try:
        call(*words)
    except error:
        return True
    return False


# Times of any size: what does not fit 32 bits is refused and not cut off.
assert refusal_of(plan.simulate, worst) == (0, 0)
assert refusal_of(plan.simulate, [2, 3, 2**32 + 1, 3, 2]) == (18, 2)
assert refusal_of(plan.timetable, [2, 3, 4, 2**64 + 1, 2]) == (18, 3)
assert refusal_of(plan.simulate, [2, -1, 4, 3, 2]) == (18, 1)
assert refusal_of(plan.simulate, []) == (17, 0)
assert raises(TypeError, plan.simulate, [2, 3, 4.0, 3, 2])

# Any iterable is taken, and any bytes; text is not.
assert plan.simulate(iter(worst)) == plan.simulate(worst) == plan.bound()
assert refusal_of(benchplan.read, b"") == (0, 0) and refusal_of(benchplan.read, memoryview(b"X")) == (2, 1)
assert refusal_of(benchplan.read, bytearray(32769)) == (1, 0)
assert raises(TypeError, benchplan.read, "U\t0\t1\n") and raises(TypeError, benchplan.read, 5)
assert benchplan.answer(b"") == b"refused\t8\t0\n"

# Schedules: any iterable of four numbers; what does not fit 32 bits is not cut off. A plan with gaps comes back with a smaller bound.
schedule = [(0, 0, 10, 12), (1, 0, 0, 3), (2, 1, 12, 16), (3, 1, 3, 6), benchplan.Record(4, 0, 20, 22)]
adopted = plan.adopt(iter(schedule))
assert adopted.order == [(1, 0), (3, 1), (0, 0), (2, 1), (4, 0)] and adopted.bound().response == 11
assert plan.order == [(0, 0), (1, 0), (2, 1), (3, 1), (4, 0)] and plan.bound().response == 8
assert refusal_of(plan.adopt, []) == (20, 0) and refusal_of(plan.adopt, schedule * 20) == (20, 100)
assert refusal_of(plan.adopt, schedule[:4] + [(4, 1, 20, 22)]) == (21, 4)
assert refusal_of(plan.adopt, schedule[:4] + [(4, 0, 2**32 - 1, 1)]) == (21, 4)
assert refusal_of(plan.adopt, schedule[:4] + [(4, 0, 15, 17)]) == (22, 4)
assert raises(ValueError, plan.adopt, schedule[:4] + [(4, 0, 2**32 - 3, 2**32 + 2**32 - 1)])
assert raises(ValueError, plan.adopt, schedule[:4] + [(-1, 0, 20, 22)])
for odd in (0, 0, 0), (0, 0, 0, 2, 2), (0, 0, 0.0, 2), "0002", (0, 0, None, 2), 0:
    assert raises(TypeError, plan.adopt, [odd])
assert refusal_of(benchplan.read(b"").adopt, schedule) == (8, 0)

# Proposals: an order for a text without C lines; those of a text play no part. The plan that was asked stays as it was.
bare = text[: text.index(b"C")]
asked = benchplan.read(bare + b"C\t4\t1\n")
assert refusal_of(asked.check) == (9, 1) and asked.propose().order == benchplan.read(bare).propose().order == plan.order
assert asked.order == [(4, 1)] and plan.propose().bound() == plan.bound() and adopted.propose().bound() == plan.bound()
assert refusal_of(benchplan.read(bare + b"A\t4\t0\n").propose) == (23, 0) and refusal_of(benchplan.read(b"").propose) == (8, 0)

# Rooms: 19 tells the bytes that are needed.
table = plan.worst_timetable()
assert table.endswith(b"R\t8\n") and plan.timetable(worst, len(table)) == table
assert refusal_of(plan.worst_timetable, len(table) - 1) == refusal_of(plan.timetable, worst, 0) == (19, len(table))

# Sets: numbers that are no task's do not reach the library; a refused tick leaves the state as it was.
state, begin = plan.start()
assert begin == {0} and raises(ValueError, state.tick, {64}) and raises(ValueError, state.tick, {-1})
assert refusal_of(state.tick, {63, 5}) == (14, 5)
assert state.tick([0])[1] == state.tick((0, 0))[1] == {1, 2}
after, begin = state.tick(())
assert refusal_of(after.tick, ()) == refusal_of(after.tick, {3}) == (16, 0) and after.tick({0})[1] == {1, 2}

# A replay: what start began, an answer for each tick, and the state after the last.
replayed = plan.replay([{0}, {4}, {1, 2}])
assert replayed.started == {0} and replayed.ticks == [(0, 0, {1, 2}), (14, 4, set()), (0, 0, {3, 4})]
assert refusal_of(replayed.state.tick, {3, 4}) == (0, 0) and plan.replay([]).ticks == []
assert raises(ValueError, plan.replay, [{64}])

# Task 1 not before 4: the ticks until then begin nothing.
warm = benchplan.read(text.replace(b"C", b"N\t1\t4\nC", 1))
assert warm.bound().response == 10 and [began for _, _, began in warm.replay([{0}, (), (), ()]).ticks] == [set(), set(), set(), {1, 2}]
assert refusal_of(warm.adopt, [(0, 0, 0, 2), (1, 0, 3, 6), (2, 1, 4, 8), (3, 1, 7, 10), (4, 0, 8, 10)]) == (22, 1)

print("the Python module does by itself what it should")
