/* benchplan.h: the verified dispatcher for programs in C99 and C++, on x86-64 Linux. Built by ./build-library; docs/USER-GUIDE.md, "A bench
   program", tells how to use it. Every call keeps nothing, takes no heap and no lock, and comes to its end; threads may call at once.

   An answer begins with `number`: 0, accepted; or the number of a refusal, with its place, zeros in all fields after it, and no lent byte
   changed. A refused tick gives its state back as it was. A set of tasks is 64 bits, bit t for task t.

   The caller's duty, as in any C library: a pointer leads to as many elements as its length says and is aligned for them, and nothing that a
   call writes overlaps anything else that it is handed. NULL (with length 0, too), a length that is greater than the memory, or an unaligned
   pointer is undefined behaviour: no refusal tells of it. */
#ifndef BENCHPLAN_H
#define BENCHPLAN_H
#include <stdbool.h>
#include <stddef.h>
#include <stdint.h>
#ifdef __cplusplus
extern "C" {
#endif

#define BENCHPLAN_VERSION 800      /* 0.8.0: ten thousands, hundreds, ones. Structs may differ from one version to the next: compile anew. */
#define BENCH_TASKS 64
#define BENCH_TYPES 8
#define BENCH_UNITS 8              /* of each type */
#define BENCH_LONGEST_TIME 1000000 /* in ticks; the latest deadline and the latest not-before instant, too */
#define BENCH_LAST_INSTANT 65000000
#define BENCH_TEXT_MOST 32768      /* bytes of a plan text */
#define BENCH_TIMETABLE_MOST 1456  /* bytes of a timetable */
#define BENCH_ANSWER_MOST 1456     /* bytes of an answer of bench_answer */
#define BENCH_STACK_MOST 65536     /* bytes of stack, enough for any call with its arguments and its answer: measured, not proved */

enum bench_refusal {
    BENCH_ACCEPTED = 0,
    BENCH_TEXT_TOO_LONG = 1,  /* the text has more than 32,768 bytes */
    BENCH_NO_LINE_FORM = 2,   /* not one of the six line forms */
    BENCH_OUT_OF_RANGE = 3,   /* a number out of range */
    BENCH_CONTRARY = 4,       /* worst below best, or an arrow from a task to itself */
    BENCH_KIND_TOO_LATE = 5,  /* a kind of line after a later kind */
    BENCH_NOT_KNOWN = 6,      /* a U type that is not the next, a T type without U line, an A, D, N or C task without T line */
    BENCH_REPEATED = 7,       /* a pair of task and type, an arrow, or the D, N or C line of a task for the second time */
    BENCH_PLAN_RULE = 8,      /* the plan breaks a rule */
    BENCH_NOT_EACH_ONCE = 9,  /* the order does not name every task once */
    BENCH_NOT_USABLE = 10,    /* a task is to run on a type that it cannot use, or that the plan does not have */
    BENCH_OUT_OF_ORDER = 11,  /* a task stands before one that it waits for */
    BENCH_UNSOUND_STATE = 12, /* the state is not one that start and tick make */
    BENCH_RUN_OVER = 13,      /* all tasks are finished */
    BENCH_NOT_RUNNING = 14,   /* a reported task is not running */
    /* 15 is never given. */
    BENCH_OVERRUN = 16,       /* a running task is not reported and has now run its worst time */
    BENCH_TIMES_COUNT = 17,   /* the count of times is not the number of tasks */
    BENCH_TIME_RANGE = 18,    /* a time is 0 or above the worst of the chosen type */
    BENCH_TOO_SHORT = 19,     /* a lent buffer is too short */
    BENCH_LIST_TASKS = 20,    /* a schedule does not have one record for each task */
    BENCH_LIST_TIMES = 21,    /* a record has a type that its task cannot use or that the plan does not have, or its finish is not its start plus the worst time */
    BENCH_LIST_STARTS = 22,   /* a record starts before a task that it waits for has finished, before its not-before instant, or when all units of its type are held */
    BENCH_CIRCLE = 23         /* the arrows lead from a task back to itself */
};

/* Opaque: hand them on as they came. */
typedef struct { uint64_t words[646]; } bench_plan;
typedef struct { uint64_t words[842]; } bench_state;

/* The order: the task and the type of each C line, with zeros after the last. */
typedef struct { size_t length, task[BENCH_TASKS], unit_type[BENCH_TASKS]; } bench_constraint;

/* A record of a schedule: its task holds a unit of the type from the start up to, not including, the finish. */
typedef struct { uint32_t task, unit_type, start, finish; } bench_record;

/* By task number: starts, finishes and slacks (margins, 0 without deadline; if `any` task has one, `least` is the least margin and `task` has it). */
typedef struct { uint32_t number; size_t place; bench_plan plan; bench_constraint constraint; } bench_text;
typedef struct { uint32_t number; size_t place; } bench_verdict;
typedef struct { uint32_t number; size_t place; uint32_t response, starts[BENCH_TASKS], finishes[BENCH_TASKS]; } bench_run;
typedef struct { uint32_t number; size_t place, written; } bench_written;
typedef struct { uint32_t number; size_t place; bool any; int64_t least; size_t task; int64_t slacks[BENCH_TASKS]; } bench_slacks;
typedef struct { uint32_t number; size_t place; uint64_t started; bench_state state; } bench_ticked;
typedef struct { uint32_t number; size_t place; bench_constraint constraint; } bench_adoption;
typedef struct { uint32_t number; size_t place; bench_constraint constraint; } bench_proposal;

#define BENCH_SIZE(type, bytes) typedef char type##_is_##bytes##_bytes[sizeof(type) == bytes ? 1 : -1]
BENCH_SIZE(bench_plan, 5168); BENCH_SIZE(bench_constraint, 1032); BENCH_SIZE(bench_state, 6736);
BENCH_SIZE(bench_text, 6216); BENCH_SIZE(bench_verdict, 16); BENCH_SIZE(bench_run, 536);
BENCH_SIZE(bench_written, 24); BENCH_SIZE(bench_slacks, 552); BENCH_SIZE(bench_ticked, 6760);
BENCH_SIZE(bench_record, 16); BENCH_SIZE(bench_adoption, 1048); BENCH_SIZE(bench_proposal, 1048);

/* The plan of a text, and its check: 1 to 7, 8 to 11. Every other call that takes a plan checks it first. */
bench_text bench_read(const uint8_t *text, size_t length);
bench_verdict bench_check(bench_plan plan, bench_constraint constraint);

/* A run with given times, one for each task (17, 18), and the run with worst times: its response is the bound. */
bench_run bench_simulate(bench_plan plan, bench_constraint constraint, const uint32_t *times, size_t times_length);
bench_run bench_bound(bench_plan plan, bench_constraint constraint);

/* The same two runs as text, into a lent buffer (19: place bytes are needed); what is to spare of each deadline with worst times. */
bench_written bench_timetable(bench_plan plan, bench_constraint constraint, const uint32_t *times, size_t times_length,
                              uint8_t *buffer, size_t buffer_length);
bench_written bench_worst_timetable(bench_plan plan, bench_constraint constraint, uint8_t *buffer, size_t buffer_length);
bench_slacks bench_margins(bench_plan plan, bench_constraint constraint);

/* The order of a schedule that was worked out elsewhere with worst times, one record for each task (8, 20, 21, 22): tasks by start, equal starts by
   lower number. The check takes it, and its bound is at most the greatest finish of the records. */
bench_adoption bench_adopt(bench_plan plan, const bench_record *records, size_t records_length);

/* The order of a schedule that the library works out itself, with worst times and from the plan alone (8, 23): first the tasks with the longest way ahead
   through the arrows, each on the unit on which it finishes first. The check takes it, and its bound is at most the greatest finish of that schedule. The
   order of a text plays no part, and the text needs none. */
bench_proposal bench_propose(bench_plan plan);

/* A live run: the state and the tasks to begin at instant 0, then one instant on, with the reported tasks finished (the first of 12, 13, 16, 14 that
   applies). While a task waits for its not-before instant there may be no task running and none to begin, at start, too. The run is not over: tick on,
   once each period, with an empty report; only 13 says that it is over. */
bench_ticked bench_start(bench_plan plan, bench_constraint constraint);
bench_ticked bench_tick(bench_state state, uint64_t report);

/* Start and a tick for each report: `started` is what start began, `state` the last one; number, place and started set of each tick go to the
   lent buffers, each at least as long as the reports (19: place entries are needed). */
bench_ticked bench_replay(bench_plan plan, bench_constraint constraint, const uint64_t *reports, size_t reports_length,
                          uint32_t *numbers, size_t numbers_length, size_t *places, size_t places_length,
                          uint64_t *sets, size_t sets_length);

/* From a plan text to what ./benchplan prints for it: the timetable of worst times, or the line of the refusal. Gives its bytes. */
size_t bench_answer(const uint8_t *text, size_t length, uint8_t (*answer)[BENCH_ANSWER_MOST]);

#ifdef __cplusplus
}
#endif
#endif
