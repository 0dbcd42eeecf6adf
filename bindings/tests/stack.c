/* The stack that each call takes, with its arguments and its answer, on the largest plan and one with deep ways: painted, called, and looked at.
   Fails if one takes more than BENCH_STACK_MOST. */
#include "benchplan.h"
#include <stdio.h>
#include <string.h>
#include <ucontext.h>

enum { SIZE = 1 << 20, PAINT = 0xA5, TICKS = 80, ENDS = 31 };

static uint8_t stack[SIZE], text[BENCH_TEXT_MOST], buffer[BENCH_ANSWER_MOST];
static size_t length;
static bench_text plan;
static bench_plan deep;
static bench_ticked run;
static uint32_t times[BENCH_TASKS], numbers[TICKS];
static uint64_t reports[TICKS], sets[TICKS];
static size_t places[TICKS];
static bench_record records[BENCH_TASKS];
static volatile uint32_t sink;

/* 64 tasks on 8 types with all pairs; each task waits for all before it. */
static void write_text(void) {
    char *at = (char *)text;
    for (int k = 0; k < BENCH_TYPES; k++) at += sprintf(at, "U\t%d\t%d\n", k, BENCH_UNITS);
    for (int t = 0; t < BENCH_TASKS; t++)
        for (int k = 0; k < BENCH_TYPES; k++) at += sprintf(at, "T\t%d\t%d\t1\t%d\n", t, k, BENCH_LONGEST_TIME);
    for (int t = 1; t < BENCH_TASKS; t++)
        for (int from = 0; from < t; from++) at += sprintf(at, "A\t%d\t%d\n", from, t);
    for (int t = 0; t < BENCH_TASKS; t++) at += sprintf(at, "D\t%d\t1\n", t);
    for (int t = 0; t < BENCH_TASKS; t++) at += sprintf(at, "C\t%d\t%d\n", t, t % BENCH_TYPES);
    length = (size_t)(at - (char *)text);
}

/* Arrows lead from each of the upper tasks to the next and to all of the lower ones, where they end: of what comes after a task, the next one is the
   last to be asked what comes after it. */
static void write_deep_text(void) {
    char *at = (char *)text + sprintf((char *)text, "U\t0\t1\n");
    for (int t = 0; t < BENCH_TASKS; t++) at += sprintf(at, "T\t%d\t0\t1\t1\n", t);
    for (int from = ENDS; from < BENCH_TASKS; from++) {
        for (int to = 0; to < ENDS; to++) at += sprintf(at, "A\t%d\t%d\n", from, to);
        if (from + 1 < BENCH_TASKS) at += sprintf(at, "A\t%d\t%d\n", from, from + 1);
    }
    length = (size_t)(at - (char *)text);
}

static void nothing(void) { sink = 0; }
static void do_read(void) { bench_text a = bench_read(text, length); sink = a.number; plan = a; }
static void do_check(void) { bench_verdict a = bench_check(plan.plan, plan.constraint); sink = a.number; }
static void do_simulate(void) { bench_run a = bench_simulate(plan.plan, plan.constraint, times, BENCH_TASKS); sink = a.number; }
static void do_bound(void) { bench_run a = bench_bound(plan.plan, plan.constraint); sink = a.number; }
static void do_timetable(void) {
    bench_written a = bench_timetable(plan.plan, plan.constraint, times, BENCH_TASKS, buffer, sizeof buffer);
    sink = a.number;
}
static void do_worst_timetable(void) {
    bench_written a = bench_worst_timetable(plan.plan, plan.constraint, buffer, sizeof buffer);
    sink = a.number;
}
static void do_margins(void) { bench_slacks a = bench_margins(plan.plan, plan.constraint); sink = a.number; }
static void do_adopt(void) { bench_adoption a = bench_adopt(plan.plan, records, BENCH_TASKS); sink = a.number; }
static void do_propose(void) { bench_proposal a = bench_propose(plan.plan); sink = a.number; }
static void do_propose_deep(void) { bench_proposal a = bench_propose(deep); sink = a.number; }
static void do_start(void) { bench_ticked a = bench_start(plan.plan, plan.constraint); sink = a.number; run = a; }
static void do_tick(void) { bench_ticked a = bench_tick(run.state, 1); sink = a.number; }
static void do_replay(void) {
    bench_ticked a = bench_replay(plan.plan, plan.constraint, reports, TICKS, numbers, TICKS, places, TICKS, sets, TICKS);
    sink = a.number;
}
static void do_answer(void) { sink = bench_answer(text, length, &buffer) == 0; }

/* The bytes of the painted stack that a call has written to. */
static size_t taken(void (*call)(void)) {
    ucontext_t here, there;
    memset(stack, PAINT, SIZE);
    if (getcontext(&there)) return SIZE;
    there.uc_stack.ss_sp = stack;
    there.uc_stack.ss_size = SIZE;
    there.uc_link = &here;
    makecontext(&there, call, 0);
    if (swapcontext(&here, &there)) return SIZE;
    size_t untouched = 0;
    while (untouched < SIZE && stack[untouched] == PAINT) untouched++;
    return SIZE - untouched;
}

int main(void) {
    static const struct { const char *name; void (*call)(void); } calls[] = {
        { "nothing", nothing }, { "bench_read", do_read }, { "bench_check", do_check }, { "bench_simulate", do_simulate },
        { "bench_bound", do_bound }, { "bench_timetable", do_timetable }, { "bench_worst_timetable", do_worst_timetable },
        { "bench_margins", do_margins }, { "bench_adopt", do_adopt }, { "bench_propose", do_propose },
        { "bench_propose with deep ways", do_propose_deep }, { "bench_start", do_start }, { "bench_tick", do_tick }, { "bench_replay", do_replay },
        { "bench_answer", do_answer } };
    size_t most = 0;
    write_deep_text();
    deep = bench_read(text, length).plan;
    write_text();
    for (int t = 0; t < BENCH_TASKS; t++) times[t] = 1;
    for (uint32_t t = 0; t < BENCH_TASKS; t++)
        records[t] = (bench_record){ t, t % BENCH_TYPES, t * BENCH_LONGEST_TIME, (t + 1) * BENCH_LONGEST_TIME };
    for (int t = 0; t < TICKS; t++) reports[t] = t < BENCH_TASKS ? (uint64_t)1 << t : 0;
    for (size_t i = 0; i < sizeof calls / sizeof *calls; i++) {
        size_t bytes = taken(calls[i].call);
        printf("stack: %s takes %zu bytes\n", calls[i].name, bytes);
        if (sink != 0) return printf("stack: %s is refused: %u\n", calls[i].name, (unsigned)sink), 1;
        if (bytes > most) most = bytes;
    }
    printf("stack: the most is %zu bytes, %d are said to be enough\n", most, BENCH_STACK_MOST);
    return most > BENCH_STACK_MOST;
}
