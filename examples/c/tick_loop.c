/* A tick loop. A plan text in a file; on standard input a line for each tick, with the tasks that have finished since the tick before.
   Use: tick_loop PLAN < REPORTS */
#include "benchplan.h"
#include <stdio.h>
#include <stdlib.h>
#include <string.h>

static void say(unsigned instant, uint64_t started) {
    printf("instant %u: begin", instant);
    for (int task = 0; task < BENCH_TASKS; task++)
        if (started >> task & 1) printf(" %d", task);
    printf("\n");
}

/* The tasks in a line, as a set; false if something else stands there. */
static bool report_in(const char *line, uint64_t *report) {
    *report = 0;
    if (line[strspn(line, " \t\r\n0123456789")] != '\0') return false;
    for (char *end; ; line = end) {
        unsigned long task = strtoul(line, &end, 10);
        if (end == line) return true;
        if (task >= BENCH_TASKS) return false;
        *report |= (uint64_t)1 << task;
    }
}

int main(int words, char **word) {
    static uint8_t text[BENCH_TEXT_MOST + 1];
    FILE *file = words == 2 ? fopen(word[1], "rb") : NULL;
    size_t length = file ? fread(text, 1, sizeof text, file) : 0;
    if (!file || ferror(file)) return fprintf(stderr, "use: tick_loop PLAN < REPORTS\n"), 2;
    bench_text plan = bench_read(text, length);
    if (plan.number) return fprintf(stderr, "the text is refused: %u, line %zu\n", plan.number, plan.place), 1;
    bench_ticked run = bench_start(plan.plan, plan.constraint);
    if (run.number) return fprintf(stderr, "the plan is refused: %u, place %zu\n", run.number, run.place), 1;
    unsigned instant = 0;
    uint64_t report;
    say(instant, run.started);
    for (char line[1000]; fgets(line, sizeof line, stdin); ) {
        if (!strchr(line, '\n') && !feof(stdin)) return fprintf(stderr, "a line is too long\n"), 1;
        if (!report_in(line, &report)) { printf("no tasks: report again\n"); continue; }
        run = bench_tick(run.state, report);
        switch (run.number) {
        case BENCH_ACCEPTED: say(++instant, run.started); break;
        case BENCH_RUN_OVER: printf("the run is over\n"); return 0;
        case BENCH_NOT_RUNNING: printf("task %zu is not running: report again\n", run.place); break;
        case BENCH_OVERRUN: printf("task %zu has run its worst time: if it has finished, report again with it, otherwise stop\n", run.place); break;
        default: printf("the state was altered: stop\n"); return 1;
        }
    }
    return fprintf(stderr, "no more reports\n"), 1;
}
