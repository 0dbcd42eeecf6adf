/* Ticks from C, for the benchmark. Words: a file with the plan text, a file with the reports (sets as decimal numbers, one a line).
   Prints for each tick of a first run its number, place and started set, then an empty line; then for each line on standard input the
   nanoseconds of one tick, from runs that take at least two milliseconds together. */
#define _POSIX_C_SOURCE 199309L
#include "benchplan.h"
#include <inttypes.h>
#include <stdio.h>
#include <time.h>

#define REPORTS_MOST 1000
#define ROUND 2e6

static bench_text plan;
static size_t ticks, places[REPORTS_MOST];
static uint32_t numbers[REPORTS_MOST];
static uint64_t reports[REPORTS_MOST], sets[REPORTS_MOST];

/* Whether there are a plan and reports in these files. */
static int read_files(const char *plan_path, const char *reports_path) {
    static uint8_t text[BENCH_TEXT_MOST];
    FILE *plan_file = fopen(plan_path, "rb"), *reports_file = fopen(reports_path, "r");
    if (!plan_file || !reports_file) return 0;
    plan = bench_read(text, fread(text, 1, sizeof text, plan_file));
    while (ticks < REPORTS_MOST && fscanf(reports_file, "%" SCNu64, &reports[ticks]) == 1) ticks++;
    return plan.number == 0 && ticks > 0;
}

/* Start, and a tick for each report with the state that the tick before gave. */
static void run(void) {
    bench_ticked last = bench_start(plan.plan, plan.constraint);
    for (size_t i = 0; i < ticks; i++) {
        last = bench_tick(last.state, reports[i]);
        numbers[i] = last.number;
        places[i] = last.place;
        sets[i] = last.started;
    }
}

static double nanoseconds(void) {
    struct timespec now;
    clock_gettime(CLOCK_MONOTONIC, &now);
    return 1e9 * (double)now.tv_sec + (double)now.tv_nsec;
}

static double one_tick(void) {
    double begin = nanoseconds(), passed = 0, runs = 0;
    for (; passed < ROUND; passed = nanoseconds() - begin, runs++) run();
    return passed / runs / (double)ticks;
}

int main(int words, char **word) {
    if (words != 3 || !read_files(word[1], word[2])) return fprintf(stderr, "use: tick PLAN REPORTS\n"), 2;
    run();
    for (size_t i = 0; i < ticks; i++) printf("%" PRIu32 "\t%zu\t%" PRIu64 "\n", numbers[i], places[i], sets[i]);
    printf("\n");
    fflush(stdout);
    for (int c; (c = getchar()) != EOF; ) {
        if (c != '\n') continue;
        printf("%.1f\n", one_tick());
        fflush(stdout);
    }
    return 0;
}
