/* Sizes, offsets and limits: values put in on one side are read on the other. The fields of an answer differ from each other, so that
   two that are exchanged are noticed. C99 and C++. */
#include "fields.h"
#include <stdio.h>
#include <string.h>

static int failed = 0;

#define HOLDS(fact) ((fact) ? (void)0 : (void)(failed++, printf("layout: line %d does not hold: %s\n", __LINE__, #fact)))

/* A text that is written line by line, and the plan and constraint that it says, as the fields have them. */
static char text[2 * BENCH_TEXT_MOST];
static size_t length;
static plan_both plan;
static bench_constraint constraint;

static void begin(size_t types, size_t tasks) {
    memset(&plan, 0, sizeof plan);
    memset(&constraint, 0, sizeof constraint);
    length = 0;
    plan.fields.types = types;
    plan.fields.tasks = tasks;
}

#define LINE(...) (length += (size_t)snprintf(text + length, sizeof text - length, __VA_ARGS__))

static void units(size_t type, uint32_t count) {
    LINE("U\t%zu\t%u\n", type, count);
    plan.fields.units[type] = count;
}

static void times(size_t task, size_t type, uint32_t best, uint32_t worst) {
    LINE("T\t%zu\t%zu\t%u\t%u\n", task, type, best, worst);
    plan.fields.best[task * BENCH_TYPES + type] = best;
    plan.fields.worst[task * BENCH_TYPES + type] = worst;
}

static void arrow(size_t from, size_t to) {
    LINE("A\t%zu\t%zu\n", from, to);
    plan.fields.predecessors[to] |= (uint64_t)1 << from;
}

static void deadline(size_t task, uint32_t instant) {
    LINE("D\t%zu\t%u\n", task, instant);
    plan.fields.deadlines[task] = instant;
}

static void release(size_t task, uint32_t instant) {
    LINE("N\t%zu\t%u\n", task, instant);
    plan.fields.releases[task] = instant;
}

static void choice(size_t task, size_t type) {
    LINE("C\t%zu\t%zu\n", task, type);
    constraint.task[constraint.length] = task;
    constraint.unit_type[constraint.length++] = type;
}

static bench_text read_text(void) { return bench_read((const uint8_t *)text, length); }

static bool same_plan(const bench_plan *a, const bench_constraint *b) {
    return !memcmp(a, &plan, sizeof plan) && !memcmp(b, &constraint, sizeof constraint);
}

static state_both both(bench_state words) {
    state_both s;
    s.words = words;
    return s;
}

/* All tasks, types and pairs, each number another one: what the reader fills in is what the fields have. */
static void check_read(void) {
    begin(BENCH_TYPES, BENCH_TASKS);
    for (size_t k = 0; k < BENCH_TYPES; k++) units(k, (uint32_t)(BENCH_UNITS - k));
    for (size_t t = 0; t < BENCH_TASKS; t++)
        for (size_t k = 0; k < BENCH_TYPES; k++)
            times(t, k, (uint32_t)(1000 + t * BENCH_TYPES + k), (uint32_t)(100000 + t * BENCH_TYPES + k));
    for (size_t t = 1; t < BENCH_TASKS; t++) arrow(t, t - 1);
    for (size_t t = 0; t < BENCH_TASKS; t++) deadline(t, (uint32_t)(500000 + t));
    for (size_t t = 0; t < BENCH_TASKS; t++) release(t, t == 63 ? 0 : (uint32_t)(600000 + t));
    for (size_t t = BENCH_TASKS; t-- > 0; ) choice(t, t * 3 % BENCH_TYPES);
    bench_text r = read_text();
    HOLDS(r.number == 0 && r.place == 0);
    HOLDS(same_plan(&r.plan, &r.constraint));
    bench_ticked t = bench_start(r.plan, r.constraint);
    HOLDS(t.number == 0 && t.place == 0 && t.started == (uint64_t)1 << 63);
    state_both s = both(t.state);
    HOLDS(!memcmp(&s.fields.plan, &plan, sizeof plan) && !memcmp(&s.fields.constraint, &constraint, sizeof constraint));
    length--;
    r = read_text();
    HOLDS(r.number == BENCH_NO_LINE_FORM && r.place == 8 + 512 + 63 + 64 + 64 + 64);
    begin(0, 0);
    HOLDS(same_plan(&r.plan, &r.constraint));
}

/* The last field of plan and constraint is read where it was put, and so is each number that decides. */
static void check_verdicts(void) {
    begin(1, BENCH_TASKS);
    units(0, 1);
    for (size_t t = 0; t < BENCH_TASKS; t++) times(t, 0, 1, 2);
    for (size_t t = 0; t < BENCH_TASKS; t++) choice(t, 0);
    HOLDS(bench_check(plan.words, constraint).number == 0);
    plan.fields.deadlines[63] = BENCH_LONGEST_TIME;
    HOLDS(bench_check(plan.words, constraint).number == 0);
    plan.fields.deadlines[63]++;
    HOLDS(bench_check(plan.words, constraint).number == BENCH_PLAN_RULE);
    plan.fields.deadlines[63] = 0;
    plan.fields.releases[63] = BENCH_LONGEST_TIME;
    HOLDS(bench_check(plan.words, constraint).number == 0);
    plan.fields.releases[63]++;
    HOLDS(bench_check(plan.words, constraint).number == BENCH_PLAN_RULE);
    plan.fields.releases[63] = 0;
    constraint.unit_type[63] = 1;
    bench_verdict v = bench_check(plan.words, constraint);
    HOLDS(v.number == BENCH_NOT_USABLE && v.place == 63);
    constraint.unit_type[63] = 0;
    constraint.length = 62;
    v = bench_check(plan.words, constraint);
    HOLDS(v.number == BENCH_NOT_EACH_ONCE && v.place == 62);
    constraint.length = BENCH_TASKS;
    plan.fields.predecessors[5] = (uint64_t)1 << 9;
    v = bench_check(plan.words, constraint);
    HOLDS(v.number == BENCH_OUT_OF_ORDER && v.place == 5);
    HOLDS(bench_margins(plan.words, constraint).place == 5);
    HOLDS(bench_start(plan.words, constraint).place == 5);
}

/* Plan A of document 01. */
static void plan_a(void) {
    static const uint32_t row[6][4] = { { 0, 0, 1, 2 }, { 1, 0, 1, 3 }, { 2, 1, 2, 4 }, { 3, 0, 2, 5 }, { 3, 1, 1, 3 }, { 4, 0, 1, 2 } };
    static const size_t type[5] = { 0, 0, 1, 1, 0 };
    begin(2, 5);
    units(0, 1);
    units(1, 2);
    for (int i = 0; i < 6; i++) times(row[i][0], row[i][1], row[i][2], row[i][3]);
    arrow(0, 2);
    arrow(1, 3);
    arrow(2, 4);
    deadline(1, 9);
    deadline(3, 6);
    for (size_t t = 0; t < 5; t++) choice(t, type[t]);
}

static const char table[] = "0\t0\t0\t2\n1\t0\t2\t5\n2\t1\t2\t6\n3\t1\t5\t8\n4\t0\t6\t8\nR\t8\n";
static const uint32_t worst_starts[5] = { 0, 2, 2, 5, 6 }, worst_finishes[5] = { 2, 5, 6, 8, 8 };
static const uint32_t given[5] = { 1, 1, 4, 3, 2 }, given_starts[5] = { 0, 1, 1, 2, 5 }, given_finishes[5] = { 1, 2, 5, 5, 7 };

static bool runs_so(bench_run r, uint32_t response, const uint32_t *starts, const uint32_t *finishes) {
    return r.number == 0 && r.place == 0 && r.response == response && !memcmp(r.starts, starts, 5 * sizeof *starts)
        && !memcmp(r.finishes, finishes, 5 * sizeof *finishes);
}

static void check_runs(void) {
    uint32_t late[5];
    plan_a();
    HOLDS(runs_so(bench_bound(plan.words, constraint), 8, worst_starts, worst_finishes));
    HOLDS(runs_so(bench_simulate(plan.words, constraint, given, 5), 7, given_starts, given_finishes));
    bench_run r = bench_simulate(plan.words, constraint, given, 4);
    HOLDS(r.number == BENCH_TIMES_COUNT && r.place == 4 && r.response == 0);
    memcpy(late, given, sizeof late);
    late[3]++;
    r = bench_simulate(plan.words, constraint, late, 5);
    HOLDS(r.number == BENCH_TIME_RANGE && r.place == 3 && r.starts[4] == 0 && r.finishes[4] == 0);
    bench_slacks s = bench_margins(plan.words, constraint);
    HOLDS(s.number == 0 && s.place == 0 && s.any && s.least == -2 && s.task == 3);
    HOLDS(s.slacks[0] == 0 && s.slacks[1] == 4 && s.slacks[3] == -2 && s.slacks[63] == 0);
}

static bool ordered_so(const bench_constraint *c, const size_t *task, const size_t *type) {
    return c->length == 5 && c->task[63] == 0 && c->unit_type[63] == 0 && !memcmp(c->task, task, 5 * sizeof *task)
        && !memcmp(c->unit_type, type, 5 * sizeof *type);
}

static bool adopted_so(const bench_record *records, const size_t *task, const size_t *type) {
    bench_adoption a = bench_adopt(plan.words, records, 5);
    return a.number == 0 && a.place == 0 && ordered_so(&a.constraint, task, type);
}

/* Schedules: each field of a record decides once. */
static void check_schedules(void) {
    bench_record r[5] = { { 4, 0, 20, 22 }, { 3, 1, 3, 6 }, { 2, 1, 12, 16 }, { 1, 0, 0, 3 }, { 0, 0, 10, 12 } };
    static const size_t task[5] = { 1, 3, 0, 2, 4 }, type[5] = { 0, 1, 0, 1, 0 };
    plan_a();
    HOLDS(adopted_so(r, task, type));
    HOLDS(bench_bound(plan.words, bench_adopt(plan.words, r, 5).constraint).response == 11);
    bench_adoption a = bench_adopt(plan.words, r, 4);
    HOLDS(a.number == BENCH_LIST_TASKS && a.place == 4 && a.constraint.length == 0 && a.constraint.task[0] == 0);
    r[1].task = 5;
    a = bench_adopt(plan.words, r, 5);
    HOLDS(a.number == BENCH_LIST_TASKS && a.place == 1);
    r[1].task = 3;
    r[2].unit_type = 0;
    a = bench_adopt(plan.words, r, 5);
    HOLDS(a.number == BENCH_LIST_TIMES && a.place == 2);
    r[2].unit_type = 1;
    r[3].finish = 4;
    a = bench_adopt(plan.words, r, 5);
    HOLDS(a.number == BENCH_LIST_TIMES && a.place == 3);
    r[3].finish = 3;
    r[1].start = 2;
    r[1].finish = 5;
    a = bench_adopt(plan.words, r, 5);
    HOLDS(a.number == BENCH_LIST_STARTS && a.place == 1);
    plan.fields.tasks = 0;
    HOLDS(bench_adopt(plan.words, r, 5).number == BENCH_PLAN_RULE);
}

/* Proposals: the first and the last entry of an order, one that is not that of the numbers, and each refusal. */
static void check_proposals(void) {
    static const size_t task[5] = { 1, 0, 3, 2, 4 }, type[5] = { 0, 0, 1, 1, 0 };
    begin(2, BENCH_TASKS);
    for (size_t k = 0; k < 2; k++) units(k, 1);
    for (size_t t = 0; t < BENCH_TASKS; t++) times(t, t % 2, 1, 2);
    for (size_t t = 1; t < BENCH_TASKS; t++) arrow(t - 1, t);
    for (size_t t = 0; t < BENCH_TASKS; t++) choice(t, t % 2);
    bench_proposal p = bench_propose(plan.words);
    HOLDS(p.number == 0 && p.place == 0 && !memcmp(&p.constraint, &constraint, sizeof constraint));
    plan_a();
    plan.fields.worst[1 * BENCH_TYPES] = 9;
    p = bench_propose(plan.words);
    HOLDS(p.number == 0 && p.place == 0 && ordered_so(&p.constraint, task, type));
    HOLDS(bench_check(plan.words, p.constraint).number == 0 && bench_bound(plan.words, p.constraint).response == 17);
    plan.fields.predecessors[0] = (uint64_t)1 << 4;
    p = bench_propose(plan.words);
    HOLDS(p.number == BENCH_CIRCLE && p.place == 0 && p.constraint.length == 0 && p.constraint.task[0] == 0);
    plan.fields.tasks = 0;
    HOLDS(bench_propose(plan.words).number == BENCH_PLAN_RULE);
}

/* Written bytes, and those after them, which stay. */
static void check_texts(void) {
    uint8_t buffer[BENCH_ANSWER_MOST];
    const size_t size = sizeof table - 1;
    plan_a();
    memset(buffer, '#', sizeof buffer);
    bench_written w = bench_worst_timetable(plan.words, constraint, buffer, size - 1);
    HOLDS(w.number == BENCH_TOO_SHORT && w.place == size && w.written == 0 && buffer[0] == '#');
    w = bench_worst_timetable(plan.words, constraint, buffer, size);
    HOLDS(w.number == 0 && w.place == 0 && w.written == size && !memcmp(buffer, table, size) && buffer[size] == '#');
    memset(buffer, '#', sizeof buffer);
    w = bench_timetable(plan.words, constraint, worst_finishes, 3, buffer, size);
    HOLDS(w.number == BENCH_TIMES_COUNT && w.place == 3 && w.written == 0 && buffer[0] == '#');
    w = bench_timetable(plan.words, constraint, given, 5, buffer, sizeof buffer);
    HOLDS(w.number == 0 && w.place == 0 && w.written == size && !memcmp(buffer + size - 2, "7\n#", 3));
    memset(buffer, '#', sizeof buffer);
    HOLDS(bench_answer((const uint8_t *)text, length, &buffer) == size && !memcmp(buffer, table, size) && buffer[size] == '#');
    HOLDS(bench_answer((const uint8_t *)"U\t1\t1\n", 6, &buffer) == 12 && !memcmp(buffer, "refused\t6\t1\n", 12));
}

/* Field by field: what lies between two fields is nobody's. */
static bool same_state(state_both a, state_both b) {
    const state_fields *x = &a.fields, *y = &b.fields;
    return !memcmp(&x->plan, &y->plan, sizeof x->plan) && !memcmp(&x->constraint, &y->constraint, sizeof x->constraint)
        && x->instant == y->instant && x->started == y->started && x->finished == y->finished
        && !memcmp(x->starts, y->starts, sizeof x->starts) && !memcmp(x->finishes, y->finishes, sizeof x->finishes);
}

/* A live run: each field of the state, of the answer and of the lists. */
static void check_ticks(void) {
    const uint64_t reports[4] = { 1, 2, 32, 0 };
    uint32_t numbers[5] = { 77, 77, 77, 77, 77 };
    size_t places[5] = { 78, 78, 78, 78, 78 };
    uint64_t sets[5] = { 79, 79, 79, 79, 79 };
    plan_a();
    bench_ticked t = bench_start(plan.words, constraint);
    HOLDS(t.number == 0 && t.place == 0 && t.started == 1);
    for (int i = 0; i < 2; i++) t = bench_tick(t.state, reports[i]);
    state_both s = both(t.state);
    HOLDS(t.number == 0 && t.place == 0 && t.started == 8);
    HOLDS(s.fields.instant == 2 && s.fields.started == 4 && s.fields.finished == 3);
    HOLDS(s.fields.starts[2] == 1 && s.fields.starts[3] == 2 && s.fields.finishes[0] == 1 && s.fields.finishes[1] == 2);
    t = bench_tick(t.state, reports[2]);
    HOLDS(t.number == BENCH_NOT_RUNNING && t.place == 5 && t.started == 0 && same_state(both(t.state), s));
    t = bench_replay(plan.words, constraint, reports, 4, numbers, 4, places, 3, sets, 4);
    HOLDS(t.number == BENCH_TOO_SHORT && t.place == 4 && t.started == 0 && numbers[0] == 77 && places[0] == 78 && sets[0] == 79);
    t = bench_replay(plan.words, constraint, reports, 4, numbers, 5, places, 5, sets, 5);
    HOLDS(t.number == 0 && t.place == 0 && t.started == 1);
    HOLDS(numbers[2] == BENCH_NOT_RUNNING && places[2] == 5 && sets[2] == 0 && numbers[3] == 0 && places[3] == 0 && sets[1] == 8);
    HOLDS(numbers[4] == 77 && places[4] == 78 && sets[4] == 79);
    s = both(t.state);
    HOLDS(s.fields.instant == 3 && s.fields.started == 4 && s.fields.finished == 3);
    t = bench_tick(bench_tick(t.state, 0).state, reports[2]);
    HOLDS(t.number == BENCH_OVERRUN && t.place == 2 && t.started == 0);
}

/* Task 1 of plan A not before 4: the run waits for it, a list and a state in which it starts at 3 are refused. */
static void check_releases(void) {
    static const size_t task[5] = { 0, 1, 2, 3, 4 }, type[5] = { 0, 0, 1, 1, 0 };
    bench_record r[5] = { { 0, 0, 0, 2 }, { 1, 0, 3, 6 }, { 2, 1, 4, 8 }, { 3, 1, 7, 10 }, { 4, 0, 8, 10 } };
    plan_a();
    plan.fields.releases[1] = 4;
    bench_run run = bench_bound(plan.words, constraint);
    HOLDS(run.number == 0 && run.response == 10 && run.starts[1] == 4 && run.starts[2] == 4 && run.starts[4] == 8);
    bench_adoption a = bench_adopt(plan.words, r, 5);
    HOLDS(a.number == BENCH_LIST_STARTS && a.place == 1);
    r[1].start = 4;
    r[1].finish = 7;
    HOLDS(adopted_so(r, task, type));
    bench_ticked t = bench_tick(bench_start(plan.words, constraint).state, 1);
    for (int i = 0; i < 2; i++) t = bench_tick(t.state, 0);
    HOLDS(t.number == 0 && t.started == 0);
    t = bench_tick(t.state, 0);
    HOLDS(t.number == 0 && t.started == 6);
    state_both s = both(t.state);
    HOLDS(s.fields.instant == 4 && s.fields.starts[1] == 4);
    s.fields.starts[1] = 3;
    HOLDS(bench_tick(s.words, 0).number == BENCH_UNSOUND_STATE);
    s.fields.plan.releases[1] = 3;
    HOLDS(bench_tick(s.words, 0).number == 0);
}

/* A state in which each number is another one comes back whole. */
static void check_unsound(void) {
    state_both s;
    memset(&s, 0, sizeof s);
    for (size_t i = 0; i < sizeof s.words.words / 8; i++) s.words.words[i] = 0x0101010100000000u * (i % 200) + i;
    bench_ticked t = bench_tick(s.words, 1);
    HOLDS(t.number == BENCH_UNSOUND_STATE && t.place == 0 && t.started == 0);
    HOLDS(same_state(both(t.state), s));
}

/* A large answer is returned, on this machine, where a first hidden argument says: under these names it is handed over openly, so that a call
   that writes more or less than the header's struct has is noticed. */
#ifdef __cplusplus
extern "C" {
#endif
void read_to(void *, const uint8_t *, size_t) __asm__("bench_read");
void simulate_to(void *, bench_plan, bench_constraint, const uint32_t *, size_t) __asm__("bench_simulate");
void bound_to(void *, bench_plan, bench_constraint) __asm__("bench_bound");
void timetable_to(void *, bench_plan, bench_constraint, uint8_t *, size_t) __asm__("bench_worst_timetable");
void margins_to(void *, bench_plan, bench_constraint) __asm__("bench_margins");
void adopt_to(void *, bench_plan, const bench_record *, size_t) __asm__("bench_adopt");
void propose_to(void *, bench_plan) __asm__("bench_propose");
void start_to(void *, bench_plan, bench_constraint) __asm__("bench_start");
void tick_to(void *, bench_state, uint64_t) __asm__("bench_tick");
#ifdef __cplusplus
}
#endif

enum { GUARD = 4096, UNTOUCHED = 0x5a };

static uint64_t room[(GUARD + sizeof(bench_ticked) + GUARD) / 8];

/* Where an answer may go, with untouched bytes before and behind it. */
static void *untouched(void) {
    memset(room, UNTOUCHED, sizeof room);
    return (uint8_t *)room + GUARD;
}

/* Whether a struct of this size was written, its first and its last word, and nothing before or behind it. */
static bool fills(size_t size) {
    const uint8_t *bytes = (const uint8_t *)room;
    for (size_t i = 0; i < GUARD; i++)
        if (bytes[i] != UNTOUCHED || bytes[GUARD + size + i] != UNTOUCHED) return false;
    return bytes[GUARD] != UNTOUCHED && bytes[GUARD + size - 8] != UNTOUCHED;
}

static void check_sizes(void) {
    uint8_t buffer[BENCH_TIMETABLE_MOST];
    const bench_record record = { 0, 0, 0, 2 };
    plan_a();
    const bench_state state = bench_start(plan.words, constraint).state;
    read_to(untouched(), (const uint8_t *)text, length);
    HOLDS(fills(sizeof(bench_text)));
    simulate_to(untouched(), plan.words, constraint, given, 5);
    HOLDS(fills(sizeof(bench_run)));
    bound_to(untouched(), plan.words, constraint);
    HOLDS(fills(sizeof(bench_run)));
    timetable_to(untouched(), plan.words, constraint, buffer, sizeof buffer);
    HOLDS(fills(sizeof(bench_written)));
    margins_to(untouched(), plan.words, constraint);
    HOLDS(fills(sizeof(bench_slacks)));
    adopt_to(untouched(), plan.words, &record, 1);
    HOLDS(fills(sizeof(bench_adoption)));
    propose_to(untouched(), plan.words);
    HOLDS(fills(sizeof(bench_proposal)));
    start_to(untouched(), plan.words, constraint);
    HOLDS(fills(sizeof(bench_ticked)));
    tick_to(untouched(), state, 1);
    HOLDS(fills(sizeof(bench_ticked)));
}

/* What lies behind a narrow field is nobody's, so that a wider one could go unnoticed. */
#define WIDTH(type, field, bytes) HOLDS(sizeof(((type *)0)->field) == bytes)

static void check_widths(void) {
    WIDTH(bench_text, number, 4);
    WIDTH(bench_verdict, number, 4);
    WIDTH(bench_run, number, 4);
    WIDTH(bench_written, number, 4);
    WIDTH(bench_slacks, number, 4);
    WIDTH(bench_slacks, any, 1);
    WIDTH(bench_slacks, task, 8);
    WIDTH(bench_ticked, number, 4);
    WIDTH(bench_adoption, number, 4);
    WIDTH(bench_proposal, number, 4);
    WIDTH(state_fields, instant, 4);
}

static uint32_t number_of(const char *one) {
    return bench_read((const uint8_t *)one, strlen(one)).number;
}

#define TEXT_OF(n) #n
#define DIGITS(n) TEXT_OF(n)

/* The names of the refusals of a line are those of their numbers. */
static void check_names(void) {
    HOLDS(number_of("X\n") == BENCH_NO_LINE_FORM && number_of("U\t0\t9\n") == BENCH_OUT_OF_RANGE);
    HOLDS(number_of("U\t0\t1\nT\t0\t0\t2\t1\n") == BENCH_CONTRARY);
    HOLDS(number_of("U\t0\t1\nT\t0\t0\t1\t1\nU\t1\t1\n") == BENCH_KIND_TOO_LATE);
    HOLDS(number_of("U\t1\t1\n") == BENCH_NOT_KNOWN);
    HOLDS(number_of("U\t0\t1\nT\t0\t0\t1\t1\nT\t0\t0\t1\t1\n") == BENCH_REPEATED);
}

/* The limits of the header are the library's. */
static void check_limits(void) {
    begin(1, BENCH_TASKS);
    units(0, 1);
    for (size_t t = 0; t < BENCH_TASKS; t++) times(t, 0, 1, BENCH_LONGEST_TIME);
    release(0, BENCH_LONGEST_TIME);
    for (size_t t = 0; t < BENCH_TASKS; t++) choice(t, 0);
    HOLDS(read_text().number == 0);
    HOLDS(bench_bound(plan.words, constraint).response == BENCH_LAST_INSTANT);
    uint8_t buffer[BENCH_TIMETABLE_MOST];
    HOLDS(bench_worst_timetable(plan.words, constraint, buffer, sizeof buffer).written == BENCH_TIMETABLE_MOST);
    HOLDS(BENCH_ANSWER_MOST == BENCH_TIMETABLE_MOST);
    plan.fields.worst[0]++;
    HOLDS(bench_check(plan.words, constraint).number == BENCH_PLAN_RULE);
    HOLDS(number_of("U\t0\t" DIGITS(BENCH_UNITS) "\n") == 0);
    HOLDS(number_of("U\t" DIGITS(BENCH_TYPES) "\t1\n") == BENCH_OUT_OF_RANGE);
    HOLDS(number_of("U\t0\t1\nT\t" DIGITS(BENCH_TASKS) "\t0\t1\t1\n") == BENCH_OUT_OF_RANGE);
    memset(text, 'X', sizeof text);
    HOLDS(bench_read((const uint8_t *)text, BENCH_TEXT_MOST).number == BENCH_NO_LINE_FORM);
    HOLDS(bench_read((const uint8_t *)text, BENCH_TEXT_MOST + 1).number == BENCH_TEXT_TOO_LONG);
}

int main(void) {
    check_read();
    check_verdicts();
    check_runs();
    check_schedules();
    check_proposals();
    check_texts();
    check_ticks();
    check_releases();
    check_unsound();
    check_sizes();
    check_widths();
    check_names();
    check_limits();
    printf("layout: %d facts do not hold\n", failed);
    return failed != 0;
}
