/* The driver's protocol (crates/driver/src/main.rt) through the C calls, so that the same random sessions go through them. */
#include "fields.h"
#include <inttypes.h>
#include <stdio.h>
#include <stdlib.h>
#include <string.h>

enum { LINE_TOO_LONG = 1024, MOST_TIMES = 80, LONGEST_LIST = 79, MOST_ROOM = 2000, MOST_RECORDS = 80 };

/* The kept plan and constraint, the run state, and the records of a schedule. */
static plan_both plan;
static bench_constraint constraint;
static state_both state;
static bench_record records[MOST_RECORDS];
static size_t record_count;

static void number(uint64_t n) { printf("\t%" PRIu64, n); }

static void signed_number(int64_t n) { printf("\t%" PRId64, n); }

static void say(const char *word, uint32_t refusal, size_t place) {
    printf("%s", word);
    number(refusal);
    number(place);
}

static void say_each(const uint32_t *starts, const uint32_t *finishes) {
    for (int task = 0; task < BENCH_TASKS; task++) {
        number(starts[task]);
        number(finishes[task]);
    }
}

static void do_check(void) {
    bench_verdict v = bench_check(plan.words, constraint);
    say("check", v.number, v.place);
}

static void do_bound(void) {
    bench_run r = bench_bound(plan.words, constraint);
    say("bound", r.number, r.place);
    number(r.response);
}

static void do_simulate(const uint32_t *times, size_t count) {
    bench_run r = bench_simulate(plan.words, constraint, times, count);
    say("simulate", r.number, r.place);
    number(r.response);
    say_each(r.starts, r.finishes);
}

static void do_margins(void) {
    bench_slacks s = bench_margins(plan.words, constraint);
    say("margins", s.number, s.place);
    number(s.any);
    signed_number(s.least);
    number(s.task);
    for (int task = 0; task < BENCH_TASKS; task++) signed_number(s.slacks[task]);
}

static void do_ticked(const char *word, bench_ticked t) {
    state.words = t.state;
    say(word, t.number, t.place);
    number(t.started);
}

static void do_query(void) {
    const state_fields *s = &state.fields;
    printf("state");
    number(s->instant);
    number(s->started);
    number(s->finished);
    say_each(s->starts, s->finishes);
}

/* With `times` NULL the worst ones. */
static void do_timetable(size_t room, const uint32_t *times, size_t count) {
    uint8_t buffer[MOST_ROOM];
    memset(buffer, '#', sizeof buffer);
    bench_written w = times ? bench_timetable(plan.words, constraint, times, count, buffer, room)
                            : bench_worst_timetable(plan.words, constraint, buffer, room);
    say("timetable", w.number, w.place);
    number(w.written);
    printf("\n");
    fwrite(buffer, 1, room, stdout);
}

static void do_replay(const uint64_t *reports, size_t count) {
    uint32_t numbers[LONGEST_LIST];
    size_t places[LONGEST_LIST];
    uint64_t sets[LONGEST_LIST];
    bench_ticked t = bench_replay(plan.words, constraint, reports, count, numbers, count, places, count, sets, count);
    say("replay", t.number, t.place);
    number(t.started);
    for (size_t i = 0; !t.number && i < count; i++) {
        number(numbers[i]);
        number(places[i]);
        number(sets[i]);
    }
}

/* A number that P or R may put, and how many of its kind stand there; else nothing. */
typedef struct { uint32_t *short_ones; size_t *sizes; uint64_t *sets; size_t count; } slot;

static slot plan_slot(uint64_t part, plan_fields *p, bench_constraint *c) {
    switch (part) {
    case 0: return (slot){ .sizes = &p->types, .count = 1 };
    case 1: return (slot){ .short_ones = p->units, .count = BENCH_TYPES };
    case 2: return (slot){ .sizes = &p->tasks, .count = 1 };
    case 3: return (slot){ .short_ones = p->best, .count = PAIRS };
    case 4: return (slot){ .short_ones = p->worst, .count = PAIRS };
    case 5: return (slot){ .sets = p->predecessors, .count = BENCH_TASKS };
    case 6: return (slot){ .sizes = &c->length, .count = 1 };
    case 7: return (slot){ .sizes = c->task, .count = BENCH_TASKS };
    case 8: return (slot){ .sizes = c->unit_type, .count = BENCH_TASKS };
    case 14: return (slot){ .short_ones = p->deadlines, .count = BENCH_TASKS };
    case 15: return (slot){ .short_ones = p->releases, .count = BENCH_TASKS };
    default: return (slot){ .count = 0 };
    }
}

static slot state_slot(uint64_t part) {
    state_fields *s = &state.fields;
    switch (part) {
    case 9: return (slot){ .short_ones = &s->instant, .count = 1 };
    case 10: return (slot){ .sizes = &s->started, .count = 1 };
    case 11: return (slot){ .sets = &s->finished, .count = 1 };
    case 12: return (slot){ .short_ones = s->starts, .count = BENCH_TASKS };
    case 13: return (slot){ .short_ones = s->finishes, .count = BENCH_TASKS };
    default: return plan_slot(part, &s->plan, &s->constraint);
    }
}

static bool put(slot s, uint64_t index, uint64_t value) {
    if (index >= s.count || (s.short_ones && value > UINT32_MAX)) return false;
    if (s.short_ones) s.short_ones[index] = (uint32_t)value;
    else if (s.sizes) s.sizes[index] = value;
    else s.sets[index] = value;
    printf("put");
    return true;
}

/* 1 to 20 digits that fit 64 bits. */
static bool field(const char *from, const char *end, uint64_t *value) {
    *value = 0;
    if (from == end || end - from > 20) return false;
    for (; from < end; from++) {
        unsigned digit = (unsigned char)*from - '0';
        if (digit > 9 || *value > (UINT64_MAX - digit) / 10) return false;
        *value = *value * 10 + digit;
    }
    return true;
}

/* The fields of a line after its letter, each after a tab. */
static bool fields_of(const char *from, const char *end, uint64_t *values, size_t *count) {
    for (*count = 0; from < end; (*count)++) {
        if (*from++ != '\t') return false;
        const char *tab = memchr(from, '\t', (size_t)(end - from));
        if (!field(from, tab ? tab : end, &values[*count])) return false;
        from = tab ? tab : end;
    }
    return true;
}

/* The fields as numbers of 32 bits. */
static bool times_of(const uint64_t *values, size_t count, uint32_t *times) {
    for (size_t i = 0; i < count; i++) {
        if (values[i] > UINT32_MAX) return false;
        times[i] = (uint32_t)values[i];
    }
    return true;
}

static bool do_record(const uint64_t *values) {
    uint32_t v[4];
    if (record_count == MOST_RECORDS || !times_of(values, 4, v)) return false;
    records[record_count++] = (bench_record){ .task = v[0], .unit_type = v[1], .start = v[2], .finish = v[3] };
    printf("put");
    return true;
}

/* The constraint of an accepted answer is kept. */
static void do_order(const char *word, uint32_t refusal, size_t place, bench_constraint given) {
    say(word, refusal, place);
    number(given.length);
    for (int i = 0; i < BENCH_TASKS; i++) {
        number(given.task[i]);
        number(given.unit_type[i]);
    }
    if (!refusal) constraint = given;
}

static void do_adopt(void) {
    bench_adoption a = bench_adopt(plan.words, records, record_count);
    do_order("adopt", a.number, a.place, a.constraint);
    record_count = 0;
}

static void do_propose(void) {
    bench_proposal p = bench_propose(plan.words);
    do_order("propose", p.number, p.place, p.constraint);
}

static bool with_lists(char letter, const uint64_t *v, size_t count) {
    uint32_t times[MOST_TIMES] = { 0 };
    switch (letter) {
    case 'M': return count <= MOST_TIMES && times_of(v, count, times) && (do_simulate(times, count), true);
    case 'Y': return count >= 1 && count <= LONGEST_LIST + 1 && v[0] <= MOST_ROOM && times_of(v + 1, count - 1, times)
        && (do_timetable(v[0], times, count - 1), true);
    case 'Z': return count <= LONGEST_LIST && (do_replay(v, count), true);
    default: return false;
    }
}

/* Carries out a command; false for none. */
static bool obey(char letter, const uint64_t *v, size_t count) {
    switch (letter) {
    case 'K': return count == 0 && (do_check(), true);
    case 'B': return count == 0 && (do_bound(), true);
    case 'D': return count == 0 && (do_margins(), true);
    case 'Q': return count == 0 && (do_query(), true);
    case 'S': return count == 0 && (do_ticked("start", bench_start(plan.words, constraint)), true);
    case 'T': return count == 1 && (do_ticked("tick", bench_tick(state.words, v[0])), true);
    case 'W': return count == 1 && v[0] <= MOST_ROOM && (do_timetable(v[0], NULL, 0), true);
    case 'P': return count == 3 && put(plan_slot(v[0], &plan.fields, &constraint), v[1], v[2]);
    case 'E': return count == 4 && do_record(v);
    case 'L': return count == 0 && (do_adopt(), true);
    case 'H': return count == 0 && (do_propose(), true);
    case 'R': return count == 3 && put(state_slot(v[0]), v[1], v[2]);
    default: return with_lists(letter, v, count);
    }
}

static void do_line(const char *line, const char *end) {
    uint64_t values[LINE_TOO_LONG] = { 0 };
    size_t count;
    if (line == end || end - line >= LINE_TOO_LONG || !fields_of(line + 1, end, values, &count) || !obey(*line, values, count))
        printf("bad");
    printf("\n");
}

static void do_text(const char *text, size_t length) {
    bench_text t = bench_read((const uint8_t *)text, length);
    plan.words = t.plan;
    constraint = t.constraint;
    say("read", t.number, t.place);
    printf("\n");
}

/* All of standard input, with a byte to spare; gives its length. */
static size_t all_input(char **bytes) {
    size_t length = 0, room = 1 << 16, got;
    *bytes = malloc(room);
    while (*bytes && (got = fread(*bytes + length, 1, room - length - 1, stdin)) > 0) {
        length += got;
        if (length + 1 == room) *bytes = realloc(*bytes, room *= 2);
    }
    return length;
}

int main(void) {
    char *input;
    size_t length = all_input(&input);
    if (!input) return 2;
    const char *end = input + length, *line = memchr(input, '\n', length);
    uint64_t count;
    if (!field(input, line ? line : end, &count)) return puts("bad"), 0;
    line = line ? line + 1 : end;
    if (count > (size_t)(end - line)) count = (size_t)(end - line);
    do_text(line, count);
    for (line += count; line < end; ) {
        const char *stop = memchr(line, '\n', (size_t)(end - line));
        do_line(line, stop ? stop : end);
        line = stop ? stop + 1 : end;
    }
    free(input);
    return 0;
}
