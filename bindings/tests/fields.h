/* What lies behind the opaque words of benchplan.h: the fields of the Rattle structs Plan and State. For tests alone. */
#ifndef FIELDS_H
#define FIELDS_H
#include "benchplan.h"

#define PAIRS (BENCH_TASKS * BENCH_TYPES)

typedef struct {
    size_t types;
    uint32_t units[BENCH_TYPES];
    size_t tasks;
    uint32_t best[PAIRS], worst[PAIRS];
    uint64_t predecessors[BENCH_TASKS];
    uint32_t deadlines[BENCH_TASKS], releases[BENCH_TASKS];
} plan_fields;

typedef struct {
    plan_fields plan;
    bench_constraint constraint;
    uint32_t instant;
    size_t started;
    uint64_t finished;
    uint32_t starts[BENCH_TASKS], finishes[BENCH_TASKS];
} state_fields;

typedef union { bench_plan words; plan_fields fields; } plan_both;
typedef union { bench_state words; state_fields fields; } state_both;

BENCH_SIZE(plan_fields, 5168);
BENCH_SIZE(state_fields, 6736);
#endif
