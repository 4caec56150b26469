/* Plan T of the specification, and the calls of a host that runs it for the outcomes 0 and 1. */
#ifndef PLAN_T_H
#define PLAN_T_H

#include "replies.h"

#define PSI UINT64_C(1000000)
#define SLACK UINT64_C(500)

static const uint8_t PLAN_T[93] = {
    0x1F, 0x02, 0x03, 0x00, 0x00, 0x01, 0x01, 0x02, 0x02, 0x07, 0x02, 0x00, 0x02, 0x01, 0x31, 0x00, 0x02, 0xB8, 0x0B,
    0x00, 0x00, 0x01, 0x01, 0x31, 0x01, 0x00, 0x88, 0x13, 0x00, 0x00, 0x02, 0x00, 0x02, 0x38, 0x00, 0xE8, 0x03, 0x00,
    0x00, 0x01, 0x03, 0x24, 0x00, 0x01, 0x03, 0x24, 0x01, 0x01, 0x02, 0x03, 0x02, 0x00, 0x31, 0x02, 0x01, 0xD0, 0x07,
    0x00, 0x00, 0x01, 0x00, 0x24, 0x00, 0x01, 0x01, 0x03, 0x00, 0x04, 0x00, 0x00, 0x00, 0x00, 0x00, 0x00, 0x00, 0x03,
    0x00, 0x02, 0x00, 0x01, 0x00, 0x03, 0x01, 0x01, 0x00, 0x00, 0x00, 0x03, 0x01, 0x02, 0x00, 0x01, 0x01};

static const uint64_t AT_ONCE[2] = {0, 0};

/* "file 10 01 00 01 .. : accepted, and its first ask is done": it has no resources. */
static const uint8_t PLAN_K3[13] = {0x10, 0x01, 0x00, 0x01};

typedef enum request { ASK, COMPLETION, OUTCOME } request;

typedef struct call {
    request request;
    uint64_t reading;
    uint32_t position;
    uint8_t node, outcome;
} call;

static inline jidlekuvo_reply put(jidlekuvo_run *run, call c)
{
    switch (c.request) {
    case ASK:
        return jidlekuvo_ask(run, c.reading);
    case COMPLETION:
        return jidlekuvo_completion(run, c.reading, c.position, c.node);
    default:
        return jidlekuvo_outcome(run, c.reading, c.position, c.node, c.outcome);
    }
}

static inline jidlekuvo_reply open_t(jidlekuvo_run *run)
{
    return jidlekuvo_begin(run, PLAN_T, sizeof PLAN_T, PSI, SLACK, AT_ONCE, 2);
}

/* A call and what it is answered: the kind, and for a start the activity beside the call's position and node. */
typedef struct step {
    call call;
    uint8_t kind, activity;
} step;

/* The timetable's rows, each started at its start and reported just before its end. */
static const step RUN_OF_T[] = {
    {{ASK, PSI - 1, 0, 0, 0}, JIDLEKUVO_WAIT, 0},
    {{ASK, PSI, 0, 2, 0}, JIDLEKUVO_START, 0},
    {{ASK, PSI, 0, 0, 0}, JIDLEKUVO_WAIT, 0},
    {{COMPLETION, PSI + 2999, 0, 2, 0}, JIDLEKUVO_TAKEN, 0},
    {{ASK, PSI + 3000, 0, 3, 0}, JIDLEKUVO_START, 0},
    {{COMPLETION, PSI + 7999, 0, 3, 0}, JIDLEKUVO_TAKEN, 0},
    {{ASK, PSI + 8000, 0, 4, 0}, JIDLEKUVO_START, 0},
    {{OUTCOME, PSI + 8999, 0, 4, 0}, JIDLEKUVO_TAKEN, 0},
    {{ASK, PSI + 9000, 1, 2, 0}, JIDLEKUVO_START, 0},
    {{COMPLETION, PSI + 11999, 1, 2, 0}, JIDLEKUVO_TAKEN, 0},
    {{ASK, PSI + 12000, 1, 3, 0}, JIDLEKUVO_START, 0},
    {{COMPLETION, PSI + 16999, 1, 3, 0}, JIDLEKUVO_TAKEN, 0},
    {{ASK, PSI + 17000, 1, 4, 0}, JIDLEKUVO_START, 0},
    {{OUTCOME, PSI + 17999, 1, 4, 1}, JIDLEKUVO_TAKEN, 0},
    {{ASK, PSI + 18000, 2, 1, 0}, JIDLEKUVO_START, 1},
    {{COMPLETION, PSI + 19999, 2, 1, 0}, JIDLEKUVO_TAKEN, 0},
    {{ASK, PSI + 20000, 0, 0, 0}, JIDLEKUVO_DONE, 0},
};

#define STEPS_OF_T (sizeof RUN_OF_T / sizeof RUN_OF_T[0])

static inline int is_answered(jidlekuvo_run *run, step s)
{
    jidlekuvo_reply reply = put(run, s.call);
    if (s.kind == JIDLEKUVO_START)
        return same_reply(reply, naming(s.kind, 0, s.call.position, s.activity, s.call.node));
    return same_reply(reply, bare(s.kind, 0, 0));
}

/* How many of the first so many calls of T are answered as they should be. */
static inline size_t play_t(jidlekuvo_run *run, size_t count)
{
    size_t good = 0;
    for (size_t at = 0; at < count; at++)
        good += is_answered(run, RUN_OF_T[at]) ? 1 : 0;
    return good;
}

#endif
