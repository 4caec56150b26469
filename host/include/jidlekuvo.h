/* Jidlekuvo: judges a plan, and runs it against the host's clock. C11 and C++; docs/HOST.md tells how a host uses it.
 *
 * What the host owes, because no function can look:
 *   - a pointer is not null, except that of bytes or availabilities whose length is 0; it points to that many, which are
 *     initialised; a run and availabilities are aligned to 8 bytes, as their types ask
 *   - while a call lasts, nobody else reads or writes its run, and nobody writes its bytes or availabilities
 *   - jidlekuvo_abi() equals JIDLEKUVO_ABI
 *   - the stack has the room that host/stack.txt gives for each function (docs/HOST.md, "Stack")
 * Nothing else: every function answers whatever numbers and bytes it is given, a run of any bytes too. A run may be copied,
 * moved and stored as bytes; there is nothing to free. The library has no data of its own, so calls for different runs may go
 * on at the same time.
 */
#ifndef JIDLEKUVO_H
#define JIDLEKUVO_H

#include "jidlekuvo_numbers.h"
#include <stddef.h>
#include <stdint.h>

#ifdef __cplusplus
#define JIDLEKUVO_HOLDS(fact, what) static_assert(fact, what)
#define JIDLEKUVO_ALIGNMENT(type) alignof(type)
extern "C" {
#else
#define JIDLEKUVO_HOLDS(fact, what) _Static_assert(fact, what)
#define JIDLEKUVO_ALIGNMENT(type) _Alignof(type)
#endif

/* The kinds of replies, and the fields that each uses; a field that is not used is 0. */
#define JIDLEKUVO_OPENED 0  /* to an opening alone */
#define JIDLEKUVO_START 1   /* position, activity, node: start it now */
#define JIDLEKUVO_WAIT 2    /* nothing is due */
#define JIDLEKUVO_DONE 3    /* the plan has ended, and everything was reported */
#define JIDLEKUVO_TAKEN 4   /* the report counts */
#define JIDLEKUVO_REFUSED 5 /* number; of a call, the run is as it was; of an opening, place, and the run is one of zeros */
#define JIDLEKUVO_STOPPED 6 /* number; position and node, of 41 and 42; every later call answers the same */

typedef struct jidlekuvo_reply {
    uint64_t place;
    uint32_t position;
    uint8_t kind;
    uint8_t number;
    uint8_t activity;
    uint8_t node;
} jidlekuvo_reply;

/* A run, which the host keeps from one call to the next. What its bytes mean is the library's. */
typedef struct jidlekuvo_run {
    uint64_t opaque[JIDLEKUVO_RUN_SIZE / 8];
} jidlekuvo_run;

/* The answer to an opening. Where it is refused the run is one of zeros, and every call of it is refused with 50. */
typedef struct jidlekuvo_opened {
    jidlekuvo_run run;
    jidlekuvo_reply reply;
} jidlekuvo_opened;

JIDLEKUVO_HOLDS(sizeof(jidlekuvo_reply) == 16, "the size of a reply");
JIDLEKUVO_HOLDS(offsetof(jidlekuvo_reply, position) == 8, "the place of the position");
JIDLEKUVO_HOLDS(offsetof(jidlekuvo_reply, kind) == 12, "the place of the kind");
JIDLEKUVO_HOLDS(sizeof(jidlekuvo_run) == JIDLEKUVO_RUN_SIZE, "the size of a run");
JIDLEKUVO_HOLDS(JIDLEKUVO_ALIGNMENT(jidlekuvo_run) == 8, "the alignment of a run");
JIDLEKUVO_HOLDS(sizeof(jidlekuvo_opened) == JIDLEKUVO_RUN_SIZE + 16, "the size of an answer to an opening");

/* The form of a run's bytes that the library is built for. */
uint32_t jidlekuvo_abi(void);

/* The verdict on a plan: 0 accepted, otherwise the number times 2^32 plus the place, which is told up to 2^32 - 1. */
uint64_t jidlekuvo_judge(const uint8_t *plan, size_t plan_length);

/* Opens a run of a plan that starts at the clock reading psi, with one availability for each resource, in specified time. The
 * run keeps the plan: its bytes may go. jidlekuvo_begin does the same with a run that is already there. */
jidlekuvo_opened jidlekuvo_open(const uint8_t *plan, size_t plan_length, uint64_t psi, uint64_t slack,
                                const uint64_t *available, size_t available_length);

/* Asks what to start at this reading: start, wait or done. Ask again after each start: several nodes may be due at once. */
jidlekuvo_reply jidlekuvo_ask(jidlekuvo_run *run, uint64_t reading);

/* Reports that a started action is complete. */
jidlekuvo_reply jidlekuvo_completion(jidlekuvo_run *run, uint64_t reading, uint32_t position, uint8_t node);

/* Reports the outcome of a started event, which completes it. */
jidlekuvo_reply jidlekuvo_outcome(jidlekuvo_run *run, uint64_t reading, uint32_t position, uint8_t node, uint8_t outcome);

/* Opens a run in place, the run of zeros where the opening is refused, and returns the reply. */
static inline jidlekuvo_reply jidlekuvo_begin(jidlekuvo_run *run, const uint8_t *plan, size_t plan_length, uint64_t psi,
                                              uint64_t slack, const uint64_t *available, size_t available_length)
{
    jidlekuvo_opened opened = jidlekuvo_open(plan, plan_length, psi, slack, available, available_length);
    *run = opened.run;
    return opened.reply;
}

#ifdef __cplusplus
}
#endif

#undef JIDLEKUVO_HOLDS
#undef JIDLEKUVO_ALIGNMENT

#endif
