/* The linked functions with one fault, which the variable JIDLEKUVO_FAULT names; they stand in the place of the right ones by the
   linker's --wrap. host/test runs the programs with them: each must fail by its faults, and hold where none is named. */
#include <jidlekuvo.h>
#include <stdlib.h>
#include <string.h>

#define SIZE sizeof(jidlekuvo_run)
#define RESULT sizeof(jidlekuvo_opened)

uint64_t __real_jidlekuvo_judge(const uint8_t *, size_t);
void *__real_jidlekuvo_open(void *, const uint8_t *, size_t, uint64_t, uint64_t, const uint64_t *, size_t);
jidlekuvo_reply __real_jidlekuvo_ask(jidlekuvo_run *, uint64_t);
jidlekuvo_reply __real_jidlekuvo_completion(jidlekuvo_run *, uint64_t, uint32_t, uint8_t);
jidlekuvo_reply __real_jidlekuvo_outcome(jidlekuvo_run *, uint64_t, uint32_t, uint8_t, uint8_t);
uint64_t __wrap_jidlekuvo_judge(const uint8_t *, size_t);
void *__wrap_jidlekuvo_open(void *, const uint8_t *, size_t, uint64_t, uint64_t, const uint64_t *, size_t);
jidlekuvo_reply __wrap_jidlekuvo_ask(jidlekuvo_run *, uint64_t);
jidlekuvo_reply __wrap_jidlekuvo_completion(jidlekuvo_run *, uint64_t, uint32_t, uint8_t);
jidlekuvo_reply __wrap_jidlekuvo_outcome(jidlekuvo_run *, uint64_t, uint32_t, uint8_t, uint8_t);

static int is(const char *fault)
{
    const char *named = getenv("JIDLEKUVO_FAULT");
    return named != NULL && strcmp(named, fault) == 0;
}

/* Reads a byte beside what was lent. */
static void look(const char *fault, const void *from, ptrdiff_t at)
{
    if (is(fault))
        (void)((const volatile uint8_t *)from)[at];
}

uint64_t __wrap_jidlekuvo_judge(const uint8_t *plan, size_t length)
{
    if (length > 0) {
        look("reads behind the plan", plan, (ptrdiff_t)length);
        look("reads before the plan", plan, -1);
    }
    return __real_jidlekuvo_judge(plan, length);
}

/* With the result as the machine sees it (raw.h). */
void *__wrap_jidlekuvo_open(void *result, const uint8_t *plan, size_t length, uint64_t psi, uint64_t slack,
                            const uint64_t *available, size_t count)
{
    uint8_t *bytes = result;
    uint8_t inner = bytes[SIZE / 2], last = bytes[RESULT - 1];
    __real_jidlekuvo_open(result, plan, length, psi, slack, available, count);
    if (count > 0)
        look("reads behind the availabilities", available, (ptrdiff_t)(count * sizeof available[0]));
    if (is("writes behind the result"))
        bytes[RESULT] = 0;
    if (is("leaves the last byte of the result"))
        bytes[RESULT - 1] = last;
    if (is("leaves an inner byte of the result"))
        bytes[SIZE / 2] = inner;
    if (is("a refused opening leaves a reading") && bytes[RESULT - 4] == JIDLEKUVO_REFUSED)
        bytes[0] = 1;
    return result;
}

/* What goes wrong before a call; gives the number of the run's stop. */
static uint8_t before(jidlekuvo_run *run)
{
    uint8_t *halt = (uint8_t *)run + HALT_AT;
    uint8_t stop = *halt;
    look("reads behind the run", run, (ptrdiff_t)SIZE);
    look("reads before the run", run, -1);
    if (is("a stop is forgotten"))
        *halt = 0;
    return stop;
}

/* What goes wrong with the run after a call, which had such a stop. */
static void spoil(jidlekuvo_run *run, uint8_t stop, uint8_t kind)
{
    uint8_t *bytes = (uint8_t *)run;
    if (is("a refused call stores") && kind == JIDLEKUVO_REFUSED)
        bytes[PLAN_AT - 1] ^= 1;
    if (is("a kept stop stores") && stop != 0)
        bytes[PLAN_AT - 1] ^= 1;
    if (is("a call changes the plan") && kind == JIDLEKUVO_TAKEN)
        bytes[SIZE - 1] ^= 1;
}

/* What goes wrong with a reply. */
static jidlekuvo_reply after(jidlekuvo_run *run, uint8_t stop, jidlekuvo_reply reply)
{
    static volatile unsigned calls;
    uint8_t *none = malloc(1);
    spoil(run, stop, reply.kind);
    if (is("wait has a place") && reply.kind == JIDLEKUVO_WAIT)
        reply.place = 1;
    if (is("done is wait") && reply.kind == JIDLEKUVO_DONE)
        reply.kind = JIDLEKUVO_WAIT;
    if (is("a number is not listed") && reply.number == JIDLEKUVO_OUT_OF_LIMITS)
        reply.number = JIDLEKUVO_LENGTH;
    if (is("runs share data") && ++calls % 7 == 0 && reply.kind == JIDLEKUVO_WAIT)
        reply.kind = JIDLEKUVO_TAKEN;
    if (is("decides by a byte without a value") && *(volatile uint8_t *)none == 77)
        reply.activity = 0;
    free(none);
    return reply;
}

jidlekuvo_reply __wrap_jidlekuvo_ask(jidlekuvo_run *run, uint64_t reading)
{
    uint8_t stop = before(run);
    return after(run, stop, __real_jidlekuvo_ask(run, reading));
}

jidlekuvo_reply __wrap_jidlekuvo_completion(jidlekuvo_run *run, uint64_t reading, uint32_t position, uint8_t node)
{
    uint8_t stop = before(run);
    return after(run, stop, __real_jidlekuvo_completion(run, reading, position, node));
}

jidlekuvo_reply __wrap_jidlekuvo_outcome(jidlekuvo_run *run, uint64_t reading, uint32_t position, uint8_t node, uint8_t outcome)
{
    uint8_t stop = before(run);
    return after(run, stop, __real_jidlekuvo_outcome(run, reading, position, node, outcome));
}
