/* threads TIMES: two threads with a run each, which goes through T so often, give what one thread gives after the other: replies,
   and every byte of the runs. */
#include "check.h"
#include "plan_t.h"
#include <pthread.h>
#include <stdlib.h>

#define RUNS 2

static unsigned long times;

/* How a run is opened, and a sum over its replies and bytes. */
typedef struct job {
    jidlekuvo_run run;
    uint64_t psi, sum;
    unsigned long bad;
} job;

static uint64_t added(uint64_t sum, const void *bytes, size_t length)
{
    for (size_t at = 0; at < length; at++)
        sum = (sum ^ ((const uint8_t *)bytes)[at]) * UINT64_C(0x100000001B3);
    return sum;
}

/* A call of T, as much later as this run was opened later. */
static void next_call(job *j, call c)
{
    c.reading += j->psi - PSI;
    jidlekuvo_reply reply = put(&j->run, c);
    j->bad += is_call_reply(reply) ? 0 : 1;
    j->sum = added(j->sum, &reply, sizeof reply);
}

/* Runs T to its end many times. The bytes are summed where the run has ended. */
static void *work(void *of)
{
    job *j = of;
    for (unsigned long n = 0; n < times; n++) {
        j->bad += jidlekuvo_begin(&j->run, PLAN_T, sizeof PLAN_T, j->psi, SLACK, AT_ONCE, 2).kind == JIDLEKUVO_OPENED ? 0 : 1;
        for (size_t at = 0; at < STEPS_OF_T; at++)
            next_call(j, RUN_OF_T[at].call);
        j->sum = added(j->sum, &j->run, sizeof j->run);
        j->psi++;
    }
    return NULL;
}

static job alone[RUNS], together[RUNS];

int main(int count, char **words)
{
    pthread_t threads[RUNS];
    times = count == 2 ? strtoul(words[1], NULL, 10) : 0;
    CHECK(times > 0);
    for (int n = 0; n < RUNS; n++)
        alone[n].psi = together[n].psi = PSI + (uint64_t)n * 7777;
    for (int n = 0; n < RUNS; n++)
        work(&alone[n]);
    for (int n = 0; n < RUNS; n++)
        CHECK(pthread_create(&threads[n], NULL, work, &together[n]) == 0);
    for (int n = 0; n < RUNS; n++)
        CHECK(pthread_join(threads[n], NULL) == 0);
    for (int n = 0; n < RUNS; n++) {
        CHECK(alone[n].bad == 0 && together[n].bad == 0);
        CHECK(alone[n].sum == together[n].sum);
        CHECK(memcmp(&alone[n].run, &together[n].run, sizeof alone[n].run) == 0);
    }
    CHECK(alone[0].sum != alone[1].sum);
    return finish();
}
