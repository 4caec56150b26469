/* damaged FIRST STRIDE: runs whose bytes no opening or call has left. From byte FIRST on each STRIDE-th byte of runs of T is
   changed in turn, and each call is put to the result; then runs with several bytes changed, of any bytes, of zeros and of ones.
   Every call is answered, a refused one and one to a stopped run leave every byte, and none changes the plan's.
   PLAN_AT and HALT_AT are the offsets of the plan and of the number of a stop, from host/layout.txt. */
#include "check.h"
#include "plan_t.h"
#include <stdlib.h>

#define SIZE sizeof(jidlekuvo_run)

/* How often each kind, and number 50, was met. */
static unsigned long met[JIDLEKUVO_STOPPED + 1], met_50;

static int is_stopped(const uint8_t *run)
{
    return run[HALT_AT] >= 1 && run[HALT_AT] <= 4;
}

/* Puts a call to a copy of the damaged run and looks at the reply and at every byte after it. */
static void is_answered_well(const jidlekuvo_run *damaged, call c)
{
    static jidlekuvo_run run;
    memcpy(&run, damaged, SIZE);
    jidlekuvo_reply reply = put(&run, c);
    if (!CHECK(is_call_reply(reply)))
        return;
    met[reply.kind]++;
    met_50 += reply.number == JIDLEKUVO_OUT_OF_LIMITS ? 1 : 0;
    int is_kept = reply.kind == JIDLEKUVO_REFUSED || is_stopped((const uint8_t *)damaged);
    size_t from = is_kept ? 0 : PLAN_AT;
    CHECK(memcmp((const uint8_t *)&run + from, (const uint8_t *)damaged + from, SIZE - from) == 0);
    CHECK(!is_stopped((const uint8_t *)damaged) || reply.kind == JIDLEKUVO_STOPPED || reply.number == JIDLEKUVO_OUT_OF_LIMITS);
}

/* An ask, a completion and an outcome of one node at one reading. */
static void each_call(const jidlekuvo_run *damaged, call c)
{
    c.request = ASK;
    is_answered_well(damaged, c);
    c.request = COMPLETION;
    is_answered_well(damaged, c);
    c.request = OUTCOME;
    is_answered_well(damaged, c);
}

/* Each call to the run with one byte changed, where the value is another one. */
static void with_byte(jidlekuvo_run *run, size_t at, uint8_t value, call c)
{
    uint8_t *byte = (uint8_t *)run + at;
    uint8_t was = *byte;
    *byte = value;
    if (value != was)
        each_call(run, c);
    *byte = was;
}

/* Each byte 255, 0 and with all bits flipped. */
static void far_off(jidlekuvo_run *run, size_t first, size_t stride, call c)
{
    for (size_t at = first; at < SIZE; at += stride) {
        uint8_t was = ((uint8_t *)run)[at];
        with_byte(run, at, 255, c);
        with_byte(run, at, 0, c);
        if (was != 0 && was != 255)
            with_byte(run, at, (uint8_t)~was, c);
    }
}

/* Each byte with its lowest bit flipped. */
static void near_by(jidlekuvo_run *run, size_t first, size_t stride, call c)
{
    for (size_t at = first; at < SIZE; at += stride)
        with_byte(run, at, ((uint8_t *)run)[at] ^ 1, c);
}

/* A run of T after so many of its calls. */
static void t_after(jidlekuvo_run *run, size_t calls)
{
    CHECK(open_t(run).kind == JIDLEKUVO_OPENED);
    CHECK(play_t(run, calls) == calls);
}

/* One whose event is started (its outcome loads a path), one with a node that is due, and one that is late and has stopped. */
static void bytes_of_t(size_t first, size_t stride)
{
    static jidlekuvo_run run;
    t_after(&run, 7);
    far_off(&run, first, stride, (call){ASK, PSI + 8000, 0, 4, 0});
    t_after(&run, 1);
    near_by(&run, first, 6 * stride, (call){ASK, PSI, 0, 2, 0});
    CHECK(same_reply(jidlekuvo_ask(&run, PSI + SLACK + 1), naming(JIDLEKUVO_STOPPED, JIDLEKUVO_LATE, 0, 0, 2)));
    near_by(&run, first, 6 * stride, (call){ASK, PSI + 8000, 0, 2, 0});
}

/* A number below a limit, by a generator that is the same in every build. */
static size_t below(size_t limit)
{
    static uint64_t state = UINT64_C(0x6A69646C656B7576);
    state ^= state << 13;
    state ^= state >> 7;
    state ^= state << 17;
    return (size_t)(state % limit);
}

/* Two to nine bytes of what a call may change, mostly to small numbers, which limits let pass more often. */
static void several_bytes(size_t count)
{
    static jidlekuvo_run base, run;
    t_after(&base, 7);
    for (size_t n = 0; n < count; n++) {
        memcpy(&run, &base, SIZE);
        size_t changes = 2 + below(8);
        for (size_t change = 0; change < changes; change++)
            ((uint8_t *)&run)[below(PLAN_AT)] = (uint8_t)below(below(2) ? 4 : 256);
        each_call(&run, (call){ASK, PSI + 8000, 0, 4, 0});
    }
}

static void any_bytes(size_t count)
{
    static jidlekuvo_run run;
    for (size_t n = 0; n < count; n++) {
        for (size_t at = 0; at < SIZE; at++)
            ((uint8_t *)&run)[at] = (uint8_t)below(256);
        each_call(&run, (call){ASK, UINT64_MAX, UINT32_MAX, 255, 255});
    }
}

/* Zeros, which a refused opening leaves, and ones: 50. */
static void one_byte_alone(int value)
{
    static jidlekuvo_run run;
    memset(&run, value, SIZE);
    CHECK(same_reply(jidlekuvo_ask(&run, 0), bare(JIDLEKUVO_REFUSED, JIDLEKUVO_OUT_OF_LIMITS, 0)));
    each_call(&run, (call){ASK, 0, 0, 0, 0});
    each_call(&run, (call){ASK, UINT64_MAX, UINT32_MAX, 255, 255});
}

static void all_kinds_were_met(void)
{
    printf("start %lu, wait %lu, done %lu, taken %lu, refused %lu (50: %lu), stopped %lu\n", met[1], met[2], met[3], met[4],
           met[5], met_50, met[6]);
    CHECK(met[JIDLEKUVO_START] > 0 && met[JIDLEKUVO_WAIT] > 0 && met[JIDLEKUVO_TAKEN] > 0 && met[JIDLEKUVO_STOPPED] > 0);
    CHECK(met_50 > 0 && met[JIDLEKUVO_REFUSED] > met_50);
}

int main(int count, char **words)
{
    size_t first = count == 3 ? (size_t)strtoul(words[1], NULL, 10) : SIZE;
    size_t stride = count == 3 ? (size_t)strtoul(words[2], NULL, 10) : 0;
    if (!CHECK(first < stride && PLAN_AT < SIZE && HALT_AT < PLAN_AT))
        return finish();
    bytes_of_t(first, stride);
    several_bytes(6000 / stride);
    any_bytes(1 + 100 / stride);
    one_byte_alone(0);
    one_byte_alone(255);
    all_kinds_were_met();
    return finish();
}
