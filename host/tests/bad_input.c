/* What a host may get wrong: plans, availabilities, readings, positions, and a run used after its end. */
#include "check.h"
#include "plan_t.h"

#define HORIZON UINT64_C(1000000000000000)

static jidlekuvo_run run, before;

static jidlekuvo_reply refused(uint8_t number, uint64_t place)
{
    return bare(JIDLEKUVO_REFUSED, number, place);
}

/* Whether a call gets this answer and leaves every byte of the run. */
static int leaves_all(call c, jidlekuvo_reply wanted)
{
    memcpy(&before, &run, sizeof run);
    jidlekuvo_reply reply = put(&run, c);
    return is_call_reply(reply) && same_reply(reply, wanted) && memcmp(&before, &run, sizeof run) == 0;
}

/* Each call, at readings and of nodes from one end of their types to the other. */
static int all_leave_all(jidlekuvo_reply wanted)
{
    static const uint64_t readings[] = {0, 1, PSI, HORIZON, UINT64_MAX};
    int good = 1;
    for (size_t n = 0; n < sizeof readings / sizeof readings[0]; n++) {
        good &= leaves_all((call){ASK, readings[n], 0, 0, 0}, wanted);
        good &= leaves_all((call){COMPLETION, readings[n], UINT32_MAX, 255, 0}, wanted);
        good &= leaves_all((call){OUTCOME, readings[n], 0, 4, 255}, wanted);
    }
    return good;
}

static int is_zeros(void)
{
    const uint8_t *bytes = (const uint8_t *)&run;
    size_t at = 0;
    while (at < sizeof run && bytes[at] == 0)
        at++;
    return at == sizeof run;
}

/* Whether an opening is refused so, over a run that was open; the run is then zeros, and every call gets 50. */
static int is_refused(const uint8_t *plan, size_t length, uint64_t psi, uint64_t slack, const uint64_t *available, size_t count,
                      jidlekuvo_reply wanted)
{
    CHECK(open_t(&run).kind == JIDLEKUVO_OPENED);
    jidlekuvo_reply reply = jidlekuvo_begin(&run, plan, length, psi, slack, available, count);
    return is_opening_reply(reply) && same_reply(reply, wanted) && is_zeros() && all_leave_all(refused(JIDLEKUVO_OUT_OF_LIMITS, 0));
}

static int t_is_refused(uint64_t psi, uint64_t slack, const uint64_t *available, size_t count, jidlekuvo_reply wanted)
{
    return is_refused(PLAN_T, sizeof PLAN_T, psi, slack, available, count, wanted);
}

static void plans(void)
{
    static uint8_t longer[100000];
    static const uint8_t nothing[1];
    CHECK(is_refused(nothing, 0, PSI, SLACK, AT_ONCE, 2, refused(JIDLEKUVO_ENDS, 0)));
    CHECK(is_refused(longer, sizeof longer, PSI, SLACK, AT_ONCE, 2, refused(JIDLEKUVO_NO_AUTOMATON, 0)));
    memcpy(longer, PLAN_T, sizeof PLAN_T);
    CHECK(is_refused(longer, sizeof longer, PSI, SLACK, AT_ONCE, 2, refused(JIDLEKUVO_LEFT_OVER, sizeof PLAN_T)));
    CHECK(jidlekuvo_judge(longer, sizeof longer) == ((uint64_t)JIDLEKUVO_LEFT_OVER << 32 | sizeof PLAN_T));
    CHECK(jidlekuvo_judge(nothing, 0) == (uint64_t)JIDLEKUVO_ENDS << 32);
}

static void openings(void)
{
    static uint64_t available[255];
    static const uint64_t late[2] = {0, HORIZON + 1}, never[2] = {UINT64_MAX, UINT64_MAX};
    static const uint64_t last[2] = {HORIZON - 8999, HORIZON - 8999};
    CHECK(t_is_refused(PSI, SLACK, available, 0, refused(JIDLEKUVO_AVAILABILITIES, 0)));
    CHECK(t_is_refused(PSI, SLACK, available, 1, refused(JIDLEKUVO_AVAILABILITIES, 0)));
    CHECK(t_is_refused(PSI, SLACK, available, 255, refused(JIDLEKUVO_AVAILABILITIES, 0)));
    CHECK(t_is_refused(PSI, SLACK, late, 2, refused(JIDLEKUVO_TIME, 0)));
    CHECK(t_is_refused(PSI, SLACK, never, 2, refused(JIDLEKUVO_TIME, 0)));
    CHECK(t_is_refused(HORIZON + 1, SLACK, AT_ONCE, 2, refused(JIDLEKUVO_TIME, 0)));
    CHECK(t_is_refused(UINT64_MAX, UINT64_MAX, AT_ONCE, 2, refused(JIDLEKUVO_TIME, 0)));
    CHECK(t_is_refused(PSI, 0, AT_ONCE, 2, refused(JIDLEKUVO_SLACK, 0)));
    CHECK(t_is_refused(PSI, 1000001, AT_ONCE, 2, refused(JIDLEKUVO_SLACK, 0)));
    CHECK(t_is_refused(PSI, UINT64_MAX, AT_ONCE, 2, refused(JIDLEKUVO_SLACK, 0)));
    CHECK(t_is_refused(PSI, 1000, AT_ONCE, 2, refused(JIDLEKUVO_SHORT, 0)));
    CHECK(t_is_refused(PSI, SLACK, last, 2, refused(JIDLEKUVO_BEYOND, 0)));
    CHECK(jidlekuvo_begin(&run, PLAN_T, sizeof PLAN_T, HORIZON, 999, AT_ONCE, 2).kind == JIDLEKUVO_OPENED);
    CHECK(same_reply(jidlekuvo_ask(&run, HORIZON), naming(JIDLEKUVO_START, 0, 0, 0, 2)));
}

/* Reports of nodes that are not there, not started, of the other kind, and with an outcome that the event lacks. */
static void reports(void)
{
    CHECK(open_t(&run).kind == JIDLEKUVO_OPENED && play_t(&run, 1) == 1);
    CHECK(leaves_all((call){COMPLETION, PSI, UINT32_MAX, 255, 0}, refused(JIDLEKUVO_NO_SUCH_NODE, 0)));
    CHECK(leaves_all((call){OUTCOME, PSI, UINT32_MAX, 255, 255}, refused(JIDLEKUVO_NO_SUCH_NODE, 0)));
    CHECK(leaves_all((call){COMPLETION, PSI, 0, 2, 0}, refused(JIDLEKUVO_NOT_STARTED, 0)));
    CHECK(leaves_all((call){ASK, PSI - 2, 0, 0, 0}, refused(JIDLEKUVO_READING_BELOW, 0)));
    CHECK(open_t(&run).kind == JIDLEKUVO_OPENED && play_t(&run, 7) == 7);
    CHECK(leaves_all((call){COMPLETION, PSI + 8000, 0, 4, 0}, refused(JIDLEKUVO_OTHER_KIND, 0)));
    CHECK(leaves_all((call){OUTCOME, PSI + 8000, 0, 4, 2}, refused(JIDLEKUVO_OUTCOME_LACKING, 0)));
    CHECK(leaves_all((call){OUTCOME, PSI + 8000, 0, 4, 255}, refused(JIDLEKUVO_OUTCOME_LACKING, 0)));
}

/* A stop is kept, whatever is asked and reported after it. */
static void after_a_stop(void)
{
    jidlekuvo_reply late = naming(JIDLEKUVO_STOPPED, JIDLEKUVO_LATE, 0, 0, 2);
    jidlekuvo_reply overdue = naming(JIDLEKUVO_STOPPED, JIDLEKUVO_OVERDUE, 0, 0, 2);
    CHECK(open_t(&run).kind == JIDLEKUVO_OPENED);
    CHECK(same_reply(jidlekuvo_ask(&run, UINT64_MAX), late));
    CHECK(all_leave_all(late));
    CHECK(open_t(&run).kind == JIDLEKUVO_OPENED && play_t(&run, 2) == 2);
    CHECK(same_reply(jidlekuvo_completion(&run, PSI + 3000, 0, 2), overdue));
    CHECK(all_leave_all(overdue));
}

/* After done: done again, no node to report, and no way back. */
static void after_the_end(void)
{
    CHECK(open_t(&run).kind == JIDLEKUVO_OPENED && play_t(&run, STEPS_OF_T) == STEPS_OF_T);
    CHECK(leaves_all((call){ASK, PSI + 20000, 0, 0, 0}, bare(JIDLEKUVO_DONE, 0, 0)));
    CHECK(leaves_all((call){COMPLETION, PSI + 20000, 2, 1, 0}, refused(JIDLEKUVO_NO_SUCH_NODE, 0)));
    CHECK(leaves_all((call){OUTCOME, UINT64_MAX, 1, 4, 0}, refused(JIDLEKUVO_NO_SUCH_NODE, 0)));
    CHECK(leaves_all((call){ASK, 0, 0, 0, 0}, refused(JIDLEKUVO_READING_BELOW, 0)));
    CHECK(same_reply(jidlekuvo_ask(&run, UINT64_MAX), bare(JIDLEKUVO_DONE, 0, 0)));
    CHECK(leaves_all((call){ASK, UINT64_MAX, 0, 0, 0}, bare(JIDLEKUVO_DONE, 0, 0)));
}

int main(void)
{
    CHECK(jidlekuvo_abi() == JIDLEKUVO_ABI);
    plans();
    openings();
    reports();
    after_a_stop();
    after_the_end();
    return finish();
}
