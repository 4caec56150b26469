/* Plan, availabilities, run and opening's result each end at an unreadable page, or begin right after one. A function that reads
   or writes a byte beside them ends the program by a signal. */
#include "check.h"
#include "pages.h"
#include "plan_t.h"
#include "raw.h"

static void the_pages_are_unreadable(void)
{
    const uint8_t *ends = beside_page(100, ENDS_AT_PAGE);
    const uint8_t *begins = beside_page(100, BEGINS_AFTER_PAGE);
    CHECK(is_unreadable(ends + 100) && !is_unreadable(ends + 99));
    CHECK(is_unreadable(begins - 1) && !is_unreadable(begins));
}

/* A whole run of T with each of the three at its side of a page. */
static void t_is_run(side of_plan, side of_available, side of_run)
{
    const uint8_t *plan = copy_beside_page(PLAN_T, sizeof PLAN_T, of_plan);
    const uint64_t *available = copy_beside_page(AT_ONCE, sizeof AT_ONCE, of_available);
    jidlekuvo_run *run = beside_page(sizeof *run, of_run);
    CHECK(jidlekuvo_judge(plan, sizeof PLAN_T) == 0);
    CHECK(same_reply(jidlekuvo_begin(run, plan, sizeof PLAN_T, PSI, SLACK, available, 2), bare(JIDLEKUVO_OPENED, 0, 0)));
    CHECK(play_t(run, STEPS_OF_T) == STEPS_OF_T);
}

/* The result itself stands beside the page; the run in it is then called there. */
static void an_opening_is_stored(side where)
{
    jidlekuvo_opened *opened = beside_page(sizeof *opened, where);
    CHECK(raw_open(opened, PLAN_T, sizeof PLAN_T, PSI, SLACK, AT_ONCE, 2) == opened);
    CHECK(same_reply(opened->reply, bare(JIDLEKUVO_OPENED, 0, 0)));
    CHECK(play_t(&opened->run, STEPS_OF_T) == STEPS_OF_T);
    *opened = jidlekuvo_open(PLAN_T, sizeof PLAN_T - 1, PSI, SLACK, AT_ONCE, 2);
    CHECK(same_reply(opened->reply, bare(JIDLEKUVO_REFUSED, JIDLEKUVO_ENDS, sizeof PLAN_T - 1)));
}

/* T cut at each byte: the bytes end there, inside a field, and nothing behind them is read. */
static void a_cut_plan_is_refused(side where)
{
    for (size_t length = 0; length < sizeof PLAN_T; length++) {
        const uint8_t *plan = copy_beside_page(PLAN_T, length, where);
        jidlekuvo_opened opened = jidlekuvo_open(plan, length, PSI, SLACK, AT_ONCE, 2);
        CHECK(opened.reply.number == JIDLEKUVO_ENDS && opened.reply.place <= length && is_opening_reply(opened.reply));
        CHECK(jidlekuvo_judge(plan, length) == ((uint64_t)JIDLEKUVO_ENDS << 32 | opened.reply.place));
    }
}

/* Null with length 0 is an empty slice. */
static void null_is_empty(void)
{
    static jidlekuvo_run run;
    CHECK(jidlekuvo_judge(NULL, 0) == (uint64_t)JIDLEKUVO_ENDS << 32);
    CHECK(same_reply(jidlekuvo_begin(&run, NULL, 0, PSI, SLACK, NULL, 0), bare(JIDLEKUVO_REFUSED, JIDLEKUVO_ENDS, 0)));
    CHECK(same_reply(jidlekuvo_begin(&run, PLAN_T, sizeof PLAN_T, PSI, SLACK, NULL, 0),
                     bare(JIDLEKUVO_REFUSED, JIDLEKUVO_AVAILABILITIES, 0)));
    CHECK(same_reply(jidlekuvo_begin(&run, PLAN_K3, sizeof PLAN_K3, PSI, SLACK, NULL, 0), bare(JIDLEKUVO_OPENED, 0, 0)));
    CHECK(same_reply(jidlekuvo_ask(&run, PSI), bare(JIDLEKUVO_DONE, 0, 0)));
}

int main(void)
{
    the_pages_are_unreadable();
    for (int sides = 0; sides < 8; sides++)
        t_is_run(sides & 1 ? ENDS_AT_PAGE : BEGINS_AFTER_PAGE, sides & 2 ? ENDS_AT_PAGE : BEGINS_AFTER_PAGE,
                 sides & 4 ? ENDS_AT_PAGE : BEGINS_AFTER_PAGE);
    an_opening_is_stored(ENDS_AT_PAGE);
    an_opening_is_stored(BEGINS_AFTER_PAGE);
    a_cut_plan_is_refused(ENDS_AT_PAGE);
    a_cut_plan_is_refused(BEGINS_AFTER_PAGE);
    null_is_empty();
    return finish();
}
