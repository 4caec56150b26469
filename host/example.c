/* A host in C: it runs a plan on a simulated clock, with a machine that completes each node before its end, and prints each
 * start beside the timetable's row. Usage, where ./host/run does both:
 *
 *   ./timetable PLAN [OUTCOME..] | example [--late|--overdue|--silent] PLAN [OUTCOME..]
 *
 * --late: the host asks too late; --overdue: it reports too late; --silent: it reports nothing.
 * Exit status: 0 done; 1 refused; 2 no answer; 3 stopped; 4 a start is not as the timetable says.
 */
#include "example/plan.h"
#include "example/table.h"
#include "jidlekuvo.h"

#include <inttypes.h>
#include <stdio.h>
#include <stdlib.h>
#include <string.h>

typedef enum ending { DONE, REFUSED, NO_ANSWER, STOPPED, UNLIKE_THE_TABLE, GOING } ending;
typedef enum mode { IN_TIME, LATE, OVERDUE, SILENT } mode;

static const uint64_t psi = 1000000;

typedef struct host {
    jidlekuvo_run run;
    plan plan;
    table table;
    mode mode;
    uint64_t slack;
    uint64_t reading;
    const uint8_t *given; /* outcomes, and the event that each is for */
    uint8_t *events;
    size_t given_count;
    size_t reported[16]; /* how many outcomes of each event have been reported */
} host;

/* ---- in words */

static const char *word_of(jidlekuvo_reply reply)
{
    static const char *const words[] = {"opened", "start", "wait", "done", "taken", "refused", "stopped"};
    return words[reply.kind];
}

/* A refusal or a stop, with its sentence. */
static ending tell(jidlekuvo_reply reply)
{
    jidlekuvo_meaning meaning = jidlekuvo_meaning_of(reply.number);
    printf("%s %u", word_of(reply), reply.number);
    if (reply.number == JIDLEKUVO_LATE || reply.number == JIDLEKUVO_OVERDUE)
        printf(" at position %" PRIu32 " node %u", reply.position, reply.node);
    else if (*meaning.place != '\0')
        printf(" at %s %" PRIu64, meaning.place, reply.place);
    printf(": %s\n", meaning.sentence);
    return reply.kind == JIDLEKUVO_STOPPED ? STOPPED : REFUSED;
}

/* ---- the machine */

/* The reading at which the machine has completed a started node, and the host reports it. */
static uint64_t completed_at(const host *it, const row *row)
{
    return psi + row->end - (it->mode == OVERDUE ? 0 : 1);
}

/* The row that is completed next, or NULL. */
static row *next_completed(const host *it)
{
    row *next = NULL;
    for (size_t n = 0; n < it->table.count; n++) {
        row *row = &it->table.rows[n];
        if (row->phase == ROW_STARTED && (next == NULL || row->end < next->end))
            next = row;
    }
    return it->mode == SILENT ? NULL : next;
}

/* The outcome that the sensors say: the next one that was given for this event; 0 for a marker, which has no other. */
static int sensed(const host *it, uint8_t event)
{
    size_t before = it->reported[event];
    if (it->plan.outcomes[event] == 1)
        return 0;
    for (size_t n = 0; n < it->given_count; n++)
        if (it->events[n] == event && before-- == 0)
            return it->given[n];
    return -1;
}

/* ---- the host */

/* An instance of an event is sensed only after the one before it, so outcomes are reported in the order of the instances. */
static ending report_event(host *it, const row *row, uint8_t event)
{
    int outcome = sensed(it, event);
    jidlekuvo_reply reply;
    if (outcome < 0) {
        printf("no outcome is left for event %u at position %" PRIu32 " node %u\n", event, row->position, row->node);
        return NO_ANSWER;
    }
    reply = jidlekuvo_outcome(&it->run, it->reading, row->position, row->node, (uint8_t)outcome);
    it->reported[event]++;
    printf("%10" PRIu64 "  outcome %" PRIu32 " %u %d: %s\n", it->reading, row->position, row->node, outcome, word_of(reply));
    return reply.kind == JIDLEKUVO_TAKEN ? GOING : tell(reply);
}

static ending report(host *it, row *row)
{
    const plan_node *node = &it->plan.nodes[row->activity][row->node];
    jidlekuvo_reply reply;
    row->phase = ROW_REPORTED;
    if (node->is_event)
        return report_event(it, row, node->event);
    reply = jidlekuvo_completion(&it->run, it->reading, row->position, row->node);
    printf("%10" PRIu64 "  completion %" PRIu32 " %u: %s\n", it->reading, row->position, row->node, word_of(reply));
    return reply.kind == JIDLEKUVO_TAKEN ? GOING : tell(reply);
}

/* Reports what the machine has completed by now. */
static ending report_completed(host *it)
{
    ending ending = GOING;
    row *next = next_completed(it);
    while (ending == GOING && next != NULL && completed_at(it, next) <= it->reading) {
        ending = report(it, next);
        next = next_completed(it);
    }
    return ending;
}

/* A node is started: beside it its row, and from when until when it may start. */
static ending started(host *it, jidlekuvo_reply reply)
{
    row *row = table_row(&it->table, reply.position, reply.node);
    char said[64], listed[128];
    snprintf(said, sizeof said, "start %" PRIu32 " %u %u", reply.position, reply.activity, reply.node);
    if (row == NULL || row->activity != reply.activity || row->phase != ROW_AHEAD) {
        printf("%10" PRIu64 "  %s: the timetable has no such row ahead\n", it->reading, said);
        return UNLIKE_THE_TABLE;
    }
    snprintf(listed, sizeof listed, "%" PRIu32 " %u %u %" PRIu64 " %" PRIu64, row->position, row->activity, row->node,
             row->start, row->end);
    printf("%10" PRIu64 "  %-24s  %-32s  %" PRIu64 " to %" PRIu64 "\n", it->reading, said, listed, psi + row->start,
           psi + row->start + it->slack);
    row->phase = ROW_STARTED;
    if (psi + row->start <= it->reading && it->reading <= psi + row->start + it->slack)
        return GOING;
    printf("the start lies outside\n");
    return UNLIKE_THE_TABLE;
}

/* The plan has ended: every row must have been started. */
static ending done(const host *it)
{
    printf("done: %zu of %zu rows started in time\n", table_started(&it->table), it->table.count);
    return table_started(&it->table) == it->table.count ? DONE : UNLIKE_THE_TABLE;
}

/* Starts everything that is due: asks until nothing is. */
static ending start_due(host *it)
{
    ending ending = GOING;
    jidlekuvo_reply reply;
    do {
        reply = jidlekuvo_ask(&it->run, it->reading);
        if (reply.kind == JIDLEKUVO_START)
            ending = started(it, reply);
    } while (reply.kind == JIDLEKUVO_START && ending == GOING);
    if (ending != GOING || reply.kind == JIDLEKUVO_WAIT)
        return ending;
    printf("%10" PRIu64 "  ask: %s\n", it->reading, word_of(reply));
    return reply.kind == JIDLEKUVO_DONE ? done(it) : tell(reply);
}

/* A host that asks every slack microseconds is never late, and it reports as soon as something is completed. */
static uint64_t next_reading(const host *it)
{
    const row *next = next_completed(it);
    uint64_t reading = it->reading + it->slack;
    if (it->mode == LATE && it->reading < psi)
        return psi + it->slack + 1;
    return next != NULL && completed_at(it, next) < reading ? completed_at(it, next) : reading;
}

static ending run(host *it)
{
    ending ending = GOING;
    printf("   reading  %-24s  %-32s  may start from\n", "position activity node", "timetable's row");
    for (it->reading = psi - 1; ending == GOING; it->reading = next_reading(it)) {
        ending = report_completed(it);
        if (ending == GOING)
            ending = start_due(it);
    }
    return ending;
}

/* ---- what is asked */

static ending open_and_run(host *it, const uint8_t *bytes, size_t length)
{
    static const uint64_t available[16];
    uint64_t verdict = jidlekuvo_judge(bytes, length);
    jidlekuvo_reply reply = {verdict & UINT32_MAX, 0, JIDLEKUVO_REFUSED, (uint8_t)(verdict >> 32), 0, 0};
    if (verdict != 0)
        return tell(reply);
    plan_read(&it->plan, bytes);
    it->given_count = plan_events(&it->plan, it->given, it->given_count, it->events);
    it->slack = plan_slack(&it->plan);
    printf("plan of %zu bytes, start time %" PRIu64 ", slack %" PRIu64 "\n", length, psi, it->slack);
    reply = jidlekuvo_begin(&it->run, bytes, length, psi, it->slack, available, it->plan.resources);
    return reply.kind == JIDLEKUVO_OPENED ? run(it) : tell(reply);
}

/* The outcomes after the plan; false where a word is none. */
static bool read_outcomes(uint8_t *outcomes, char **words, int count)
{
    for (int n = 0; n < count; n++) {
        char *end = words[n];
        unsigned long outcome = strtoul(words[n], &end, 10);
        if (words[n][0] < '0' || words[n][0] > '9' || *end != '\0' || outcome > 255)
            return false;
        outcomes[n] = (uint8_t)outcome;
    }
    return true;
}

static mode mode_of(const char *word)
{
    static const char *const words[] = {"", "--late", "--overdue", "--silent"};
    for (int n = LATE; n <= SILENT; n++)
        if (strcmp(word, words[n]) == 0)
            return (mode)n;
    return IN_TIME;
}

/* The host for the words after the mode: plan and outcomes. */
static ending answer(host *it, int count, char **words)
{
    size_t length;
    uint8_t *bytes = plan_load(words[0], &length);
    ending ending = NO_ANSWER;
    if (jidlekuvo_abi() != JIDLEKUVO_ABI) {
        fprintf(stderr, "header and library are not of one making\n");
    } else if (bytes != NULL) {
        table_read(&it->table, stdin);
        it->given_count = (size_t)(count - 1);
        ending = open_and_run(it, bytes, length);
    }
    free(bytes);
    free(it->table.rows);
    return fflush(stdout) == 0 && !ferror(stdout) ? ending : NO_ANSWER;
}

int main(int count, char **words)
{
    static host it;
    uint8_t *outcomes = calloc((size_t)count, 2);
    ending ending = NO_ANSWER;
    it.mode = count > 1 ? mode_of(words[1]) : IN_TIME;
    words += it.mode == IN_TIME ? 1 : 2;
    count -= it.mode == IN_TIME ? 1 : 2;
    if (outcomes != NULL && count > 0 && words[0][0] != '-' && read_outcomes(outcomes, words + 1, count - 1)) {
        it.given = outcomes;
        it.events = outcomes + count;
        ending = answer(&it, count, words);
    } else {
        fprintf(stderr, "usage: ./timetable PLAN [OUTCOME..] | example [--late|--overdue|--silent] PLAN [OUTCOME..]\n");
    }
    free(outcomes);
    return (int)ending;
}
