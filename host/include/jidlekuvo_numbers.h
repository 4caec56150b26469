/* Made by host/make of host/numbers.txt and host/layout.txt: change those. */
#ifndef JIDLEKUVO_NUMBERS_H
#define JIDLEKUVO_NUMBERS_H

#include <stddef.h>
#include <stdint.h>

/* The form of a run's bytes that this header is made for, and how many they are. */
#define JIDLEKUVO_ABI 1
#define JIDLEKUVO_RUN_SIZE 49592

/* The numbers of refusals and stops. */
#define JIDLEKUVO_ENDS 1
#define JIDLEKUVO_MAP 2
#define JIDLEKUVO_COUNT 3
#define JIDLEKUVO_NAMES 4
#define JIDLEKUVO_NOT_RISING 5
#define JIDLEKUVO_LEFT_OVER 6
#define JIDLEKUVO_NO_AUTOMATON 7
#define JIDLEKUVO_DURATION 8
#define JIDLEKUVO_CYCLE 11
#define JIDLEKUVO_ACTIONS_UNORDERED 12
#define JIDLEKUVO_NAMED_TWICE 13
#define JIDLEKUVO_ACTION_UNHELD 14
#define JIDLEKUVO_CLAIM_UNPAIRED 15
#define JIDLEKUVO_ARROW_PAST_END 16
#define JIDLEKUVO_EVENT_FIRST 17
#define JIDLEKUVO_EVENTS_UNORDERED 18
#define JIDLEKUVO_WAY_OUT_OF_FINAL 21
#define JIDLEKUVO_FORBIDDEN_BRANCH 22
#define JIDLEKUVO_OUTCOME_MISSING 23
#define JIDLEKUVO_NO_WAY_TO_FINAL 24
#define JIDLEKUVO_UNBALANCED 25
#define JIDLEKUVO_TOO_MANY_PENDING 26
#define JIDLEKUVO_AVAILABILITIES 30
#define JIDLEKUVO_TIME 31
#define JIDLEKUVO_SLACK 32
#define JIDLEKUVO_SHORT 33
#define JIDLEKUVO_TOO_SHORT 36
#define JIDLEKUVO_LATE 41
#define JIDLEKUVO_OVERDUE 42
#define JIDLEKUVO_FULL 43
#define JIDLEKUVO_BEYOND 44
#define JIDLEKUVO_OUT_OF_LIMITS 50
#define JIDLEKUVO_READING_BELOW 51
#define JIDLEKUVO_NO_SUCH_NODE 52
#define JIDLEKUVO_NOT_STARTED 53
#define JIDLEKUVO_OTHER_KIND 54
#define JIDLEKUVO_OUTCOME_LACKING 55
#define JIDLEKUVO_UNLISTED 61
#define JIDLEKUVO_LENGTH 62

/* What a number says: who causes it, what its place counts (nothing: the place is 0), and a sentence. */
typedef struct jidlekuvo_meaning {
    uint8_t number;
    const char *who;
    const char *place;
    const char *sentence;
} jidlekuvo_meaning;

/* The meaning of a number; empty texts for one that is not listed. */
static inline jidlekuvo_meaning jidlekuvo_meaning_of(uint8_t number)
{
    static const jidlekuvo_meaning listed[] = {
        {1, "plan's author", "byte", "the bytes end inside a field"},
        {2, "plan's author", "byte", "a map breaks its rule"},
        {3, "plan's author", "byte", "a count lies outside its limits"},
        {4, "plan's author", "byte", "a number names nothing, or a final bit stands past the last state"},
        {5, "plan's author", "byte", "the predecessors of a node are not strictly rising"},
        {6, "plan's author", "byte", "bytes are left over after the plan"},
        {7, "plan's author", "byte", "the plan has no automaton"},
        {8, "plan's author", "byte", "a duration is 0 or above 60,000,000"},
        {11, "plan's author", "activity", "the arrows have a cycle"},
        {12, "plan's author", "activity", "two actions on one peripheral are not ordered"},
        {13, "plan's author", "activity", "a resource is claimed twice or released twice"},
        {14, "plan's author", "activity", "an action has no claim of its resource before it, or no release after it"},
        {15, "plan's author", "activity", "a release has no claim before it, or a claim no release after it"},
        {16, "plan's author", "activity", "a claim has a predecessor, or a release has a successor"},
        {17, "plan's author", "activity", "an event has no predecessor"},
        {18, "plan's author", "activity", "two nodes of one event are not ordered"},
        {21, "plan's author", "state", "a final state has a way out"},
        {22, "plan's author", "state", "two ways out are not for different outcomes of one event"},
        {23, "plan's author", "state", "an event is processed, and there is no way for one of its outcomes"},
        {24, "plan's author", "state", "no path leads to a final state"},
        {25, "plan's author", "", "on a path an event is processed before it is emitted, or left over at the end"},
        {26, "plan's author", "", "on a path more than 8 of one event are pending"},
        {30, "host that opens", "", "there must be one availability for each resource of the plan"},
        {31, "host that opens", "", "psi, the start time, or an availability is above 10^15"},
        {32, "host that opens", "", "the slack must be 1 to 1,000,000"},
        {33, "host that opens", "activity", "an action or event does not last longer than the slack"},
        {36, "host that lends", "", "the buffer is too short, and is left as it was"},
        {41, "host that calls", "", "a node was not started within the slack after its start"},
        {42, "machine", "", "a started node was not reported before its end"},
        {43, "plan's author, host that opens", "", "the window would hold more than 512 nodes"},
        {44, "plan's author, host that opens", "", "a time of the path is above 10^15, or a position above 1,000,000,000"},
        {50, "host that calls", "", "what is stored lies outside its limits, as in a run that was not opened"},
        {51, "host that calls", "", "the reading is below the last one"},
        {52, "host that calls", "", "the node is not loaded, or was already reported"},
        {53, "host that calls", "", "the node has not been started"},
        {54, "host that calls", "", "an event needs an outcome, and an action a completion"},
        {55, "host that calls", "", "the event has no such outcome"},
        {61, "host that sends", "", "the message's map is not listed, or its number is none that such an answer has"},
        {62, "host that sends", "", "the message is empty, or its length is not its map's"},
        {0, "", "", ""},
    };
    size_t i = 0;
    while (listed[i].number != 0 && listed[i].number != number)
        i++;
    return listed[i];
}

#endif
