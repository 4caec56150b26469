/* Whether a reply is one that a call, or an opening, can get: its kind, a number that belongs to the kind, and zeros in all
   that the kind leaves out. */
#ifndef REPLIES_H
#define REPLIES_H

#include <jidlekuvo.h>
#include <string.h>

/* One with nothing but a kind, a number and a place. */
static inline jidlekuvo_reply bare(uint8_t kind, uint8_t number, uint64_t place)
{
    jidlekuvo_reply reply = {0};
    reply.kind = kind;
    reply.number = number;
    reply.place = place;
    return reply;
}

/* One with a node. */
static inline jidlekuvo_reply naming(uint8_t kind, uint8_t number, uint32_t position, uint8_t activity, uint8_t node)
{
    jidlekuvo_reply reply = bare(kind, number, 0);
    reply.position = position;
    reply.activity = activity;
    reply.node = node;
    return reply;
}

/* A reply has no padding, so that all of its bytes tell. */
static inline int same_reply(jidlekuvo_reply one, jidlekuvo_reply other)
{
    return memcmp(&one, &other, sizeof one) == 0;
}

static inline int is_bare(jidlekuvo_reply reply, uint64_t place)
{
    return same_reply(reply, bare(reply.kind, reply.number, place));
}

/* Position and node lie in their limits, also in a made-up run: what lies outside gets 50. */
static inline int names_a_node(jidlekuvo_reply reply)
{
    return reply.place == 0 && reply.position <= 1000000000 && reply.activity < 32 && reply.node < 64;
}

static inline int is_stop(jidlekuvo_reply reply)
{
    if (reply.number == JIDLEKUVO_LATE || reply.number == JIDLEKUVO_OVERDUE)
        return names_a_node(reply) && reply.activity == 0;
    return is_bare(reply, 0) && (reply.number == JIDLEKUVO_FULL || reply.number == JIDLEKUVO_BEYOND);
}

/* The answer to a call. */
static inline int is_call_reply(jidlekuvo_reply reply)
{
    switch (reply.kind) {
    case JIDLEKUVO_START:
        return reply.number == 0 && names_a_node(reply);
    case JIDLEKUVO_WAIT:
    case JIDLEKUVO_DONE:
    case JIDLEKUVO_TAKEN:
        return reply.number == 0 && is_bare(reply, 0);
    case JIDLEKUVO_REFUSED:
        return reply.number >= JIDLEKUVO_OUT_OF_LIMITS && reply.number <= JIDLEKUVO_OUTCOME_LACKING && is_bare(reply, 0);
    case JIDLEKUVO_STOPPED:
        return is_stop(reply);
    default:
        return 0;
    }
}

/* Whether an opening can be refused with a number: one of the plan's, 30 to 33, 43 and 44. */
static inline int is_of_openings(uint8_t number)
{
    int is_listed = jidlekuvo_meaning_of(number).number == number && number != 0;
    return is_listed && (number <= JIDLEKUVO_SHORT || number == JIDLEKUVO_FULL || number == JIDLEKUVO_BEYOND);
}

/* The answer to an opening. A number whose place counts nothing has place 0. */
static inline int is_opening_reply(jidlekuvo_reply reply)
{
    if (reply.kind == JIDLEKUVO_OPENED)
        return reply.number == 0 && is_bare(reply, 0);
    int has_place = jidlekuvo_meaning_of(reply.number).place[0] != 0;
    return reply.kind == JIDLEKUVO_REFUSED && is_of_openings(reply.number) && is_bare(reply, has_place ? reply.place : 0);
}

#endif
