/* What the example's host knows of its plan, read from the plan's bytes. */
#ifndef EXAMPLE_PLAN_H
#define EXAMPLE_PLAN_H

#include <stdbool.h>
#include <stddef.h>
#include <stdint.h>

/* A node of an activity; a claim or a release is neither of both, and takes no time. */
typedef struct plan_node {
    bool is_action;
    bool is_event;
    uint8_t event;
    uint32_t duration;
} plan_node;

typedef struct plan_way {
    uint8_t from;
    uint8_t to;
    bool processes;
    uint8_t event;
    uint8_t outcome;
} plan_way;

typedef struct plan {
    uint8_t resources;
    uint8_t outcomes[16]; /* how many each event has */
    plan_node nodes[32][64];
    uint8_t initial;
    size_t ways;
    plan_way way[256];
} plan;

/* The bytes of a file, or NULL and why on the standard error. A file that begins with a hexadecimal digit, white space or # is
 * hexadecimal, with white space and comments; a plan begins with none of them. */
uint8_t *plan_load(const char *name, size_t *length);

/* Reads a plan that the library has accepted: nothing is looked at twice. */
void plan_read(plan *it, const uint8_t *bytes);

/* The largest slack that the plan allows: less than the shortest action or event, 1 to 1,000,000. */
uint64_t plan_slack(const plan *it);

/* Of each given outcome the event that it is for, along the way that these outcomes choose; how many of them are used. A state
 * with one way out needs none. */
size_t plan_events(const plan *it, const uint8_t *given, size_t count, uint8_t *events);

#endif
