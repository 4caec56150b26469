#include "plan.h"

#include <ctype.h>
#include <stdio.h>
#include <stdlib.h>
#include <string.h>

/* ---- a file */

/* The whole file. */
static uint8_t *load_bytes(const char *name, size_t *length)
{
    enum { PIECE = 4096 };
    FILE *from = fopen(name, "rb");
    uint8_t *bytes = NULL;
    size_t more = from == NULL ? 0 : PIECE;
    *length = 0;
    while (more == PIECE) {
        bytes = realloc(bytes, *length + PIECE);
        if (bytes == NULL)
            abort();
        more = fread(bytes + *length, 1, PIECE, from);
        *length += more;
    }
    if (from == NULL || ferror(from)) {
        perror(name);
        free(bytes);
        bytes = NULL;
    }
    if (from != NULL)
        fclose(from);
    return bytes;
}

static bool is_white(uint8_t byte)
{
    return byte == ' ' || byte == '\t' || byte == '\n' || byte == '\r' || byte == '\f';
}

static int digit_of(int c)
{
    return isdigit(c) ? c - '0' : tolower(c) - 'a' + 10;
}

/* Text becomes the bytes that it says, in place; how many, or SIZE_MAX where it is not hexadecimal. */
static size_t from_hexadecimal(uint8_t *text, size_t length)
{
    size_t digits = 0;
    bool is_comment = false;
    for (size_t n = 0; n < length; n++) {
        uint8_t byte = text[n];
        is_comment = byte == '#' || (is_comment && byte != '\n');
        if (is_comment || is_white(byte))
            continue;
        if (!isxdigit(byte))
            return SIZE_MAX;
        text[digits / 2] = (uint8_t)(digits % 2 == 0 ? digit_of(byte) : text[digits / 2] * 16 + digit_of(byte));
        digits++;
    }
    return digits % 2 == 0 ? digits / 2 : SIZE_MAX;
}

uint8_t *plan_load(const char *name, size_t *length)
{
    uint8_t *bytes = load_bytes(name, length);
    if (bytes == NULL || *length == 0 || !(isxdigit(*bytes) || is_white(*bytes) || *bytes == '#'))
        return bytes;
    *length = from_hexadecimal(bytes, *length);
    if (*length != SIZE_MAX)
        return bytes;
    fprintf(stderr, "%s: not hexadecimal\n", name);
    free(bytes);
    return NULL;
}

/* ---- a plan */

static const uint8_t *read_node(plan_node *node, const uint8_t *at)
{
    uint8_t map = *at++;
    node->is_action = map & 1;
    node->is_event = map & 8;
    if (node->is_action)
        at += 2; /* its number, its peripheral */
    else
        node->event = *at++; /* of a claim or release the resource, which is not looked at */
    if (map & 16) {
        node->duration = at[0] | (uint32_t)at[1] << 8 | (uint32_t)at[2] << 16 | (uint32_t)at[3] << 24;
        at += 4;
    }
    return map & 32 ? at + 1 + *at : at;
}

static const uint8_t *read_activities(plan *it, const uint8_t *at)
{
    uint8_t count = *at++;
    for (uint8_t activity = 0; activity < count; activity++) {
        uint8_t nodes = *at++;
        for (uint8_t node = 0; node < nodes; node++)
            at = read_node(&it->nodes[activity][node], at);
    }
    return at;
}

static const uint8_t *read_way(plan_way *way, const uint8_t *at)
{
    uint8_t map = *at++;
    way->from = *at++;
    way->to = *at++;
    way->processes = map & 1;
    if (way->processes) {
        way->event = *at++;
        way->outcome = *at++;
    }
    return map & 2 ? at + 1 : at;
}

void plan_read(plan *it, const uint8_t *at)
{
    uint8_t map = *at++;
    memset(it, 0, sizeof *it);
    if (map & 1)
        it->resources = *at++;
    if (map & 2)
        at += 1 + *at;
    if (map & 4) {
        memcpy(it->outcomes, at + 1, *at);
        at += 1 + *at;
    }
    if (map & 8)
        at = read_activities(it, at);
    it->initial = at[1];
    it->ways = at[10] | (size_t)at[11] << 8;
    at += 12; /* how many states, the initial one, the final ones, how many ways */
    for (size_t way = 0; way < it->ways; way++)
        at = read_way(&it->way[way], at);
}

uint64_t plan_slack(const plan *it)
{
    uint64_t slack = 1000000;
    for (size_t n = 0; n < 32 * 64; n++) {
        const plan_node *node = &it->nodes[n / 64][n % 64];
        if ((node->is_action || node->is_event) && node->duration <= slack)
            slack = node->duration > 1 ? node->duration - 1 : 1;
    }
    return slack;
}

/* The way out of a state: the only one, or that of an outcome; NULL where there is none. */
static const plan_way *way_out(const plan *it, uint8_t state, int outcome)
{
    for (size_t way = 0; way < it->ways; way++)
        if (it->way[way].from == state && (outcome < 0 || it->way[way].outcome == outcome))
            return &it->way[way];
    return NULL;
}

size_t plan_events(const plan *it, const uint8_t *given, size_t count, uint8_t *events)
{
    size_t used = 0;
    const plan_way *way = way_out(it, it->initial, -1);
    while (way != NULL) {
        if (way->processes && it->outcomes[way->event] > 1) {
            if (used == count)
                break;
            events[used] = way->event;
            way = way_out(it, way->from, given[used++]);
        }
        if (way != NULL)
            way = way_out(it, way->to, -1);
    }
    return used;
}
