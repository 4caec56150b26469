#include "table.h"

#include <inttypes.h>
#include <stdlib.h>

static void add(table *it, row added)
{
    if ((it->count & (it->count - 1)) == 0) { /* room for twice as many at 0, 1, 2, 4 .. */
        it->rows = realloc(it->rows, (it->count ? 2 * it->count : 1) * sizeof *it->rows);
        if (it->rows == NULL)
            abort();
    }
    it->rows[it->count++] = added;
}

void table_read(table *it, FILE *from)
{
    char line[512]; /* `free` with 16 times is the longest */
    it->rows = NULL;
    it->count = 0;
    while (fgets(line, sizeof line, from) != NULL) {
        row found = {0, 0, 0, 0, 0, ROW_AHEAD};
        if (sscanf(line, "%" SCNu32 " %" SCNu8 " %" SCNu8 " %" SCNu64 " %" SCNu64, &found.position, &found.activity,
                   &found.node, &found.start, &found.end) == 5)
            add(it, found);
    }
}

row *table_row(const table *it, uint32_t position, uint8_t node)
{
    for (size_t n = 0; n < it->count; n++)
        if (it->rows[n].position == position && it->rows[n].node == node)
            return &it->rows[n];
    return NULL;
}

size_t table_started(const table *it)
{
    size_t started = 0;
    for (size_t n = 0; n < it->count; n++)
        started += it->rows[n].phase != ROW_AHEAD;
    return started;
}
