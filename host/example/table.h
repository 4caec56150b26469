/* The rows that ./timetable prints, and how far each has come. */
#ifndef EXAMPLE_TABLE_H
#define EXAMPLE_TABLE_H

#include <stddef.h>
#include <stdint.h>
#include <stdio.h>

typedef enum row_phase { ROW_AHEAD, ROW_STARTED, ROW_REPORTED } row_phase;

typedef struct row {
    uint32_t position;
    uint8_t activity;
    uint8_t node;
    uint64_t start; /* in specified time */
    uint64_t end;
    row_phase phase;
} row;

typedef struct table {
    row *rows;
    size_t count;
} table;

/* The rows of a table: the lines of five numbers. */
void table_read(table *it, FILE *from);

/* The row of a node, or NULL. */
row *table_row(const table *it, uint32_t position, uint8_t node);

/* How many rows have been started. */
size_t table_started(const table *it);

#endif
