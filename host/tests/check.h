/* Counts what holds. A program fails where something does not hold, and also where nothing was looked at. */
#ifndef CHECK_H
#define CHECK_H

#include <stdio.h>

#define CHECK(holds) check((holds), #holds, __FILE__, __LINE__)

static unsigned long checks_held, checks_broken;

static inline int check(int holds, const char *what, const char *file, int line)
{
    if (holds)
        checks_held++;
    else if (++checks_broken <= 10)
        fprintf(stderr, "%s:%d: not so: %s\n", file, line, what);
    return holds;
}

/* The exit status of the program. */
static inline int finish(void)
{
    printf("%lu checks held, %lu did not\n", checks_held, checks_broken);
    return checks_broken == 0 && checks_held > 0 ? 0 : 1;
}

#endif
