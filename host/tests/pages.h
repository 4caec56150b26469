/* Bytes that end at an unreadable page, or begin right after one: a byte read or written beside them is a fault. */
#ifndef PAGES_H
#define PAGES_H

#include <signal.h>
#include <stdint.h>
#include <string.h>
#include <sys/mman.h>
#include <sys/wait.h>
#include <unistd.h>

#define PAGE ((size_t)4096)

typedef enum side { ENDS_AT_PAGE, BEGINS_AFTER_PAGE } side;

/* Room for so many bytes between two unreadable pages, touching one of them; null where there is none. */
static inline void *beside_page(size_t length, side where)
{
    size_t room = (length + PAGE - 1) / PAGE * PAGE;
    void *mapped = mmap(NULL, room + 2 * PAGE, PROT_NONE, MAP_PRIVATE | MAP_ANONYMOUS, -1, 0);
    if (mapped == MAP_FAILED)
        return NULL;
    uint8_t *first = (uint8_t *)mapped + PAGE;
    if (room > 0 && mprotect(first, room, PROT_READ | PROT_WRITE) != 0)
        return NULL;
    return where == ENDS_AT_PAGE ? first + room - length : first;
}

static inline void *copy_beside_page(const void *bytes, size_t length, side where)
{
    void *copy = beside_page(length, where);
    if (copy != NULL && length > 0)
        memcpy(copy, bytes, length);
    return copy;
}

/* Whether reading a byte is a fault: a child that reads it dies of the signal. */
static inline int is_unreadable(const uint8_t *at)
{
    int status = 0;
    pid_t child = fork();
    if (child == 0) {
        signal(SIGSEGV, SIG_DFL);
        _exit(*(const volatile uint8_t *)at == 0 ? 0 : 1);
    }
    return child > 0 && waitpid(child, &status, 0) == child && WIFSIGNALED(status) && WTERMSIG(status) == SIGSEGV;
}

#endif
