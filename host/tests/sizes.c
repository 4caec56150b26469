/* sizes: the size of a run and of an opening's result in the header, and how much of the result the archive writes; the sizes
   are printed for the script, which compares them with the Rust wrapper's and with host/layout.txt. */
#include "check.h"
#include "plan_t.h"
#include "raw.h"
#include <stdalign.h>

#define AFTER 4096

static alignas(8) uint8_t ones[sizeof(jidlekuvo_opened) + AFTER];
static alignas(8) uint8_t others[sizeof(jidlekuvo_opened) + AFTER];

/* The bytes at the front that an opening writes: those behind them are as they were filled. */
static size_t written(const uint8_t *plan, size_t length)
{
    size_t count = sizeof ones;
    memset(ones, 0xAA, sizeof ones);
    memset(others, 0x55, sizeof others);
    raw_open(ones, plan, length, PSI, SLACK, AT_ONCE, 2);
    raw_open(others, plan, length, PSI, SLACK, AT_ONCE, 2);
    while (count > 0 && ones[count - 1] == 0xAA && others[count - 1] == 0x55)
        count--;
    return count;
}

/* Two results alike in every byte: one that differs was not written. */
static int is_written_whole(void)
{
    return memcmp(ones, others, sizeof(jidlekuvo_opened)) == 0;
}

int main(void)
{
    CHECK(written(PLAN_T, sizeof PLAN_T) == sizeof(jidlekuvo_opened) && is_written_whole());
    CHECK(written(PLAN_T, 5) == sizeof(jidlekuvo_opened) && is_written_whole());
    printf("run %zu opened %zu reply %zu align %zu\n", sizeof(jidlekuvo_run), sizeof(jidlekuvo_opened), sizeof(jidlekuvo_reply),
           alignof(jidlekuvo_run));
    return finish();
}
