/* jidlekuvo_open as the machine sees it: a struct of this size is returned through a pointer that the caller passes first. A C
   compiler may put a copy between, which would hide how many bytes the function itself writes. */
#ifndef RAW_H
#define RAW_H

#include <stddef.h>
#include <stdint.h>

void *raw_open(void *opened, const uint8_t *plan, size_t plan_length, uint64_t psi, uint64_t slack, const uint64_t *available,
               size_t available_length) __asm__("jidlekuvo_open");

#endif
