/*
 * The memory of the library, from one block: for calls at a task priority at which the firmware's pool may not be used
 * (UEFI 2.10, 7.1: above TPL_NOTIFY), or of programs that set a limit. A block of a few times the bytes of the set and
 * of what else is handed in will do; a call for which it doesn't answers BOOTKEEP_NO_MEMORY.
 */
#ifndef ARENA_H
#define ARENA_H

#include <stdbool.h>
#include <stddef.h>

/* Gives the block, before the first call. What was taken from one that was given before is lost. */
void arena_give(void *memory, size_t len);

/* Whether all that was taken from it was freed. */
bool arena_is_free(void);

#endif
