/*
 * The memory of the library for firmware, from malloc, so that calls.c can refuse each request. A block that grows is
 * always another one, and what isn't kept of it is marks.
 */
#include <bootkeep.h>
#include <stdlib.h>
#include <string.h>

void *bootkeep_allocate(size_t len)
{
    return malloc(len);
}

void *bootkeep_grow(void *block, size_t kept, size_t len)
{
    void *grown = malloc(len);

    if (grown == NULL)
        return NULL;
    memset(grown, 0xA5, len);
    memcpy(grown, block, kept < len ? kept : len);
    free(block);
    return grown;
}

void bootkeep_free(void *block)
{
    free(block);
}
