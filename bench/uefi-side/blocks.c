/*
 * Tries the arena of libraries/c/examples/uefi by random blocks: none overlaps another or leaves the arena, what is
 * kept of one that grows stays, a full arena refuses, and one whose blocks are all freed has room for one of all bytes
 * again.
 */
#include "../../libraries/c/examples/uefi/arena.h"

#include <bootkeep.h>
#include <stdint.h>
#include <stdio.h>
#include <stdlib.h>
#include <string.h>

enum { BLOCKS = 256, TURNS = 400000, ROOM = 1 << 16, HEADER = 16 };

static struct {
    uint8_t *at;
    size_t len;
    uint8_t mark;
} held[BLOCKS];

static unsigned long differ;

static void expect(bool holds, const char *what)
{
    if (!holds && differ++ < 10)
        printf("bench/uefi: arena: %s\n", what);
}

static bool is_marked(size_t which, size_t len)
{
    for (size_t at = 0; at < len; at++)
        if (held[which].at[at] != held[which].mark)
            return false;
    return true;
}

/* Takes, grows or frees a block. */
static bool turn(size_t which, size_t len, uint8_t mark)
{
    void *block = held[which].at;
    size_t kept = held[which].len < len ? held[which].len : len;

    expect(block == NULL || is_marked(which, held[which].len), "a block is written by another one");
    if (block != NULL && mark % 4 < 2) {
        bootkeep_free(block);
        held[which].at = NULL;
        return true;
    }
    block = block == NULL ? bootkeep_allocate(len) : bootkeep_grow(block, kept, len);
    if (block == NULL)
        return false;
    if (held[which].at != NULL) {
        held[which].at = block;
        expect(is_marked(which, kept), "what is kept of a block isn't kept");
    }
    held[which].at = block;
    held[which].len = len;
    held[which].mark = mark;
    memset(block, mark, len);
    expect((uintptr_t)block % 8 == 0, "a block is in a place that 8 doesn't divide");
    return true;
}

int main(void)
{
    uint8_t *memory = malloc(ROOM + 5);
    unsigned long refused = 0;
    void *whole;

    if (memory == NULL)
        return 1;
    arena_give(memory + 5, ROOM);
    for (unsigned long at = 0; at < TURNS; at++) {
        size_t len = (size_t)rand() % (at % 1000 < 900 ? 300 : 6000) + 1;
        refused += !turn((size_t)rand() % BLOCKS, len, (uint8_t)rand());
    }
    expect(refused > 100, "nothing was refused");
    for (size_t at = 0; at < BLOCKS; at++) {
        expect(held[at].at == NULL || is_marked(at, held[at].len), "a block is written by another one");
        bootkeep_free(held[at].at);
    }
    expect(arena_is_free(), "something is taken that was freed");
    whole = bootkeep_allocate(ROOM - 3 * HEADER);
    expect(whole != NULL, "there is no room for one block of all bytes");
    bootkeep_free(whole);
    expect(bootkeep_allocate(ROOM) == NULL && bootkeep_allocate(SIZE_MAX) == NULL, "there is room for too much");
    arena_give(memory, 3);
    expect(bootkeep_allocate(1) == NULL, "there is room in three bytes");
    free(memory);
    printf("%d turns, %lu refused, %lu differ\n", TURNS, refused, differ);
    return differ > 0;
}
