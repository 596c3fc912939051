#include "arena.h"

#include <bootkeep.h>
#include <stdint.h>

/*
 * The block is pieces without gaps, each a header and room. Whoever looks for room begins where the last piece was
 * taken or freed, goes round once, and joins the free pieces that it comes to with those after them.
 */
struct piece {
    /* How many bytes it has with this header, a multiple of the header's. */
    size_t len;
    bool is_taken;
};

static struct piece *first, *rover, *end;

static struct piece *following(struct piece *piece)
{
    return (struct piece *)(void *)((uint8_t *)piece + piece->len);
}

/* Joins the free pieces after a free one with it. */
static void join(struct piece *piece)
{
    for (struct piece *next = following(piece); next != end && !next->is_taken; next = following(piece)) {
        piece->len += next->len;
        if (rover == next)
            rover = piece;
    }
}

/* Takes the front of a piece, which is long enough, and leaves the rest free. */
static void take(struct piece *piece, size_t len)
{
    size_t rest = piece->len - len;

    piece->is_taken = true;
    if (rest == 0)
        return;
    piece->len = len;
    following(piece)->len = rest;
    following(piece)->is_taken = false;
}

/* The length of a piece with this much room, or 0 if there is none in any block. */
static size_t piece_len(size_t room)
{
    size_t unit = sizeof(struct piece);

    return room > SIZE_MAX - 2 * unit ? 0 : (room + 2 * unit - 1) / unit * unit;
}

void arena_give(void *memory, size_t len)
{
    size_t unit = sizeof(struct piece), skipped = (size_t)(-(uintptr_t)memory % unit);

    first = rover = end = NULL;
    if (memory == NULL || len < skipped + unit)
        return;
    first = rover = (struct piece *)(void *)((uint8_t *)memory + skipped);
    first->len = (len - skipped) / unit * unit;
    first->is_taken = false;
    end = following(first);
}

bool arena_is_free(void)
{
    if (first == NULL || first->is_taken)
        return true;
    join(first);
    return following(first) == end;
}

void *bootkeep_allocate(size_t room)
{
    size_t len = piece_len(room);
    struct piece *piece = rover;

    if (first == NULL || len == 0)
        return NULL;
    do {
        if (!piece->is_taken)
            join(piece);
        if (!piece->is_taken && piece->len >= len) {
            take(piece, len);
            rover = following(piece) == end ? first : following(piece);
            return piece + 1;
        }
        piece = following(piece) == end ? first : following(piece);
    } while (piece != rover);
    return NULL;
}

void *bootkeep_grow(void *block, size_t kept, size_t room)
{
    struct piece *piece = (struct piece *)block - 1;
    size_t len = piece_len(room);
    uint8_t *grown;

    if (len == 0)
        return NULL;
    join(piece);
    if (piece->len >= len) {
        take(piece, len);
        return block;
    }
    grown = bootkeep_allocate(room);
    if (grown == NULL)
        return NULL;
    for (size_t at = 0; at < kept; at++)
        grown[at] = ((const uint8_t *)block)[at];
    bootkeep_free(block);
    return grown;
}

void bootkeep_free(void *block)
{
    if (block == NULL)
        return;
    rover = (struct piece *)block - 1;
    rover->is_taken = false;
}
