/*
 * An allocator that is preloaded into a program, counts the growths of one call of it, and refuses some of them.
 *
 * The call is what the program does between its first two reads of the clock, or with REFUSE_WHOLE in the environment all
 * that it does. A growth is each request for memory, and
 * each one for more memory in the place of some; to give memory back, or a part of it, is none. The growths are counted
 * from 1, and refused from the number REFUSE_FROM of the environment to the number REFUSE_TO, both of them too. At the
 * second read of the clock, or at the end, it writes to file descriptor 3 how many were refused.
 *
 * Each block is cut from one large piece of memory, with its length before it. None is used twice, since a run
 * is short. So a block moves whenever it grows, and the length that was asked for is known exactly.
 */
#define _GNU_SOURCE
#include <errno.h>
#include <stdbool.h>
#include <stddef.h>
#include <stdint.h>
#include <stdio.h>
#include <stdlib.h>
#include <string.h>
#include <sys/mman.h>
#include <sys/syscall.h>
#include <time.h>
#include <unistd.h>

enum { COUNT = 3, UNIT = 16 };

static const size_t ROOM = (size_t)1 << 28;

static unsigned char *room;
static size_t used;

static unsigned reads;
static bool counting;
static unsigned long growths, refused, refuse_from, refuse_to;

static bool whole;

static unsigned long number_of(const char *name)
{
    const char *digits = getenv(name);
    return digits ? strtoul(digits, NULL, 10) : 0;
}

/* A new block, with its length in the unit before it. */
static void *make(size_t len, size_t align)
{
    if (!room) {
        void *made = mmap(NULL, ROOM, PROT_READ | PROT_WRITE, MAP_PRIVATE | MAP_ANONYMOUS | MAP_NORESERVE, -1, 0);
        if (made == MAP_FAILED)
            abort();
        room = made;
    }
    if (align < UNIT)
        align = UNIT;
    size_t start = (used + UNIT + align - 1) / align * align;
    if (len > ROOM - start) {
        errno = ENOMEM;
        return NULL;
    }
    used = start + len;
    memcpy(room + start - UNIT, &len, sizeof len);
    return room + start;
}

static size_t len_of(const void *block)
{
    size_t len;
    memcpy(&len, (const unsigned char *)block - UNIT, sizeof len);
    return len;
}

/* A new block, unless this growth is one of those to be refused. */
static void *grow(size_t len, size_t align)
{
    if (counting) {
        growths++;
        if (refuse_from <= growths && growths <= refuse_to) {
            refused++;
            errno = ENOMEM;
            return NULL;
        }
    }
    return make(len, align);
}

void *malloc(size_t len)
{
    return grow(len, UNIT);
}

void *calloc(size_t count, size_t len)
{
    size_t all;
    if (__builtin_mul_overflow(count, len, &all)) {
        errno = ENOMEM;
        return NULL;
    }
    return grow(all, UNIT);
}

void *realloc(void *block, size_t len)
{
    if (!block)
        return grow(len, UNIT);
    size_t before = len_of(block);
    if (len <= before) {
        memcpy((unsigned char *)block - UNIT, &len, sizeof len);
        return block;
    }
    void *grown = grow(len, UNIT);
    if (grown)
        memcpy(grown, block, before);
    return grown;
}

void *aligned_alloc(size_t align, size_t len)
{
    return grow(len, align);
}

void *memalign(size_t align, size_t len)
{
    return grow(len, align);
}

int posix_memalign(void **block, size_t align, size_t len)
{
    void *made = grow(len, align);
    if (!made)
        return ENOMEM;
    *block = made;
    return 0;
}

void free(void *block)
{
    (void)block;
}

__attribute__((constructor)) static void begin(void)
{
    whole = getenv("REFUSE_WHOLE");
    if (whole) {
        refuse_from = number_of("REFUSE_FROM");
        refuse_to = number_of("REFUSE_TO");
        counting = true;
    }
}

__attribute__((destructor)) static void end(void)
{
    counting = false;
    if (whole)
        dprintf(COUNT, "%lu\n", refused);
}

int clock_gettime(clockid_t clock, struct timespec *time)
{
    if (whole)
        return (int)syscall(SYS_clock_gettime, clock, time);
    reads++;
    if (reads == 1) {
        refuse_from = number_of("REFUSE_FROM");
        refuse_to = number_of("REFUSE_TO");
        counting = true;
    } else if (reads == 2) {
        counting = false;
        dprintf(COUNT, "%lu\n", refused);
    }
    return (int)syscall(SYS_clock_gettime, clock, time);
}
