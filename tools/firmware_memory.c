/*
 * By which the library for firmware takes memory: the toolchain's three functions over those of bootkeep.h. They call
 * nothing else, and have no variable. A wider alignment than 8 bytes, which is what firmware's pool has (UEFI 2.10,
 * 7.2), is refused; no type of the library has one.
 */
#include <bootkeep.h>

/* What the toolchain's compiler takes as an answer: whether there is a block, and if not, any place at all. */
struct tried {
    size_t is_given;
    const void *at;
};

static const unsigned char nowhere;

static struct tried answer(const void *block)
{
    struct tried tried = {block != NULL, block != NULL ? block : &nowhere};

    return tried;
}

struct tried rattle_alloc(size_t len, size_t alignment);
struct tried rattle_realloc(void *block, size_t kept, size_t len, size_t alignment);
void rattle_dealloc(void *block);

/* A block of no bytes may be asked for, and is freed as others are. */
struct tried rattle_alloc(size_t len, size_t alignment)
{
    return answer(alignment > 8 ? NULL : bootkeep_allocate(len > 0 ? len : 1));
}

struct tried rattle_realloc(void *block, size_t kept, size_t len, size_t alignment)
{
    return answer(alignment > 8 ? NULL : bootkeep_grow(block, kept, len > 0 ? len : 1));
}

void rattle_dealloc(void *block)
{
    bootkeep_free(block);
}
