/* Bytes and texts that are owned. */
#include "machine.h"

#include <stdlib.h>
#include <string.h>

bool bytes_make(struct bytes *bytes, size_t len)
{
    bytes->at = malloc(len == 0 ? 1 : len);
    bytes->len = bytes->at == NULL ? 0 : len;
    return bytes->at != NULL;
}

bool bytes_copy(struct bytes *copy, const uint8_t *at, size_t len)
{
    if (!bytes_make(copy, len))
        return false;
    if (len > 0)
        memcpy(copy->at, at, len);
    return true;
}

bool bytes_join(struct bytes *joined, struct bytes first, struct bytes second)
{
    if (!bytes_make(joined, first.len + second.len))
        return false;
    if (first.len > 0)
        memcpy(joined->at, first.at, first.len);
    if (second.len > 0)
        memcpy(joined->at + first.len, second.at, second.len);
    return true;
}

void bytes_free(struct bytes *bytes)
{
    free(bytes->at);
    *bytes = (struct bytes){NULL, 0};
}

void bytes_take(struct bytes *bytes, struct bytes *from)
{
    free(bytes->at);
    *bytes = *from;
    *from = (struct bytes){NULL, 0};
}

bool bytes_equal(struct bytes one, struct bytes other)
{
    return one.len == other.len && (one.len == 0 || memcmp(one.at, other.at, one.len) == 0);
}

bool texts_add(struct texts *texts, const char *text, size_t len)
{
    char **grown = realloc(texts->at, (texts->count + 1) * sizeof *grown);
    char *copy;

    if (grown == NULL)
        return false;
    texts->at = grown;
    copy = malloc(len + 1);
    if (copy == NULL)
        return false;
    memcpy(copy, text, len);
    copy[len] = '\0';
    texts->at[texts->count++] = copy;
    return true;
}

void texts_free(struct texts *texts)
{
    for (size_t i = 0; i < texts->count; i++)
        free(texts->at[i]);
    free(texts->at);
    *texts = (struct texts){NULL, 0};
}

bool texts_have(const struct texts *texts, const char *text)
{
    for (size_t i = 0; i < texts->count; i++)
        if (strcmp(texts->at[i], text) == 0)
            return true;
    return false;
}
