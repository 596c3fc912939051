/* What is told of calls that fail, for the examples. */
#include "tell.h"

#include <stdio.h>

int tell(const char *what, uint32_t status, const struct bootkeep_refusal *why)
{
    uint8_t word[BOOTKEEP_WORD_MAX];
    int is_refused = status == BOOTKEEP_REFUSED;
    size_t len = 0;

    status = is_refused ? bootkeep_refusal_word(why->kind, word, sizeof word, &len)
                        : bootkeep_status_word(status, word, sizeof word, &len);
    fprintf(stderr, "%s: %.*s", what, status == BOOTKEEP_DONE ? (int)len : 0, (const char *)word);
    if (is_refused && why->place != BOOTKEEP_NO_PLACE)
        fprintf(stderr, " at %zu", why->place);
    fputc('\n', stderr);
    return 1;
}
