/*
 * Shows what a boot would try with the variables of a set file, and the description of each entry.
 *
 *     plan SET
 */
#include "files.h"
#include "tell.h"

#include <stdio.h>
#include <stdlib.h>

static uint16_t numbers[BOOTKEEP_ORDER_MAX];

/* A description has at most three bytes for each byte of its option. */
static uint8_t data[BOOTKEEP_DATA_MAX], text[3 * BOOTKEEP_DATA_MAX];

/* Shows the description of an entry that is in a plan, so that it is there and is a load option. */
static int show_entry(const uint8_t *set, size_t set_len, unsigned number, const char *when)
{
    struct bootkeep_refusal why;
    char name[sizeof "Boot0000"];
    size_t len, text_len;
    uint32_t status;

    snprintf(name, sizeof name, "Boot%04X", number);
    status = bootkeep_vars_get(set, set_len, (uint8_t *)name, sizeof name - 1, data, sizeof data, &len, &why);
    if (status == BOOTKEEP_DONE)
        status = bootkeep_option_description(data, len, text, sizeof text, &text_len, &why);
    if (status != BOOTKEEP_DONE)
        return tell(name, status, &why);
    printf("%s %s %.*s\n", name, when, (int)text_len, (char *)text);
    return 0;
}

int main(int count, char **words)
{
    struct bootkeep_refusal why;
    size_t set_len, len = 0;
    uint8_t *set = count == 2 ? read_whole(words[1], &set_len) : NULL;
    uint32_t next = BOOTKEEP_NO_ENTRY, status = BOOTKEEP_ABSENT;
    int failed = 0;

    if (set != NULL)
        status = bootkeep_vars_plan(set, set_len, numbers, BOOTKEEP_ORDER_MAX, &len, &next, &why);
    if (status != BOOTKEEP_DONE)
        failed = tell(set != NULL ? words[1] : "plan: a set file has to be named that can be read", status, &why);
    if (next != BOOTKEEP_NO_ENTRY)
        failed = show_entry(set, set_len, next, "next");
    for (size_t at = 0; at < len && !failed; at++)
        failed = show_entry(set, set_len, numbers[at], "normal");
    free(set);
    return failed;
}
