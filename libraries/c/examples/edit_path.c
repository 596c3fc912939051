/*
 * Has an entry of a set file start another file of its partition, and writes the set.
 *
 *     edit_path SET Boot0001 '\EFI\BOOT\BOOTX64.EFI' >OTHER
 */
#include "files.h"
#include "nodes.h"
#include "tell.h"

#include <stdio.h>
#include <stdlib.h>
#include <string.h>

/* What a set grows by at most, if one variable of it gets other data. */
enum { MORE = 2 * BOOTKEEP_DATA_MAX };

static uint8_t option[BOOTKEEP_DATA_MAX], made[BOOTKEEP_DATA_MAX], list[BOOTKEEP_LIST_MAX + NODE_MAX];
static uint16_t units[BOOTKEEP_DATA_MAX / 2];

int main(int count, char **words)
{
    struct bootkeep_option_parts parts;
    struct bootkeep_refusal why;
    size_t set_len = 0, len, name_len = count == 4 ? strlen(words[2]) : 0;
    uint8_t *set = count == 4 ? read_whole(words[1], &set_len) : NULL, *other = malloc(set_len + MORE);
    int failed;
    uint32_t status = set != NULL && other != NULL ? BOOTKEEP_DONE : BOOTKEEP_ABSENT;

    if (status == BOOTKEEP_DONE)
        status = bootkeep_vars_get(set, set_len, (uint8_t *)words[2], name_len, option, sizeof option, &len, &why);
    if (status == BOOTKEEP_DONE)
        status = bootkeep_option_parts(option, len, &parts, &why);
    if (status == BOOTKEEP_DONE)
        status = list_with_file(option + parts.list, parts.list_len, words[3], list, &len, &why);
    if (status == BOOTKEEP_DONE) {
        memcpy(units, option + parts.description, parts.description_len);
        status = bootkeep_option_make_units(parts.attributes, units, parts.description_len / 2, list, len,
                                            option + parts.optional, parts.optional_len, made, sizeof made, &len, &why);
    }
    if (status == BOOTKEEP_DONE)
        status = bootkeep_vars_put(set, set_len, (uint8_t *)words[2], name_len, made, len, other, set_len + MORE, &len,
                                   &why);
    if (status != BOOTKEEP_DONE)
        failed = tell("edit_path: a set file, an entry and a file are wanted", status, &why);
    else
        failed = fwrite(other, 1, len, stdout) != len || fflush(stdout) != 0;
    free(other);
    free(set);
    return failed;
}
