/* Sets of variables, by the calls of libbootkeep. */
#include "machine.h"

#include <stdlib.h>
#include <string.h>

uint32_t set_get(struct bytes set, const char *name, struct bytes *value)
{
    struct bootkeep_refusal refusal;
    uint32_t status;

    ANSWER(status, value,
           bootkeep_vars_get(set.at, set.len, (const uint8_t *)name, strlen(name), INTO(value), &refusal));
    return status;
}

uint32_t set_put(struct bytes *set, const char *name, const uint8_t *value, size_t len,
                 struct bootkeep_refusal *refusal)
{
    struct bytes after;
    uint32_t status;

    if (value == NULL)
        ANSWER(status, &after,
               bootkeep_vars_remove(set->at, set->len, (const uint8_t *)name, strlen(name), INTO(&after), refusal));
    else
        ANSWER(status, &after,
               bootkeep_vars_put(set->at, set->len, (const uint8_t *)name, strlen(name), value, len, INTO(&after),
                                 refusal));
    if (status == BOOTKEEP_DONE)
        bytes_take(set, &after);
    return value == NULL && status == BOOTKEEP_ABSENT ? BOOTKEEP_DONE : status;
}

bool set_empty(struct bytes *set)
{
    return bytes_copy(set, (const uint8_t *)"BVS1", 4);
}

/* Where the variables of a set are in its bytes. */
static uint32_t places_of(struct bytes set, struct bootkeep_variable **places, size_t *count,
                          struct bootkeep_refusal *refusal)
{
    const size_t size = sizeof **places;
    uint32_t status;

    *places = NULL;
    *count = 0;
    status = bootkeep_vars_list(set.at, set.len, NULL, 0, size, count, refusal);
    if (status != BOOTKEEP_NO_ROOM)
        return status;
    *places = calloc(*count, size);
    if (*places == NULL)
        return BOOTKEEP_NO_MEMORY;
    return bootkeep_vars_list(set.at, set.len, *places, *count, size, count, refusal);
}

uint32_t set_items(struct bytes set, struct item **items, size_t *count, struct bootkeep_refusal *refusal)
{
    struct bootkeep_variable *places;
    uint32_t status = places_of(set, &places, count, refusal);

    *items = NULL;
    if (status == BOOTKEEP_DONE && *count > 0) {
        *items = places == NULL ? NULL : calloc(*count, sizeof **items);
        if (*items == NULL)
            status = BOOTKEEP_NO_MEMORY;
    }
    for (size_t i = 0; status == BOOTKEEP_DONE && i < *count; i++) {
        (*items)[i].name = (const char *)set.at + places[i].name;
        (*items)[i].name_len = places[i].name_len;
        (*items)[i].data = set.at + places[i].data;
        (*items)[i].data_len = places[i].data_len;
    }
    free(places);
    if (status != BOOTKEEP_DONE)
        *count = 0;
    return status;
}

uint32_t set_data_of(struct bytes kept, struct bytes *data)
{
    struct bootkeep_refusal refusal;
    struct item *items;
    size_t count;
    uint32_t status = set_items(kept, &items, &count, &refusal);

    *data = (struct bytes){NULL, 0};
    if (status == BOOTKEEP_DONE && !set_empty(data))
        status = BOOTKEEP_NO_MEMORY;
    for (size_t i = 0; status == BOOTKEEP_DONE && i < count; i++) {
        size_t skipped = is_boot_name(items[i].name, items[i].name_len) ? ATTRIBUTES_LEN : 0;
        char name[BOOTKEEP_NAME_MAX + 1] = "";

        memcpy(name, items[i].name, items[i].name_len);
        if (items[i].data_len > skipped)
            status = set_put(data, name, items[i].data + skipped, items[i].data_len - skipped, &refusal);
    }
    free(items);
    if (status != BOOTKEEP_DONE)
        bytes_free(data);
    return status;
}

uint32_t sets_are_same(struct bytes one, struct bytes other, bool *same)
{
    struct bootkeep_refusal refusal;
    struct bootkeep_change change;
    size_t count = 0;
    uint32_t status =
        bootkeep_vars_changes(one.at, one.len, other.at, other.len, &change, 1, sizeof change, &count, &refusal);

    *same = status == BOOTKEEP_DONE && count == 0;
    return status == BOOTKEEP_NO_ROOM ? BOOTKEEP_DONE : status;
}
