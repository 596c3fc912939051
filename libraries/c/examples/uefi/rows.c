#include "rows.h"

#include <efilib.h>

/* The bytes of a bit for each number of an entry. */
enum { NUMBERS_ROOM = 65536 / 8 };

/* Adds the row of an entry, if it is tried or wasn't shown before. */
static void add_row(struct rows *rows, uint8_t *shown, struct row row)
{
    bool was_shown = shown[row.number / 8] >> row.number % 8 & 1;

    shown[row.number / 8] |= (uint8_t)(1 << row.number % 8);
    if (row.is_tried || !was_shown)
        rows->at[rows->count++] = row;
}

/* Whether a boot tries what is named: by BootNext also what isn't active (UEFI 2.10, 3.1.3). */
static bool is_tried(const struct bootkeep_named *named)
{
    return named->state == BOOTKEEP_ENTRY_NORMAL ||
           (named->variable == BOOTKEEP_VARIABLE_NEXT && named->state != BOOTKEEP_ENTRY_ABSENT &&
            named->state != BOOTKEEP_ENTRY_UNDECODABLE);
}

/* Adds a row of each entry: first those that are tried, then what else is named, then the others. */
static void fill(struct rows *rows, uint8_t *shown, const struct variables *variables,
                 const struct bootkeep_named *named, size_t count)
{
    size_t first = count > 0 && named[0].variable == BOOTKEEP_VARIABLE_NEXT;

    for (int tried = 1; tried >= 0; tried--)
        for (size_t at = 0; at < count; at++)
            if (is_tried(&named[at]) == tried) {
                size_t place = at < first ? NO_PLACE : at - first;
                add_row(rows, shown, (struct row){named[at].number, named[at].state, (uint32_t)place, tried});
            }
    for (size_t at = 0; at < variables->count; at++) {
        uint32_t number = variables_entry(variables, at);
        if (number != BOOTKEEP_NO_ENTRY)
            add_row(rows, shown, (struct row){number, IN_NO_ORDER, NO_PLACE, false});
    }
}

/* What BootNext and BootOrder name. It is the caller's, and NULL if that is nothing. */
static uint32_t read_named(const struct variables *variables, struct bootkeep_named **named, size_t *count,
                           struct bootkeep_refusal *refusal)
{
    size_t named_len = 0;
    uint32_t status =
        bootkeep_vars_named(variables->set, variables->set_len, NULL, 0, sizeof **named, &named_len, refusal);

    *count = 0;
    *named = NULL;
    if (status != BOOTKEEP_NO_ROOM)
        return status;
    *named = bootkeep_allocate(named_len * sizeof **named);
    if (*named == NULL)
        return BOOTKEEP_NO_MEMORY;
    return bootkeep_vars_named(variables->set, variables->set_len, *named, named_len, sizeof **named, count, refusal);
}

uint32_t rows_make(const struct variables *variables, struct rows *rows, struct bootkeep_refusal *refusal)
{
    struct bootkeep_named *named;
    size_t count;
    uint32_t status = read_named(variables, &named, &count, refusal);
    uint8_t *shown = bootkeep_allocate(NUMBERS_ROOM);

    rows->count = 0;
    rows->at = bootkeep_allocate((count + variables->count + 1) * sizeof *rows->at);
    if (rows->at == NULL || shown == NULL)
        status = BOOTKEEP_NO_MEMORY;
    if (status != BOOTKEEP_NO_MEMORY) {
        ZeroMem(shown, NUMBERS_ROOM);
        fill(rows, shown, variables, named, count);
    }
    bootkeep_free(named);
    bootkeep_free(shown);
    return status;
}

size_t rows_find(const struct rows *rows, uint32_t number, uint32_t place)
{
    size_t found = 0;

    for (size_t at = rows->count; at-- > 0;)
        if (rows->at[at].number == number && (rows->at[found].number != number || rows->at[found].place != place))
            found = at;
    return found;
}

void rows_drop(struct rows *rows)
{
    bootkeep_free(rows->at);
    rows->at = NULL;
    rows->count = 0;
}
