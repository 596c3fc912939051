/*
 * The entries of a machine in the order in which they are shown: what the next boot tries, and then every other entry.
 */
#ifndef ROWS_H
#define ROWS_H

#include "variables.h"

/* The state of an entry that neither BootOrder nor BootNext names, and the place of one that BootOrder doesn't. */
enum { IN_NO_ORDER = 100, NO_PLACE = 65536 };

/* An entry as BootOrder names it in a place, as BootNext does, or as none does. */
struct row {
    uint32_t number, state, place;
    bool is_tried;
};

struct rows {
    struct row *at;
    size_t count;
};

/*
 * Makes the rows: a status of the library. At BOOTKEEP_REFUSED BootOrder or BootNext is malformed, and all entries are
 * told as in no order.
 */
uint32_t rows_make(const struct variables *variables, struct rows *rows, struct bootkeep_refusal *refusal);

/* The row of an entry, the one with this place if it has several, or 0. */
size_t rows_find(const struct rows *rows, uint32_t number, uint32_t place);

/* Gives up what they hold. */
void rows_drop(struct rows *rows);

#endif
