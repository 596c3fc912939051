/*
 * The boot variables that firmware has, as a set of the library, and their changes.
 */
#ifndef VARIABLES_H
#define VARIABLES_H

#include <bootkeep.h>
#include <efi.h>
#include <stdbool.h>

/* Room for the name of a variable: `Boot` and four digits, `BootNext` or `BootOrder`, and the zero after it. */
enum { NAME_ROOM = 10 };

/* Boot####, BootNext and BootOrder. A variable is named as in a struct bootkeep_change. */
struct variables {
    uint8_t *set;
    size_t set_len;
    /* Where each of them is in the set, in the order of their names. */
    struct bootkeep_variable *places;
    size_t count;
    /* How many the firmware names besides, without a value that it gives and that a set can hold. */
    size_t left_out;
};

/* What came of changes. */
struct written {
    /* How many of them stay made. */
    size_t made;
    /* Which one the firmware refused, and why, or EFI_SUCCESS. */
    size_t at;
    EFI_STATUS refused;
    /* EFI_SUCCESS, or why what was made before it couldn't all be taken back. */
    EFI_STATUS taken_back;
};

/* Reads what the firmware has: EFI_SUCCESS, EFI_OUT_OF_RESOURCES, or why the firmware didn't tell the names. */
EFI_STATUS variables_read(struct variables *variables);

/* Copies them: a status of the library. */
uint32_t variables_copy(const struct variables *variables, struct variables *copy);

/* Gives up what they hold. */
void variables_drop(struct variables *variables);

/* The data of a variable, or NULL if there is none. */
const uint8_t *variables_get(const struct variables *variables, uint32_t variable, size_t *len);

/* Puts data in the place of a variable's, or takes it out if they are no bytes: a status of the library. */
uint32_t variables_put(struct variables *variables, uint32_t variable, const uint8_t *data, size_t len);

/* The number of the entry that a variable of the set is, or BOOTKEEP_NO_ENTRY. */
uint32_t variables_entry(const struct variables *variables, size_t at);

/* The name of a variable, with a zero after it, and its length. */
size_t variables_name(uint32_t variable, char name[NAME_ROOM]);

/*
 * Has the firmware make these changes, one after the other, which lead from one to the other. If it refuses one, what
 * was made before it is taken back, the last first.
 */
struct written variables_write(const struct variables *from, const struct variables *to,
                               const struct bootkeep_change *changes, size_t count);

#endif
