/*
 * Changes of entries as somebody at the machine asks for them. Each answers a status of the library.
 */
#ifndef EDITS_H
#define EDITS_H

#include "variables.h"

/* BootNext names the entry. */
uint32_t edit_next(struct variables *variables, uint32_t number);

/* The numbers of BootOrder in these two places change places. They have to be in it. */
uint32_t edit_order(struct variables *variables, size_t place, size_t other);

/* The entry, which is there, is active if it wasn't, and the other way round. */
uint32_t edit_active(struct variables *variables, uint32_t number);

/* The entry is gone, and neither BootOrder nor BootNext names it. A BootOrder of an odd length stays. */
uint32_t edit_delete(struct variables *variables, uint32_t number);

#endif
