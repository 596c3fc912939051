/*
 * Starting an entry.
 */
#ifndef START_H
#define START_H

#include <bootkeep.h>
#include <efi.h>
#include <stdbool.h>

/* Whether the path of a load option is a whole one, or a short form of a file, alone or on a partition. */
bool is_startable(const uint8_t *option, const struct bootkeep_option_parts *parts);

/* Starts what a load option leads to, which is startable, and tells why it wasn't started, or what it ended with. */
EFI_STATUS start_entry(EFI_HANDLE parent, uint16_t number, const uint8_t *option,
                       const struct bootkeep_option_parts *parts);

#endif
