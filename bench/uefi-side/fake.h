/*
 * Firmware that a program on the host brings along: a console, variables, images, and memory that may be refused.
 */
#ifndef FAKE_H
#define FAKE_H

#include <bootkeep.h>
#include <efi.h>
#include <stdbool.h>

/* How it behaves. */
struct fake {
    /* Which request for memory is refused, and which call that sets a variable, counted from 1; 0 if none is. */
    unsigned long refused_memory, refused_set;
    /* Whether all calls after that one are refused too. */
    bool refuses_on;
    /* Names without an end, a name that is longer than said, and what is told of the variable Boot0BAD. */
    bool is_endless, has_bad_name;
    enum { HONEST, LONGER_THAN_ROOM, NEVER_ENOUGH, NO_DATA, LONG_DATA, DAMAGED } value;
};

extern struct fake fake;

/* What happened: whether something was refused, how many blocks are taken, what was shown, and what was started. */
extern bool was_memory_refused, was_set_refused;
extern long blocks;
extern char shown[1 << 20];
extern unsigned started, current_while_started;
extern unsigned char options[64];
extern size_t options_len;

/* The firmware's table, with no variables, and these keys to come. At their end Esc comes again and again. */
EFI_SYSTEM_TABLE *fake_begin(const char *keys);

/* Sets a variable of the standard's vendor by its name in ASCII, with data that stay the caller's, or takes it out. */
void fake_put(const char *name, const void *data, size_t len);

/* Prints the variables to a text, a line each. */
void fake_list(char *text, size_t room);

#endif
