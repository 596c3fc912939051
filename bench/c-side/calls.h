/* What the files of the driver share. */
#ifndef CALLS_H
#define CALLS_H

#include <stdbool.h>
#include <stddef.h>
#include <stdint.h>

struct bytes {
    uint8_t *at;
    size_t len;
};

/* The number of the request for memory that is to be refused, counted down, or 0 if none is; and whether one was. */
extern unsigned long refuse_at;
extern bool was_refused;

/* Tells what differs on standard error. */
void complain(const char *what);

/* So many bytes, of memory that is never refused. */
void *make(size_t len);

/* The bytes of a word of hexadecimal digits, and those bytes after a space. */
struct bytes bytes_of(const char *digits);
void print_bytes(const uint8_t *bytes, size_t len);

/* The number of this many bytes at a place. */
uint32_t number_of(struct bytes bytes, size_t place, size_t len);

/* The edit of these six numbers. */
struct bootkeep_edit edit_of(struct bytes numbers);

/* Makes the moves of a command over a machine in memory. */
void command_machine(char **words, size_t count);

/* Makes the moves of two commands of frames over a machine in memory, and says what is noted of each. */
void note_commands(char **words);

#endif
