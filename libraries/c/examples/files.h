/* Whole files, for the examples. */
#ifndef FILES_H
#define FILES_H

#include <stddef.h>
#include <stdint.h>

/* The bytes of a file, which the caller frees; NULL if it can't be read. */
uint8_t *read_whole(const char *name, size_t *len);

/* Waits until no other program has locked the folder of a file, nor the file itself, as `bootkeep run` locks it, and
 * locks both. What it gives is the open file, whose lock ends when it is closed; that of the folder ends with the
 * process. Below 0 if they can't be locked; a link is refused. */
int lock_whole(const char *name);

/* Replaces a file by one of these bytes, which is there as a whole or not at all, also if power fails, and has the
 * rights and the owner of the file. The file that it replaces is the one that lock_whole or the last call gave; the new
 * one is locked before it is there, and is what `locked` has then. 0 if it is replaced. */
int replace_whole(const char *name, const uint8_t *bytes, size_t len, int *locked);

#endif
