/* Nodes of device paths (UEFI 2.10, 10.3), for the examples. */
#ifndef NODES_H
#define NODES_H

#include <bootkeep.h>

/* The most bytes of a node, with its header. */
enum { NODE_MAX = 65535 };

/* The node of a file, by its name from the root in UTF-8, with backslashes, and how many bytes it has: `node` has room
 * for NODE_MAX. It is a status of the library; the place of a refusal is in the name. */
uint32_t file_node(const char *name, uint8_t *node, size_t *len, struct bootkeep_refusal *why);

/* The device paths of a list, with this file in the place of the last node of the first of them, and how many bytes
 * they have: `out` has room for NODE_MAX more than the list has. It is a status of the library. */
uint32_t list_with_file(const uint8_t *list, size_t list_len, const char *name, uint8_t *out, size_t *len,
                        struct bootkeep_refusal *why);

#endif
