/* Nodes of device paths (UEFI 2.10, 10.3), for the examples. */
#include "nodes.h"

#include <string.h>

/* How many bytes the header of a node has, and an option before its description; and the type and the subtype of the
 * name of a file. */
enum { HEADER = 4, OPTION_HEADER = 6, MEDIA = 4, FILE_PATH = 4 };

/* A name is stored in the units of a description, with a zero after them: so an option is made that has it as its own,
 * and a path that ends at once. */
uint32_t file_node(const char *name, uint8_t *node, size_t *len, struct bootkeep_refusal *why)
{
    static const uint8_t end[HEADER] = {0x7f, 0xff, HEADER};
    static uint8_t option[OPTION_HEADER + NODE_MAX];
    uint32_t status = bootkeep_option_make(0, (const uint8_t *)name, strlen(name), end, sizeof end, NULL, 0, option,
                                           sizeof option, len, why);

    if (status != BOOTKEEP_DONE)
        return status;
    *len -= OPTION_HEADER;
    memcpy(node + HEADER, option + OPTION_HEADER, *len - HEADER);
    node[0] = MEDIA;
    node[1] = FILE_PATH;
    node[2] = (uint8_t)*len;
    node[3] = (uint8_t)(*len >> 8);
    return BOOTKEEP_DONE;
}

/* Where the last node of a path is, before the one that ends it; at its start if it has no other. */
static size_t last_node(const uint8_t *path, size_t path_len)
{
    size_t last = 0, next = 0;

    for (; next < path_len - HEADER; next += path[next + 2] | (size_t)path[next + 3] << 8)
        last = next;
    return last;
}

uint32_t list_with_file(const uint8_t *list, size_t list_len, const char *name, uint8_t *out, size_t *len,
                        struct bootkeep_refusal *why)
{
    size_t path_len, last;
    uint32_t status = bootkeep_path_check(list, list_len, &path_len, why);

    if (status != BOOTKEEP_DONE)
        return status;
    last = last_node(list, path_len);
    status = file_node(name, out + last, len, why);
    if (status != BOOTKEEP_DONE)
        return status;
    memcpy(out, list, last);
    memcpy(out + last + *len, list + path_len - HEADER, list_len - path_len + HEADER);
    *len += last + list_len - path_len + HEADER;
    return BOOTKEEP_DONE;
}
