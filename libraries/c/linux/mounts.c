/* What is mounted, as /proc/self/mountinfo tells it: as crates/partitions reads it. */
#include "machine.h"

#include <errno.h>
#include <stdio.h>
#include <stdlib.h>
#include <string.h>

/* The byte that three octal digits write, or a number above 255 if they write none. */
static unsigned octal(const char *digits)
{
    unsigned byte = 0;

    for (size_t i = 0; i < 3; i++) {
        if (digits[i] < '0' || digits[i] > '7')
            return UINT_MAX;
        byte = byte * 8 + (unsigned)(digits[i] - '0');
    }
    return byte;
}

/* Copies a field, of which a backslash and three octal digits are a byte: false if it isn't one, or is too long. */
static bool unescape(const char *field, size_t len, char *text, size_t room)
{
    size_t count = 0;

    for (size_t i = 0; i < len; i++, count++) {
        unsigned byte = (unsigned char)field[i];

        if (count + 1 >= room)
            return false;
        if (byte == '\\') {
            byte = len - i < 4 ? UINT_MAX : octal(field + i + 1);
            if (byte > 0xff)
                return false;
            i += 3;
        }
        text[count] = (char)byte;
    }
    text[count] = '\0';
    return true;
}

/* The field at the start of a line, up to the blank after it, and the rest after that; NULL if no blank is there. */
static const char *cut_field(const char **rest, size_t *len)
{
    const char *field = *rest, *blank = strchr(field, ' ');

    if (blank == NULL)
        return NULL;
    *len = (size_t)(blank - field);
    *rest = blank + 1;
    return field;
}

/* The mount that a line tells of, without its line feed: false if it tells of none. */
static bool read_mount(const char *line, struct mount *mount)
{
    const char *rest = line, *root, *point, *kind, *device;
    size_t len, root_len, point_len, kind_len;

    if (cut_field(&rest, &len) == NULL || cut_field(&rest, &len) == NULL)
        return false;
    device = cut_field(&rest, &len);
    if (device == NULL || sscanf(device, "%u:%u ", &mount->major, &mount->minor) != 2)
        return false;
    root = cut_field(&rest, &root_len);
    point = root == NULL ? NULL : cut_field(&rest, &point_len);
    if (point == NULL)
        return false;
    rest = strstr(rest, " - ");
    if (rest == NULL)
        return false;
    rest += strlen(" - ");
    kind = cut_field(&rest, &kind_len);
    return kind != NULL && strchr(rest, ' ') != NULL && unescape(root, root_len, mount->root, sizeof mount->root) &&
           unescape(point, point_len, mount->point, sizeof mount->point) &&
           unescape(kind, kind_len, mount->kind, sizeof mount->kind);
}

/* Whether the path is the mount point's, or has it in front and a slash after it. */
static bool leads_to(const char *point, const char *path)
{
    size_t len = strcmp(point, "/") == 0 ? 0 : strlen(point);

    return strncmp(path, point, len) == 0 && (path[len] == '\0' || path[len] == '/');
}

/* Of the lines of a text the mount to which the path leads whose point is the longest, and of several the last. */
static int find_leading(char *text, const char *path, struct mount *mount)
{
    struct mount *read = malloc(sizeof *read);
    char *line, *rest = NULL;
    bool is_found = false;

    if (read == NULL)
        return ENOMEM;
    for (line = strtok_r(text, "\n", &rest); line != NULL; line = strtok_r(NULL, "\n", &rest)) {
        if (!read_mount(line, read) || !leads_to(read->point, path))
            continue;
        if (is_found && strlen(mount->point) > strlen(read->point))
            continue;
        *mount = *read;
        is_found = true;
    }
    free(read);
    return is_found ? 0 : ENOENT;
}

/* The text of mounts, with a zero after it: 0, or a number of errno. */
static int read_text(const char *mounts, struct bytes *text)
{
    struct bytes bytes, end = {(uint8_t *)"", 1};
    int error = read_any(mounts, READ_MAX, &bytes);

    *text = (struct bytes){NULL, 0};
    if (error != READ_DONE)
        return error == READ_TOO_MUCH ? EFBIG : error;
    error = bytes_join(text, bytes, end) ? 0 : ENOMEM;
    bytes_free(&bytes);
    return error;
}

int leading_mount(const char *mounts, const char *path, struct mount *mount)
{
    struct bytes text;
    int error = read_text(mounts, &text);

    if (error == 0)
        error = find_leading((char *)text.at, path, mount);
    bytes_free(&text);
    return error;
}

int mount_of_device(const char *mounts, unsigned major, unsigned minor, struct mount *mount)
{
    struct bytes text;
    char *line, *rest = NULL;
    bool is_found = false;
    int error = read_text(mounts, &text);

    if (error != 0)
        return error;
    for (line = strtok_r((char *)text.at, "\n", &rest); line != NULL && !is_found; line = strtok_r(NULL, "\n", &rest))
        is_found =
            read_mount(line, mount) && mount->major == major && mount->minor == minor && strcmp(mount->root, "/") == 0;
    bytes_free(&text);
    return is_found ? 0 : ENOENT;
}

bool is_on_efivarfs(const char *path)
{
    char *whole = realpath(path, NULL);
    struct mount *mount = malloc(sizeof *mount);
    bool is = whole != NULL && mount != NULL && leading_mount(MOUNTS, whole, mount) == 0 &&
              strcmp(mount->kind, "efivarfs") == 0;

    free(mount);
    free(whole);
    return is;
}
