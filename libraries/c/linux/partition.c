/* Partitions, as Linux tells of them in /sys, and the paths of files on them: as crates/disk_files and
 * crates/partitions find them. */
#include "machine.h"

#include <ctype.h>
#include <dirent.h>
#include <errno.h>
#include <stdio.h>
#include <stdlib.h>
#include <string.h>
#include <sys/stat.h>
#include <sys/sysmacros.h>
#include <unistd.h>

enum { SYS_MAX = 4096, SECTOR = 512, DRIVE_LEN = 42, END_LEN = 4, NODE_MAX = 65535, SIGNATURE_LEN = PARTITION_ID_LEN };

uint32_t seeker_refuse(const struct seeker *seeker, uint32_t kind)
{
    return call_refused(seeker->machine, BOOTKEEP_MACHINE_AT_LOADER, seeker->file, kind);
}

uint32_t seeker_fail(const struct seeker *seeker, const char *path, int error)
{
    return call_system(seeker->machine, BOOTKEEP_MACHINE_AT_LOADER, path, error);
}

bool seeker_below(const struct seeker *seeker, const char *path, char whole[PATH_MAX])
{
    size_t len = strlen(seeker->root);

    while (len > 0 && seeker->root[len - 1] == '/')
        len--;
    return snprintf(whole, PATH_MAX, "%.*s%s%s", (int)len, seeker->root, *path == '/' || len == 0 ? "" : "/", path) <
           PATH_MAX;
}

/* ---- What /sys tells --------------------------------------------------------------------------------------------- */

/* The text of a file in a folder of /sys, with a zero after it: 0, or a number of errno. */
static int read_sys(const char *folder, const char *name, struct bytes *text)
{
    struct bytes bytes, end = {(uint8_t *)"", 1};
    char path[PATH_MAX];
    int what;

    *text = (struct bytes){NULL, 0};
    if (!path_join(path, folder, name))
        return ENAMETOOLONG;
    what = read_regular(path, SYS_MAX, &bytes);
    if (what == READ_DONE && !bytes_join(text, bytes, end))
        what = ENOMEM;
    bytes_free(&bytes);
    return what < 0 ? EINVAL : what;
}

/* The number in a file of a folder of /sys, or in one of the folder above: 0, or a number of errno. */
static int read_number(const char *folder, const char *name, uint64_t *number)
{
    struct bytes text;
    char *end = "";
    bool is_number;
    int error = read_sys(folder, name, &text);

    if (error != 0)
        return error;
    errno = 0;
    is_number = isdigit(text.at[0]);
    *number = is_number ? strtoull((char *)text.at, &end, 10) : 0;
    if (!is_number || errno != 0 || (*end != '\0' && strcmp(end, "\n") != 0))
        error = EINVAL;
    bytes_free(&text);
    return error;
}

/* The numbers of the device of a folder of /sys: false if they aren't told. */
static bool read_device(const char *folder, unsigned *major, unsigned *minor)
{
    struct bytes text;
    const bool told = read_sys(folder, "dev", &text) == 0 && sscanf((char *)text.at, "%u:%u", major, minor) == 2;

    bytes_free(&text);
    return told;
}

/* The value that the file `uevent` of a folder of /sys has for a key, in `value` of this room: false if it has none. */
static bool read_uevent(const char *folder, const char *key, char *value, size_t room)
{
    const size_t len = strlen(key);
    char *line, *rest = NULL;
    struct bytes text;
    bool found = false;

    if (read_sys(folder, "uevent", &text) != 0)
        return false;
    for (line = strtok_r((char *)text.at, "\n", &rest); line != NULL && !found; line = strtok_r(NULL, "\n", &rest))
        if (strncmp(line, key, len) == 0 && line[len] == '=')
            found = snprintf(value, room, "%s", line + len + 1) < (int)room;
    bytes_free(&text);
    return found;
}

/* The number of so many hexadecimal digits: false if one isn't such a digit. */
static bool read_hex(const char *digits, size_t count, uint32_t *number)
{
    *number = 0;
    for (size_t i = 0; i < count; i++) {
        if (!isxdigit((unsigned char)digits[i]))
            return false;
        *number = *number * 16 +
                  (uint32_t)(isdigit((unsigned char)digits[i]) ? digits[i] - '0' : tolower(digits[i]) - 'a' + 10);
    }
    return true;
}

/* The GUID of a text, as it is in a node: its first three numbers are little-endian (UEFI 2.10, appendix A). */
static bool read_guid(const char *text, uint8_t guid[SIGNATURE_LEN])
{
    static const uint8_t places[SIGNATURE_LEN] = {3, 2, 1, 0, 5, 4, 7, 6, 8, 9, 10, 11, 12, 13, 14, 15};
    size_t at = 0;

    if (strlen(text) != 36)
        return false;
    for (size_t i = 0; i < SIGNATURE_LEN; i++) {
        uint32_t byte;

        if ((i == 4 || i == 6 || i == 8 || i == 10) && text[at++] != '-')
            return false;
        if (!read_hex(text + at, 2, &byte))
            return false;
        guid[places[i]] = (uint8_t)byte;
        at += 2;
    }
    return true;
}

/* What a partition is known by, of a PARTUUID: a GUID, or a signature of eight digits, a hyphen and a number. */
static bool read_identity(const char *text, struct partition *partition)
{
    const size_t len = strlen(text);
    uint32_t signature;

    memset(partition->signature, 0, sizeof partition->signature);
    partition->format = 2;
    if (read_guid(text, partition->signature))
        return true;
    partition->format = 1;
    if (len < 11 || len > 17 || text[8] != '-' || !read_hex(text, 8, &signature) ||
        !read_hex(text + 9, len - 9, &partition->told_number))
        return false;
    for (size_t i = 0; i < 4; i++)
        partition->signature[i] = (uint8_t)(signature >> (8 * i));
    return true;
}

/* The same by the links of udev, the first that leads to the device of this name. */
static bool read_linked(const struct seeker *seeker, const char *device, struct partition *partition)
{
    char folder[PATH_MAX], link[PATH_MAX], target[PATH_MAX];
    struct dirent *entry;
    bool found = false;
    DIR *links;

    if (!seeker_below(seeker, "/dev/disk/by-partuuid", folder))
        return false;
    links = opendir(folder);
    while (links != NULL && !found && (entry = readdir(links)) != NULL) {
        ssize_t len;
        const char *slash;

        if (!path_join(link, folder, entry->d_name))
            continue;
        len = readlink(link, target, sizeof target - 1);
        if (len < 0)
            continue;
        target[len] = '\0';
        slash = strrchr(target, '/');
        found = strcmp(slash == NULL ? target : slash + 1, device) == 0 && read_identity(entry->d_name, partition);
    }
    if (links != NULL)
        closedir(links);
    return found;
}

/* ---- The partition ------------------------------------------------------------------------------------------------
 */

/* What the partition is known by that a folder of /sys is of. */
static bool read_id(const struct seeker *seeker, const char *folder, struct partition *partition)
{
    char text[64], device[NAME_MAX + 1];
    const char *slash = strrchr(folder, '/');

    if (read_uevent(folder, "PARTUUID", text, sizeof text) && read_identity(text, partition))
        return true;
    if (!read_uevent(folder, "DEVNAME", device, sizeof device))
        snprintf(device, sizeof device, "%s", slash == NULL ? folder : slash + 1);
    return read_linked(seeker, device, partition);
}

/* The partition that a folder of /sys is of. */
static uint32_t read_partition(const struct seeker *seeker, const char *folder, struct partition *partition)
{
    char disk[PATH_MAX];
    int error = read_number(folder, "partition", &partition->number);

    if (error == ENOENT || error == ENOTDIR)
        return seeker_refuse(seeker, BOOTKEEP_MACHINE_FAULT_NO_PARTITION);
    if (error != 0 || partition->number > UINT32_MAX)
        return seeker_fail(seeker, folder, error == 0 ? EINVAL : error);
    if (!read_id(seeker, folder, partition))
        return seeker_refuse(seeker, BOOTKEEP_MACHINE_FAULT_UNKNOWN_PARTITION);
    folder_of(folder, disk);
    error = read_number(folder, "start", &partition->start);
    if (error == 0)
        error = read_number(folder, "size", &partition->size);
    if (error == 0)
        error = read_number(disk, "queue/logical_block_size", &partition->block_size);
    return error == 0 ? BOOTKEEP_DONE : seeker_fail(seeker, folder, error);
}

/* Whether the partition can be in a path, whose numbers are then in blocks. */
static bool make_blocks(struct partition *partition)
{
    const uint64_t sectors = partition->block_size / SECTOR;
    const bool is_mbr = partition->format == 1;

    if (partition->number == 0 || sectors == 0 || partition->block_size % SECTOR != 0)
        return false;
    if (partition->start % sectors != 0 || partition->size % sectors != 0)
        return false;
    if (is_mbr && (partition->told_number != partition->number || partition->number > 4))
        return false;
    if (is_mbr && memcmp(partition->signature, "\0\0\0", 4) == 0)
        return false;
    partition->start /= sectors;
    partition->size /= sectors;
    return true;
}

uint32_t partition_of_folder(const struct seeker *seeker, const char *folder, struct partition *partition)
{
    uint32_t status = read_partition(seeker, folder, partition);

    if (status == BOOTKEEP_DONE && !read_device(folder, &partition->major, &partition->minor))
        partition->major = partition->minor = 0;
    if (status == BOOTKEEP_DONE && !make_blocks(partition))
        return seeker_refuse(seeker, BOOTKEEP_MACHINE_FAULT_NO_PARTITION);
    return status;
}

uint32_t partition_of_device(const struct seeker *seeker, unsigned major, unsigned minor, struct partition *partition)
{
    char name[64], link[PATH_MAX];
    char *folder;
    uint32_t status;

    snprintf(name, sizeof name, "/sys/dev/block/%u:%u", major, minor);
    if (!seeker_below(seeker, name, link))
        return seeker_fail(seeker, name, ENAMETOOLONG);
    folder = realpath(link, NULL);
    if (folder == NULL)
        return errno == ENOENT ? seeker_refuse(seeker, BOOTKEEP_MACHINE_FAULT_NO_PARTITION)
                               : seeker_fail(seeker, link, errno);
    status = partition_of_folder(seeker, folder, partition);
    free(folder);
    return status;
}

/* ---- The disk that is named ------------------------------------------------------------------------------------- */

/* What the kernel calls the device at a path without links: in /dev it has an exclamation mark for a slash. */
static bool kernel_name(const struct seeker *seeker, const char *whole, char name[NAME_MAX + 1], bool *is_in_dev)
{
    const char *slash = strrchr(whole, '/');
    char *root = *seeker->root == '\0' ? NULL : realpath(seeker->root, NULL);
    size_t len = root == NULL ? 0 : strlen(root);

    while (len > 0 && root[len - 1] == '/')
        len--;
    *is_in_dev = (len == 0 || strncmp(whole, root, len) == 0) && strncmp(whole + len, "/dev/", 5) == 0;
    free(root);
    if (snprintf(name, NAME_MAX + 1, "%s", *is_in_dev ? whole + len + 5 : slash + 1) > NAME_MAX)
        return false;
    for (char *at = name; *is_in_dev && *at != '\0'; at++)
        if (*at == '/')
            *at = '!';
    return true;
}

/* Whether the device of the folder of /sys has this number; any, if only a file stands for the device. */
static bool has_number(const char *folder, const struct stat *found)
{
    unsigned told_major, told_minor;

    if (!read_device(folder, &told_major, &told_minor))
        return false;
    return !S_ISBLK(found->st_mode) || (major(found->st_rdev) == told_major && minor(found->st_rdev) == told_minor);
}

/* The folder of /sys of the device at the path without links, of which that was found, or NULL. It is freed by the
 * caller. */
static char *folder_of_device(const struct seeker *seeker, const char *whole, const struct stat *found)
{
    char name[NAME_MAX + 1], short_link[NAME_MAX + 32], link[PATH_MAX];
    bool is_in_dev;
    char *folder;

    if (!kernel_name(seeker, whole, name, &is_in_dev))
        return NULL;
    /* Only root can make devices: below another root a file in its /dev may stand for one. */
    if (!S_ISBLK(found->st_mode) && (!is_in_dev || *seeker->root == '\0'))
        return NULL;
    snprintf(short_link, sizeof short_link, "/sys/class/block/%s", name);
    folder = seeker_below(seeker, short_link, link) ? realpath(link, NULL) : NULL;
    if (folder != NULL && !has_number(folder, found)) {
        free(folder);
        return NULL;
    }
    return folder;
}

/* The partition of this number of the disk that a folder of /sys is of, in which each of its partitions has a folder.
 */
static uint32_t partition_of_disk(const struct seeker *seeker, const char *disk, uint32_t number,
                                  struct partition *partition)
{
    char path[PATH_MAX];
    struct dirent *entry;
    DIR *folder = opendir(disk);
    uint32_t status = BOOTKEEP_ABSENT;

    if (folder == NULL)
        return seeker_fail(seeker, disk, errno);
    while (status == BOOTKEEP_ABSENT && (entry = readdir(folder)) != NULL) {
        uint64_t found;

        if (entry->d_name[0] != '.' && path_join(path, disk, entry->d_name) &&
            read_number(path, "partition", &found) == 0 && found == number)
            status = partition_of_folder(seeker, path, partition);
    }
    closedir(folder);
    return status == BOOTKEEP_ABSENT ? seeker_refuse(seeker, BOOTKEEP_MACHINE_FAULT_OTHER_PARTITION) : status;
}

uint32_t partition_of_named(const struct seeker *seeker, const char *device, uint32_t number,
                            struct partition *partition)
{
    char path[PATH_MAX];
    char *whole, *folder = NULL;
    struct stat found;
    uint64_t own;
    uint32_t status;

    if (!seeker_below(seeker, device, path))
        return seeker_fail(seeker, device, ENAMETOOLONG);
    whole = realpath(path, NULL);
    if (whole == NULL || stat(whole, &found) != 0)
        status = seeker_fail(seeker, device, errno);
    else if ((folder = folder_of_device(seeker, whole, &found)) == NULL)
        status = seeker_refuse(seeker, BOOTKEEP_MACHINE_FAULT_NO_DEVICE);
    else if (read_number(folder, "partition", &own) != 0)
        status = partition_of_disk(seeker, folder, number == 0 ? 1 : number, partition);
    else if (number != 0 && number != own)
        status = seeker_refuse(seeker, BOOTKEEP_MACHINE_FAULT_OTHER_PARTITION);
    else
        status = partition_of_folder(seeker, folder, partition);
    free(folder);
    free(whole);
    return status;
}

/* ---- The path ------------------------------------------------------------------------------------------------------
 */

static void put_number(uint8_t *at, uint64_t number, size_t len)
{
    for (size_t i = 0; i < len; i++)
        at[i] = (uint8_t)(number >> (8 * i));
}

/* The node of a partition (UEFI 2.10, 10.3.5.1). */
static void put_drive(uint8_t *at, const struct partition *partition)
{
    put_number(at, 0x0104, 2);
    put_number(at + 2, DRIVE_LEN, 2);
    put_number(at + 4, partition->number, 4);
    put_number(at + 8, partition->start, 8);
    put_number(at + 16, partition->size, 8);
    memcpy(at + 24, partition->signature, SIGNATURE_LEN);
    at[40] = partition->format;
    at[41] = partition->format;
}

/* The character at the start of a text in UTF-8, and how many bytes it has. */
static uint32_t character_at(const char *text, size_t *len)
{
    const uint8_t *at = (const uint8_t *)text;

    *len = at[0] < 0x80 ? 1 : at[0] < 0xe0 ? 2 : at[0] < 0xf0 ? 3 : 4;
    switch (*len) {
    case 1: return at[0];
    case 2: return (uint32_t)(at[0] & 0x1f) << 6 | (at[1] & 0x3f);
    case 3: return (uint32_t)(at[0] & 0x0f) << 12 | (uint32_t)(at[1] & 0x3f) << 6 | (at[2] & 0x3f);
    default: return UINT32_MAX;
    }
}

/* The node of a file (UEFI 2.10, 10.3.5.4) of this name, from the root of its file system on: its length, or 0. */
static size_t put_file(uint8_t *at, const char *name)
{
    size_t count = 4, len;

    if (!is_utf8(name, strlen(name)))
        return 0;
    for (; *name != '\0'; name += len, count += 2) {
        uint32_t character = character_at(name, &len);

        if (character > 0xffff || character == '\\' || count + 4 > NODE_MAX)
            return 0;
        put_number(at + count, character == '/' ? '\\' : character, 2);
    }
    put_number(at + count, 0, 2);
    count += 2;
    put_number(at, 0x0404, 2);
    put_number(at + 2, count, 2);
    return count;
}

bool partition_path(const struct partition *partition, const char *name, struct bytes *path)
{
    size_t len;

    if (!bytes_make(path, DRIVE_LEN + 4 + 2 * (strlen(name) + 1) + END_LEN))
        return false;
    put_drive(path->at, partition);
    len = put_file(path->at + DRIVE_LEN, name);
    put_number(path->at + DRIVE_LEN + len, 0x0004ff7f, END_LEN);
    path->len = len == 0 ? 0 : DRIVE_LEN + len + END_LEN;
    return true;
}
