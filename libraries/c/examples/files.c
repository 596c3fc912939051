/* Whole files, for the examples. */
#define _DEFAULT_SOURCE

#include "files.h"

#include <errno.h>
#include <fcntl.h>
#include <libgen.h>
#include <stdio.h>
#include <stdlib.h>
#include <string.h>
#include <sys/file.h>
#include <sys/stat.h>
#include <unistd.h>

enum { PIECE = 65536 };

uint8_t *read_whole(const char *name, size_t *len)
{
    FILE *file = fopen(name, "rb");
    uint8_t *bytes = NULL, *grown;
    size_t room = 0, count = 0, got = 1;

    while (file != NULL && got > 0) {
        if (room - count < PIECE) {
            room += room + PIECE;
            grown = realloc(bytes, room);
            if (grown == NULL)
                break;
            bytes = grown;
        }
        got = fread(bytes + count, 1, room - count, file);
        count += got;
    }
    if (file == NULL || got > 0 || ferror(file)) {
        free(bytes);
        bytes = NULL;
    }
    if (file != NULL)
        fclose(file);
    *len = count;
    return bytes;
}

/* Writes all of the bytes, and waits until they are stored. */
static int write_whole(int file, const uint8_t *bytes, size_t len)
{
    while (len > 0) {
        ssize_t put = write(file, bytes, len);
        if (put < 0 && errno == EINTR)
            continue;
        if (put < 0)
            return -1;
        bytes += put;
        len -= (size_t)put;
    }
    return fsync(file);
}

/* Opens the folder of a file. */
static int open_folder(const char *name)
{
    char copy[4096];

    if (snprintf(copy, sizeof copy, "%s", name) >= (int)sizeof copy)
        return -1;
    return open(dirname(copy), O_RDONLY | O_DIRECTORY | O_CLOEXEC);
}

/* Waits until no other program has locked an open file, and locks it. */
static int lock(int file)
{
    while (flock(file, LOCK_EX) != 0)
        if (errno != EINTR)
            return -1;
    return 0;
}

/* Locks the folder of a file, until the process ends. */
static int lock_folder(const char *name)
{
    int folder = open_folder(name);

    if (folder >= 0 && lock(folder) != 0) {
        close(folder);
        return -1;
    }
    return folder;
}

/* Whether the file of this name is the one that is open. Who had its lock may have replaced it. */
static int is_same(int file, const char *name)
{
    struct stat open_file, there;

    return fstat(file, &open_file) == 0 && lstat(name, &there) == 0 && open_file.st_dev == there.st_dev &&
           open_file.st_ino == there.st_ino;
}

int lock_whole(const char *name)
{
    struct stat there;
    int file;

    if (lock_folder(name) < 0)
        return -1;
    for (;;) {
        if (lstat(name, &there) != 0 || !S_ISREG(there.st_mode))
            return -1;
        file = open(name, O_RDONLY | O_NOFOLLOW | O_NONBLOCK | O_CLOEXEC);
        if (file < 0)
            return -1;
        if (lock(file) != 0) {
            close(file);
            return -1;
        }
        if (is_same(file, name))
            return file;
        close(file);
    }
}

/* Waits until the folder of a file has stored that the file is another one. */
static int store_folder(const char *name)
{
    int folder = open_folder(name);
    int failed = folder < 0 || fsync(folder) != 0;

    if (folder >= 0)
        close(folder);
    return failed ? -1 : 0;
}

/*
 * Makes the file `other`, which is to take the place of a file, with the rights and the owner of that one. What a
 * program that was killed left under this name goes. No link is followed: what it leads to isn't touched.
 */
static int make_other(const char *name, const char *other)
{
    struct stat old;
    int file, is_new = lstat(name, &old) != 0;

    if (is_new ? errno != ENOENT : !S_ISREG(old.st_mode))
        return -1;
    if (unlink(other) != 0 && errno != ENOENT)
        return -1;
    file = open(other, O_WRONLY | O_CREAT | O_EXCL | O_NOFOLLOW | O_CLOEXEC, is_new ? 0666 : 0600);
    if (file < 0 || is_new)
        return file;
    if (fchown(file, old.st_uid, old.st_gid) != 0 || fchmod(file, old.st_mode & 07777) != 0) {
        close(file);
        unlink(other);
        return -1;
    }
    return file;
}

int replace_whole(const char *name, const uint8_t *bytes, size_t len, int *locked)
{
    char other[4096];
    int file;

    if (snprintf(other, sizeof other, "%s.new", name) >= (int)sizeof other)
        return -1;
    file = make_other(name, other);
    if (file < 0)
        return -1;
    if (lock(file) != 0 || write_whole(file, bytes, len) != 0 || rename(other, name) != 0) {
        close(file);
        unlink(other);
        return -1;
    }
    close(*locked);
    *locked = file;
    return store_folder(name);
}
