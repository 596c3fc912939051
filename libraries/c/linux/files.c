/* Files that are read whole up to a limit, and replaced whole: as crates/whole_files does it. */
#include "machine.h"

#include <errno.h>
#include <fcntl.h>
#include <stdio.h>
#include <stdlib.h>
#include <string.h>
#include <sys/file.h>
#include <sys/stat.h>
#include <unistd.h>

/* What is in front of the name of a new file that is to replace another one, until it does. */
#define NEW_FRONT ".bootkeep-"
/* What a file keeps of the rights of the one that it replaces: nobody but its owner may write it. */
enum { OWN_MODE = 0755, PRIVATE_MODE = 0600, FOLDER_MODE = 0700, PIECE = 65536 };
/* How many links lead to a file at most, as Linux follows them, and how often a path is looked at that leads to another
 * file once it is locked; and the answer for that. */
enum { LINKS_MAX = 40, TURNS = 10000, ELSEWHERE = -3 };

int open_again(const char *path, int how, mode_t mode)
{
    int file;

    do
        file = open(path, how | O_CLOEXEC, mode);
    while (file < 0 && errno == EINTR);
    return file;
}

int try_lock(int folder)
{
    while (flock(folder, LOCK_EX | LOCK_NB) != 0)
        if (errno != EINTR)
            return errno;
    return 0;
}

/* Makes room for one piece more after the bytes: false if memory is refused. */
static bool make_room(struct bytes *bytes, size_t *room)
{
    uint8_t *grown;

    if (*room - bytes->len >= PIECE)
        return true;
    grown = realloc(bytes->at, *room * 2 + PIECE);
    if (grown == NULL)
        return false;
    bytes->at = grown;
    *room = *room * 2 + PIECE;
    return true;
}

/* Reads an open file to its end, but at most one byte above the limit. */
static int read_to_end(int file, size_t limit, struct bytes *bytes)
{
    size_t room = 0;

    for (;;) {
        size_t most = limit + 1 - bytes->len;
        ssize_t got;

        if (!make_room(bytes, &room))
            return ENOMEM;
        got = read(file, bytes->at + bytes->len, most < PIECE ? most : PIECE);
        if (got < 0 && errno != EINTR)
            return errno;
        if (got == 0)
            return READ_DONE;
        if (got > 0)
            bytes->len += (size_t)got;
        if (bytes->len > limit)
            return READ_TOO_MUCH;
    }
}

/* Reads an open file, and closes it. */
static int read_open(int file, size_t limit, struct bytes *bytes)
{
    int what = read_to_end(file, limit, bytes);

    close(file);
    if (what != READ_DONE)
        bytes_free(bytes);
    return what;
}

/* Neither a regular file nor a folder, which to read fails at once. */
static bool is_irregular(const struct stat *found)
{
    return !S_ISREG(found->st_mode) && !S_ISDIR(found->st_mode);
}

/* Opens a regular file for reading, links followed; what isn't one isn't opened. As read_regular answers. */
static int open_regular(const char *path, int *file)
{
    struct stat found;

    if (stat(path, &found) != 0)
        return errno;
    if (is_irregular(&found))
        return READ_IRREGULAR;
    *file = open_again(path, O_RDONLY, 0);
    if (*file < 0)
        return errno;
    if (fstat(*file, &found) != 0) {
        int error = errno;
        close(*file);
        return error;
    }
    if (!is_irregular(&found))
        return READ_DONE;
    close(*file);
    return READ_IRREGULAR;
}

int read_regular(const char *path, size_t limit, struct bytes *bytes)
{
    int file = -1, what = open_regular(path, &file);

    *bytes = (struct bytes){NULL, 0};
    return what == READ_DONE ? read_open(file, limit, bytes) : what;
}

int read_front(const char *path, size_t most, struct bytes *bytes)
{
    int file = -1, what = open_regular(path, &file);

    *bytes = (struct bytes){NULL, 0};
    if (what != READ_DONE)
        return what;
    what = read_to_end(file, most, bytes);
    close(file);
    if (what != READ_DONE && what != READ_TOO_MUCH) {
        bytes_free(bytes);
        return what;
    }
    bytes->len = bytes->len > most ? most : bytes->len;
    return READ_DONE;
}

int read_any(const char *path, size_t limit, struct bytes *bytes)
{
    int file = open_again(path, O_RDONLY, 0);

    *bytes = (struct bytes){NULL, 0};
    return file < 0 ? errno : read_open(file, limit, bytes);
}

int sync_file(int file)
{
    while (fsync(file) != 0)
        if (errno != EINTR)
            return errno == EINVAL || errno == ENOSYS || errno == EOPNOTSUPP ? 0 : errno;
    return 0;
}

int sync_folder(const char *path)
{
    int folder = open_again(path, O_RDONLY, 0);
    int error;

    if (folder < 0)
        return errno == EACCES || errno == EPERM ? 0 : errno;
    error = sync_file(folder);
    close(folder);
    return error;
}

/* Writes all of the bytes, and brings them to the disk. */
static int fill(int file, struct bytes bytes)
{
    for (size_t done = 0; done < bytes.len;) {
        ssize_t put = write(file, bytes.at + done, bytes.len - done);
        if (put < 0 && errno != EINTR)
            return errno;
        if (put == 0)
            return EIO;
        if (put > 0)
            done += (size_t)put;
    }
    return sync_file(file);
}

void folder_of(const char *path, char *folder)
{
    size_t len = strlen(path);

    while (len > 1 && path[len - 1] == '/')
        len--;
    while (len > 0 && path[len - 1] != '/')
        len--;
    while (len > 1 && path[len - 1] == '/')
        len--;
    if (len == 0) {
        snprintf(folder, 2, ".");
        return;
    }
    memmove(folder, path, len);
    folder[len] = '\0';
}

bool path_join(char path[PATH_MAX], const char *folder, const char *name)
{
    size_t len = strlen(folder);
    const char *slash = len > 0 && folder[len - 1] == '/' ? "" : "/";

    return snprintf(path, PATH_MAX, "%s%s%s", folder, slash, name) < PATH_MAX;
}

int make_folder(const char *path, const char *parent)
{
    if (mkdir(path, FOLDER_MODE) == 0)
        return sync_folder(parent);
    return errno == EEXIST ? 0 : errno;
}

/* A file that is to replace another one. */
struct replacing {
    char new_path[PATH_MAX];
    /* What is replaced, if something is. */
    bool is_old;
    struct stat old;
    /* Whether it is one of the program's own, so that nobody but its owner may write it. */
    bool is_own;
};

/* Where the new file is, beside the one at the path: 0, or a number of errno. Its name is cut where a file's has to
 * end. */
static int path_beside(const char *path, char beside[PATH_MAX])
{
    const char *slash = strrchr(path, '/');
    const char *own = slash == NULL ? path : slash + 1;
    char folder[PATH_MAX], name[sizeof NEW_FRONT + NAME_MAX];
    size_t len = strlen(path);

    if (len >= sizeof folder || *own == '\0' || strlen(own) > NAME_MAX)
        return ENAMETOOLONG;
    folder_of(path, folder);
    len = (size_t)snprintf(name, sizeof name, "%s%s", NEW_FRONT, own);
    if (len > NAME_MAX) {
        len = NAME_MAX;
        while (((uint8_t)name[len] & 0xc0) == 0x80)
            len--;
        name[len] = '\0';
    }
    if (strcmp(name, own) == 0)
        return EINVAL;
    return path_join(beside, folder, name) ? 0 : ENAMETOOLONG;
}

/* What of the rights of an old file its successor has, which may have lost its owner or its group. */
static mode_t kept_mode(mode_t mode, bool keeps_owner, bool keeps_group)
{
    if (keeps_owner)
        return keeps_group ? mode & 07777 : mode & 05707;
    return keeps_group ? mode & 03777 : mode & 01707;
}

/* Gives the new file the group, the owner and the rights of the old one, each if the user may. */
static void keep_access(int file, const struct replacing *replacing)
{
    const struct stat *old = &replacing->old;
    const mode_t mode = replacing->is_own ? old->st_mode & OWN_MODE : old->st_mode;
    struct stat made;
    const bool is_known = fstat(file, &made) == 0;
    const bool keeps_group = (is_known && made.st_gid == old->st_gid) || fchown(file, (uid_t)-1, old->st_gid) == 0;
    const bool keeps_owner = (is_known && made.st_uid == old->st_uid) || fchown(file, old->st_uid, (gid_t)-1) == 0;

    /* If that can't be, the file is for its owner alone. */
    if (fchmod(file, kept_mode(mode, keeps_owner, keeps_group)) != 0)
        return;
}

/* Makes the new file, in the place of one of its name that was left there: -1 with errno if that can't be. */
static int create_beside(const struct replacing *replacing)
{
    int file;

    if (unlink(replacing->new_path) != 0 && errno != ENOENT)
        return -1;
    file = open_again(replacing->new_path, O_WRONLY | O_CREAT | O_EXCL, PRIVATE_MODE);
    if (file >= 0 && replacing->is_old)
        keep_access(file, replacing);
    return file;
}

/* Whether the path leads to the known file, or to nothing if none is known: 0, EBUSY if not, or a number of errno. */
static int leads_to(const char *path, const struct stat *known)
{
    struct stat found;

    if (lstat(path, &found) != 0)
        return errno != ENOENT ? errno : known == NULL ? 0 : EBUSY;
    if (known == NULL)
        return EBUSY;
    return known->st_dev == found.st_dev && known->st_ino == found.st_ino ? 0 : EBUSY;
}

/* The same for the new file and its own name. */
static int leads_to_new(const struct replacing *replacing, int file)
{
    struct stat made;

    return fstat(file, &made) != 0 ? errno : leads_to(replacing->new_path, &made);
}

/* Removes the new file, if it still has its name. */
static void discard(const struct replacing *replacing, int file)
{
    if (leads_to_new(replacing, file) == 0)
        unlink(replacing->new_path);
}

/* Writes the new file, and gives it the name of the old one, if both still have theirs. */
static int complete(const struct replacing *replacing, int file, const char *path, struct bytes bytes)
{
    int error = fill(file, bytes);

    if (error == 0)
        error = leads_to_new(replacing, file);
    if (error == 0)
        error = leads_to(path, replacing->is_old ? &replacing->old : NULL);
    if (error == 0 && rename(replacing->new_path, path) != 0)
        error = errno;
    if (error != 0)
        discard(replacing, file);
    return error;
}

int replace_file(const char *path, struct bytes bytes)
{
    struct replacing replacing = {.is_old = true, .is_own = true};
    char folder[PATH_MAX];
    int file, error;

    if (lstat(path, &replacing.old) != 0) {
        if (errno != ENOENT)
            return errno;
        replacing.is_old = false;
    } else if (!S_ISREG(replacing.old.st_mode)) {
        return EEXIST;
    }
    error = path_beside(path, replacing.new_path);
    if (error != 0)
        return error;
    file = create_beside(&replacing);
    if (file < 0)
        return errno;
    error = complete(&replacing, file, path, bytes);
    close(file);
    if (error != 0)
        return error;
    folder_of(path, folder);
    return sync_folder(folder);
}

/* ---- Files that are locked -----------------------------------------------------------------------------------------
 */

/* Where the links that begin with this path end: at the path itself, if it isn't a link. 0, or a number of errno. */
static int end_of_links(const char *path, char end[PATH_MAX])
{
    char target[PATH_MAX], folder[PATH_MAX];

    if (snprintf(end, PATH_MAX, "%s", path) >= PATH_MAX)
        return ENAMETOOLONG;
    for (int i = 0; i <= LINKS_MAX; i++) {
        ssize_t len = readlink(end, target, sizeof target - 1);

        if (len < 0)
            return errno == EINVAL || errno == ENOENT ? 0 : errno;
        target[len] = '\0';
        folder_of(end, folder);
        if (target[0] == '/' ? snprintf(end, PATH_MAX, "%s", target) >= PATH_MAX : !path_join(end, folder, target))
            return ENAMETOOLONG;
    }
    return ELOOP;
}

/* Locks what a path leads to: EAGAIN if it leads to something else by now. */
static int lock_once(const char *path, char end[PATH_MAX], int *lock)
{
    struct stat found, locked;
    int error;

    if (stat(path, &found) != 0)
        return errno;
    if (!S_ISREG(found.st_mode))
        return READ_IRREGULAR;
    *lock = open_again(path, O_WRONLY, 0);
    if (*lock < 0)
        return errno == ENOENT ? ELSEWHERE : errno;
    error = try_lock(*lock);
    if (error != 0)
        return error;
    if (fstat(*lock, &locked) != 0)
        return errno;
    error = end_of_links(path, end);
    if (error == 0)
        error = leads_to(end, &locked);
    return error == EBUSY || (error == 0 && !S_ISREG(locked.st_mode)) ? ELSEWHERE : error;
}

int lock_regular(const char *path, char end[PATH_MAX], int *lock)
{
    for (int i = 0; i < TURNS; i++) {
        int error = lock_once(path, end, lock);

        if (error == 0)
            return 0;
        if (*lock >= 0)
            close(*lock);
        *lock = -1;
        if (error != ELSEWHERE)
            return error;
    }
    return EBUSY;
}

/* Locks the new file, which nobody else should have, writes it, and gives it the name of the old one. */
static int complete_locked(const struct replacing *replacing, int file, bool keeps_lock, const char *end,
                           struct bytes bytes)
{
    int error = keeps_lock ? try_lock(file) : 0;

    if (error == 0)
        return complete(replacing, file, end, bytes);
    discard(replacing, file);
    return error == EWOULDBLOCK ? EBUSY : error;
}

int replace_locked(const char *end, int *lock, bool keeps_lock, struct bytes bytes, bool *is_new)
{
    struct replacing replacing = {.is_old = true};
    char folder[PATH_MAX];
    int file, error;

    *is_new = false;
    if (fstat(*lock, &replacing.old) != 0)
        return errno;
    error = path_beside(end, replacing.new_path);
    if (error != 0)
        return error;
    file = create_beside(&replacing);
    if (file < 0)
        return errno;
    error = complete_locked(&replacing, file, keeps_lock, end, bytes);
    *is_new = error == 0;
    if (keeps_lock && error == 0) {
        close(*lock);
        *lock = file;
    } else {
        close(file);
    }
    if (error != 0)
        return error;
    folder_of(end, folder);
    return sync_folder(folder);
}
