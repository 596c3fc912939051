/*
 * Loaded before the C library, lets one call of the system fail, or ends the process before it: for bench/machine-c.
 *
 *     FAIL_AT      which call, counted from 1; 0 or nothing for none
 *     FAIL_ERROR   the number of errno with which it fails, or `kill`; or `other`, which fails no call, and has another
 *                  program put the file at FAIL_FROM in the place of the one at FAIL_TO before it
 *     FAIL_LAST    if it is set, all calls from FAIL_AT on fail
 *     FAIL_COUNT   the path of a file, to which each call is written, by its number and its name, and the path that it
 *                  opens
 *     FAIL_MEMORY  which request for memory is refused, counted from 1; 0 or nothing for none
 *     FAIL_ASKED   the path of a file, to which a byte is written for each request for memory
 *
 * Only those are counted by which libbootkeep-linux reaches files.
 */
#define _GNU_SOURCE
#include <dirent.h>
#include <dlfcn.h>
#include <errno.h>
#include <fcntl.h>
#include <signal.h>
#include <stdarg.h>
#include <stdio.h>
#include <stdlib.h>
#include <string.h>
#include <sys/file.h>
#include <sys/stat.h>
#include <unistd.h>

static long counted;
static int is_off;

/* The function of this name that comes next, which is the C library's. */
static void *next_function(const char *name)
{
    void *found = dlsym(RTLD_NEXT, name);

    if (found == NULL)
        abort();
    return found;
}

#define NEXT(name) ((__typeof__(&name))next_function(#name))

static void note(const char *name, const char *opened)
{
    const char *path = getenv("FAIL_COUNT");
    char line[4200];
    int file, len;

    if (path == NULL)
        return;
    file = NEXT(open)(path, O_WRONLY | O_CREAT | O_APPEND, 0600);
    len = snprintf(line, sizeof line, "%ld %s %s\n", counted, name, opened);
    if (file < 0 || NEXT(write)(file, line, (size_t)len) != len)
        abort();
    NEXT(close)(file);
}

/* Whether this call fails, which opens a path or an empty one, with errno set. The process may end here. */
static int fails_at(const char *name, const char *opened)
{
    const char *at = getenv("FAIL_AT"), *error = getenv("FAIL_ERROR");
    long which = at == NULL ? 0 : strtol(at, NULL, 10);

    if (is_off)
        return 0;
    counted++;
    note(name, opened);
    if (which == 0 || counted < which || (counted > which && getenv("FAIL_LAST") == NULL))
        return 0;
    if (error != NULL && strcmp(error, "kill") == 0)
        kill(getpid(), SIGKILL);
    if (error != NULL && strcmp(error, "other") == 0) {
        if (NEXT(rename)(getenv("FAIL_FROM"), getenv("FAIL_TO")) != 0)
            abort();
        return 0;
    }
    errno = error == NULL ? EIO : (int)strtol(error, NULL, 10);
    return 1;
}

static int fails(const char *name)
{
    return fails_at(name, "");
}

int open(const char *path, int how, ...)
{
    mode_t mode = 0;

    if ((how & O_CREAT) != 0) {
        va_list more;

        va_start(more, how);
        mode = va_arg(more, mode_t);
        va_end(more);
    }
    return fails_at("open", path) ? -1 : NEXT(open)(path, how, mode);
}

ssize_t read(int file, void *at, size_t len)
{
    return fails("read") ? -1 : NEXT(read)(file, at, len);
}

ssize_t write(int file, const void *at, size_t len)
{
    if (file <= 2)
        return NEXT(write)(file, at, len);
    return fails("write") ? -1 : NEXT(write)(file, at, len);
}

#define FAILING(result, name, parameters, arguments)                                                                   \
    result name parameters                                                                                             \
    {                                                                                                                  \
        return fails(#name) ? (result)FAILED : NEXT(name) arguments;                                                   \
    }

#define FAILED -1
FAILING(int, fsync, (int file), (file))
FAILING(int, rename, (const char *from, const char *to), (from, to))
FAILING(int, unlink, (const char *path), (path))
FAILING(ssize_t, readlink, (const char *path, char *to, size_t len), (path, to, len))
FAILING(int, mkdir, (const char *path, mode_t mode), (path, mode))
FAILING(int, stat, (const char *path, struct stat *to), (path, to))
FAILING(int, lstat, (const char *path, struct stat *to), (path, to))
FAILING(int, fstat, (int file, struct stat *to), (file, to))
FAILING(int, flock, (int file, int how), (file, how))
FAILING(int, ftruncate, (int file, off_t len), (file, len))
FAILING(int, fchmod, (int file, mode_t mode), (file, mode))
FAILING(int, fchown, (int file, uid_t user, gid_t group), (file, user, group))
#undef FAILED
#define FAILED 0
FAILING(DIR *, opendir, (const char *path), (path))
FAILING(char *, realpath, (const char *path, char *to), (path, to))
FAILING(struct dirent *, readdir, (DIR * folder), (folder))

/* What glibc itself calls for its requests for memory. */
extern void *__libc_malloc(size_t len);
extern void *__libc_calloc(size_t count, size_t len);
extern void *__libc_realloc(void *block, size_t len);

/* Whether this request for memory is refused. Until the environment is there none is. */
static int refuses(void)
{
    static long asked;
    const char *at = environ == NULL ? NULL : getenv("FAIL_MEMORY");
    const char *path = environ == NULL ? NULL : getenv("FAIL_ASKED");

    if (is_off || (at == NULL && path == NULL))
        return 0;
    asked++;
    if (path != NULL) {
        is_off = 1;
        int file = NEXT(open)(path, O_WRONLY | O_CREAT | O_APPEND, 0600);

        if (file < 0 || NEXT(write)(file, "x", 1) != 1)
            abort();
        NEXT(close)(file);
        is_off = 0;
    }
    if (at == NULL || strtol(at, NULL, 10) != asked)
        return 0;
    errno = ENOMEM;
    return 1;
}

void *malloc(size_t len)
{
    return refuses() ? NULL : __libc_malloc(len);
}

void *calloc(size_t count, size_t len)
{
    return refuses() ? NULL : __libc_calloc(count, len);
}

void *realloc(void *block, size_t len)
{
    return refuses() ? NULL : __libc_realloc(block, len);
}
