/*
 * Times the text of the device path in each file, by the library and by libefivar: `speed FILE..`.
 *
 * A line has the bytes of the path, the shortest time of some turns by each in nanoseconds, and how many times as long
 * libefivar takes. Without libefivar, built by -DNO_EFIVAR, it has the first time alone. What libefivar can't print is
 * said to be that.
 */
#include <bootkeep.h>
#include <stdio.h>
#include <stdlib.h>
#include <time.h>
#ifndef NO_EFIVAR
#include <efivar/efivar.h>
#endif

enum { TURNS = 25, ROOM = 1 << 20, BYTES = 1 << 16, AT_LEAST = 20000 };

static uint8_t bytes[BYTES];
static uint8_t text[ROOM];

static double nanoseconds(void)
{
    struct timespec now;
    clock_gettime(CLOCK_MONOTONIC, &now);
    return (double)now.tv_sec * 1e9 + (double)now.tv_nsec;
}

static int by_library(size_t len)
{
    struct bootkeep_refusal refusal;
    size_t text_len, taken;
    return bootkeep_path_text(bytes, len, text, ROOM, &text_len, &taken, &refusal) == BOOTKEEP_DONE;
}

#ifndef NO_EFIVAR
static int by_efivar(size_t len)
{
    return efidp_format_device_path((void *)text, ROOM, (const_efidp)bytes, (ssize_t)len) >= 0;
}
#endif

/* The shortest time of a call, of turns that are long enough to be timed; below 0 if the call fails. */
static double shortest(int (*call)(size_t len), size_t len)
{
    double least = 1e18;
    int count = 1;

    if (!call(len))
        return -1;
    for (int turn = 0; turn < TURNS; turn++) {
        double start = nanoseconds(), time;
        for (int at = 0; at < count; at++)
            call(len);
        time = nanoseconds() - start;
        if (time < AT_LEAST && turn == 0) {
            count *= 2;
            turn--;
            continue;
        }
        if (time / count < least)
            least = time / count;
    }
    return least;
}

static int time_file(const char *name)
{
    FILE *file = fopen(name, "rb");
    size_t len = file == NULL ? 0 : fread(bytes, 1, BYTES, file);
    double ours = len == 0 ? -1 : shortest(by_library, len);

    if (file != NULL)
        fclose(file);
    if (ours < 0) {
        fprintf(stderr, "speed: %s: there is no path\n", name);
        return 1;
    }
    printf("%6zu bytes %9.0f ns", len, ours);
#ifndef NO_EFIVAR
    double theirs = shortest(by_efivar, len);
    if (theirs < 0)
        printf("   libefivar can't print it");
    else
        printf(" %9.0f ns by libefivar %6.2f times", theirs, theirs / ours);
#endif
    putchar('\n');
    return 0;
}

int main(int count, char **words)
{
    int failed = 0;

    for (int at = 1; at < count; at++)
        failed |= time_file(words[at]);
    return failed;
}
