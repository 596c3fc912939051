/* Times how long the C library libefivar takes to print the device path in a file.
 *
 * It prints the shortest time of some turns in nanoseconds, or says what failed. */
#include <efivar/efivar.h>
#include <stdio.h>
#include <stdlib.h>
#include <time.h>

enum { TURNS = 5 };

static double seconds(void) {
    struct timespec now;
    clock_gettime(CLOCK_MONOTONIC, &now);
    return (double)now.tv_sec + (double)now.tv_nsec / 1e9;
}

int main(int count, char **words) {
    FILE *file = count == 2 ? fopen(words[1], "rb") : NULL;
    if (file == NULL || fseek(file, 0, SEEK_END) != 0) {
        fputs("efivar: the word is missing that names the file of a path, or there is no such file\n", stderr);
        return 1;
    }
    long size = ftell(file);
    size_t room = 16 * (size_t)size;
    unsigned char *bytes = malloc((size_t)size);
    unsigned char *text = malloc(room);
    rewind(file);
    if (bytes == NULL || text == NULL || fread(bytes, 1, (size_t)size, file) != (size_t)size) {
        fputs("efivar: the file can't be read\n", stderr);
        return 1;
    }
    double shortest = 1e9;
    for (int turn = 0; turn < TURNS; turn++) {
        double start = seconds();
        if (efidp_format_device_path(text, room, (const_efidp)bytes, size) < 0) {
            perror("efivar: the path can't be printed");
            return 1;
        }
        double time = seconds() - start;
        if (time < shortest) {
            shortest = time;
        }
    }
    printf("%.0f\n", shortest * 1e9);
    return 0;
}
