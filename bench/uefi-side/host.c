/*
 * Tries the menu on the host, over firmware that fake.c brings along, with the library for firmware: each key with each
 * request for memory refused in turn, and with each call that sets a variable; firmware that tells nonsense; and 65,536
 * entries and values of a megabyte in what collects variables. What differs is told, and the last line is `N tried, M
 * differ`.
 */
#include "../../libraries/c/examples/uefi/rows.h"
#include "../../libraries/c/examples/uefi/variables.h"
#include "fake.h"

#include <efilib.h>
#include <stdarg.h>
#include <stdio.h>
#include <stdlib.h>
#include <string.h>
#include <time.h>

EFI_STATUS efi_main(EFI_HANDLE image, EFI_SYSTEM_TABLE *table);

enum { LIST = 1 << 16, MEGABYTE = 1 << 20, ENTRIES = 65536, LARGE = 16, PATH = 42 };

static unsigned long tried, differ;

static void expect(bool holds, const char *format, ...)
{
    va_list words;

    tried++;
    if (holds)
        return;
    differ++;
    fputs("bench/uefi: host: ", stdout);
    va_start(words, format);
    vprintf(format, words);
    va_end(words);
    putchar('\n');
}

/* A load option that is active or not, with this path and optional data. */
static size_t make_option(uint8_t *option, bool is_active, const char *name, const void *path, size_t path_len,
                          const void *data, size_t len)
{
    size_t at = 6;

    memcpy(option, is_active ? "\x01\0\0\0" : "\0\0\0\0", 4);
    option[4] = (uint8_t)path_len;
    option[5] = (uint8_t)(path_len >> 8);
    for (; *name != '\0'; name++) {
        option[at++] = (uint8_t)*name;
        option[at++] = 0;
    }
    option[at++] = 0;
    option[at++] = 0;
    memcpy(option + at, path, path_len);
    memcpy(option + at + path_len, data, len);
    return at + path_len + len;
}

/* The variables of a small machine, and its keys. */
static EFI_SYSTEM_TABLE *begin(const char *keys)
{
    static const uint8_t file[] = {4, 4, 8, 0, 'a', 0, 0, 0, 0x7f, 0xff, 4, 0};
    static const uint8_t usb[] = {3, 15, 11, 0, 1, 2, 3, 4, 5, 6, 7, 0x7f, 0xff, 4, 0};
    EFI_SYSTEM_TABLE *table = fake_begin(keys);
    uint8_t disk[PATH + 12], option[256];

    memcpy(disk, "\x04\x01\x2a\x00\x01\x00\x00\x00", 8);
    for (uint8_t at = 8; at < PATH; at++)
        disk[at] = (uint8_t)(at + 12);
    memcpy(disk + PATH, file, sizeof file);
    fake_put("Boot0001", option, make_option(option, true, "first", disk, sizeof disk, "\x07\x08", 2));
    fake_put("Boot0002", option, make_option(option, true, "second", file, sizeof file, "", 0));
    fake_put("Boot0003", option, make_option(option, false, "third", usb, sizeof usb, "", 0));
    fake_put("Boot0004", "\x01", 1);
    fake_put("Boot0005", option, make_option(option, true, "fifth", file, sizeof file, "", 0));
    fake_put("boot0001", "\x01", 1);
    fake_put("BootOrder", "\x01\x00\x02\x00\x09\x00\x03\x00\x04\x00", 10);
    fake_put("BootNext", "\x02\x00", 2);
    fake_put("Timeout", "\x05\x00", 2);
    return table;
}

static void run(EFI_SYSTEM_TABLE *table)
{
    efi_main(NULL, table);
    expect(blocks == 0, "%ld blocks are still taken", blocks);
}

/* Each key with each request for memory refused: it changes all or nothing, and it is told. */
static void try_memory(const char *keys)
{
    static char before[LIST], after[LIST], now[LIST];
    unsigned long at = 0;

    begin(keys);
    fake_list(before, LIST);
    run(begin(keys));
    fake_list(after, LIST);
    do {
        EFI_SYSTEM_TABLE *table = begin(keys);
        fake.refused_memory = ++at;
        run(table);
        fake_list(now, LIST);
        expect(strcmp(now, before) == 0 || strcmp(now, after) == 0, "%s with request %lu refused leaves %s", keys, at,
               now);
        expect(!was_memory_refused || strstr(shown, "out of memory") != NULL ||
                   strstr(shown, "Out of Resources") != NULL,
               "%s with request %lu refused isn't told", keys, at);
    } while (was_memory_refused);
    expect(at > 10, "%s takes memory %lu times", keys, at);
}

/* Each key with each call that sets a variable refused, alone and with all after it. */
static void try_sets(const char *keys, unsigned long least)
{
    static char before[LIST], after[LIST], now[LIST];
    unsigned long at = 0;

    begin(keys);
    fake_list(before, LIST);
    run(begin(keys));
    fake_list(after, LIST);
    do {
        EFI_SYSTEM_TABLE *table = begin(keys);
        fake.refused_set = ++at;
        run(table);
        fake_list(now, LIST);
        expect(strcmp(now, was_set_refused ? before : after) == 0, "%s with change %lu refused leaves %s", keys, at,
               now);
        expect(!was_set_refused || strstr(shown, "Write Protected; nothing is changed") != NULL,
               "%s with change %lu refused isn't told", keys, at);
    } while (was_set_refused);
    expect(at == least + 1, "%s makes %lu changes", keys, at - 1);
    for (at = 2; at <= least; at++) {
        char told[32];
        EFI_SYSTEM_TABLE *table = begin(keys);
        fake.refused_set = at;
        fake.refuses_on = true;
        run(table);
        snprintf(told, sizeof told, "%lu changes stay", at - 1);
        expect(strstr(shown, told) != NULL, "%s with all from change %lu on refused doesn't tell what stays", keys, at);
    }
}

/* Starting: by the partition, with the optional data and BootCurrent, by a file alone, and what can't be started. */
static void try_starts(void)
{
    run(begin("\r"));
    expect(started == 1 && current_while_started == 2 && options_len == 0, "BootNext's entry isn't started");
    run(begin("v\r"));
    expect(started == 1 && current_while_started == 1 && options_len == 2 && memcmp(options, "\x07\x08", 2) == 0,
           "the first entry isn't started with its data");
    expect(strstr(shown, "Boot0001: Success") != NULL, "the end of what was started isn't told");
    run(begin("vvv\r"));
    expect(started == 0 && strstr(shown, "Boot0009: Not Found") != NULL, "an absent entry is started");
    run(begin("vvvv\r"));
    expect(started == 0 && strstr(shown, "Boot0003 can't be started here") != NULL, "a short form is started");
    for (unsigned long at = 1;; at++) {
        EFI_SYSTEM_TABLE *table = begin("v\r");
        fake.refused_memory = at;
        run(table);
        if (!was_memory_refused)
            break;
        expect(strstr(shown, "out of memory") != NULL || strstr(shown, "Out of Resources") != NULL,
               "a start with request %lu refused isn't told", at);
    }
}

/* Runs the menu over firmware that is to be changed first, and expects that this is shown. */
static void try_nonsense(int value, bool is_endless, bool has_bad_name, const char *told)
{
    static uint8_t data[MEGABYTE + 1];
    EFI_SYSTEM_TABLE *table = begin("vv");

    fake.value = (__typeof__(fake.value))value;
    fake.is_endless = is_endless;
    fake.has_bad_name = has_bad_name;
    fake_put("Boot0BAD", data, value == LONG_DATA ? sizeof data : 8);
    run(table);
    expect(strstr(shown, told) != NULL, "%s isn't shown of %d %d %d", told, value, is_endless, has_bad_name);
}

static void try_firmware(void)
{
    static const int left_out[] = {LONGER_THAN_ROOM, NEVER_ENOUGH, NO_DATA, LONG_DATA, DAMAGED};
    char name[1001];

    for (size_t at = 0; at < sizeof left_out / sizeof *left_out; at++)
        try_nonsense(left_out[at], false, false, "(1 variables aren't shown");
    try_nonsense(HONEST, false, false, "BAD");
    try_nonsense(HONEST, true, false, "the variables can't be read: Aborted");
    try_nonsense(HONEST, false, true, "the variables can't be read: Buffer Too Small");
    memset(name, 'N', sizeof name - 1);
    name[sizeof name - 1] = '\0';
    EFI_SYSTEM_TABLE *table = begin("");
    fake_put(name, "\x01", 1);
    fake_put("BootOrder", "\x01\x00\x02", 3);
    run(table);
    expect(strstr(shown, "what is tried can't be told: VarsBadOrder") != NULL, "an odd order isn't told");
    expect(strstr(shown, "   - 0002 second") != NULL, "an entry isn't shown beside an odd order");
}

/* All entries that there may be, some with a megabyte, an order of all, and one value that no set can hold. */
static void try_many(void)
{
    static uint8_t large[MEGABYTE + 1], order[2 * ENTRIES];
    EFI_SYSTEM_TABLE *table = begin("");
    struct bootkeep_refusal refusal;
    struct variables variables;
    struct rows rows;
    char name[16];
    clock_t start;
    size_t len;

    InitializeLib(NULL, table);
    for (size_t at = 0; at < sizeof large; at++)
        large[at] = (uint8_t)(at * 7);
    make_option(large, true, "large", "\x7f\xff\x04", 4, "", 0);
    for (size_t at = 0; at < ENTRIES; at++) {
        snprintf(name, sizeof name, "Boot%04zX", at);
        fake_put(name, large, at % (ENTRIES / LARGE) == 5 ? MEGABYTE : 20 + at % 100);
        order[2 * at] = (uint8_t)at;
        order[2 * at + 1] = (uint8_t)(at >> 8);
    }
    fake_put("Boot0100", large, MEGABYTE + 1);
    fake_put("BootOrder", order, sizeof order);
    start = clock();
    expect(variables_read(&variables) == EFI_SUCCESS, "65,536 entries aren't read");
    expect(rows_make(&variables, &rows, &refusal) == BOOTKEEP_DONE, "65,536 entries have no rows");
    printf("65,536 entries, %d of them of a megabyte: %.2f s\n", LARGE, (double)(clock() - start) / CLOCKS_PER_SEC);
    expect(variables.left_out == 1, "%zu variables are left out", variables.left_out);
    expect(variables.count == ENTRIES - 1 + 2, "%zu variables are read", variables.count);
    expect(rows.count == ENTRIES + 1, "there are %zu rows", rows.count);
    for (uint32_t at = 5; at < ENTRIES; at += ENTRIES / LARGE) {
        const uint8_t *data = variables_get(&variables, at, &len);
        expect(data != NULL && len == MEGABYTE && memcmp(data, large, len) == 0, "Boot%04X has other data",
               (unsigned)at);
    }
    rows_drop(&rows);
    variables_drop(&variables);
    expect(blocks == 0, "%ld blocks are still taken", blocks);
}

int main(void)
{
    static const struct {
        const char *keys;
        unsigned long changes;
    } changing[] = {{"vn", 1}, {"v+", 0}, {"vv+", 1}, {"v-", 1}, {"va", 1}, {"dy", 3}, {"vdy", 2}, {"vvvvvvvdy", 1}};

    setvbuf(stdout, NULL, _IOLBF, 0);
    try_starts();
    try_firmware();
    try_many();
    for (size_t at = 0; at < sizeof changing / sizeof *changing; at++) {
        try_memory(changing[at].keys);
        try_sets(changing[at].keys, changing[at].changes);
    }
    try_memory("dn");
    printf("%lu tried, %lu differ\n", tried, differ);
    return differ > 0;
}
