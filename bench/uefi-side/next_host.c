/*
 * Tries the program next.c on the host, over firmware that fake.c brings along: what it shows, and what each key sets.
 * What differs is told, and the last line is `N tried, M differ`.
 */
#include "fake.h"

#include <efilib.h>
#include <stdio.h>
#include <string.h>

EFI_STATUS efi_main(EFI_HANDLE image, EFI_SYSTEM_TABLE *table);

static unsigned long tried, differ;

static void expect(bool holds, const char *what)
{
    tried++;
    if (holds)
        return;
    differ++;
    printf("bench/uefi: next: %s\n", what);
}

/* A machine with an entry, one that isn't there, and one that is no load option, and this key. */
static EFI_SYSTEM_TABLE *begin(const char *key)
{
    static const uint8_t option[] = {1, 0, 0, 0, 4, 0, 'A', 0, 0xf6, 0, 0, 0, 0x7f, 0xff, 4, 0};
    EFI_SYSTEM_TABLE *table = fake_begin(key);

    fake_put("Boot00AF", option, sizeof option);
    fake_put("Boot0003", "\x01", 1);
    fake_put("BootOrder", "\xaf\x00\x09\x00\x03\x00", 6);
    return table;
}

/* Whether BootNext is there, and names this entry. */
static bool is_next(const char *bytes)
{
    char variables[4096], line[64];

    fake_list(variables, sizeof variables);
    snprintf(line, sizeof line, "BootNext %s\n", bytes);
    return strstr(variables, line) != NULL;
}

static bool has_next(void)
{
    char variables[4096];

    fake_list(variables, sizeof variables);
    return strstr(variables, "BootNext") != NULL;
}

int main(void)
{
    EFI_SYSTEM_TABLE *table = begin("1");

    expect(efi_main(NULL, table) == EFI_SUCCESS && is_next("af00"), "the first digit doesn't set the first entry");
    expect(strstr(shown, "1 Boot00AF A\\00f6\r\n") != NULL, "an entry isn't shown");
    expect(strstr(shown, "2 Boot0009 isn't there\r\n") != NULL, "an entry that isn't there isn't told");
    expect(strstr(shown, "3 Boot0003 has no description: fault 0301\r\n") != NULL,
           "an entry that is no load option isn't told");
    expect(efi_main(NULL, begin("3")) == EFI_SUCCESS && is_next("0300"), "the third digit doesn't set the third entry");
    expect(efi_main(NULL, begin("4")) == EFI_SUCCESS && !has_next(), "a digit without an entry sets something");
    expect(efi_main(NULL, begin("0")) == EFI_SUCCESS && !has_next(), "the digit 0 sets something");
    expect(efi_main(NULL, begin("")) == EFI_SUCCESS && !has_next(), "Esc sets something");
    table = begin("1");
    fake.refused_set = 1;
    expect(efi_main(NULL, table) == EFI_WRITE_PROTECTED && !has_next(), "a change that is refused isn't answered");
    expect(strstr(shown, "BootNext isn't set: Write Protected") != NULL, "a change that is refused isn't told");
    expect(efi_main(NULL, fake_begin("1")) == EFI_NOT_FOUND && !has_next(), "BootOrder is taken for one that is there");
    table = begin("1");
    fake.refused_memory = 1;
    expect(efi_main(NULL, table) == EFI_SUCCESS && is_next("af00"), "a description without memory stops it");
    expect(blocks == 0, "blocks are still taken");
    printf("%lu tried, %lu differ\n", tried, differ);
    return differ > 0;
}
