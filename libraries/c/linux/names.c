/* The names of variables (UEFI 2.10, 3.3), and UTF-8. */
#include "machine.h"

#include <stdio.h>
#include <string.h>

/* The value of a digit of the name of an entry, which are 0 to 9 and A to F, or -1. */
static int digit_of(char digit)
{
    if (digit >= '0' && digit <= '9')
        return digit - '0';
    if (digit >= 'A' && digit <= 'F')
        return digit - 'A' + 10;
    return -1;
}

bool is_entry_name(const char *name, size_t len, uint32_t *number)
{
    uint32_t value = 0;

    if (len != strlen("Boot0000") || memcmp(name, "Boot", 4) != 0)
        return false;
    for (size_t i = 4; i < len; i++) {
        int digit = digit_of(name[i]);
        if (digit < 0)
            return false;
        value = value * 16 + (uint32_t)digit;
    }
    if (number != NULL)
        *number = value;
    return true;
}

static bool is_name(const char *name, size_t len, const char *other)
{
    return len == strlen(other) && memcmp(name, other, len) == 0;
}

bool is_boot_name(const char *name, size_t len)
{
    return is_entry_name(name, len, NULL) || is_name(name, len, "BootOrder") || is_name(name, len, "BootNext") ||
           is_name(name, len, "Timeout");
}

/* What follows a family's front in the name of one of its entries or of its order, or NULL. */
static const char *tail_of(const char *name, const char *family)
{
    const char *tail = name + strlen(family);

    if (strncmp(name, family, strlen(family)) != 0)
        return NULL;
    if (strcmp(tail, "Order") == 0)
        return tail;
    for (size_t i = 0; i < 4; i++)
        if (digit_of(tail[i]) < 0)
            return NULL;
    return tail[4] == '\0' ? tail : NULL;
}

bool name_in_family(const char *name, const char *from, const char *to, char made[FAMILY_NAME_ROOM])
{
    const char *tail = tail_of(name, from);

    return tail != NULL && snprintf(made, FAMILY_NAME_ROOM, "%s%s", to, tail) < FAMILY_NAME_ROOM;
}

const char *shown_name(const struct bootkeep_machine *machine, const char *name, char made[FAMILY_NAME_ROOM])
{
    return name_in_family(name, BOOT_FAMILY, machine->family, made) ? made : name;
}

void entry_name(char name[BOOT_NAME_ROOM], uint32_t number)
{
    snprintf(name, BOOT_NAME_ROOM, "Boot%04X", (unsigned)(number & 0xffff));
}

/* How many bytes the character has that begins with this byte, or 0 if none does. */
static size_t character_len(uint8_t first)
{
    if (first < 0x80)
        return 1;
    if (first >= 0xc2 && first <= 0xdf)
        return 2;
    if (first >= 0xe0 && first <= 0xef)
        return 3;
    if (first >= 0xf0 && first <= 0xf4)
        return 4;
    return 0;
}

/* Whether the second byte may follow the first one, by which surrogates and longer forms than needed are left out. */
static bool may_follow(uint8_t first, uint8_t second)
{
    switch (first) {
    case 0xe0: return second >= 0xa0 && second <= 0xbf;
    case 0xed: return second >= 0x80 && second <= 0x9f;
    case 0xf0: return second >= 0x90 && second <= 0xbf;
    case 0xf4: return second >= 0x80 && second <= 0x8f;
    default: return second >= 0x80 && second <= 0xbf;
    }
}

bool is_utf8(const char *text, size_t len)
{
    const uint8_t *at = (const uint8_t *)text;

    for (size_t i = 0; i < len;) {
        size_t count = character_len(at[i]);
        if (count == 0 || count > len - i)
            return false;
        if (count > 1 && !may_follow(at[i], at[i + 1]))
            return false;
        for (size_t k = 2; k < count; k++)
            if ((at[i + k] & 0xc0) != 0x80)
                return false;
        i += count;
    }
    return true;
}
