/* What a machine is called, and the identity of its start: as crates/var_places and crates/machine_changes find them.
 */
#include "machine.h"

#include <ctype.h>
#include <errno.h>
#include <stdio.h>
#include <stdlib.h>
#include <string.h>

#define PRODUCT_UUID "/sys/class/dmi/id/product_uuid"
#define MACHINE_ID "/etc/machine-id"
#define BOOT_ID "/proc/sys/kernel/random/boot_id"

enum { UUID_LEN = 36, MACHINE_ID_LEN = 32, IDENTITY_MAX = 64, BOOT_ID_MAX = 65 };

/* UUIDs that makers of boards leave there who give none, each in the two orders of bytes in which Linux tells them. */
static const char *const shared_uuids[] = {
    "03000200-0400-0500-0006-000700080009", "00020003-0004-0005-0006-000700080009",
    "12345678-1234-5678-90ab-cddeefaabbcc", "78563412-3412-7856-90ab-cddeefaabbcc",
    "4c4c4544-0000-2010-8020-80c04f202020", "44454c4c-0000-1020-8020-80c04f202020",
    "00010203-0405-0607-0809-0a0b0c0d0e0f", "03020100-0504-0706-0809-0a0b0c0d0e0f",
};

/*
 * The text of the file, without blanks and line feeds at its end, in `text` of room for IDENTITY_MAX + 2. It is empty
 * if there is no file, or one that is too long. 0, or a number of errno.
 */
static int read_text(const char *path, size_t limit, char *text)
{
    struct bytes bytes;
    int error = read_any(path, limit, &bytes);
    size_t len = bytes.len;

    text[0] = '\0';
    if (error == READ_TOO_MUCH || error == ENOENT)
        return 0;
    if (error != READ_DONE)
        return error;
    while (len > 0 && isspace(bytes.at[len - 1]))
        len--;
    if (is_utf8((const char *)bytes.at, len) && memchr(bytes.at, 0, len) == NULL) {
        memcpy(text, bytes.at, len);
        text[len] = '\0';
    }
    bytes_free(&bytes);
    return 0;
}

/* Makes the text of a UUID that of its bytes, in lower case: false if it is none. */
static bool make_uuid(char *text)
{
    if (strlen(text) != UUID_LEN)
        return false;
    for (size_t i = 0; i < UUID_LEN; i++) {
        const bool is_hyphen = i == 8 || i == 13 || i == 18 || i == 23;

        if (is_hyphen ? text[i] != '-' : !isxdigit((unsigned char)text[i]))
            return false;
        text[i] = (char)tolower((unsigned char)text[i]);
    }
    return true;
}

/* Whether the UUID has no digit but zeros, or none but Fs. */
static bool is_blank(const char *uuid)
{
    return strspn(uuid, "0-") == UUID_LEN || strspn(uuid, "f-") == UUID_LEN;
}

/* Whether many machines have the UUID. */
static bool is_shared(const char *uuid)
{
    for (size_t i = 0; i < sizeof shared_uuids / sizeof *shared_uuids; i++)
        if (strcmp(uuid, shared_uuids[i]) == 0)
            return true;
    return is_blank(uuid);
}

/* Whether the text is the identity of a system: 32 digits in lower case, which aren't all 0. */
static bool is_machine_id(const char *text)
{
    return strlen(text) == MACHINE_ID_LEN && strspn(text, "0123456789abcdef") == MACHINE_ID_LEN &&
           strspn(text, "0") != MACHINE_ID_LEN;
}

/* Names the machine by the path of its folder or its variable file, from the root on. */
static uint32_t name_by_path(struct bootkeep_machine *machine, char **name)
{
    const uint32_t at = BOOTKEEP_MACHINE_AT_NAME;

    *name = realpath(machine->place, NULL);
    if (*name == NULL)
        return call_system(machine, at, machine->place, errno);
    return BOOTKEEP_DONE;
}

/* Names the machine that this runs on, of which the system tells this as its UUID, if it tells one. */
static uint32_t name_by_system(struct bootkeep_machine *machine, struct identity *identity, char *uuid)
{
    const bool is_uuid = make_uuid(uuid);
    char id[IDENTITY_MAX + 2], name[IDENTITY_MAX + 16] = "";
    char *path;
    uint32_t status = name_by_path(machine, &path);

    if (path == NULL)
        return status;
    if (read_text(MACHINE_ID, IDENTITY_MAX, id) == ENOMEM) {
        free(path);
        return call_no_memory(machine);
    }
    if (is_uuid && !is_shared(uuid))
        snprintf(name, sizeof name, "%s", uuid);
    else if (is_machine_id(id))
        snprintf(name, sizeof name, "machine-id:%s", id);
    identity->name = strdup(name[0] == '\0' ? path : name);
    identity->former = strdup(is_uuid && !is_blank(uuid) ? uuid : path);
    free(path);
    if (identity->name == NULL || identity->former == NULL)
        return call_no_memory(machine);
    return BOOTKEEP_DONE;
}

/* What the machine is called, whatever family of entries is meant. */
static uint32_t read_name(struct bootkeep_machine *machine, struct identity *identity)
{
    char uuid[IDENTITY_MAX + 2];
    int error;

    if (machine->given_name != NULL) {
        identity->name = strdup(machine->given_name);
        return identity->name == NULL ? call_no_memory(machine) : BOOTKEEP_DONE;
    }
    if (!is_on_efivarfs(machine->place))
        return name_by_path(machine, &identity->name);
    error = read_text(PRODUCT_UUID, IDENTITY_MAX, uuid);
    if (error == ENOMEM)
        return call_no_memory(machine);
    if (error != 0) {
        identity->unread = error;
        return name_by_path(machine, &identity->name);
    }
    return name_by_system(machine, identity, uuid);
}

/* Appends the family to the machine's name, so that no journal is taken for that of another family. None of them ever
 * had another name. */
static uint32_t add_family(struct bootkeep_machine *machine, struct identity *identity)
{
    const size_t room = strlen(identity->name) + strlen(machine->family) + 2;
    char *made = malloc(room);

    if (made == NULL)
        return call_no_memory(machine);
    snprintf(made, room, "%s %s", identity->name, machine->family);
    free(identity->name);
    free(identity->former);
    identity->name = made;
    identity->former = NULL;
    if (strlen(made) <= BOOTKEEP_MACHINE_MAX)
        return BOOTKEEP_DONE;
    return call_refused(machine, BOOTKEEP_MACHINE_AT_NAME, machine->place, BOOTKEEP_FAULT_MACHINE_BAD_NAME);
}

uint32_t identity_read(struct bootkeep_machine *machine, struct identity *identity)
{
    uint32_t status;

    *identity = (struct identity){NULL, NULL, 0, ""};
    status = read_name(machine, identity);
    if (status != BOOTKEEP_DONE || strcmp(machine->family, BOOT_FAMILY) == 0)
        return status;
    return add_family(machine, identity);
}

bool is_start(const char *text)
{
    size_t len = strlen(text);

    if (len == 0 || len >= START_ROOM)
        return false;
    for (size_t i = 0; i < len; i++)
        if (text[i] < 0x21 || text[i] > 0x7e)
            return false;
    return true;
}

uint32_t identity_start(struct bootkeep_machine *machine, struct identity *identity)
{
    const uint32_t at = BOOTKEEP_MACHINE_AT_NAME;
    char text[BOOT_ID_MAX + 2];
    int error;

    if (machine->given_start != NULL) {
        snprintf(identity->start, sizeof identity->start, "%s", machine->given_start);
        return BOOTKEEP_DONE;
    }
    error = read_text(BOOT_ID, BOOT_ID_MAX, text);
    if (error != 0)
        return call_system(machine, at, BOOT_ID, error);
    if (!is_start(text))
        return call_refused(machine, at, BOOT_ID, BOOTKEEP_FAULT_MACHINE_BAD_START);
    memcpy(identity->start, text, strlen(text) + 1);
    return BOOTKEEP_DONE;
}

void identity_free(struct identity *identity)
{
    free(identity->name);
    free(identity->former);
    identity->name = NULL;
    identity->former = NULL;
}
