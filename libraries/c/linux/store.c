/*
 * An emulator's variable file, as edk2 writes it. What it has, and what it is with other variables, is what
 * bootkeep_store_vars and bootkeep_store_with answer. Its records are gone over here for the variables that no set can
 * hold, and for what isn't erased after the last record, as crates/var_stores does it.
 */
#include "machine.h"

#include <stdio.h>
#include <string.h>

/* Where a volume's header states its own length, and the parts of the store's header, which comes after it. */
enum { HEADER_LEN_AT = 48, STORE_SIZE_AT = 16, STORE_HEADER_LEN = 28 };
/* Where the fields of a record's header are, and how many bytes it has. */
enum { STATE_AT = 2, ATTRIBUTES_AT = 4, NAME_LEN_AT = 36, VALUE_LEN_AT = 40, VENDOR_AT = 44, RECORD_HEADER_LEN = 60 };
/* The states of a record whose variable is there, or is being replaced, and what erased memory reads as. */
enum { ADDED = 0x3f, REPLACED = 0x3e, ERASED = 0xff };

/* The GUID of the standard's vendor (UEFI 2.10, 3.3), as it is stored. */
static const uint8_t global_vendor[] = {0x61, 0xdf, 0xe4, 0x8b, 0xca, 0x93, 0xd2, 0x11,
                                        0xaa, 0x0d, 0x00, 0xe0, 0x98, 0x03, 0x2b, 0x8c};

/* The records of a store, and the bytes after them up to its end. */
struct area {
    const uint8_t *at;
    size_t len;
};

/* A record. */
struct record {
    const uint8_t *at;
    size_t name_len;
    size_t value_len;
    /* How many bytes it has in all. */
    size_t len;
};

static size_t number_at(const uint8_t *at)
{
    return (size_t)at[0] | (size_t)at[1] << 8 | (size_t)at[2] << 16 | (size_t)at[3] << 24;
}

/* The area of records of a file that bootkeep_store_vars takes. */
static struct area area_of(struct bytes file)
{
    const size_t header = (size_t)file.at[HEADER_LEN_AT] | (size_t)file.at[HEADER_LEN_AT + 1] << 8;
    const size_t size = number_at(file.at + header + STORE_SIZE_AT);

    return (struct area){file.at + header + STORE_HEADER_LEN, size - STORE_HEADER_LEN};
}

/* Whether the header of a record wasn't written to its end: then it has neither a name nor a value. */
static bool is_unfinished(const uint8_t *at)
{
    return at[STATE_AT] == ERASED || number_at(at + ATTRIBUTES_AT) == UINT32_MAX ||
           number_at(at + NAME_LEN_AT) == UINT32_MAX || number_at(at + VALUE_LEN_AT) == UINT32_MAX;
}

/* The record by which the area begins: false if none begins there and ends in it. */
static bool first_record(struct area area, struct record *record)
{
    size_t content;

    if (area.len < RECORD_HEADER_LEN || area.at[0] != 0xaa || area.at[1] != 0x55)
        return false;
    *record = (struct record){area.at, 0, 0, RECORD_HEADER_LEN};
    if (is_unfinished(area.at))
        return true;
    record->name_len = number_at(area.at + NAME_LEN_AT);
    record->value_len = number_at(area.at + VALUE_LEN_AT);
    if (record->name_len > area.len || record->value_len > area.len)
        return false;
    content = record->name_len + record->value_len;
    record->len += content + (4 - content % 4) % 4;
    return record->len <= area.len;
}

static struct area after(struct area area, const struct record *record)
{
    return (struct area){area.at + record->len, area.len - record->len};
}

/* The name of the boot manager's variable that the record is one of, if it is there: false if it is of no such one. */
static bool is_of_boot_manager(const struct record *record, char name[BOOT_NAME_ROOM])
{
    const uint8_t state = record->at[STATE_AT], *units = record->at + RECORD_HEADER_LEN;
    const size_t len = record->name_len / 2;

    if ((state != ADDED && state != REPLACED) ||
        memcmp(record->at + VENDOR_AT, global_vendor, sizeof global_vendor) != 0)
        return false;
    if (record->name_len % 2 != 0 || len == 0 || len > BOOT_NAME_ROOM)
        return false;
    for (size_t i = 0; i < len; i++) {
        if (units[2 * i + 1] != 0 || (units[2 * i] == 0) != (i + 1 == len))
            return false;
        name[i] = (char)units[2 * i];
    }
    return is_boot_name(name, len - 1);
}

/* Leaves out those of the boot manager's variables that no set can hold. */
static uint32_t leave_out(struct bootkeep_machine *machine, struct variables *variables)
{
    struct area rest = area_of(variables->file);
    struct record record;
    uint32_t status = BOOTKEEP_DONE;

    for (; status == BOOTKEEP_DONE && first_record(rest, &record); rest = after(rest, &record)) {
        char name[BOOT_NAME_ROOM];
        struct bytes value;
        uint32_t found;

        if (!is_of_boot_manager(&record, name) || (record.value_len > 0 && record.value_len <= BOOTKEEP_DATA_MAX) ||
            texts_have(&variables->left_out, name))
            continue;
        found = set_get(variables->kept, name, &value);
        bytes_free(&value);
        if (found == BOOTKEEP_NO_MEMORY)
            return call_no_memory(machine);
        if (found == BOOTKEEP_ABSENT)
            status = variables_leave_out(machine, variables, name, name,
                                         record.value_len == 0 ? "it has no value"
                                                               : "its value has more than 1048576 bytes");
    }
    return status;
}

/* How many records are among the bytes: after each the next one is looked for, and where there is none four bytes on.
 */
static size_t count_records(struct area rest)
{
    struct record record;
    size_t count = 0;

    while (rest.len > 0)
        if (first_record(rest, &record)) {
            rest = after(rest, &record);
            count++;
        } else {
            const size_t skipped = rest.len < 4 ? rest.len : 4;

            rest = (struct area){rest.at + skipped, rest.len - skipped};
        }
    return count;
}

/* Where something isn't erased in what comes after the last record, or how many bytes that has if all is. The first
 * byte of a record alone is what edk2 leaves if it is cut off while it writes one. */
static size_t find_damage(struct area rest)
{
    const size_t begun = rest.len > 0 && rest.at[0] == 0xaa ? 1 : 0;
    size_t place = begun;

    while (place < rest.len && rest.at[place] == ERASED)
        place++;
    return place < rest.len && begun == 1 ? 0 : place;
}

/* Refuses what isn't erased after the last record, or tells of it. */
static uint32_t look_at_rest(struct bootkeep_machine *machine, bool is_change, struct bytes file)
{
    struct area rest = area_of(file);
    struct record record;
    char text[128];
    size_t damage, place;

    while (first_record(rest, &record))
        rest = after(rest, &record);
    damage = find_damage(rest);
    if (damage == rest.len)
        return BOOTKEEP_DONE;
    place = (size_t)(rest.at - file.at) + damage;
    if (is_change) {
        reason_set(&machine->outcome.why, machine->place, 0, BOOTKEEP_MACHINE_FAULT_DAMAGED);
        machine->outcome.why.refusal.place = place;
        return call_ended(machine, BOOTKEEP_MACHINE_AT_VARIABLES, BOOTKEEP_REFUSED, BOOTKEEP_MACHINE_LEFT_NOTHING);
    }
    snprintf(text, sizeof text,
             "its store of variables is damaged at byte %zu, and there may have been more: %zu"
             " records can be read after it",
             place, count_records(rest));
    return remark(machine, machine->place, text) ? BOOTKEEP_DONE : call_no_memory(machine);
}

/* Reads the bytes of the file, and what it has, as a machine keeps it. */
static uint32_t read_file(struct bootkeep_machine *machine, struct bytes *file, struct bytes *kept)
{
    const uint32_t at = BOOTKEEP_MACHINE_AT_VARIABLES;
    struct bootkeep_refusal refusal;
    int what = read_regular(machine->place, READ_MAX, file);
    uint32_t status;

    if (what == READ_IRREGULAR)
        return call_refused(machine, at, machine->place, BOOTKEEP_MACHINE_FAULT_IRREGULAR);
    if (what == READ_TOO_MUCH)
        return call_refused(machine, at, machine->place, BOOTKEEP_MACHINE_FAULT_TOO_MUCH);
    if (what != READ_DONE)
        return call_system(machine, at, machine->place, what);
    ANSWER(status, kept, bootkeep_store_vars(file->at, file->len, INTO(kept), &refusal));
    return status == BOOTKEEP_DONE ? status : call_answered(machine, at, machine->place, status, &refusal);
}

uint32_t store_check(struct bootkeep_machine *machine)
{
    struct bytes file, kept = {NULL, 0};
    uint32_t status = read_file(machine, &file, &kept);

    bytes_free(&kept);
    bytes_free(&file);
    return status;
}

/* Takes BootKeepState out of what was read, which only a set file has. */
static uint32_t take_out_state(struct bootkeep_machine *machine, struct variables *variables)
{
    static const char name[] = "BootKeepState";
    struct bootkeep_refusal refusal;
    struct bytes value;
    uint32_t status = set_get(variables->kept, name, &value);

    bytes_free(&value);
    if (status == BOOTKEEP_ABSENT)
        return BOOTKEEP_DONE;
    if (status == BOOTKEEP_DONE)
        status = set_put(&variables->kept, name, NULL, 0, &refusal);
    if (status != BOOTKEEP_DONE)
        return call_no_memory(machine);
    return variables_leave_out(machine, variables, name, name, "it belongs into a set file, and firmware refuses it");
}

uint32_t store_read(struct bootkeep_machine *machine, bool is_change, struct variables *variables)
{
    uint32_t status = read_file(machine, &variables->file, &variables->kept);

    if (status == BOOTKEEP_DONE)
        status = look_at_rest(machine, is_change, variables->file);
    if (status == BOOTKEEP_DONE)
        status = take_out_state(machine, variables);
    if (status == BOOTKEEP_DONE && set_data_of(variables->kept, &variables->data) != BOOTKEEP_DONE)
        status = call_no_memory(machine);
    return status == BOOTKEEP_DONE ? leave_out(machine, variables) : status;
}

uint32_t store_with(struct bytes file, struct bytes kept, const struct texts *left_out, struct bytes *made,
                    struct bootkeep_refusal *refusal)
{
    struct bytes set;
    uint32_t status = bytes_copy(&set, kept.at, kept.len) ? BOOTKEEP_DONE : BOOTKEEP_NO_MEMORY;

    *made = (struct bytes){NULL, 0};
    /* What stands for a variable that no set can hold isn't to be written over it. */
    for (size_t i = 0; status == BOOTKEEP_DONE && left_out != NULL && i < left_out->count; i++)
        status = set_put(&set, left_out->at[i], NULL, 0, refusal);
    if (status == BOOTKEEP_DONE)
        ANSWER(status, made, bootkeep_store_with(file.at, file.len, set.at, set.len, INTO(made), refusal));
    bytes_free(&set);
    return status;
}
