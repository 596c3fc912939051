/*
 * Records of changes in the folder `history` of the state folder, by which they are undone: as crates/boot_history
 * keeps them. Of each machine the last sixteen stay.
 */
#include "machine.h"

#include <dirent.h>
#include <errno.h>
#include <inttypes.h>
#include <stdio.h>
#include <stdlib.h>
#include <string.h>
#include <time.h>
#include <unistd.h>

#define LIBRARY "libbootkeep-linux"
#define NUMBER_LIMIT UINT64_C(9999999999)

enum {
    DIGITS = 10,
    KEPT_MAX = 16,
    MAGIC_LEN = 4,
    LEN_SIZE = 4,
    HEAD_MAX = MAGIC_LEN + LEN_SIZE + BOOTKEEP_MACHINE_MAX
};

/* Numbers of records, which rise. */
struct numbers {
    uint64_t *at;
    size_t count;
};

/* Whose a record is. */
enum owner { OWNER_OWN, OWNER_OTHER, OWNER_UNKNOWN };

static bool path_of_history(const struct bootkeep_machine *machine, char path[PATH_MAX])
{
    return path_join(path, machine->state, "history");
}

static bool path_of_record(const struct bootkeep_machine *machine, uint64_t number, char path[PATH_MAX])
{
    char folder[PATH_MAX], name[DIGITS + 12];

    snprintf(name, sizeof name, "%010" PRIu64, number);
    return path_of_history(machine, folder) && path_join(path, folder, name);
}

static int compare_numbers(const void *one, const void *other)
{
    const uint64_t a = *(const uint64_t *)one, b = *(const uint64_t *)other;

    return a < b ? -1 : a > b;
}

/* Adds the number of the record whose file has this name, if it is ten digits: false if memory is refused. */
static bool add_number(struct numbers *numbers, const char *name)
{
    uint64_t *grown;

    if (strlen(name) != DIGITS || strspn(name, "0123456789") != DIGITS)
        return true;
    grown = realloc(numbers->at, (numbers->count + 1) * sizeof *grown);
    if (grown == NULL)
        return false;
    numbers->at = grown;
    numbers->at[numbers->count++] = strtoull(name, NULL, 10);
    return true;
}

/* The numbers of the records that are kept, of whatever machine. There are none if the folder isn't there. */
static uint32_t read_numbers(struct bootkeep_machine *machine, struct numbers *numbers)
{
    const uint32_t at = BOOTKEEP_MACHINE_AT_RECORD;
    char path[PATH_MAX];
    struct dirent *entry;
    DIR *folder;
    int error;

    *numbers = (struct numbers){NULL, 0};
    if (!path_of_history(machine, path))
        return call_system(machine, at, machine->state, ENAMETOOLONG);
    folder = opendir(path);
    if (folder == NULL)
        return errno == ENOENT ? BOOTKEEP_DONE : call_system(machine, at, path, errno);
    while (errno = 0, (entry = readdir(folder)) != NULL)
        if (!add_number(numbers, entry->d_name)) {
            closedir(folder);
            return call_no_memory(machine);
        }
    error = errno;
    closedir(folder);
    if (error != 0)
        return call_system(machine, at, path, error);
    if (numbers->count > 1)
        qsort(numbers->at, numbers->count, sizeof *numbers->at, compare_numbers);
    return BOOTKEEP_DONE;
}

/* Whose the record is whose file begins with these bytes. */
static enum owner owner_of(struct bytes head, const char *name)
{
    size_t len;

    if (head.len < MAGIC_LEN + LEN_SIZE || memcmp(head.at, "BKH1", MAGIC_LEN) != 0)
        return OWNER_UNKNOWN;
    len = (size_t)head.at[4] | (size_t)head.at[5] << 8 | (size_t)head.at[6] << 16 | (size_t)head.at[7] << 24;
    if (len > head.len - MAGIC_LEN - LEN_SIZE)
        return OWNER_UNKNOWN;
    if (len == strlen(name) && memcmp(head.at + MAGIC_LEN + LEN_SIZE, name, len) == 0)
        return OWNER_OWN;
    return OWNER_OTHER;
}

int record_remove(const struct bootkeep_machine *machine, uint64_t number)
{
    char path[PATH_MAX], folder[PATH_MAX];

    if (!path_of_record(machine, number, path) || !path_of_history(machine, folder))
        return ENAMETOOLONG;
    return unlink(path) != 0 ? errno : sync_folder(folder);
}

/*
 * Removes the oldest records of the machine, so that with the new one as many as are kept are left. One that can't be
 * read or removed stays, and the next time it is tried again.
 */
static void remove_oldest(const struct session *session, struct numbers *numbers)
{
    size_t own = 0;

    for (size_t i = 0; i < numbers->count; i++) {
        char path[PATH_MAX];
        struct bytes head;

        if (!path_of_record(session->machine, numbers->at[i], path) || read_front(path, HEAD_MAX, &head) != 0)
            continue;
        if (owner_of(head, session->identity.name) == OWNER_OWN)
            numbers->at[own++] = numbers->at[i];
        bytes_free(&head);
    }
    for (size_t i = 0; i + (KEPT_MAX - 1) < own; i++)
        if (record_remove(session->machine, numbers->at[i]) != 0)
            continue;
}

/* The words that the record of a call has, each ended by a zero. */
static bool words_of(const struct bootkeep_machine *machine, const char *call, struct bytes *words)
{
    struct bytes library = {(uint8_t *)LIBRARY, sizeof LIBRARY}, name = {(uint8_t *)call, strlen(call) + 1};

    return machine->words.len > 0 ? bytes_copy(words, machine->words.at, machine->words.len)
                                  : bytes_join(words, library, name);
}

/* The bytes of the record. */
static uint32_t make_record(struct session *session, struct bytes before, struct bytes after, const char *call,
                            struct bytes *record)
{
    const char *name = session->identity.name;
    struct bootkeep_refusal refusal;
    struct timespec now;
    struct bytes words;
    uint32_t status;

    if (clock_gettime(CLOCK_REALTIME, &now) != 0)
        return call_system(session->machine, BOOTKEEP_MACHINE_AT_RECORD, "the clock", errno);
    if (!words_of(session->machine, call, &words))
        return call_no_memory(session->machine);
    ANSWER(status, record,
           bootkeep_record_make((const uint8_t *)name, strlen(name), (uint64_t)now.tv_sec, before.at, before.len,
                                after.at, after.len, words.at, words.len, INTO(record), &refusal));
    bytes_free(&words);
    if (status != BOOTKEEP_DONE)
        return call_answered(session->machine, BOOTKEEP_MACHINE_AT_RECORD, NULL, status, &refusal);
    return BOOTKEEP_DONE;
}

/* Writes the record of this number. */
static uint32_t write_record(struct bootkeep_machine *machine, uint64_t number, struct bytes record)
{
    const uint32_t at = BOOTKEEP_MACHINE_AT_RECORD;
    char path[PATH_MAX], folder[PATH_MAX];
    int error;

    if (!path_of_record(machine, number, path) || !path_of_history(machine, folder))
        return call_system(machine, at, machine->state, ENAMETOOLONG);
    if (record.len > READ_MAX)
        return call_refused(machine, at, path, BOOTKEEP_MACHINE_FAULT_TOO_LONG);
    error = replace_file(path, record);
    if (error == 0)
        error = sync_folder(folder);
    return error == 0 ? BOOTKEEP_DONE : call_system(machine, at, path, error);
}

/* Gives the record a number, writes it, and removes the oldest ones. */
static uint32_t push(struct session *session, struct bytes record, uint64_t *number)
{
    struct bootkeep_machine *machine = session->machine;
    char folder[PATH_MAX];
    struct numbers numbers;
    uint32_t status;
    int error;

    if (!path_of_history(machine, folder))
        return call_system(machine, BOOTKEEP_MACHINE_AT_RECORD, machine->state, ENAMETOOLONG);
    error = make_folder(folder, machine->state);
    if (error != 0)
        return call_system(machine, BOOTKEEP_MACHINE_AT_RECORD, folder, error);
    status = read_numbers(machine, &numbers);
    if (status == BOOTKEEP_DONE) {
        const uint64_t last = numbers.count == 0 ? 0 : numbers.at[numbers.count - 1];

        if (last >= NUMBER_LIMIT)
            status = call_refused(machine, BOOTKEEP_MACHINE_AT_RECORD, folder, BOOTKEEP_MACHINE_FAULT_TOO_LONG);
        else
            status = write_record(machine, last + 1, record);
        *number = status == BOOTKEEP_DONE ? last + 1 : 0;
    }
    if (status == BOOTKEEP_DONE)
        remove_oldest(session, &numbers);
    free(numbers.at);
    return status;
}

uint32_t record_keep(struct session *session, struct bytes before, struct bytes after, const char *call,
                     uint64_t *number)
{
    struct bytes record = {NULL, 0};
    uint32_t status = make_record(session, before, after, call, &record);

    *number = 0;
    if (status == BOOTKEEP_DONE)
        status = push(session, record, number);
    bytes_free(&record);
    return status;
}

/* Reads the record of this number, if it is the machine's: BOOTKEEP_ABSENT if it is another one's. */
static uint32_t read_record(struct session *session, uint64_t number, struct kept_record *record)
{
    const uint32_t at = BOOTKEEP_MACHINE_AT_RECORD;
    struct bootkeep_machine *machine = session->machine;
    struct bootkeep_record_parts parts = {.size = sizeof parts};
    struct bootkeep_refusal refusal;
    struct bytes head;
    uint32_t status;
    int what;

    *record = (struct kept_record){.number = number};
    if (!path_of_record(machine, number, record->path))
        return call_system(machine, at, machine->state, ENAMETOOLONG);
    what = read_front(record->path, HEAD_MAX, &head);
    if (what == 0 && owner_of(head, session->identity.name) == OWNER_OTHER) {
        bytes_free(&head);
        return BOOTKEEP_ABSENT;
    }
    bytes_free(&head);
    if (what == 0)
        what = read_regular(record->path, READ_MAX, &record->bytes);
    if (what == READ_IRREGULAR)
        return call_refused(machine, at, record->path, BOOTKEEP_MACHINE_FAULT_IRREGULAR);
    if (what == READ_TOO_MUCH)
        return call_refused(machine, at, record->path, BOOTKEEP_MACHINE_FAULT_TOO_MUCH);
    if (what != 0)
        return call_system(machine, at, record->path, what);
    status = bootkeep_record_parts(record->bytes.at, record->bytes.len, &parts, &refusal);
    return status == BOOTKEEP_DONE ? status : call_answered(machine, at, record->path, status, &refusal);
}

uint32_t records_visit(struct session *session, record_visit *visit, void *with)
{
    struct kept_record *record = calloc(1, sizeof *record);
    struct numbers numbers = {NULL, 0};
    uint32_t status = record == NULL ? call_no_memory(session->machine) : read_numbers(session->machine, &numbers);

    if (status == BOOTKEEP_DONE)
        status = BOOTKEEP_ABSENT;
    for (size_t i = numbers.count; status == BOOTKEEP_ABSENT && i > 0; i--) {
        status = read_record(session, numbers.at[i - 1], record);
        if (status == BOOTKEEP_DONE)
            status = visit(session, record, with);
        bytes_free(&record->bytes);
    }
    free(numbers.at);
    free(record);
    return status;
}

/* Removes the record if its change isn't made. Only the newest one is looked at. */
static uint32_t forget_one(struct session *session, const struct kept_record *record, void *with)
{
    const struct bytes *now = (const struct bytes *)with;
    struct bootkeep_refusal refusal;
    uint32_t standing = BOOTKEEP_STANDING_CHANGED;

    if (bootkeep_record_standing(record->bytes.at, record->bytes.len, now->at, now->len, &standing, &refusal) ==
            BOOTKEEP_DONE &&
        standing == BOOTKEEP_STANDING_NOT_MADE && record_remove(session->machine, record->number) != 0)
        return BOOTKEEP_MACHINE_SYSTEM;
    return BOOTKEEP_DONE;
}

void record_forget_unmade(struct session *session, struct bytes now)
{
    /* If it can't be removed, an undo passes it over. */
    (void)records_visit(session, forget_one, &now);
}
